//! The words of a command: options with a number first, then all the rest.

use std::time::{SystemTime, UNIX_EPOCH};

pub struct Words(Vec<String>);

impl Words {
    /// Those that this program was started with.
    pub fn given() -> Words {
        Words(std::env::args().skip(1).collect())
    }

    /// Takes an option and its number out, where it stands among those in front.
    pub fn number(&mut self, option: &str) -> Option<u64> {
        let mut options = self.0.chunks(2).take_while(|two| two[0].starts_with("--"));
        let place = 2 * options.position(|two| two[0] == option)?;
        let number = self.0.get(place + 1).and_then(|word| word.parse().ok());
        let number = number.unwrap_or_else(|| panic!("{option} takes a whole number"));
        self.0.drain(place..place + 2);
        Some(number)
    }

    /// The seed, that of the clock where none is given.
    pub fn seed(&mut self) -> u64 {
        self.number("--seed").unwrap_or_else(|| {
            let since = SystemTime::now().duration_since(UNIX_EPOCH);
            since.map_or(0, |time| time.as_micros() as u64)
        })
    }

    /// What is left, at least one word.
    pub fn rest(self, usage: &str) -> Vec<String> {
        assert!(!self.0.is_empty(), "{usage}");
        self.0
    }
}
