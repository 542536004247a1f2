//! Frames with what they write, known from how they were made.

use super::Told;
use crate::groups::captures::Parts;
use crate::groups::outcome::with_set;
use crate::groups::requests::words;
use crate::groups::several::{self, WRITABLE};
use crate::random::Random;
use reference::items::{with_register, ITEMS};
use reference::modbus::with_crc;

/// A frame, and the items that it writes with their values.
#[derive(Clone)]
pub struct Recorded {
    pub frame: Vec<u8>,
    pub writes: Vec<(u32, i32)>,
}

impl Recorded {
    /// A frame that writes nothing.
    pub fn idle(frame: Vec<u8>) -> Recorded {
        let writes = vec![];
        Recorded { frame, writes }
    }
}

/// A write that is accepted at this address.
pub fn write(random: &mut Random, address: u8, (start, quantity): (u16, usize)) -> Recorded {
    let values = several::good(random, start, quantity);
    let writes = values.iter().zip(start..).map(|(value, register)| {
        let item = with_register(register).expect("a writable register is an item's");
        (item as u32, i32::from(*value as i16))
    });
    Recorded {
        frame: several::by_either(random, address, start, &values),
        writes: writes.collect(),
    }
}

/// So many short frames for address 1, about half of them writes that are accepted.
pub fn some(random: &mut Random, number: usize) -> Vec<Recorded> {
    (0..number).map(|_| one(random)).collect()
}

fn one(random: &mut Random) -> Recorded {
    let span = random.pick(&WRITABLE);
    let frame = match random.below(12) {
        0 => words(1, 0x03, 0, 20),
        1 => words(1, 0x08, 0, 0x1F34),
        2 => several::accepted(random, 2),
        // Refused for the value, and for the register.
        3 => words(1, 0x06, span.0, 0x7FFF),
        4 => words(1, 0x06, 0, 0),
        5 => with_crc(vec![1, 0x07]),
        6 => vec![random.byte()],
        _ => return write(random, 1, span),
    };
    Recorded::idle(frame)
}

/// The parts of a well formed capture of these frames.
pub fn parts(recorded: &[Recorded]) -> Parts {
    let frames: Vec<Vec<u8>> = recorded.iter().map(|one| one.frame.clone()).collect();
    Parts::of(&frames)
}

/// The table that a playback of these frames leaves: the start values and what is written over them,
/// with the alarm states that are true then.
pub fn left_by(recorded: &[Recorded]) -> Vec<i32> {
    let start: Vec<i32> = ITEMS.iter().map(|row| row.start).collect();
    let writes = recorded.iter().flat_map(|one| &one.writes);
    let items: Vec<(usize, i32)> = writes
        .map(|(item, value)| (*item as usize, *value))
        .collect();
    with_set(&start, &items)
}

/// What a well formed capture of these frames tells of an item.
pub fn due(recorded: &[Recorded], item: u32) -> Told {
    for (one, records) in recorded.iter().rev().zip(1..) {
        if let Some((_, value)) = one.writes.iter().find(|(written, _)| *written == item) {
            return Told::Found(*value, records);
        }
    }
    Told::Never(recorded.len())
}
