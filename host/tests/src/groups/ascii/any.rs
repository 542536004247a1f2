use super::{handed, messages};
use crate::compare::Compare;
use crate::failure::Checked;
use crate::groups::{requests, several};
use crate::random::Random;
use reference::ascii::{in_characters, line_of};

/// What is between colon and end of a right line, CR and LF.
fn between(line: &[u8]) -> std::ops::Range<usize> {
    1..line.len() - 2
}

/// A character that is no hexadecimal one in upper case, and no colon.
fn bad_character(random: &mut Random) -> u8 {
    match random.below(4) {
        0 => random.pick(b"/;<=>?@GHgh`abcdef"),
        1 => random.pick(b"\0\r\n \x7F\x80\xFF"),
        2 => random.pick(b"0123456789ABCDEF:\r\n") | 0x80,
        _ => loop {
            let character = random.byte();
            if !matches!(character, b'0'..=b':' | b'A'..=b'F') {
                return character;
            }
        },
    }
}

/// A line, whatever its LRC, with something that makes it none.
pub fn no_line(random: &mut Random, line: &[u8]) -> Vec<u8> {
    let mut spoiled = line.to_vec();
    let place = between(line).start + random.below(between(line).len());
    let length = line.len();
    match random.below(8) {
        0 => spoiled.retain(|character| *character != b':'),
        1 => spoiled.truncate(length - 1 - random.below(2)),
        2 => spoiled.push(bad_character(random)),
        3 => spoiled.swap(length - 2, length - 1),
        4 => spoiled.insert(place, random.pick(b"0123456789ABCDEF")),
        5 => {
            spoiled.remove(place);
        }
        6 => spoiled.push(b':'),
        _ => spoiled[place] = bad_character(random),
    }
    spoiled
}

/// A line of a message that is mostly right, half of the time with something that has happened to it.
pub fn any_line(random: &mut Random, address: u8) -> Vec<u8> {
    let message = match random.below(4) {
        0 => {
            let frame = several::any_request(random, address);
            frame[..frame.len() - 2].to_vec()
        }
        1 => random.some_bytes(260),
        _ => {
            let some = messages(random, address);
            some[random.below(some.len())].clone()
        }
    };
    let line = line_of(message);
    match random.below(8) {
        0 if line.len() > 5 => no_line(random, &line),
        1 => spoiled(random, line),
        2 => [junk(random), line].concat(),
        3 => [line, junk(random)].concat(),
        _ => line,
    }
}

/// Bytes that may stand before or behind a line, now and then a line themselves.
fn junk(random: &mut Random) -> Vec<u8> {
    match random.below(3) {
        0 => random.some_bytes(40),
        1 => in_characters(&random.some_bytes(8)),
        _ => (0..random.below(300))
            .map(|_| random.pick(b":0123456789ABCDEFabcdef\r\n"))
            .collect(),
    }
}

/// Some characters of a line are others.
fn spoiled(random: &mut Random, mut line: Vec<u8>) -> Vec<u8> {
    for _ in 0..1 + random.below(3) {
        let place = random.below(line.len());
        line[place] = match random.below(3) {
            0 => random.byte(),
            1 => line[place] ^ 1 << random.below(8),
            _ => random.pick(b"0123456789ABCDEF"),
        };
    }
    line
}

/// Any line at all; also frames that are taken for a line, and lines that are taken for a frame.
pub fn any(compare: &mut Compare, random: &mut Random) -> Checked<()> {
    for _ in 0..80_000 {
        let line = match random.below(20) {
            0 => several::any_request(random, 1),
            1 => random.some_bytes(600),
            _ => any_line(random, 1),
        };
        if random.one_in(20) {
            requests::handed(compare, random, 1, line)?;
        } else {
            handed(compare, random, 1, line)?;
        }
    }
    Ok(())
}
