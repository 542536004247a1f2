//! Right frames for this device: every length, every word in every place, every value.

use super::requests::{handed, handed_with, words};
use super::several;
use crate::compare::Compare;
use crate::failure::Checked;
use crate::random::Random;
use crate::shapes::good_table_with;
use reference::items::ITEMS;
use reference::modbus::with_crc;

const READ: u8 = 0x03;
const WRITE: u8 = 0x06;
const LOOPBACK: u8 = 0x08;

/// The four functions, those beside them, some more of the standard's, and with the top bit set.
const FUNCTIONS: [u8; 22] = [
    0x00, 0x01, 0x02, READ, 0x04, 0x05, WRITE, 0x07, LOOPBACK, 0x09, 0x0F, 0x10, 0x11, 0x16, 0x17,
    0x2B, 0x7F, 0x80, 0x83, 0x86, 0x90, 0xFF,
];

/// What stands in front of zeros, as far as a frame's length has room: nothing, words that make a
/// good request of 8 bytes, or good writes of one register and of four.
const FRONTS: [&[u8]; 7] = [
    &[],
    &[0, 0, 0, 1],
    &[0, 0, 0, 20],
    &[0, 0x13, 0, 3],
    &[0, 0, 0x1F, 0x34],
    &[0, 0x13, 0, 1, 2, 0, 3],
    &[0, 0x10, 0, 4, 8, 0xFF, 0x6A, 0x03, 0xE8, 0, 100, 0, 3],
];

/// Every length that a frame can have, and those beside, in every function.
pub fn lengths(compare: &mut Compare, random: &mut Random) -> Checked<()> {
    for length in 2..=260 {
        for function in FUNCTIONS {
            for front in FRONTS {
                let mut body = vec![1, function];
                body.extend(front);
                body.resize(length - 2, 0);
                handed(compare, random, 1, with_crc(body))?;
            }
        }
    }
    Ok(())
}

/// Every word where a request has its start, its quantity, its register, its test code, its test data
/// and one of several values, all else being right.
pub fn every_word(compare: &mut Compare, random: &mut Random) -> Checked<()> {
    for word in 0..=u16::MAX {
        handed(compare, random, 1, words(1, READ, word, 1))?;
        handed(compare, random, 1, words(1, READ, 0, word))?;
        handed(compare, random, 1, words(1, WRITE, word, 0))?;
        handed(compare, random, 1, words(1, LOOPBACK, word, 0))?;
        handed(compare, random, 1, words(1, LOOPBACK, 0, word))?;
        handed(compare, random, 1, several::right(1, word, &[0]))?;
        handed(compare, random, 1, several::request(1, 8, word, 2, &[0, 0]))?;
        for (start, quantity) in [(0x0B, 2), (0x10, 4)] {
            let mut values = several::good(random, start, quantity);
            values[random.below(quantity)] = word;
            handed(compare, random, 1, several::right(1, start, &values))?;
        }
    }
    Ok(())
}

/// Each item is read with each value that it can have.
pub fn every_value_read(compare: &mut Compare, random: &mut Random) -> Checked<()> {
    for (row, item) in ITEMS.iter().zip(1..) {
        for value in row.low..=row.high {
            let table = good_table_with(random, item, value);
            handed_with(compare, random, table, 1, words(1, READ, row.register, 1))?;
        }
    }
    Ok(())
}

/// Every value of a register is written to each writable one, and some to all others in and beside
/// the map.
pub fn every_value_written(compare: &mut Compare, random: &mut Random) -> Checked<()> {
    let writable: Vec<u16> = ITEMS
        .iter()
        .filter(|row| row.writable)
        .map(|row| row.register)
        .collect();
    for register in &writable {
        for value in 0..=u16::MAX {
            handed(compare, random, 1, words(1, WRITE, *register, value))?;
        }
    }
    for register in (0..=21).filter(|register| !writable.contains(register)) {
        for value in (0..=300).chain([1000, 0x7FFF, 0x8000, 0xFC18, 0xFFFF]) {
            handed(compare, random, 1, words(1, WRITE, register, value))?;
        }
    }
    Ok(())
}
