use super::ascii;
use crate::call::{Call, Function};
use crate::compare::Compare;
use crate::failure::Checked;
use crate::random::Random;
use crate::shapes::{any_item, any_value, good_table, pattern};
use reference::ascii::line_of;
use reference::items::ITEMS;
use reference::modbus::with_crc;

/// Hands a frame to an instrument with any good table.
pub fn handed(
    compare: &mut Compare,
    random: &mut Random,
    address: u8,
    frame: Vec<u8>,
) -> Checked<()> {
    let table = good_table(random);
    handed_with(compare, random, table, address, frame)
}

/// Hands a frame to an instrument with this table; and where its CRC is right, the same message as a
/// line.
pub fn handed_with(
    compare: &mut Compare,
    random: &mut Random,
    table: Vec<i32>,
    address: u8,
    frame: Vec<u8>,
) -> Checked<()> {
    let length = random.pick(&[256, 256, 256, 300]);
    let call = Call {
        address,
        table,
        reply: pattern(random, length),
        input: frame,
        ..Call::new(Function::Rtu)
    };
    ascii::by_both(compare, call)
}

/// The calls that hand a right frame, and its message as a line, to an instrument at address 1 with
/// this table.
pub fn on_both_lines(random: &mut Random, table: &[i32], frame: Vec<u8>) -> [Call; 2] {
    let line = line_of(frame[..frame.len() - 2].to_vec());
    [(Function::Rtu, frame), (Function::Ascii, line)].map(|(function, input)| Call {
        address: 1,
        table: table.to_vec(),
        reply: pattern(random, 256),
        input,
        ..Call::new(function)
    })
}

/// A frame of address, function and two words, with its CRC.
pub fn words(address: u8, function: u8, first: u16, second: u16) -> Vec<u8> {
    let mut body = vec![address, function];
    body.extend(first.to_be_bytes());
    body.extend(second.to_be_bytes());
    with_crc(body)
}

/// 03H, 06H and 08H with all that their two words can be wrong in.
pub fn functions(compare: &mut Compare, random: &mut Random) -> Checked<()> {
    for _ in 0..4 {
        reads(compare, random)?;
    }
    writes(compare, random)?;
    for _ in 0..5_000 {
        let code = random.pick(&[0, 0, 1, 0x0100, 0xFFFF]);
        handed(compare, random, 7, words(7, 0x08, code, 0x1F34))?;
    }
    Ok(())
}

/// Every span in and around the map, and quantities at both ends of what is allowed.
fn reads(compare: &mut Compare, random: &mut Random) -> Checked<()> {
    for start in (0..=22).chain([0x00FF, 0x0100, 0x7FFF, 0x8000, 0xFFEB, 0xFFEC, 0xFFFF]) {
        for quantity in (0..=22).chain([124, 125, 126, 127, 255, 256, 257, 0x8000, 0xFFFF]) {
            handed(compare, random, 1, words(1, 0x03, start, quantity))?;
        }
    }
    Ok(())
}

/// Every register in and around the map, with values in and beside the range of its item.
fn writes(compare: &mut Compare, random: &mut Random) -> Checked<()> {
    for _ in 0..20_000 {
        let item = any_item(random);
        let register = match random.below(8) {
            0 => random.below(23) as u16,
            1 => random.word() as u16,
            _ => ITEMS[item - 1].register,
        };
        let value = any_value(random, item) as u16;
        handed(compare, random, 99, words(99, 0x06, register, value))?;
    }
    Ok(())
}

/// Every function, every length on both sides of what a frame can have, every address, and bytes
/// that are no frame at all.
pub fn every(compare: &mut Compare, random: &mut Random) -> Checked<()> {
    for length in 0..=300 {
        for function in [0x03, 0x06, 0x08, 0x10] {
            let frame = long(random, length, function);
            handed(compare, random, 1, frame)?;
        }
    }
    for function in 0..=255 {
        for length in [4, 5, 7, 8, 9, 255, 256] {
            let frame = long(random, length, function);
            handed(compare, random, 1, frame)?;
        }
    }
    for address in 0..=255 {
        for ours in [1, 98, 99] {
            handed(compare, random, ours, words(address, 0x03, 0, 20))?;
        }
    }
    for _ in 0..30_000 {
        let frame = mutated(random);
        handed(compare, random, 1, frame)?;
    }
    Ok(())
}

/// A frame of any length for address 1, with its CRC where there is room for one.
fn long(random: &mut Random, length: usize, function: u8) -> Vec<u8> {
    if length < 4 {
        return random.bytes(length);
    }
    let mut body = vec![1, function];
    body.extend(random.bytes(length - 4));
    with_crc(body)
}

/// A good request with something that has happened to it.
fn mutated(random: &mut Random) -> Vec<u8> {
    let function = random.pick(&[0x03, 0x06, 0x08]);
    let start = random.below(21) as u16;
    let good = words(1, function, start, random.below(21) as u16);
    spoiled(random, good)
}

/// A frame after something has happened to it, half of the time before its CRC was made.
pub fn spoiled(random: &mut Random, mut frame: Vec<u8>) -> Vec<u8> {
    let length = frame.len();
    match random.below(10) {
        0 => frame.swap(length - 2, length - 1),
        1 => frame.truncate(random.below(length)),
        2 => frame.extend(random.bytes(3)),
        3 => frame = random.some_bytes(length + 4),
        4 => frame[random.below(length)] = random.byte(),
        _ => {
            let mut body = frame[..length - 2].to_vec();
            body[random.below(length - 2)] = random.byte();
            frame = with_crc(body);
        }
    }
    frame
}
