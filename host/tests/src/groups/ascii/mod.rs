//! The ASCII line: what makes a line of characters, and the messages of RTU in it.

mod any;
mod characters;
mod checks;
mod colons;
mod ends;
mod lengths;
mod lent;
mod sessions;

pub use any::{any, any_line, no_line};
pub use characters::{bits, every_character, two_characters};
pub use checks::{every_lrc, other_checks};
pub use colons::{behind, fronts, inside, long_fronts};
pub use ends::{every_end, texts};
pub use lengths::{characters, numbers};
pub use lent::{addresses, lent};
pub use sessions::whole as sessions;

use super::requests::words;
use super::several;
use crate::call::{Call, Function};
use crate::compare::Compare;
use crate::failure::{Checked, Failure};
use crate::random::Random;
use crate::shapes::{good_table, pattern};
use reference::ascii::line_of;
use reference::modbus::with_crc;

/// Hands a line to an instrument with any good table.
fn handed(compare: &mut Compare, random: &mut Random, address: u8, line: Vec<u8>) -> Checked<()> {
    let length = random.pick(&[256, 256, 256, 300]);
    compare.call(&mut Call {
        address,
        table: good_table(random),
        reply: pattern(random, length),
        input: line,
        ..Call::new(Function::Ascii)
    })?;
    Ok(())
}

/// Messages for an address that are answered: each function, an exception, and the fewest bytes. In
/// the loopbacks each hexadecimal character stands once in each half of a byte.
fn messages(random: &mut Random, address: u8) -> Vec<Vec<u8>> {
    let mut frames = vec![
        words(address, 0x03, 0, 20),
        words(address, 0x03, 0x14, 1),
        words(address, 0x06, 0x10, 0xFF6A),
        several::accepted(random, address),
        several::right(address, 0x10, &[0xFF6A, 0x03E8, 0x0064, 0x0003]),
        with_crc(vec![address, 0x07]),
    ];
    for word in [
        0x0123, 0x4567, 0x89AB, 0xCDEF, 0x1032, 0x5476, 0x98BA, 0xDCFE,
    ] {
        frames.push(words(address, 0x08, 0, word));
    }
    frames
        .iter()
        .map(|frame| message_of(frame).expect("a right CRC"))
        .collect()
}

/// These messages as lines for address 1.
fn lines(random: &mut Random) -> Vec<Vec<u8>> {
    messages(random, 1).into_iter().map(line_of).collect()
}

/// The message of a frame whose CRC is right.
fn message_of(frame: &[u8]) -> Option<Vec<u8>> {
    let message = frame[..frame.len().checked_sub(2)?].to_vec();
    (with_crc(message.clone()) == frame).then_some(message)
}

/// What a message gives as a line, told from what its frame gives: 24 in place of 21, and a reply as a
/// line.
fn as_line((number, reply): (u32, Vec<u8>)) -> (u32, Vec<u8>) {
    let number = if number == 21 { 24 } else { number };
    (number, message_of(&reply).map_or(vec![], line_of))
}

/// Makes a call that hears a frame; and where its CRC is right, one that hears the same message as a
/// line. Both must leave the same table, and give the same number and message.
pub fn by_both(compare: &mut Compare, mut frame: Call) -> Checked<()> {
    let before = frame.clone();
    let due = as_line(compare.heard(&mut frame)?);
    let message = match message_of(&before.input) {
        Some(message) => message,
        None => return Ok(()),
    };
    let mut line = Call {
        function: Function::Ascii,
        input: line_of(message),
        ..before
    };
    if compare.heard(&mut line)? == due && line.table == frame.table {
        return Ok(());
    }
    Err(Failure::wrong(format!(
        "the lines differ\n{frame}\nas a line\n{line}"
    )))
}
