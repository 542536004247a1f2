//! Tables, buffers and addresses that come with a line.

use super::{handed, messages};
use crate::call::{Call, Function};
use crate::compare::Compare;
use crate::failure::Checked;
use crate::random::Random;
use crate::shapes::{good_table, odd_table, pattern, set, REPLY_LENGTHS};
use reference::ascii::{in_characters, line_of, with_lrc};
use reference::items::ITEMS;

/// More lengths of a reply buffer: for a short reply, around the longest one, and for the longest line.
const BUFFERS: [usize; 6] = [17, 90, 91, 128, 254, 513];

/// Each message with each entry of the table at both ends of its range and one step beyond, with
/// tables of another length, and with buffers on both sides of 256 bytes.
pub fn lent(compare: &mut Compare, random: &mut Random) -> Checked<()> {
    for message in messages(random, 99) {
        let line = line_of(message);
        for (item, entry) in edges() {
            for length in [255, 256, 300] {
                let mut table = good_table(random);
                set(&mut table, item, entry);
                let buffer = pattern(random, length);
                hearing(compare, table, buffer, 99, &line)?;
            }
        }
        for length in REPLY_LENGTHS.into_iter().chain(BUFFERS) {
            for address in [0, 1, 98, 99, 100, 255] {
                let (table, buffer) = (good_table(random), pattern(random, length));
                hearing(compare, table, buffer, address, &line)?;
                let (table, buffer) = (odd_table(random), pattern(random, length));
                hearing(compare, table, buffer, address, &line)?;
            }
        }
    }
    Ok(())
}

/// Items, each with values on both sides of both ends of its range.
fn edges() -> impl Iterator<Item = (usize, i32)> {
    ITEMS.iter().zip(1..).flat_map(|(row, item)| {
        let entries = [row.low - 1, row.low, row.high, row.high + 1];
        entries.map(|entry| (item, entry))
    })
}

fn hearing(
    compare: &mut Compare,
    table: Vec<i32>,
    reply: Vec<u8>,
    address: u8,
    line: &[u8],
) -> Checked<()> {
    compare.call(&mut Call {
        address,
        table,
        reply,
        input: line.to_vec(),
        ..Call::new(Function::Ascii)
    })?;
    Ok(())
}

/// Every address in a line, at some addresses and at its own; with a right LRC, and with one that
/// would be right for another address.
pub fn addresses(compare: &mut Compare, random: &mut Random) -> Checked<()> {
    for address in 0..=255 {
        for message in messages(random, address) {
            for ours in [1, 50, 99, address] {
                handed(compare, random, ours, line_of(message.clone()))?;
                let mut bytes = message.clone();
                bytes[0] = ours;
                bytes = with_lrc(bytes);
                bytes[0] = address;
                handed(compare, random, ours, in_characters(&bytes))?;
            }
        }
    }
    Ok(())
}
