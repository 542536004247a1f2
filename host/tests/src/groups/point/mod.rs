//! XU, which gives the decimals of M1, S1, A1 and A2 on the RKC line: where it puts the point, and all
//! that it leaves where it is.
//!
//! Here what is due is written down once more beside what the reference gives: characters are made
//! of whole digits with a point put between them, numbers are worked out by division.

mod numbers;
mod registers;
mod runs;
mod sessions;
mod set;
mod tables;

pub use numbers::{edges, every_value};
pub use registers::{read, written};
pub use runs::runs;
pub use sessions::sessions;
pub use set::{refused, set};
pub use tables::tables;

use crate::failure::{Checked, Failure};
use crate::random::Random;
use crate::shapes::good_table_with;
use reference::items::item;

/// XU by its number.
const XU: usize = 13;

/// The items whose decimals XU gives, by their numbers: M1, S1, A1 and A2.
const MOVED: [usize; 4] = [1, 6, 7, 8];

/// Each XU with each item's number.
fn each() -> impl Iterator<Item = (i32, usize)> {
    (0..=3).flat_map(|xu| (1..=13).map(move |number| (xu, number)))
}

/// A table that every call takes with this XU.
fn with_xu(random: &mut Random, xu: i32) -> Vec<i32> {
    good_table_with(random, XU, xu)
}

/// The decimals that an item has where XU stands in this table.
fn decimals(table: &[i32], item: usize) -> u32 {
    match item {
        _ if MOVED.contains(&item) => table[XU - 1] as u32,
        9 => 2,
        10 => 3,
        _ => 0,
    }
}

/// The six characters of an item's value in this table. Without the point they are the same five at
/// one decimal or more, and at none there is one zero more.
fn characters(table: &[i32], item: usize) -> Vec<u8> {
    let value = table[item - 1];
    let decimals = decimals(table, item) as usize;
    if decimals == 0 {
        return format!("{value:06}").into_bytes();
    }
    let mut characters = format!("{value:05}").into_bytes();
    characters.insert(5 - decimals, b'.');
    characters
}

/// The text of a block for an item.
fn text(number: usize, characters: &[u8]) -> Vec<u8> {
    [&item(number).id[..], characters].concat()
}

/// A reply, in whatever structure, sends an item of this table as it is due.
fn sends(table: &[i32], number: usize, reply: &[u8]) -> Checked<()> {
    let sent: Vec<u8> = reply.iter().map(|byte| byte & 0x7F).collect();
    let due = text(number, &characters(table, number));
    if sent.len() == 11 && sent[1..9] == due {
        return Ok(());
    }
    Err(Failure::wrong(format!(
        "{due:02X?} is due of {table:?}, {sent:02X?} was sent"
    )))
}
