//! The last write to an item of a capture: which frame answers, how many records are read for it, and
//! which damage is met on the way.
//!
//! Here what is due is written down once more beside what the reference gives: by how the frames of
//! a capture were made, and not by judging them.

mod any;
mod asked;
mod damaged;
mod fronts;
mod largest;
mod lengths;
mod recorded;
mod sessions;
mod trailers;
mod written;

pub use any::{any, small};
pub use asked::{addresses, item_numbers};
pub use damaged::damaged;
pub use fronts::{cut, fronts};
pub use largest::{largest, sizes};
pub use lengths::lengths;
pub use recorded::{left_by, parts, some, Recorded};
pub use sessions::sessions;
pub use trailers::{counts, places};
pub use written::{all_items, near, spans, values};

use super::captures::Parts;
use crate::call::{Call, Function};
use crate::compare::Compare;
use crate::failure::{Checked, Failure};
use crate::random::Random;
use crate::shapes::any_item;
use recorded::{due, write};

/// The call that asks a capture for the last write to an item at address 1. Value and records are
/// anything before.
pub fn asking(random: &mut Random, capture: Vec<u8>, item: u32) -> Call {
    Call {
        address: 1,
        item,
        table: vec![random.word() as i32, random.word() as i32],
        input: capture,
        ..Call::new(Function::LastWrite)
    }
}

/// What a question for a last write gives.
#[derive(Clone, Copy, Debug, PartialEq, Eq)]
enum Told {
    /// A value, and the records read up to the one that answers.
    Found(i32, usize),
    /// No write, and all records.
    Never(usize),
    /// A number, with value 0 and 0 records.
    Refused(u32),
}

const DAMAGE: Told = Told::Refused(51);

impl Told {
    /// The result with value and records.
    fn outcome(self) -> (u32, [i32; 2]) {
        match self {
            Told::Found(value, records) => (256, [value, records as i32]),
            Told::Never(records) => (0, [0, records as i32]),
            Told::Refused(number) => (number, [0, 0]),
        }
    }
}

/// Makes a call that must tell this.
fn tells(compare: &mut Compare, mut call: Call, told: Told) -> Checked<()> {
    let before = call.clone();
    let result = compare.call(&mut call)?;
    let (due, left) = told.outcome();
    if result == due && call.table == left {
        return Ok(());
    }
    let given = &call.table;
    Err(Failure::wrong(format!(
        "{told:?} is due, {result} with {given:?} was given\n{before}"
    )))
}

/// Asks a capture in its parts for an item, of which it must tell this.
fn answers(
    compare: &mut Compare,
    random: &mut Random,
    parts: &Parts,
    item: u32,
    told: Told,
) -> Checked<()> {
    tells(compare, asking(random, parts.capture(), item), told)
}

/// Asks a capture for the last write to any item, whatever that gives.
fn tried(compare: &mut Compare, random: &mut Random, capture: Vec<u8>) -> Checked<()> {
    let item = any_item(random) as u32;
    compare.call(&mut asking(random, capture, item))?;
    Ok(())
}
