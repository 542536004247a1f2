//! Alarm states that stand in the table: what keeps them true, and tables in which they are not.
//!
//! Here what is due is written down once more beside what the reference gives: a call that is accepted
//! leaves the table with the one entry changed and the alarm states that are true then.

mod disagreeing;
mod levels;
mod played;
mod sessions;
mod states;

pub use disagreeing::disagreeing;
pub use levels::{levels, measured};
pub use played::played;
pub use sessions::sessions;
pub use states::{put, written};

use crate::random::Random;
use crate::shapes::{agree, good_table};
use reference::items::{decimals, item};
use reference::number;

/// The items that alarm states follow, by their numbers.
const M1: usize = 1;
const A1: usize = 7;
const A2: usize = 8;

/// Low and high of these three.
const LOW: i32 = -1999;
const HIGH: i32 = 9999;

/// Values from one step below this one to one step above it, as far as the range goes.
fn around(value: i32) -> impl Iterator<Item = i32> {
    (value - 1).max(LOW)..=(value + 1).min(HIGH)
}

/// A table that every call takes with this M1, A1 and A2.
fn with(random: &mut Random, [m1, a1, a2]: [i32; 3]) -> Vec<i32> {
    let mut table = good_table(random);
    for (item, value) in [(M1, m1), (A1, a1), (A2, a2)] {
        table[item - 1] = value;
    }
    agree(&mut table);
    table
}

/// A table that every call takes with this M1. Each level stands one step around it, or anywhere.
fn with_measured(random: &mut Random, m1: i32) -> Vec<i32> {
    let [a1, a2] = [0; 2].map(|_| match random.below(3) {
        0 => random.between(LOW, HIGH),
        _ => (m1 + random.between(-1, 1)).clamp(LOW, HIGH),
    });
    with(random, [m1, a1, a2])
}

/// The text of a block that brings a level, with the decimals that it has in this table.
fn level_text(table: &[i32], level_item: usize, level: i32) -> Vec<u8> {
    let six = number::write(decimals(table, level_item), level).expect("every level fits");
    [&item(level_item).id[..], &six].concat()
}
