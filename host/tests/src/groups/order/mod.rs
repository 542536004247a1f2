//! Refusals in their order: a call with several faults at once gives the number of the first.
//!
//! Here the numbers that should come back are written down once more, beside those that the
//! reference gives.

mod byte;
mod captures;
mod frames;
mod idle;
mod lines;
mod put;
mod text;

pub use byte::faults as byte;
pub use captures::{last_write, playback, show};
pub use frames::faults as frames;
pub use idle::faults as idle;
pub use lines::faults as lines;
pub use put::faults as put;
pub use text::{read, written};

use super::gives;
use crate::call::Call;
use crate::compare::Compare;
use crate::failure::Checked;
use crate::random::Random;
use crate::shapes::{any_item, any_value, disagree, outside_limits, pattern, set};
use reference::items::in_range;

/// A way to spoil a call, and the number that it gives where nothing before that is wrong.
struct Fault(u32, fn(&mut Call, &mut Random));

/// Makes a call with each set of the faults at once. They stand in their order, and behind them is
/// the number that the call meets without them. The last is put in first, so that each finds what
/// it spoils as the ones behind it have left it.
fn every_set(
    compare: &mut Compare,
    random: &mut Random,
    faults: &[Fault],
    call: &Call,
    number: u32,
) -> Checked<()> {
    for set in 0..1 << faults.len() {
        let mut spoiled = call.clone();
        let mut first = number;
        for (place, Fault(number, spoil)) in faults.iter().enumerate().rev() {
            if set >> place & 1 == 1 {
                spoil(&mut spoiled, random);
                first = *number;
            }
        }
        gives(compare, spoiled, first)?;
    }
    Ok(())
}

/// 1: a table of another length.
const TABLE_LENGTH: Fault = Fault(1, |call, random| {
    let length = random.pick(&[0, 1, 12, 14, 26]);
    call.table.resize(length, 0);
});

/// 2: alarm states that disagree, or an entry outside its range.
const ENTRY: Fault = Fault(2, |call, random| {
    if random.one_in(2) {
        disagree(&mut call.table, random);
    } else {
        outside_range(&mut call.table, random);
    }
});

fn outside_range(table: &mut [i32], random: &mut Random) {
    let item = any_item(random);
    let mut entry = any_value(random, item);
    while in_range(item, entry) {
        entry = any_value(random, item);
    }
    set(table, item, entry);
}

/// 3: a reply buffer too short.
const BUFFER: Fault = Fault(3, |call, random| {
    let length = random.pick(&[0, 1, 5, 11, 255]);
    call.reply = pattern(random, length);
});

/// 4: a structure that there is not.
const STRUCTURE: Fault = Fault(4, |call, random| {
    call.structure = random.pick(&[3, 4, 128, 255]);
});

/// 5: a state outside the limits of its phase, of no phase, or of another length.
const STATE: Fault = Fault(5, |call, random| match random.below(4) {
    0 => call.state[0] = random.pick(&[10, 11, 128, 255]),
    1 => {
        let length = random.pick(&[0, 1, 23, 25, 48]);
        call.state.resize(length, 0);
    }
    _ => outside_limits(&mut call.state, random),
});

/// 6: an item that there is not.
const ITEM: Fault = Fault(6, |call, random| {
    call.item = random.pick(&[0, 14, 256 + call.item, u32::MAX]);
});
