//! Sessions on the RTU line, handed over frame by frame and played back.

use super::{playback, Parts};
use crate::call::{Call, Function};
use crate::compare::Compare;
use crate::failure::{Checked, Failure};
use crate::groups::requests::{spoiled, words};
use crate::groups::{gives, several};
use crate::random::Random;
use crate::shapes::{any_item, any_value, pattern};
use reference::items::ITEMS;

/// Sessions of any frames at any address.
pub fn sessions(compare: &mut Compare, random: &mut Random) -> Checked<()> {
    for _ in 0..10_000 {
        let (address, frames) = any_session(random);
        session(compare, random, address, &frames)?;
    }
    Ok(())
}

/// Any frames for any address.
pub fn any_session(random: &mut Random) -> (u8, Vec<Vec<u8>>) {
    let address = random.between(1, 99) as u8;
    let number = random.below(24);
    let frames = (0..number).map(|_| any_frame(random, address)).collect();
    (address, frames)
}

/// Hands frames over one at a time from the start table, and plays a capture of them back. Both
/// must leave the same table.
pub fn session(
    compare: &mut Compare,
    random: &mut Random,
    address: u8,
    frames: &[Vec<u8>],
) -> Checked<()> {
    let capture = Parts::of(frames).capture();
    let played = Call {
        address,
        ..playback(random, capture)
    };
    let started = Call {
        table: played.table.clone(),
        ..Call::new(Function::StartTable)
    };
    let mut table = gives(compare, started, 0)?.table;
    for frame in frames {
        let mut call = Call {
            address,
            table,
            reply: pattern(random, 256),
            input: frame.clone(),
            ..Call::new(Function::Rtu)
        };
        compare.call(&mut call)?;
        table = call.table;
    }
    let played = gives(compare, played, 0)?;
    if played.table == table {
        return Ok(());
    }
    Err(Failure::wrong(format!(
        "the frames leave {table:?} and their capture does not\n{played}"
    )))
}

/// A frame such as a capture can hold: a write that is accepted more often than not, a read, a
/// loopback, one for another address, one that is damaged, a very short or a very long one.
pub fn any_frame(random: &mut Random, address: u8) -> Vec<u8> {
    let other = random.between(0, 100) as u8;
    let mut frame = match random.below(12) {
        0 => words(address, 0x03, 0, 20),
        1 => words(address, 0x08, 0, 0x1F34),
        2 => several::accepted(random, other),
        3 => several::any_request(random, address),
        4 => random.bytes(256),
        5 | 6 => {
            let accepted = several::accepted(random, address);
            spoiled(random, accepted)
        }
        7..=9 => single(random, address),
        _ => several::accepted(random, address),
    };
    if frame.is_empty() {
        frame.push(address);
    }
    frame
}

/// A 06H of any item's register, with values in and beside its range.
fn single(random: &mut Random, address: u8) -> Vec<u8> {
    let item = any_item(random);
    let value = any_value(random, item) as u16;
    words(address, 0x06, ITEMS[item - 1].register, value)
}
