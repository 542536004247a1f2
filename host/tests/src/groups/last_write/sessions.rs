//! Sessions on the RTU line, asked for every item and played back.

use super::{asking, tells, Told};
use crate::call::Call;
use crate::compare::Compare;
use crate::failure::{Checked, Failure};
use crate::groups::captures::{any_session, playback, Parts};
use crate::groups::gives;
use crate::random::Random;
use crate::shapes::agree;
use reference::items::ITEMS;

/// Sessions of any frames at any address, asked for every item there and at another address. What is
/// found must be what a playback leaves, and the start value where nothing is; AA and AB, which are
/// never written, are left as they are true.
pub fn sessions(compare: &mut Compare, random: &mut Random) -> Checked<()> {
    for _ in 0..3_000 {
        let (address, frames) = any_session(random);
        session(compare, random, address, &frames)?;
        let other = random.between(1, 99) as u8;
        session(compare, random, other, &frames)?;
    }
    Ok(())
}

fn session(
    compare: &mut Compare,
    random: &mut Random,
    address: u8,
    frames: &[Vec<u8>],
) -> Checked<()> {
    let played = Call {
        address,
        ..playback(random, Parts::of(frames).capture())
    };
    let left = gives(compare, played, 0)?.table;
    let mut ends = vec![];
    for (item, row) in (1..).zip(&ITEMS) {
        let told = asked(compare, random, (address, item), frames)?;
        alone(compare, random, (address, item), frames, told)?;
        ends.push(match told {
            Told::Found(value, _) => value,
            _ => row.start,
        });
    }
    agree(&mut ends);
    if ends == left {
        return Ok(());
    }
    Err(Failure::wrong(format!(
        "address {address}: the last writes leave {ends:?}, and a playback {left:?}\n{frames:02X?}"
    )))
}

/// The call that asks a capture of these frames at an address for an item.
fn call(random: &mut Random, (address, item): (u8, u32), frames: &[Vec<u8>]) -> Call {
    Call {
        address,
        ..asking(random, Parts::of(frames).capture(), item)
    }
}

/// What a well formed capture of these frames tells.
fn asked(
    compare: &mut Compare,
    random: &mut Random,
    of: (u8, u32),
    frames: &[Vec<u8>],
) -> Checked<Told> {
    let mut call = call(random, of, frames);
    let result = compare.call(&mut call)?;
    let (value, records) = (call.table[0], call.table[1] as usize);
    let told = if result == 0 {
        Told::Never(frames.len())
    } else {
        Told::Found(value, records)
    };
    if (result, [value, records as i32]) == told.outcome() && records <= frames.len() {
        return Ok(told);
    }
    Err(Failure::wrong(format!("{result} was given\n{call}")))
}

/// The records that were read tell the same without those in front of them, and without the first of
/// them nothing.
fn alone(
    compare: &mut Compare,
    random: &mut Random,
    of: (u8, u32),
    frames: &[Vec<u8>],
    told: Told,
) -> Checked<()> {
    if let Told::Found(_, records) = told {
        let read = &frames[frames.len() - records..];
        tells(compare, call(random, of, read), told)?;
        let never = Told::Never(records - 1);
        tells(compare, call(random, of, &read[1..]), never)?;
    }
    Ok(())
}
