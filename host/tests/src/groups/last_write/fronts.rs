//! What stands in front of the record that answers is not looked at.

use super::{answers, due, parts, some, Recorded, Told, DAMAGE};
use crate::compare::Compare;
use crate::failure::Checked;
use crate::groups::captures::Parts;
use crate::random::Random;
use crate::shapes::any_item;

/// A capture of some frames, and an item that one of them writes with what is told of it.
fn answered(random: &mut Random) -> (Vec<Recorded>, u32, i32, usize) {
    loop {
        let number = 1 + random.below(6);
        let recorded = some(random, number);
        let item = 6 + random.below(8) as u32;
        if let Told::Found(value, records) = due(&recorded, item) {
            return (recorded, item, value, records);
        }
    }
}

/// Anything in front of the record that answers, with any count: the answer stays. Nothing at all,
/// noise, bytes that would be a length or a trailer, and other frames that write the item.
pub fn fronts(compare: &mut Compare, random: &mut Random) -> Checked<()> {
    for _ in 0..20_000 {
        let (recorded, item, value, records) = answered(random);
        let right = parts(&recorded[recorded.len() - records..]);
        let front = match random.below(5) {
            0 => vec![],
            1 => vec![random.pick(&[0, 1, 255]); 1 + random.below(12)],
            2 => parts(&recorded).capture(),
            3 => parts(&some(random, 3)).records,
            _ => random.some_bytes(300),
        };
        let any = random.word() as u16;
        let spoiled = Parts {
            place: right.place + front.len() as u32,
            records: [front, right.records].concat(),
            count: random.pick(&[0, 1, records as u16, any]),
        };
        let told = Told::Found(value, records);
        answers(compare, random, &spoiled, item, told)?;
    }
    Ok(())
}

/// Captures that have lost each number of bytes in front: as long as the answering record is whole
/// it answers, a part of a record begins before place 0, and where records are gone that were not to
/// answer the count is wrong, or right once it is that of those that are left.
pub fn cut(compare: &mut Compare, random: &mut Random) -> Checked<()> {
    for _ in 0..200 {
        let number = 1 + random.below(5);
        let recorded = some(random, number);
        let whole = parts(&recorded);
        for lost in 1..=whole.records.len() {
            let item = any_item(random) as u32;
            let left = left_of(&recorded, lost);
            let mut parts = whole.clone();
            parts.records.drain(..lost);
            parts.place = whole.place.saturating_sub(lost as u32);
            answers(compare, random, &parts, item, behind(left, item, false))?;
            parts.count = left.1.len() as u16;
            answers(compare, random, &parts, item, behind(left, item, true))?;
        }
    }
    Ok(())
}

/// The frames whose records are whole once so many bytes are lost in front, and whether there is
/// nothing before them.
fn left_of(recorded: &[Recorded], lost: usize) -> (bool, &[Recorded]) {
    let mut end = 0;
    let mut gone = 0;
    while end < lost {
        end += recorded[gone].frame.len() + 2;
        gone += 1;
    }
    (end == lost, &recorded[gone..])
}

/// What is told where only these records are whole.
fn behind((clean, left): (bool, &[Recorded]), item: u32, counted: bool) -> Told {
    match due(left, item) {
        Told::Never(_) if !clean || !counted => DAMAGE,
        told => told,
    }
}
