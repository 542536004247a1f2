//! The trailer: its place is looked at before any frame, its count behind all of them.

use super::{answers, asking, due, parts, some, tells, write, Recorded, Told, DAMAGE};
use crate::compare::Compare;
use crate::failure::Checked;
use crate::groups::captures::{near_counts, near_places, Parts};
use crate::random::Random;
use crate::shapes::any_item;

/// So many frames. The first writes PB and the last F1; of those between some write PR.
fn answering(random: &mut Random, number: usize) -> Vec<Recorded> {
    let mut recorded = vec![write(random, 1, (0x10, 1))];
    for place in 1..number {
        recorded.push(match random.below(3) {
            _ if place == number - 1 => write(random, 1, (0x12, 1)),
            0 => write(random, 1, (0x11, 1)),
            _ => Recorded::idle(random.bytes(1)),
        });
    }
    recorded
}

/// Counts that are wrong, in captures of few records and of numbers around 256: for the items that
/// the last, a middle and the first frame write, and for those that none writes. Then every count.
pub fn counts(compare: &mut Compare, random: &mut Random) -> Checked<()> {
    for number in [1, 2, 3, 4, 254, 255, 256, 257, 300] {
        let recorded = answering(random, number);
        let right = number as u16;
        for item in 1..=13 {
            for count in near_counts(right).chain([right]) {
                counted(compare, random, &recorded, count, item)?;
            }
        }
    }
    let recorded = answering(random, 3);
    for count in 0..=u16::MAX {
        let item = random.pick(&[8, 9, 10, 11]);
        counted(compare, random, &recorded, count, item)?;
    }
    none(compare, random)
}

/// Asks a capture of these frames whose trailer has this count. Where it is wrong a frame answers
/// all the same, be it the first, and else there is damage.
fn counted(
    compare: &mut Compare,
    random: &mut Random,
    recorded: &[Recorded],
    count: u16,
    item: u32,
) -> Checked<()> {
    let mut parts = parts(recorded);
    let told = match due(recorded, item) {
        Told::Never(_) if count != parts.count => DAMAGE,
        told => told,
    };
    parts.count = count;
    answers(compare, random, &parts, item, told)
}

/// No record: each count but 0 is wrong, and so is each place.
fn none(compare: &mut Compare, random: &mut Random) -> Checked<()> {
    for item in 1..=13 {
        let none = Parts::of(&[]);
        answers(compare, random, &none, item, Told::Never(0))?;
        for byte in 0..6 {
            for bit in 0..8 {
                let mut capture = none.capture();
                capture[byte] ^= 1 << bit;
                tells(compare, asking(random, capture, item), DAMAGE)?;
            }
        }
    }
    Ok(())
}

/// Places that are wrong: then no frame answers, not even that of the last record. With the right
/// count and with another.
pub fn places(compare: &mut Compare, random: &mut Random) -> Checked<()> {
    for number in [1, 2, 3, 4, 5, 300] {
        let right = parts(&answering(random, number));
        for place in near_places(&right).filter(|place| *place != right.place) {
            for item in [8, 9, 10, 11] {
                let mut parts = right.clone();
                parts.place = place;
                answers(compare, random, &parts, item, DAMAGE)?;
                parts.count ^= 1;
                answers(compare, random, &parts, item, DAMAGE)?;
            }
        }
    }
    for _ in 0..100 {
        let number = random.below(6);
        let recorded = some(random, number);
        every_start(compare, random, &recorded)?;
    }
    Ok(())
}

/// The trailer points to every place of the capture.
fn every_start(compare: &mut Compare, random: &mut Random, recorded: &[Recorded]) -> Checked<()> {
    let right = parts(recorded);
    for place in 0..right.records.len() as u32 + 6 {
        let item = any_item(random) as u32;
        let told = if place == right.place {
            due(recorded, item)
        } else {
            DAMAGE
        };
        let parts = Parts {
            place,
            ..right.clone()
        };
        answers(compare, random, &parts, item, told)?;
    }
    Ok(())
}
