use super::{asking, due, parts, some, tells, tried, Recorded, Told, DAMAGE};
use crate::compare::Compare;
use crate::failure::Checked;
use crate::groups::captures::{cut_and_doubled, flipped};
use crate::random::Random;
use crate::shapes::any_item;

/// Short captures with each byte changed to each value, each one lost and each one doubled, and cut
/// off before each place and behind it. Long ones with some bits flipped in any places.
pub fn damaged(compare: &mut Compare, random: &mut Random) -> Checked<()> {
    for number in 1..=6 {
        let recorded = some(random, number);
        each_value(compare, random, &recorded)?;
        for capture in cut_and_doubled(&parts(&recorded).capture()) {
            tried(compare, random, capture)?;
        }
    }
    for _ in 0..10_000 {
        let number = 1 + random.below(60);
        let capture = parts(&some(random, number)).capture();
        let capture = flipped(random, capture);
        tried(compare, random, capture)?;
    }
    Ok(())
}

/// Each byte with each value for any item, and with some values for every item.
fn each_value(compare: &mut Compare, random: &mut Random, recorded: &[Recorded]) -> Checked<()> {
    let whole = parts(recorded).capture();
    for (place, byte) in whole.into_iter().enumerate() {
        for value in 0..=255 {
            let item = any_item(random) as u32;
            changed(compare, random, recorded, (place, value), item)?;
        }
        for item in 1..=13 {
            for value in [0, 1, byte ^ 1, byte ^ 0x80] {
                changed(compare, random, recorded, (place, value), item)?;
            }
        }
    }
    Ok(())
}

/// Asks a capture of which one byte is changed.
fn changed(
    compare: &mut Compare,
    random: &mut Random,
    recorded: &[Recorded],
    (place, value): (usize, u8),
    item: u32,
) -> Checked<()> {
    let mut capture = parts(recorded).capture();
    let told = if capture[place] == value {
        Some(due(recorded, item))
    } else {
        spoiled(recorded, place, item)
    };
    capture[place] = value;
    let mut call = asking(random, capture, item);
    match told {
        Some(told) => tells(compare, call, told),
        None => compare.call(&mut call).map(|_| ()),
    }
}

/// What is told where the byte at a place is wrong. None where it is one of a length that is met,
/// which may lead anywhere.
fn spoiled(recorded: &[Recorded], place: usize, item: u32) -> Option<Told> {
    let told = due(recorded, item);
    match part_at(recorded, place) {
        Part::Frame(number) => {
            // No frame has a right CRC with one byte wrong.
            let mut recorded = recorded.to_vec();
            recorded[number].writes.clear();
            Some(due(&recorded, item))
        }
        Part::Length(number) => match told {
            Told::Found(_, records) if number + records < recorded.len() => Some(told),
            _ => None,
        },
        Part::Count if told != Told::Never(recorded.len()) => Some(told),
        Part::Count | Part::Place => Some(DAMAGE),
    }
}

/// What a byte of a capture belongs to: the frame or the length of a record, which count from 0, or
/// a part of the trailer.
enum Part {
    Frame(usize),
    Length(usize),
    Count,
    Place,
}

fn part_at(recorded: &[Recorded], mut place: usize) -> Part {
    for (number, one) in recorded.iter().enumerate() {
        let length = one.frame.len();
        if place < length {
            return Part::Frame(number);
        }
        if place < length + 2 {
            return Part::Length(number);
        }
        place -= length + 2;
    }
    if place < 2 {
        Part::Count
    } else {
        Part::Place
    }
}
