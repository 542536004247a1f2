//! Well formed records with another trailer than theirs.

use super::{due, good, refused, Parts};
use crate::compare::Compare;
use crate::failure::Checked;
use crate::random::Random;

/// No record, a few, and numbers around 256: the trailer's count and place each beside the right
/// one and with their bytes in another order, and each of its bytes with each value. Then every
/// count, and every word in either half of the place.
pub fn trailers(compare: &mut Compare, random: &mut Random) -> Checked<()> {
    for number in [0, 1, 2, 3, 255, 256, 257, 300] {
        let parts = Parts::of(&good(random, number));
        due(compare, random, &parts, true)?;
        counts(compare, random, &parts)?;
        places(compare, random, &parts)?;
        each_byte(compare, random, &parts)?;
    }
    every_word(compare, random)
}

/// Counts that are off by little, by 256 or by a bit, or have the low byte first.
pub fn near_counts(right: u16) -> impl Iterator<Item = u16> {
    let off = [1, 2, 3, 255, 256, 257];
    let beside = off.map(|off| right.wrapping_add(off));
    let below = off.map(|off| right.wrapping_sub(off));
    let flipped = (0..16).map(move |bit| right ^ 1 << bit);
    let others = beside.into_iter().chain(below).chain(flipped);
    others.chain([right.swap_bytes(), u16::MAX])
}

fn counts(compare: &mut Compare, random: &mut Random, parts: &Parts) -> Checked<()> {
    let right = parts.count;
    for count in near_counts(right) {
        let parts = Parts {
            count,
            ..parts.clone()
        };
        due(compare, random, &parts, count == right)?;
    }
    Ok(())
}

/// Places that are off by little, by 256, by 65,536 and more or by a bit, have the low byte or the
/// low word first, or are those of another end.
pub fn near_places(parts: &Parts) -> impl Iterator<Item = u32> {
    let right = parts.place;
    let end = parts.records.len() as u32;
    let off = [1, 2, 3, 255, 256, 1 << 16, 2 << 16, 255 << 16, 1 << 24];
    let beside = off.map(|off| right.wrapping_add(off));
    let below = off.map(|off| right.wrapping_sub(off));
    let flipped = (0..32).map(move |bit| right ^ 1 << bit);
    let others = beside.into_iter().chain(below).chain(flipped);
    let turned = [right.swap_bytes(), right.rotate_left(16), u32::MAX];
    let ends = [0, end, end.saturating_sub(2), end + 6];
    others.chain(turned).chain(ends)
}

fn places(compare: &mut Compare, random: &mut Random, parts: &Parts) -> Checked<()> {
    let right = parts.place;
    for place in near_places(parts) {
        let parts = Parts {
            place,
            ..parts.clone()
        };
        due(compare, random, &parts, place == right)?;
    }
    Ok(())
}

/// Each byte of the trailer with each value that it does not have.
fn each_byte(compare: &mut Compare, random: &mut Random, parts: &Parts) -> Checked<()> {
    let right = parts.capture();
    for place in right.len() - 6..right.len() {
        for value in (0..=255).filter(|value| *value != right[place]) {
            let mut capture = right.clone();
            capture[place] = value;
            refused(compare, random, capture)?;
        }
    }
    Ok(())
}

/// Two records with every word as their count and in either half of the place.
fn every_word(compare: &mut Compare, random: &mut Random) -> Checked<()> {
    let right = Parts::of(&good(random, 2));
    for word in 0..=u16::MAX {
        let (mut count, mut low, mut high) = (right.clone(), right.clone(), right.clone());
        count.count = word;
        low.place = u32::from(word);
        high.place |= u32::from(word) << 16;
        due(compare, random, &count, word == right.count)?;
        due(compare, random, &low, low.place == right.place)?;
        due(compare, random, &high, word == 0)?;
    }
    Ok(())
}
