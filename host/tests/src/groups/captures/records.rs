//! Captures of every size, and records whose length is not that of their frame.

use super::parts::filling;
use super::{due, good, tried, Parts};
use crate::compare::Compare;
use crate::failure::Checked;
use crate::groups::several;
use crate::random::Random;

/// Small captures of every size, and those around the greatest: well formed as far as the size lets
/// them be, and bytes that are all alike or anything.
pub fn sizes(compare: &mut Compare, random: &mut Random) -> Checked<()> {
    for size in (0..=48).chain(65_530..=65_550).chain([66_000]) {
        for fill in [0x00, 0x01, 0xFF] {
            tried(compare, random, vec![fill; size])?;
        }
        for _ in 0..4 {
            let noise = random.bytes(size);
            tried(compare, random, noise)?;
        }
        if size == 6 || size >= 9 {
            let frames = filling(random, size - 6);
            due(compare, random, &Parts::of(&frames), size <= 65_536)?;
        }
    }
    Ok(())
}

/// Frames of every length, alone and with others; every length behind a frame that has another one;
/// and a front that is not where a record begins.
pub fn lengths(compare: &mut Compare, random: &mut Random) -> Checked<()> {
    for length in (0..=600).chain([767, 768, 1024, 4096, 0x8000, 0xFF00, 0xFFF8]) {
        for (others, place) in [(0, 0), (2, 0), (2, 1), (2, 2)] {
            let mut frames = good(random, others);
            frames.insert(place, random.bytes(length));
            let well_formed = (1..=256).contains(&length);
            due(compare, random, &Parts::of(&frames), well_formed)?;
        }
    }
    for frame in [
        random.bytes(1),
        several::accepted(random, 1),
        random.bytes(256),
    ] {
        every_length(compare, random, &frame)?;
    }
    fronts(compare, random)
}

/// One frame with every length behind it. The trailer points where the frame begins, and where it
/// would by that length, below 0 for those that are too long.
fn every_length(compare: &mut Compare, random: &mut Random, frame: &[u8]) -> Checked<()> {
    let whole = Parts::of(&[frame.to_vec()]);
    let end = frame.len();
    for length in 0..=u16::MAX {
        let mut parts = whole.clone();
        parts.records[end..].copy_from_slice(&length.to_be_bytes());
        due(compare, random, &parts, usize::from(length) == end)?;
        parts.place = (end as u32).wrapping_sub(u32::from(length));
        due(compare, random, &parts, usize::from(length) == end)?;
    }
    Ok(())
}

/// Captures that have lost bytes in front, with the count as it was and one less; and captures with
/// a few bytes more in front, with the count as it was and one more.
fn fronts(compare: &mut Compare, random: &mut Random) -> Checked<()> {
    for number in 2..=4 {
        let frames = good(random, number);
        let whole = Parts::of(&frames);
        for lost in 1..whole.records.len() {
            let mut parts = whole.clone();
            parts.records.drain(..lost);
            parts.place = whole.place.wrapping_sub(lost as u32);
            due(compare, random, &parts, false)?;
            parts.count -= 1;
            due(compare, random, &parts, lost == frames[0].len() + 2)?;
        }
        for more in 1..=20 {
            let mut parts = whole.clone();
            parts.records.splice(..0, random.bytes(more));
            parts.place += more as u32;
            due(compare, random, &parts, false)?;
            parts.count += 1;
            tried(compare, random, parts.capture())?;
        }
    }
    Ok(())
}
