//! The largest captures: as many records as there can be, and as many bytes.

use super::parts::filling;
use super::{any_frame, due, showing, tried, Parts};
use crate::compare::Compare;
use crate::failure::Checked;
use crate::groups::{gives, several};
use crate::random::Random;

/// The most bytes that records can fill, and the most records that can fill them.
pub const ROOM: usize = 65_530;
const MOST: usize = ROOM / 3;

/// As many frames of one byte as there can be, and more; then sessions and frames of any length
/// that fill all room, the sessions also with something wrong, and noise of as many bytes.
pub fn largest(compare: &mut Compare, random: &mut Random) -> Checked<()> {
    for first in 1..=2 {
        // The last two are too many bytes.
        for number in [MOST - 1, MOST, MOST + 1, MOST + 2] {
            let mut frames = vec![vec![0x55]; number];
            frames[0].resize(first, 0x55);
            due(compare, random, &Parts::of(&frames), number <= MOST)?;
        }
    }
    numbers(compare, random)?;
    for _ in 0..60 {
        let frames = full_session(random);
        due(compare, random, &Parts::of(&frames), true)?;
        wrong(compare, random, &frames)?;
        let frames = filling(random, ROOM);
        due(compare, random, &Parts::of(&frames), true)?;
        let noise = random.bytes(65_536);
        tried(compare, random, noise)?;
    }
    Ok(())
}

/// Frames by their numbers, in a capture of as many as there can be.
fn numbers(compare: &mut Compare, random: &mut Random) -> Checked<()> {
    let capture = Parts::of(&vec![vec![0x55]; MOST]).capture();
    let most = MOST as u32;
    let ends = [0, 1, 2, 255, 256, 257, most - 1, most, most + 1, 65_536];
    let any = [0; 20].map(|_| 1 + random.below(MOST) as u32);
    for frame in ends.into_iter().chain(any) {
        let number = if (1..=most).contains(&frame) { 0 } else { 52 };
        gives(compare, showing(random, capture.clone(), frame), number)?;
    }
    Ok(())
}

/// Frames for address 1 that fill all room: first a write that is accepted, then anything.
pub fn full_session(random: &mut Random) -> Vec<Vec<u8>> {
    let mut frames = vec![several::accepted(random, 1)];
    let mut filled = frames[0].len() + 2;
    // The longest record has 258 bytes, and what is left behind it can be filled.
    while filled + 258 + 3 <= ROOM {
        let frame = any_frame(random, 1);
        filled += frame.len() + 2;
        frames.push(frame);
    }
    frames.extend(filling(random, ROOM - filled));
    frames
}

/// A capture of these frames with one thing wrong: in the trailer, anywhere, and in the length of
/// the first record, where the walk back comes last.
fn wrong(compare: &mut Compare, random: &mut Random, frames: &[Vec<u8>]) -> Checked<()> {
    let right = Parts::of(frames);
    for count in [right.count - 1, right.count + 1] {
        let parts = Parts {
            count,
            ..right.clone()
        };
        due(compare, random, &parts, false)?;
    }
    let mut far = right.clone();
    far.place += 65_536;
    due(compare, random, &far, false)?;
    let mut first = right.clone();
    first.records[frames[0].len() + 1] ^= 1;
    due(compare, random, &first, false)?;
    let mut damaged = right.capture();
    let place = random.below(damaged.len());
    damaged[place] ^= 1 << random.below(8);
    tried(compare, random, damaged)
}
