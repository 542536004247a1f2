//! Captures of anything: all small ones of small bytes, and many of others.

use super::{any_frame, tried, Parts};
use crate::compare::Compare;
use crate::failure::Checked;
use crate::random::Random;

/// Up to six bytes of records, each from 0 to 3, with every trailer that could point into them.
pub fn small(compare: &mut Compare, random: &mut Random) -> Checked<()> {
    for parts in small_parts(6) {
        tried(compare, random, parts.capture())?;
    }
    Ok(())
}

/// Records of up to so many bytes, each from 0 to 3, with every trailer that could point into them.
pub fn small_parts(most: usize) -> impl Iterator<Item = Parts> {
    let sets = (0..=most).flat_map(|length| (0..1 << (2 * length)).map(move |bits| (length, bits)));
    sets.flat_map(|(length, bits)| {
        let records: Vec<u8> = (0..length).map(|at| (bits >> (2 * at) & 3) as u8).collect();
        (0..32).map(move |trailer| Parts {
            records: records.clone(),
            count: trailer / 8,
            place: u32::from(trailer % 8),
        })
    })
}

/// Captures of any frames, many of them with something that has happened to them, and noise.
pub fn any(compare: &mut Compare, random: &mut Random) -> Checked<()> {
    for _ in 0..50_000 {
        let capture = any_capture(random);
        tried(compare, random, capture)?;
    }
    Ok(())
}

/// Frames for address 1 and others, with their trailer or with another one; now and then damaged,
/// or no capture at all.
pub fn any_capture(random: &mut Random) -> Vec<u8> {
    let number = random.below(8);
    let frames: Vec<Vec<u8>> = (0..number).map(|_| any_frame(random, 1)).collect();
    let mut parts = Parts::of(&frames);
    match random.below(10) {
        0 => return random.some_bytes(300),
        1 => parts.count = parts.count.wrapping_add(random.between(-2, 2) as u16),
        2 => parts.place = parts.place.wrapping_add(random.between(-3, 3) as u32),
        3 => parts.records.extend(random.some_bytes(4)),
        4 => {
            let kept = random.below(parts.records.len() + 1);
            parts.records.truncate(kept);
        }
        _ => {}
    }
    let mut capture = parts.capture();
    if random.one_in(4) {
        let place = random.below(capture.len());
        capture[place] = random.pick(&[0, 1, 2, 3, 8, 255]);
    }
    capture
}
