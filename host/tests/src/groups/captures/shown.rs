use super::{good, showing, Parts};
use crate::compare::Compare;
use crate::failure::{Checked, Failure};
use crate::groups::gives;
use crate::random::Random;

/// Every frame of a capture, and numbers that no frame has: 0, past the last, and those of which
/// some bits would be one of the capture.
pub fn shown(compare: &mut Compare, random: &mut Random) -> Checked<()> {
    for number in (0..=12).chain([255, 256, 257, 300]) {
        let mut frames = good(random, number);
        if number > 1 {
            frames[random.below(number)] = random.bytes(256);
        }
        let last = number as u32;
        for frame in 0..=last + 2 {
            shows(compare, random, &frames, frame)?;
        }
        for low in [0, 1, 2, last, last + 1] {
            for bit in 8..32 {
                shows(compare, random, &frames, low | 1 << bit)?;
            }
            shows(compare, random, &frames, 0_u32.wrapping_sub(low))?;
        }
    }
    Ok(())
}

/// Shows a frame of a capture of these frames: where it stands there, or place 0 and length 0.
fn shows(
    compare: &mut Compare,
    random: &mut Random,
    frames: &[Vec<u8>],
    frame: u32,
) -> Checked<()> {
    let capture = Parts::of(frames).capture();
    let before = (frame as usize).wrapping_sub(1);
    let (number, part) = match frames.get(before) {
        Some(frame) => (0, [Parts::of(&frames[..before]).records.len(), frame.len()]),
        None => (52, [0, 0]),
    };
    let call = gives(compare, showing(random, capture, frame), number)?;
    if call.table == part.map(|value| value as i32) {
        return Ok(());
    }
    Err(Failure::wrong(format!(
        "frame {frame} has place and length {part:?}\n{call}"
    )))
}
