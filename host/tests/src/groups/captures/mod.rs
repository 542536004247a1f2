//! Captures of RTU frames: which are well formed, what playing one back leaves, and each of their
//! frames shown.

mod any;
mod damaged;
mod largest;
mod parts;
mod played;
mod records;
mod sessions;
mod shown;
mod trailers;

pub use any::{any, any_capture, small, small_parts};
pub use damaged::{cut_and_doubled, damaged, flipped};
pub use largest::{full_session, largest, ROOM};
pub use parts::{filling, good, Parts};
pub use played::{addresses, lent, overwritten};
pub use records::{lengths, sizes};
pub use sessions::{any_frame, any_session, sessions};
pub use shown::shown;
pub use trailers::{near_counts, near_places, trailers};

use super::gives;
use crate::call::{Call, Function};
use crate::compare::Compare;
use crate::failure::Checked;
use crate::random::Random;

/// The call that plays a capture back at address 1, into a table of anything.
pub fn playback(random: &mut Random, capture: Vec<u8>) -> Call {
    Call {
        address: 1,
        table: (0..13).map(|_| random.word() as i32).collect(),
        input: capture,
        ..Call::new(Function::Playback)
    }
}

/// The call that shows a frame of a capture. Place and length are anything before.
pub fn showing(random: &mut Random, capture: Vec<u8>, frame: u32) -> Call {
    Call {
        frame,
        table: vec![random.word() as i32, random.word() as i32],
        input: capture,
        ..Call::new(Function::Show)
    }
}

/// A capture that is not well formed, whatever frame of it is to be shown.
fn refused(compare: &mut Compare, random: &mut Random, capture: Vec<u8>) -> Checked<()> {
    gives(compare, playback(random, capture.clone()), 51)?;
    let frame = random.pick(&[0, 1, 2, 3, u32::MAX]);
    gives(compare, showing(random, capture, frame), 51)?;
    Ok(())
}

/// A well formed capture of so many frames: it is played, its last frame is shown, and there is
/// none behind that.
fn taken(
    compare: &mut Compare,
    random: &mut Random,
    capture: Vec<u8>,
    frames: usize,
) -> Checked<()> {
    gives(compare, playback(random, capture.clone()), 0)?;
    let frames = frames as u32;
    let last = showing(random, capture.clone(), frames);
    gives(compare, last, if frames == 0 { 52 } else { 0 })?;
    gives(compare, showing(random, capture, frames + 1), 52)?;
    Ok(())
}

/// A capture in its parts, that is well formed or not.
fn due(
    compare: &mut Compare,
    random: &mut Random,
    parts: &Parts,
    well_formed: bool,
) -> Checked<()> {
    if well_formed {
        taken(compare, random, parts.capture(), usize::from(parts.count))
    } else {
        refused(compare, random, parts.capture())
    }
}

/// Plays a capture back and shows one of its first frames, whatever that gives.
fn tried(compare: &mut Compare, random: &mut Random, capture: Vec<u8>) -> Checked<()> {
    compare.call(&mut playback(random, capture.clone()))?;
    let frame = random.below(5) as u32;
    compare.call(&mut showing(random, capture, frame))?;
    Ok(())
}
