//! Captures of every size: up to the greatest, and beyond.

use super::{answers, asking, due, parts, tried, write, Recorded, DAMAGE};
use crate::compare::Compare;
use crate::failure::Checked;
use crate::groups::captures::{filling, full_session, Parts, ROOM};
use crate::random::Random;

/// Frames that write nothing, whose records fill so many bytes.
fn idle_filling(random: &mut Random, room: usize) -> Vec<Recorded> {
    let frames = filling(random, room);
    frames.into_iter().map(Recorded::idle).collect()
}

/// Small captures of every size, and those around the greatest: bytes that are all alike or
/// anything, and well formed ones with the write in front or behind. A capture that is too long is
/// refused though its last frame would answer.
pub fn sizes(compare: &mut Compare, random: &mut Random) -> Checked<()> {
    for size in (0..=48).chain(65_530..=65_545).chain([66_000]) {
        for fill in [0x00, 0x01, 0xFF] {
            tried(compare, random, vec![fill; size])?;
        }
        let noise = random.bytes(size);
        tried(compare, random, noise)?;
        filled(compare, random, size)?;
    }
    Ok(())
}

/// Well formed captures of this size, as far as it lets them be: a write and frames that write
/// nothing.
fn filled(compare: &mut Compare, random: &mut Random, size: usize) -> Checked<()> {
    let written = [write(random, 1, (0x10, 1))];
    let room = size.checked_sub(6 + parts(&written).records.len());
    // No record has 1 or 2 bytes.
    let idle = match room {
        None | Some(1 | 2) => return Ok(()),
        Some(room) => idle_filling(random, room),
    };
    for recorded in [
        [&written[..], &idle].concat(),
        [&idle[..], &written].concat(),
    ] {
        for item in [9, 10] {
            let told = if size <= 65_536 {
                due(&recorded, item)
            } else {
                DAMAGE
            };
            answers(compare, random, &parts(&recorded), item, told)?;
        }
    }
    Ok(())
}

/// As many records as there can be with the answer in the first one, and one more; sessions that
/// fill all room, and noise of as many bytes.
pub fn largest(compare: &mut Compare, random: &mut Random) -> Checked<()> {
    let mut recorded = vec![write(random, 1, (0x10, 1))];
    let left = ROOM - parts(&recorded).records.len();
    recorded.extend((0..left / 3).map(|_| Recorded::idle(vec![0x55])));
    for item in [9, 10] {
        many(compare, random, &recorded, item)?;
        let mut more = recorded.clone();
        more.push(Recorded::idle(vec![0x55]));
        answers(compare, random, &parts(&more), item, DAMAGE)?;
    }
    for _ in 0..20 {
        let capture = Parts::of(&full_session(random)).capture();
        for item in 1..=13 {
            compare.call(&mut asking(random, capture.clone(), item))?;
        }
        let noise = random.bytes(65_536);
        tried(compare, random, noise)?;
    }
    Ok(())
}

/// A capture of many records with the right count and with others, with a trailer that points far
/// away, and with another length of the first record.
fn many(
    compare: &mut Compare,
    random: &mut Random,
    recorded: &[Recorded],
    item: u32,
) -> Checked<()> {
    let right = parts(recorded);
    let told = due(recorded, item);
    answers(compare, random, &right, item, told)?;
    let uncounted = if item == 9 { told } else { DAMAGE };
    for count in [right.count - 1, right.count + 1, right.count % 256, 0] {
        let mut other = right.clone();
        other.count = count;
        answers(compare, random, &other, item, uncounted)?;
    }
    let mut far = right.clone();
    far.place += 65_536;
    answers(compare, random, &far, item, DAMAGE)?;
    let mut first = right.clone();
    first.records[recorded[0].frame.len() + 1] ^= 1;
    answers(compare, random, &first, item, DAMAGE)
}
