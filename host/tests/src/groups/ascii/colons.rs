//! Colons, and what stands before the last one.

use super::{handed, lines};
use crate::compare::Compare;
use crate::failure::Checked;
use crate::random::Random;
use reference::ascii::line_of;

/// One colon and more in every place of a line, before what is there and instead of it; two in every
/// two places.
pub fn inside(compare: &mut Compare, random: &mut Random) -> Checked<()> {
    for line in lines(random) {
        for place in 0..=line.len() {
            let (front, back) = line.split_at(place);
            for number in 1..=4 {
                let colons = vec![b':'; number];
                handed(compare, random, 1, [front, &colons, back].concat())?;
                let rest = &back[number.min(back.len())..];
                handed(compare, random, 1, [front, &colons, rest].concat())?;
            }
            for second in place..=line.len() {
                let mut two = line.clone();
                two.insert(second, b':');
                two.insert(place, b':');
                handed(compare, random, 1, two)?;
            }
        }
    }
    Ok(())
}

/// Two lines in one call: a write, and of another one as much as up to each of its places or from it
/// on, before the write and behind it. Of what is before the last colon nothing may be done.
pub fn behind(compare: &mut Compare, random: &mut Random) -> Checked<()> {
    let first = line_of(vec![1, 0x06, 0, 0x10, 0xFF, 0x6A]);
    for second in lines(random) {
        for place in 0..=second.len() {
            let (front, back) = second.split_at(place);
            for line in [
                [&first, front].concat(),
                [&first, back].concat(),
                [front, &first].concat(),
                [back, &first].concat(),
                [&first[..first.len() - 2], front].concat(),
                [&first[..first.len() - 2], back].concat(),
                [front, &second].concat(),
                [back, &second].concat(),
            ] {
                handed(compare, random, 1, line)?;
            }
        }
        for three in [
            [&first[..], &first, &second],
            [&first, &second, &first],
            [&second, &second, &first],
        ] {
            handed(compare, random, 1, three.concat())?;
        }
    }
    Ok(())
}

/// Something of this length that may stand before a line.
fn front(random: &mut Random, kind: usize, length: usize) -> Vec<u8> {
    let mut from = random.bytes(length);
    for byte in &mut from {
        *byte = match kind {
            0 => 0,
            1 => b':',
            2 => random.pick(b"0123456789ABCDEF"),
            3 => random.pick(b"\r\n"),
            4 => *byte | 0x80,
            5 => random.pick(b":0123456789ABCDEF\r\n"),
            _ => *byte,
        };
    }
    from
}

/// Fronts of every length up to 600, of each kind, before a right line; some of them are lines.
pub fn fronts(compare: &mut Compare, random: &mut Random) -> Checked<()> {
    let lines = lines(random);
    for length in 0..=600 {
        for kind in 0..7 {
            let line = &lines[random.below(lines.len())];
            let from = front(random, kind, length);
            handed(compare, random, 1, [&from[..], line].concat())?;
            // Without the line's own colon.
            handed(compare, random, 1, [&from[..], &line[1..]].concat())?;
        }
        let line = &lines[random.below(lines.len())];
        let mut before = vec![];
        while before.len() < length {
            before.extend(&lines[random.below(lines.len())]);
        }
        let before = &before[before.len() - length..];
        handed(compare, random, 1, [before, line].concat())?;
    }
    Ok(())
}

/// Much longer fronts, around the numbers at which a place in few bits goes round, before some line
/// and before the longest one.
pub fn long_fronts(compare: &mut Compare, random: &mut Random) -> Checked<()> {
    let mut message = vec![0; 254];
    message[..2].copy_from_slice(&[1, 0x07]);
    let longest = line_of(message);
    let lines = lines(random);
    let around = [767, 1000, 1023, 2047, 4095, 32_767, 65_023, 65_535];
    for length in around.into_iter().flat_map(|all| all - 2..=all + 2) {
        for kind in 0..7 {
            for line in [&lines[random.below(lines.len())], &longest] {
                let from = front(random, kind, length);
                handed(compare, random, 1, [&from[..], line].concat())?;
            }
        }
    }
    Ok(())
}
