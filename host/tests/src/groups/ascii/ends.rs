//! What a line ends with.

use super::{handed, lines};
use crate::compare::Compare;
use crate::failure::Checked;
use crate::random::Random;

/// Every two bytes at the end of a line in place of CR and LF; every byte before them, between them
/// and behind them; one byte of them, and none.
pub fn every_end(compare: &mut Compare, random: &mut Random) -> Checked<()> {
    let lines = lines(random);
    for first in 0..=255 {
        for line in &lines {
            let line = &line[..line.len() - 2];
            for end in [
                &[first][..],
                &[first, b'\r', b'\n'],
                &[b'\r', first, b'\n'],
                &[b'\r', b'\n', first],
                &[b'\r', b'\n', first, b'\r', b'\n'],
                &[],
            ] {
                handed(compare, random, 1, [line, end].concat())?;
            }
        }
        for second in 0..=255 {
            let line = &lines[random.below(lines.len())];
            let line = &line[..line.len() - 2];
            handed(compare, random, 1, [line, &[first, second]].concat())?;
        }
    }
    Ok(())
}

/// Text behind CR and LF, of every length up to 600: the end once more, what a reader may pass over,
/// digits, lines without their colon. CR and LF stand at the end of it or not.
pub fn texts(compare: &mut Compare, random: &mut Random) -> Checked<()> {
    let lines = lines(random);
    for length in 1..=600 {
        for kind in 0..7 {
            let line = &lines[random.below(lines.len())];
            let other = &lines[random.below(lines.len())][1..];
            let pattern: &[u8] = match kind {
                0 => b"\r\n",
                1 => b"\n",
                2 => b"\0",
                3 => b" ",
                4 => b"0123456789ABCDEF",
                5 => b"\xBA\x8D\x8A",
                _ => other,
            };
            let text: Vec<u8> = pattern.iter().cycle().take(length).copied().collect();
            handed(compare, random, 1, [line, &text[..]].concat())?;
            handed(compare, random, 1, [line, &text[..], b"\r\n"].concat())?;
        }
    }
    Ok(())
}
