//! Other characters in right lines.

use super::{handed, lines};
use crate::compare::Compare;
use crate::failure::Checked;
use crate::random::Random;

/// Every byte in every place of a line, in place of what is there and before it; and every place
/// left out.
pub fn every_character(compare: &mut Compare, random: &mut Random) -> Checked<()> {
    for line in lines(random) {
        for place in 0..line.len() {
            let mut shorter = line.clone();
            shorter.remove(place);
            handed(compare, random, 1, shorter)?;
            for character in 0..=255 {
                let mut other = line.clone();
                other[place] = character;
                handed(compare, random, 1, other)?;
                let mut longer = line.clone();
                longer.insert(place, character);
                handed(compare, random, 1, longer)?;
            }
        }
    }
    Ok(())
}

/// Two neighbouring characters changed over, in lower case, with their top bits set, left out, or
/// with something before, between and behind them that a reader may pass over.
pub fn two_characters(compare: &mut Compare, random: &mut Random) -> Checked<()> {
    for line in lines(random) {
        for place in 0..line.len() - 1 {
            let (front, rest) = line.split_at(place);
            let (two, back) = rest.split_at(2);
            let [first, second] = [two[0], two[1]];
            let mut parts = vec![
                vec![second, first],
                vec![first | 0x20, second | 0x20],
                vec![first | 0x80, second | 0x80],
                vec![],
            ];
            for other in *b" \t\r\n\0-_,.xXhH\x7F" {
                parts.push(vec![other, first, second]);
                parts.push(vec![first, other, second]);
                parts.push(vec![other, first, second, other]);
                parts.push(vec![first, second, other, other]);
                parts.push(vec![other, other]);
            }
            for part in parts {
                handed(compare, random, 1, [front, &part, back].concat())?;
            }
        }
        // All in lower case, and all with the top bit set.
        handed(compare, random, 1, line.to_ascii_lowercase())?;
        let top = line.iter().map(|character| character | 0x80);
        handed(compare, random, 1, top.collect())?;
    }
    Ok(())
}

/// Every single bit of a line flipped, and every two.
pub fn bits(compare: &mut Compare, random: &mut Random) -> Checked<()> {
    for line in lines(random) {
        let bits = 8 * line.len();
        for first in 0..bits {
            handed(compare, random, 1, flipped(&line, &[first]))?;
            for second in first + 1..bits {
                handed(compare, random, 1, flipped(&line, &[first, second]))?;
            }
        }
    }
    Ok(())
}

fn flipped(line: &[u8], bits: &[usize]) -> Vec<u8> {
    let mut damaged = line.to_vec();
    for bit in bits {
        damaged[bit / 8] ^= 1 << (bit % 8);
    }
    damaged
}
