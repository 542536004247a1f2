use super::{good, tried, Parts};
use crate::compare::Compare;
use crate::failure::Checked;
use crate::random::Random;

/// Short captures with each byte changed to each value, each one lost and each one doubled, and cut
/// off before each place and behind it. Long ones with some bits flipped in any places.
pub fn damaged(compare: &mut Compare, random: &mut Random) -> Checked<()> {
    for number in 1..=6 {
        let whole = Parts::of(&good(random, number)).capture();
        each_value(compare, random, &whole)?;
        for capture in cut_and_doubled(&whole) {
            tried(compare, random, capture)?;
        }
    }
    for _ in 0..10_000 {
        let number = 1 + random.below(300);
        let capture = Parts::of(&good(random, number)).capture();
        let capture = flipped(random, capture);
        tried(compare, random, capture)?;
    }
    Ok(())
}

/// A capture with one or two bits flipped in any places.
pub fn flipped(random: &mut Random, mut capture: Vec<u8>) -> Vec<u8> {
    for _ in 0..1 + random.below(2) {
        let place = random.below(capture.len());
        capture[place] ^= 1 << random.below(8);
    }
    capture
}

fn each_value(compare: &mut Compare, random: &mut Random, whole: &[u8]) -> Checked<()> {
    for place in 0..whole.len() {
        for value in 0..=255 {
            let mut capture = whole.to_vec();
            capture[place] = value;
            tried(compare, random, capture)?;
        }
    }
    Ok(())
}

/// A capture cut off before each place and behind it, with each byte lost and each one doubled.
pub fn cut_and_doubled(whole: &[u8]) -> impl Iterator<Item = Vec<u8>> + '_ {
    (0..whole.len()).flat_map(|place| {
        let (front, back) = whole.split_at(place);
        [
            front.to_vec(),
            back.to_vec(),
            [front, &back[1..]].concat(),
            [front, &back[..1], back].concat(),
        ]
    })
}
