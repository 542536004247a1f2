use super::Sent;
use crate::compare::Compare;
use crate::failure::Checked;
use crate::random::Random;

/// Short frames: bursts of each width at every place, all patterns of up to 12 bits and some of
/// each greater width; fewer for each length of a write of several registers that would be acted on.
/// Long frames: any burst at any place.
pub fn bursts(compare: &mut Compare, random: &mut Random) -> Checked<()> {
    for length in 4..=8 {
        let sent = Sent::any(random, length);
        bursts_in(compare, random, &sent, 12, 300)?;
    }
    for (start, quantity) in [(0x08, 1), (0x0B, 2), (0x11, 3), (0x10, 4)] {
        let sent = Sent::several(random, start, quantity);
        bursts_in(compare, random, &sent, 6, 16)?;
    }
    for _ in 0..30_000 {
        let length = 9 + random.below(248);
        let sent = Sent::any(random, length);
        let width = 1 + random.below(16);
        let at = random.below(sent.bits() - width + 1);
        let pattern = with_both_ends(random, width);
        sent.burst(compare, at, pattern)?;
    }
    Ok(())
}

/// At every place of a frame all patterns of up to `all` bits, and `some` of each greater width.
fn bursts_in(
    compare: &mut Compare,
    random: &mut Random,
    sent: &Sent,
    all: usize,
    some: usize,
) -> Checked<()> {
    for at in 0..sent.bits() {
        let widest = 16.min(sent.bits() - at);
        for width in 1..=widest.min(all) {
            let ends = 1 | 1 << (width - 1);
            for pattern in (1..1 << width).filter(|pattern| pattern & ends == ends) {
                sent.burst(compare, at, pattern)?;
            }
        }
        for width in all + 1..=widest {
            for _ in 0..some {
                let pattern = with_both_ends(random, width);
                sent.burst(compare, at, pattern)?;
            }
        }
    }
    Ok(())
}

/// A pattern of this many bits, the first and the last of them set.
fn with_both_ends(random: &mut Random, width: usize) -> u32 {
    let ends = 1 | 1 << (width - 1);
    let inside = random.word() & ((1 << (width - 1)) - 1);
    ends | inside
}
