use super::Sent;
use crate::compare::Compare;
use crate::failure::Checked;
use crate::groups::several::WRITABLE;
use crate::random::Random;

/// Every single bit of a frame of every length, of a write of each quantity of registers, and of each
/// that would be acted on; then any odd number of bits.
pub fn odd(compare: &mut Compare, random: &mut Random) -> Checked<()> {
    for length in 4..=256 {
        each_bit(compare, Sent::any(random, length))?;
    }
    let quantities = (1..=123).map(|quantity| (0x10, quantity));
    for (start, quantity) in WRITABLE.into_iter().chain(quantities) {
        each_bit(compare, Sent::several(random, start, quantity))?;
    }
    for _ in 0..60_000 {
        let length = random.pick(&[4, 5, 6, 7, 8, 8, 8, 11, 13, 15, 17, 64, 255, 256]);
        let sent = Sent::any(random, length);
        let number = 2 * random.below(16) + 1;
        sent.flipped(compare, &different(random, number, sent.bits()))?;
    }
    Ok(())
}

fn each_bit(compare: &mut Compare, sent: Sent) -> Checked<()> {
    for bit in 0..sent.bits() {
        sent.flipped(compare, &[bit])?;
    }
    Ok(())
}

/// This many different bits of a frame.
fn different(random: &mut Random, number: usize, bits: usize) -> Vec<usize> {
    let mut chosen = vec![];
    while chosen.len() < number {
        let bit = random.below(bits);
        if !chosen.contains(&bit) {
            chosen.push(bit);
        }
    }
    chosen
}
