//! The LRC.

use super::{handed, messages};
use crate::compare::Compare;
use crate::failure::Checked;
use crate::random::Random;
use reference::ascii::{in_characters, line_of, lrc};
use reference::modbus::crc;

/// Every LRC behind messages that have each of them once, for this device and for others. The right
/// line also with one of its characters left out.
pub fn every_lrc(compare: &mut Compare, random: &mut Random) -> Checked<()> {
    for last in 0..=255 {
        for check in 0..=255 {
            let address = random.pick(&[1, 1, 1, 0, 2]);
            let bytes = [address, 0x08, 0, 0, random.pick(&[0, 0x1F]), last, check];
            handed(compare, random, 1, in_characters(&bytes))?;
        }
        let line = line_of(vec![1, 0x08, 0, 0, 0x1F, last]);
        for place in 0..line.len() {
            let mut shorter = line.clone();
            shorter.remove(place);
            handed(compare, random, 1, shorter)?;
        }
        handed(compare, random, 1, line)?;
    }
    Ok(())
}

/// Messages with what another reader may take for their LRC.
pub fn other_checks(compare: &mut Compare, random: &mut Random) -> Checked<()> {
    for address in [1, 2, 0x0F, 98, 99] {
        for message in messages(random, address) {
            for check in checks(&message) {
                let line = in_characters(&[&message[..], &check].concat());
                handed(compare, random, address, line)?;
            }
        }
    }
    Ok(())
}

/// The CRC or a part of it, nothing, and sums that have more or less in them: the colon, CR and LF, all
/// three, the address, the last byte, one, the top bit.
fn checks(message: &[u8]) -> Vec<Vec<u8>> {
    let [low, high] = crc(message);
    let mut checks = vec![vec![low, high], vec![high, low], vec![low], vec![high]];
    checks.push(vec![]);
    let (first, last) = (message[0], message[message.len() - 1]);
    for sum in sums(message) {
        for more in [0, b':', 0x17, 0x51, first, last, 1, 0x80] {
            checks.push(vec![sum.wrapping_add(more)]);
            checks.push(vec![sum.wrapping_sub(more)]);
        }
    }
    checks
}

/// The LRC, the sum itself, its bits turned, the same with carries added, the LRC of the characters,
/// and the exclusive or.
fn sums(message: &[u8]) -> [u8; 7] {
    let right = lrc(message);
    let sum = right.wrapping_neg();
    let whole: u32 = message.iter().map(|byte| u32::from(*byte)).sum();
    let carried = (whole % 255) as u8;
    let characters = lrc(&in_characters(message));
    let either = message.iter().fold(0, |sum, byte| sum ^ byte);
    [right, sum, !sum, carried, !carried, characters, either]
}
