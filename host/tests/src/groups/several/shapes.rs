//! Requests whose quantity, count and length do not fit each other.

use super::{bytes, good, request, right};
use crate::compare::Compare;
use crate::failure::Checked;
use crate::groups::requests::handed;
use crate::random::Random;
use reference::modbus::with_crc;

/// Where writable registers start, and registers that are not: read-only, unlisted and past the map.
const STARTS: [u16; 10] = [0x08, 0x0B, 0x0C, 0x10, 0x11, 0x12, 0x13, 0x00, 0x0D, 0xFFFF];

/// The least quantities, the greatest and those beside them, and some with the low byte of small
/// ones.
const QUANTITIES: [u16; 12] = [0, 1, 2, 3, 4, 5, 122, 123, 124, 0x0101, 0x0103, 0x0104];

/// Every count, with the length of the quantity's low byte and with its own; then every count and
/// length up to those of some registers.
pub fn counts(compare: &mut Compare, random: &mut Random) -> Checked<()> {
    for start in STARTS {
        for quantity in QUANTITIES {
            for count in 0..=255 {
                for length in [2 * usize::from(quantity as u8), usize::from(count)] {
                    shaped(compare, random, start, quantity, count, length)?;
                }
            }
        }
        for quantity in 0..=5 {
            for count in 0..=12 {
                for length in 0..=14 {
                    shaped(compare, random, start, quantity, count, length)?;
                }
            }
        }
    }
    Ok(())
}

/// A request with data of this many bytes, which are good values as far as they go.
fn shaped(
    compare: &mut Compare,
    random: &mut Random,
    start: u16,
    quantity: u16,
    count: u8,
    length: usize,
) -> Checked<()> {
    let mut data = bytes(&good(random, start, length / 2 + 1));
    data.truncate(length);
    let frame = request(1, start, quantity, count, &data);
    handed(compare, random, 1, frame)
}

/// Right requests of every quantity, and with some bytes less or more. Short ones are cut behind each
/// byte.
pub fn lengths(compare: &mut Compare, random: &mut Random) -> Checked<()> {
    for start in STARTS {
        for quantity in 1..=123 {
            let frame = right(1, start, &good(random, start, quantity));
            let whole = frame.len() - 2;
            let least = if quantity <= 6 { 2 } else { whole - 3 };
            for length in least..=whole + 3 {
                let mut body = frame[..whole].to_vec();
                body.resize(length, 0);
                handed(compare, random, 1, with_crc(body))?;
            }
        }
    }
    Ok(())
}
