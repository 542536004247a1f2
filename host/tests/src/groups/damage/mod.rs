//! Damage on the RTU line that the CRC always shows: an odd number of flipped bits, and any
//! flips within 16 bits in a row. Bits count as they are sent, the lowest of each byte first.

mod bursts;
mod odd;

pub use bursts::bursts;
pub use odd::odd;

use super::several;
use crate::call::{Call, Function};
use crate::compare::Compare;
use crate::failure::{Checked, Failure};
use crate::random::Random;
use crate::shapes::{good_table, pattern};
use reference::modbus::with_crc;

/// The call that hears a right frame for address 1.
struct Sent(Call);

impl Sent {
    /// A frame of any length. One of 8 bytes would be acted on, and so would many of 11, 13, 15 and
    /// 17 bytes, which are writes of one register up to four.
    fn any(random: &mut Random, length: usize) -> Sent {
        if length >= 11 && length % 2 == 1 && random.one_in(2) {
            let start = random.pick(&[0x08, 0x0B, 0x10]);
            return Sent::several(random, start, (length - 9) / 2);
        }
        let mut body = vec![1, random.pick(&[0x03, 0x06, 0x08])];
        match body[1] {
            0x03 => body.extend([0, 0, 0, 20]),
            0x06 => body.extend([0, 0x13, 0, random.below(4) as u8]),
            _ => body.extend([0, 0, random.byte(), random.byte()]),
        }
        body.extend(random.bytes(length));
        body.truncate(length - 2);
        Sent::frame(random, with_crc(body))
    }

    /// A write of so many registers, which would be acted on where all can be written.
    fn several(random: &mut Random, start: u16, quantity: usize) -> Sent {
        let values = several::good(random, start, quantity);
        Sent::frame(random, several::right(1, start, &values))
    }

    fn frame(random: &mut Random, frame: Vec<u8>) -> Sent {
        Sent(Call {
            address: 1,
            table: good_table(random),
            reply: pattern(random, 256),
            input: frame,
            ..Call::new(Function::Rtu)
        })
    }

    fn bits(&self) -> usize {
        8 * self.0.input.len()
    }

    /// Hears the frame with these bits flipped. It must be refused as a wrong CRC, with no reply
    /// and nothing changed.
    fn flipped(&self, compare: &mut Compare, bits: &[usize]) -> Checked<()> {
        let mut call = self.0.clone();
        for bit in bits {
            call.input[bit / 8] ^= 1 << (bit % 8);
        }
        let heard = call.clone();
        let result = compare.call(&mut call)?;
        if result == 22 && call == heard {
            return Ok(());
        }
        Err(Failure::wrong(format!(
            "this damage is not refused\n{heard}"
        )))
    }

    /// Flips the bits that a pattern has, from a place on.
    fn burst(&self, compare: &mut Compare, at: usize, pattern: u32) -> Checked<()> {
        let set = (0..16).filter(|bit| pattern >> bit & 1 == 1);
        let bits: Vec<usize> = set.map(|bit| at + bit).collect();
        self.flipped(compare, &bits)
    }
}
