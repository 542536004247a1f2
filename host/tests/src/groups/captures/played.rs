//! What a playback leaves: each entry as the last write that was accepted has it, in whatever table
//! is lent.

use super::sessions::session;
use super::{good, playback, Parts};
use crate::call::Call;
use crate::compare::Compare;
use crate::failure::Checked;
use crate::groups::gives;
use crate::groups::requests::words;
use crate::groups::several::{self, WRITABLE};
use crate::random::Random;
use crate::shapes::bad_table;
use reference::items::ITEMS;
use reference::modbus::with_crc;

/// Each span that can be written, after each other and after itself, with a frame before, between
/// or behind them that leaves the table.
pub fn overwritten(compare: &mut Compare, random: &mut Random) -> Checked<()> {
    for first in WRITABLE {
        for second in WRITABLE {
            for idle in idle_frames(random) {
                let [first, second] = [first, second].map(|span| written(random, span));
                for frames in [
                    vec![first.clone(), second.clone()],
                    vec![first.clone(), idle.clone(), second.clone()],
                    vec![idle.clone(), first.clone(), second.clone()],
                    vec![first, second, idle],
                ] {
                    session(compare, random, 1, &frames)?;
                }
            }
        }
    }
    Ok(())
}

/// A write of a span.
fn written(random: &mut Random, (start, quantity): (u16, usize)) -> Vec<u8> {
    let values = several::good(random, start, quantity);
    several::by_either(random, 1, start, &values)
}

/// Frames that leave the table: of one byte and of 256, a read, a loopback, one for another address
/// and one that is damaged, both of which would be accepted, and those that are refused for their
/// function, a register and a value.
fn idle_frames(random: &mut Random) -> [Vec<u8>; 9] {
    let mut damaged = several::accepted(random, 1);
    damaged[7] ^= 1 << random.below(8);
    [
        vec![1],
        random.bytes(256),
        words(1, 0x03, 0, 20),
        words(1, 0x08, 0, 0x1F34),
        several::accepted(random, 2),
        damaged,
        with_crc(vec![1, 0x07]),
        words(1, 0x06, 0, 1),
        words(1, 0x06, 0x13, 4),
    ]
}

/// Tables of every length, with entries that are good, beside their range and anything.
pub fn lent(compare: &mut Compare, random: &mut Random) -> Checked<()> {
    for length in 0..=30 {
        for _ in 0..10 {
            let capture = Parts::of(&good(random, 3)).capture();
            let mut table = bad_table(random);
            table.resize_with(length, || random.word() as i32);
            let call = Call {
                table,
                ..playback(random, capture)
            };
            gives(compare, call, u32::from(length != 13))?;
        }
    }
    for (place, row) in ITEMS.iter().enumerate() {
        for entry in [i32::MIN, row.low - 1, row.low, row.high, row.high + 1] {
            let capture = Parts::of(&good(random, 3)).capture();
            let mut call = playback(random, capture);
            call.table = bad_table(random);
            call.table[place] = entry;
            gives(compare, call, 0)?;
        }
    }
    Ok(())
}

/// Every address, with writes for it, for those beside it, for 0 and for 255.
pub fn addresses(compare: &mut Compare, random: &mut Random) -> Checked<()> {
    for address in 0..=255_u8 {
        for _ in 0..4 {
            let beside = [address.wrapping_sub(1), address.wrapping_add(1), 0, 255];
            let frames: Vec<Vec<u8>> = (0..6)
                .map(|_| {
                    let other = random.pick(&beside);
                    let to = random.pick(&[address, other]);
                    several::accepted(random, to)
                })
                .collect();
            let call = Call {
                address,
                ..playback(random, Parts::of(&frames).capture())
            };
            let number = if (1..=99).contains(&address) { 0 } else { 4 };
            gives(compare, call, number)?;
        }
    }
    Ok(())
}
