//! Right requests: every span of registers, with values in and beside their range.

use super::{bytes, good, registers, request, right, WRITABLE};
use crate::call::{Call, Function};
use crate::compare::Compare;
use crate::failure::Checked;
use crate::groups::requests::handed;
use crate::random::Random;
use crate::shapes::{good_table, pattern, set};
use reference::items::{with_register, ITEMS};

/// Starts far from the map, some with a byte of a writable register in it.
const FAR: [u16; 10] = [
    0x00FF, 0x0100, 0x0108, 0x0110, 0x0800, 0x0B00, 0x1000, 0x7FFF, 0x8000, 0x8010,
];

/// Quantities that are far too many. The low byte of some, or of their double, is that of a few.
const MANY: [u16; 16] = [
    127, 128, 129, 130, 131, 255, 256, 257, 258, 259, 0x0301, 0x8000, 0x8001, 0x8002, 0x8003,
    0xFFFF,
];

/// Spans that cannot be written: some with a register in them that could be, some with none.
const SPOILED: [(u16, usize); 9] = [
    (0x03, 2),
    (0x04, 2),
    (0x07, 2),
    (0x08, 2),
    (0x0A, 2),
    (0x0C, 2),
    (0x0C, 3),
    (0x0F, 2),
    (0x13, 2),
];

/// Every span in and around the map and up to FFFFH. No value is out of range, one in each place, or
/// some.
pub fn spans(compare: &mut Compare, random: &mut Random) -> Checked<()> {
    for start in (0..=0x15).chain(0xFFF0..=0xFFFF).chain(FAR) {
        for quantity in (0..=25).chain(122..=125).chain(MANY) {
            span(compare, random, start, quantity, &[])?;
            let places = places(quantity);
            for place in (0..places).step_by(1 + places / 26) {
                span(compare, random, start, quantity, &[place])?;
            }
            for _ in 0..3 {
                let some: Vec<usize> = (0..places).filter(|_| random.one_in(2)).collect();
                span(compare, random, start, quantity, &some)?;
            }
        }
    }
    Ok(())
}

/// How many values come with a quantity: as many as the low byte of its double counts. Up to 127
/// these are all.
fn places(quantity: u16) -> usize {
    usize::from(quantity % 128)
}

/// A span with good values but in these places.
fn span(
    compare: &mut Compare,
    random: &mut Random,
    start: u16,
    quantity: u16,
    bad: &[usize],
) -> Checked<()> {
    let mut values = good(random, start, places(quantity));
    for place in bad {
        let [low, high, ..] = edges_of(start.wrapping_add(*place as u16));
        values[*place] = random.pick(&[low, high, 0x7FFF, 0x8000]);
    }
    let data = bytes(&values);
    let frame = request(1, start, quantity, data.len() as u8, &data);
    handed(compare, random, 1, frame)
}

/// Values on both sides of both ends of a register's range, the outer ones first, and those where the
/// sign turns.
fn edges_of(register: u16) -> [u16; 8] {
    let row = &ITEMS[with_register(register).unwrap_or(1) - 1];
    let (low, high) = (row.low as u16, row.high as u16);
    [
        low.wrapping_sub(1),
        high + 1,
        low,
        high,
        0,
        0x7FFF,
        0x8000,
        0xFFFF,
    ]
}

/// Each register in and beside the map alone with such values, and every mixture of them in spans
/// that can be written and in some that cannot.
pub fn edges(compare: &mut Compare, random: &mut Random) -> Checked<()> {
    let alone = (0..=0x15).map(|register| (register, 1));
    let together = WRITABLE.into_iter().filter(|span| span.1 > 1);
    for (start, quantity) in alone.chain(together).chain(SPOILED) {
        for mixture in 0..8_usize.pow(quantity as u32) {
            let values: Vec<u16> = registers(start, quantity)
                .zip(0..)
                .map(|(register, place)| edges_of(register)[mixture >> (3 * place) & 7])
                .collect();
            handed(compare, random, 1, right(1, start, &values))?;
        }
    }
    Ok(())
}

/// Each span that can be written, with each entry of the table at both ends of its range and one step
/// beyond, whether the write would mend it or not, and with buffers on both sides of 256 bytes.
pub fn lent(compare: &mut Compare, random: &mut Random) -> Checked<()> {
    for (start, quantity) in WRITABLE {
        for (row, item) in ITEMS.iter().zip(1..) {
            for entry in [row.low - 1, row.low, row.high, row.high + 1] {
                for length in [255, 256, 300] {
                    let mut table = good_table(random);
                    set(&mut table, item, entry);
                    let values = good(random, start, quantity);
                    compare.call(&mut Call {
                        address: 99,
                        table,
                        reply: pattern(random, length),
                        input: right(99, start, &values),
                        ..Call::new(Function::Rtu)
                    })?;
                }
            }
        }
    }
    Ok(())
}
