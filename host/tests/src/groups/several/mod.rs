//! Writes of several registers, 10H: all of them are written or none.

mod shapes;
mod values;

pub use shapes::{counts, lengths};
pub use values::{edges, lent, spans};

use super::requests::{handed, spoiled, words};
use crate::compare::Compare;
use crate::failure::Checked;
use crate::random::Random;
use crate::shapes::{any_value, good_value};
use reference::items::with_register;
use reference::modbus::with_crc;

/// Start and quantity of each span of writable registers alone.
pub const WRITABLE: [(u16, usize); 15] = [
    (0x08, 1),
    (0x0B, 1),
    (0x0B, 2),
    (0x0C, 1),
    (0x0E, 1),
    (0x10, 1),
    (0x10, 2),
    (0x10, 3),
    (0x10, 4),
    (0x11, 1),
    (0x11, 2),
    (0x11, 3),
    (0x12, 1),
    (0x12, 2),
    (0x13, 1),
];

/// A request whose parts may not fit each other.
pub fn request(address: u8, start: u16, quantity: u16, count: u8, data: &[u8]) -> Vec<u8> {
    let mut body = vec![address, 0x10];
    body.extend(start.to_be_bytes());
    body.extend(quantity.to_be_bytes());
    body.push(count);
    body.extend(data);
    with_crc(body)
}

/// A request with the quantity, the count and the length of its values.
pub fn right(address: u8, start: u16, values: &[u16]) -> Vec<u8> {
    let data = bytes(values);
    request(address, start, values.len() as u16, data.len() as u8, &data)
}

/// A write of these values, by either function where it is one register.
pub fn by_either(random: &mut Random, address: u8, start: u16, values: &[u16]) -> Vec<u8> {
    if values.len() == 1 && random.one_in(2) {
        words(address, 0x06, start, values[0])
    } else {
        right(address, start, values)
    }
}

/// A request that writes any span that can be written.
pub fn accepted(random: &mut Random, address: u8) -> Vec<u8> {
    let (start, quantity) = random.pick(&WRITABLE);
    right(address, start, &good(random, start, quantity))
}

/// Values for a span of registers, in range for all that have one.
pub fn good(random: &mut Random, start: u16, quantity: usize) -> Vec<u16> {
    registers(start, quantity)
        .map(|register| match with_register(register) {
            Some(item) => good_value(random, item) as u16,
            None => random.word() as u16,
        })
        .collect()
}

/// The registers of a span, which for the sake of its values may go round.
fn registers(start: u16, quantity: usize) -> impl Iterator<Item = u16> {
    (0..quantity).map(move |place| start.wrapping_add(place as u16))
}

/// The values as they are sent.
fn bytes(values: &[u16]) -> Vec<u8> {
    values
        .iter()
        .flat_map(|value| value.to_be_bytes())
        .collect()
}

/// Every address in the frame of a write that is accepted at its own.
pub fn addresses(compare: &mut Compare, random: &mut Random) -> Checked<()> {
    for address in 0..=255 {
        for ours in [1, 98, 99] {
            let frame = accepted(random, address);
            handed(compare, random, ours, frame)?;
        }
    }
    Ok(())
}

/// Any request, half of the time with something that has happened to it.
pub fn any(compare: &mut Compare, random: &mut Random) -> Checked<()> {
    for _ in 0..40_000 {
        let mut frame = any_request(random, 1);
        if random.one_in(2) {
            frame = spoiled(random, frame);
        }
        handed(compare, random, 1, frame)?;
    }
    Ok(())
}

/// A request that often can be written, and else has any registers and values. Now and then its
/// quantity or its count is another one.
pub fn any_request(random: &mut Random, address: u8) -> Vec<u8> {
    let (start, quantity) = match random.below(6) {
        0 => (random.word() as u16, random.below(124)),
        1 => (random.below(0x15) as u16, random.below(22)),
        _ => random.pick(&WRITABLE),
    };
    let mut values = good(random, start, quantity);
    for (register, value) in registers(start, quantity).zip(values.iter_mut()) {
        if random.one_in(6) {
            *value = any_value(random, with_register(register).unwrap_or(1)) as u16;
        }
    }
    let (quantity, count) = match random.below(16) {
        0 => (random.word() as u16, 2 * quantity as u8),
        1 => (quantity as u16, random.byte()),
        _ => (quantity as u16, 2 * quantity as u8),
    };
    request(address, start, quantity, count, &bytes(&values))
}
