//! Writes of several registers, 10H: all of them or none.

use crate::rtu::{ask, exception, WRITABLE};
use crate::*;
use reference::modbus::with_crc;

/// The writable registers that stand beside each other: the first, and how many.
const RUNS: [(u16, usize); 4] = [(0x08, 1), (0x0B, 2), (0x0E, 1), (0x10, 4)];

/// PB -1.50, PR 1.200 and F1 50 written together.
const THREE: [u8; 13] = [
    1, 0x10, 0x00, 0x10, 0x00, 0x03, 0x06, 0xFF, 0x6A, 0x04, 0xB0, 0x00, 0x32,
];

/// A body with the quantity, the byte count and the length of its values.
fn several(start: u16, values: &[i16]) -> Vec<u8> {
    let quantity = values.len() as u8;
    let mut body = vec![1, 0x10];
    body.extend(start.to_be_bytes());
    body.extend([0, quantity, 2 * quantity]);
    for value in values {
        body.extend(value.to_be_bytes());
    }
    body
}

/// Number and high of the writable item with this register.
fn with_register(register: u16) -> Option<(usize, i16)> {
    let row = WRITABLE.iter().find(|row| u16::from(row.0) == register);
    row.map(|row| (row.1, row.3))
}

/// A value for each register of a span: another one for each, and in range for the writable.
fn good(start: u16, quantity: usize) -> Vec<i16> {
    let registers = (start..).take(quantity);
    registers
        .map(|register| with_register(register).map_or(0, |(_, high)| high - (register % 4) as i16))
        .collect()
}

/// A write that is answered. All other entries stay, AA and AB as long as they are true.
fn written(start: u16, values: &[i16]) {
    let body = several(start, values);
    let mut link = Link::start();
    assert_eq!(ask(&mut link, &body), (0, body[..6].to_vec()));
    let mut expected = START;
    for (register, value) in (start..).zip(values) {
        let (item, _) = with_register(register).expect("a writable register");
        expected[item - 1] = i32::from(*value);
    }
    assert_eq!(link.table, agreeing(expected));
}

#[test]
fn the_reply_repeats_start_and_quantity() {
    let mut link = Link::start();
    let reply = vec![1, 0x10, 0x00, 0x10, 0x00, 0x03];
    assert_eq!(ask(&mut link, &THREE), (0, reply));
    assert_eq!(
        link.table,
        [0, 0, 0, 0, 0, 0, 500, 500, -150, 1200, 50, 0, 1]
    );
    // 03H reads them back.
    let mut read = vec![1, 0x03];
    read.extend(&THREE[6..]);
    assert_eq!(ask(&mut link, &[1, 3, 0, 0x10, 0, 3]), (0, read));
}

#[test]
fn an_alarm_state_follows_the_level_that_was_written() {
    let mut link = Link::start();
    let body = several(0x0B, &[-1, 0]);
    assert_eq!(ask(&mut link, &body), (0, body[..6].to_vec()));
    // M1 0 has reached A1 0 and not A2 50.0.
    let read = vec![1, 3, 4, 0, 1, 0, 0];
    assert_eq!(ask(&mut link, &[1, 3, 0, 1, 0, 2]), (0, read));
}

#[test]
fn a_register_that_is_not_writable_spoils_every_span_with_it() {
    for start in 0..=0x20 {
        for quantity in 1..=0x20 {
            let values = good(start, quantity);
            let end = usize::from(start) + quantity;
            let within = |run: &(u16, usize)| run.0 <= start && end <= usize::from(run.0) + run.1;
            if RUNS.iter().any(within) {
                written(start, &values);
            } else {
                exception(&several(start, &values), 2);
            }
        }
    }
}

#[test]
fn there_are_no_registers_past_the_map() {
    for start in [0x0110, 0x100B, 0x8008, 0xFF13] {
        exception(&several(start, &[0]), 2);
    }
    // The last is FFFFH in the first of each two, and past it in the second.
    exception(&several(0xFFFF, &[0]), 2);
    exception(&several(0xFFFF, &[0; 2]), 2);
    exception(&several(0xFFF0, &[0; 16]), 2);
    exception(&several(0xFFF0, &[0; 17]), 2);
    exception(&several(0xFF85, &[0; 123]), 2);
    exception(&several(0xFF86, &[0; 123]), 2);
}

#[test]
fn a_quantity_is_1_to_123() {
    for start in [0x08, 0x10, 0xFFFF] {
        exception(&several(start, &[]), 3);
    }
    written(0x08, &[999]);
    exception(&several(0x08, &[0; 123]), 2);
    // One register more has count and length right, and is a frame of 257 bytes.
    let frame = with_crc(several(0x08, &[0; 124]));
    refused(&mut Link::start(), |link| link.rtu(&frame), 21);
    // Too many for the frame that brings them. The last three fit it where no more is looked at
    // than the low byte of the quantity or of its double.
    for (quantity, values) in [(124, 123), (0x0101, 1), (0x0081, 1), (0x8001, 1)] {
        let mut body = several(0x08, &vec![0; values]);
        body[4..6].copy_from_slice(&u16::to_be_bytes(quantity));
        exception(&body, 3);
    }
}

#[test]
fn a_count_is_twice_the_quantity() {
    for (start, quantity) in RUNS {
        for count in (0..=255).filter(|count| *count != 2 * quantity) {
            // The length is that of the quantity, and then that of the count where a frame has room.
            let mut body = several(start, &good(start, quantity));
            body[6] = count as u8;
            exception(&body, 3);
            body.resize((7 + count).min(254), 0);
            exception(&body, 3);
        }
    }
}

#[test]
fn a_frame_has_nine_bytes_more_than_the_count() {
    // Registers that are not writable and values out of range do not matter yet.
    for whole in [THREE.to_vec(), several(0xFFFF, &[i16::MAX; 3])] {
        for length in (2..=254).filter(|length| *length != 13) {
            let mut body = whole.clone();
            body.resize(length, 0);
            exception(&body, 3);
        }
    }
}

#[test]
fn each_register_alone_takes_what_06h_takes() {
    for (register, _, low, high) in WRITABLE {
        let start = u16::from(register);
        for value in [low, high] {
            written(start, &[value]);
        }
        for value in [low - 1, high + 1, i16::MIN, i16::MAX] {
            exception(&several(start, &[value]), 3);
        }
    }
}

#[test]
fn a_value_out_of_range_leaves_all_unwritten() {
    // Both ends of each range, in each place, and each value with a sign of its own.
    written(0x0B, &[-1999, 9999]);
    written(0x0B, &[9999, -1999]);
    written(0x0B, &[-1, 1]);
    written(0x0B, &[1, -1]);
    written(0x10, &[-1000, 500, 0, 0]);
    written(0x10, &[1000, 1500, 100, 3]);
    for values in [[-2000, 1], [10_000, 1], [1, -2000], [1, 10_000]] {
        exception(&several(0x0B, &values), 3);
    }
    for values in [
        [-1001, 501, 1, 2],
        [1001, 501, 1, 2],
        [1, 499, 1, 2],
        [1, 1501, 1, 2],
        [1, 501, -1, 2],
        [1, 501, 101, 2],
        [1, 501, 1, -1],
        [1, 501, 1, 4],
        [1001, 499, 1, 2],
        [1001, 501, -1, 2],
        [1, 499, 101, 2],
        [1, 501, 101, 4],
        [1001, 1501, 101, 4],
    ] {
        exception(&several(0x10, &values), 3);
    }
}

#[test]
fn any_register_not_writable_goes_before_any_value() {
    // S1 and A1 with the unlisted register behind them, A1 and A2 with it between them.
    exception(&several(0x0B, &[10_000, 0, 0]), 2);
    exception(&several(0x0B, &[0, 10_000, 0]), 2);
    exception(&several(0x0C, &[10_000, 0, 0]), 2);
    exception(&several(0x0C, &[0, 0, 10_000]), 2);
    // A2, the unlisted register and PB.
    exception(&several(0x0E, &[10_000, 0, 1001]), 2);
    // ER, which is read-only, in front of TM.
    exception(&several(0x04, &[256, 0, 0, 0, 1000]), 2);
    // XU at the end of the map.
    exception(&several(0x10, &[1001, 499, 101, 4, 0]), 2);
    exception(&several(0x13, &[4, 0]), 2);
    // Values that no register takes do not matter where it is not writable.
    exception(&several(0x00, &[i16::MIN; 20]), 2);
    exception(&several(0xFFFF, &[i16::MAX; 2]), 2);
}

#[test]
fn what_comes_before_the_function_comes_before_10h() {
    let frame = with_crc(THREE.to_vec());
    let mut link = Link::start();
    for bit in 0..8 * frame.len() {
        let mut damaged = frame.clone();
        damaged[bit / 8] ^= 1 << (bit % 8);
        refused(&mut link, |link| link.rtu(&damaged), 22);
    }
    for other in [0, 2, 129, 255] {
        let mut body = THREE;
        body[0] = other;
        let frame = with_crc(body.to_vec());
        refused(&mut link, |link| link.rtu(&frame), 23);
    }
    for address in [0, 100] {
        link.address = address;
        refused(&mut link, |link| link.rtu(&frame), 4);
    }
    link.reply.truncate(255);
    refused(&mut link, |link| link.rtu(&frame), 3);
    // A bad entry is refused even where the write would mend it.
    link.table[8] = 1001;
    refused(&mut link, |link| link.rtu(&frame), 2);
    link.table.pop();
    refused(&mut link, |link| link.rtu(&frame), 1);
}
