//! The last write to an item: which frame answers, how many records are read, and which damage is met.

use crate::captures::{capture, record, with_trailer, write};
use reference::modbus::with_crc;

const PB: u32 = 9;
const PR: u32 = 10;
const F1: u32 = 11;

/// The writable items, each with its register and a value that differs from its start.
const WRITABLE: [(u32, u8, i16); 8] = [
    (6, 0x0B, -1999),
    (7, 0x0C, 9999),
    (8, 0x0E, -1),
    (PB, 0x10, -150),
    (PR, 0x11, 501),
    (F1, 0x12, 100),
    (12, 0x08, 999),
    (13, 0x13, 3),
];

/// Result, value and records of a question at address 1.
fn asked(capture: &[u8], item: u32) -> (u32, i32, u32) {
    asked_at(1, capture, item)
}

fn asked_at(address: u8, capture: &[u8], item: u32) -> (u32, i32, u32) {
    let (mut value, mut records) = (77, 77);
    let result = reference::last_write(capture, address, item, &mut value, &mut records);
    (result, value, records)
}

/// A write is found.
fn found(value: i32, records: u32) -> (u32, i32, u32) {
    (256, value, records)
}

/// The item was never written.
fn never(records: u32) -> (u32, i32, u32) {
    (0, 0, records)
}

fn refused(number: u32) -> (u32, i32, u32) {
    (number, 0, 0)
}

/// A 10H for address 1.
fn several(start: u8, values: &[i16]) -> Vec<u8> {
    let quantity = values.len() as u8;
    let mut body = vec![1, 0x10, 0, start, 0, quantity, 2 * quantity];
    body.extend(values.iter().flat_map(|value| value.to_be_bytes()));
    with_crc(body)
}

/// A frame with another CRC.
fn damaged(mut frame: Vec<u8>) -> Vec<u8> {
    let last = frame.len() - 1;
    frame[last] ^= 1;
    frame
}

#[test]
fn the_last_write_answers() {
    let frames = [write(0x10, 1), write(0x10, 2), write(0x12, 3)];
    let whole = capture(&frames);
    assert_eq!(asked(&whole, PB), found(2, 2));
    assert_eq!(asked(&whole, F1), found(3, 1));
    assert_eq!(asked(&whole, PR), never(3));
    assert_eq!(asked(&capture(&frames[..1]), PB), found(1, 1));
}

#[test]
fn six_bytes_have_no_write() {
    for item in 1..=13 {
        assert_eq!(asked(&[0; 6], item), never(0));
    }
    // A count, or a place, in each of their bytes.
    for byte in 0..6 {
        let mut capture = [0; 6];
        capture[byte] = 1;
        assert_eq!(asked(&capture, PB), refused(51));
    }
}

#[test]
fn each_writable_item_by_both_functions() {
    for (item, register, value) in WRITABLE {
        for frame in [write(register, value), several(register, &[value])] {
            let whole = capture(&[frame]);
            for other in 1..=13 {
                let due = if other == item {
                    found(i32::from(value), 1)
                } else {
                    never(1)
                };
                assert_eq!(asked(&whole, other), due);
            }
        }
    }
}

#[test]
fn a_write_of_the_value_that_the_item_has_is_a_write() {
    for (item, row) in (1..).zip(&reference::items::ITEMS) {
        if row.writable {
            let frame = write(row.register as u8, row.start as i16);
            let whole = capture(&[frame.clone(), frame, vec![0x55]]);
            assert_eq!(asked(&whole, item), found(row.start, 2));
        }
    }
}

#[test]
fn a_write_of_several_registers_writes_each_item_that_it_names() {
    let whole = capture(&[write(0x08, 5), several(0x10, &[-150, 1000, 100, 0])]);
    assert_eq!(asked(&whole, PB), found(-150, 1));
    assert_eq!(asked(&whole, PR), found(1000, 1));
    assert_eq!(asked(&whole, F1), found(100, 1));
    assert_eq!(asked(&whole, 13), found(0, 1));
    assert_eq!(asked(&whole, 12), found(5, 2));
    assert_eq!(asked(&whole, 8), never(2));
}

#[test]
fn a_frame_that_is_refused_or_passed_over_is_read_and_does_not_answer() {
    for frame in [
        // A value out of range, alone and beside a good one; a register that spoils the write of PB.
        write(0x10, 1001),
        write(0x10, -1001),
        several(0x10, &[1001]),
        several(0x10, &[5, 499]),
        several(0x0F, &[0, 5]),
        // Another form: a byte more, another quantity, another count.
        with_crc(vec![1, 0x06, 0, 0x10, 0, 5, 0]),
        with_crc(vec![1, 0x10, 0, 0x10, 0, 2, 2, 0, 5]),
        with_crc(vec![1, 0x10, 0, 0x10, 0, 1, 4, 0, 5]),
        // Another CRC, another address, another function.
        damaged(write(0x10, 5)),
        damaged(several(0x10, &[5])),
        with_crc(vec![2, 0x06, 0, 0x10, 0, 5]),
        with_crc(vec![0, 0x06, 0, 0x10, 0, 5]),
        with_crc(vec![1, 0x03, 0, 0x10, 0, 1]),
        with_crc(vec![1, 0x08, 0, 0, 0, 5]),
        with_crc(vec![1, 0x05, 0, 0x10, 0, 5]),
        // Too short for a frame, and the longest.
        vec![1],
        vec![0x55; 256],
    ] {
        assert_eq!(asked(&capture(&[frame.clone()]), PB), never(1));
        let behind = capture(&[write(0x10, -7), frame.clone(), frame]);
        assert_eq!(asked(&behind, PB), found(-7, 3));
    }
}

#[test]
fn a_read_only_item_is_never_written() {
    for item in 1..=5 {
        let register = item as u8 - 1;
        let whole = capture(&[write(register, 0), several(register, &[0])]);
        assert_eq!(asked(&whole, item), never(2));
    }
}

#[test]
fn each_address_has_its_own_writes() {
    let at = |address| with_crc(vec![address, 0x06, 0, 0x10, 0, address]);
    let whole = capture(&[at(1), at(99), at(0), at(100), at(2)]);
    assert_eq!(asked_at(1, &whole, PB), found(1, 5));
    assert_eq!(asked_at(2, &whole, PB), found(2, 1));
    assert_eq!(asked_at(99, &whole, PB), found(99, 4));
    assert_eq!(asked_at(3, &whole, PB), never(5));
}

#[test]
fn damage_in_front_of_the_answer_is_not_noticed() {
    let front = capture(&[write(0x12, 1), write(0x10, 1)]);
    let front = &front[..front.len() - 6];
    let answer = record(&write(0x10, 2));
    for place in 0..front.len() {
        for value in [0, 1, 2, 255] {
            let mut records = front.to_vec();
            records[place] = value;
            records.extend(&answer);
            let whole = with_trailer(&records, 3, 20);
            assert_eq!(asked(&whole, PB), found(2, 1));
        }
    }
    // Nor what is missing there.
    for lost in 0..=front.len() {
        let records = [&front[lost..], &answer].concat();
        let whole = with_trailer(&records, 3, (front.len() - lost) as u32);
        assert_eq!(asked(&whole, PB), found(2, 1));
    }
}

#[test]
fn damage_on_the_way_is_met() {
    let frames = [write(0x10, 1), vec![0x55; 3], write(0x12, 1)];
    let whole = capture(&frames);
    assert_eq!(asked(&whole, PB), found(1, 3));
    // The lengths: of no bytes, of too many, and of more than are left.
    for end in [10, 15, 25] {
        for length in [[0, 0], [1, 1], [1, 8], [0xFF, 0xFF], [0, 26]] {
            let mut capture = whole.clone();
            capture[end - 2..end].copy_from_slice(&length);
            assert_eq!(asked(&capture, PB), refused(51), "{} {:?}", end, length);
        }
    }
    // The place, one off and with each bit wrong.
    for place in (0..32).map(|bit| 15 ^ 1 << bit).chain([14, 16, 23, 25]) {
        for item in [PB, F1, PR] {
            assert_eq!(
                asked(&with_trailer(&whole[..25], 3, place), item),
                refused(51)
            );
        }
    }
}

#[test]
fn a_record_is_looked_at_before_its_frame() {
    // The frame would answer, and its record is damaged: it has lost a byte in front, or has another
    // length behind it.
    let records = record(&write(0x10, 1));
    assert_eq!(asked(&with_trailer(&records[1..], 1, 0), PB), refused(51));
    for length in [0, 7, 9, 0x0108] {
        let mut capture = capture(&[write(0x10, 1)]);
        capture[8..10].copy_from_slice(&u16::to_be_bytes(length));
        assert_eq!(asked(&capture, PB), refused(51));
    }
    // A frame of 256 bytes may be read, one of 257 not.
    for (length, due) in [(256, never(1)), (257, refused(51)), (0, refused(51))] {
        assert_eq!(asked(&capture(&[vec![0x55; length]]), PB), due);
    }
}

#[test]
fn the_count_is_looked_at_last() {
    let frames = [write(0x10, 1), write(0x11, 501), write(0x12, 1)];
    let whole = capture(&frames);
    for count in [0, 1, 2, 4, 5, 259, 0x0300, 0xFFFF] {
        let wrong = with_trailer(&whole[..30], count, 20);
        // The frame of the last record answers, of the middle one, of the one that begins at place 0.
        assert_eq!(asked(&wrong, F1), found(1, 1));
        assert_eq!(asked(&wrong, PR), found(501, 2));
        assert_eq!(asked(&wrong, PB), found(1, 3));
        assert_eq!(asked(&wrong, 12), refused(51));
    }
}

#[test]
fn a_capture_has_6_to_65_536_bytes() {
    for length in 0..6 {
        assert_eq!(asked(&vec![0; length], PB), refused(51));
    }
    // A write, 253 records of 258 bytes, one of 246 or 247, and the trailer.
    let mut frames = vec![write(0x10, 1)];
    frames.extend(vec![vec![0x55; 256]; 253]);
    frames.push(vec![0x55; 244]);
    assert_eq!(capture(&frames).len(), 65_536);
    assert_eq!(asked(&capture(&frames), PB), found(1, 255));
    assert_eq!(asked(&capture(&frames), PR), never(255));
    frames[254].push(0x55);
    assert_eq!(asked(&capture(&frames), PB), refused(51));
    // Also where the last record answers.
    frames.push(write(0x10, 1));
    assert_eq!(asked(&capture(&frames), PB), refused(51));
}

#[test]
fn as_many_records_as_fit_are_read() {
    let mut frames = vec![write(0x10, 1)];
    frames.extend(vec![vec![0x55]; 21_840]);
    assert_eq!(capture(&frames).len(), 65_536);
    assert_eq!(asked(&capture(&frames), PB), found(1, 21_841));
    assert_eq!(asked(&capture(&frames), PR), never(21_841));
}

#[test]
fn a_last_write_tries_4_then_6_then_51() {
    let good = capture(&[write(0x10, 1)]);
    let bad = &good[1..];
    for address in [0, 100, 128, 255] {
        for item in [0, PB, 14] {
            assert_eq!(asked_at(address, &good, item), refused(4));
            assert_eq!(asked_at(address, bad, item), refused(4));
        }
    }
    for item in [0, 14, 256 + PB, 1 << 31 | PB, u32::MAX] {
        for address in [1, 99] {
            assert_eq!(asked_at(address, &good, item), refused(6));
            assert_eq!(asked_at(address, bad, item), refused(6));
            assert_eq!(asked_at(address, &[], item), refused(6));
        }
    }
    for item in 1..=13 {
        assert_eq!(asked(bad, item), refused(51));
    }
    assert_eq!(asked_at(99, &good, PB), never(1));
}
