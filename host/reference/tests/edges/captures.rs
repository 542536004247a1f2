//! Captures: what is well formed, what playing one back leaves, and each of its frames shown.

use crate::*;
use reference::modbus::with_crc;

/// What no playback leaves: every entry lies outside its range.
const BEFORE: [i32; 13] = [i32::MIN; 13];

/// A frame with its number of bytes behind it.
pub fn record(frame: &[u8]) -> Vec<u8> {
    let mut record = frame.to_vec();
    record.extend((frame.len() as u16).to_be_bytes());
    record
}

/// Records with a trailer that may not be theirs.
pub fn with_trailer(records: &[u8], count: u16, place: u32) -> Vec<u8> {
    let mut capture = records.to_vec();
    capture.extend(count.to_be_bytes());
    capture.extend(place.to_be_bytes());
    capture
}

/// A well formed capture of these frames.
pub fn capture(frames: &[Vec<u8>]) -> Vec<u8> {
    let records: Vec<u8> = frames.iter().flat_map(|frame| record(frame)).collect();
    let last = frames.last().map_or(0, |frame| frame.len() + 2);
    with_trailer(&records, frames.len() as u16, (records.len() - last) as u32)
}

/// A 06H for address 1.
pub fn write(register: u8, value: i16) -> Vec<u8> {
    let mut body = vec![1, 0x06, 0, register];
    body.extend(value.to_be_bytes());
    with_crc(body)
}

/// Number, place and length of a frame that is shown.
fn show(capture: &[u8], frame: u32) -> (u32, u32, u32) {
    let (mut place, mut length) = (7, 7);
    let number = reference::show(capture, frame, &mut place, &mut length);
    (number, place, length)
}

/// Number and table of a capture played back at address 1.
fn played(capture: &[u8]) -> (u32, [i32; 13]) {
    let mut table = BEFORE;
    let number = reference::playback(&mut table, 1, capture);
    (number, table)
}

/// A capture that is not well formed. It is refused before any frame is played, and before it is
/// looked whether there is such a frame.
fn refused(capture: &[u8]) {
    assert_eq!(played(capture), (51, BEFORE), "{:02X?}", capture);
    for frame in [0, 1, u32::MAX] {
        assert_eq!(show(capture, frame), (51, 0, 0), "{:02X?}", capture);
    }
}

/// A well formed capture of this many frames.
fn taken(capture: &[u8], frames: u32) {
    assert_eq!(played(capture).0, 0, "{:02X?}", capture);
    if frames > 0 {
        assert_eq!(show(capture, frames).0, 0, "{:02X?}", capture);
    }
    assert_eq!(show(capture, frames + 1).0, 52, "{:02X?}", capture);
}

#[test]
fn six_bytes_hold_no_record() {
    taken(&[0; 6], 0);
    assert_eq!(played(&[0; 6]), (0, START));
    // A count, or a place, in each of their bytes.
    for byte in 0..6 {
        let mut capture = [0; 6];
        capture[byte] = 1;
        refused(&capture);
    }
}

#[test]
fn under_six_bytes_there_is_no_trailer() {
    for length in 0..6 {
        refused(&vec![0; length]);
    }
}

#[test]
fn a_capture_has_at_most_65_536_bytes() {
    // 253 records of 258 bytes, one of 256 or 257, and the trailer.
    let mut frames = vec![vec![0x55; 256]; 253];
    frames.push(vec![0x55; 254]);
    assert_eq!(capture(&frames).len(), 65_536);
    taken(&capture(&frames), 254);
    frames[253].push(0x55);
    assert_eq!(capture(&frames).len(), 65_537);
    refused(&capture(&frames));
}

#[test]
fn as_many_records_as_fit() {
    let mut frames = vec![vec![0x55]; 21_843];
    taken(&capture(&frames), 21_843);
    assert_eq!(show(&capture(&frames), 21_843), (0, 3 * 21_842, 1));
    frames[0].push(0x55);
    assert_eq!(capture(&frames).len(), 65_536);
    taken(&capture(&frames), 21_843);
    frames[0].push(0x55);
    refused(&capture(&frames));
}

#[test]
fn a_frame_has_1_to_256_bytes() {
    let other = write(0x10, 1);
    for length in (0..=600).chain([0xFF00, 0xFFFF]) {
        let frame = vec![0x55; length];
        for frames in [
            vec![frame.clone()],
            vec![frame.clone(), other.clone()],
            vec![other.clone(), frame.clone()],
        ] {
            if (1..=256).contains(&length) {
                taken(&capture(&frames), frames.len() as u32);
            } else {
                refused(&capture(&frames));
            }
        }
    }
}

#[test]
fn the_length_is_that_of_the_frame() {
    // 0100H is a frame of 256 bytes, 0001H one of 1.
    let mut whole = capture(&[vec![0x55; 256]]);
    assert_eq!(whole[256..258], [0x01, 0x00]);
    taken(&whole, 1);
    whole[256..258].copy_from_slice(&[0x00, 0x01]);
    refused(&whole);
    let mut single = capture(&[vec![0x55]]);
    assert_eq!(single[1..3], [0x00, 0x01]);
    taken(&single, 1);
    single[1..3].copy_from_slice(&[0x01, 0x00]);
    refused(&single);
}

#[test]
fn no_record_begins_before_place_0() {
    for short in 1..=10 {
        let records = record(&write(0x10, 1));
        let place = 0_u32.wrapping_sub(short as u32);
        refused(&with_trailer(&records[short..], 1, 0));
        refused(&with_trailer(&records[short..], 1, place));
        // The same with a whole record behind.
        let two = [&records[short..], &records].concat();
        refused(&with_trailer(&two, 2, 10 - short as u32));
    }
}

#[test]
fn the_count_is_that_of_the_records() {
    for number in [1, 2, 3, 255, 256, 257] {
        let frames = vec![vec![0x55]; number];
        let records = &capture(&frames)[..3 * number];
        let place = 3 * (number as u32 - 1);
        let count = number as u16;
        taken(&with_trailer(records, count, place), u32::from(count));
        for other in [0, count - 1, count + 1, count + 256, count.swap_bytes()] {
            if other != count {
                refused(&with_trailer(records, other, place));
            }
        }
    }
}

#[test]
fn the_place_is_where_the_last_record_begins() {
    let frames = [write(0x10, 1), vec![0x55; 256], write(0x10, 2), vec![0x55]];
    for number in 1..=4 {
        let whole = capture(&frames[..number]);
        let records = &whole[..whole.len() - 6];
        let place = (records.len() - frames[number - 1].len() - 2) as u32;
        taken(&with_trailer(records, number as u16, place), number as u32);
        for bit in 0..32 {
            refused(&with_trailer(records, number as u16, place ^ 1 << bit));
        }
        // Where the frame ends, where the trailer begins, and one off.
        let ends = [records.len() as u32 - 2, records.len() as u32];
        for other in ends.into_iter().chain([place + 1, place.wrapping_sub(1)]) {
            refused(&with_trailer(records, number as u16, other));
        }
    }
}

#[test]
fn playback_goes_from_the_start_table_through_the_frames_in_their_order() {
    let damaged = |mut frame: Vec<u8>| {
        frame[5] ^= 1;
        frame
    };
    let frames = [
        write(0x10, 100),
        write(0x0C, -50),
        // Refused: a value out of range, a read-only register. Passed over: a wrong CRC, another
        // address, too short for a frame.
        write(0x10, 1001),
        write(0x00, 1),
        damaged(write(0x10, 300)),
        with_crc(vec![2, 0x06, 0, 0x10, 0, 99]),
        vec![1, 6],
        with_crc(vec![1, 0x10, 0, 0x10, 0, 2, 4, 0, 7, 5, 0xDC]),
        write(0x11, 501),
        vec![0x55; 256],
    ];
    let mut expected = START;
    assert_eq!(played(&capture(&frames[..0])), (0, expected));
    expected[8] = 100;
    assert_eq!(played(&capture(&frames[..1])), (0, expected));
    // AA, since M1 0 has reached A1 then.
    expected[1] = 1;
    expected[6] = -50;
    for number in 2..=7 {
        assert_eq!(played(&capture(&frames[..number])), (0, expected));
    }
    expected[8] = 7;
    expected[9] = 1500;
    assert_eq!(played(&capture(&frames[..8])), (0, expected));
    expected[9] = 501;
    assert_eq!(played(&capture(&frames[..9])), (0, expected));
    assert_eq!(played(&capture(&frames)), (0, expected));
}

#[test]
fn playback_equals_handing_the_frames_over() {
    let frames = [
        write(0x12, 100),
        with_crc(vec![1, 0x03, 0, 0, 0, 20]),
        write(0x12, 101),
        write(0x08, 999),
        write(0x13, 3),
        write(0x13, 4),
        with_crc(vec![1, 0x10, 0, 0x0B, 0, 2, 4, 0, 1, 0xFF, 0xFF]),
    ];
    let mut link = Link::start();
    for (number, frame) in frames.iter().enumerate() {
        link.rtu(frame);
        let played = played(&capture(&frames[..=number]));
        assert_eq!((played.0, played.1.to_vec()), (0, link.table.clone()));
    }
}

#[test]
fn each_frame_is_shown_by_its_number() {
    let frames = [write(0x10, 1), vec![0x55; 256], vec![0x55], write(0x10, 2)];
    let whole = capture(&frames);
    assert_eq!(show(&whole, 1), (0, 0, 8));
    assert_eq!(show(&whole, 2), (0, 10, 256));
    assert_eq!(show(&whole, 3), (0, 268, 1));
    assert_eq!(show(&whole, 4), (0, 271, 8));
    for none in [0, 5, 256, 257, 0x0001_0000, 0x0001_0001, u32::MAX] {
        assert_eq!(show(&whole, none), (52, 0, 0));
    }
}

#[test]
fn playback_tries_1_then_4_then_51() {
    let good = capture(&[write(0x10, 1)]);
    let bad = &good[1..];
    for length in [0, 1, 12, 14, 26] {
        for (address, capture) in [(1, &good[..]), (0, &good), (1, bad), (100, bad)] {
            let mut table = vec![-1; length];
            assert_eq!(reference::playback(&mut table, address, capture), 1);
            assert_eq!(table, vec![-1; length]);
        }
    }
    for address in [0, 100, 128, 255] {
        for capture in [&good[..], bad, &[]] {
            let mut table = BEFORE;
            assert_eq!(reference::playback(&mut table, address, capture), 4);
            assert_eq!(table, BEFORE);
        }
    }
    for address in [1, 99] {
        let mut table = BEFORE;
        assert_eq!(reference::playback(&mut table, address, bad), 51);
        assert_eq!(table, BEFORE);
        assert_eq!(reference::playback(&mut table, address, &good), 0);
    }
}
