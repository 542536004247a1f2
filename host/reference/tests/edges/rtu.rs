//! RTU frames: numbers 21 to 23 and 31 to 33.

use crate::*;
use reference::modbus::with_crc;

/// Each writable item: register, number, low and high.
pub const WRITABLE: [(u8, usize, i16, i16); 8] = [
    (0x08, 12, 0, 999),
    (0x0B, 6, -1999, 9999),
    (0x0C, 7, -1999, 9999),
    (0x0E, 8, -1999, 9999),
    (0x10, 9, -1000, 1000),
    (0x11, 10, 500, 1500),
    (0x12, 11, 0, 100),
    (0x13, 13, 0, 3),
];

/// The number and the reply without its CRC, whose rightness is looked at here.
pub fn ask(link: &mut Link, body: &[u8]) -> (u32, Vec<u8>) {
    let (number, reply) = link.rtu(&with_crc(body.to_vec()));
    let length = reply.len().saturating_sub(2);
    let without = reply[..length].to_vec();
    if !reply.is_empty() {
        assert_eq!(with_crc(without.clone()), reply);
    }
    (number, without)
}

/// A body that is answered with an exception and changes nothing.
pub fn exception(body: &[u8], code: u8) {
    let mut link = Link::start();
    let expected = vec![1, body[1] | 0x80, code];
    assert_eq!(
        ask(&mut link, body),
        (30 + u32::from(code), expected),
        "{:02X?}",
        body
    );
    assert_eq!(link.table, START);
}

/// A body that is answered with itself.
fn echo(link: &mut Link, body: &[u8]) {
    assert_eq!(ask(link, body), (0, body.to_vec()), "{:02X?}", body);
}

#[test]
fn the_length_is_4_to_256() {
    let mut link = Link::start();
    // The length comes before the CRC, so these bytes need none.
    for length in [0, 1, 2, 3, 257, 258, 1000] {
        refused(&mut link, |link| link.rtu(&vec![1; length]), 21);
    }
    for length in [4, 256] {
        refused(&mut link, |link| link.rtu(&vec![1; length]), 22);
    }
    // At both ends a right frame with an unknown function is answered.
    exception(&[1, 0x07], 1);
    let mut body = vec![0; 254];
    body[0] = 1;
    body[1] = 0x16;
    exception(&body, 1);
}

#[test]
fn a_wrong_crc_is_22_before_another_address() {
    let mut link = Link::start();
    let frame = [0x01, 0x08, 0x00, 0x00, 0x1F, 0x34, 0xE9, 0xEC];
    for place in 0..8 {
        for bit in 0..8 {
            let mut damaged = frame;
            damaged[place] ^= 1 << bit;
            refused(&mut link, |link| link.rtu(&damaged), 22);
        }
    }
    let swapped = [0x01, 0x08, 0x00, 0x00, 0x1F, 0x34, 0xEC, 0xE9];
    refused(&mut link, |link| link.rtu(&swapped), 22);
    assert_eq!(link.rtu(&frame), (0, frame.to_vec()));
}

#[test]
fn another_address_is_23_before_the_function() {
    for other in [0, 2, 99, 100, 129, 255] {
        let mut link = Link::start();
        let frame = with_crc(vec![other, 0x55]);
        refused(&mut link, |link| link.rtu(&frame), 23);
        let frame = with_crc(vec![other, 0x06, 0x00, 0x10, 0x00, 0x01]);
        refused(&mut link, |link| link.rtu(&frame), 23);
    }
}

#[test]
fn functions_but_four_are_31_whatever_their_length() {
    for function in 0..=255 {
        if ![0x03, 0x06, 0x08, 0x10].contains(&function) {
            exception(&[1, function], 1);
            exception(&[1, function, 0, 0, 0, 1], 1);
        }
    }
    // The reply's function has its top bit set; 80H and above keeps its value.
    let mut link = Link::start();
    assert_eq!(ask(&mut link, &[1, 0x00]), (31, vec![1, 0x80, 1]));
    assert_eq!(ask(&mut link, &[1, 0x80]), (31, vec![1, 0x80, 1]));
    assert_eq!(ask(&mut link, &[1, 0x83]), (31, vec![1, 0x83, 1]));
    assert_eq!(ask(&mut link, &[1, 0xFF]), (31, vec![1, 0xFF, 1]));
}

#[test]
fn three_of_the_functions_have_frames_of_8_bytes() {
    for function in [0x03, 0x06, 0x08] {
        for length in [2, 3, 4, 5, 7, 8, 254] {
            // Addresses past the map and wrong test codes do not matter yet.
            let mut body = vec![0xFF; length];
            body[0] = 1;
            body[1] = function;
            exception(&body, 3);
        }
    }
}

#[test]
fn a_read_tries_its_quantity_and_then_its_span() {
    exception(&[1, 3, 0, 0, 0, 0], 3);
    exception(&[1, 3, 0, 0, 0, 126], 3);
    exception(&[1, 3, 0, 0, 1, 1], 3);
    exception(&[1, 3, 0, 0, 0xFF, 0xFF], 3);
    exception(&[1, 3, 0xFF, 0xFF, 0, 0], 3);
    exception(&[1, 3, 0xFF, 0xFF, 0, 126], 3);
    exception(&[1, 3, 0, 0, 0, 125], 2);
    exception(&[1, 3, 0, 0, 0, 21], 2);
    exception(&[1, 3, 0, 20, 0, 1], 2);
    exception(&[1, 3, 0, 19, 0, 2], 2);
    exception(&[1, 3, 0xFF, 0xFF, 0, 1], 2);
    exception(&[1, 3, 0xFF, 0xFF, 0, 2], 2);
    assert_eq!(
        ask(&mut Link::start(), &[1, 3, 0, 19, 0, 1]),
        (0, vec![1, 3, 2, 0, 1])
    );
}

#[test]
fn a_read_of_the_whole_map() {
    let mut link = Link::start();
    // M1 stands at A1 and below A2.
    link.table = vec![
        -150, 1, 0, 1, 255, 9999, -150, -149, -1000, 1500, 100, 999, 3,
    ];
    let mut expected = vec![1, 3, 40];
    for register in [
        0xFF6Au16, // 0000H M1
        0x0001,    // AA
        0x0000,    // AB
        0x0001,    // B1
        0x00FF,    // ER
        0x0000,    // 0005H to 0007H: unlisted
        0x0000, 0x0000, 0x03E7, // 0008H TM
        0x0000, // 0009H, 000AH: unlisted
        0x0000, 0x270F, // 000BH S1
        0xFF6A, // 000CH A1
        0x0000, // 000DH: unlisted
        0xFF6B, // 000EH A2
        0x0000, // 000FH: unlisted
        0xFC18, // 0010H PB
        0x05DC, // 0011H PR
        0x0064, // 0012H F1
        0x0003, // 0013H XU
    ] {
        expected.push((register >> 8) as u8);
        expected.push(register as u8);
    }
    assert_eq!(ask(&mut link, &[1, 3, 0, 0, 0, 20]), (0, expected.clone()));
    // Each part of the map holds the same registers.
    for start in 0..20 {
        for quantity in 1..=20 - start {
            let mut part = vec![1, 3, 2 * quantity as u8];
            part.extend(&expected[3 + 2 * start..3 + 2 * (start + quantity)]);
            let body = [1, 3, 0, start as u8, 0, quantity as u8];
            assert_eq!(ask(&mut link, &body), (0, part));
        }
    }
}

#[test]
fn a_write_needs_a_writable_item() {
    for register in 0..=0x20 {
        if WRITABLE.iter().all(|row| row.0 != register) {
            exception(&[1, 6, 0, register, 0, 0], 2);
            // Before the value's range.
            exception(&[1, 6, 0, register, 0x7F, 0xFF], 2);
        }
    }
    exception(&[1, 6, 0xFF, 0x10, 0, 0], 2);
    exception(&[1, 6, 0x01, 0x10, 0, 0], 2);
}

#[test]
fn a_write_needs_a_value_in_range() {
    for (register, item, low, high) in WRITABLE {
        for value in [low, high] {
            let mut link = Link::start();
            let bytes = value.to_be_bytes();
            echo(&mut link, &[1, 6, 0, register, bytes[0], bytes[1]]);
            let mut expected = START;
            expected[item - 1] = i32::from(value);
            assert_eq!(link.table, agreeing(expected));
        }
        for value in [low - 1, high + 1, i16::MIN, i16::MAX] {
            let bytes = value.to_be_bytes();
            exception(&[1, 6, 0, register, bytes[0], bytes[1]], 3);
        }
    }
}

#[test]
fn a_loopback_needs_test_code_0() {
    let mut link = Link::start();
    for (high, low) in [(0, 0), (0xA5, 0x37), (0xFF, 0xFF)] {
        echo(&mut link, &[1, 8, 0, 0, high, low]);
    }
    assert_eq!(link.table, START);
    exception(&[1, 8, 0, 1, 0, 0], 3);
    exception(&[1, 8, 1, 0, 0, 0], 3);
    exception(&[1, 8, 0xFF, 0xFF, 0, 0], 3);
}

#[test]
fn every_address_from_1_to_99_answers_for_itself() {
    for address in 1..=99 {
        let mut link = Link::start();
        link.address = address;
        echo(&mut link, &[address, 8, 0, 0, 0x1F, 0x34]);
    }
}
