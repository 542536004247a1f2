//! ASCII lines: numbers 24 and 25, and what they share with RTU.

use crate::rtu::{ask, WRITABLE};
use crate::*;
use reference::ascii::{in_characters, line_of};

/// The loopback of document 01 as a line.
const LOOPBACK: &[u8] = b":010800001F34A4\r\n";

/// Lines that are passed over with this number, and leave all as it came.
fn silent(lines: &[&[u8]], number: u32) {
    for line in lines {
        refused(&mut Link::start(), |link| link.ascii(line), number);
    }
}

/// A line that is answered with these characters.
fn answered(line: &[u8], number: u32, reply: &[u8]) {
    let mut link = Link::start();
    assert_eq!(link.ascii(line), (number, reply.to_vec()), "{:02X?}", line);
}

#[test]
fn the_last_colon_starts_the_line() {
    answered(LOOPBACK, 0, LOOPBACK);
    let long = vec![b'0'; 1000];
    let fronts: [&[u8]; 7] = [b":", b"::", b"0", b"\r\n", b"\xFF\x00", LOOPBACK, &long];
    for front in fronts {
        answered(&[front, LOOPBACK].concat(), 0, LOOPBACK);
    }
    // A colon inside leaves what is behind it, by how many characters these are.
    for place in 1..=LOOPBACK.len() {
        let mut line = LOOPBACK.to_vec();
        line.insert(place, b':');
        let number = match (LOOPBACK.len() - 2).saturating_sub(place) {
            14 => 0,
            6 | 8 | 10 | 12 => 25,
            _ => 24,
        };
        assert_eq!(Link::start().ascii(&line).0, number, "{}", place);
    }
    silent(&[b"", b"\r\n", &LOOPBACK[1..], b"\xBA0107F8\r\n"], 24);
}

#[test]
fn the_line_ends_with_cr_and_lf() {
    let (line, _) = LOOPBACK.split_at(LOOPBACK.len() - 2);
    let ends: [&[u8]; 11] = [
        b"",
        b"\r",
        b"\n",
        b"\n\r",
        b"\r\r",
        b"\n\n",
        b"\r\n\n",
        b"\r\r\n",
        b"\r\n0",
        b"\r\n\r\n",
        b"\x8D\x8A",
    ];
    for end in ends {
        silent(&[&[line, end].concat()], 24);
    }
}

#[test]
fn each_character_between_is_0_to_9_or_upper_case() {
    for place in 1..LOOPBACK.len() - 2 {
        for character in (0..=255).filter(|character| *character != b':') {
            let mut line = LOOPBACK.to_vec();
            line[place] = character;
            let number = match character {
                _ if character == LOOPBACK[place] => 0,
                b'0'..=b'9' | b'A'..=b'F' => 25,
                _ => 24,
            };
            assert_eq!(Link::start().ascii(&line).0, number, "{:02X?}", line);
        }
    }
}

#[test]
fn a_line_has_3_to_255_bytes_with_the_lrc() {
    for length in 0..=300 {
        // With function 01H, which there is not.
        let mut body = vec![0; length];
        for (byte, first) in body.iter_mut().zip([1, 1]) {
            *byte = first;
        }
        let mut line = line_of(body);
        if (2..=254).contains(&length) {
            answered(&line, 31, b":0181017D\r\n");
        } else {
            silent(&[&line], 24);
        }
        // One character less.
        line.remove(line.len() - 3);
        silent(&[&line], 24);
    }
}

#[test]
fn a_wrong_lrc_is_25_before_another_address() {
    for check in 0..=255 {
        let ours = in_characters(&[1, 7, check]);
        let other = in_characters(&[2, 7, check]);
        if check == 0xF8 {
            answered(&ours, 31, b":01870177\r\n");
        } else {
            silent(&[&ours], 25);
        }
        silent(&[&other], if check == 0xF7 { 23 } else { 25 });
    }
}

#[test]
fn a_line_for_another_address_is_23() {
    for other in [0, 2, 99, 100, 129, 255] {
        silent(&[&line_of(vec![other, 0x55])], 23);
        silent(&[&line_of(vec![other, 6, 0, 0x10, 0, 1])], 23);
    }
}

#[test]
fn both_lines_do_the_same_for_the_same_message() {
    for (register, _, low, high) in WRITABLE {
        for value in [low - 1, low, high, high + 1] {
            let [first, second] = value.to_be_bytes();
            both(&[1, 0x06, 0, register, first, second]);
            both(&[1, 0x10, 0, register, 0, 1, 2, first, second]);
        }
    }
    both(&[1, 0x03, 0, 0, 0, 20]);
    both(&[1, 0x03, 0, 0, 0, 21]);
    both(&[1, 0x08, 0, 0, 0xAB, 0xCD]);
    both(&[1, 0x08, 0, 1, 0xAB, 0xCD]);
    both(&[1, 0x10, 0, 0x10, 0, 3, 6, 0xFF, 0x6A, 0x03, 0xE8, 0, 100]);
    both(&[1, 0x10, 0, 0x10, 0, 3, 6, 0xFF, 0x6A, 0x03, 0xE8, 0]);
    both(&[2, 0x08, 0, 0, 0xAB, 0xCD]);
}

/// A message on either line: the same number, table and reply.
fn both(body: &[u8]) {
    let (mut rtu, mut ascii) = (Link::start(), Link::start());
    let (number, reply) = ask(&mut rtu, body);
    let line = if reply.is_empty() {
        vec![]
    } else {
        line_of(reply)
    };
    let given = ascii.ascii(&line_of(body.to_vec()));
    assert_eq!(given, (number, line), "{:02X?}", body);
    assert_eq!(rtu.table, ascii.table, "{:02X?}", body);
}

#[test]
fn the_longest_reply_has_91_characters() {
    let mut link = Link::start();
    let (number, reply) = link.ascii(b":010300000014E8\r\n");
    assert_eq!((number, reply.len()), (0, 91));
    assert_eq!(reply[..7], *b":010328");
    assert_eq!(reply[89..], *b"\r\n");
}
