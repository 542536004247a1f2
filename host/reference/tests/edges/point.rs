//! XU: the point that it moves on the RKC line, and all that it leaves where it is.

use crate::block::block;
use crate::captures::{capture, write};
use crate::rtu::ask;
use crate::*;
use reference::{playback, put};

/// The items whose decimals XU gives, with their places in the table.
const MOVED: [(&[u8; 2], usize); 4] = [(b"M1", 0), (b"S1", 5), (b"A1", 6), (b"A2", 7)];

/// Those of them that a block can set.
const SET: [(&[u8; 2], usize); 3] = [(b"S1", 5), (b"A1", 6), (b"A2", 7)];

/// A table in which hardly an entry is at its start, with this XU.
fn standing(xu: i32) -> [i32; 13] {
    let mut table = OWN;
    table[12] = xu;
    table
}

/// A value between -9999 and 99999 with the point where XU has it: five digits with a minus among them,
/// or six where there is no point.
fn pointed(xu: i32, value: i32) -> String {
    if xu == 0 {
        return format!("{:06}", value);
    }
    let digits = format!("{:05}", value);
    let (whole, fraction) = digits.split_at(5 - xu as usize);
    format!("{}.{}", whole, fraction)
}

/// The six characters that a poll of an item sends.
fn polled(link: &mut Link, id: &[u8; 2]) -> String {
    let (number, reply) = link.bytes(&[EOT, b'0', b'1', id[0], id[1], ENQ]);
    assert_eq!(number, 0);
    assert_eq!(reply[1..3], *id);
    String::from_utf8(reply[3..9].to_vec()).expect("plain text")
}

/// The number of a block that tells an item this text.
fn told(link: &mut Link, id: &[u8; 2], text: &str) -> u32 {
    link.bytes(&block(&[&id[..], text.as_bytes()].concat())).0
}

#[test]
fn every_value_is_sent_with_the_point_where_xu_has_it() {
    for xu in 0..=3 {
        for (id, place) in MOVED {
            for value in -1999..=9999 {
                let mut table = standing(xu);
                table[place] = value;
                let mut link = Link::with(agreeing(table));
                assert_eq!(polled(&mut link, id), pointed(xu, value));
            }
        }
    }
}

#[test]
fn what_was_sent_sets_the_same_number() {
    for xu in 0..=3 {
        for (id, place) in SET {
            for value in -1999..=9999 {
                let mut link = Link::with(standing(xu));
                assert_eq!(told(&mut link, id, &pointed(xu, value)), 0);
                let mut expected = standing(xu);
                expected[place] = value;
                assert_eq!(link.table, agreeing(expected));
            }
        }
    }
}

#[test]
fn the_range_is_one_of_stored_numbers() {
    for (xu, taken, refused) in [
        (0, ["9999.9", "-1999"], ["10000", "-2000"]),
        (1, ["999.99", "-199.9"], ["1000", "-200"]),
        (2, ["99.999", "-19.99"], ["100", "-20"]),
        (3, ["9.9999", "-1.999"], ["10", "-2"]),
    ] {
        for (id, place) in SET {
            for (text, value) in taken.into_iter().zip([9999, -1999]) {
                let mut link = Link::with(standing(xu));
                assert_eq!(told(&mut link, id, text), 0);
                assert_eq!(link.table[place], value);
            }
            let mut link = Link::with(standing(xu));
            for text in refused {
                assert_eq!(told(&mut link, id, text), 18);
                assert_eq!(link.table, standing(xu));
            }
        }
    }
}

#[test]
fn the_fraction_is_cut_off_behind_the_decimals() {
    for (xu, value) in [(0, 0), (1, 5), (2, 56), (3, 567)] {
        for (id, place) in SET {
            for (text, value) in [(".5678", value), ("-.5678", -value)] {
                let mut link = Link::with(standing(xu));
                assert_eq!(told(&mut link, id, text), 0);
                assert_eq!(link.table[place], value);
            }
        }
    }
}

#[test]
fn a_block_that_sets_xu_is_read_without_decimals() {
    for before in 0..=3 {
        for (text, after) in [("0", 0), ("1.9", 1), ("2.9999", 2), ("3.", 3), ("-.9", 0)] {
            let mut link = Link::with(standing(before));
            assert_eq!(told(&mut link, b"XU", text), 0);
            assert_eq!(link.table, standing(after));
        }
        for (text, number) in [("4", 18), ("-1", 18), ("30", 18), ("", 16), (".", 16)] {
            let mut link = Link::with(standing(before));
            assert_eq!(told(&mut link, b"XU", text), number);
            assert_eq!(link.table, standing(before));
        }
    }
}

#[test]
fn the_point_of_the_others_stays() {
    for xu in 0..=3 {
        let mut link = Link::with(standing(xu));
        for text in OWN_TEXTS {
            let id = &[text[0], text[1]];
            if MOVED.iter().all(|moved| moved.0 != id) && id != b"XU" {
                assert_eq!(polled(&mut link, id).as_bytes(), &text[2..]);
            }
        }
        assert_eq!(polled(&mut link, b"XU"), format!("00000{}", xu));
        assert_eq!(told(&mut link, b"PB", "-.5678"), 0);
        assert_eq!(told(&mut link, b"PR", ".5678"), 0);
        assert_eq!(told(&mut link, b"F1", "5.678"), 0);
        assert_eq!(told(&mut link, b"TM", "5.678"), 0);
        assert_eq!(link.table[8..], [-56, 567, 5, 5, xu]);
    }
}

#[test]
fn nothing_else_moves_when_xu_does() {
    for before in 0..=3 {
        for after in 0..=3 {
            let text = format!("XU{}", after);
            for left in written(standing(before), text.as_bytes(), 0x13, after) {
                assert_eq!(left, standing(after));
            }
            let mut table = standing(before);
            assert_eq!(put(&mut table, 13, after), 0);
            assert_eq!(table, standing(after));
            let frames = [(0x0C, 0), (0x13, before), (0x13, after)];
            let frames = frames.map(|(register, value)| write(register, value as i16));
            assert_eq!(playback(&mut table, 1, &capture(&frames)), 0);
            assert_eq!(table, [0, 1, 0, 0, 0, 0, 0, 500, 0, 1000, 0, 0, after]);
        }
    }
}

#[test]
fn registers_hold_stored_numbers_at_each_xu() {
    let map = |xu| ask(&mut Link::with(standing(xu)), &[1, 0x03, 0, 0, 0, 20]).1;
    for xu in 0..=3 {
        let mut expected = map(0);
        expected[42] = xu as u8;
        assert_eq!(map(xu), expected);
        // 9999, and 10000, which is out of range.
        let mut link = Link::with(standing(xu));
        assert_eq!(ask(&mut link, &[1, 0x06, 0, 0x0B, 0x27, 0x0F]).0, 0);
        assert_eq!(ask(&mut link, &[1, 0x06, 0, 0x0B, 0x27, 0x10]).0, 33);
        assert_eq!(link.table, standing(xu));
    }
}

#[test]
fn the_point_moves_at_once() {
    let mut link = Link::start();
    assert_eq!(put(&mut link.table, 1, 1005), 0);
    for (xu, text) in [
        ("2", "010.05"),
        ("0", "001005"),
        ("3", "01.005"),
        ("1", "0100.5"),
    ] {
        assert_eq!(told(&mut link, b"XU", xu), 0);
        assert_eq!(polled(&mut link, b"M1"), text);
        // NAK sends it again, by the XU that stands in the table now.
        link.table[12] = 2;
        assert_eq!(link.byte(NAK), (0, data(b"M1010.05")));
    }
}
