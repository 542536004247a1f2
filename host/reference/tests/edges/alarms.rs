//! Alarm states in the table: what keeps them true, and tables in which they are not.

use crate::block::block;
use crate::captures::{capture, write};
use crate::rtu::ask;
use crate::*;
use reference::{number, playback, put, start_table};

/// Levels that M1 can be at or below, the ends of the range and negative ones among them.
const LEVELS: [i32; 8] = [-1999, -1998, -150, -1, 0, 1, 500, 9999];

/// A good table with this M1, A1 and A2.
fn standing(m1: i32, a1: i32, a2: i32) -> [i32; 13] {
    agreeing([m1, 0, 0, 1, 7, -3, a1, a2, 5, 1000, 9, 11, 1])
}

/// One step below, at and above a level, as far as the range goes.
fn around(level: i32) -> impl Iterator<Item = i32> {
    (level - 1..=level + 1).filter(|value| (-1999..=9999).contains(value))
}

/// Each M1 around each level, with A1 and A2 around it or elsewhere.
fn each_table(test: impl Fn([i32; 13])) {
    for level in LEVELS {
        for m1 in around(level) {
            for a1 in around(level).chain([77]) {
                for a2 in around(level).chain([77]) {
                    test(standing(m1, a1, a2));
                }
            }
        }
    }
}

#[test]
fn what_the_firmware_puts_keeps_them_true() {
    each_table(|before| {
        for item in [1, 7, 8] {
            for value in LEVELS.into_iter().flat_map(around) {
                let mut table = before;
                assert_eq!(put(&mut table, item, value), 0);
                let mut expected = before;
                expected[item as usize - 1] = value;
                assert_eq!(table, agreeing(expected));
            }
        }
        // Another item leaves them.
        let mut table = before;
        assert_eq!(put(&mut table, 6, 100), 0);
        assert_eq!(table[..3], before[..3]);
    });
}

#[test]
fn what_either_line_writes_keeps_them_true() {
    for (place, id, register) in [(6, b"A1", 0x0C), (7, b"A2", 0x0E)] {
        each_table(|before| {
            for level in around(before[0]) {
                let mut expected = before;
                expected[place] = level;
                let text = [&id[..], &number::write(1, level).unwrap()].concat();
                for left in written(before, &text, register, level) {
                    assert_eq!(left, agreeing(expected));
                }
            }
        });
    }
}

#[test]
fn a_level_among_several_registers() {
    for (level, state) in [(0, 1), (1, 0)] {
        // S1 and A1.
        let mut link = Link::start();
        let body = [1, 0x10, 0, 0x0B, 0, 2, 4, 0x27, 0x0F, 0, level];
        assert_eq!(ask(&mut link, &body).0, 0);
        assert_eq!(link.table[..3], [0, state, 0]);
        // The same with S1 out of range, and with the unlisted register behind A1.
        for body in [
            &[1, 0x10, 0, 0x0B, 0, 2, 4, 0x27, 0x10, 0, level][..],
            &[1, 0x10, 0, 0x0B, 0, 3, 6, 0x27, 0x0F, 0, level, 0, 0],
        ] {
            let mut link = Link::start();
            assert!([32, 33].contains(&ask(&mut link, body).0));
            assert_eq!(link.table, START);
        }
    }
}

#[test]
fn put_refuses_items_2_and_3_at_any_value() {
    each_table(|before| {
        for item in [2, 3] {
            for value in [-1, 0, 1, 2, 500, i32::MIN, i32::MAX] {
                let mut table = before;
                assert_eq!(put(&mut table, item, value), 7);
                assert_eq!(table, before);
            }
        }
    });
    // Behind 1 and 2.
    assert_eq!(put(&mut [0; 12], 2, 0), 1);
    let mut table = START;
    table[1] = 1;
    assert_eq!(put(&mut table, 2, 0), 2);
    assert_eq!(table[1], 1);
}

#[test]
fn neither_line_writes_them() {
    for table in [standing(499, 500, 500), standing(500, 500, 500)] {
        for (text, number) in [("AA0", 17), ("AA1", 17), ("AB0", 17), ("AB1", 17)] {
            let mut link = Link::with(table);
            assert_eq!(link.bytes(&block(text.as_bytes())), (number, vec![NAK]));
            assert_eq!(link.table, table);
        }
        for body in [
            &[1, 0x06, 0, 1, 0, 0][..],
            &[1, 0x06, 0, 1, 0, 1],
            &[1, 0x06, 0, 2, 0, 1],
            &[1, 0x10, 0, 1, 0, 1, 2, 0, 1],
            &[1, 0x10, 0, 1, 0, 2, 4, 0, 1, 0, 1],
        ] {
            let mut link = Link::with(table);
            assert_eq!(ask(&mut link, body).0, 32);
            assert_eq!(link.table, table);
        }
    }
}

/// Each table with alarm states that are not true, in each way: one of them, both, and outside 0 to 1.
fn each_disagreeing(test: impl Fn([i32; 13])) {
    each_table(|table| {
        for aa in [-1, 0, 1, 2] {
            for ab in [-1, 0, 1, 2] {
                let mut other = table;
                other[1] = aa;
                other[2] = ab;
                if other != table {
                    test(other);
                }
            }
        }
    });
}

#[test]
fn a_table_that_disagrees_is_2_before_3_and_4_and_left_as_it_came() {
    each_disagreeing(|table| {
        // Nothing else is wrong; then all that is tried later is.
        let good = Link::with(table);
        let bad = Link {
            state: vec![],
            reply: vec![FILL; 255],
            address: 100,
            structure: 3,
            ..Link::with(table)
        };
        for mut link in [good, bad] {
            refused(&mut link, |link| link.byte(EOT), 2);
            refused(&mut link, |link| link.rtu(&write(0x0C, 0)), 2);
            let line = line_of(vec![1, 0x06, 0, 0x0C, 0, 0]);
            refused(&mut link, |link| link.ascii(&line), 2);
        }
        // No put mends it.
        for (item, value) in [(1, 0), (2, 0), (3, 1), (7, 500), (11, 0), (14, 0)] {
            let mut left = table;
            assert_eq!(put(&mut left, item, value), 2);
            assert_eq!(left, table);
        }
    });
}

#[test]
fn a_start_and_a_playback_do_not_look_at_the_alarm_states_that_are_lent() {
    each_disagreeing(|table| {
        let mut started = table;
        assert_eq!(start_table(&mut started), 0);
        assert_eq!(started, START);
        let mut played = table;
        assert_eq!(playback(&mut played, 1, &capture(&[])), 0);
        assert_eq!(played, START);
    });
}

#[test]
fn playback_keeps_them_true() {
    // M1 is 0 throughout.
    let frames = [
        (write(0x0C, 1), [0, 0]),
        (write(0x0C, 0), [1, 0]),
        (write(0x0E, -1), [1, 1]),
        (write(0x0C, 10_000), [1, 1]),
        (write(0x0C, 1), [0, 1]),
        (write(0x01, 1), [0, 1]),
        (write(0x0E, 9999), [0, 0]),
    ];
    for number in 1..=frames.len() {
        let recorded: Vec<Vec<u8>> = frames[..number].iter().map(|one| one.0.clone()).collect();
        let mut table = [i32::MAX; 13];
        assert_eq!(playback(&mut table, 1, &capture(&recorded)), 0);
        assert_eq!(table[1..3], frames[number - 1].1);
    }
}
