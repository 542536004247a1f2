//! Starts, the firmware's put, and the caller's faults 1 to 7.

use crate::*;
use reference::{put, start_link, start_table};

/// Low and high of each item.
const LIMITS: [(i32, i32); 13] = [
    (-1999, 9999),
    (0, 1),
    (0, 1),
    (0, 1),
    (0, 255),
    (-1999, 9999),
    (-1999, 9999),
    (-1999, 9999),
    (-1000, 1000),
    (500, 1500),
    (0, 100),
    (0, 999),
    (0, 3),
];

/// Low and high of an item. Neither of AA and AB, which are not put and must agree with other entries.
fn both_ends(place: usize) -> Vec<i32> {
    let (low, high) = LIMITS[place];
    match place {
        1 | 2 => vec![],
        _ => vec![low, high],
    }
}

#[test]
fn a_start_table_has_the_start_values() {
    let mut table = [-7; 13];
    assert_eq!(start_table(&mut table), 0);
    assert_eq!(table, START);
    for length in [0, 1, 12, 14] {
        let mut table = vec![-7; length];
        assert_eq!(start_table(&mut table), 1);
        assert_eq!(table, vec![-7; length]);
    }
}

#[test]
fn a_start_link_is_at_rest_with_all_else_0() {
    let mut state = [0xFF; 24];
    assert_eq!(start_link(&mut state), 0);
    assert_eq!(state, [0; 24]);
    for length in [0, 1, 23, 25] {
        let mut state = vec![0xFF; length];
        assert_eq!(start_link(&mut state), 5);
        assert_eq!(state, vec![0xFF; length]);
    }
}

#[test]
fn put_takes_low_and_high_of_each_item_and_refuses_one_past_them() {
    for (place, (low, high)) in LIMITS.into_iter().enumerate() {
        let item = place as u32 + 1;
        for value in both_ends(place) {
            let mut table = START;
            assert_eq!(put(&mut table, item, value), 0);
            let mut expected = START;
            expected[place] = value;
            assert_eq!(table, agreeing(expected));
        }
        for value in [low - 1, high + 1, i32::MIN, i32::MAX] {
            let mut table = START;
            assert_eq!(put(&mut table, item, value), 7);
            assert_eq!(table, START);
        }
    }
}

#[test]
fn put_tries_1_2_6_and_7() {
    let mut short = [i32::MAX; 12];
    assert_eq!(put(&mut short, 14, i32::MAX), 1);
    assert_eq!(short, [i32::MAX; 12]);

    // A bad entry is refused even where the put would mend it.
    let mut bad = START;
    bad[8] = 1001;
    assert_eq!(put(&mut bad, 14, i32::MAX), 2);
    assert_eq!(put(&mut bad, 9, 0), 2);
    assert_eq!(bad[8], 1001);

    for item in [0, 14, 256 + 1, u32::MAX] {
        let mut table = START;
        assert_eq!(put(&mut table, item, i32::MAX), 6);
        assert_eq!(table, START);
    }
    assert_eq!(put(&mut START.clone(), 13, 4), 7);
}

#[test]
fn every_entry_outside_its_limits_is_2() {
    for (place, (low, high)) in LIMITS.into_iter().enumerate() {
        for value in [low - 1, high + 1] {
            let mut link = Link::start();
            link.table[place] = value;
            refused(&mut link, |link| link.byte(EOT), 2);
            refused(&mut link, |link| link.rtu(&[]), 2);
            refused(&mut link, |link| link.ascii(&[]), 2);
        }
        for value in both_ends(place) {
            let mut table = START;
            table[place] = value;
            let mut link = Link::start();
            link.table = agreeing(table).to_vec();
            assert_eq!(link.byte(EOT), (0, vec![]));
            assert_eq!(link.rtu(&[]), (21, vec![]));
            assert_eq!(link.ascii(&[]), (24, vec![]));
        }
    }
}

#[test]
fn a_byte_tries_1_to_5_in_order() {
    let mut link = Link {
        state: vec![0; 23],
        table: vec![i32::MAX; 12],
        reply: vec![FILL; 255],
        address: 100,
        structure: 3,
        now: 0,
    };
    refused(&mut link, |link| link.byte(0xFF), 1);
    link.table = vec![i32::MAX; 14];
    refused(&mut link, |link| link.byte(0xFF), 1);
    link.table = vec![i32::MAX; 13];
    refused(&mut link, |link| link.byte(0xFF), 2);
    link.table = START.to_vec();
    refused(&mut link, |link| link.byte(0xFF), 3);
    link.reply = vec![FILL; 256];
    refused(&mut link, |link| link.byte(0xFF), 4);
    link.address = 99;
    refused(&mut link, |link| link.byte(0xFF), 4);
    link.address = 100;
    link.structure = 2;
    refused(&mut link, |link| link.byte(0xFF), 4);
    link.address = 99;
    refused(&mut link, |link| link.byte(0xFF), 5);
    link.state = vec![0; 25];
    refused(&mut link, |link| link.byte(0xFF), 5);
    link.state = vec![0; 24];
    assert_eq!(link.byte(0xFF), (0, vec![]));
}

#[test]
fn an_idle_call_tries_3_4_and_5() {
    let mut link = Link {
        state: vec![0; 23],
        table: vec![],
        reply: vec![FILL; 255],
        address: 100,
        structure: 3,
        now: 0,
    };
    refused(&mut link, Link::idle, 3);
    link.reply = vec![FILL; 256];
    refused(&mut link, Link::idle, 4);
    link.structure = 2;
    refused(&mut link, Link::idle, 5);
    link.state = bare(10).to_vec();
    refused(&mut link, Link::idle, 5);
    link.state = bare(REST).to_vec();
    assert_eq!(link.idle(), (0, vec![]));
}

/// A call of either Modbus line, of nothing: it tries 1 to 4 and then what it was handed.
fn tries_1_to_4(call: fn(&mut Link) -> (u32, Vec<u8>), nothing: u32) {
    let mut link = Link {
        state: vec![],
        table: vec![i32::MAX; 12],
        reply: vec![FILL; 255],
        address: 0,
        structure: 3,
        now: 0,
    };
    refused(&mut link, call, 1);
    link.table = vec![i32::MAX; 13];
    refused(&mut link, call, 2);
    link.table = START.to_vec();
    refused(&mut link, call, 3);
    link.reply = vec![FILL; 256];
    refused(&mut link, call, 4);
    link.address = 100;
    refused(&mut link, call, 4);
    for address in [1, 99] {
        link.address = address;
        refused(&mut link, call, nothing);
    }
}

#[test]
fn a_frame_tries_1_to_4_and_then_its_length() {
    tries_1_to_4(|link| link.rtu(&[]), 21);
}

#[test]
fn a_line_tries_1_to_4_and_then_its_characters() {
    tries_1_to_4(|link| link.ascii(&[]), 24);
}

/// Both calls that take a state refuse it with 5.
fn outside(state: [u8; 24]) {
    let mut link = Link::from(state);
    refused(&mut link, |link| link.byte(EOT), 5);
    refused(&mut link, |link| link.byte(0xFF), 5);
    refused(&mut link, Link::idle, 5);
}

/// Both calls that take a state take this one.
fn inside(state: [u8; 24]) {
    assert_ne!(Link::from(state).byte(EOT).0, 5);
    assert_ne!(Link::from(state).idle().0, 5);
}

#[test]
fn a_state_outside_its_limits_is_5() {
    for phase in 10..=255 {
        outside(bare(phase));
    }

    outside(waiting(0, 0));
    inside(waiting(1, u32::MAX));
    inside(waiting(13, 0));
    outside(waiting(14, 0));
    outside(waiting(255, 0));

    inside(one(0x00));
    inside(one(0x7F));
    outside(one(0x80));
    inside(two(0x00, 0x7F));
    outside(two(0x80, b'B'));
    outside(two(b'P', 0xFF));

    for phase in [TEXT, BCC_DUE] {
        inside(in_block(phase, 9, 0x7F, 255, &[0x7F; 8]));
        outside(in_block(phase, 10, 0, 0, b""));
        outside(in_block(phase, 0, 0x80, 0, b""));
        for place in 0..8 {
            let mut kept = [b'0'; 8];
            kept[place as usize] = 0x80;
            inside(in_block(phase, place, 0, 0, &kept));
            outside(in_block(phase, place + 1, 0, 0, &kept));
            outside(in_block(phase, 9, 0, 0, &kept));
        }
    }
}

#[test]
fn number_5_looks_only_at_what_the_phase_uses() {
    // All but the phase and what it uses is FFH, which no used field may hold.
    let used: [&[usize]; 10] = [
        &[],
        &[],
        &[],
        &[],
        &[12],
        &[12, 13],
        &[1, 8, 9, 10, 11],
        &[2, 3, 4, 12, 13, 14],
        &[2, 3, 4, 12, 13, 14],
        &[],
    ];
    for (clean, used) in each_phase().into_iter().zip(used) {
        let mut hostile = [0xFF; 24];
        hostile[0] = clean[0];
        for place in used {
            hostile[*place] = clean[*place];
        }
        inside(hostile);

        // The idle call does nothing here, and the unused fields come out 0.
        let mut link = Link::from(hostile);
        link.now = 77;
        assert_eq!(link.idle(), (0, vec![]));
        assert_eq!(link.state, clean);
    }

    // A byte that is ignored does the same.
    let mut hostile = [0xFF; 24];
    hostile[0] = REST;
    let mut link = Link::from(hostile);
    assert_eq!(link.byte(b'x'), (0, vec![]));
    assert_eq!(link.state, bare(REST));
}

#[test]
fn a_mark_that_is_not_0_comes_out_as_1() {
    for phase in [TEXT, BCC_DUE] {
        for (mark, out) in [(0, 0), (1, 1), (2, 1), (0x80, 1), (0xFF, 1)] {
            let mut link = Link::from(in_block(phase, 0, 0, mark, b""));
            assert_eq!(link.idle(), (0, vec![]));
            assert_eq!(link.state, in_block(phase, 0, 0, out, b""));

            // A refusal hands it back as it came.
            let mut link = Link::from(in_block(phase, 0, 0x80, mark, b""));
            refused(&mut link, Link::idle, 5);
            let mut link = Link::from(in_block(phase, 0, 0, mark, b""));
            link.structure = 3;
            refused(&mut link, Link::idle, 4);
        }
    }
}
