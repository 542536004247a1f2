//! Tables, states and buffers to lend: good ones, and ones outside their limits.

use crate::random::Random;
use reference::items::ITEMS;

/// Settings that the RKC line takes, and some that it does not.
pub const ADDRESSES: [u8; 9] = [0, 1, 9, 10, 50, 99, 100, 128, 255];
pub const STRUCTURES: [u8; 7] = [0, 1, 2, 3, 4, 128, 255];

/// Lengths of a reply buffer: those that are too short come first.
pub const REPLY_LENGTHS: [usize; 7] = [0, 1, 11, 255, 256, 257, 300];

/// Times on both sides of the turn of the count, and three seconds away from it.
pub const TIMES: [u32; 9] = [
    0,
    1,
    2999,
    3000,
    3001,
    1 << 31,
    u32::MAX - 2999,
    u32::MAX - 1,
    u32::MAX,
];

// Phases as the state's first byte has them.
pub const FIRST_DIGIT: u8 = 1;
pub const SECOND_DIGIT: u8 = 2;
pub const ONE_CHARACTER: u8 = 4;
pub const TWO_CHARACTERS: u8 = 5;
pub const WAITING: u8 = 6;
pub const TEXT: u8 = 7;
pub const BCC_DUE: u8 = 8;
pub const PHASES: u8 = 10;

/// The number of any item of the list, which has 13.
pub fn any_item(random: &mut Random) -> usize {
    1 + random.below(13)
}

/// A value that an item may have, often at an end of its range.
pub fn good_value(random: &mut Random, item: usize) -> i32 {
    let row = &ITEMS[item - 1];
    match random.below(4) {
        0 => row.low,
        1 => row.high,
        _ => random.between(row.low, row.high),
    }
}

/// A value near an end of an item's range on either side, or anywhere.
pub fn any_value(random: &mut Random, item: usize) -> i32 {
    let row = &ITEMS[item - 1];
    match random.below(6) {
        0 => row.low - 1,
        1 => row.high + 1,
        2 => random.pick(&[i32::MIN, i32::MIN + 1, -1, 0, 1, i32::MAX]),
        3 => random.word() as i32,
        _ => random.between(row.low - 2, row.high + 2),
    }
}

/// A table that every call takes. The measured value is often at an alarm's level, or beside it.
pub fn good_table(random: &mut Random) -> Vec<i32> {
    let mut table: Vec<i32> = (1..=13).map(|item| good_value(random, item)).collect();
    if random.one_in(2) {
        let level = table[random.pick(&[6, 7])];
        table[0] = (level + random.between(-1, 1)).clamp(ITEMS[0].low, ITEMS[0].high);
    }
    agree(&mut table);
    table
}

/// Sets the alarm states of a table as M1, A1 and A2 have them: AA is 1 exactly when M1 >= A1, AB
/// exactly when M1 >= A2.
pub fn agree(table: &mut [i32]) {
    table[1] = i32::from(table[0] >= table[6]);
    table[2] = i32::from(table[0] >= table[7]);
}

/// A table that every call takes, in which an item has this value of its range. An alarm state has it
/// by M1 and its level.
pub fn good_table_with(random: &mut Random, item: usize, value: i32) -> Vec<i32> {
    let mut table = good_table(random);
    if is_alarm_state(item) {
        while table[item - 1] != value {
            table = good_table(random);
        }
    } else {
        set(&mut table, item, value);
    }
    table
}

/// Whether an item is AA or AB.
pub fn is_alarm_state(item: usize) -> bool {
    [2, 3].contains(&item)
}

/// Sets an item of a good table to anything. The alarm states go with it, so that nothing else is
/// wrong; one that is set itself may disagree.
pub fn set(table: &mut [i32], item: usize, entry: i32) {
    table[item - 1] = entry;
    if !is_alarm_state(item) {
        agree(table);
    }
}

/// Makes the alarm states of a good table disagree, all other entries being in range: one of them or
/// both have another value, or a level has gone to the other side of M1 and they have stayed.
pub fn disagree(table: &mut [i32], random: &mut Random) {
    let (state, level) = random.pick(&[(1, 6), (2, 7)]);
    match random.below(4) {
        0 if table[state] == 0 => table[level] = table[0],
        0 if table[0] < ITEMS[level].high => table[level] = table[0] + 1,
        1 => {
            table[1] = another(random, table[1]);
            table[2] = another(random, table[2]);
        }
        _ => table[state] = another(random, table[state]),
    }
}

/// A value that an alarm state does not have, mostly the other one of its range.
fn another(random: &mut Random, state: i32) -> i32 {
    match random.below(3) {
        0 => random.pick(&[state + 2, state - 2, state + 256, state ^ i32::MIN]),
        _ => 1 - state,
    }
}

/// A table in which some entries may lie outside their range, or alarm states disagree.
pub fn bad_table(random: &mut Random) -> Vec<i32> {
    let mut table = good_table(random);
    for _ in 0..random.below(3) {
        let item = any_item(random);
        table[item - 1] = any_value(random, item);
    }
    table
}

/// A table of any length.
pub fn odd_table(random: &mut Random) -> Vec<i32> {
    let mut table = bad_table(random);
    let length = random.pick(&[0, 1, 12, 13, 14, 26]);
    table.resize(length, 0);
    table
}

/// A buffer filled with a pattern that shows what stays.
pub fn pattern(random: &mut Random, length: usize) -> Vec<u8> {
    let salt = random.byte();
    (0..length)
        .map(|place| salt.wrapping_add((place as u8).wrapping_mul(7)))
        .collect()
}

/// A state of this phase within its limits, with anything in the fields that the phase ignores.
pub fn good_state(random: &mut Random, phase: u8) -> Vec<u8> {
    let mut state = random.bytes(24);
    state[0] = phase;
    match phase {
        ONE_CHARACTER | TWO_CHARACTERS => keep_identifier(random, &mut state),
        WAITING => state[1] = any_item(random) as u8,
        TEXT | BCC_DUE => keep_block(random, &mut state),
        _ => {}
    }
    state
}

/// An identifier of the list, or any two characters.
pub fn identifier(random: &mut Random) -> [u8; 2] {
    if random.one_in(4) {
        [random.byte() & 0x7F, random.byte() & 0x7F]
    } else {
        ITEMS[any_item(random) - 1].id
    }
}

/// The phases of a poll need their one or two characters below 80H; the second one of these is
/// ignored where the phase has one only.
fn keep_identifier(random: &mut Random, state: &mut [u8]) {
    let [first, second] = identifier(random);
    state[12] = first;
    if state[0] == TWO_CHARACTERS || random.one_in(2) {
        state[13] = second;
    }
}

fn keep_block(random: &mut Random, state: &mut [u8]) {
    let [first, second] = identifier(random);
    let count = random.below(10);
    state[2] = count as u8;
    state[3] &= 0x7F;
    state[4] = random.pick(&[0, 0, 1, 255]);
    for kept in state[12..12 + count.min(8)].iter_mut() {
        *kept = random.pick(b"-.0123456789\x00\x03\x04\x7F");
    }
    if count >= 2 {
        state[12] = first;
        state[13] = second;
    }
}

/// Puts a field that the state's phase uses outside its limits; where it uses none, the phase.
pub fn outside_limits(state: &mut [u8], random: &mut Random) {
    let kept = match state[0] {
        ONE_CHARACTER => 1,
        TWO_CHARACTERS => 2,
        TEXT | BCC_DUE => usize::from(state[2].min(8)),
        _ => 0,
    };
    match (state[0], random.below(3)) {
        (WAITING, _) => state[1] = random.pick(&[0, 14, 15, 128, 255]),
        (TEXT | BCC_DUE, 0) => state[2] = random.pick(&[10, 11, 128, 255]),
        (TEXT | BCC_DUE, 1) => state[3] |= 0x80,
        _ if kept > 0 => state[12 + random.below(kept)] |= 0x80,
        _ => state[0] = random.pick(&[10, 11, 128, 255]),
    }
}

/// A state in which any field may be outside its limits.
pub fn bad_state(random: &mut Random) -> Vec<u8> {
    let phase = random.below(usize::from(PHASES)) as u8;
    let mut state = good_state(random, phase);
    for _ in 0..random.below(3) {
        let place = random.pick(&[0, 1, 2, 3, 4, 8, 11, 12, 13, 14, 15, 18, 19, 20, 23]);
        state[place] = random.pick(&[0, 1, 8, 9, 10, 12, 13, 14, 0x7F, 0x80, 0xFF]);
    }
    state
}

/// A state of any length.
pub fn odd_state(random: &mut Random) -> Vec<u8> {
    let mut state = bad_state(random);
    let length = random.pick(&[0, 1, 12, 23, 24, 25, 48]);
    state.resize(length, 0);
    state
}
