//! The item list, the check of the lent table, and what storing a value leaves in it.

/// Where the point of an item's number text stands.
pub enum Point {
    /// Always before so many decimals.
    Fixed(u8),
    /// Where XU has it.
    Chosen,
}

use Point::{Chosen, Fixed};

/// One row of the specification's item list.
pub struct Item {
    pub id: [u8; 2],
    pub register: u16,
    pub writable: bool,
    pub point: Point,
    pub low: i32,
    pub high: i32,
    pub start: i32,
}

/// A row that the host may only read.
const fn read(id: &[u8; 2], register: u16, point: Point, limits: (i32, i32), start: i32) -> Item {
    Item {
        id: *id,
        register,
        writable: false,
        point,
        low: limits.0,
        high: limits.1,
        start,
    }
}

/// A row that the host may write. "Write" items may also be read.
const fn write(id: &[u8; 2], register: u16, point: Point, limits: (i32, i32), start: i32) -> Item {
    Item {
        id: *id,
        register,
        writable: true,
        point,
        low: limits.0,
        high: limits.1,
        start,
    }
}

/// The item list, in its order: the lent table has one entry per item in the same order.
pub const ITEMS: [Item; 13] = [
    read(b"M1", 0x0000, Chosen, (-1999, 9999), 0),
    read(b"AA", 0x0001, Fixed(0), (0, 1), 0),
    read(b"AB", 0x0002, Fixed(0), (0, 1), 0),
    read(b"B1", 0x0003, Fixed(0), (0, 1), 0),
    read(b"ER", 0x0004, Fixed(0), (0, 255), 0),
    write(b"S1", 0x000B, Chosen, (-1999, 9999), 0),
    write(b"A1", 0x000C, Chosen, (-1999, 9999), 500),
    write(b"A2", 0x000E, Chosen, (-1999, 9999), 500),
    write(b"PB", 0x0010, Fixed(2), (-1000, 1000), 0),
    write(b"PR", 0x0011, Fixed(3), (500, 1500), 1000),
    write(b"F1", 0x0012, Fixed(0), (0, 100), 0),
    write(b"TM", 0x0008, Fixed(0), (0, 999), 0),
    write(b"XU", 0x0013, Fixed(0), (0, 3), 1),
];

/// The row of an item number, which counts from 1.
pub fn item(number: usize) -> &'static Item {
    &ITEMS[number - 1]
}

/// Whether the item's low and high hold the value between them.
pub fn in_range(number: usize, value: i32) -> bool {
    item(number).low <= value && value <= item(number).high
}

/// The number of the item with this identifier.
pub fn with_id(id: &[u8]) -> Option<usize> {
    (1..=13).find(|number| item(*number).id == id)
}

/// The number of the item with this register.
pub fn with_register(register: u16) -> Option<usize> {
    (1..=13).find(|number| item(*number).register == register)
}

/// The decimals of an item's number text, in polls and in blocks alike. XU, item 13, gives those of M1,
/// S1, A1 and A2. It does nothing else: stored numbers and ranges don't move with it, only the point
/// does.
pub fn decimals(table: &[i32], number: usize) -> u8 {
    match item(number).point {
        Fixed(decimals) => decimals,
        Chosen => table[12] as u8,
    }
}

/// The alarm states, which stand in entries 2 and 3: AA is 1 exactly when M1 has reached A1, AB
/// exactly when M1 has reached A2, else 0.
pub fn alarm_states(table: &[i32]) -> [i32; 2] {
    let m1 = table[0];
    let a1 = table[6];
    let a2 = table[7];
    [i32::from(m1 >= a1), i32::from(m1 >= a2)]
}

/// The first two numbers given back: 1 where the table is not 13 long, 2 where an entry lies
/// outside its low and high or where entry 2 or 3 disagrees with M1 and A1 or A2, else 0.
pub fn table_fault(table: &[i32]) -> u32 {
    if table.len() != 13 {
        return 1;
    }
    for number in 1..=13 {
        if !in_range(number, table[number - 1]) {
            return 2;
        }
    }
    let [aa, ab] = alarm_states(table);
    if table[1] != aa || table[2] != ab {
        return 2;
    }
    0
}

/// Stores an item's value, and sets the alarm states anew: every operation that can alter M1, A1 or
/// A2 keeps them true.
pub fn store(table: &mut [i32], number: usize, value: i32) {
    table[number - 1] = value;
    let [aa, ab] = alarm_states(table);
    table[1] = aa;
    table[2] = ab;
}

#[cfg(test)]
mod tests {
    use super::*;

    #[test]
    fn entries_are_found_by_identifier_and_register() {
        assert_eq!(with_id(b"M1"), Some(1));
        assert_eq!(with_id(b"TM"), Some(12));
        assert_eq!(with_id(b"XU"), Some(13));
        assert_eq!(with_id(b"m1"), None);
        assert_eq!(with_register(0x0008), Some(12));
        assert_eq!(with_register(0x0012), Some(11));
        assert_eq!(with_register(0x0013), Some(13));
        assert_eq!(with_register(0x0014), None);
        assert_eq!(with_register(0x0005), None);
    }

    #[test]
    fn xu_gives_the_decimals_of_four_items() {
        let mut table = [0; 13];
        for xu in 0..=3 {
            table[12] = xu;
            let all: Vec<u8> = (1..=13).map(|number| decimals(&table, number)).collect();
            let xu = xu as u8;
            assert_eq!(all, [xu, 0, 0, 0, 0, xu, xu, xu, 2, 3, 0, 0, 0]);
        }
    }

    #[test]
    fn an_alarm_state_is_1_from_its_level_up() {
        let mut table = [0, 0, 0, 0, 0, 0, 500, 501, 0, 1000, 0, 0, 1];
        for (m1, states) in [(499, [0, 0]), (500, [1, 0]), (501, [1, 1])] {
            table[0] = m1;
            assert_eq!(alarm_states(&table), states);
        }
    }

    #[test]
    fn the_start_values_are_a_good_table() {
        let start: Vec<i32> = ITEMS.iter().map(|row| row.start).collect();
        assert_eq!(table_fault(&start), 0);
    }

    #[test]
    fn storing_sets_both_alarm_states_anew() {
        let mut table = [0, 0, 0, 0, 0, 0, 500, 501, 0, 1000, 0, 0, 1];
        store(&mut table, 1, 501);
        assert_eq!(table[..3], [501, 1, 1]);
        store(&mut table, 7, 502);
        assert_eq!(table[..3], [501, 0, 1]);
        store(&mut table, 8, 502);
        assert_eq!(table[..3], [501, 0, 0]);
    }
}
