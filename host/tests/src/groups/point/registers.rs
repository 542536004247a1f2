//! Registers hold stored numbers, whatever XU is.

use super::{with_xu, XU};
use crate::compare::Compare;
use crate::failure::{Checked, Failure};
use crate::groups::outcome::{leaves_table, sets, with_set};
use crate::groups::requests::{on_both_lines, words};
use crate::groups::several;
use crate::random::Random;
use crate::shapes::good_table;
use reference::ascii::line_of;
use reference::items::{in_range, ITEMS};
use reference::modbus::with_crc;

/// The items of the map's registers; 0 stands for an unlisted one.
const MAP: [usize; 20] = [
    1, 2, 3, 4, 5, 0, 0, 0, 12, 0, 0, 6, 7, 0, 8, 0, 9, 10, 11, 13,
];

/// Every span in the map, and those that go one register past it, read at each XU.
pub fn read(compare: &mut Compare, random: &mut Random) -> Checked<()> {
    let spans = (0..=20).flat_map(|start| (1..=21 - start).map(move |number| (start, number)));
    for (start, quantity) in spans {
        for _ in 0..4 {
            let table = good_table(random);
            for xu in 0..=3 {
                let table = with_set(&table, &[(XU, xu)]);
                span(compare, random, &table, start, quantity)?;
            }
        }
    }
    Ok(())
}

/// A span read on both lines: each register has its item's stored number.
fn span(
    compare: &mut Compare,
    random: &mut Random,
    table: &[i32],
    start: usize,
    quantity: usize,
) -> Checked<()> {
    let due = due(table, start, quantity);
    let frame = words(1, 0x03, start as u16, quantity as u16);
    let [mut frame, mut line] = on_both_lines(random, table, frame);
    let given = compare.heard(&mut frame)?.1;
    let given_line = compare.heard(&mut line)?.1;
    if given == with_crc(due.clone()) && given_line == line_of(due.clone()) {
        return Ok(());
    }
    Err(Failure::wrong(format!(
        "{due:02X?} is due, {given:02X?} was given\n{frame}"
    )))
}

/// What is sent back: the stored numbers, or exception 2 for a span that leaves the map.
fn due(table: &[i32], start: usize, quantity: usize) -> Vec<u8> {
    if start + quantity > 20 {
        return vec![1, 0x83, 2];
    }
    let mut due = vec![1, 0x03, 2 * quantity as u8];
    for item in &MAP[start..start + quantity] {
        let stored = if *item == 0 { 0 } else { table[item - 1] };
        due.extend((stored as u16).to_be_bytes());
    }
    due
}

/// Every writable register at both ends of its range, beside them and anywhere, written at each XU by
/// 06H and by 10H.
pub fn written(compare: &mut Compare, random: &mut Random) -> Checked<()> {
    for xu in 0..=3 {
        for (row, item) in ITEMS.iter().zip(1..).filter(|(row, _)| row.writable) {
            let any = [0; 20].map(|_| random.between(row.low - 9, row.high + 9));
            let ends = [row.low - 1, row.low, row.high, row.high + 1];
            for value in ends.into_iter().chain(any) {
                one(compare, random, xu, item, value)?;
            }
        }
    }
    Ok(())
}

/// A register written alone by either function, on both lines.
fn one(
    compare: &mut Compare,
    random: &mut Random,
    xu: i32,
    item: usize,
    value: i32,
) -> Checked<()> {
    let register = ITEMS[item - 1].register;
    let table = with_xu(random, xu);
    for frame in [
        words(1, 0x06, register, value as u16),
        several::right(1, register, &[value as u16]),
    ] {
        for call in on_both_lines(random, &table, frame) {
            if in_range(item, value) {
                sets(compare, call, &[(item, value)])?;
            } else {
                leaves_table(compare, call, 33)?;
            }
        }
    }
    Ok(())
}
