//! Alarm states that somebody wants to set: nobody can.

use super::{around, with, HIGH, LOW};
use crate::call::{Call, Function};
use crate::compare::Compare;
use crate::failure::Checked;
use crate::groups::outcome::{leaves_table, refused};
use crate::groups::requests::{on_both_lines, words};
use crate::groups::several;
use crate::instrument::Instrument;
use crate::random::Random;
use crate::shapes::{any_item, disagree, set};
use reference::items::ITEMS;

/// Good tables with M1 at and around its levels.
fn good_tables(random: &mut Random) -> Vec<Vec<i32>> {
    let mut tables = vec![];
    for m1 in [LOW, -150, 0, 1, 500, HIGH] {
        for a1 in around(m1) {
            for a2 in around(m1) {
                tables.push(with(random, [m1, a1, a2]));
            }
        }
    }
    tables
}

/// Into good tables and into bad ones of every kind: items 2 and 3, those beside them and those that
/// there are not, with values that the states have or could have, and with any.
pub fn put(compare: &mut Compare, random: &mut Random) -> Checked<()> {
    for good in good_tables(random) {
        for (table, fault) in tables(random, &good) {
            all(compare, random, &table, fault)?;
        }
    }
    Ok(())
}

/// A good table; with alarm states that disagree; with an entry outside its range; of another length.
/// Each with the number that it is refused with.
fn tables(random: &mut Random, good: &[i32]) -> Vec<(Vec<i32>, u32)> {
    let [mut disagreeing, mut outside] = [good.to_vec(), good.to_vec()];
    disagree(&mut disagreeing, random);
    let item = any_item(random);
    let row = &ITEMS[item - 1];
    let entry = random.pick(&[row.low - 1, row.high + 1]);
    set(&mut outside, item, entry);
    let mut tables = vec![(good.to_vec(), 0), (disagreeing, 2), (outside, 2)];
    for length in [0, 1, 2, 3, 12, 14] {
        let mut other = good.to_vec();
        other.resize(length, 0);
        tables.push((other, 1));
    }
    tables
}

/// Puts to each item number in question. The table's own fault, where it has one, comes first.
fn all(compare: &mut Compare, random: &mut Random, table: &[i32], fault: u32) -> Checked<()> {
    let any = random.word() as i32;
    for value in [-1, 0, 1, 2, 256, i32::MIN, i32::MAX, any] {
        for (item, number) in [(2, 7), (3, 7), (0, 6), (14, 6), (258, 6), (1 << 31 | 3, 6)] {
            let call = Call {
                item,
                value,
                table: table.to_vec(),
                ..Call::new(Function::Put)
            };
            let number = if fault == 0 { number } else { fault };
            refused(compare, call, number)?;
        }
        // An item beside them takes what its range has.
        compare.call(&mut Call {
            item: random.pick(&[1, 4]),
            value,
            table: table.to_vec(),
            ..Call::new(Function::Put)
        })?;
    }
    Ok(())
}

/// Blocks, frames and lines for the alarm states, with values that they have or could have, alone and
/// with the registers beside them. Each is answered, and leaves the table.
pub fn written(compare: &mut Compare, random: &mut Random) -> Checked<()> {
    for table in good_tables(random) {
        for (id, state) in [("AA", table[1]), ("AB", table[2])] {
            for number in ["0", "1", "2", "-1", &format!("{state:06}")] {
                by_block(compare, random, &table, &format!("{id}{number}"), 17)?;
            }
            for no_number in ["", "-", "1+"] {
                by_block(compare, random, &table, &format!("{id}{no_number}"), 16)?;
            }
        }
        for frame in frames(&table) {
            for call in on_both_lines(random, &table, frame) {
                leaves_table(compare, call, 32)?;
            }
        }
    }
    Ok(())
}

fn by_block(
    compare: &mut Compare,
    random: &mut Random,
    table: &[i32],
    text: &str,
    number: u32,
) -> Checked<()> {
    let call = Instrument::call_block(random, table.to_vec(), text.as_bytes());
    leaves_table(compare, call, number)
}

/// Writes of 0001H and 0002H: each by 06H and by 10H with each value of its range and beside it, both
/// together with every pair of such values, and with what M1 and B1 have at their sides.
fn frames(table: &[i32]) -> Vec<Vec<u8>> {
    let mut frames = vec![];
    for first in [0, 1, 2, 0xFFFF] {
        for register in [1, 2] {
            frames.push(words(1, 0x06, register, first));
            frames.push(several::right(1, register, &[first]));
        }
        for second in [0, 1, 2, 0xFFFF] {
            frames.push(several::right(1, 1, &[first, second]));
        }
    }
    let all: Vec<u16> = table[..4].iter().map(|entry| *entry as u16).collect();
    for (start, end) in [(0, 2), (0, 3), (0, 4), (1, 3), (1, 4), (2, 4)] {
        frames.push(several::right(1, start as u16, &all[start..end]));
    }
    frames
}
