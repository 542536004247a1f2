//! Sessions in which the firmware and all lines reach one table.

use super::{A1, A2, M1};
use crate::compare::Compare;
use crate::failure::{Checked, Failure};
use crate::groups::requests::words;
use crate::groups::several;
use crate::instrument::Instrument;
use crate::random::Random;
use crate::shapes::{agree, any_item, any_value};
use reference::items::{decimals, ITEMS};
use reference::line::ACK;
use reference::number;

/// Levels go around M1, and M1 around the levels, by whoever can set them. In between the alarm states
/// are read on each line. They must be true behind every call.
pub fn sessions(compare: &mut Compare, random: &mut Random) -> Checked<()> {
    for _ in 0..1000 {
        let mut instrument = Instrument::on_all_lines(random);
        for _ in 0..24 {
            step(compare, random, &mut instrument)?;
            stay_true(&instrument)?;
        }
    }
    Ok(())
}

fn step(compare: &mut Compare, random: &mut Random, instrument: &mut Instrument) -> Checked<()> {
    let item = match random.below(4) {
        0 => any_item(random),
        _ => random.pick(&[M1, A1, A2]),
    };
    let value = near(random, &instrument.table, item);
    match random.below(9) {
        0 | 1 => {
            instrument.put(compare, item, value)?;
        }
        2 => {
            let text = text(&instrument.table, item, value);
            instrument.select(compare, random, &text)?;
        }
        3 => poll(compare, random, instrument)?,
        4 => {
            instrument.idle(compare, random)?;
        }
        _ => {
            let frame = request(random, instrument.address, item, value);
            instrument.hear_either(compare, random, frame)?;
        }
    }
    Ok(())
}

/// A write of this value, by either function or behind S1, or a read of the alarm states.
fn request(random: &mut Random, address: u8, item: usize, value: i32) -> Vec<u8> {
    let register = ITEMS[item - 1].register;
    match random.below(4) {
        0 => words(address, 0x06, register, value as u16),
        1 => several::right(address, register, &[value as u16]),
        2 => {
            let s1 = random.between(-2000, 10_000);
            several::right(address, 0x0B, &[s1 as u16, value as u16])
        }
        _ => words(address, 0x03, 0, 3),
    }
}

/// A value one step around M1 or a level, or any around the item's range.
fn near(random: &mut Random, table: &[i32], item: usize) -> i32 {
    match random.below(5) {
        0 => any_value(random, item),
        _ => table[random.pick(&[M1, A1, A2]) - 1] + random.between(-1, 1),
    }
}

/// The text of a block. A value that does not fit is written out in full.
fn text(table: &[i32], item: usize, value: i32) -> Vec<u8> {
    let characters = match number::write(decimals(table, item), value) {
        Ok(six) => six.to_vec(),
        Err(_) => value.to_string().into_bytes(),
    };
    [&ITEMS[item - 1].id[..], &characters].concat()
}

/// M1 is polled, and AA and AB behind it.
fn poll(compare: &mut Compare, random: &mut Random, instrument: &mut Instrument) -> Checked<()> {
    instrument.poll(compare, random, *b"M1")?;
    instrument.receive(compare, random, &[ACK, ACK])?;
    Ok(())
}

/// The alarm states are those of M1, A1 and A2.
fn stay_true(instrument: &Instrument) -> Checked<()> {
    let mut due = instrument.table.clone();
    agree(&mut due);
    if due == instrument.table {
        return Ok(());
    }
    let why = format!("{:?} was left, {due:?} is due", instrument.table);
    Err(Failure::wrong(why))
}
