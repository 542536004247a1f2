//! Sessions on all lines in which XU changes.

use super::{characters, sends, text, MOVED, XU};
use crate::compare::Compare;
use crate::failure::{Checked, Failure};
use crate::groups::outcome::with_set;
use crate::groups::requests::words;
use crate::groups::several;
use crate::instrument::Instrument;
use crate::random::Random;
use crate::shapes::{any_item, good_value, is_alarm_state};
use reference::items::item;

/// Whoever can set an item does so, by the XU that stands in the table then; in between items are
/// polled. Each must be left and sent as it is due.
pub fn sessions(compare: &mut Compare, random: &mut Random) -> Checked<()> {
    for _ in 0..1000 {
        let mut instrument = Instrument::on_all_lines(random);
        for _ in 0..24 {
            step(compare, random, &mut instrument)?;
        }
    }
    Ok(())
}

fn step(compare: &mut Compare, random: &mut Random, instrument: &mut Instrument) -> Checked<()> {
    let number = match random.below(4) {
        0 => any_item(random),
        1 => XU,
        _ => random.pick(&MOVED),
    };
    if random.one_in(3) {
        let (_, reply) = instrument.poll(compare, random, item(number).id)?;
        return sends(&instrument.table, number, &reply);
    }
    let value = good_value(random, number);
    let before = instrument.table.clone();
    let due = if set(compare, random, instrument, number, value)? {
        with_set(&before, &[(number, value)])
    } else {
        before
    };
    if instrument.table == due {
        return Ok(());
    }
    let why = format!("{due:?} is due, {:?} was left", instrument.table);
    Err(Failure::wrong(why))
}

/// The firmware, a block or a message on either Modbus line sets an item. Whether it may.
fn set(
    compare: &mut Compare,
    random: &mut Random,
    instrument: &mut Instrument,
    number: usize,
    value: i32,
) -> Checked<bool> {
    let (address, register) = (instrument.address, item(number).register);
    match random.below(4) {
        0 => {
            instrument.put(compare, number, value)?;
            return Ok(!is_alarm_state(number));
        }
        1 => {
            let with_value = with_set(&instrument.table, &[(number, value)]);
            let text = text(number, &characters(&with_value, number));
            instrument.select(compare, random, &text)?;
        }
        2 => {
            let frame = words(address, 0x06, register, value as u16);
            instrument.hear_either(compare, random, frame)?;
        }
        _ => {
            let frame = several::right(address, register, &[value as u16]);
            instrument.hear_either(compare, random, frame)?;
        }
    }
    Ok(item(number).writable)
}
