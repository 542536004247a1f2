//! Polls that go on by ACK, at each XU.

use super::{each, sends, with_xu};
use crate::compare::Compare;
use crate::failure::{Checked, Failure};
use crate::instrument::Instrument;
use crate::random::Random;
use crate::shapes::good_table;
use reference::items::item;
use reference::line::{ACK, EOT, NAK};

/// From each item to the end of the list at each XU. On half of the ways the table changes, and XU with
/// it.
pub fn runs(compare: &mut Compare, random: &mut Random) -> Checked<()> {
    for (xu, first) in each() {
        for round in 0..12 {
            let mut instrument = Instrument::any(random);
            instrument.table = with_xu(random, xu);
            run(compare, random, &mut instrument, first, round % 2 == 0)?;
        }
    }
    Ok(())
}

/// Each item is sent as it is due, now and then a second time; behind XU comes EOT.
fn run(
    compare: &mut Compare,
    random: &mut Random,
    instrument: &mut Instrument,
    first: usize,
    changing: bool,
) -> Checked<()> {
    let (_, mut reply) = instrument.poll(compare, random, item(first).id)?;
    for number in first..=13 {
        sends(&instrument.table, number, &reply)?;
        if changing {
            instrument.table = good_table(random);
        }
        if random.one_in(4) {
            reply = instrument.receive(compare, random, &[NAK])?.1;
            sends(&instrument.table, number, &reply)?;
        }
        reply = instrument.receive(compare, random, &[ACK])?.1;
    }
    if reply == [instrument.sent(EOT)] {
        return Ok(());
    }
    Err(Failure::wrong(format!(
        "behind XU {reply:02X?} was sent, not EOT"
    )))
}
