use crate::compare::Compare;
use crate::failure::Checked;
use crate::instrument::Instrument;
use crate::random::Random;
use crate::shapes::{good_table, good_table_with, TIMES, TWO_CHARACTERS, WAITING};
use reference::items::ITEMS;
use reference::line::{ACK, ENQ, NAK};

/// Every two characters are polled as an identifier.
pub fn identifiers(compare: &mut Compare, random: &mut Random) -> Checked<()> {
    for first in 0..0x80 {
        for second in 0..0x80 {
            let mut instrument = Instrument::any(random);
            instrument.state[0] = TWO_CHARACTERS;
            instrument.state[12] = first;
            instrument.state[13] = second;
            let enquiry = instrument.sent(ENQ);
            instrument.byte(compare, random, enquiry)?;
        }
    }
    Ok(())
}

/// A waiting link is asked for its item again, with each value that the item can have.
pub fn every_value(compare: &mut Compare, random: &mut Random) -> Checked<()> {
    for (row, item) in ITEMS.iter().zip(1..) {
        for value in row.low..=row.high {
            let mut instrument = Instrument::any(random);
            instrument.state[0] = WAITING;
            instrument.state[1] = item as u8;
            instrument.table = good_table_with(random, item, value);
            let again = instrument.sent(NAK);
            instrument.byte(compare, random, again)?;
        }
    }
    Ok(())
}

/// Each item is sent, the first time and again, at times on both sides of the count's turn.
pub fn times(compare: &mut Compare, random: &mut Random) -> Checked<()> {
    for (row, item) in ITEMS.iter().zip(1..) {
        for now in TIMES {
            for (phase, character) in [(TWO_CHARACTERS, ENQ), (WAITING, ACK), (WAITING, NAK)] {
                let mut instrument = Instrument::any(random);
                instrument.now = now;
                instrument.state[0] = phase;
                instrument.state[1] = item;
                instrument.state[12..14].copy_from_slice(&row.id);
                let byte = instrument.sent(character);
                instrument.byte(compare, random, byte)?;
            }
        }
    }
    Ok(())
}

/// From each item to the end of the list, with the table changing on the way.
pub fn runs(compare: &mut Compare, random: &mut Random) -> Checked<()> {
    for _ in 0..100 {
        for row in &ITEMS {
            let mut instrument = Instrument::any(random);
            instrument.poll(compare, random, row.id)?;
            while instrument.state[0] == WAITING {
                let answer = instrument.sent(random.pick(&[ACK, ACK, NAK]));
                instrument.byte(compare, random, answer)?;
                instrument.table = good_table(random);
            }
        }
    }
    Ok(())
}
