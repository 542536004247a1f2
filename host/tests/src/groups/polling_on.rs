//! Polling on: while waiting, a new poll of the same address needs neither EOT nor the address.

use crate::compare::Compare;
use crate::failure::Checked;
use crate::instrument::Instrument;
use crate::random::Random;
use crate::shapes::{any_item, good_state, WAITING};
use reference::items::ITEMS;
use reference::line::ENQ;

/// What may be polled and is not in the list: both ends of what an identifier may have, and
/// neighbours of those in the list.
const UNKNOWN: [[u8; 2]; 8] = [
    *b"  ", *b"~~", *b" 1", *b"M~", *b"m1", *b"1M", *b"MA", *b"ZZ",
];

/// Behind each item, in each structure, each identifier of the list and others; two more polls
/// follow. Behind an unknown one they meet a link at rest.
pub fn whole(compare: &mut Compare, random: &mut Random) -> Checked<()> {
    let identifiers: Vec<[u8; 2]> = ITEMS.iter().map(|row| row.id).chain(UNKNOWN).collect();
    for item in 1..=13 {
        for structure in 0..=2 {
            for id in &identifiers {
                let mut instrument = behind(random, item, structure);
                poll(compare, random, &mut instrument, *id)?;
                for _ in 0..2 {
                    let id = random.pick(&identifiers);
                    poll(compare, random, &mut instrument, id)?;
                }
            }
        }
    }
    Ok(())
}

/// Behind each item, in each structure, every byte in the place of each of the three characters.
pub fn every_byte(compare: &mut Compare, random: &mut Random) -> Checked<()> {
    for item in 1..=13 {
        for structure in 0..=2 {
            for byte in 0..=255 {
                for place in 0..3 {
                    let mut instrument = behind(random, item, structure);
                    let id = ITEMS[any_item(random) - 1].id;
                    for character in &id[..place] {
                        let before = instrument.sent(*character);
                        instrument.byte(compare, random, before)?;
                    }
                    instrument.byte(compare, random, byte)?;
                }
            }
        }
    }
    Ok(())
}

/// An instrument that has sent an item. What waiting ignores is anything.
fn behind(random: &mut Random, item: u8, structure: u8) -> Instrument {
    let mut state = good_state(random, WAITING);
    state[1] = item;
    Instrument {
        structure,
        state,
        ..Instrument::any(random)
    }
}

/// A poll without the address. The host may fall silent behind each character but the last: the
/// idle calls there have nothing to end.
fn poll(
    compare: &mut Compare,
    random: &mut Random,
    instrument: &mut Instrument,
    id: [u8; 2],
) -> Checked<()> {
    for character in id {
        let byte = instrument.sent(character);
        instrument.byte(compare, random, byte)?;
        let pause = random.pick(&[0, 2999, 3000, 1 << 31]);
        instrument.now = instrument.now.wrapping_add(pause);
        instrument.idle(compare, random)?;
    }
    let enquiry = instrument.sent(ENQ);
    instrument.byte(compare, random, enquiry)?;
    Ok(())
}
