use super::{every_set, Fault, BUFFER, ENTRY, STATE, STRUCTURE, TABLE_LENGTH};
use crate::compare::Compare;
use crate::failure::Checked;
use crate::instrument::Instrument;
use crate::random::Random;
use crate::shapes::{good_table, ONE_CHARACTER, TWO_CHARACTERS, WAITING};
use reference::items::with_id;
use reference::line::{bcc, ACK, ENQ, ETX, STX};

/// 4: an address that there is not.
const ADDRESS: Fault = Fault(4, |call, random| {
    call.address = random.pick(&[100, 101, 128, 255]);
});

const FAULTS: [Fault; 6] = [TABLE_LENGTH, ENTRY, BUFFER, ADDRESS, STRUCTURE, STATE];

/// What a block's text meets behind 11 and 12, as much as possible of what comes later being wrong
/// too.
const TEXTS: [(&[u8], u32); 50] = [
    (b"", 13),
    (b"P", 13),
    (b"+", 13),
    (b"??", 14),
    (b"??1", 14),
    (b"??+", 14),
    (b"??1234567", 14),
    (b"??+++++++", 14),
    (b"Pb+++++++", 14),
    (b"pB1", 14),
    (b"P1+", 14),
    (b"PB0000001", 15),
    (b"PB9999999", 15),
    (b"PB+++++++", 15),
    (b"M10000001", 15),
    (b"M19999999", 15),
    (b"M1+++++++", 15),
    (b"XU0000004", 15),
    (b"PB", 16),
    (b"PB-.", 16),
    (b"PB+99999", 16),
    (b"PB9999-9", 16),
    (b"M1", 16),
    (b"M1+", 16),
    (b"M1+99999", 16),
    (b"AA.", 16),
    (b"AB+1", 16),
    (b"XU", 16),
    (b"XU+4", 16),
    (b"M10", 17),
    (b"M1999999", 17),
    (b"M1-99999", 17),
    (b"AA0", 17),
    (b"AA1", 17),
    (b"AB1", 17),
    (b"AB2", 17),
    (b"ER256", 17),
    (b"PB10.01", 18),
    (b"PB-10.01", 18),
    (b"F1999999", 18),
    (b"XU4", 18),
    (b"XU-1", 18),
    (b"S110000", 18),
    (b"S1-2000", 18),
    (b"PB-.058", 0),
    (b"PR0.5009", 0),
    (b"TM999", 0),
    (b"A2-.1", 0),
    (b"S1-1.999", 0),
    (b"XU3.9", 0),
];

/// The mark of a block and the top bit that is flipped in its BCC: the first has met no line error.
const DAMAGES: [(u8, u8); 5] = [(0, 0), (1, 0), (255, 0), (0, 0x80), (1, 0x80)];

/// Every set of the caller's faults, on whatever else a byte can be refused for.
pub fn faults(compare: &mut Compare, random: &mut Random) -> Checked<()> {
    for (text, number) in TEXTS {
        blocks(compare, random, text, number)?;
    }
    for _ in 0..20 {
        polls(compare, random)?;
    }
    Ok(())
}

/// A block of this text, with and without line errors, with the right BCC and some others.
fn blocks(compare: &mut Compare, random: &mut Random, text: &[u8], number: u32) -> Checked<()> {
    for (mark, top) in DAMAGES {
        for flip in [0, STX, ETX, 0x40] {
            let table = good_table(random);
            let mut instrument = Instrument::judging(random, table, text);
            instrument.state[4] = mark;
            let byte = instrument.sent(bcc(text) ^ ETX ^ flip) ^ top;
            let call = instrument.call_byte(random, byte);
            let number = match (mark, top, flip) {
                (0, 0, 0) => number,
                (0, 0, _) => 12,
                _ => 11,
            };
            every_set(compare, random, &FAULTS, &call, number)?;
        }
    }
    Ok(())
}

/// The same on a poll that ends, goes on, or is answered.
fn polls(compare: &mut Compare, random: &mut Random) -> Checked<()> {
    let item = with_id(b"XU").expect("an item of the list") as u8;
    let steps: [(u8, u8, &[u8], u8, u32); 12] = [
        (0, 0, b"", STX, 0),
        (ONE_CHARACTER, 0, b"P", ENQ, 41),
        (TWO_CHARACTERS, 0, b"PB", b'B', 41),
        (TWO_CHARACTERS, 0, b"P?", ENQ, 42),
        (TWO_CHARACTERS, 0, b"PB", ENQ, 0),
        (WAITING, item, b"", ENQ, 43),
        (WAITING, item, b"", STX, 43),
        (WAITING, item, b"", b' ', 0),
        (WAITING, item, b"", b'~', 0),
        (WAITING, item, b"", 0x7F, 43),
        (WAITING, item, b"", ACK, 45),
        (WAITING, item - 1, b"", ACK, 0),
    ];
    for (phase, item, kept, character, number) in steps {
        let mut instrument = Instrument::any(random);
        instrument.state[0] = phase;
        instrument.state[1] = item;
        instrument.state[12..12 + kept.len()].copy_from_slice(kept);
        let byte = instrument.sent(character);
        let call = instrument.call_byte(random, byte);
        every_set(compare, random, &FAULTS, &call, number)?;
    }
    Ok(())
}
