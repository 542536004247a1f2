use crate::call::{Call, Function};
use crate::compare::Compare;
use crate::failure::Checked;
use crate::instrument::Instrument;
use crate::random::Random;
use crate::shapes::{good_state, good_table, pattern, FIRST_DIGIT, PHASES, SECOND_DIGIT};
use reference::line::sent;

/// The phases in which a byte's meaning hangs on the state's other fields are tried more than once.
pub fn every_byte(compare: &mut Compare, random: &mut Random) -> Checked<()> {
    for _ in 0..8 {
        for structure in 0..=2 {
            for phase in 0..PHASES {
                for byte in 0..=255 {
                    compare.call(&mut Call {
                        address: random.below(100) as u8,
                        structure,
                        byte,
                        now: random.word(),
                        state: good_state(random, phase),
                        table: good_table(random),
                        reply: pattern(random, 256),
                        ..Call::new(Function::Byte)
                    })?;
                }
            }
        }
    }
    Ok(())
}

/// Every digit and what stands beside the digits, right and as a line error, for every address.
pub fn digits(compare: &mut Compare, random: &mut Random) -> Checked<()> {
    for address in 0..100 {
        for structure in 0..=2 {
            for character in b'0' - 1..=b'9' + 1 {
                let byte = sent(structure, character);
                for byte in [byte, byte ^ 0x80] {
                    digit(compare, random, (address, structure), byte)?;
                }
            }
        }
    }
    Ok(())
}

/// A byte in the place of either digit.
fn digit(
    compare: &mut Compare,
    random: &mut Random,
    (address, structure): (u8, u8),
    byte: u8,
) -> Checked<()> {
    for phase in [FIRST_DIGIT, SECOND_DIGIT] {
        let mut instrument = Instrument {
            address,
            structure,
            state: good_state(random, phase),
            ..Instrument::any(random)
        };
        instrument.byte(compare, random, byte)?;
    }
    Ok(())
}
