use super::{every_set, Fault, BUFFER, STATE, STRUCTURE};
use crate::compare::Compare;
use crate::failure::Checked;
use crate::instrument::Instrument;
use crate::random::Random;
use crate::shapes::{good_state, PHASES, WAITING};

const FAULTS: [Fault; 3] = [BUFFER, STRUCTURE, STATE];

/// Every set of the caller's faults, in every phase, with and without three seconds of silence.
pub fn faults(compare: &mut Compare, random: &mut Random) -> Checked<()> {
    for round in 0..1000 {
        for silence in [0, 2999, 3000, u32::MAX] {
            let phase = if round % 2 == 0 {
                WAITING
            } else {
                random.below(usize::from(PHASES)) as u8
            };
            let mut instrument = Instrument::any(random);
            instrument.state = good_state(random, phase);
            let sent = instrument.now.wrapping_sub(silence);
            instrument.state[8..12].copy_from_slice(&sent.to_le_bytes());
            let ended = phase == WAITING && silence >= 3000;
            let call = instrument.call_idle(random);
            every_set(compare, random, &FAULTS, &call, if ended { 44 } else { 0 })?;
        }
    }
    Ok(())
}
