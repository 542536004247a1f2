use crate::compare::Compare;
use crate::failure::Checked;
use crate::instrument::Instrument;
use crate::random::Random;
use crate::shapes::{good_state, PHASES, TIMES, WAITING};

/// Silences on both sides of three seconds and of the turn of the count, in every phase.
pub fn silence(compare: &mut Compare, random: &mut Random) -> Checked<()> {
    let silences = [0, 1, 2999, 3000, 3001, 1 << 31, u32::MAX - 1, u32::MAX];
    for round in 0..40_000 {
        let phase = match random.below(4) {
            0 => random.below(usize::from(PHASES)) as u8,
            _ => WAITING,
        };
        let mut instrument = Instrument::any(random);
        instrument.state = good_state(random, phase);
        let (mut silence, mut time) = (random.pick(&silences), random.pick(&TIMES));
        if round % 2 == 0 {
            silence = random.below(6000) as u32;
            time = random.word();
        }
        instrument.state[8..12].copy_from_slice(&time.to_le_bytes());
        instrument.now = time.wrapping_add(silence);
        instrument.idle(compare, random)?;
    }
    Ok(())
}
