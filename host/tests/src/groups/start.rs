use crate::call::{Call, Function};
use crate::compare::Compare;
use crate::failure::Checked;
use crate::random::Random;
use crate::shapes::pattern;

/// Thirteen entries and 24 bytes are started; all other lengths are refused and left.
pub fn lengths(compare: &mut Compare, random: &mut Random) -> Checked<()> {
    for length in 0..=64 {
        compare.call(&mut Call {
            table: (0..length).map(|_| random.word() as i32).collect(),
            ..Call::new(Function::StartTable)
        })?;
        compare.call(&mut Call {
            state: pattern(random, length),
            ..Call::new(Function::StartLink)
        })?;
    }
    Ok(())
}
