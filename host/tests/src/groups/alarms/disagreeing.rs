//! Tables whose alarm states are not true.

use super::{around, level_text, with, A1, A2, HIGH, LOW};
use crate::call::Call;
use crate::compare::Compare;
use crate::failure::Checked;
use crate::groups::gives;
use crate::groups::limits::{good, not_looked_at, noticed, WITH_TABLE};
use crate::instrument::Instrument;
use crate::random::Random;

/// Where M1, A1 and A2 stand close to each other.
const LEVELS: [i32; 9] = [LOW, -256, -150, -1, 0, 1, 500, 4096, HIGH];

/// What no alarm state can be, its low bits being those of 0 or 1 for some.
const FAR: [i32; 8] = [3, -2, 256, 257, 65_536, i32::MIN, i32::MIN + 1, i32::MAX];

/// M1, A1 and A2 on all sides of each other, with every pair of alarm states in and beside their range
/// and some far from it: all but the true one are refused, whatever else is wrong.
pub fn disagreeing(compare: &mut Compare, random: &mut Random) -> Checked<()> {
    for level in LEVELS {
        for m1 in around(level) {
            for a1 in around(level) {
                for a2 in around(level) {
                    pairs(compare, random, [m1, a1, a2])?;
                }
            }
        }
    }
    Ok(())
}

/// Every pair of alarm states with this M1, A1 and A2.
fn pairs(compare: &mut Compare, random: &mut Random, three: [i32; 3]) -> Checked<()> {
    let states = [-1, 0, 1, 2, random.pick(&FAR)];
    for aa in states {
        for ab in states {
            let right = with(random, three);
            let mut table = right.clone();
            table[1] = aa;
            table[2] = ab;
            if table == right {
                accepted(compare, random, &table)?;
            } else {
                noticed(compare, random, &table, 2)?;
                block(compare, random, &table, 2)?;
                not_looked_at(compare, random, &table)?;
            }
        }
    }
    Ok(())
}

/// The calls that look at a table take this one.
fn accepted(compare: &mut Compare, random: &mut Random, table: &[i32]) -> Checked<()> {
    for function in WITH_TABLE {
        compare.call(&mut Call {
            table: table.to_vec(),
            ..good(random, function)
        })?;
    }
    block(compare, random, table, 0)
}

/// A block for a level at an end of its range.
fn block(compare: &mut Compare, random: &mut Random, table: &[i32], number: u32) -> Checked<()> {
    let (level_item, level) = (random.pick(&[A1, A2]), random.pick(&[LOW, HIGH]));
    let text = level_text(table, level_item, level);
    let call = Instrument::call_block(random, table.to_vec(), &text);
    gives(compare, call, number)?;
    Ok(())
}
