//! Tables whose XU is out of its range, tables without it, and with an entry too many.

use super::{text, XU};
use crate::compare::Compare;
use crate::failure::Checked;
use crate::groups::limits::{not_looked_at, noticed};
use crate::groups::outcome::{refused, with_set};
use crate::instrument::Instrument;
use crate::random::Random;
use crate::shapes::good_table;

/// What XU cannot be. The low bits of some are those of an XU.
const OUTSIDE: [i32; 14] = [
    -1,
    -2,
    -4,
    4,
    5,
    6,
    7,
    128,
    255,
    256,
    257,
    65_537,
    i32::MIN + 1,
    i32::MAX,
];

/// Each call that looks at a table refuses these, also one that would set XU right; a start and a
/// playback set it.
pub fn tables(compare: &mut Compare, random: &mut Random) -> Checked<()> {
    for _ in 0..20 {
        for xu in OUTSIDE {
            let table = with_set(&good_table(random), &[(XU, xu)]);
            all(compare, random, &table, 2)?;
            not_looked_at(compare, random, &table)?;
        }
        for length in [XU - 1, XU + 1] {
            let mut table = good_table(random);
            table.resize(length, random.between(-1, 4));
            all(compare, random, &table, 1)?;
        }
    }
    Ok(())
}

/// Every call that looks at this table, with blocks for XU and for S1 among them.
fn all(compare: &mut Compare, random: &mut Random, table: &[i32], number: u32) -> Checked<()> {
    noticed(compare, random, table, number)?;
    for item in [XU, 6] {
        let text = text(item, b"1");
        let call = Instrument::call_block(random, table.to_vec(), &text);
        refused(compare, call, number)?;
    }
    Ok(())
}
