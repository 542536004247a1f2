//! Captures whose writes move the alarm states.

use super::{A1, A2, HIGH, LOW};
use crate::call::Call;
use crate::compare::Compare;
use crate::failure::Checked;
use crate::groups::captures::playback;
use crate::groups::last_write::{all_items, left_by, parts, Recorded};
use crate::groups::outcome::leaves;
use crate::groups::requests::words;
use crate::groups::several;
use crate::random::Random;
use crate::shapes::{disagree, good_table};
use reference::items::item;

/// A level that is written, or a frame that leaves the table.
type Step = Option<(usize, i32)>;

/// Every one, two and three of these: A1 or A2 written to either end of the range and around 0, which
/// M1 has from the start table, and a frame that leaves the table. Then any number of them.
pub fn played(compare: &mut Compare, random: &mut Random) -> Checked<()> {
    let levels = [LOW, -1, 0, 1, HIGH];
    let writes = [A1, A2].into_iter();
    let writes = writes.flat_map(|level| levels.map(|value| Some((level, value))));
    let steps: Vec<Step> = writes.chain([None]).collect();
    for first in &steps {
        one(compare, random, &[*first])?;
        for second in &steps {
            one(compare, random, &[*first, *second])?;
            for third in &steps {
                one(compare, random, &[*first, *second, *third])?;
            }
        }
    }
    for _ in 0..1000 {
        let number = random.below(30);
        let many: Vec<Step> = (0..number).map(|_| random.pick(&steps)).collect();
        one(compare, random, &many)?;
    }
    Ok(())
}

/// Plays a capture of these back: the alarm states are those of the start table's M1 and of the levels
/// that were written last, whatever the lent table has. Asked for its last writes it has none of AA
/// and AB.
fn one(compare: &mut Compare, random: &mut Random, steps: &[Step]) -> Checked<()> {
    let frames: Vec<Recorded> = steps.iter().map(|step| recorded(random, *step)).collect();
    let due = left_by(&frames);
    let call = Call {
        table: lent(random, &due),
        ..playback(random, parts(&frames).capture())
    };
    leaves(compare, call, &due)?;
    all_items(compare, random, &frames)
}

/// A level is written alone, by either function, or A1 with S1 in front of it.
fn recorded(random: &mut Random, step: Step) -> Recorded {
    let (level, value) = match step {
        Some(written) => written,
        None => return Recorded::idle(idle(random)),
    };
    let register = item(level).register;
    let mut written = Recorded {
        frame: several::by_either(random, 1, register, &[value as u16]),
        writes: vec![(level as u32, value)],
    };
    if level == A1 && random.one_in(3) {
        let s1 = random.between(LOW, HIGH);
        written.frame = several::right(1, register - 1, &[s1 as u16, value as u16]);
        written.writes.push((6, s1));
    }
    written
}

/// A frame that leaves the table: a read of the alarm states, writes of them, levels out of range, and
/// levels for another address.
fn idle(random: &mut Random) -> Vec<u8> {
    let level = random.pick(&[0x0C, 0x0E]);
    match random.below(7) {
        0 => words(1, 0x03, 0, 3),
        1 => words(1, 0x06, random.pick(&[1, 2]), random.below(2) as u16),
        2 => several::right(1, 1, &[1, 1]),
        3 => several::right(1, 0x0C, &[0, 0, 0]),
        4 => words(1, 0x06, level, HIGH as u16 + 1),
        5 => words(1, 0x06, level, (LOW - 1) as u16),
        _ => words(2, 0x06, level, 0),
    }
}

/// A table to play back into: what is due with alarm states that are not, any good one, one that
/// disagrees, or anything.
fn lent(random: &mut Random, due: &[i32]) -> Vec<i32> {
    let mut table = match random.below(4) {
        0 => due.to_vec(),
        1 => return good_table(random),
        2 => good_table(random),
        _ => return (0..13).map(|_| random.word() as i32).collect(),
    };
    disagree(&mut table, random);
    table
}
