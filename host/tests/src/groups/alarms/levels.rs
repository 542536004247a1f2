//! M1 and the levels of the alarms, each one step below the other, at it and above it.

use super::{around, level_text, with, with_measured, A1, A2, HIGH, LOW, M1};
use crate::call::{Call, Function};
use crate::compare::Compare;
use crate::failure::Checked;
use crate::groups::outcome::sets;
use crate::groups::requests::{on_both_lines, words};
use crate::groups::several;
use crate::instrument::Instrument;
use crate::random::Random;
use reference::items::item;

/// Values around 0, around the ends of the range and around powers of 2, and some of the whole range.
fn values() -> impl Iterator<Item = i32> {
    let powers = (0..14).flat_map(|bit| [1 << bit, -(1 << bit)]);
    let edges = powers.chain([LOW, HIGH, 0]).flat_map(around);
    edges.chain((LOW..=HIGH).step_by(17))
}

/// A way to set the level of an alarm, by its item number, where M1 has this value.
type Way = fn(&mut Compare, &mut Random, i32, usize, i32) -> Checked<()>;

const WAYS: [Way; 3] = [by_block, by_frames, by_put];

/// A1 and A2 are written around M1 by each line, and put by the firmware; around each other value of M1
/// by one of these.
pub fn levels(compare: &mut Compare, random: &mut Random) -> Checked<()> {
    for m1 in values() {
        for way in WAYS {
            both_levels(compare, random, way, m1)?;
        }
    }
    for m1 in LOW..=HIGH {
        let way = random.pick(&WAYS);
        both_levels(compare, random, way, m1)?;
    }
    Ok(())
}

fn both_levels(compare: &mut Compare, random: &mut Random, way: Way, m1: i32) -> Checked<()> {
    for level in around(m1) {
        for item in [A1, A2] {
            way(compare, random, m1, item, level)?;
        }
    }
    Ok(())
}

/// A level is sent as a block.
fn by_block(
    compare: &mut Compare,
    random: &mut Random,
    m1: i32,
    level_item: usize,
    level: i32,
) -> Checked<()> {
    let table = with_measured(random, m1);
    let text = level_text(&table, level_item, level);
    let call = Instrument::call_block(random, table, &text);
    sets(compare, call, &[(level_item, level)])
}

/// A level is written by 06H and by 10H, alone and, where its neighbour can be written, with it; each
/// as a frame and as a line.
fn by_frames(
    compare: &mut Compare,
    random: &mut Random,
    m1: i32,
    level_item: usize,
    level: i32,
) -> Checked<()> {
    let register = item(level_item).register;
    let alone = [(level_item, level)];
    let frame = words(1, 0x06, register, level as u16);
    by_frame(compare, random, m1, frame, &alone)?;
    let frame = several::right(1, register, &[level as u16]);
    by_frame(compare, random, m1, frame, &alone)?;
    if level_item == A1 {
        // S1 stands in front of A1.
        let s1 = random.between(LOW, HIGH);
        let frame = several::right(1, register - 1, &[s1 as u16, level as u16]);
        by_frame(compare, random, m1, frame, &[(6, s1), (A1, level)])?;
    }
    Ok(())
}

/// A frame that writes these items, on both lines.
fn by_frame(
    compare: &mut Compare,
    random: &mut Random,
    m1: i32,
    frame: Vec<u8>,
    written: &[(usize, i32)],
) -> Checked<()> {
    let table = with_measured(random, m1);
    for call in on_both_lines(random, &table, frame) {
        sets(compare, call, written)?;
    }
    Ok(())
}

/// A level is put.
fn by_put(
    compare: &mut Compare,
    random: &mut Random,
    m1: i32,
    level_item: usize,
    level: i32,
) -> Checked<()> {
    let call = Call {
        item: level_item as u32,
        value: level,
        table: with_measured(random, m1),
        ..Call::new(Function::Put)
    };
    sets(compare, call, &[(level_item, level)])
}

/// M1 is put around a level, from around it and from anywhere, the other level being the same, one
/// step away or anywhere. Around each other level one of these is done.
pub fn measured(compare: &mut Compare, random: &mut Random) -> Checked<()> {
    for level in values() {
        let [before, other] = [0; 2].map(|_| random.between(LOW, HIGH));
        for before in around(level).chain([before]) {
            for other in around(level).chain([other]) {
                around_level(compare, random, before, level, other)?;
            }
        }
    }
    for level in LOW..=HIGH {
        let [before, other] = [0; 2].map(|_| random.between(LOW, HIGH));
        around_level(compare, random, before, level, other)?;
    }
    Ok(())
}

/// M1 is put around a level, which is that of either alarm.
fn around_level(
    compare: &mut Compare,
    random: &mut Random,
    before: i32,
    level: i32,
    other: i32,
) -> Checked<()> {
    for value in around(level) {
        for [a1, a2] in [[level, other], [other, level]] {
            let call = Call {
                item: M1 as u32,
                value,
                table: with(random, [before, a1, a2]),
                ..Call::new(Function::Put)
            };
            sets(compare, call, &[(M1, value)])?;
        }
    }
    Ok(())
}
