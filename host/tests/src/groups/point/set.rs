//! XU set by whoever can set it.

use super::numbers::{sent, told_back};
use super::{text, with_xu, MOVED, XU};
use crate::call::{Call, Function};
use crate::compare::Compare;
use crate::failure::Checked;
use crate::groups::captures::playback;
use crate::groups::last_write::{self, all_items, left_by, parts, Recorded};
use crate::groups::outcome::{self, leaves, leaves_table, with_set};
use crate::groups::requests::{on_both_lines, words};
use crate::groups::several;
use crate::instrument::Instrument;
use crate::random::Random;
use reference::items::with_register;

/// XU's register, and the spans of writable registers that end there.
const REGISTER: u16 = 0x13;
const SPANS: [(u16, usize); 4] = [(0x13, 1), (0x12, 2), (0x11, 3), (0x10, 4)];

/// Items and the values that they are set to.
type Items = Vec<(usize, i32)>;

/// From each XU to each, in every way: nothing else moves, the point of four items does at once, and
/// that of the others stays.
pub fn set(compare: &mut Compare, random: &mut Random) -> Checked<()> {
    for change in 0..16 {
        let [before, after] = [change / 4, change % 4];
        for _ in 0..8 {
            let table = with_xu(random, before);
            for (call, items) in settings(random, &table, after) {
                let due = with_set(&table, &items);
                leaves(compare, call, &due)?;
                pointed(compare, random, &due)?;
            }
            played(compare, random, [before, after])?;
        }
    }
    Ok(())
}

/// Each item is sent as it is due of this table, and four of them are told what was sent.
fn pointed(compare: &mut Compare, random: &mut Random, table: &[i32]) -> Checked<()> {
    for number in 1..=13 {
        sent(compare, random, table, number)?;
    }
    for number in MOVED {
        told_back(compare, random, table, number)?;
    }
    Ok(())
}

/// Every way to set XU, with all that each sets: put, blocks, and 06H and 10H on both lines.
fn settings(random: &mut Random, table: &[i32], xu: i32) -> Vec<(Call, Items)> {
    let alone = vec![(XU, xu)];
    let mut settings = vec![(put(table, xu), alone.clone())];
    for characters in spellings(xu) {
        settings.push((block(random, table, &characters), alone.clone()));
    }
    for (frame, items) in frames(random, xu) {
        let calls = on_both_lines(random, table, frame);
        settings.extend(calls.map(|call| (call, items.clone())));
    }
    settings
}

/// The firmware puts XU.
fn put(table: &[i32], xu: i32) -> Call {
    Call {
        item: XU as u32,
        value: xu,
        table: table.to_vec(),
        ..Call::new(Function::Put)
    }
}

/// A block for XU.
fn block(random: &mut Random, table: &[i32], characters: &str) -> Call {
    let text = text(XU, characters.as_bytes());
    Instrument::call_block(random, table.to_vec(), &text)
}

/// A number that XU takes, with fractions that are cut off.
fn spellings(xu: i32) -> Vec<String> {
    let mut spellings = vec![
        format!("{xu}"),
        format!("{xu:06}"),
        format!("{xu}."),
        format!("{xu}.9"),
        format!("{xu}.9999"),
        format!("000{xu}.0"),
    ];
    if xu == 0 {
        spellings.extend(["-0", "-.9999", ".9"].map(String::from));
    }
    spellings
}

/// Frames that write XU, by 06H and by 10H alone and behind its neighbours, with all that they write.
fn frames(random: &mut Random, xu: i32) -> Vec<(Vec<u8>, Items)> {
    let mut frames = vec![(words(1, 0x06, REGISTER, xu as u16), vec![(XU, xu)])];
    for (start, quantity) in SPANS {
        let mut values = several::good(random, start, quantity);
        values[quantity - 1] = xu as u16;
        let items = (start..).zip(&values).map(|(register, value)| {
            let item = with_register(register).expect("a writable register is an item's");
            (item, i32::from(*value as i16))
        });
        frames.push((several::right(1, start, &values), items.collect()));
    }
    frames
}

/// XU written twice in a capture, with other frames around: played back it is the last one, and so it
/// is asked for its last write.
fn played(compare: &mut Compare, random: &mut Random, written: [i32; 2]) -> Checked<()> {
    let mut frames = last_write::some(random, 6);
    for (place, xu) in [2, 5].into_iter().zip(written) {
        frames[place] = Recorded {
            frame: several::by_either(random, 1, REGISTER, &[xu as u16]),
            writes: vec![(XU as u32, xu)],
        };
    }
    let call = playback(random, parts(&frames).capture());
    let due = left_by(&frames);
    leaves(compare, call, &due)?;
    pointed(compare, random, &due)?;
    all_items(compare, random, &frames)
}

/// What XU does not take, from each XU and in every way. The table stays.
pub fn refused(compare: &mut Compare, random: &mut Random) -> Checked<()> {
    for round in 0..32 {
        let table = with_xu(random, round % 4);
        by_blocks(compare, random, &table)?;
        by_frames(compare, random, &table)?;
        for value in [-1, 4, 5, 13, 255, 256, 257, 65_537, i32::MIN, i32::MAX] {
            outcome::refused(compare, put(&table, value), 7)?;
        }
    }
    Ok(())
}

/// Out of range, and no number.
fn by_blocks(compare: &mut Compare, random: &mut Random, table: &[i32]) -> Checked<()> {
    for outside in [
        "4", "-1", "4.", "-1.0", "10", "000004", "30", "300", "256", "999999",
    ] {
        leaves_table(compare, block(random, table, outside), 18)?;
    }
    for no_number in ["", "-", ".", "-.", "+1", "1 ", "1.1.", "XU"] {
        leaves_table(compare, block(random, table, no_number), 16)?;
    }
    Ok(())
}

/// Out of range, alone and behind good values; and the register behind XU's.
fn by_frames(compare: &mut Compare, random: &mut Random, table: &[i32]) -> Checked<()> {
    let mut refused = vec![];
    for outside in [4, 5, 255, 256, 257, 0x7FFF, -0x8000, -0x7FFF, -1] {
        let frames = frames(random, outside).into_iter();
        refused.extend(frames.map(|(frame, _)| (frame, 33)));
    }
    for value in [0, 1, 3, 4] {
        refused.extend([
            (words(1, 0x06, REGISTER + 1, value), 32),
            (several::right(1, REGISTER + 1, &[value]), 32),
            (several::right(1, REGISTER, &[value, 0]), 32),
        ]);
    }
    for (frame, number) in refused {
        for call in on_both_lines(random, table, frame) {
            leaves_table(compare, call, number)?;
        }
    }
    Ok(())
}
