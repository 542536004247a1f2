//! Frames that write an item, and frames that come near to it.

use super::{answers, due, parts, write, Recorded, Told};
use crate::compare::Compare;
use crate::failure::Checked;
use crate::groups::captures::Parts;
use crate::groups::requests::words;
use crate::groups::several::{self, WRITABLE};
use crate::random::Random;
use crate::shapes::any_item;
use reference::items::{in_range, with_register, ITEMS};
use reference::modbus::{value_of, with_crc};

/// Each span that can be written, and frames that all but write it: alone, behind a write, before it
/// and between two. For every item.
pub fn near(compare: &mut Compare, random: &mut Random) -> Checked<()> {
    for span in WRITABLE {
        let [first, last] = [0; 2].map(|_| write(random, 1, span));
        all_items(compare, random, &[first.clone(), last.clone()])?;
        for frame in all_but(random, span) {
            let idle = Recorded::idle(frame);
            for recorded in [
                vec![idle.clone()],
                vec![first.clone(), idle.clone()],
                vec![idle.clone(), last.clone()],
                vec![first.clone(), idle.clone(), last.clone()],
                vec![first.clone(), idle.clone(), idle.clone(), idle],
            ] {
                all_items(compare, random, &recorded)?;
            }
        }
    }
    Ok(())
}

/// Asks a capture of these frames for every item.
pub fn all_items(compare: &mut Compare, random: &mut Random, recorded: &[Recorded]) -> Checked<()> {
    for item in 1..=13 {
        let told = due(recorded, item);
        answers(compare, random, &parts(recorded), item, told)?;
    }
    Ok(())
}

/// Frames that would write the span but for one thing, which each has in a way of its own.
fn all_but(random: &mut Random, span: (u16, usize)) -> Vec<Vec<u8>> {
    let right = write(random, 1, span).frame;
    let body = &right[..right.len() - 2];
    let mut frames = out_of_range(random, span);
    frames.extend(not_writable(random, span));
    frames.extend(changed(body));
    frames.extend(other_forms(random, span));
    // The CRC: each bit of it, its bytes changed over, none.
    for bit in 0..16 {
        let mut damaged = right.clone();
        damaged[body.len() + bit / 8] ^= 1 << (bit % 8);
        frames.push(damaged);
    }
    let [low, high] = [right[body.len()], right[body.len() + 1]];
    if low != high {
        frames.push([body, &[high, low]].concat());
    }
    frames.push(body.to_vec());
    // Too short for a frame, and the longest.
    frames.extend([1, 2, 3, 256].map(|length| random.bytes(length)));
    frames
}

/// One value beside its range, in each place of the span.
fn out_of_range(random: &mut Random, (start, quantity): (u16, usize)) -> Vec<Vec<u8>> {
    let mut frames = vec![];
    for place in 0..quantity {
        let item = with_register(start + place as u16).expect("a writable register is an item's");
        let row = &ITEMS[item - 1];
        for value in [row.low - 1, row.high + 1, 0x7FFF, -0x8000] {
            let mut values = several::good(random, start, quantity);
            values[place] = value as u16;
            frames.push(several::right(1, start, &values));
            if quantity == 1 {
                frames.push(words(1, 0x06, start, value as u16));
            }
        }
    }
    frames
}

/// The span with the register before it, or behind it, where that is not writable; and every
/// register that is not, alone, with values that its item has.
fn not_writable(random: &mut Random, (start, quantity): (u16, usize)) -> Vec<Vec<u8>> {
    let mut frames = vec![];
    for wider in [(start - 1, quantity + 1), (start, quantity + 1)] {
        if !WRITABLE.contains(&wider) {
            let values = several::good(random, wider.0, wider.1);
            frames.push(several::right(1, wider.0, &values));
        }
    }
    for register in (0..0x15).chain([0x100 + start, 0x8000 + start]) {
        if !WRITABLE.contains(&(register, 1)) {
            let value = several::good(random, register, 1)[0];
            frames.push(words(1, 0x06, register, value));
            frames.push(several::right(1, register, &[value]));
        }
    }
    frames
}

/// Another address, another function, a byte more and a byte less, each with its CRC.
fn changed(body: &[u8]) -> Vec<Vec<u8>> {
    let mut frames = vec![];
    for address in [0, 2, 129, 255] {
        frames.push(with_crc([&[address], &body[1..]].concat()));
    }
    for function in [0x00, 0x03, 0x05, 0x08, 0x0F, 0x16, 0x17, 0x86, 0x90] {
        frames.push(with_crc([&[1, function], &body[2..]].concat()));
    }
    frames.push(with_crc([body, &[0]].concat()));
    frames.push(with_crc([body, body].concat()));
    for length in 2..body.len() {
        frames.push(with_crc(body[..length].to_vec()));
    }
    frames
}

/// Writes of several with a quantity or a count that is not theirs.
fn other_forms(random: &mut Random, (start, quantity): (u16, usize)) -> Vec<Vec<u8>> {
    let right = several::right(1, start, &several::good(random, start, quantity));
    let data = &right[7..right.len() - 2];
    let (quantity, count) = (quantity as u16, data.len() as u8);
    let form = |quantity, count| several::request(1, start, quantity, count, data);
    vec![
        form(quantity - 1, count),
        form(quantity + 1, count),
        form(quantity + 256, count),
        form(0, count),
        form(quantity, count - 1),
        form(quantity, count + 1),
        form(quantity, 0),
        form(quantity - 1, count - 2),
        form(quantity + 1, count + 2),
    ]
}

/// Every word to any register of an item, by either function: a value of the item's range is found.
/// Then each item at both ends of its range, at its start value and one step beyond.
pub fn values(compare: &mut Compare, random: &mut Random) -> Checked<()> {
    for value in 0..=u16::MAX {
        let item = any_item(random);
        one_value(compare, random, item, value)?;
    }
    for item in 1..=13 {
        let row = &ITEMS[item - 1];
        for value in [row.low, row.high, row.start, row.low - 1, row.high + 1] {
            for _ in 0..4 {
                one_value(compare, random, item, value as u16)?;
            }
        }
    }
    Ok(())
}

fn one_value(compare: &mut Compare, random: &mut Random, item: usize, word: u16) -> Checked<()> {
    let row = &ITEMS[item - 1];
    let frame = several::by_either(random, 1, row.register, &[word]);
    let value = value_of(word);
    let told = if row.writable && in_range(item, value) {
        Told::Found(value, 1)
    } else {
        Told::Never(1)
    };
    answers(compare, random, &Parts::of(&[frame]), item as u32, told)
}

/// Every span in and around the map, for every item: each register that it names is found where all
/// can be written, and none else.
pub fn spans(compare: &mut Compare, random: &mut Random) -> Checked<()> {
    for start in 0..=0x15 {
        for quantity in 1..=21 {
            let recorded = if WRITABLE.contains(&(start, quantity)) {
                write(random, 1, (start, quantity))
            } else {
                let values = several::good(random, start, quantity);
                Recorded::idle(several::right(1, start, &values))
            };
            all_items(compare, random, &[recorded])?;
        }
    }
    Ok(())
}
