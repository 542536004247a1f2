//! Number text at each XU.

use super::{characters, decimals, each, sends, text, with_xu, XU};
use crate::compare::Compare;
use crate::failure::Checked;
use crate::groups::outcome::{leaves_table, sets};
use crate::instrument::Instrument;
use crate::random::Random;
use crate::shapes::{good_table_with, TWO_CHARACTERS, WAITING};
use reference::items::{in_range, item};
use reference::line::{ACK, ENQ, NAK};

/// Each value of each item at each XU: it is sent, and what was sent sets the same number again where
/// a host may set it.
pub fn every_value(compare: &mut Compare, random: &mut Random) -> Checked<()> {
    for (xu, number) in each() {
        for value in item(number).low..=item(number).high {
            let mut table = good_table_with(random, number, value);
            if number != XU {
                table[XU - 1] = xu;
            }
            sent(compare, random, &table, number)?;
            told_back(compare, random, &table, number)?;
        }
    }
    Ok(())
}

/// An item of this table is sent to a host that polls it, asks for it again or goes on to it.
pub fn sent(
    compare: &mut Compare,
    random: &mut Random,
    table: &[i32],
    number: usize,
) -> Checked<()> {
    let mut instrument = Instrument {
        table: table.to_vec(),
        ..Instrument::any(random)
    };
    let (phase, waiting, character) = match random.below(3) {
        0 => (WAITING, number, NAK),
        1 if number > 1 => (WAITING, number - 1, ACK),
        _ => (TWO_CHARACTERS, 0, ENQ),
    };
    instrument.state[..2].copy_from_slice(&[phase, waiting as u8]);
    instrument.state[12..14].copy_from_slice(&item(number).id);
    let byte = instrument.sent(character);
    let (_, reply) = instrument.byte(compare, random, byte)?;
    sends(table, number, &reply)
}

/// The characters that an item of this table is sent with set the same number in another table with
/// the same XU.
pub fn told_back(
    compare: &mut Compare,
    random: &mut Random,
    table: &[i32],
    number: usize,
) -> Checked<()> {
    let text = text(number, &characters(table, number));
    let other = with_xu(random, table[XU - 1]);
    let call = Instrument::call_block(random, other, &text);
    if item(number).writable {
        sets(compare, call, &[(number, table[number - 1])])
    } else {
        leaves_table(compare, call, 17)
    }
}

/// A number as it is written, with the point left out, and its decimals.
#[derive(Clone, Copy)]
struct Written(i64, u32);

impl Written {
    /// The stored number: what is left of it at so many decimals, cut toward zero.
    fn cut_at(self, decimals: u32) -> i32 {
        (self.0 * 10_i64.pow(decimals) / 10_i64.pow(self.1)) as i32
    }
}

/// Numbers on both sides of each edge of each item at each XU, with as many decimals as there is room
/// for.
pub fn edges(compare: &mut Compare, random: &mut Random) -> Checked<()> {
    for (xu, number) in each() {
        for written in around_edges(random, xu, number) {
            told(compare, random, xu, number, written)?;
        }
    }
    Ok(())
}

/// Numbers around both ends of an item's range, one step outside them, 0, and powers of ten.
fn around_edges(random: &mut Random, xu: i32, number: usize) -> Vec<Written> {
    let row = item(number);
    let scale = 10_i64.pow(decimals(&with_xu(random, xu), number));
    let powers = (0..4).flat_map(|power| [10_i32.pow(power), -10_i32.pow(power)]);
    let edges = powers.chain([row.low - 1, row.low, row.high, row.high + 1, 0]);
    let near = edges.flat_map(|edge| {
        (0..=5).map(move |written| (i64::from(edge) * 10_i64.pow(written) / scale, written))
    });
    near.flat_map(|(near, written)| (-2..=2).map(move |step| Written(near + step, written)))
        .collect()
}

/// A block brings a number in each of its spellings. The item becomes what is left of it when it is
/// cut behind the item's decimals.
fn told(
    compare: &mut Compare,
    random: &mut Random,
    xu: i32,
    number: usize,
    written: Written,
) -> Checked<()> {
    for characters in spellings(written) {
        let table = with_xu(random, xu);
        let value = written.cut_at(decimals(&table, number));
        let text = text(number, characters.as_bytes());
        let call = Instrument::call_block(random, table, &text);
        match characters.len() {
            7.. => leaves_table(compare, call, 15)?,
            _ if !item(number).writable => leaves_table(compare, call, 17)?,
            _ if !in_range(number, value) => leaves_table(compare, call, 18)?,
            _ => sets(compare, call, &[(number, value)])?,
        }
    }
    Ok(())
}

/// A number without zeros on the left, with one, and with as many as six characters have room for. One
/// without decimals may have a point at its end, and 0 a minus. What is more than one character too
/// long is left out.
fn spellings(Written(number, decimals): Written) -> Vec<String> {
    let decimals = decimals as usize;
    let mut digits = format!("{:0decimals$}", number.abs());
    if decimals > 0 {
        digits.insert(digits.len() - decimals, '.');
    }
    let minus = if number < 0 { "-" } else { "" };
    let room = 6_usize.saturating_sub(minus.len() + digits.len());
    let zeros = [0, 1, room].map(|zeros| "0".repeat(zeros));
    let mut spelled = zeros
        .map(|zeros| format!("{minus}{zeros}{digits}"))
        .to_vec();
    if decimals == 0 {
        spelled.push(format!("{minus}{digits}."));
    }
    if number == 0 {
        spelled.push(format!("-{digits}"));
    }
    spelled.retain(|text| text.len() <= 7);
    spelled
}
