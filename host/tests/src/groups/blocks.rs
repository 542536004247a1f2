use crate::compare::Compare;
use crate::failure::Checked;
use crate::instrument::Instrument;
use crate::random::Random;
use crate::shapes::{any_value, good_table, good_value, identifier};
use reference::items::{decimals, with_id, ITEMS};
use reference::line::{bcc, EOT, ETX, STX};
use reference::number;

/// Each item is set to each value of its range, and to the values beside it.
pub fn every_value(compare: &mut Compare, random: &mut Random) -> Checked<()> {
    for (row, item) in ITEMS.iter().zip(1..) {
        for value in row.low - 1..=row.high + 1 {
            let table = good_table(random);
            let number = written(random, decimals(&table, item), value);
            let text = [&row.id[..], &number].concat();
            compare.call(&mut Instrument::call_block(random, table, &text))?;
        }
    }
    Ok(())
}

/// Every two characters as an identifier, with a number behind them.
pub fn identifiers(compare: &mut Compare, random: &mut Random) -> Checked<()> {
    for first in 0..0x80 {
        for second in 0..0x80 {
            let table = good_table(random);
            let text = [first, second, b'1'];
            compare.call(&mut Instrument::call_block(random, table, &text))?;
        }
    }
    Ok(())
}

/// Blocks of any text with any BCC.
pub fn any(compare: &mut Compare, random: &mut Random) -> Checked<()> {
    for _ in 0..100_000 {
        let table = good_table(random);
        let text = text(random, &table);
        let check = check_of(random, &text);
        let mut instrument = Instrument::judging(random, table, &text);
        let byte = instrument.sent(check);
        instrument.byte(compare, random, byte)?;
    }
    Ok(())
}

/// STX, a text for a link with this table, ETX and a BCC.
pub fn block(random: &mut Random, table: &[i32]) -> Vec<u8> {
    let text = text(random, table);
    let check = check_of(random, &text);
    let mut characters = vec![STX];
    characters.extend(text);
    characters.push(ETX);
    characters.push(check);
    characters
}

/// The right BCC more often than not; else one that a host might work out wrongly, EOT, or any.
fn check_of(random: &mut Random, text: &[u8]) -> u8 {
    let right = bcc(text) ^ ETX;
    match random.below(12) {
        0 => EOT,
        1 => right ^ STX,
        2 => right ^ ETX,
        3 => right ^ (1 << random.below(7)),
        4 => random.byte() & 0x7F,
        _ => right,
    }
}

/// The text of a block. Now and then one is looked for whose BCC is EOT.
fn text(random: &mut Random, table: &[i32]) -> Vec<u8> {
    let tries = if random.one_in(4) { 50 } else { 1 };
    let mut text = any_text(random, table);
    for _ in 1..tries {
        if bcc(&text) ^ ETX == EOT {
            break;
        }
        text = any_text(random, table);
    }
    text
}

/// An identifier with data of some kind, or less than that.
fn any_text(random: &mut Random, table: &[i32]) -> Vec<u8> {
    if random.one_in(12) {
        return random.some_bytes(3).iter().map(|b| b & 0x7F).collect();
    }
    let id = identifier(random);
    let mut text = id.to_vec();
    match random.below(6) {
        0 => text.extend(symbols(random, 9)),
        1 => text.extend(symbols(random, 6)),
        _ => text.extend(number_for(random, table, id)),
    }
    text
}

/// Characters of which some make a number.
fn symbols(random: &mut Random, most: usize) -> Vec<u8> {
    let length = random.below(most + 1);
    (0..length)
        .map(|_| random.pick(b"-.0123456789.-+ \x02\x7F"))
        .collect()
}

/// A number in or around the range of the item with this identifier, with the item's decimals.
fn number_for(random: &mut Random, table: &[i32], id: [u8; 2]) -> Vec<u8> {
    let item = with_id(&id).unwrap_or(1);
    let value = match random.below(3) {
        0 => any_value(random, item),
        _ => good_value(random, item),
    };
    written(random, decimals(table, item), value)
}

/// A value as number text, often without its zeros on the left. One that does not fit is written
/// out in full, which is too long or another number.
fn written(random: &mut Random, decimals: u8, value: i32) -> Vec<u8> {
    let mut text = match number::write(decimals, value) {
        Ok(six) => six.to_vec(),
        Err(_) => value.to_string().into_bytes(),
    };
    if random.one_in(2) {
        let start = usize::from(text[0] == b'-');
        while text.len() > start + 1 && text[start] == b'0' {
            text.remove(start);
        }
    }
    text
}
