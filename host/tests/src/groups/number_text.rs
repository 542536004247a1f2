use crate::call::{Call, Function};
use crate::compare::Compare;
use crate::failure::Checked;
use crate::random::Random;
use crate::shapes::pattern;

/// Characters of which each stands for a kind: a sign, the point, digits, and one that is none.
const KINDS: [u8; 6] = *b"-.059+";

/// The longest text that can be a number.
const LONGEST: u32 = 6;

/// Any characters, lengths and decimals, of which many are allowed.
pub fn read(compare: &mut Compare, random: &mut Random) -> Checked<()> {
    for _ in 0..30_000 {
        let decimals = any_decimals(random);
        let length = random.below(11);
        let any = (0..length).map(|_| match random.below(12) {
            0 => random.byte(),
            _ => random.pick(b"-.0123456789"),
        });
        let text = any.collect();
        reading(compare, random, decimals, text)?;
    }
    Ok(())
}

/// All texts over the kinds, at all decimals that are allowed.
pub fn kinds(compare: &mut Compare, random: &mut Random) -> Checked<()> {
    for length in 0..=LONGEST {
        for code in 0..KINDS.len().pow(length) {
            for decimals in 0..=3 {
                reading(compare, random, decimals, spelled(length, code))?;
            }
        }
    }
    Ok(())
}

/// Every character in every place among digits.
pub fn characters(compare: &mut Compare, random: &mut Random) -> Checked<()> {
    for length in 1..=7 {
        for place in 0..length {
            for character in 0..=255 {
                let mut text = b"1234567"[..length].to_vec();
                text[place] = character;
                let decimals = random.below(4) as u8;
                reading(compare, random, decimals, text)?;
            }
        }
    }
    Ok(())
}

/// The text whose characters are the digits of a code, the last one first.
fn spelled(length: u32, mut code: usize) -> Vec<u8> {
    let mut text = vec![];
    for _ in 0..length {
        text.push(KINDS[code % KINDS.len()]);
        code /= KINDS.len();
    }
    text
}

/// The value's place holds something else before.
fn reading(compare: &mut Compare, random: &mut Random, decimals: u8, text: Vec<u8>) -> Checked<()> {
    compare.call(&mut Call {
        decimals,
        table: vec![random.word() as i32],
        input: text,
        ..Call::new(Function::ReadText)
    })?;
    Ok(())
}

/// Values on both sides of what fits and of each power of ten, and any others, at decimals in and
/// beside what is allowed, into buffers too short and too long.
pub fn edges_written(compare: &mut Compare, random: &mut Random) -> Checked<()> {
    let powers = (0..10).map(|exponent| 10_i32.pow(exponent));
    let beside = powers.flat_map(|power| (-2..=2).map(move |step| power + step));
    let mut values = vec![i32::MIN, i32::MIN + 1, i32::MAX - 1, i32::MAX];
    values.extend(beside.flat_map(|value| [value, -value]));
    values.extend((0..400).map(|_| random.word() as i32));
    for value in values {
        for decimals in [0, 1, 2, 3, 4, 5, 128, 255] {
            for length in 0..=9 {
                writing(compare, random, decimals, value, length)?;
            }
        }
    }
    Ok(())
}

/// Each value that fits, at each of the decimals that are allowed.
pub fn every_fit(compare: &mut Compare, random: &mut Random) -> Checked<()> {
    for value in -99_999..=999_999 {
        writing(compare, random, 0, value, 6)?;
    }
    for decimals in 1..=3 {
        for value in -9_999..=99_999 {
            writing(compare, random, decimals, value, 6)?;
        }
    }
    Ok(())
}

/// The characters' place holds something else before.
fn writing(
    compare: &mut Compare,
    random: &mut Random,
    decimals: u8,
    value: i32,
    length: usize,
) -> Checked<()> {
    compare.call(&mut Call {
        decimals,
        value,
        input: pattern(random, length),
        ..Call::new(Function::WriteText)
    })?;
    Ok(())
}

/// Mostly decimals that are allowed.
fn any_decimals(random: &mut Random) -> u8 {
    match random.below(8) {
        0 => random.byte(),
        1 => 4,
        _ => random.below(4) as u8,
    }
}
