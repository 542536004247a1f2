use super::blocks::block;
use crate::compare::Compare;
use crate::failure::Checked;
use crate::instrument::Instrument;
use crate::random::Random;
use crate::shapes::identifier;
use reference::line::{ACK, ENQ, EOT, ETX, NAK, STX};

/// What a host program that keeps the rules sends, with much that is refused.
pub fn whole(compare: &mut Compare, random: &mut Random) -> Checked<()> {
    sessions(compare, random, |instrument, characters, _| {
        characters
            .iter()
            .map(|character| instrument.sent(*character))
            .collect()
    })
}

/// The same over a bad line.
pub fn damaged(compare: &mut Compare, random: &mut Random) -> Checked<()> {
    sessions(compare, random, |instrument, characters, random| {
        let mut bytes = vec![];
        for character in characters {
            let byte = instrument.sent(*character);
            if random.one_in(12) {
                bytes.extend(damage(random, byte));
            } else {
                bytes.push(byte);
            }
        }
        bytes
    })
}

/// What may arrive in the place of a byte: nothing, two bytes, or another one.
fn damage(random: &mut Random, byte: u8) -> Vec<u8> {
    match random.below(8) {
        0 => vec![],
        1 => vec![byte, byte],
        2 => vec![random.byte()],
        3 => vec![random.byte(), byte],
        4 => vec![byte ^ (1 << random.below(8))],
        _ => vec![byte ^ 0x80],
    }
}

type Line = fn(&Instrument, &[u8], &mut Random) -> Vec<u8>;

/// Sessions of many moves each. No move waits for the link to rest, so that each may break into
/// what the one before it has begun.
fn sessions(compare: &mut Compare, random: &mut Random, line: Line) -> Checked<()> {
    for _ in 0..1500 {
        let mut instrument = Instrument::any(random);
        for _ in 0..30 {
            let characters = moved(random, &instrument);
            for byte in line(&instrument, &characters, random) {
                instrument.byte(compare, random, byte)?;
                let pause = random.pick(&[0, 1, 1, 20, 20, 20, 2999, 3000, 1 << 31]);
                instrument.now = instrument.now.wrapping_add(pause);
                if random.one_in(16) {
                    instrument.idle(compare, random)?;
                }
            }
        }
    }
    Ok(())
}

/// The characters of one move of the host.
fn moved(random: &mut Random, instrument: &Instrument) -> Vec<u8> {
    match random.below(12) {
        0..=2 => poll(random, instrument.address),
        3..=4 => polled_on(random),
        5..=7 => answers(random),
        8..=10 => selected(random, instrument),
        _ => vec![random.pick(&[EOT, STX, ETX, ENQ, ACK, NAK, b'0', 0x7F, 0])],
    }
}

/// The call of an address, nearly always the right one.
fn called(random: &mut Random, address: u8) -> Vec<u8> {
    if random.one_in(12) {
        Instrument::calling(random.below(100) as u8)
    } else {
        Instrument::calling(address)
    }
}

fn poll(random: &mut Random, address: u8) -> Vec<u8> {
    let mut characters = called(random, address);
    characters.extend(identifier(random));
    characters.push(if random.one_in(12) {
        random.byte() & 0x7F
    } else {
        ENQ
    });
    characters
}

/// Polls behind a reply, which need no address. Now and then one has a character in it that does
/// not belong there, or one too many.
fn polled_on(random: &mut Random) -> Vec<u8> {
    let mut characters = vec![];
    for _ in 0..=random.below(4) {
        characters.extend(identifier(random));
        characters.push(ENQ);
    }
    if random.one_in(3) {
        let place = random.below(characters.len());
        characters.insert(place, random.pick(&[ACK, NAK, STX, ENQ, 0x7F, b'1']));
    }
    characters
}

/// What a host says to the items that it is sent.
fn answers(random: &mut Random) -> Vec<u8> {
    let mut characters = vec![];
    for _ in 0..random.below(8) {
        characters.push(random.pick(&[ACK, ACK, ACK, NAK]));
    }
    characters
}

/// A block, or a second one behind an answer, which needs no address.
fn selected(random: &mut Random, instrument: &Instrument) -> Vec<u8> {
    let mut characters = if random.one_in(4) {
        vec![]
    } else {
        called(random, instrument.address)
    };
    characters.extend(block(random, &instrument.table));
    characters
}
