use super::{ascii, captures, several};
use crate::call::{Call, Function};
use crate::compare::Compare;
use crate::failure::Checked;
use crate::random::Random;
use crate::shapes::{bad_state, good_table};
use reference::modbus::with_crc;

/// Anything at all, in arrays of any length. A reading of text has room for its value, a showing for
/// place and length, a last write for value and records.
pub fn anything(compare: &mut Compare, random: &mut Random) -> Checked<()> {
    let functions = [
        Function::StartTable,
        Function::StartLink,
        Function::Byte,
        Function::Idle,
        Function::Rtu,
        Function::Put,
        Function::ReadText,
        Function::WriteText,
        Function::Playback,
        Function::Show,
        Function::LastWrite,
        Function::Ascii,
    ];
    for _ in 0..40_000 {
        let entries = 2 + random.below(30);
        compare.call(&mut Call {
            function: random.pick(&functions),
            address: random.byte(),
            structure: random.byte(),
            byte: random.byte(),
            decimals: random.byte(),
            now: random.word(),
            item: random.word(),
            frame: random.word(),
            value: random.word() as i32,
            state: random.some_bytes(30),
            table: (0..entries).map(|_| random.word() as i32).collect(),
            reply: random.some_bytes(310),
            input: random.some_bytes(310),
        })?;
    }
    Ok(())
}

/// Noise that no caller's fault keeps from being looked at: a good table, room for the reply and
/// good settings, with any state, bytes, times, frames, lines, captures, items and values.
pub fn well_lent(compare: &mut Compare, random: &mut Random) -> Checked<()> {
    let functions = [
        Function::Byte,
        Function::Idle,
        Function::Rtu,
        Function::Put,
        Function::Playback,
        Function::Show,
        Function::LastWrite,
        Function::Ascii,
    ];
    for _ in 0..120_000 {
        let address = random.between(1, 99) as u8;
        let length = 256 + random.below(50);
        let function = random.pick(&functions);
        compare.call(&mut Call {
            function,
            address,
            structure: random.below(3) as u8,
            byte: random.byte(),
            now: random.word(),
            item: random.below(15) as u32,
            frame: random.below(5) as u32,
            value: random.between(-2100, 10_100),
            state: bad_state(random),
            table: good_table(random),
            reply: random.bytes(length),
            input: match function {
                Function::Playback | Function::Show | Function::LastWrite => {
                    captures::any_capture(random)
                }
                Function::Ascii => ascii::any_line(random, address),
                _ => frame(random, address),
            },
            ..Call::new(function)
        })?;
    }
    Ok(())
}

/// A write of several registers; or any bytes, mostly as few as the other requests have and with a
/// right CRC, half of these for this device.
fn frame(random: &mut Random, address: u8) -> Vec<u8> {
    if random.one_in(4) {
        return several::any_request(random, address);
    }
    let length = match random.below(4) {
        0 => random.below(260),
        1 => 2 + random.below(8),
        _ => 6,
    };
    let mut body = random.bytes(length);
    if random.one_in(8) || length < 2 {
        return body;
    }
    if random.one_in(2) {
        body[0] = address;
        body[1] &= 0x0F;
    }
    with_crc(body)
}
