use super::{every_set, frames, Fault, BUFFER, ENTRY, TABLE_LENGTH};
use crate::call::{Call, Function};
use crate::compare::Compare;
use crate::failure::Checked;
use crate::groups::ascii::no_line;
use crate::random::Random;
use crate::shapes::{good_table, pattern};
use reference::ascii::{bytes_of, in_characters, line_of, lrc};

/// 4: an address that there is not for Modbus, the line's being another or the same.
const ADDRESS: Fault = Fault(4, |call, random| {
    let address = random.pick(&[0, 100, 128, 255]);
    if random.one_in(2) {
        changed(call, |body| body[0] = address);
    }
    call.address = address;
});

/// 24: a line too short or too long, whose LRC is as right as it was; or no line.
const LINE: Fault = Fault(24, |call, random| {
    if random.one_in(3) {
        let length = random.pick(&[0, 1, 255, 256, 300]);
        changed(call, |body| body.resize(length, 0));
    } else {
        call.input = no_line(random, &call.input);
    }
});

/// 25: a wrong LRC.
const LRC: Fault = Fault(25, |call, random| {
    let mut bytes = bytes_of(&call.input).expect("a line");
    let last = bytes.len() - 1;
    bytes[last] = bytes[last].wrapping_add(1 + random.below(255) as u8);
    call.input = in_characters(&bytes);
});

/// 23: another address.
const OTHER: Fault = Fault(23, |call, random| {
    let other = random.pick(&[0, call.address - 1, call.address + 1, 255]);
    changed(call, |body| body[0] = other);
});

const FAULTS: [Fault; 7] = [TABLE_LENGTH, ENTRY, BUFFER, ADDRESS, LINE, LRC, OTHER];

/// Changes the message of a line, where there is one. The LRC stays right, or wrong by as much.
fn changed(call: &mut Call, change: impl Fn(&mut Vec<u8>)) {
    if let Some(mut bytes) = bytes_of(&call.input) {
        let off = bytes
            .iter()
            .fold(0, |sum: u8, byte| sum.wrapping_add(*byte));
        bytes.pop();
        change(&mut bytes);
        bytes.push(lrc(&bytes).wrapping_add(off));
        call.input = in_characters(&bytes);
    }
}

/// Every set of faults up to 23, on whatever else a message can be refused for.
pub fn faults(compare: &mut Compare, random: &mut Random) -> Checked<()> {
    for _ in 0..10 {
        for (message, number) in frames::messages(random) {
            let call = Call {
                address: message[0],
                table: good_table(random),
                reply: pattern(random, 256),
                input: line_of(message),
                ..Call::new(Function::Ascii)
            };
            every_set(compare, random, &FAULTS, &call, number)?;
        }
    }
    Ok(())
}
