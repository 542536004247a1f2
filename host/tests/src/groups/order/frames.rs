use super::{every_set, Fault, BUFFER, ENTRY, TABLE_LENGTH};
use crate::call::{Call, Function};
use crate::compare::Compare;
use crate::failure::Checked;
use crate::random::Random;
use crate::shapes::{good_table, pattern};
use reference::modbus::{crc, with_crc};

/// 4: an address that there is not for Modbus, the frame's being another or the same.
const ADDRESS: Fault = Fault(4, |call, random| {
    let address = random.pick(&[0, 100, 128, 255]);
    let ours = call.input.first() == Some(&call.address);
    if ours && call.input.len() > 2 && random.one_in(2) {
        changed(call, |body| body[0] = address);
    }
    call.address = address;
});

/// 21: a frame too short or too long, whose CRC is as right as it was.
const LENGTH: Fault = Fault(21, |call, random| {
    let length = random.pick(&[0, 1, 255, 256, 300]);
    changed(call, |body| body.resize(length, 0));
});

/// 22: a wrong CRC.
const CRC: Fault = Fault(22, |call, random| {
    let place = call.input.len() - 1 - random.below(2);
    call.input[place] ^= 1 << random.below(8);
});

/// 23: another address.
const OTHER: Fault = Fault(23, |call, random| {
    let other = random.pick(&[0, call.address - 1, call.address + 1, 255]);
    changed(call, |body| body[0] = other);
});

const FAULTS: [Fault; 7] = [TABLE_LENGTH, ENTRY, BUFFER, ADDRESS, LENGTH, CRC, OTHER];

/// Changes a frame without its CRC. The CRC stays right or wrong as it was.
fn changed(call: &mut Call, change: impl Fn(&mut Vec<u8>)) {
    let (body, check) = call.input.split_at(call.input.len() - 2);
    let right = check == crc(body);
    let mut body = body.to_vec();
    change(&mut body);
    call.input = with_crc(body);
    if !right {
        let last = call.input.len() - 1;
        call.input[last] ^= 1;
    }
}

/// What a message meets behind 23, as much as possible of what comes later being wrong too.
const REQUESTS: [(&[u8], u32); 34] = [
    (&[0x00], 31),
    (&[0x04, 0, 0, 0, 1], 31),
    (&[0x0F, 0xFF, 0xFF, 0, 0, 0], 31),
    (&[0x16, 0xFF, 0xFF, 0, 0, 0], 31),
    (&[0x83, 0, 0, 0, 0], 31),
    (&[0x90, 0, 0x12, 0, 1, 2, 0, 100], 31),
    (&[0xFF, 0xFF, 0xFF, 0xFF], 31),
    (&[0x03], 33),
    (&[0x03, 0xFF, 0xFF, 0], 33),
    (&[0x03, 0xFF, 0xFF, 0, 0, 0], 33),
    (&[0x03, 0xFF, 0xFF, 0, 0], 33),
    (&[0x03, 0xFF, 0xFF, 0, 126], 33),
    (&[0x03, 0xFF, 0xFF, 0xFF, 0xFF], 33),
    (&[0x03, 0, 0, 0, 125], 32),
    (&[0x03, 0xFF, 0xFF, 0, 1], 32),
    (&[0x03, 0, 0, 0, 21], 32),
    (&[0x03, 0, 0, 0, 20], 0),
    (&[0x06], 33),
    (&[0x06, 0, 5, 0x7F], 33),
    (&[0x06, 0, 5, 0x7F, 0xFF, 0], 33),
    (&[0x06, 0, 5, 0x7F, 0xFF], 32),
    (&[0x06, 0, 0, 0x80, 0], 32),
    (&[0x06, 0, 2, 0, 1], 32),
    (&[0x06, 0, 20, 0, 0], 32),
    (&[0x06, 0, 0x12, 0x7F, 0xFF], 33),
    (&[0x06, 0, 0x12, 0, 100], 0),
    (&[0x06, 0, 0x13, 0, 4], 33),
    (&[0x06, 0, 0x13, 0, 3], 0),
    (&[0x08], 33),
    (&[0x08, 0, 1, 0], 33),
    (&[0x08, 0, 1, 0, 0, 0], 33),
    (&[0x08, 0, 1, 0, 0], 33),
    (&[0x08, 1, 0, 0, 0], 33),
    (&[0x08, 0, 0, 0x1F, 0x34], 0),
];

/// The same for 10H. First the shape is wrong: too short for quantity and count, no register, far
/// too many, a count or a length that is not the quantity's. Then a register, then a value.
const SEVERAL: [(&[u8], u32); 31] = [
    (&[0x10], 33),
    (&[0x10, 0xFF, 0xFF, 0], 33),
    (&[0x10, 0xFF, 0xFF, 0, 1], 33),
    (&[0x10, 0xFF, 0xFF, 0, 1, 2], 33),
    (&[0x10, 0xFF, 0xFF, 0, 0, 0], 33),
    (&[0x10, 0xFF, 0xFF, 0, 0, 2, 0x7F, 0xFF], 33),
    (&[0x10, 0xFF, 0xFF, 0, 124, 248, 0x7F, 0xFF], 33),
    (&[0x10, 0xFF, 0xFF, 0, 129, 2, 0x7F, 0xFF], 33),
    (&[0x10, 0xFF, 0xFF, 1, 1, 2, 0x7F, 0xFF], 33),
    (&[0x10, 0xFF, 0xFF, 0, 1, 0, 0x7F, 0xFF], 33),
    (&[0x10, 0xFF, 0xFF, 0, 1, 1, 0x7F], 33),
    (&[0x10, 0xFF, 0xFF, 0, 1, 3, 0x7F, 0xFF, 0], 33),
    (&[0x10, 0xFF, 0xFF, 0, 1, 4, 0x7F, 0xFF], 33),
    (&[0x10, 0xFF, 0xFF, 0, 2, 2, 0x7F, 0xFF], 33),
    (&[0x10, 0xFF, 0xFF, 0, 1, 2, 0x7F], 33),
    (&[0x10, 0xFF, 0xFF, 0, 1, 2, 0x7F, 0xFF, 0], 33),
    (&[0x10, 0xFF, 0xFF, 0, 1, 2, 0x7F, 0xFF], 32),
    (&[0x10, 0xFF, 0xFF, 0, 2, 4, 0x7F, 0xFF, 0x7F, 0xFF], 32),
    (&[0x10, 0, 0, 0, 1, 2, 0x80, 0], 32),
    (
        &[0x10, 0, 4, 0, 5, 10, 1, 0, 0, 0, 0, 0, 0, 0, 0x7F, 0xFF],
        32,
    ),
    (&[0x10, 0, 0x0B, 0, 3, 6, 0x7F, 0xFF, 0, 0, 0, 0], 32),
    (&[0x10, 0, 0x0C, 0, 3, 6, 0, 0, 0, 0, 0x7F, 0xFF], 32),
    (&[0x10, 0, 0x13, 0, 2, 4, 0, 4, 0, 0], 32),
    (&[0x10, 0, 0x12, 0, 1, 2, 0, 101], 33),
    (&[0x10, 0, 0x12, 0, 2, 4, 0, 100, 0, 4], 33),
    (&[0x10, 0, 0x10, 0, 3, 6, 3, 0xE9, 3, 0xE8, 0, 100], 33),
    (&[0x10, 0, 0x10, 0, 3, 6, 3, 0xE8, 1, 0xF3, 0, 100], 33),
    (&[0x10, 0, 0x10, 0, 3, 6, 3, 0xE8, 3, 0xE8, 0, 101], 33),
    (&[0x10, 0, 0x12, 0, 1, 2, 0, 100], 0),
    (&[0x10, 0, 0x12, 0, 2, 4, 0, 100, 0, 3], 0),
    (&[0x10, 0, 0x10, 0, 3, 6, 0xFF, 0x6A, 3, 0xE8, 0, 100], 0),
];

/// Every set of faults up to 23, on whatever else a request can be refused for.
pub fn faults(compare: &mut Compare, random: &mut Random) -> Checked<()> {
    for _ in 0..10 {
        for (message, number) in messages(random) {
            let call = Call {
                address: message[0],
                table: good_table(random),
                reply: pattern(random, 256),
                input: with_crc(message),
                ..Call::new(Function::Rtu)
            };
            every_set(compare, random, &FAULTS, &call, number)?;
        }
    }
    Ok(())
}

/// Each of the requests for any address, and the number that it meets there.
pub fn messages(random: &mut Random) -> Vec<(Vec<u8>, u32)> {
    let requests = REQUESTS.into_iter().chain(SEVERAL);
    requests
        .map(|(request, number)| {
            let address = random.between(1, 99) as u8;
            ([&[address], request].concat(), number)
        })
        .collect()
}
