use super::{every_set, Fault, ITEM, TABLE_LENGTH};
use crate::call::Call;
use crate::compare::Compare;
use crate::failure::Checked;
use crate::groups::{captures, last_write};
use crate::random::Random;

/// 4: an address that there is not for Modbus.
const ADDRESS: Fault = Fault(4, |call, random| {
    call.address = random.pick(&[0, 100, 128, 255]);
});

/// 51: a capture that is too short or too long, or has a trailer that is not its own.
const CAPTURE: Fault = Fault(51, |call, random| spoil(call, random, 6));

/// 51: damage that every last write meets: a capture that is too short or too long, or has a trailer
/// that points elsewhere.
const ON_THE_WAY: Fault = Fault(51, |call, random| spoil(call, random, 4));

/// Spoils the size of a capture, or one of so many bytes at its end.
fn spoil(call: &mut Call, random: &mut Random, last: usize) {
    let end = call.input.len() - last;
    match random.below(4) {
        0 => call.input.truncate(random.below(6)),
        1 => call.input.resize(65_537, 0),
        _ => call.input[end + random.below(last)] ^= 1 << random.below(8),
    }
}

/// 52: a frame that there is not.
const FRAME: Fault = Fault(52, |call, random| {
    let high = call.frame | 1 << (16 + random.below(16));
    call.frame = random.pick(&[0, 5, 6, 256, high, u32::MAX]);
});

/// Every set of faults of a playback. There is no 2: the table is anything.
pub fn playback(compare: &mut Compare, random: &mut Random) -> Checked<()> {
    for _ in 0..100 {
        let number = random.below(5);
        let capture = captures::Parts::of(&captures::good(random, number)).capture();
        let call = Call {
            address: random.between(1, 99) as u8,
            ..captures::playback(random, capture)
        };
        every_set(compare, random, &[TABLE_LENGTH, ADDRESS, CAPTURE], &call, 0)?;
    }
    Ok(())
}

/// Every set of faults of a showing.
pub fn show(compare: &mut Compare, random: &mut Random) -> Checked<()> {
    for _ in 0..100 {
        let number = 1 + random.below(4);
        let capture = captures::Parts::of(&captures::good(random, number)).capture();
        let frame = 1 + random.below(number) as u32;
        let call = captures::showing(random, capture, frame);
        every_set(compare, random, &[CAPTURE, FRAME], &call, 0)?;
    }
    Ok(())
}

/// Every set of faults of a last write, for every item, found or not.
pub fn last_write(compare: &mut Compare, random: &mut Random) -> Checked<()> {
    for _ in 0..40 {
        let number = random.below(10);
        let capture = last_write::parts(&last_write::some(random, number)).capture();
        for item in 1..=13 {
            let call = Call {
                address: random.pick(&[1, 1, 2, 99]),
                ..last_write::asking(random, capture.clone(), item)
            };
            every_set(compare, random, &[ADDRESS, ITEM, ON_THE_WAY], &call, 0)?;
        }
    }
    Ok(())
}
