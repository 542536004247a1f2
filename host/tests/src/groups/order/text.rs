use super::{every_set, Fault};
use crate::call::{Call, Function};
use crate::compare::Compare;
use crate::failure::Checked;
use crate::random::Random;
use crate::shapes::pattern;

/// 3: no room for six characters.
const ROOM: Fault = Fault(3, |call, random| {
    let length = random.below(6);
    call.input.truncate(length);
});

/// 8: a value that fits at no decimals.
const FIT: Fault = Fault(8, |call, random| {
    call.value = random.pick(&[i32::MIN, -100_000, 1_000_000, i32::MAX]);
});

/// 9: decimals that there are not.
const DECIMALS: Fault = Fault(9, |call, random| {
    call.decimals = random.pick(&[4, 5, 6, 7, 128, 255]);
});

/// 15: more than six characters.
const LONG: Fault = Fault(15, |call, random| {
    let length = random.pick(&[7, 8, 9, 300]);
    call.input.resize(length, b'0');
});

/// 16: a character that stands in no number.
const NO_NUMBER: Fault = Fault(16, |call, random| {
    let place = random.below(call.input.len());
    call.input[place] = random.pick(b"+ ,/:A\x00\xB1\xFF");
});

/// Every set of faults of a reading.
pub fn read(compare: &mut Compare, random: &mut Random) -> Checked<()> {
    let texts: [&[u8]; 8] = [
        b"5", b"-5", b"5.", b"-.5", b"-0", b"12.345", b"-99999", b"999999",
    ];
    for _ in 0..100 {
        for text in texts {
            let call = Call {
                decimals: random.below(4) as u8,
                table: vec![random.word() as i32],
                input: text.to_vec(),
                ..Call::new(Function::ReadText)
            };
            every_set(compare, random, &[DECIMALS, LONG, NO_NUMBER], &call, 0)?;
        }
    }
    Ok(())
}

/// Every set of faults of a writing.
pub fn written(compare: &mut Compare, random: &mut Random) -> Checked<()> {
    for _ in 0..1000 {
        let length = 6 + random.below(4);
        let call = Call {
            decimals: random.below(4) as u8,
            value: random.between(-9_999, 99_999),
            input: pattern(random, length),
            ..Call::new(Function::WriteText)
        };
        every_set(compare, random, &[ROOM, DECIMALS, FIT], &call, 0)?;
    }
    Ok(())
}
