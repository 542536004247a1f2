use super::outcome::{gives, refused};
use super::{ascii, captures, several};
use crate::call::{Call, Function};
use crate::compare::Compare;
use crate::failure::Checked;
use crate::random::Random;
use crate::shapes::{
    any_item, bad_state, good_state, good_table, odd_state, odd_table, pattern, set, ADDRESSES,
    PHASES, REPLY_LENGTHS, STRUCTURES, WAITING,
};
use reference::ascii::line_of;
use reference::items::ITEMS;
use reference::line::{ACK, EOT, NAK, STX};

/// The calls that look at the table.
pub const WITH_TABLE: [Function; 4] = [
    Function::Byte,
    Function::Rtu,
    Function::Put,
    Function::Ascii,
];

/// A call with nothing outside its limits.
pub fn good(random: &mut Random, function: Function) -> Call {
    let phase = random.below(usize::from(PHASES)) as u8;
    // A frame that leaves the table, or one that writes; for a playback a capture of some.
    let frame = if random.one_in(2) {
        vec![1, 8, 0, 0, 0x1F, 0x34, 0xE9, 0xEC]
    } else {
        several::accepted(random, 1)
    };
    let input = match function {
        Function::Playback => captures::Parts::of(&captures::good(random, 3)).capture(),
        Function::Ascii => line_of(frame[..frame.len() - 2].to_vec()),
        _ => frame,
    };
    Call {
        address: 1,
        byte: random.byte(),
        now: random.word(),
        item: any_item(random) as u32,
        state: good_state(random, phase),
        table: good_table(random),
        reply: pattern(random, 256),
        input,
        ..Call::new(function)
    }
}

/// Each entry at both ends of its range and one step beyond, in each call that looks at it.
pub fn entries(compare: &mut Compare, random: &mut Random) -> Checked<()> {
    for function in WITH_TABLE {
        for (row, item) in ITEMS.iter().zip(1..) {
            for entry in [
                i32::MIN,
                row.low - 1,
                row.low,
                row.high,
                row.high + 1,
                i32::MAX,
            ] {
                let mut call = good(random, function);
                set(&mut call.table, item, entry);
                compare.call(&mut call)?;
            }
        }
    }
    Ok(())
}

/// The calls that look at a table refuse this one with 1 or 2, before they look at anything else, and
/// leave it.
pub fn noticed(
    compare: &mut Compare,
    random: &mut Random,
    table: &[i32],
    number: u32,
) -> Checked<()> {
    for function in WITH_TABLE {
        let mut call = Call {
            table: table.to_vec(),
            ..good(random, function)
        };
        call.value = random.between(-1, 2);
        refused(compare, call.clone(), number)?;
        // The same with what would be refused behind it.
        call.address = random.pick(&ADDRESSES);
        call.structure = random.pick(&STRUCTURES);
        call.item = random.pick(&[0, 1, 2, 3, 7, 8, 13, 14]);
        let length = random.pick(&REPLY_LENGTHS);
        call.reply = pattern(random, length);
        call.state = random.some_bytes(30);
        refused(compare, call, number)?;
    }
    Ok(())
}

/// For a start and a playback the table is only where theirs goes.
pub fn not_looked_at(compare: &mut Compare, random: &mut Random, table: &[i32]) -> Checked<()> {
    let started = Call {
        table: table.to_vec(),
        ..Call::new(Function::StartTable)
    };
    gives(compare, started, 0)?;
    let capture = captures::Parts::of(&captures::good(random, 2)).capture();
    let played = Call {
        table: table.to_vec(),
        ..captures::playback(random, capture)
    };
    gives(compare, played, 0)?;
    Ok(())
}

/// Any mixture of faults, so that each number is met in its place in the order.
pub fn together(compare: &mut Compare, random: &mut Random) -> Checked<()> {
    let functions = [
        Function::Byte,
        Function::Idle,
        Function::Rtu,
        Function::Put,
        Function::Playback,
        Function::Ascii,
    ];
    for _ in 0..50_000 {
        let function = random.pick(&functions);
        let mut call = good(random, function);
        if random.one_in(3) {
            call.table = odd_table(random);
        }
        if random.one_in(3) {
            let length = random.pick(&REPLY_LENGTHS);
            call.reply = pattern(random, length);
        }
        if random.one_in(3) {
            call.address = random.pick(&ADDRESSES);
        }
        if random.one_in(3) {
            call.structure = random.pick(&STRUCTURES);
        }
        if random.one_in(3) {
            call.state = odd_state(random);
        }
        if function == Function::Playback && random.one_in(3) {
            call.input = captures::any_capture(random);
        }
        if function == Function::Ascii && random.one_in(3) {
            call.input = ascii::any_line(random, call.address);
        }
        if random.one_in(3) {
            call.item = random.pick(&[0, 1, 13, 14, u32::MAX]);
            call.value = random.pick(&[i32::MIN, -2000, 0, 1, 10_000, i32::MAX]);
        }
        compare.call(&mut call)?;
    }
    Ok(())
}

/// States alone, by a byte and by an idle call: every value of the phase, every item behind which a
/// link could wait, and hostile fields in each known phase.
pub fn states(compare: &mut Compare, random: &mut Random) -> Checked<()> {
    for function in [Function::Byte, Function::Idle] {
        for phase in 0..=255 {
            let mut call = good(random, function);
            call.state[0] = phase;
            compare.call(&mut call)?;
        }
        for item in 0..=255 {
            waiting(compare, random, function, item)?;
        }
        for _ in 0..30_000 {
            let mut call = good(random, function);
            call.structure = random.below(3) as u8;
            call.state = bad_state(random);
            compare.call(&mut call)?;
        }
    }
    Ok(())
}

/// A link that waits behind this item, of which the list has 1 to 13: it is told to go on, to send it
/// again and to end, or is asked whether the host has been silent for too long.
fn waiting(
    compare: &mut Compare,
    random: &mut Random,
    function: Function,
    item: u8,
) -> Checked<()> {
    for byte in [ACK, NAK, EOT, STX, b'M'] {
        let mut call = good(random, function);
        call.byte = byte;
        call.state[..2].copy_from_slice(&[WAITING, item]);
        if (1..=13).contains(&item) {
            compare.call(&mut call)?;
        } else {
            refused(compare, call, 5)?;
        }
    }
    Ok(())
}
