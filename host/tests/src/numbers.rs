//! The numbers given back in a run: for each function those that the header lists, and no other; and
//! likewise for each Modbus function that a frame or a line can ask for. A last write must have been
//! found, and not found.

use crate::call::Function;
use crate::compare::Compare;
use crate::failure::{Checked, Failure};

/// The numbers that each function can give back. Number 46 of the specification, for an item whose
/// value does not fit six characters, is none of them: a table with a value outside an item's range
/// is refused before, and every value inside fits.
const GIVEN: [(Function, &[usize]); 12] = [
    (Function::StartTable, &[0, 1]),
    (Function::StartLink, &[0, 5]),
    (
        Function::Byte,
        &[
            0, 1, 2, 3, 4, 5, 11, 12, 13, 14, 15, 16, 17, 18, 41, 42, 43, 45,
        ],
    ),
    (Function::Idle, &[0, 3, 4, 5, 44]),
    (Function::Rtu, &[0, 1, 2, 3, 4, 21, 22, 23, 31, 32, 33]),
    (Function::Put, &[0, 1, 2, 6, 7]),
    (Function::ReadText, &[0, 9, 15, 16]),
    (Function::WriteText, &[0, 3, 8, 9]),
    (Function::Playback, &[0, 1, 4, 51]),
    (Function::Show, &[0, 51, 52]),
    (Function::LastWrite, &[0, 4, 6, 51]),
    (Function::Ascii, &[0, 1, 2, 3, 4, 23, 24, 25, 31, 32, 33]),
];

/// What is looked at before a message, on either Modbus line. A line that is 24 asks for no function.
const BEFORE: [(Function, &[usize]); 2] = [
    (Function::Rtu, &[1, 2, 3, 4, 21, 22, 23]),
    (Function::Ascii, &[1, 2, 3, 4, 23, 25]),
];

/// The numbers that a message can give back by the Modbus function that it asks for.
const ASKED: [(u8, &[usize]); 4] = [
    (0x03, &[0, 32, 33]),
    (0x06, &[0, 32, 33]),
    (0x08, &[0, 33]),
    (0x10, &[0, 32, 33]),
];

pub fn reached(compare: &Compare) -> Checked<()> {
    for (function, given) in GIVEN {
        all_and_no_other(function.name(), compare.counts(function), given)?;
    }
    for (function, before) in BEFORE {
        for (asked, given) in ASKED {
            let name = format!("{} asked for {asked:02X}H", function.name());
            let mut given = [before, given].concat();
            given.sort_unstable();
            all_and_no_other(&name, &compare.counts_asked(function, asked), &given)?;
        }
    }
    found_and_not(compare)
}

/// Where a last write gives 0, its item was written or it was not.
fn found_and_not(compare: &Compare) -> Checked<()> {
    let name = Function::LastWrite.name();
    let found = compare.found();
    let not = compare.counts(Function::LastWrite)[0] - found;
    println!("{name} found {found}, and {not} never written");
    if found > 0 && not > 0 {
        return Ok(());
    }
    let why = format!("{name} found {found} and did not find {not}");
    Err(Failure::wrong(why))
}

fn all_and_no_other(name: &str, counts: &[u64; 256], given: &[usize]) -> Checked<()> {
    let counted: Vec<String> = given
        .iter()
        .map(|number| format!("{number} ({})", counts[*number]))
        .collect();
    println!("{name} gave {}", counted.join(", "));
    for (number, times) in counts.iter().enumerate() {
        if given.contains(&number) != (*times > 0) {
            let why = format!("{name} gave number {number} {times} times");
            return Err(Failure::wrong(why));
        }
    }
    Ok(())
}
