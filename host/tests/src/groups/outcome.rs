//! What is due of a call, said beside what the reference gives.

use crate::call::Call;
use crate::compare::Compare;
use crate::failure::{Checked, Failure};
use crate::shapes::agree;

/// Makes a call that must give this number, and hands back what it leaves.
pub fn gives(compare: &mut Compare, mut call: Call, number: u32) -> Checked<Call> {
    let before = call.clone();
    let given = compare.call(&mut call)? % 256;
    if given == number {
        return Ok(call);
    }
    Err(Failure::wrong(format!(
        "number {number} is due, {given} was given\n{before}"
    )))
}

/// Makes a call that is accepted, and must leave the table with these items set and the alarm states
/// that are true then.
pub fn sets(compare: &mut Compare, call: Call, items: &[(usize, i32)]) -> Checked<()> {
    let due = with_set(&call.table, items);
    leaves(compare, call, &due)
}

/// A table with these items set, and the alarm states that are true then.
pub fn with_set(table: &[i32], items: &[(usize, i32)]) -> Vec<i32> {
    let mut table = table.to_vec();
    for (item, value) in items {
        table[item - 1] = *value;
    }
    agree(&mut table);
    table
}

/// Makes a call that is accepted, and must leave this table.
pub fn leaves(compare: &mut Compare, call: Call, due: &[i32]) -> Checked<()> {
    let before = call.clone();
    let left = gives(compare, call, 0)?.table;
    if left == due {
        return Ok(());
    }
    Err(Failure::wrong(format!(
        "{due:?} is due, {left:?} was left\n{before}"
    )))
}

/// Makes a call that is refused with this number, and must leave all as it came.
pub fn refused(compare: &mut Compare, call: Call, number: u32) -> Checked<()> {
    let before = call.clone();
    if gives(compare, call, number)? == before {
        return Ok(());
    }
    Err(Failure::wrong(format!(
        "it is refused and has left something\n{before}"
    )))
}

/// Makes a call that is answered with this number, and must leave the table.
pub fn leaves_table(compare: &mut Compare, call: Call, number: u32) -> Checked<()> {
    let before = call.clone();
    if gives(compare, call, number)?.table == before.table {
        return Ok(());
    }
    Err(Failure::wrong(format!(
        "it is refused and has written\n{before}"
    )))
}
