use super::{every_set, Fault, ENTRY, ITEM, TABLE_LENGTH};
use crate::call::{Call, Function};
use crate::compare::Compare;
use crate::failure::Checked;
use crate::random::Random;
use crate::shapes::{good_table, good_value, is_alarm_state};
use reference::items::ITEMS;

/// 7: a value outside the item's range.
const VALUE: Fault = Fault(7, |call, random| {
    let row = &ITEMS[call.item as usize - 1];
    call.value = random.pick(&[i32::MIN, row.low - 1, row.high + 1, i32::MAX]);
});

const FAULTS: [Fault; 4] = [TABLE_LENGTH, ENTRY, ITEM, VALUE];

/// Every set of faults, for every item. AA and AB take no value.
pub fn faults(compare: &mut Compare, random: &mut Random) -> Checked<()> {
    for _ in 0..100 {
        for item in 1..=13 {
            let call = Call {
                item: item as u32,
                value: good_value(random, item),
                table: good_table(random),
                ..Call::new(Function::Put)
            };
            let number = if is_alarm_state(item) { 7 } else { 0 };
            every_set(compare, random, &FAULTS, &call, number)?;
        }
    }
    Ok(())
}
