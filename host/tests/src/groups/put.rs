use crate::call::{Call, Function};
use crate::compare::Compare;
use crate::failure::Checked;
use crate::random::Random;
use crate::shapes::{any_item, any_value, bad_table, good_table, good_value};
use reference::items::ITEMS;

/// Each item is put to each value of its range, and to the values beside it.
pub fn every_value(compare: &mut Compare, random: &mut Random) -> Checked<()> {
    for (row, item) in ITEMS.iter().zip(1..) {
        for value in row.low - 1..=row.high + 1 {
            compare.call(&mut Call {
                item,
                value,
                table: good_table(random),
                ..Call::new(Function::Put)
            })?;
        }
    }
    Ok(())
}

/// Item numbers of which some bits would be one of the list.
pub fn item_numbers(compare: &mut Compare, random: &mut Random) -> Checked<()> {
    let with_a_bit = (4..32).flat_map(|bit| (0..16).map(move |low| low | 1 << bit));
    for item in (0..16).chain(with_a_bit) {
        compare.call(&mut Call {
            item,
            value: good_value(random, (item % 13) as usize + 1),
            table: good_table(random),
            ..Call::new(Function::Put)
        })?;
    }
    Ok(())
}

/// Every item number in and around the list, with values in and beside the item's range, into
/// tables of which some have a bad entry already.
pub fn any(compare: &mut Compare, random: &mut Random) -> Checked<()> {
    for _ in 0..50_000 {
        let item = any_item(random);
        compare.call(&mut Call {
            item: match random.below(8) {
                0 => random.pick(&[0, 14, 255, 256, 257, 1 << 31, u32::MAX]),
                1 => random.word(),
                _ => item as u32,
            },
            value: any_value(random, item),
            table: match random.below(6) {
                0 => bad_table(random),
                _ => good_table(random),
            },
            ..Call::new(Function::Put)
        })?;
    }
    Ok(())
}
