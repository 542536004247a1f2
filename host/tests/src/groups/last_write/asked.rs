//! The addresses and the items that a question can have.

use super::{asking, due, parts, some, tells, write, Recorded, Told};
use crate::call::Call;
use crate::compare::Compare;
use crate::failure::Checked;
use crate::groups::several::WRITABLE;
use crate::random::Random;

/// Item numbers in and beside the list, and those of which some bits would be an item.
pub fn item_numbers(compare: &mut Compare, random: &mut Random) -> Checked<()> {
    for _ in 0..10 {
        let recorded = some(random, 6);
        let capture = parts(&recorded).capture();
        let high = (4..32).flat_map(|bit| (0..=14).map(move |low| 1 << bit | low));
        let turned = (0..=14).map(|low| 0_u32.wrapping_sub(low));
        for item in (0..=20).chain(high).chain(turned) {
            let told = if (1..=13).contains(&item) {
                due(&recorded, item)
            } else {
                Told::Refused(6)
            };
            tells(compare, asking(random, capture.clone(), item), told)?;
        }
    }
    Ok(())
}

/// Every address, in captures of writes for it, for those beside it, for 0 and for 255.
pub fn addresses(compare: &mut Compare, random: &mut Random) -> Checked<()> {
    for address in 0..=255_u8 {
        let beside = [address.wrapping_sub(1), address.wrapping_add(1), 0, 255];
        let recorded: Vec<Recorded> = (0..12)
            .map(|_| {
                let other = random.pick(&beside);
                let to = random.pick(&[address, other]);
                let span = random.pick(&WRITABLE);
                let written = write(random, to, span);
                if to == address {
                    written
                } else {
                    Recorded::idle(written.frame)
                }
            })
            .collect();
        for item in 1..=13 {
            let call = Call {
                address,
                ..asking(random, parts(&recorded).capture(), item)
            };
            let told = if (1..=99).contains(&address) {
                due(&recorded, item)
            } else {
                Told::Refused(4)
            };
            tells(compare, call, told)?;
        }
    }
    Ok(())
}
