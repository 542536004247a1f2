//! Records whose length is not that of their frame.

use super::{answers, asking, due, parts, some, write, Recorded, Told, DAMAGE};
use crate::compare::Compare;
use crate::failure::Checked;
use crate::groups::captures::Parts;
use crate::random::Random;
use crate::shapes::any_item;

/// Frames of every length, before a write, behind it and alone; then other lengths behind each frame
/// of a capture.
pub fn lengths(compare: &mut Compare, random: &mut Random) -> Checked<()> {
    for length in (0..=600).chain([767, 768, 1024, 4096, 0x8000, 0xFF00]) {
        let long = Recorded::idle(random.bytes(length));
        let write = write(random, 1, (0x10, 1));
        let good = (1..=256).contains(&length);
        let front = vec![long.clone(), write.clone()];
        answers(compare, random, &parts(&front), 9, due(&front, 9))?;
        for recorded in [vec![write.clone(), long.clone()], vec![long.clone()]] {
            let told = if good { due(&recorded, 9) } else { DAMAGE };
            answers(compare, random, &parts(&recorded), 9, told)?;
        }
    }
    for number in 1..=4 {
        let recorded = some(random, number);
        for place in 0..number {
            other_lengths(compare, random, &recorded, place)?;
        }
    }
    Ok(())
}

/// Lengths in and around what a frame may have, and with each high byte.
fn any_lengths() -> impl Iterator<Item = u16> {
    let high = (2..=255).flat_map(|high| [0, 1, 8, 9, 255].map(|low| high * 256 + low));
    (0..=520).chain(high)
}

/// Other lengths behind one frame: in front of the record that answers it is not noticed; where it is
/// met and no frame can have it, or the record would begin before place 0, it is damage. Another
/// length that leads somewhere may be anything; for the last record the trailer tells.
fn other_lengths(
    compare: &mut Compare,
    random: &mut Random,
    recorded: &[Recorded],
    place: usize,
) -> Checked<()> {
    let whole = parts(recorded);
    let end = parts(&recorded[..=place]).records.len() - 2;
    let last = place + 1 == recorded.len();
    for length in any_lengths() {
        let item = any_item(random) as u32;
        let mut parts = whole.clone();
        parts.records[end..end + 2].copy_from_slice(&length.to_be_bytes());
        let met = due(&recorded[place + 1..], item);
        let length = usize::from(length);
        let told = match met {
            Told::Found(..) => met,
            _ if length == recorded[place].frame.len() => due(recorded, item),
            _ if last || !(1..=256).contains(&length) || length > end => DAMAGE,
            _ => {
                compare.call(&mut asking(random, parts.capture(), item))?;
                continue;
            }
        };
        answers(compare, random, &parts, item, told)?;
        if last {
            pointed(compare, random, parts, (end, length), item)?;
        }
    }
    Ok(())
}

/// The last record with another length and a trailer that points to where it then begins: damage if
/// it can't, and else whatever the bytes say that are its frame now.
fn pointed(
    compare: &mut Compare,
    random: &mut Random,
    mut parts: Parts,
    (end, length): (usize, usize),
    item: u32,
) -> Checked<()> {
    parts.place = (end as u32).wrapping_sub(length as u32);
    if !(1..=256).contains(&length) || length > end {
        return answers(compare, random, &parts, item, DAMAGE);
    }
    compare.call(&mut asking(random, parts.capture(), item))?;
    Ok(())
}
