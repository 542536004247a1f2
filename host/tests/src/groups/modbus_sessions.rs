//! Sessions on the RTU line: the table goes on from frame to frame, and what was written is read
//! back.

use super::requests::words;
use super::several;
use crate::call::Function;
use crate::compare::Compare;
use crate::failure::{Checked, Failure};
use crate::instrument::Instrument;
use crate::random::Random;
use crate::shapes::{any_item, any_value};
use reference::items::ITEMS;
use reference::modbus::with_crc;

/// What a host program writes and reads, with much that is refused.
pub fn whole(compare: &mut Compare, random: &mut Random) -> Checked<()> {
    for _ in 0..1500 {
        let mut panel = Instrument::on_all_lines(random);
        for _ in 0..12 {
            match random.below(8) {
                0 => put(compare, random, &mut panel)?,
                1 => write(compare, random, &mut panel)?,
                2 => read_map(compare, random, &mut panel)?,
                _ => write_several(compare, random, &mut panel)?,
            }
        }
        read_map(compare, random, &mut panel)?;
    }
    Ok(())
}

/// The firmware puts a value.
fn put(compare: &mut Compare, random: &mut Random, panel: &mut Instrument) -> Checked<()> {
    let item = any_item(random);
    let value = any_value(random, item);
    panel.put(compare, item, value)?;
    Ok(())
}

/// One register is written by 06H.
fn write(compare: &mut Compare, random: &mut Random, panel: &mut Instrument) -> Checked<()> {
    let item = any_item(random);
    let value = any_value(random, item) as u16;
    let frame = words(panel.address, 0x06, ITEMS[item - 1].register, value);
    panel.hear(compare, random, Function::Rtu, frame)?;
    Ok(())
}

/// All registers are read.
fn read_map(compare: &mut Compare, random: &mut Random, panel: &mut Instrument) -> Checked<()> {
    let frame = words(panel.address, 0x03, 0, 20);
    panel.hear(compare, random, Function::Rtu, frame)?;
    Ok(())
}

/// Several registers are written, and where that is answered they are read back: byte count and data
/// must be those of the write. A refused write must leave the table.
fn write_several(
    compare: &mut Compare,
    random: &mut Random,
    panel: &mut Instrument,
) -> Checked<()> {
    let frame = several::any_request(random, panel.address);
    let before = panel.table.clone();
    let (number, _) = panel.hear(compare, random, Function::Rtu, frame.clone())?;
    if number != 0 {
        let left = panel.table == before;
        return due(left, &frame, "it is refused and has written");
    }
    let mut read = vec![panel.address, 0x03];
    read.extend(&frame[2..6]);
    let (_, reply) = panel.hear(compare, random, Function::Rtu, with_crc(read))?;
    let mut written = vec![panel.address, 0x03];
    written.extend(&frame[6..frame.len() - 2]);
    let same = reply == with_crc(written);
    due(same, &frame, "what it has written is not read back")
}

/// What must hold behind a frame; else what is wrong.
fn due(holds: bool, frame: &[u8], wrong: &str) -> Checked<()> {
    if holds {
        return Ok(());
    }
    Err(Failure::wrong(format!("{frame:02X?}: {wrong}")))
}
