//! Sessions in which both Modbus lines reach one table.

use super::{as_line, message_of, no_line};
use crate::call::Function;
use crate::compare::Compare;
use crate::failure::{Checked, Failure};
use crate::groups::requests::{spoiled, words};
use crate::groups::several;
use crate::instrument::Instrument;
use crate::random::Random;
use crate::shapes::{any_item, any_value};
use reference::ascii::line_of;
use reference::items::ITEMS;

/// A host sends each request by either line. Beside the panel that hears them stands one that hears
/// them as frames alone.
pub fn whole(compare: &mut Compare, random: &mut Random) -> Checked<()> {
    for _ in 0..1500 {
        let mixed = Instrument::on_all_lines(random);
        let mut panels = Panels {
            frames: mixed.clone(),
            mixed,
        };
        for _ in 0..12 {
            let frame = request(random, panels.mixed.address);
            panels.hear(compare, random, frame)?;
        }
    }
    Ok(())
}

/// A request of any kind in its frame, now and then one that is damaged.
fn request(random: &mut Random, address: u8) -> Vec<u8> {
    let item = any_item(random);
    let value = any_value(random, item) as u16;
    match random.below(5) {
        0 => words(address, 0x03, 0, 20),
        1 => several::any_request(random, address),
        2 => several::accepted(random, address),
        3 => {
            let frame = several::accepted(random, address);
            spoiled(random, frame)
        }
        _ => words(address, 0x06, ITEMS[item - 1].register, value),
    }
}

struct Panels {
    mixed: Instrument,
    frames: Instrument,
}

impl Panels {
    /// Both hear a request, one of them by either line. The outcomes must be the same, and so must
    /// the tables be that the panels go on with.
    fn hear(&mut self, compare: &mut Compare, random: &mut Random, frame: Vec<u8>) -> Checked<()> {
        let message = message_of(&frame).filter(|_| random.one_in(2));
        let given = self
            .frames
            .hear(compare, random, Function::Rtu, frame.clone())?;
        let (heard, due) = match message {
            Some(message) => (
                self.hear_line(compare, random, line_of(message))?,
                as_line(given),
            ),
            None => (
                self.mixed
                    .hear(compare, random, Function::Rtu, frame.clone())?,
                given,
            ),
        };
        if heard == due && self.mixed.table == self.frames.table {
            return Ok(());
        }
        let why = format!("{frame:02X?}: the two panels differ");
        Err(Failure::wrong(why))
    }

    /// One of them hears a line, sometimes after the same with something that makes it none.
    fn hear_line(
        &mut self,
        compare: &mut Compare,
        random: &mut Random,
        line: Vec<u8>,
    ) -> Checked<(u32, Vec<u8>)> {
        if random.one_in(4) {
            let none = no_line(random, &line);
            self.mixed.hear(compare, random, Function::Ascii, none)?;
        }
        self.mixed.hear(compare, random, Function::Ascii, line)
    }
}
