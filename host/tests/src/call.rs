//! One call through the C face, with all that is lent to it.

use std::fmt;

/// The functions of the C face, in the driver's order.
#[derive(Clone, Copy, Debug, PartialEq, Eq)]
pub enum Function {
    StartTable,
    StartLink,
    Byte,
    Idle,
    Rtu,
    Put,
    ReadText,
    WriteText,
    Playback,
    Show,
    LastWrite,
    Ascii,
}

impl Function {
    /// Its name in the header.
    pub fn name(self) -> &'static str {
        match self {
            Function::StartTable => "vb_start_table",
            Function::StartLink => "vb_start_link",
            Function::Byte => "vb_byte",
            Function::Idle => "vb_idle",
            Function::Rtu => "vb_rtu",
            Function::Put => "vb_put",
            Function::ReadText => "vb_read_text",
            Function::WriteText => "vb_write_text",
            Function::Playback => "vb_playback",
            Function::Show => "vb_show",
            Function::LastWrite => "vb_last_write",
            Function::Ascii => "vb_ascii",
        }
    }
}

/// A function with its arguments. Those that it does not take mean nothing.
#[derive(Clone, Debug, PartialEq, Eq)]
pub struct Call {
    pub function: Function,
    pub address: u8,
    pub structure: u8,
    pub byte: u8,
    pub decimals: u8,
    pub now: u32,
    pub item: u32,
    /// The number of a frame in a capture.
    pub frame: u32,
    pub value: i32,
    pub state: Vec<u8>,
    /// The item values; for a reading of text the one value that it sets, for a showing the place
    /// and the length, for a last write the value and the records.
    pub table: Vec<i32>,
    pub reply: Vec<u8>,
    /// A frame, number text, a capture, or a line.
    pub input: Vec<u8>,
}

/// What stands before and behind each lent array in the driver.
const GUARD: [u8; 8] = [0xC3; 8];

/// The driver's room for one lent array, in bytes: a capture may be too long, and as much may stand
/// before a line.
const ARRAY_MOST: usize = 65_536 + 1024;

/// The names of the lent arrays, in the driver's order.
const ARRAYS: [&str; 4] = ["state", "table", "reply", "input"];

impl Call {
    pub fn new(function: Function) -> Call {
        Call {
            function,
            address: 0,
            structure: 0,
            byte: 0,
            decimals: 0,
            now: 0,
            item: 0,
            frame: 0,
            value: 0,
            state: vec![],
            table: vec![],
            reply: vec![],
            input: vec![],
        }
    }

    /// Makes the call by the reference and gives back its result. The lent arrays are left as the
    /// reference leaves them.
    pub fn by_reference(&mut self) -> u32 {
        let Call {
            state,
            table,
            reply,
            input,
            ..
        } = self;
        match self.function {
            Function::StartTable => reference::start_table(table),
            Function::StartLink => reference::start_link(state),
            Function::Byte => reference::byte(
                state,
                table,
                reply,
                self.address,
                self.structure,
                self.now,
                self.byte,
            ),
            Function::Idle => reference::idle(state, reply, self.structure, self.now),
            Function::Rtu => reference::rtu(table, reply, self.address, input),
            Function::Put => reference::put(table, self.item, self.value),
            Function::ReadText => reference::read_text(self.decimals, input, &mut table[0]),
            Function::WriteText => reference::write_text(self.decimals, self.value, input),
            Function::Playback => reference::playback(table, self.address, input),
            Function::Show => reference::show_in(table, input, self.frame),
            Function::LastWrite => reference::last_write_in(table, input, self.address, self.item),
            Function::Ascii => reference::ascii(table, reply, self.address, input),
        }
    }

    /// The bytes of the lent arrays, in the driver's order.
    fn lent(&self) -> [Vec<u8>; 4] {
        let entries = self.table.iter().flat_map(|entry| entry.to_le_bytes());
        [
            self.state.clone(),
            entries.collect(),
            self.reply.clone(),
            self.input.clone(),
        ]
    }

    /// Adds the call to a batch of the driver's requests.
    pub fn request(&self, to: &mut Vec<u8>) {
        let lent = self.lent();
        to.extend([
            self.function as u8,
            self.address,
            self.structure,
            self.byte,
            self.decimals,
        ]);
        to.extend([0; 3]);
        to.extend(self.now.to_le_bytes());
        to.extend(self.item.to_le_bytes());
        to.extend(self.frame.to_le_bytes());
        to.extend(self.value.to_le_bytes());
        for array in &lent {
            assert!(
                array.len() <= ARRAY_MOST,
                "the driver has no room for {self}"
            );
            to.extend((array.len() as u32).to_le_bytes());
        }
        for array in &lent {
            to.extend(array);
        }
    }

    /// Adds the answer that the driver gives to the call where the library's result is this one
    /// and the lent arrays are left as they stand here.
    pub fn answer(&self, result: u32, to: &mut Vec<u8>) {
        to.extend(result.to_le_bytes());
        for array in &self.lent() {
            to.extend(GUARD);
            to.extend(array);
            to.extend(GUARD);
        }
    }

    /// Shows an answer of the driver to this call.
    pub fn shown(&self, answer: &[u8]) -> String {
        let (result, mut rest) = answer.split_at(4);
        let result = u32::from_le_bytes([result[0], result[1], result[2], result[3]]);
        let beside = match self.function {
            Function::LastWrite => "found",
            _ => "reply length",
        };
        let mut lines = format!("number {}, {beside} {}", result % 256, result / 256);
        for (name, array) in ARRAYS.iter().zip(self.lent()) {
            let (guarded, behind) = rest.split_at(GUARD.len() + array.len() + GUARD.len());
            let (front, inner) = guarded.split_at(GUARD.len());
            let (inner, back) = inner.split_at(array.len());
            if !array.is_empty() {
                lines += &format!("\n  {name} {}", hex(inner));
            }
            if front != GUARD || back != GUARD {
                lines += &format!("\n  guards of {name} {} and {}", hex(front), hex(back));
            }
            rest = behind;
        }
        lines
    }
}

impl fmt::Display for Call {
    fn fmt(&self, to: &mut fmt::Formatter<'_>) -> fmt::Result {
        write!(
            to,
            "{} address {:02X} structure {:02X} byte {:02X} decimals {:02X} \
             now {:08X} item {:08X} frame {:08X} value {:08X}",
            self.function.name(),
            self.address,
            self.structure,
            self.byte,
            self.decimals,
            self.now,
            self.item,
            self.frame,
            self.value,
        )?;
        for (name, array) in ARRAYS.iter().zip(self.lent()) {
            write!(to, "\n  {name}, {} bytes: {}", array.len(), hex(&array))?;
        }
        Ok(())
    }
}

/// Pairs of hexadecimal digits; of a long capture those at both ends.
fn hex(bytes: &[u8]) -> String {
    if bytes.len() > 1024 {
        let (front, back) = (&bytes[..64], &bytes[bytes.len() - 64..]);
        return format!("{} .. {}", hex(front), hex(back));
    }
    let pairs: Vec<String> = bytes.iter().map(|byte| format!("{byte:02X}")).collect();
    pairs.join(" ")
}
