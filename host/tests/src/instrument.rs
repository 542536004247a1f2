//! An instrument on all lines, whose state and table go on from call to call.

use crate::call::{Call, Function};
use crate::compare::Compare;
use crate::failure::Checked;
use crate::random::Random;
use crate::shapes::{good_table, pattern, BCC_DUE};
use reference::ascii::line_of;
use reference::line::{self, bcc, ENQ, EOT, ETX, STX};

#[derive(Clone)]
pub struct Instrument {
    pub address: u8,
    pub structure: u8,
    pub now: u32,
    pub state: Vec<u8>,
    pub table: Vec<i32>,
}

impl Instrument {
    /// At rest, with any good table, at any address and time, in any structure.
    pub fn any(random: &mut Random) -> Instrument {
        Instrument {
            address: random.below(100) as u8,
            structure: random.below(3) as u8,
            now: random.word(),
            state: vec![0; 24],
            table: good_table(random),
        }
    }

    /// The same at an address that there is on the Modbus lines too.
    pub fn on_all_lines(random: &mut Random) -> Instrument {
        Instrument {
            address: random.between(1, 99) as u8,
            ..Instrument::any(random)
        }
    }

    /// One with this table that has taken in a block's text and its ETX. What the phase ignores is
    /// anything.
    pub fn judging(random: &mut Random, table: Vec<i32>, text: &[u8]) -> Instrument {
        let kept = &text[..text.len().min(8)];
        let mut state = random.bytes(24);
        state[0] = BCC_DUE;
        state[2] = text.len().min(9) as u8;
        state[3] = bcc(text) ^ ETX;
        state[4] = 0;
        state[12..12 + kept.len()].copy_from_slice(kept);
        Instrument {
            state,
            table,
            ..Instrument::any(random)
        }
    }

    /// The call that receives the right BCC of a block of this text.
    pub fn call_block(random: &mut Random, table: Vec<i32>, text: &[u8]) -> Call {
        let instrument = Instrument::judging(random, table, text);
        let byte = instrument.sent(bcc(text) ^ ETX);
        instrument.call_byte(random, byte)
    }

    /// EOT and the two digits of an address.
    pub fn calling(address: u8) -> Vec<u8> {
        vec![EOT, b'0' + address / 10, b'0' + address % 10]
    }

    /// A 7-bit character as it goes over the line.
    pub fn sent(&self, character: u8) -> u8 {
        line::sent(self.structure, character)
    }

    /// The call that receives one byte of the line.
    pub fn call_byte(&self, random: &mut Random, byte: u8) -> Call {
        Call {
            address: self.address,
            structure: self.structure,
            byte,
            now: self.now,
            state: self.state.clone(),
            table: self.table.clone(),
            reply: pattern(random, 256),
            ..Call::new(Function::Byte)
        }
    }

    /// The call that asks whether the host has been silent for too long.
    pub fn call_idle(&self, random: &mut Random) -> Call {
        Call {
            structure: self.structure,
            now: self.now,
            state: self.state.clone(),
            reply: pattern(random, 256),
            ..Call::new(Function::Idle)
        }
    }

    /// Receives one byte of the line, and goes on from what that leaves. Number and reply.
    pub fn byte(
        &mut self,
        compare: &mut Compare,
        random: &mut Random,
        byte: u8,
    ) -> Checked<(u32, Vec<u8>)> {
        let mut call = self.call_byte(random, byte);
        let given = compare.heard(&mut call)?;
        self.state = call.state;
        self.table = call.table;
        Ok(given)
    }

    /// Receives characters of which the last may be answered. Its number and reply.
    pub fn receive(
        &mut self,
        compare: &mut Compare,
        random: &mut Random,
        characters: &[u8],
    ) -> Checked<(u32, Vec<u8>)> {
        let mut given = (0, vec![]);
        for character in characters {
            let byte = self.sent(*character);
            given = self.byte(compare, random, byte)?;
        }
        Ok(given)
    }

    /// Is called and polled for an item. Number and reply.
    pub fn poll(
        &mut self,
        compare: &mut Compare,
        random: &mut Random,
        id: [u8; 2],
    ) -> Checked<(u32, Vec<u8>)> {
        let mut characters = Instrument::calling(self.address);
        characters.extend(id);
        characters.push(ENQ);
        self.receive(compare, random, &characters)
    }

    /// Is called and sent a block of this text. Number and reply.
    pub fn select(
        &mut self,
        compare: &mut Compare,
        random: &mut Random,
        text: &[u8],
    ) -> Checked<(u32, Vec<u8>)> {
        let mut characters = Instrument::calling(self.address);
        characters.push(STX);
        characters.extend(text);
        characters.extend([ETX, bcc(text) ^ ETX]);
        self.receive(compare, random, &characters)
    }

    /// Hears a frame or a line, and goes on from the table that it leaves. Number and reply.
    pub fn hear(
        &mut self,
        compare: &mut Compare,
        random: &mut Random,
        function: Function,
        input: Vec<u8>,
    ) -> Checked<(u32, Vec<u8>)> {
        let mut call = Call {
            address: self.address,
            table: self.table.clone(),
            reply: pattern(random, 256),
            input,
            ..Call::new(function)
        };
        let given = compare.heard(&mut call)?;
        self.table = call.table;
        Ok(given)
    }

    /// Hears a frame, or its message as a line. Number and reply.
    pub fn hear_either(
        &mut self,
        compare: &mut Compare,
        random: &mut Random,
        frame: Vec<u8>,
    ) -> Checked<(u32, Vec<u8>)> {
        if random.one_in(2) {
            return self.hear(compare, random, Function::Rtu, frame);
        }
        let line = line_of(frame[..frame.len() - 2].to_vec());
        self.hear(compare, random, Function::Ascii, line)
    }

    /// The firmware puts a value. The number.
    pub fn put(&mut self, compare: &mut Compare, item: usize, value: i32) -> Checked<u32> {
        let mut call = Call {
            item: item as u32,
            value,
            table: self.table.clone(),
            ..Call::new(Function::Put)
        };
        let number = compare.call(&mut call)?;
        self.table = call.table;
        Ok(number)
    }

    /// Is asked whether the host has been silent for too long, and goes on from what that leaves.
    pub fn idle(&mut self, compare: &mut Compare, random: &mut Random) -> Checked<u32> {
        let mut call = self.call_idle(random);
        let result = compare.call(&mut call)?;
        self.state = call.state;
        Ok(result)
    }
}
