//! Both sides of each edge, through the raw data of the C face. Values come from the specification.

mod alarms;
mod ascii;
mod block;
mod calls;
mod captures;
mod last_write;
mod phases;
mod point;
mod polling_on;
mod rtu;
mod several;
mod text;

use reference::ascii::line_of;

/// What fills a reply buffer before a call, to see what stays.
pub const FILL: u8 = 0xA5;

pub const STX: u8 = 0x02;
pub const ETX: u8 = 0x03;
pub const EOT: u8 = 0x04;
pub const ENQ: u8 = 0x05;
pub const ACK: u8 = 0x06;
pub const NAK: u8 = 0x15;

pub const START: [i32; 13] = [0, 0, 0, 0, 0, 0, 500, 500, 0, 1000, 0, 0, 1];

/// Values that make every item's text its own; M1 stands at A1 and below A2, and XU gives two decimals.
pub const OWN: [i32; 13] = [-15, 1, 0, 1, 255, 9999, -15, -14, -1000, 1500, 100, 999, 2];

/// The same table with the alarm states that M1, A1 and A2 make true.
pub fn agreeing(mut table: [i32; 13]) -> [i32; 13] {
    table[1] = i32::from(table[0] >= table[6]);
    table[2] = i32::from(table[0] >= table[7]);
    table
}

/// What each item sends then: identifier and six characters.
pub const OWN_TEXTS: [&[u8; 8]; 13] = [
    b"M1-00.15",
    b"AA000001",
    b"AB000000",
    b"B1000001",
    b"ER000255",
    b"S1099.99",
    b"A1-00.15",
    b"A2-00.14",
    b"PB-10.00",
    b"PR01.500",
    b"F1000100",
    b"TM000999",
    b"XU000002",
];

/// The reply that sends an identifier and six characters.
pub fn data(text: &[u8; 8]) -> Vec<u8> {
    let mut reply = vec![STX];
    reply.extend(text);
    reply.push(ETX);
    reply.push(text.iter().fold(ETX, |sum, character| sum ^ character));
    reply
}

// Phases as the state's first byte has them.
pub const REST: u8 = 0;
pub const FIRST_DIGIT: u8 = 1;
pub const SECOND_DIGIT: u8 = 2;
pub const ADDRESSED: u8 = 3;
pub const ONE: u8 = 4;
pub const TWO: u8 = 5;
pub const WAITING: u8 = 6;
pub const TEXT: u8 = 7;
pub const BCC_DUE: u8 = 8;
pub const ANSWERED: u8 = 9;

/// A state that has only a phase.
pub fn bare(phase: u8) -> [u8; 24] {
    let mut state = [0; 24];
    state[0] = phase;
    state
}

/// One kept identifier character.
pub fn one(first: u8) -> [u8; 24] {
    let mut state = bare(ONE);
    state[12] = first;
    state
}

/// Two kept identifier characters.
pub fn two(first: u8, second: u8) -> [u8; 24] {
    let mut state = bare(TWO);
    state[12] = first;
    state[13] = second;
    state
}

/// Waiting after a reply.
pub fn waiting(item: u8, time: u32) -> [u8; 24] {
    let mut state = bare(WAITING);
    state[1] = item;
    state[8..12].copy_from_slice(&time.to_le_bytes());
    state
}

/// In a block's text or at its BCC.
pub fn in_block(phase: u8, count: u8, bcc: u8, mark: u8, kept: &[u8]) -> [u8; 24] {
    let mut state = bare(phase);
    state[2] = count;
    state[3] = bcc;
    state[4] = mark;
    state[12..12 + kept.len()].copy_from_slice(kept);
    state
}

/// One clean state of each phase, in their order.
pub fn each_phase() -> [[u8; 24]; 10] {
    [
        bare(REST),
        bare(FIRST_DIGIT),
        bare(SECOND_DIGIT),
        bare(ADDRESSED),
        one(b'P'),
        two(b'P', b'B'),
        waiting(9, 77),
        in_block(TEXT, 3, 0x23, 0, b"PB1"),
        in_block(BCC_DUE, 3, 0x20, 0, b"PB1"),
        bare(ANSWERED),
    ]
}

/// A link at address 1 with its table and a filled reply buffer.
#[derive(Clone, Debug, PartialEq)]
pub struct Link {
    pub state: Vec<u8>,
    pub table: Vec<i32>,
    pub reply: Vec<u8>,
    pub address: u8,
    pub structure: u8,
    pub now: u32,
}

impl Link {
    pub fn start() -> Link {
        Link {
            state: vec![0; 24],
            table: START.to_vec(),
            reply: vec![FILL; 300],
            address: 1,
            structure: 0,
            now: 0,
        }
    }

    pub fn from(state: [u8; 24]) -> Link {
        Link {
            state: state.to_vec(),
            ..Link::start()
        }
    }

    pub fn with(table: [i32; 13]) -> Link {
        Link {
            table: table.to_vec(),
            ..Link::start()
        }
    }

    /// One byte: the number and the reply. All past the reply must have stayed.
    pub fn byte(&mut self, byte: u8) -> (u32, Vec<u8>) {
        let before = self.reply.clone();
        let result = reference::byte(
            &mut self.state,
            &mut self.table,
            &mut self.reply,
            self.address,
            self.structure,
            self.now,
            byte,
        );
        self.taken_apart(&before, result)
    }

    /// Bytes of which only the last may be answered.
    pub fn bytes(&mut self, bytes: &[u8]) -> (u32, Vec<u8>) {
        let (last, others) = bytes.split_last().expect("at least one byte");
        for byte in others {
            assert_eq!(self.byte(*byte), (0, vec![]));
        }
        self.byte(*last)
    }

    pub fn idle(&mut self) -> (u32, Vec<u8>) {
        let before = self.reply.clone();
        let result = reference::idle(&mut self.state, &mut self.reply, self.structure, self.now);
        self.taken_apart(&before, result)
    }

    pub fn rtu(&mut self, frame: &[u8]) -> (u32, Vec<u8>) {
        let before = self.reply.clone();
        let result = reference::rtu(&mut self.table, &mut self.reply, self.address, frame);
        self.taken_apart(&before, result)
    }

    pub fn ascii(&mut self, line: &[u8]) -> (u32, Vec<u8>) {
        let before = self.reply.clone();
        let result = reference::ascii(&mut self.table, &mut self.reply, self.address, line);
        self.taken_apart(&before, result)
    }

    fn taken_apart(&self, before: &[u8], result: u32) -> (u32, Vec<u8>) {
        let length = (result / 256) as usize;
        assert_eq!(self.reply[length..], before[length..]);
        (result % 256, self.reply[..length].to_vec())
    }
}

/// The tables that a link is left with when a value is written to it: by a block of this text, and by
/// 06H and 10H in a frame and in a line.
pub fn written(before: [i32; 13], text: &[u8], register: u8, value: i32) -> [Vec<i32>; 5] {
    let [high, low] = (value as i16).to_be_bytes();
    let single = vec![1, 0x06, 0, register, high, low];
    let several = vec![1, 0x10, 0, register, 0, 1, 2, high, low];
    let left = |call: &dyn Fn(&mut Link) -> u32| {
        let mut link = Link::with(before);
        assert_eq!(call(&mut link), 0);
        link.table
    };
    [
        left(&|link| link.bytes(&block::block(text)).0),
        left(&|link| rtu::ask(link, &single).0),
        left(&|link| rtu::ask(link, &several).0),
        left(&|link| link.ascii(&line_of(single.clone())).0),
        left(&|link| link.ascii(&line_of(several.clone())).0),
    ]
}

/// A call that gives a number back, has no reply and leaves all as it came.
pub fn refused(link: &mut Link, call: impl Fn(&mut Link) -> (u32, Vec<u8>), number: u32) {
    let before = link.clone();
    assert_eq!(call(link), (number, vec![]));
    assert_eq!(*link, before);
}

/// A byte that goes to a phase with no reply.
pub fn goes(state: [u8; 24], byte: u8, to: [u8; 24]) {
    let mut link = Link::from(state);
    assert_eq!(link.byte(byte), (0, vec![]), "{:02X}", byte);
    assert_eq!(link.state, to, "{:02X}", byte);
    assert_eq!(link.table, START);
}

/// A byte that is answered with EOT and brings the link to rest.
pub fn ends(state: [u8; 24], byte: u8, number: u32) {
    let mut link = Link::from(state);
    assert_eq!(link.byte(byte), (number, vec![EOT]), "{:02X}", byte);
    assert_eq!(link.state, bare(REST), "{:02X}", byte);
    assert_eq!(link.table, START);
}
