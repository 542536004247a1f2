//! The phases of the RKC link, and what one byte or an idle call does in each.

use crate::items;
use crate::line::{bcc, printable, Received, ACK, ENQ, EOT, ETX, NAK, STX};
use crate::number;

/// The length of the link state as bytes.
pub const STATE_LENGTH: usize = 24;

/// What a block has brought so far.
#[derive(Clone, Debug, PartialEq, Eq)]
pub struct Block {
    /// Text bytes, stopping at 9.
    pub count: u8,
    /// The text's characters, up to 8.
    pub kept: Vec<u8>,
    /// The exclusive or so far.
    pub bcc: u8,
    /// Whether a line error was met.
    pub mark: bool,
}

/// A phase with exactly the fields that it uses.
#[derive(Clone, Debug, PartialEq, Eq)]
pub enum Phase {
    Rest,
    FirstDigit,
    SecondDigit,
    Addressed,
    OneCharacter { first: u8 },
    TwoCharacters { first: u8, second: u8 },
    Waiting { item: u8, time: u32 },
    Text(Block),
    BccDue(Block),
    Answered,
}

/// Reads the state's bytes: 0 phase, 1 item, 2 count, 3 BCC, 4 mark, 8 to 11 time with the low
/// byte first, 12 to 19 kept characters. Phases are numbered from 0 in the order in which the
/// specification names them.
///
/// `None` is number 5: another length than 24, an unknown phase, or a field that the phase uses
/// outside its limits. Fields that the phase doesn't use are ignored.
pub fn decode(state: &[u8]) -> Option<Phase> {
    if state.len() != STATE_LENGTH {
        return None;
    }
    match state[0] {
        0 => Some(Phase::Rest),
        1 => Some(Phase::FirstDigit),
        2 => Some(Phase::SecondDigit),
        3 => Some(Phase::Addressed),
        4 => decode_one(state[12]),
        5 => decode_two(state[12], state[13]),
        6 => decode_waiting(state[1], &state[8..12]),
        7 => decode_block(state).map(Phase::Text),
        8 => decode_block(state).map(Phase::BccDue),
        9 => Some(Phase::Answered),
        _ => None,
    }
}

/// A kept character of 80H up is outside the limits.
fn decode_one(first: u8) -> Option<Phase> {
    if first >= 0x80 {
        return None;
    }
    Some(Phase::OneCharacter { first })
}

fn decode_two(first: u8, second: u8) -> Option<Phase> {
    if first >= 0x80 || second >= 0x80 {
        return None;
    }
    Some(Phase::TwoCharacters { first, second })
}

/// A waiting item is 1 to 13. Every time is good.
fn decode_waiting(item: u8, time: &[u8]) -> Option<Phase> {
    if !(1..=13).contains(&item) {
        return None;
    }
    let time = u32::from_le_bytes([time[0], time[1], time[2], time[3]]);
    Some(Phase::Waiting { item, time })
}

/// A count is at most 9, the BCC and each kept character up to the count are below 80H. The mark
/// has no limit: not 0 is marked.
fn decode_block(state: &[u8]) -> Option<Block> {
    let count = state[2];
    let bcc = state[3];
    if count > 9 || bcc >= 0x80 {
        return None;
    }
    let kept = state[12..12 + usize::from(count.min(8))].to_vec();
    if kept.iter().any(|character| *character >= 0x80) {
        return None;
    }
    Some(Block {
        count,
        kept,
        bcc,
        mark: state[4] != 0,
    })
}

/// Writes a phase as the state's bytes. Fields that the phase doesn't use come out 0, kept
/// characters past the count among them.
pub fn encode(phase: &Phase) -> [u8; STATE_LENGTH] {
    let mut state = [0; STATE_LENGTH];
    match phase {
        Phase::Rest => state[0] = 0,
        Phase::FirstDigit => state[0] = 1,
        Phase::SecondDigit => state[0] = 2,
        Phase::Addressed => state[0] = 3,
        Phase::OneCharacter { first } => {
            state[0] = 4;
            state[12] = *first;
        }
        Phase::TwoCharacters { first, second } => {
            state[0] = 5;
            state[12] = *first;
            state[13] = *second;
        }
        Phase::Waiting { item, time } => {
            state[0] = 6;
            state[1] = *item;
            state[8..12].copy_from_slice(&time.to_le_bytes());
        }
        Phase::Text(block) => {
            state[0] = 7;
            encode_block(&mut state, block);
        }
        Phase::BccDue(block) => {
            state[0] = 8;
            encode_block(&mut state, block);
        }
        Phase::Answered => state[0] = 9,
    }
    state
}

fn encode_block(state: &mut [u8; STATE_LENGTH], block: &Block) {
    state[2] = block.count;
    state[3] = block.bcc;
    state[4] = u8::from(block.mark);
    state[12..12 + block.kept.len()].copy_from_slice(&block.kept);
}

/// What a step hands back: the phase to go on from, the number, and the reply as 7-bit characters.
#[derive(Debug, PartialEq, Eq)]
pub struct Step {
    pub phase: Phase,
    pub number: u32,
    pub reply: Vec<u8>,
}

/// A step with no reply and number 0.
fn silent(phase: Phase) -> Step {
    Step {
        phase,
        number: 0,
        reply: vec![],
    }
}

/// A step that replies EOT and rests.
fn ended(number: u32) -> Step {
    Step {
        phase: Phase::Rest,
        number,
        reply: vec![EOT],
    }
}

/// What a call brings along besides the state, the table and the byte.
#[derive(Clone, Copy)]
pub struct Call {
    pub address: u8,
    pub now: u32,
}

/// One received byte.
pub fn byte(phase: Phase, table: &mut [i32], call: Call, received: Received) -> Step {
    // EOT, in each phase except where a BCC is due: next come two digits, the device address. A
    // block under way is dropped.
    let bcc_due = matches!(phase, Phase::BccDue(_));
    if received == Received::Character(EOT) && !bcc_due {
        return silent(Phase::FirstDigit);
    }
    match phase {
        // All but EOT is ignored.
        Phase::Rest => silent(Phase::Rest),
        Phase::FirstDigit => digit(call.address / 10, Phase::SecondDigit, received),
        Phase::SecondDigit => digit(call.address % 10, Phase::Addressed, received),
        Phase::Addressed => addressed(received),
        Phase::OneCharacter { first } => one_character(first, received),
        Phase::TwoCharacters { first, second } => {
            two_characters([first, second], table, call.now, received)
        }
        Phase::Waiting { item, .. } => waiting(usize::from(item), table, call.now, received),
        Phase::Text(block) => text(block, received),
        Phase::BccDue(block) => bcc_place(&block, table, received),
        Phase::Answered => answered(received),
    }
}

/// Each digit is compared as it comes; anything else there: rest, silent.
fn digit(expected: u8, next: Phase, received: Received) -> Step {
    if received == Received::Character(b'0' + expected) {
        silent(next)
    } else {
        silent(Phase::Rest)
    }
}

/// After the address: STX opens a block, a character 20H to 7EH is the first of an identifier,
/// other bytes: rest, silent.
fn addressed(received: Received) -> Step {
    match received {
        Received::Character(STX) => silent(opened()),
        Received::Character(first) if printable(first) => silent(Phase::OneCharacter { first }),
        _ => silent(Phase::Rest),
    }
}

/// A block with nothing in it yet.
fn opened() -> Phase {
    Phase::Text(Block {
        count: 0,
        kept: vec![],
        bcc: 0,
        mark: false,
    })
}

/// In a poll a line error: rest, silent. Any other byte that doesn't belong: EOT, rest (41). Here
/// the second identifier character belongs.
fn one_character(first: u8, received: Received) -> Step {
    match received {
        Received::LineError(_) => silent(Phase::Rest),
        Received::Character(second) if printable(second) => {
            silent(Phase::TwoCharacters { first, second })
        }
        Received::Character(_) => ended(41),
    }
}

/// The same, and here ENQ belongs. An unknown identifier: EOT, rest (42).
fn two_characters(id: [u8; 2], table: &[i32], now: u32, received: Received) -> Step {
    match received {
        Received::LineError(_) => silent(Phase::Rest),
        Received::Character(ENQ) => match items::with_id(&id) {
            Some(item) => data(item, table, now),
            None => ended(42),
        },
        Received::Character(_) => ended(41),
    }
}

/// The reply with an item's value now: STX, identifier, six characters, ETX, BCC; then waiting,
/// with the time of this reply. A value that does not fit is 46, which no item can meet within its
/// low and high.
fn data(item: usize, table: &[i32], now: u32) -> Step {
    let row = items::item(item);
    let six = match number::write(items::decimals(table, item), table[item - 1]) {
        Ok(six) => six,
        Err(_) => return ended(46),
    };
    let mut after_stx = vec![];
    after_stx.extend(row.id);
    after_stx.extend(six);
    after_stx.push(ETX);

    let mut reply = vec![STX];
    reply.extend(&after_stx);
    reply.push(bcc(&after_stx));
    Step {
        phase: Phase::Waiting {
            item: item as u8,
            time: now,
        },
        number: 0,
        reply,
    }
}

/// While waiting: ACK sends the next item of the list, after item 13 EOT and rest (45); NAK sends
/// the same item with its value now; a character 20H to 7EH starts the identifier of a new poll of
/// the same address, which from then on is a poll like any other; any other byte, a line error
/// too: EOT, rest (43).
fn waiting(item: usize, table: &[i32], now: u32, received: Received) -> Step {
    match received {
        Received::Character(ACK) if item == 13 => ended(45),
        Received::Character(ACK) => data(item + 1, table, now),
        Received::Character(NAK) => data(item, table, now),
        Received::Character(first) if printable(first) => silent(Phase::OneCharacter { first }),
        _ => ended(43),
    }
}

/// In a block all bytes but ETX and EOT are text. A line error marks the block and is text as its
/// low seven bits, even where these look like ETX or EOT. The BCC takes ETX in.
fn text(mut block: Block, received: Received) -> Step {
    let character = match received {
        Received::Character(ETX) => {
            block.bcc ^= ETX;
            return silent(Phase::BccDue(block));
        }
        Received::Character(character) => character,
        Received::LineError(low_seven) => {
            block.mark = true;
            low_seven
        }
    };
    // Up to 8 are kept and the count stops at 9.
    if block.count < 8 {
        block.kept.push(character);
    }
    if block.count < 9 {
        block.count += 1;
    }
    block.bcc ^= character;
    silent(Phase::Text(block))
}

/// After ETX the next byte is the BCC, also when it looks like EOT. The answer is ACK with the
/// item stored, or NAK.
fn bcc_place(block: &Block, table: &mut [i32], received: Received) -> Step {
    let (number, reply) = match judge(block, table, received) {
        Ok((item, value)) => {
            items::store(table, item, value);
            (0, ACK)
        }
        Err(number) => (number, NAK),
    };
    Step {
        phase: Phase::Answered,
        number,
        reply: vec![reply],
    }
}

/// The item and value that a block brings, or the first of 11 to 18 that it meets.
fn judge(block: &Block, table: &[i32], received: Received) -> Result<(usize, i32), u32> {
    // 11: a line error, in the text or in the BCC's place.
    let check = match received {
        Received::Character(check) if !block.mark => check,
        _ => return Err(11),
    };
    // 12: another BCC.
    if check != block.bcc {
        return Err(12);
    }
    // 13: under two characters.
    if block.count < 2 {
        return Err(13);
    }
    // 14: unknown identifier.
    let item = match items::with_id(&block.kept[..2]) {
        Some(item) => item,
        None => return Err(14),
    };
    // 15: over six data characters, of which there are two less than text.
    if block.count > 8 {
        return Err(15);
    }
    // 16: no number.
    let value = number::read(items::decimals(table, item), &block.kept[2..])?;
    // 17: read-only.
    if !items::item(item).writable {
        return Err(17);
    }
    // 18: out of range.
    if !items::in_range(item, value) {
        return Err(18);
    }
    Ok((item, value))
}

/// After the answer: STX opens another block, else rest, silent.
fn answered(received: Received) -> Step {
    match received {
        Received::Character(STX) => silent(opened()),
        _ => silent(Phase::Rest),
    }
}

/// The idle call: when waiting, the time of the last reply is taken from the present time modulo
/// 2^32; at 3000 or more EOT is sent and the link rests (44).
pub fn idle(phase: Phase, now: u32) -> Step {
    if let Phase::Waiting { time, .. } = phase {
        let elapsed = (i64::from(now) - i64::from(time)).rem_euclid(1 << 32);
        if elapsed >= 3000 {
            return ended(44);
        }
    }
    silent(phase)
}

#[cfg(test)]
mod tests {
    use super::*;

    #[test]
    fn a_phase_comes_back_from_its_bytes() {
        let block = Block {
            count: 9,
            kept: b"PB-08.00".to_vec(),
            bcc: 0x1A,
            mark: true,
        };
        for phase in [
            Phase::Rest,
            Phase::FirstDigit,
            Phase::SecondDigit,
            Phase::Addressed,
            Phase::OneCharacter { first: b'P' },
            Phase::TwoCharacters {
                first: b'P',
                second: b'B',
            },
            Phase::Waiting {
                item: 13,
                time: 0x0403_0201,
            },
            Phase::Text(block.clone()),
            Phase::BccDue(block),
            Phase::Answered,
        ] {
            assert_eq!(decode(&encode(&phase)), Some(phase));
        }
    }

    #[test]
    fn each_field_has_its_place() {
        let waiting = encode(&Phase::Waiting {
            item: 7,
            time: 0x0403_0201,
        });
        let mut expected = [0; 24];
        expected[0] = 6;
        expected[1] = 7;
        expected[8..12].copy_from_slice(&[1, 2, 3, 4]);
        assert_eq!(waiting, expected);

        let text = encode(&Phase::Text(Block {
            count: 2,
            kept: b"PB".to_vec(),
            bcc: 0x12,
            mark: true,
        }));
        let mut expected = [0; 24];
        expected[0] = 7;
        expected[2] = 2;
        expected[3] = 0x12;
        expected[4] = 1;
        expected[12] = b'P';
        expected[13] = b'B';
        assert_eq!(text, expected);
    }
}
