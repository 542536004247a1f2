//! The instrument link, written a second time from the specification alone.
//!
//! Nothing here is fast or small. Each rule is a plain function in the words of the specification,
//! so that another implementation can be compared with it call by call and byte for byte. The
//! functions below take the same raw data as the C face and give back the same result:
//! `number + 256 * reply length`.
//!
//! Numbers that a call can meet are tried in their order. Numbers 1 to 9 leave the state, the
//! table and the reply buffer as they came; bytes of the buffer past a reply stay.

pub mod ascii;
pub mod capture;
pub mod items;
pub mod last_write;
pub mod line;
pub mod link;
pub mod modbus;
pub mod number;

/// A result with its reply put at the front of the buffer.
fn replied(buffer: &mut [u8], number: u32, reply: &[u8]) -> u32 {
    buffer[..reply.len()].copy_from_slice(reply);
    number + 256 * reply.len() as u32
}

/// What a link step leaves: the state's bytes, and the reply sent in the line's structure.
fn stepped(state: &mut [u8], buffer: &mut [u8], structure: u8, step: link::Step) -> u32 {
    state.copy_from_slice(&link::encode(&step.phase));
    let mut sent = vec![];
    for character in step.reply {
        sent.push(line::sent(structure, character));
    }
    replied(buffer, step.number, &sent)
}

/// Sets each entry to its start value: 0, or 1 where the table is not 13 long.
pub fn start_table(table: &mut [i32]) -> u32 {
    if table.len() != 13 {
        return 1;
    }
    for number in 1..=13 {
        table[number - 1] = items::item(number).start;
    }
    0
}

/// Sets the start state, rest with all else 0: 0, or 5 where the state is not 24 bytes long.
pub fn start_link(state: &mut [u8]) -> u32 {
    if state.len() != link::STATE_LENGTH {
        return 5;
    }
    state.copy_from_slice(&link::encode(&link::Phase::Rest));
    0
}

/// One received RKC byte. Numbers 1 to 5 are tried at every byte, also one that would be ignored.
pub fn byte(
    state: &mut [u8],
    table: &mut [i32],
    reply: &mut [u8],
    address: u8,
    structure: u8,
    now: u32,
    byte: u8,
) -> u32 {
    let fault = items::table_fault(table);
    if fault != 0 {
        return fault;
    }
    if reply.len() < 256 {
        return 3;
    }
    if address > 99 || structure > 2 {
        return 4;
    }
    let phase = match link::decode(state) {
        Some(phase) => phase,
        None => return 5,
    };
    let received = line::received(structure, byte);
    let step = link::byte(phase, table, link::Call { address, now }, received);
    stepped(state, reply, structure, step)
}

/// An idle call of the RKC link. It looks at 3, 4 (structure alone) and 5.
pub fn idle(state: &mut [u8], reply: &mut [u8], structure: u8, now: u32) -> u32 {
    if reply.len() < 256 {
        return 3;
    }
    if structure > 2 {
        return 4;
    }
    let phase = match link::decode(state) {
        Some(phase) => phase,
        None => return 5,
    };
    stepped(state, reply, structure, link::idle(phase, now))
}

/// What is wrong with a call of either Modbus line: 1 to 4, or 0. Modbus has no structure and no link
/// state, and its address is not 0.
fn modbus_fault(table: &[i32], reply: &[u8], address: u8) -> u32 {
    let fault = items::table_fault(table);
    if fault != 0 {
        return fault;
    }
    if reply.len() < 256 {
        return 3;
    }
    if address == 0 || address > 99 {
        return 4;
    }
    0
}

/// One Modbus RTU frame.
pub fn rtu(table: &mut [i32], reply: &mut [u8], address: u8, frame: &[u8]) -> u32 {
    let fault = modbus_fault(table, reply, address);
    if fault != 0 {
        return fault;
    }
    let (number, answer) = modbus::answer(table, address, frame);
    replied(reply, number, &answer)
}

/// One Modbus ASCII line, with whatever came before it.
pub fn ascii(table: &mut [i32], reply: &mut [u8], address: u8, line: &[u8]) -> u32 {
    let fault = modbus_fault(table, reply, address);
    if fault != 0 {
        return fault;
    }
    let (number, answer) = ascii::answer(table, address, line);
    replied(reply, number, &answer)
}

/// A value put by the firmware, which may set any item within low and high but AA and AB: these two
/// change only to stay true. It looks at 1, 2, 6 and 7.
pub fn put(table: &mut [i32], item: u32, value: i32) -> u32 {
    let fault = items::table_fault(table);
    if fault != 0 {
        return fault;
    }
    if !(1..=13).contains(&item) {
        return 6;
    }
    let item = item as usize;
    if item == 2 || item == 3 {
        return 7;
    }
    if !items::in_range(item, value) {
        return 7;
    }
    items::store(table, item, value);
    0
}

/// Reads number text: 9, 15, 16 or 0. A refused reading gives value 0.
pub fn read_text(decimals: u8, chars: &[u8], value: &mut i32) -> u32 {
    match number::read(decimals, chars) {
        Ok(read) => {
            *value = read;
            0
        }
        Err(number) => {
            *value = 0;
            number
        }
    }
}

/// Writes number text into the first six bytes: 9, 8 or 0. A refused writing gives six zero bytes.
/// Where there is no room for six bytes it is 3, before all else, and nothing is written.
pub fn write_text(decimals: u8, value: i32, chars: &mut [u8]) -> u32 {
    if chars.len() < 6 {
        return 3;
    }
    match number::write(decimals, value) {
        Ok(six) => {
            chars[..6].copy_from_slice(&six);
            0
        }
        Err(number) => {
            chars[..6].fill(0);
            number
        }
    }
}

/// Plays a capture back: the table becomes what an instrument at this address ends with that begins
/// at the start table and is handed the frames one at a time. 1, 4, 51, or 0 whatever the frames
/// gave. The lent table is only where the result goes, so there is no 2; a refusal leaves it.
pub fn playback(table: &mut [i32], address: u8, capture: &[u8]) -> u32 {
    if table.len() != 13 {
        return 1;
    }
    if address == 0 || address > 99 {
        return 4;
    }
    let frames = match capture::frames(capture) {
        Some(frames) => frames,
        None => return 51,
    };
    start_table(table);
    for frame in frames {
        modbus::answer(table, address, &capture[frame]);
    }
    0
}

/// Shows a frame of a capture by its place and length there: 51, 52 or 0. A refused showing gives
/// place 0 and length 0.
pub fn show(capture: &[u8], frame: u32, place: &mut u32, length: &mut u32) -> u32 {
    match capture::shown(capture, frame) {
        Ok(part) => {
            *place = part.start as u32;
            *length = part.len() as u32;
            0
        }
        Err(number) => {
            *place = 0;
            *length = 0;
            number
        }
    }
}

/// The same with place and length in the first two entries of a table, as a driver of the tests lends
/// them.
pub fn show_in(table: &mut [i32], capture: &[u8], frame: u32) -> u32 {
    let [mut place, mut length] = [table[0] as u32, table[1] as u32];
    let number = show(capture, frame, &mut place, &mut length);
    table[0] = place as i32;
    table[1] = length as i32;
    number
}

/// The last value that a host wrote to an item of an instrument at this address, and the number of
/// records that were read to find it, the answering one included: 4, 6, 51 or 0, with 256 added where
/// a write was found. A refusal gives value 0 and 0 records, an item that was never written value 0
/// and the number of all records.
pub fn last_write(
    capture: &[u8],
    address: u8,
    item: u32,
    value: &mut i32,
    records: &mut u32,
) -> u32 {
    *value = 0;
    *records = 0;
    if address == 0 || address > 99 {
        return 4;
    }
    if !(1..=13).contains(&item) {
        return 6;
    }
    let told = match last_write::told(capture, address, item as usize) {
        Some(told) => told,
        None => return 51,
    };
    *records = told.records as u32;
    match told.value {
        Some(written) => {
            *value = written;
            256
        }
        None => 0,
    }
}

/// The same with value and records in the first two entries of a table.
pub fn last_write_in(table: &mut [i32], capture: &[u8], address: u8, item: u32) -> u32 {
    let mut records = table[1] as u32;
    let result = last_write(capture, address, item, &mut table[0], &mut records);
    table[1] = records as i32;
    result
}
