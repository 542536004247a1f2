//! Makes calls of the reference, as host/tests/driver.c makes those of the library: the same
//! requests on standard input, the same answers on standard output. So the reference, or a copy of
//! it with something wrong, can stand in the library's place.

use std::io::{self, Read, Write};

/// What the driver of the library has before and behind each lent array. Nothing here can write
/// there.
const GUARD: [u8; 8] = [0xC3; 8];

/// A function of the C face by its place in the driver's order, its arguments and the lent arrays.
struct Request {
    function: u8,
    address: u8,
    structure: u8,
    byte: u8,
    decimals: u8,
    now: u32,
    item: u32,
    frame: u32,
    value: i32,
    state: Vec<u8>,
    table: Vec<i32>,
    reply: Vec<u8>,
    input: Vec<u8>,
}

/// Takes bytes off the front.
fn take<'a>(from: &mut &'a [u8], length: usize) -> &'a [u8] {
    let (taken, rest) = from.split_at(length);
    *from = rest;
    taken
}

/// Takes four bytes, the low one first.
fn word(from: &mut &[u8]) -> u32 {
    let bytes = take(from, 4);
    u32::from_le_bytes([bytes[0], bytes[1], bytes[2], bytes[3]])
}

/// Takes the next request of a batch.
fn request(from: &mut &[u8]) -> Request {
    let head = take(from, 8);
    let (now, item, frame) = (word(from), word(from), word(from));
    let value = word(from) as i32;
    let lengths = [0; 4].map(|_| word(from) as usize);
    Request {
        function: head[0],
        address: head[1],
        structure: head[2],
        byte: head[3],
        decimals: head[4],
        now,
        item,
        frame,
        value,
        state: take(from, lengths[0]).to_vec(),
        table: entries(take(from, lengths[1])),
        reply: take(from, lengths[2]).to_vec(),
        input: take(from, lengths[3]).to_vec(),
    }
}

/// The table's entries, four bytes each.
fn entries(mut from: &[u8]) -> Vec<i32> {
    let length = from.len() / 4;
    (0..length).map(|_| word(&mut from) as i32).collect()
}

/// Makes a call. The lent arrays are left as the reference leaves them.
fn call(request: &mut Request) -> u32 {
    let Request {
        state,
        table,
        reply,
        input,
        ..
    } = request;
    match request.function {
        0 => reference::start_table(table),
        1 => reference::start_link(state),
        2 => reference::byte(
            state,
            table,
            reply,
            request.address,
            request.structure,
            request.now,
            request.byte,
        ),
        3 => reference::idle(state, reply, request.structure, request.now),
        4 => reference::rtu(table, reply, request.address, input),
        5 => reference::put(table, request.item, request.value),
        6 => reference::read_text(request.decimals, input, &mut table[0]),
        7 => reference::write_text(request.decimals, request.value, input),
        8 => reference::playback(table, request.address, input),
        9 => reference::show_in(table, input, request.frame),
        10 => reference::last_write_in(table, input, request.address, request.item),
        _ => reference::ascii(table, reply, request.address, input),
    }
}

/// Adds the answer to a request.
fn serve(mut request: Request, to: &mut Vec<u8>) {
    let result = call(&mut request);
    let entries = request.table.iter().flat_map(|entry| entry.to_le_bytes());
    to.extend(result.to_le_bytes());
    for array in [
        request.state,
        entries.collect(),
        request.reply,
        request.input,
    ] {
        to.extend(GUARD);
        to.extend(array);
        to.extend(GUARD);
    }
}

fn main() -> io::Result<()> {
    let mut length = [0; 4];
    while io::stdin().read_exact(&mut length).is_ok() {
        let mut batch = vec![0; u32::from_le_bytes(length) as usize];
        io::stdin().read_exact(&mut batch)?;
        let mut requests = &batch[..];
        let mut answers = vec![];
        while !requests.is_empty() {
            serve(request(&mut requests), &mut answers);
        }
        io::stdout().write_all(&answers)?;
        io::stdout().flush()?;
    }
    Ok(())
}
