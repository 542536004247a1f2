//! The worked examples of alarm states in the table. Each begins with M1, A1 and A2.

use crate::{bytes, selecting, Instrument};
use reference::modbus;

/// M1, A1 and A2.
type Levels = [i32; 3];

/// An instrument at address 1 into which the firmware has put M1, A1 and A2.
fn with([m1, a1, a2]: Levels) -> Instrument {
    let mut instrument = Instrument::at(1);
    instrument.put("M1", m1);
    instrument.put("A1", a1);
    instrument.put("A2", a2);
    instrument
}

/// Prints a line: what was done to an instrument with these, the number that it gave, and entries 2
/// and 3 behind it.
fn line(form: &str, [m1, a1, a2]: Levels, done: &str, number: u32, table: &[i32; 13]) {
    let [_, aa, ab, ..] = table;
    println!(
        "{} {} {} {}: {} -> {}: {} {}",
        form, m1, a1, a2, done, number, aa, ab
    );
}

/// A value put by the firmware.
fn put(levels: Levels, item: u32, value: i32) {
    let mut table = with(levels).table;
    let number = reference::put(&mut table, item, value);
    let done = format!("{} {}", item, value);
    line("put", levels, &done, number, &table);
}

/// A block.
fn block(levels: Levels, text: &str) {
    let mut instrument = with(levels);
    let (number, _) = instrument.line(&selecting(text));
    let done = format!("\"{}\"", text);
    line("block", levels, &done, number, &instrument.table);
}

/// A frame without its CRC.
fn frame(levels: Levels, body: &str) {
    let mut instrument = with(levels);
    let (number, _) = instrument.rtu(&modbus::with_crc(bytes(body)));
    line("frame", levels, body, number, &instrument.table);
}

/// A table in which M1, A1, A2, AA and AB are stored as they are, and into which the firmware puts F1.
fn table([m1, a1, a2, aa, ab]: [i32; 5]) {
    let mut table = Instrument::at(1).table;
    table[..3].copy_from_slice(&[m1, aa, ab]);
    table[6..8].copy_from_slice(&[a1, a2]);
    let number = reference::put(&mut table, 11, 0);
    println!("table {} {} {} {} {} -> {}", m1, a1, a2, aa, ab, number);
}

/// Values put by the firmware: M1, the levels, and what there is not to put.
fn puts() {
    put([0, 500, 500], 1, 499);
    put([0, 500, 500], 1, 500);
    put([500, 500, 500], 1, 499);
    put([0, 500, 501], 1, 500);
    put([0, -1999, 9999], 1, -1999);
    put([0, -1999, 9999], 1, 9999);
    put([0, 500, 500], 7, 1);
    put([0, 500, 500], 7, 0);
    put([0, 0, 0], 7, 1);
    put([-150, 500, -149], 8, -150);
    put([-150, 500, -150], 8, -149);
    put([500, 500, 500], 7, 10_000);
    put([0, 500, 500], 2, 0);
    put([0, 500, 500], 2, 1);
    put([500, 500, 501], 3, 0);
    put([500, 500, 501], 3, 1);
    put([0, 500, 500], 0, 0);
    put([0, 500, 500], 14, 0);
}

/// Blocks for the levels, and for AA and AB.
fn blocks() {
    block([0, 500, 500], "A1.1");
    block([0, 500, 500], "A10");
    block([0, 0, 0], "A1.1");
    block([0, 500, 500], "A2.09");
    block([-1, 500, 500], "A2-.1");
    block([-1, 500, -1], "A20");
    block([500, 500, 500], "A21000");
    block([0, 500, 500], "AA1");
    block([500, 500, 500], "AB1");
    block([0, 500, 500], "AB");
}

/// Frames that write levels, one alone and with others, or 0001H and 0002H, and one that reads.
fn frames() {
    frame([0, 500, 500], "01 06 00 0C 00 01");
    frame([0, 500, 500], "01 06 00 0C 00 00");
    frame([-1, 500, -1], "01 06 00 0E 00 00");
    frame([-1, 500, 500], "01 06 00 0E FF FF");
    frame([0, 500, 500], "01 10 00 0B 00 02 04 27 0F 00 00");
    frame([0, 0, 0], "01 10 00 0C 00 01 02 00 01");
    frame([0, 500, 500], "01 10 00 0B 00 02 04 27 10 00 00");
    frame([0, 500, 500], "01 10 00 0C 00 03 06 00 00 00 00 00 00");
    frame([0, 500, 500], "01 06 00 01 00 01");
    frame([500, 500, 500], "01 10 00 01 00 02 04 00 01 00 01");
    frame([500, 500, 501], "01 03 00 00 00 03");
}

/// Tables that agree, and tables that do not.
fn tables() {
    table([500, 500, 500, 1, 1]);
    table([500, 500, 500, 0, 1]);
    table([500, 500, 500, 1, 0]);
    table([500, 500, 500, 0, 0]);
    table([499, 500, 500, 0, 0]);
    table([499, 500, 500, 1, 0]);
    table([499, 500, 500, 0, 1]);
    table([499, 500, 500, 1, 1]);
    table([500, 500, 501, 1, 0]);
    table([500, 500, 501, 0, 1]);
    table([500, 500, 500, 2, 1]);
    table([499, 500, 500, 0, -1]);
}

pub fn all() {
    puts();
    blocks();
    frames();
    tables();
}
