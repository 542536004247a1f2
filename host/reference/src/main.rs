//! Prints the worked examples, one line each: the input, an arrow, the outcome. EXAMPLES.txt holds
//! the same lines with the values that the documents print, and says what each kind of line means.

mod alarm_examples;
mod point_examples;

use reference::{items, line, modbus};

/// An instrument at the start: start table, start state, structure 0, time 0, an empty buffer.
struct Instrument {
    address: u8,
    state: [u8; 24],
    table: [i32; 13],
    reply: [u8; 256],
}

impl Instrument {
    fn at(address: u8) -> Instrument {
        let mut instrument = Instrument {
            address,
            state: [0; 24],
            table: [0; 13],
            reply: [0; 256],
        };
        reference::start_table(&mut instrument.table);
        reference::start_link(&mut instrument.state);
        instrument
    }

    /// A value put by the firmware.
    fn put(&mut self, id: &str, value: i32) {
        let number = reference::put(&mut self.table, item_of(id) as u32, value);
        assert_eq!(number, 0, "{} takes {}", id, value);
    }

    /// What stands in an item's entry.
    fn entry(&self, id: &str) -> i32 {
        self.table[item_of(id) - 1]
    }

    /// The number and the reply of a call's result.
    fn taken_apart(&self, result: u32) -> (u32, Vec<u8>) {
        let length = (result / 256) as usize;
        (result % 256, self.reply[..length].to_vec())
    }

    /// Bytes on the RKC line: the last byte's number and all replies.
    fn line(&mut self, bytes: &[u8]) -> (u32, Vec<u8>) {
        let mut last = 0;
        let mut replies = vec![];
        for byte in bytes {
            let result = reference::byte(
                &mut self.state,
                &mut self.table,
                &mut self.reply,
                self.address,
                0,
                0,
                *byte,
            );
            let (number, reply) = self.taken_apart(result);
            last = number;
            replies.extend(reply);
        }
        (last, replies)
    }

    /// An RTU frame.
    fn rtu(&mut self, frame: &[u8]) -> (u32, Vec<u8>) {
        let result = reference::rtu(&mut self.table, &mut self.reply, self.address, frame);
        self.taken_apart(result)
    }

    /// A line of Modbus ASCII.
    fn ascii(&mut self, line: &[u8]) -> (u32, Vec<u8>) {
        let result = reference::ascii(&mut self.table, &mut self.reply, self.address, line);
        self.taken_apart(result)
    }
}

/// The number of an item that the list has.
fn item_of(id: &str) -> usize {
    items::with_id(id.as_bytes()).expect("an item of the list")
}

/// Bytes as pairs of hexadecimal digits.
fn hex(bytes: &[u8]) -> String {
    let pairs: Vec<String> = bytes.iter().map(|byte| format!("{:02X}", byte)).collect();
    pairs.join(" ")
}

/// The bytes of pairs of hexadecimal digits.
fn bytes(pairs: &str) -> Vec<u8> {
    pairs
        .split(' ')
        .map(|pair| u8::from_str_radix(pair, 16).expect("two hexadecimal digits"))
        .collect()
}

/// A text sent as a block to address 1: EOT, the address, STX, the text, ETX and the BCC.
fn selecting(text: &str) -> Vec<u8> {
    let mut block = text.as_bytes().to_vec();
    block.push(line::ETX);
    let check = line::bcc(&block);

    let mut sent = vec![line::EOT, b'0', b'1', line::STX];
    sent.extend(block);
    sent.push(check);
    sent
}

/// Number text sent to an item as a block.
fn read(id: &str, text: &str) {
    let mut instrument = Instrument::at(1);
    let (number, _) = instrument.line(&selecting(&format!("{}{}", id, text)));
    if number == 0 {
        println!("read {} \"{}\" -> {}", id, text, instrument.entry(id));
    } else {
        println!("read {} \"{}\" -> {}", id, text, number);
    }
}

/// A value written as number text.
fn write(decimals: u8, value: i32) {
    let mut chars = [0; 6];
    let number = reference::write_text(decimals, value, &mut chars);
    if number == 0 {
        let text = String::from_utf8_lossy(&chars);
        println!("write {} {} -> \"{}\"", decimals, value, text);
    } else {
        println!("write {} {} -> {}", decimals, value, number);
    }
}

/// A character in a line structure.
fn sent(structure: u8, character: u8) {
    let byte = line::sent(structure, character);
    println!("sent {} {:02X} -> {:02X}", structure, character, byte);
}

/// The BCC of characters, ETX included.
fn bcc(characters: &str) {
    println!(
        "bcc {} -> {:02X}",
        characters,
        line::bcc(&bytes(characters))
    );
}

/// The bench program's replies.
fn bench(input: &str) {
    let (_, replies) = Instrument::at(1).line(&bytes(input));
    println!("bench {} -> {}", input, hex(&replies));
}

/// The same, after the firmware has put an item.
fn bench_with(id: &str, value: i32, input: &str) {
    let mut instrument = Instrument::at(1);
    instrument.put(id, value);
    let (_, replies) = instrument.line(&bytes(input));
    println!("bench, {} {}: {} -> {}", id, value, input, hex(&replies));
}

/// A value as a register.
fn register(value: i32) {
    println!("register {} -> {:04X}", value, modbus::register_of(value));
}

/// The CRC as sent.
fn crc(body: &str) {
    println!("crc {} -> {}", body, hex(&modbus::crc(&bytes(body))));
}

/// A whole frame.
fn rtu(address: u8, frame: &str) {
    let (number, reply) = Instrument::at(address).rtu(&bytes(frame));
    println!(
        "rtu {:02X}: {} -> {}: {}",
        address,
        frame,
        number,
        hex(&reply)
    );
}

/// A frame without its CRC.
fn ask(address: u8, body: &str) {
    let frame = modbus::with_crc(bytes(body));
    let (number, reply) = Instrument::at(address).rtu(&frame);
    println!(
        "ask {:02X}: {} -> {}: {}",
        address,
        body,
        number,
        hex(&reply)
    );
}

/// A frame without its CRC, after the firmware has put an item.
fn ask_with(address: u8, id: &str, value: i32, body: &str) {
    let mut instrument = Instrument::at(address);
    instrument.put(id, value);
    let (number, reply) = instrument.rtu(&modbus::with_crc(bytes(body)));
    println!(
        "ask {:02X}, {} {}: {} -> {}: {}",
        address,
        id,
        value,
        body,
        number,
        hex(&reply)
    );
}

/// A request and its response without address and CRC.
fn pdu(request: &str) {
    let mut body = vec![1];
    body.extend(bytes(request));
    let (number, reply) = Instrument::at(1).rtu(&modbus::with_crc(body));
    let response = &reply[1..reply.len() - 2];
    println!("pdu {} -> {}: {}", request, number, hex(response));
}

/// A capture played back.
fn playback(address: u8, capture: &str) {
    let mut table = [0; 13];
    let number = reference::playback(&mut table, address, &bytes(capture));
    if number == 0 {
        let entries = table.map(|entry| entry.to_string()).join(" ");
        println!("playback {:02X}: {} -> 0: {}", address, capture, entries);
    } else {
        println!("playback {:02X}: {} -> {}", address, capture, number);
    }
}

/// A frame of a capture shown.
fn show(frame: u32, capture: &str) {
    let (mut place, mut length) = (0, 0);
    let captured = bytes(capture);
    let number = reference::show(&captured, frame, &mut place, &mut length);
    if number == 0 {
        let part = &captured[place as usize..][..length as usize];
        println!("show {}: {} -> 0: {}", frame, capture, hex(part));
    } else {
        println!("show {}: {} -> {}", frame, capture, number);
    }
}

/// The last write to an item in a capture.
fn last(address: u8, item: u32, capture: &str) {
    let (mut value, mut records) = (0, 0);
    let captured = bytes(capture);
    let result = reference::last_write(&captured, address, item, &mut value, &mut records);
    let outcome = match result {
        0 => format!("0: never written, records {}", records),
        256 => format!("0: {}, records {}", value, records),
        number => number.to_string(),
    };
    println!(
        "last {:02X}, item {}: {} -> {}",
        address, item, capture, outcome
    );
}

/// The LRC of bytes.
fn lrc(body: &str) {
    println!(
        "lrc {} -> {:02X}",
        body,
        reference::ascii::lrc(&bytes(body))
    );
}

/// The outcome of a line whose characters are given without CR and LF, as those of the reply are.
fn outcome(mut instrument: Instrument, line: &str) -> String {
    let mut sent = line.as_bytes().to_vec();
    sent.extend(b"\r\n");
    let (number, reply) = instrument.ascii(&sent);
    if reply.is_empty() {
        return number.to_string();
    }
    let shown = reply.strip_suffix(b"\r\n").expect("CR and LF at the end");
    format!("{}: \"{}\"", number, String::from_utf8_lossy(shown))
}

/// A line of Modbus ASCII.
fn ascii(address: u8, line: &str) {
    let outcome = outcome(Instrument::at(address), line);
    println!("ascii {:02X}: \"{}\" -> {}", address, line, outcome);
}

/// The same, after the firmware has put an item.
fn ascii_with(address: u8, id: &str, value: i32, line: &str) {
    let mut instrument = Instrument::at(address);
    instrument.put(id, value);
    let outcome = outcome(instrument, line);
    println!(
        "ascii {:02X}, {} {}: \"{}\" -> {}",
        address, id, value, line, outcome
    );
}

/// A line of Modbus ASCII with all its bytes.
fn ascii_bytes(address: u8, line: &str) {
    let (number, reply) = Instrument::at(address).ascii(&bytes(line));
    if reply.is_empty() {
        println!("line {:02X}: {} -> {}", address, line, number);
    } else {
        let reply = hex(&reply);
        println!("line {:02X}: {} -> {}: {}", address, line, number, reply);
    }
}

/// Document 01.
fn specification() {
    read("PB", "-.5");
    read("PB", "-5");
    read("PB", "-.058");
    read("PB", "-0");
    read("PB", ".05");
    read("PB", "10.009");
    read("PB", "-10.01");
    read("PB", "+0");
    read("PB", "-.");
    read("PB", "");
    read("PB", "-01.500");
    read("F1", "-.9");
    read("F1", "100.9");
    read("F1", "101");
    read("PR", ".4999");
    read("PR", ".5");
    write(2, -5);
    write(1, 0);
    write(1, -9999);
    write(1, -10000);
    write(1, 99999);
    write(1, 100000);
    sent(1, 0x43);
    sent(2, 0x43);
    register(-150);
    crc("01 08 00 00 1F 34");
    rtu(1, "01 08 00 00 1F 34 E9 EC");
    crc("02 03 00 E0 00 04");
    crc("01 06 00 F4 00 32");
    crc("01 86 02");
    crc("02 83 03");
    bench("04 30 31 02 50 42 2D 38 03 04 04 30 31 50 42 05");
    bcc("50 42 2D 38 03");
    bcc("50 42 2D 30 38 2E 30 30 03");
}

/// Document 000.
fn sa100l() {
    bcc("4D 31 30 30 30 35 30 30 03");
    read("PB", "-001.5");
    read("PB", "-01.5");
    read("PB", "-1.5");
    read("PB", "-1.50");
    read("PB", "-1.500");
    read("F1", "0.5");
    read("F1", "100.5");
    read("PB", "+");
    read("PB", "-");
    read("PB", ".");
    crc("02 03 00 00 00 03");
    crc("02 03 06 00 00 00 00 00 63");
    crc("01 06 00 10 01 02");
    rtu(1, "01 06 00 10 01 02 08 5E");
    crc("01 88 03");
    ask(1, "01 08 00 01 1F 34");
    register(-1);
    register(555);
    register(50);
    register(-200);
}

/// Document 002.
fn cb100l() {
    read("PB", ".03");
}

/// Document 003.
fn rex_f9000() {
    bcc("4D 31 30 32 33 2E 30 30 30 03");
}

/// Document 004, and the host program of document 02 that takes it at its word.
fn pg500() {
    bcc("4D 31 30 31 30 30 2E 30 03");
    bench_with("M1", 1000, "04 30 31 4D 31 05");
    bench_with("M1", 1000, "04 30 31 4D 31 05 4D 31 05");
    bench("04 30 31 4D 31 05 53 31 05");
    crc("02 03 08 00 19 00 00 00 00 00 00");
    ask_with(2, "M1", 25, "02 03 00 00 00 04");
    ask(2, "02 03 00 00 00 7E");
    rtu(1, "01 06 00 F4 00 32 49 ED");
    crc("01 10 00 F4 00 02");
    rtu(1, "01 10 00 F4 00 02 04 00 32 00 32 DD 02");
    register(1050);
}

/// Modbus over Serial Line, the Modbus Application Protocol, and what document 02 takes from it.
fn modbus_documents() {
    crc("02 07");
    pdu("08 00 00 A5 37");
    pdu("01 00 13 00 13");
    pdu("02 00 C4 00 16");
    pdu("04 00 08 00 01");
    pdu("05 00 AC FF 00");
    pdu("07");
    pdu("0F 00 13 00 0A 02 CD 01");
    pdu("16 00 04 00 F2 00 25");
    pdu("03 00 6B 00 03");
    pdu("06 00 01 00 03");
    pdu("10 00 01 00 02 04 00 0A 01 02");
    pdu("10 00 10 00 03 06 FF 6A 03 E8 00 64");
}

/// A capture of three frames, and one of a single frame whose trailer counts two.
const THREE: &str = "01 06 00 10 01 02 08 5E 00 08 01 06 00 10 FF 6A 49 D0 00 08 \
                     01 06 00 F4 00 32 49 ED 00 08 00 03 00 00 00 14";
const MISCOUNTED: &str = "01 06 00 10 01 02 08 5E 00 08 00 02 00 00 00 00";

/// Document 02's captures played back and shown.
fn captures() {
    playback(1, "00 00 00 00 00 00");
    playback(1, THREE);
    show(2, THREE);
    show(4, THREE);
    playback(1, MISCOUNTED);
    for alarms in [
        "01 06 00 0C 00 00 49 C9 00 08 00 01 00 00 00 00",
        "01 06 00 0C 00 00 49 C9 00 08 01 06 00 0C 00 01 88 09 00 08 00 02 00 00 00 0A",
        "01 10 00 0E 00 01 02 FF FF A6 CE 00 0B 01 06 00 0E 27 10 F2 35 00 08 00 02 00 00 00 0D",
    ] {
        playback(1, alarms);
    }
}

/// Document 02's last write to an item: in the capture of three frames, in the same with a first
/// record of no length, and where the count is wrong.
fn last_writes() {
    let damaged = "01 06 00 10 01 02 08 5E 00 00 01 06 00 10 FF 6A 49 D0 00 08 \
                   01 06 00 F4 00 32 49 ED 00 08 00 03 00 00 00 14";
    for capture in [THREE, damaged, MISCOUNTED] {
        last(1, 9, capture);
        last(1, 11, capture);
    }
}

/// Document 001, Modbus over Serial Line, and the messages of the RTU examples as lines.
fn ascii_lines() {
    lrc("01 83 03");
    ascii(1, ":01030000007E7E");
    lrc("53");
    lrc("FF 54");
    ascii_bytes(1, "3A 30 31 30 38 30 30 30 30 30 30 35 42 39 43 0D 0A");
    lrc("06 03 06 02 2B 00 00 00 63");
    lrc("01 08 00 00 96 00");
    ascii_bytes(1, "3A 30 31 30 38 30 30 30 30 39 36 30 30 36 31 0D 0A");
    lrc("01 08 00 00 1F 34");
    ascii(1, ":010800001F34A4");
    ascii(1, ":010800011F34A3");
    ascii(1, ":010600100102E6");
    ascii(1, ":010600F40032D3");
    ascii_with(2, "M1", 25, ":020300000004F7");
    ascii(2, ":02030000007E7D");
    ascii(1, ":01100010000306FF6A03E800641E");
    ascii(1, ":011000F40002040032003291");
    ascii(1, ":010100130013D8");
}

/// Document 02's edges of a line.
fn ascii_edges() {
    ascii(1, ":0107F8");
    ascii(1, ":0108F7");
    ascii(1, ":01FF");
    ascii(1, ":010800001F34A");
    ascii(1, ":010800001F34A5");
    ascii(1, ":010800001F345C");
    ascii(1, ":020800001F34A3");
    ascii(1, ":000800001F34A5");
    ascii(1, ":0108:010800001F34A4");
    ascii(1, "no line:010800001F34A4");
    ascii(1, ":010800001F34A4:0108");
    ascii(1, ":010800001F34A4:0108F8");
    ascii(1, "010800001F34A4");
    ascii(1, ":010800001f34a4");
    ascii(1, ":01 08 00 00 1F 34 A4");
    ascii_bytes(1, "3A 30 31 30 37 46 38 0D 0A");
    ascii_bytes(1, "3A 30 31 30 37 46 38 0D");
    ascii_bytes(1, "3A 30 31 30 37 46 38 0A");
    ascii_bytes(1, "3A 30 31 30 37 46 38 0A 0D");
    ascii_bytes(1, "3A 30 31 30 37 46 38 0D 0A 0A");
    ascii_bytes(1, "BA 30 31 30 37 46 38 0D 0A");
    ascii_bytes(1, "3A 30 B1 30 37 46 38 0D 0A");
}

fn main() {
    specification();
    sa100l();
    cb100l();
    rex_f9000();
    pg500();
    modbus_documents();
    captures();
    last_writes();
    ascii_lines();
    ascii_edges();
    alarm_examples::all();
    point_examples::all();
}
