//! The worked examples of XU, which gives the decimals of M1, S1, A1 and A2 on the RKC line.

use crate::{ask, ask_with, bench_with, selecting, Instrument};
use reference::line::{ENQ, EOT};

/// An instrument at address 1 into which the firmware has put XU.
fn with(xu: i32) -> Instrument {
    let mut instrument = Instrument::at(1);
    instrument.put("XU", xu);
    instrument
}

/// A block, with the entry of its item and that of XU behind it.
fn told(xu: i32, text: &str) {
    let mut instrument = with(xu);
    let (number, _) = instrument.line(&selecting(text));
    let entry = instrument.entry(&text[..2]);
    let xu_behind = instrument.entry("XU");
    println!(
        "told {}: \"{}\" -> {}: {} {}",
        xu, text, number, entry, xu_behind
    );
}

/// A poll of an item that the firmware has put, and the six characters that it sends.
fn polled(xu: i32, id: &str, value: i32) {
    let mut instrument = with(xu);
    instrument.put(id, value);
    let mut poll = vec![EOT, b'0', b'1'];
    poll.extend(id.as_bytes());
    poll.push(ENQ);
    let (_, reply) = instrument.line(&poll);
    let six = String::from_utf8_lossy(&reply[3..9]);
    println!("polled {}, {} {} -> \"{}\"", xu, id, value, six);
}

/// Numbers told to the items whose point XU moves: one text at each XU, both ends of the range at each,
/// and fractions.
fn told_by_xu() {
    for xu in 0..=3 {
        told(xu, "S112");
    }
    for (xu, texts) in [
        (0, ["S19999", "A110000", "A2-1999", "S1-2000"]),
        (1, ["A1999.9", "A21000", "S1-199.9", "A1-200"]),
        (2, ["A299.99", "S1100", "A1-19.99", "A2-20"]),
        (3, ["S19.999", "A110", "A2-1.999", "S1-2"]),
    ] {
        for text in texts {
            told(xu, text);
        }
    }
    for xu in 0..=3 {
        told(xu, "A1-.5678");
    }
}

/// Numbers told to XU itself, and to items whose point it does not move.
fn told_to_others() {
    told(1, "XU2");
    told(1, "XU3.9");
    told(3, "XU2.9");
    told(3, "XU4");
    told(2, "XU-.9");
    told(1, "XU-1");
    told(0, "XU");
    told(0, "PB-.5");
    told(3, "PB-.058");
    told(0, "PR1.2345");
    told(3, "F1100.9");
    told(0, "M112");
}

/// Polls of the items whose point XU moves, and of others.
fn polls() {
    for m1 in [1005, -1999, 9999] {
        for xu in 0..=3 {
            polled(xu, "M1", m1);
        }
    }
    polled(3, "S1", -5);
    polled(2, "A1", -150);
    polled(0, "A2", 500);
    polled(0, "PB", -5);
    polled(0, "PR", 1500);
    polled(3, "XU", 2);
}

/// Whole sessions: M1 polled around a block that sets XU, S1 likewise, the end of a poll run, and an
/// alarm state.
fn sessions() {
    bench_with(
        "M1",
        1005,
        "04 30 31 4D 31 05 04 30 31 02 58 55 32 03 3C 04 30 31 4D 31 05 58 55 05",
    );
    bench_with(
        "XU",
        0,
        "04 30 31 02 53 31 31 32 03 62 04 30 31 53 31 05 \
         04 30 31 02 58 55 33 03 3D 04 30 31 53 31 05",
    );
    bench_with("XU", 3, "04 30 31 54 4D 05 06 06");
    bench_with(
        "M1",
        500,
        "04 30 31 41 41 05 04 30 31 02 58 55 30 03 3E 04 30 31 41 41 05 41 31 05",
    );
}

/// Frames: the end of the map, XU's register, and registers that XU leaves alone.
fn frames() {
    ask(1, "01 03 00 00 00 14");
    ask_with(1, "XU", 3, "01 03 00 13 00 01");
    ask(1, "01 03 00 00 00 15");
    ask(1, "01 03 00 13 00 02");
    ask(1, "01 06 00 13 00 00");
    ask(1, "01 06 00 13 00 01");
    ask(1, "01 06 00 13 00 02");
    ask(1, "01 06 00 13 00 03");
    ask(1, "01 06 00 13 00 04");
    ask(1, "01 06 00 13 FF FF");
    ask(1, "01 10 00 10 00 04 08 FF 6A 03 E8 00 64 00 02");
    ask(1, "01 10 00 10 00 04 08 FF 6A 03 E8 00 64 00 04");
    ask_with(1, "XU", 0, "01 03 00 0B 00 04");
    ask_with(1, "XU", 3, "01 03 00 0B 00 04");
    ask_with(1, "XU", 3, "01 06 00 0B 27 0F");
}

pub fn all() {
    told_by_xu();
    told_to_others();
    polls();
    sessions();
    frames();
}
