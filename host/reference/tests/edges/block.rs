//! Blocks: what is kept, counted and checked, and numbers 11 to 18.

use crate::*;

/// EOT, address, STX, the text, ETX: all of a block but its BCC.
fn up_to_bcc(text: &[u8]) -> Vec<u8> {
    let mut bytes = vec![EOT, b'0', b'1', STX];
    bytes.extend(text);
    bytes.push(ETX);
    bytes
}

/// The BCC of a text, its ETX taken in.
fn bcc(text: &[u8]) -> u8 {
    text.iter().fold(ETX, |sum, byte| sum ^ (byte & 0x7F))
}

/// A whole block with its right BCC.
pub fn block(text: &[u8]) -> Vec<u8> {
    let mut bytes = up_to_bcc(text);
    bytes.push(bcc(text));
    bytes
}

/// A block that is answered NAK with this number and changes nothing in the table.
fn nak(text: &[u8], number: u32) {
    let mut link = Link::start();
    assert_eq!(link.bytes(&block(text)), (number, vec![NAK]), "{:?}", text);
    assert_eq!(link.state, bare(ANSWERED));
    assert_eq!(link.table, START);
}

/// A block that is answered ACK and stores this value in the item, with alarm states that stay true.
fn ack(text: &[u8], item: usize, value: i32) {
    let mut link = Link::start();
    assert_eq!(link.bytes(&block(text)), (0, vec![ACK]), "{:?}", text);
    assert_eq!(link.state, bare(ANSWERED));
    let mut expected = START;
    expected[item - 1] = value;
    assert_eq!(link.table, agreeing(expected));
}

#[test]
fn both_ends_of_each_items_range() {
    ack(b"S1-199.9", 6, -1999);
    ack(b"S1999.9", 6, 9999);
    nak(b"S1-200", 18);
    nak(b"S11000", 18);
    ack(b"A1-199.9", 7, -1999);
    ack(b"A1999.99", 7, 9999);
    nak(b"A1-200.0", 18);
    nak(b"A11000.0", 18);
    ack(b"A2-199.9", 8, -1999);
    ack(b"A2999.9", 8, 9999);
    nak(b"A2-200.0", 18);
    nak(b"A21000.0", 18);
    ack(b"PB-10", 9, -1000);
    ack(b"PB10", 9, 1000);
    nak(b"PB-10.01", 18);
    nak(b"PB10.01", 18);
    ack(b"PR.5", 10, 500);
    ack(b"PR1.5009", 10, 1500);
    nak(b"PR.4999", 18);
    nak(b"PR1.501", 18);
    ack(b"F1-.9999", 11, 0);
    ack(b"F1100", 11, 100);
    nak(b"F1-1", 18);
    nak(b"F1101", 18);
    ack(b"TM0", 12, 0);
    ack(b"TM999.99", 12, 999);
    nak(b"TM-1", 18);
    nak(b"TM1000", 18);
    ack(b"XU-.9999", 13, 0);
    ack(b"XU3.9999", 13, 3);
    nak(b"XU-1", 18);
    nak(b"XU4", 18);
}

#[test]
fn the_largest_numbers_are_out_of_range_and_nothing_else() {
    nak(b"PR999999", 18);
    nak(b"PR-99999", 18);
    nak(b"TM999999", 18);
}

#[test]
fn number_11_comes_from_the_text_or_the_bccs_place() {
    // A damaged character in the text, its low seven bits taken into the BCC.
    nak(b"PB\xB1", 11);
    // Low seven bits of ETX or EOT are text too.
    nak(b"PB1\x83", 11);
    nak(b"PB1\x84", 11);
    // In the BCC's place, also where the low seven bits are right.
    let mut link = Link::start();
    let mut bytes = block(b"PB1");
    *bytes.last_mut().unwrap() |= 0x80;
    assert_eq!(link.bytes(&bytes), (11, vec![NAK]));
    assert_eq!(link.state, bare(ANSWERED));
    assert_eq!(link.table, START);
}

#[test]
fn a_mark_comes_before_a_wrong_bcc() {
    let mut link = Link::start();
    let mut bytes = block(b"PB\xB1");
    *bytes.last_mut().unwrap() ^= 0x01;
    assert_eq!(link.bytes(&bytes), (11, vec![NAK]));
}

#[test]
fn every_other_bcc_is_12() {
    for check in 0..=0x7F {
        let mut link = Link::start();
        let mut bytes = up_to_bcc(b"PB1");
        bytes.push(check);
        if check == bcc(b"PB1") {
            assert_eq!(link.bytes(&bytes), (0, vec![ACK]));
        } else {
            assert_eq!(link.bytes(&bytes), (12, vec![NAK]));
            assert_eq!(link.table, START);
        }
        assert_eq!(link.state, bare(ANSWERED));
    }
}

#[test]
fn a_bcc_that_looks_like_eot_is_a_bcc() {
    // PB "-8": 50^42^2D^38^03 = 04.
    assert_eq!(bcc(b"PB-8"), EOT);
    ack(b"PB-8", 9, -800);
}

#[test]
fn a_bcc_that_looks_like_any_control_character_is_a_bcc() {
    for (text, control, value) in [
        (&b"PB0.85"[..], STX, 85),
        (b"PB0.84", ETX, 84),
        (b"PB0.83", EOT, 83),
        (b"PB0.82", ENQ, 82),
        (b"PB0.81", ACK, 81),
        (b"PB04", NAK, 400),
    ] {
        assert_eq!(bcc(text), control);
        ack(text, 9, value);
    }
}

#[test]
fn under_two_characters_is_13() {
    nak(b"", 13);
    nak(b"P", 13);
    nak(b"XX", 14);
}

#[test]
fn unknown_identifiers_are_14_before_the_length() {
    nak(b"XX0000000", 14);
    nak(b"pb1", 14);
    nak(b"BP1", 14);
    nak(b"\x00\x011", 14);
}

#[test]
fn over_six_data_characters_is_15_before_their_sense() {
    nak(b"PB0000000", 15);
    nak(b"PBxxxxxxx", 15);
    nak(b"M1xxxxxxx", 15);
    ack(b"PB000000", 9, 0);
    // Far over: the count has stopped at 9 and the BCC goes on.
    nak(&[&b"PB"[..], &[b'7'; 1000]].concat(), 15);
}

#[test]
fn no_number_is_16_before_read_only() {
    nak(b"PB", 16);
    nak(b"PB+1", 16);
    nak(b"PB1 ", 16);
    nak(b"M1", 16);
    nak(b"M1x", 16);
}

#[test]
fn read_only_is_17_whatever_the_size() {
    for id in [b"M1", b"AA", b"AB", b"B1", b"ER"] {
        nak(&[id[0], id[1], b'0'], 17);
        nak(&[id[0], id[1], b'9', b'9', b'9', b'9', b'9', b'9'], 17);
    }
}

#[test]
fn what_a_block_keeps_step_by_step() {
    let mut link = Link::start();
    assert_eq!(link.bytes(&[EOT, b'0', b'1', STX]), (0, vec![]));
    assert_eq!(link.state, in_block(TEXT, 0, 0, 0, b""));
    let text = b"PB-01.500";
    let mut sum = 0;
    for place in 0..9 {
        assert_eq!(link.byte(text[place]), (0, vec![]));
        sum ^= text[place];
        let kept = &text[..(place + 1).min(8)];
        assert_eq!(link.state, in_block(TEXT, place as u8 + 1, sum, 0, kept));
    }
    // A tenth is not kept and not counted, but is in the BCC.
    assert_eq!(link.byte(b'7'), (0, vec![]));
    sum ^= b'7';
    assert_eq!(link.state, in_block(TEXT, 9, sum, 0, &text[..8]));
    // A line error there marks the block.
    assert_eq!(link.byte(0x83), (0, vec![]));
    sum ^= 0x03;
    assert_eq!(link.state, in_block(TEXT, 9, sum, 1, &text[..8]));
    // ETX is taken into the BCC and not counted.
    assert_eq!(link.byte(ETX), (0, vec![]));
    sum ^= ETX;
    assert_eq!(link.state, in_block(BCC_DUE, 9, sum, 1, &text[..8]));
    assert_eq!(link.byte(sum), (11, vec![NAK]));
    assert_eq!(link.state, bare(ANSWERED));
}

#[test]
fn all_bytes_but_etx_and_eot_are_text() {
    for byte in 0..=0x7F {
        let mut link = Link::from(in_block(TEXT, 1, b'P', 0, b"P"));
        assert_eq!(link.byte(byte), (0, vec![]));
        let expected = match byte {
            ETX => in_block(BCC_DUE, 1, b'P' ^ ETX, 0, b"P"),
            EOT => bare(FIRST_DIGIT),
            _ => in_block(TEXT, 2, b'P' ^ byte, 0, &[b'P', byte]),
        };
        assert_eq!(link.state, expected);
    }
}

#[test]
fn eot_in_the_text_drops_the_block() {
    let mut link = Link::start();
    assert_eq!(link.bytes(b"\x0401\x02PB1\x0401PB\x05").0, 0);
    assert_eq!(link.state[0], WAITING);
    assert_eq!(link.table, START);
}

#[test]
fn after_the_answer_stx_opens_another_block() {
    for byte in 0..=255 {
        let mut link = Link::from(bare(ANSWERED));
        assert_eq!(link.byte(byte), (0, vec![]));
        let expected = match byte {
            STX => bare(TEXT),
            EOT => bare(FIRST_DIGIT),
            _ => bare(REST),
        };
        assert_eq!(link.state, expected);
    }
}

#[test]
fn blocks_follow_each_other_after_ack_and_after_nak() {
    let mut link = Link::start();
    assert_eq!(link.bytes(&block(b"PB1")), (0, vec![ACK]));
    assert_eq!(link.bytes(&block(b"PB11")[3..]), (18, vec![NAK]));
    assert_eq!(link.bytes(&block(b"PB2")[3..]), (0, vec![ACK]));
    assert_eq!(link.table[8], 200);
}

#[test]
fn a_block_that_was_lent_marked_is_11() {
    for mark in [1, 2, 0x80, 0xFF] {
        let mut link = Link::from(in_block(BCC_DUE, 3, 0x20, mark, b"PB1"));
        assert_eq!(link.byte(0x20), (11, vec![NAK]));
        assert_eq!(link.state, bare(ANSWERED));
    }
    let mut link = Link::from(in_block(BCC_DUE, 3, 0x20, 0, b"PB1"));
    assert_eq!(link.byte(0x20), (0, vec![ACK]));
    assert_eq!(link.table[8], 100);
}

#[test]
fn a_lent_count_and_its_characters_decide_and_not_what_stands_past_them() {
    // Count 2 leaves the 9s out: an empty number.
    let mut link = Link::from(in_block(BCC_DUE, 2, 0x11, 0, b"PB999999"));
    assert_eq!(link.byte(0x11), (16, vec![NAK]));
    // The lent BCC need not be that of the kept characters.
    let mut link = Link::from(in_block(BCC_DUE, 3, 0x00, 0, b"PB5"));
    assert_eq!(link.byte(0x00), (0, vec![ACK]));
    assert_eq!(link.table[8], 500);
}

#[test]
fn answers_are_sent_in_the_structure() {
    // Even: STX 82, NAK 95, ETX 03; odd: STX 02, ACK 86, ETX 83.
    let mut link = Link::from(bare(ADDRESSED));
    link.structure = 1;
    assert_eq!(link.bytes(&[0x82, 0x03, 0x03]), (13, vec![0x95]));

    let mut link = Link::from(bare(ADDRESSED));
    link.structure = 2;
    let bytes = [0x02, 0xD0, 0xC2, 0x31, 0x83, 0x20];
    assert_eq!(link.bytes(&bytes), (0, vec![0x86]));
    assert_eq!(link.table[8], 100);
}
