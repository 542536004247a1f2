//! The phases of a poll, and the idle call.

use crate::*;

/// The reply to a poll of PB at the start: "000.00", BCC 50^42^30^30^30^2E^30^30^03 = 0F.
const PB_ZERO: [u8; 11] = *b"\x02PB000.00\x03\x0F";

#[test]
fn at_rest_all_but_eot_is_ignored() {
    for byte in 0..=255 {
        if byte == EOT {
            goes(bare(REST), byte, bare(FIRST_DIGIT));
        } else {
            goes(bare(REST), byte, bare(REST));
        }
    }
}

#[test]
fn eot_opens_in_each_phase_except_where_a_bcc_is_due() {
    for state in each_phase() {
        if state[0] != BCC_DUE {
            goes(state, EOT, bare(FIRST_DIGIT));
        }
    }
    let mut link = Link::from(in_block(BCC_DUE, 3, 0x20, 0, b"PB1"));
    assert_eq!(link.byte(EOT), (12, vec![NAK]));
}

#[test]
fn each_digit_of_the_address_is_compared_as_it_comes() {
    for address in 0..=99 {
        for digit in 0..=255 {
            let mut link = Link::from(bare(FIRST_DIGIT));
            link.address = address;
            assert_eq!(link.byte(digit), (0, vec![]));
            let expected = match digit {
                EOT => FIRST_DIGIT,
                _ if digit == b'0' + address / 10 => SECOND_DIGIT,
                _ => REST,
            };
            assert_eq!(link.state, bare(expected));

            let mut link = Link::from(bare(SECOND_DIGIT));
            link.address = address;
            assert_eq!(link.byte(digit), (0, vec![]));
            let expected = match digit {
                EOT => FIRST_DIGIT,
                _ if digit == b'0' + address % 10 => ADDRESSED,
                _ => REST,
            };
            assert_eq!(link.state, bare(expected));
        }
    }
}

#[test]
fn after_the_address_only_a_printable_character_stx_or_eot_belongs() {
    for byte in 0..=255 {
        match byte {
            EOT => goes(bare(ADDRESSED), byte, bare(FIRST_DIGIT)),
            STX => goes(bare(ADDRESSED), byte, bare(TEXT)),
            0x20..=0x7E => goes(bare(ADDRESSED), byte, one(byte)),
            _ => goes(bare(ADDRESSED), byte, bare(REST)),
        }
    }
}

#[test]
fn after_one_identifier_character() {
    for byte in 0..=255 {
        match byte {
            EOT => goes(one(b'P'), byte, bare(FIRST_DIGIT)),
            0x20..=0x7E => goes(one(b'P'), byte, two(b'P', byte)),
            0x80..=0xFF => goes(one(b'P'), byte, bare(REST)),
            _ => ends(one(b'P'), byte, 41),
        }
    }
}

#[test]
fn after_two_identifier_characters() {
    for byte in 0..=255 {
        match byte {
            EOT => goes(two(b'X', b'X'), byte, bare(FIRST_DIGIT)),
            ENQ => ends(two(b'X', b'X'), byte, 42),
            0x80..=0xFF => goes(two(b'X', b'X'), byte, bare(REST)),
            _ => ends(two(b'X', b'X'), byte, 41),
        }
    }
    // Kept characters that no poll can have brought are within the limits and unknown.
    ends(two(0x00, 0x7F), ENQ, 42);
    ends(two(b'p', b'b'), ENQ, 42);
}

#[test]
fn a_known_identifier_is_answered_and_the_time_is_stamped() {
    let mut link = Link::start();
    link.now = 0x0102_0304;
    assert_eq!(link.bytes(b"\x0401PB\x05"), (0, PB_ZERO.to_vec()));
    assert_eq!(link.state, waiting(9, 0x0102_0304));
    assert_eq!(link.table, START);
}

#[test]
fn while_waiting() {
    for structure in 0..=2 {
        let eot = on_line(structure, EOT);
        for byte in 0..=255 {
            let character = byte & 0x7F;
            let right = byte == on_line(structure, character);
            let (number, reply, after) = match character {
                EOT if right => (0, vec![], bare(FIRST_DIGIT)),
                ACK | NAK if right => continue,
                0x20..=0x7E if right => (0, vec![], one(character)),
                _ => (43, vec![eot], bare(REST)),
            };
            let mut link = Link::from(waiting(9, 5));
            link.structure = structure;
            assert_eq!(link.byte(byte), (number, reply), "{:02X}", byte);
            assert_eq!(link.state, after, "{:02X}", byte);
            assert_eq!(link.table, START);
        }
    }
}

#[test]
fn ack_goes_through_the_list_and_ends_with_45() {
    let mut link = Link::start();
    link.table = OWN.to_vec();
    for (place, text) in OWN_TEXTS.iter().enumerate() {
        link.now = 1000 * place as u32;
        let (number, reply) = if place == 0 {
            link.bytes(b"\x0401M1\x05")
        } else {
            link.byte(ACK)
        };
        assert_eq!((number, reply), (0, data(text)));
        assert_eq!(link.state, waiting(place as u8 + 1, link.now));
    }
    assert_eq!(link.byte(ACK), (45, vec![EOT]));
    assert_eq!(link.state, bare(REST));
    assert_eq!(link.table, OWN);
}

#[test]
fn nak_sends_the_same_item_with_its_value_now() {
    let mut link = Link::start();
    assert_eq!(link.bytes(b"\x0401PB\x05"), (0, PB_ZERO.to_vec()));
    link.table[8] = -800;
    link.now = 2999;
    let expected = b"\x02PB-08.00\x03\x1A".to_vec();
    assert_eq!(link.byte(NAK), (0, expected));
    assert_eq!(link.state, waiting(9, 2999));
}

#[test]
fn byte_calls_do_not_look_at_the_time() {
    let mut link = Link::from(waiting(9, 0));
    link.now = 1_000_000;
    assert_eq!(link.byte(NAK), (0, PB_ZERO.to_vec()));
    assert_eq!(link.state, waiting(9, 1_000_000));
}

#[test]
fn alarm_states_are_sent_as_they_stand_in_the_table() {
    for (m1, a2, states) in [(499, 500, *b"00"), (500, 501, *b"10"), (500, 500, *b"11")] {
        let mut link = Link::start();
        link.table = agreeing([m1, 0, 0, 0, 0, 0, 500, a2, 0, 1000, 0, 0, 1]).to_vec();
        for (id, state) in [b"AA", b"AB"].into_iter().zip(states) {
            let text = [id[0], id[1], b'0', b'0', b'0', b'0', b'0', state];
            let poll = [EOT, b'0', b'1', id[0], id[1], ENQ];
            assert_eq!(link.bytes(&poll), (0, data(&text)));
        }
    }
}

#[test]
fn replies_and_line_errors_follow_the_structure() {
    // Even: EOT 84, '0' 30, '1' B1, 'P' 50, 'B' 42, ENQ 05.
    let mut link = Link::start();
    link.structure = 1;
    let reply = vec![
        0x82, 0x50, 0x42, 0x30, 0x30, 0x30, 0x2E, 0x30, 0x30, 0x03, 0x0F,
    ];
    assert_eq!(
        link.bytes(&[0x84, 0x30, 0xB1, 0x50, 0x42, 0x05]),
        (0, reply)
    );
    // A plain EOT has one 1, so it is a line error and ends the waiting.
    assert_eq!(link.byte(0x04), (43, vec![0x84]));

    // Odd: EOT 04, '0' B0, '1' 31, 'P' D0, 'B' C2, ENQ 85.
    let mut link = Link::start();
    link.structure = 2;
    let reply = vec![
        0x02, 0xD0, 0xC2, 0xB0, 0xB0, 0xB0, 0xAE, 0xB0, 0xB0, 0x83, 0x8F,
    ];
    assert_eq!(
        link.bytes(&[0x04, 0xB0, 0x31, 0xD0, 0xC2, 0x85]),
        (0, reply)
    );
    assert_eq!(link.byte(0x84), (43, vec![0x04]));
}

/// A character as a structure has it on the line.
fn on_line(structure: u8, character: u8) -> u8 {
    let odd = character.count_ones() % 2 == 1;
    let top_bit = match structure {
        0 => false,
        1 => odd,
        _ => !odd,
    };
    if top_bit {
        character + 0x80
    } else {
        character
    }
}

#[test]
fn a_line_error_in_each_phase() {
    for structure in 0..=2 {
        let eot = on_line(structure, EOT);
        let nak = on_line(structure, NAK);
        for character in 0..=0x7F {
            let damaged = on_line(structure, character) ^ 0x80;
            for state in each_phase() {
                let (number, reply, after) = match state[0] {
                    WAITING => (43, vec![eot], bare(REST)),
                    TEXT => {
                        let kept = [b'P', b'B', b'1', character];
                        let after = in_block(TEXT, 4, 0x23 ^ character, 1, &kept);
                        (0, vec![], after)
                    }
                    BCC_DUE => (11, vec![nak], bare(ANSWERED)),
                    _ => (0, vec![], bare(REST)),
                };
                let mut link = Link::from(state);
                link.structure = structure;
                assert_eq!(link.byte(damaged), (number, reply));
                assert_eq!(link.state, after);
                assert_eq!(link.table, START);
            }
        }
    }
}

#[test]
fn the_idle_call_ends_the_waiting_at_three_seconds() {
    for (time, now, number) in [
        (0, 0, 0),
        (0, 2999, 0),
        (0, 3000, 44),
        (0, u32::MAX, 44),
        (1000, 3999, 0),
        (1000, 4000, 44),
        // The count goes round between the two times.
        (u32::MAX, 2998, 0),
        (u32::MAX, 2999, 44),
        (u32::MAX - 2999, 0, 44),
        (u32::MAX - 2998, 0, 0),
        // A present time just before the reply's is nearly a whole round later.
        (1, 0, 44),
        (5000, 4999, 44),
    ] {
        let mut link = Link::from(waiting(9, time));
        link.now = now;
        if number == 44 {
            assert_eq!(link.idle(), (44, vec![EOT]), "{} {}", time, now);
            assert_eq!(link.state, bare(REST));
        } else {
            assert_eq!(link.idle(), (0, vec![]), "{} {}", time, now);
            assert_eq!(link.state, waiting(9, time));
        }
    }
}

#[test]
fn the_idle_call_does_nothing_but_when_waiting() {
    for state in each_phase() {
        if state[0] != WAITING {
            let mut link = Link::from(state);
            link.now = u32::MAX;
            assert_eq!(link.idle(), (0, vec![]));
            assert_eq!(link.state, state);
        }
    }
}

#[test]
fn the_idle_calls_eot_is_sent_in_the_structure() {
    for (structure, eot) in [(0, 0x04), (1, 0x84), (2, 0x04)] {
        let mut link = Link::from(waiting(1, 0));
        link.structure = structure;
        link.now = 3000;
        assert_eq!(link.idle(), (44, vec![eot]));
    }
}
