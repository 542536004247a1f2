//! Polling on: while waiting, a new poll of the same address needs neither EOT nor the address.

use crate::*;

/// The state of a link that waits behind PB and has then received these characters.
fn polled_on(characters: &[u8]) -> [u8; 24] {
    let mut link = Link::from(waiting(9, 5));
    assert_eq!(link.bytes(characters), (0, vec![]));
    link.state.try_into().expect("24 bytes")
}

#[test]
fn the_customers_program_polls_m1_and_then_s1() {
    let mut link = Link::start();
    link.now = 1000;
    // 4D^31^30^30^30^30^2E^30^03 = 61.
    let m1 = b"\x02M10000.0\x03\x61".to_vec();
    assert_eq!(link.bytes(b"\x0401M1\x05"), (0, m1));
    assert_eq!(link.state, waiting(1, 1000));
    link.now = 2000;
    // 53^31^30^30^30^30^2E^30^03 = 7F.
    let s1 = b"\x02S10000.0\x03\x7F".to_vec();
    assert_eq!(link.bytes(b"S1\x05"), (0, s1));
    assert_eq!(link.state, waiting(6, 2000));
    assert_eq!(link.table, START);
}

#[test]
fn from_each_item_to_each_item() {
    for item in 1..=13 {
        for (place, text) in OWN_TEXTS.iter().enumerate() {
            let mut link = Link::from(waiting(item, 5));
            link.table = OWN.to_vec();
            assert_eq!(link.bytes(&[text[0], text[1], ENQ]), (0, data(text)));
            assert_eq!(link.state, waiting(place as u8 + 1, 0));
            assert_eq!(link.table, OWN);
        }
    }
}

#[test]
fn the_new_item_is_the_one_that_nak_and_ack_go_on_from() {
    let mut link = Link::from(waiting(1, 0));
    link.table = OWN.to_vec();
    assert_eq!(link.bytes(b"PR\x05"), (0, data(b"PR01.500")));
    link.table[9] = 999;
    assert_eq!(link.byte(NAK), (0, data(b"PR00.999")));
    assert_eq!(link.byte(ACK), (0, data(b"F1000100")));
    assert_eq!(link.bytes(b"TM\x05"), (0, data(b"TM000999")));
    assert_eq!(link.byte(ACK), (0, data(b"XU000002")));
    assert_eq!(link.byte(ACK), (45, vec![EOT]));
}

#[test]
fn one_character_is_kept_and_nothing_of_the_item_or_the_time() {
    // All but the phase and the item is FFH.
    let mut hostile = [0xFF; 24];
    hostile[0] = WAITING;
    hostile[1] = 13;
    goes(hostile, b'S', one(b'S'));
}

#[test]
fn a_fault_behind_the_first_character_is_one_of_a_poll() {
    for characters in [&b"S"[..], b"S1"] {
        let state = polled_on(characters);
        for byte in [ACK, NAK, STX, ETX, 0x00, 0x1F, 0x7F] {
            ends(state, byte, 41);
        }
        // Line errors, whatever their low seven bits look like.
        for byte in [b'1', ENQ, ACK, EOT] {
            goes(state, byte + 0x80, bare(REST));
        }
        goes(state, EOT, bare(FIRST_DIGIT));
    }
    // ENQ too soon, and a character too many.
    ends(polled_on(b"S"), ENQ, 41);
    ends(polled_on(b"S1"), b'1', 41);
}

#[test]
fn an_unknown_identifier_is_42() {
    for unknown in [b"ZZ", b"s1", b"1S", b"P1", b"  ", b"~~"] {
        ends(polled_on(unknown), ENQ, 42);
    }
}

#[test]
fn at_rest_after_a_fault_the_address_is_needed_again() {
    let mut link = Link::from(waiting(9, 5));
    assert_eq!(link.bytes(b"S1\x06"), (41, vec![EOT]));
    assert_eq!(link.bytes(b"S1\x05"), (0, vec![]));
    assert_eq!(link.bytes(b"\x0401S1\x05"), (0, data(b"S10000.0")));
}

#[test]
fn no_three_seconds_run_after_the_first_character() {
    for characters in [&b"S"[..], b"S1"] {
        let mut link = Link::from(waiting(1, 0));
        link.now = 2999;
        assert_eq!(link.bytes(characters), (0, vec![]));
        let state = link.state.clone();
        for now in [3000, 5999, 1 << 31, u32::MAX] {
            link.now = now;
            assert_eq!(link.idle(), (0, vec![]));
            assert_eq!(link.state, state);
        }
        let rest = &b"S1\x05"[characters.len()..];
        assert_eq!(link.bytes(rest), (0, data(b"S10000.0")));
        assert_eq!(link.state, waiting(6, u32::MAX));
    }
}

#[test]
fn the_first_character_may_come_late_where_no_idle_call_was_made() {
    let mut link = Link::from(waiting(9, 0));
    link.now = 1_000_000;
    assert_eq!(link.byte(b'S'), (0, vec![]));
    assert_eq!(link.state, one(b'S'));
}

#[test]
fn in_the_structures_with_parity() {
    // "S1" and ENQ, the reply, and then 'S' with the other top bit, a line error, with its EOT.
    let even = (
        1,
        [0x53, 0xB1, 0x05],
        b"\x82\x53\xB10000.0\x03\xFF",
        0xD3,
        0x84,
    );
    let odd = (
        2,
        [0xD3, 0x31, 0x85],
        b"\x02\xD31\xB0\xB0\xB0\xB0\xAE\xB0\x83\x7F",
        0x53,
        0x04,
    );
    for (structure, poll, reply, error, eot) in [even, odd] {
        let mut link = Link::from(waiting(1, 0));
        link.structure = structure;
        assert_eq!(link.bytes(&poll), (0, reply.to_vec()));
        assert_eq!(link.byte(error), (43, vec![eot]));
        assert_eq!(link.state, bare(REST));
    }
}
