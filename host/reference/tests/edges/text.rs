//! Number text through the calls.

use reference::{read_text, write_text};

/// The number and the value, from a value that was not 0 before.
fn read(decimals: u8, chars: &[u8]) -> (u32, i32) {
    let mut value = 77;
    let number = read_text(decimals, chars, &mut value);
    (number, value)
}

/// The number and eight bytes, of which the last two must stay.
fn write(decimals: u8, value: i32) -> (u32, [u8; 8]) {
    let mut chars = *b"????????";
    let number = write_text(decimals, value, &mut chars);
    (number, chars)
}

#[test]
fn a_refused_reading_gives_value_0() {
    assert_eq!(read(3, b"-1.5"), (0, -1500));
    assert_eq!(read(3, b"-1.5555"), (15, 0));
    assert_eq!(read(3, b"x"), (16, 0));
    assert_eq!(read(4, b"1"), (9, 0));
    assert_eq!(read(255, b"1"), (9, 0));
}

#[test]
fn reading_tries_9_then_15_then_16() {
    assert_eq!(read(4, b"xxxxxxx"), (9, 0));
    assert_eq!(read(3, b"xxxxxxx"), (15, 0));
    assert_eq!(read(3, b"xxxxxx"), (16, 0));
}

#[test]
fn a_refused_writing_gives_six_zero_bytes() {
    assert_eq!(write(1, -9999), (0, *b"-999.9??"));
    assert_eq!(write(1, -10_000), (8, *b"\0\0\0\0\0\0??"));
    assert_eq!(write(4, 0), (9, *b"\0\0\0\0\0\0??"));
}

#[test]
fn writing_tries_9_then_8() {
    assert_eq!(write(4, 1_000_000).0, 9);
    assert_eq!(write(0, 1_000_000).0, 8);
    assert_eq!(write(0, 999_999).0, 0);
}

#[test]
fn writing_needs_room_for_six() {
    for length in 0..6 {
        let mut chars = vec![b'?'; length];
        assert_eq!(write_text(4, i32::MAX, &mut chars), 3);
        assert_eq!(chars, vec![b'?'; length]);
    }
    let mut chars = [b'?'; 6];
    assert_eq!(write_text(0, 42, &mut chars), 0);
    assert_eq!(&chars, b"000042");
}
