//! Number text. A refusal is the number given back.

/// Reads number text at a number of decimals.
///
/// Tried in this order: decimals over 3 (9), more than six characters (15), no number (16).
pub fn read(decimals: u8, chars: &[u8]) -> Result<i32, u32> {
    if decimals > 3 {
        return Err(9);
    }
    if chars.len() > 6 {
        return Err(15);
    }
    // An optional minus comes first.
    let negative = chars.first() == Some(&b'-');
    let unsigned = if negative { &chars[1..] } else { chars };

    // Then digits with at most one point, at least one digit, nothing else.
    let points = unsigned.iter().filter(|c| **c == b'.').count();
    let digits = unsigned.iter().filter(|c| c.is_ascii_digit()).count();
    if points > 1 || digits < 1 || points + digits != unsigned.len() {
        return Err(16);
    }

    // The written number times 10^d with the fraction cut off: the digits before the point,
    // then exactly d digits of those after it, zeros where none are written.
    let mut parts = unsigned.split(|c| *c == b'.');
    let whole = parts.next().unwrap_or(b"");
    let fraction = parts.next().unwrap_or(b"");
    let mut scaled = String::from("0");
    for digit in whole {
        scaled.push(char::from(*digit));
    }
    for place in 0..usize::from(decimals) {
        scaled.push(char::from(*fraction.get(place).unwrap_or(&b'0')));
    }
    let size: i64 = scaled.parse().expect("only digits were kept");

    // The sign belongs to the whole number, so the cut goes toward zero and minus zero is 0.
    let value = if negative { -size } else { size };
    Ok(i32::try_from(value).expect("six characters and three decimals stay far below 2^31"))
}

/// Writes a value as exactly six characters at a number of decimals.
///
/// Tried in this order: decimals over 3 (9), does not fit (8).
pub fn write(decimals: u8, value: i32) -> Result<[u8; 6], u32> {
    if decimals > 3 {
        return Err(9);
    }
    // What fits, as the specification gives it.
    let (low, high) = if decimals == 0 {
        (-99_999, 999_999)
    } else {
        (-9_999, 99_999)
    };
    if value < low || value > high {
        return Err(8);
    }
    // Minus first if below zero, zeros on the left, the point before the last d digits, no
    // point for d = 0.
    let minus = if value < 0 { "-" } else { "" };
    let point = if decimals == 0 { "" } else { "." };
    let width = 6 - minus.len() - point.len();
    let digits = format!("{:0width$}", i64::from(value).abs(), width = width);
    let (whole, fraction) = digits.split_at(width - usize::from(decimals));
    let text = format!("{}{}{}{}", minus, whole, point, fraction);
    let mut six = [0; 6];
    six.copy_from_slice(text.as_bytes());
    Ok(six)
}

#[cfg(test)]
mod tests {
    use super::*;

    #[test]
    fn the_sign_is_kept_apart_from_the_whole_part() {
        assert_eq!(read(2, b"-.5"), Ok(-50));
        assert_eq!(read(2, b"-0.5"), Ok(-50));
        assert_eq!(read(0, b"-.5"), Ok(0));
        assert_eq!(read(0, b"-"), Err(16));
    }

    #[test]
    fn the_fraction_is_cut_toward_zero() {
        assert_eq!(read(2, b"-.058"), Ok(-5));
        assert_eq!(read(2, b".058"), Ok(5));
        assert_eq!(read(3, b"1.2345"), Ok(1234));
        assert_eq!(read(3, b"-1.999"), Ok(-1999));
        assert_eq!(read(1, b"-1.999"), Ok(-19));
    }

    #[test]
    fn a_point_needs_a_digit_on_either_side_only() {
        assert_eq!(read(1, b"5."), Ok(50));
        assert_eq!(read(1, b".5"), Ok(5));
        assert_eq!(read(1, b"-5."), Ok(-50));
        assert_eq!(read(1, b"."), Err(16));
        assert_eq!(read(1, b"-."), Err(16));
        assert_eq!(read(1, b"1.2.3"), Err(16));
        assert_eq!(read(1, b"..5"), Err(16));
    }

    #[test]
    fn nothing_else_is_a_number() {
        for text in [
            &b""[..],
            b"+",
            b"+0",
            b" 1",
            b"1 ",
            b"--1",
            b"1-",
            b"0x1",
            b"1e1",
            b"1,5",
            b"\xB1",
            b"\x001",
            b"/",
            b":",
        ] {
            assert_eq!(read(1, text), Err(16), "{:?}", text);
        }
    }

    #[test]
    fn six_characters_are_read_and_seven_refused_before_their_sense() {
        assert_eq!(read(3, b"999999"), Ok(999_999_000));
        assert_eq!(read(3, b"-99999"), Ok(-99_999_000));
        assert_eq!(read(0, b"0000000"), Err(15));
        assert_eq!(read(0, b"+++++++"), Err(15));
        assert_eq!(read(4, b"+++++++"), Err(9));
    }

    #[test]
    fn what_fits_is_written_and_no_more() {
        assert_eq!(write(0, 999_999), Ok(*b"999999"));
        assert_eq!(write(0, 1_000_000), Err(8));
        assert_eq!(write(0, -99_999), Ok(*b"-99999"));
        assert_eq!(write(0, -100_000), Err(8));
        assert_eq!(write(0, 0), Ok(*b"000000"));
        assert_eq!(write(0, -7), Ok(*b"-00007"));
        for (decimals, most, least) in [
            (1, b"9999.9", b"-999.9"),
            (2, b"999.99", b"-99.99"),
            (3, b"99.999", b"-9.999"),
        ] {
            assert_eq!(write(decimals, 99_999), Ok(*most));
            assert_eq!(write(decimals, 100_000), Err(8));
            assert_eq!(write(decimals, -9_999), Ok(*least));
            assert_eq!(write(decimals, -10_000), Err(8));
        }
        assert_eq!(write(3, -5), Ok(*b"-0.005"));
        assert_eq!(write(4, i32::MAX), Err(9));
        assert_eq!(write(0, i32::MIN), Err(8));
    }

    #[test]
    fn what_is_written_reads_back_as_itself() {
        for decimals in 0..=3 {
            for value in -9_999..=99_999 {
                let text = write(decimals, value).unwrap();
                assert_eq!(read(decimals, &text), Ok(value));
            }
        }
    }
}
