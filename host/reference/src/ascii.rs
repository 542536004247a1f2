//! Modbus ASCII as document 02 has it: a message as a line of characters. What the message asks for
//! is done as on the RTU line.

use crate::modbus;

/// What a line starts with, and what it ends with: CR and LF.
const COLON: u8 = b':';
const END: [u8; 2] = [0x0D, 0x0A];

/// LRC: the two's complement of the bytes' sum, of which carries are dropped.
pub fn lrc(bytes: &[u8]) -> u8 {
    let sum = bytes.iter().map(|byte| u32::from(*byte)).sum::<u32>() % 256;
    ((256 - sum) % 256) as u8
}

/// Bytes with their LRC behind them.
pub fn with_lrc(mut bytes: Vec<u8>) -> Vec<u8> {
    bytes.push(lrc(&bytes));
    bytes
}

/// The two characters of a byte, the high half first.
fn characters(byte: u8) -> [u8; 2] {
    let digits = b"0123456789ABCDEF";
    [byte / 16, byte % 16].map(|half| digits[usize::from(half)])
}

/// Bytes in characters: a colon, two for each byte, CR and LF.
pub fn in_characters(bytes: &[u8]) -> Vec<u8> {
    let mut line = vec![COLON];
    for byte in bytes {
        line.extend(characters(*byte));
    }
    line.extend(END);
    line
}

/// A message as a line, with its LRC.
pub fn line_of(message: Vec<u8>) -> Vec<u8> {
    in_characters(&with_lrc(message))
}

/// What a character counts. Lower case counts nothing.
fn digit(character: u8) -> Option<u8> {
    match character {
        b'0'..=b'9' => Some(character - b'0'),
        b'A'..=b'F' => Some(character - b'A' + 10),
        _ => None,
    }
}

/// The bytes of a line, the LRC among them; none where there is no colon, no CR and LF at the end,
/// another character between, an odd number of them, or too few or too many bytes. Each colon starts
/// afresh, so the last one counts.
pub fn bytes_of(line: &[u8]) -> Option<Vec<u8>> {
    let colon = line.iter().rposition(|character| *character == COLON)?;
    let between = line[colon + 1..].strip_suffix(&END)?;
    let digits: Vec<u8> = between
        .iter()
        .map(|character| digit(*character))
        .collect::<Option<_>>()?;
    if digits.len() % 2 != 0 {
        return None;
    }
    let bytes: Vec<u8> = digits.chunks(2).map(|two| two[0] * 16 + two[1]).collect();
    if bytes.len() < 3 || bytes.len() > 255 {
        return None;
    }
    Some(bytes)
}

/// One line: the number given back and the reply.
pub fn answer(table: &mut [i32], address: u8, line: &[u8]) -> (u32, Vec<u8>) {
    // 24: wrong line.
    let bytes = match bytes_of(line) {
        Some(bytes) => bytes,
        None => return (24, vec![]),
    };
    // 25: wrong LRC.
    let (body, check) = bytes.split_at(bytes.len() - 1);
    if check != [lrc(body)] {
        return (25, vec![]);
    }
    let (number, reply) = modbus::message(table, address, body);
    (number, reply.map_or(vec![], line_of))
}

#[cfg(test)]
mod tests {
    use super::*;

    #[test]
    fn bytes_and_their_lrc_add_up_to_0() {
        assert_eq!(lrc(&[]), 0);
        assert_eq!(lrc(&[0; 254]), 0);
        assert_eq!(lrc(&[0xFF; 254]), 0xFE);
        for first in 0..=255 {
            for second in 0..=255 {
                let sum = lrc(&[first, second]).wrapping_add(first);
                assert_eq!(sum.wrapping_add(second), 0);
            }
        }
    }

    #[test]
    fn sixteen_characters_are_digits() {
        for byte in 0..=255 {
            let [high, low] = characters(byte);
            assert_eq!(digit(high), Some(byte / 16));
            assert_eq!(digit(low), Some(byte % 16));
        }
        let digits = (0..=255).filter(|character| digit(*character).is_some());
        assert_eq!(digits.count(), 16);
    }
}
