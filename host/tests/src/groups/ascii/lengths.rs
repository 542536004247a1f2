//! How many characters and bytes a line has.

use super::handed;
use crate::compare::Compare;
use crate::failure::Checked;
use crate::random::Random;
use reference::ascii::{in_characters, line_of, with_lrc};

/// Messages of every number of bytes up to 600, with the right LRC and a wrong one. They ask for each
/// function, and one that there is not; some are for another address.
pub fn numbers(compare: &mut Compare, random: &mut Random) -> Checked<()> {
    for length in 0..=600 {
        for function in [0x03, 0x06, 0x07, 0x08, 0x10, 0x80] {
            for address in [1, 2] {
                let mut message = vec![address, function, 0, 0x13, 0, 1, 2, 0, 3];
                message.resize(length, 0);
                handed(compare, random, 1, line_of(message.clone()))?;
                message.push(random.byte());
                handed(compare, random, 1, in_characters(&message))?;
            }
        }
    }
    Ok(())
}

/// Every number of characters up to 1200, even and odd, that make a message, are all zeros, or are
/// any digits; and so many with nothing else, without a colon, or without an end.
pub fn characters(compare: &mut Compare, random: &mut Random) -> Checked<()> {
    let mut message = vec![0; 600];
    message[..2].copy_from_slice(&[1, 0x07]);
    for length in 0..=1200_usize {
        // Where the number is odd, a zero stands behind the LRC.
        let bytes = &message[..(length / 2).saturating_sub(1)];
        let mut right = in_characters(&with_lrc(bytes.to_vec()))[1..].to_vec();
        right.truncate(right.len() - 2);
        right.resize(length, b'0');
        let any: Vec<u8> = (0..length)
            .map(|_| random.pick(b"0123456789ABCDEF"))
            .collect();
        for digits in [&right[..], &vec![b'0'; length], &any] {
            handed(compare, random, 1, digits.to_vec())?;
            handed(compare, random, 1, [b":", digits].concat())?;
            handed(compare, random, 1, [digits, b"\r\n"].concat())?;
            handed(compare, random, 1, [b":", digits, b"\r\n"].concat())?;
        }
    }
    Ok(())
}
