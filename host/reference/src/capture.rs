//! Captures of RTU frames, as document 02 has them.
//!
//! A capture holds records, each a frame of 1 to 256 bytes with two bytes behind it that have that
//! number of bytes. At the very end a trailer of six bytes points back: two bytes have the number
//! of records, four have where the last record begins, 0 if there are none. The high byte always
//! comes first.

use std::ops::Range;

const TRAILER_LENGTH: usize = 6;
const MOST: usize = 65_536;

/// A number in some bytes, the high one first.
pub fn number(bytes: &[u8]) -> usize {
    let add = |sum, byte: &u8| 256 * sum + usize::from(*byte);
    bytes.iter().fold(0, add)
}

/// The records of a capture, and its trailer. None for a capture under 6 or over 65,536 bytes.
pub fn in_parts(capture: &[u8]) -> Option<(&[u8], &[u8])> {
    if capture.len() < TRAILER_LENGTH || capture.len() > MOST {
        return None;
    }
    Some(capture.split_at(capture.len() - TRAILER_LENGTH))
}

/// Where the frames of a capture stand in it, in the order in which they were recorded. None for a
/// capture under 6 or over 65,536 bytes or not well formed.
pub fn frames(capture: &[u8]) -> Option<Vec<Range<usize>>> {
    let (records, trailer) = in_parts(capture)?;
    let mut frames = walk_back(records)?;
    let place = frames.first().map_or(0, |last| last.start);
    if number(&trailer[..2]) != frames.len() || number(&trailer[2..]) != place {
        return None;
    }
    frames.reverse();
    Some(frames)
}

/// The walk back from the trailer to place 0: the frames of the records that it finds, the last one
/// first. None where it does not come out at place 0.
fn walk_back(records: &[u8]) -> Option<Vec<Range<usize>>> {
    let mut frames = vec![];
    let mut end = records.len();
    while end > 0 {
        let frame = last_frame(&records[..end])?;
        end = frame.start;
        frames.push(frame);
    }
    Some(frames)
}

/// The frame of the last record, which begins where its frame does. None where the record would
/// begin before place 0, or have a frame that is not 1 to 256 bytes long.
pub fn last_frame(records: &[u8]) -> Option<Range<usize>> {
    let end = records.len().checked_sub(2)?;
    let length = number(&records[end..]);
    if !(1..=256).contains(&length) {
        return None;
    }
    let start = end.checked_sub(length)?;
    Some(start..end)
}

/// The part of a capture that is its frame of this number, counted from 1; else 51, then 52.
pub fn shown(capture: &[u8], frame: u32) -> Result<Range<usize>, u32> {
    let frames = frames(capture).ok_or(51_u32)?;
    for (part, number) in frames.into_iter().zip(1..) {
        if number == frame {
            return Ok(part);
        }
    }
    Err(52)
}

#[cfg(test)]
mod tests {
    use super::*;

    #[test]
    fn the_high_byte_of_a_number_comes_first() {
        assert_eq!(number(&[0x01, 0x00]), 256);
        assert_eq!(number(&[0x00, 0x00, 0x01, 0x02]), 258);
        assert_eq!(number(&[0x01, 0x00, 0x00, 0x00]), 16_777_216);
    }

    #[test]
    fn the_walk_back_finds_the_last_record_first() {
        let records = [7, 0, 1, 8, 9, 0, 2];
        assert_eq!(walk_back(&records), Some(vec![3..5, 0..1]));
        assert_eq!(walk_back(&records[1..]), None);
        assert_eq!(walk_back(&[]), Some(vec![]));
    }
}
