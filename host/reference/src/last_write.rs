//! The last value that a host wrote to one item, as document 02 asks a capture for it.
//!
//! Records are read from the end of the capture, and the first frame that writes the item answers.
//! What stands in front of that frame is not looked at, so damage there is not noticed.

use crate::capture::{in_parts, last_frame, number};
use crate::{items, modbus};

/// What a capture tells of an item.
#[derive(Debug, PartialEq, Eq)]
pub struct Told {
    /// The value of the last write, none where the item was never written.
    pub value: Option<i32>,
    /// How many records were looked at, the answering one included; all of them where none answers.
    pub records: usize,
}

/// What a capture tells of an item of the instrument at this address. None where its length is not
/// allowed, and where something is wrong with the part of it that had to be looked at.
pub fn told(capture: &[u8], address: u8, item: usize) -> Option<Told> {
    let (records, trailer) = in_parts(capture)?;
    if number(&trailer[2..]) != place_of_last(records)? {
        return None;
    }
    let mut read = 0;
    let mut end = records.len();
    while end > 0 {
        // Each record is looked at before its frame.
        let frame = last_frame(&records[..end])?;
        end = frame.start;
        read += 1;
        let value = written(&records[frame], address, item);
        if value.is_some() {
            return Some(Told {
                value,
                records: read,
            });
        }
    }
    // The count comes last: place 0 is reached, and no frame has answered.
    if number(&trailer[..2]) != read {
        return None;
    }
    Some(Told {
        value: None,
        records: read,
    })
}

/// The place that a trailer must point to: that of the last record, or 0 behind nothing. None where no
/// record can end here.
fn place_of_last(records: &[u8]) -> Option<usize> {
    if records.is_empty() {
        return Some(0);
    }
    Some(last_frame(records)?.start)
}

/// What an entry has that no frame has written. It is in no item's range, so no frame that is
/// accepted brings it, and a register has room for it, so a read of it can be answered.
const UNWRITTEN: i32 = 0x7FFF;

/// The value that a frame writes to an item of the instrument at this address; none where it is
/// refused, passed over, or writes no such item. Whether a frame is accepted does not depend on the
/// table, so one in which nothing was written shows what the frame writes, be it the value that the
/// item had. A read-only item is never written: AA and AB change with A1 and A2, and stay read-only.
fn written(frame: &[u8], address: u8, item: usize) -> Option<i32> {
    if !items::item(item).writable {
        return None;
    }
    let mut table = [UNWRITTEN; 13];
    modbus::answer(&mut table, address, frame);
    let entry = table[item - 1];
    if entry == UNWRITTEN {
        None
    } else {
        Some(entry)
    }
}

#[cfg(test)]
mod tests {
    use super::*;
    use crate::modbus::with_crc;

    #[test]
    fn no_item_can_have_what_was_not_written() {
        for item in 1..=13 {
            assert!(!items::in_range(item, UNWRITTEN));
        }
    }

    #[test]
    fn a_frame_writes_the_items_that_it_names() {
        let frame = with_crc(vec![1, 0x10, 0, 0x10, 0, 2, 4, 0xFF, 0x6A, 3, 0xE8]);
        assert_eq!(written(&frame, 1, 9), Some(-150));
        assert_eq!(written(&frame, 1, 10), Some(1000));
        assert_eq!(written(&frame, 1, 8), None);
        assert_eq!(written(&frame, 1, 11), None);
        assert_eq!(written(&frame, 2, 9), None);
    }

    #[test]
    fn a_write_of_an_alarm_level_writes_no_alarm_state() {
        for level in [7, 8] {
            let register = items::item(level).register as u8;
            let frame = with_crc(vec![1, 0x06, 0, register, 0xFF, 0x6A]);
            for item in 1..=13 {
                let value = (item == level).then_some(-150);
                assert_eq!(written(&frame, 1, item), value);
            }
        }
    }

    #[test]
    fn a_read_of_all_registers_writes_none() {
        let frame = with_crc(vec![1, 0x03, 0, 0, 0, 20]);
        for item in 1..=13 {
            assert_eq!(written(&frame, 1, item), None);
        }
    }
}
