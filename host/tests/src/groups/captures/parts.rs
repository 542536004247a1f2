//! Captures put together from their parts.

use crate::groups::several;
use crate::random::Random;

/// A capture in its parts, which need not fit each other.
#[derive(Clone)]
pub struct Parts {
    /// Frames, each with its number of bytes behind it.
    pub records: Vec<u8>,
    pub count: u16,
    pub place: u32,
}

impl Parts {
    /// Those of a well formed capture, as long as it can hold the frames.
    pub fn of(frames: &[Vec<u8>]) -> Parts {
        let mut parts = Parts {
            records: vec![],
            count: frames.len() as u16,
            place: 0,
        };
        for frame in frames {
            parts.place = parts.records.len() as u32;
            parts.records.extend(frame);
            parts.records.extend((frame.len() as u16).to_be_bytes());
        }
        parts
    }

    /// The records with the trailer behind them.
    pub fn capture(&self) -> Vec<u8> {
        let mut capture = self.records.clone();
        capture.extend(self.count.to_be_bytes());
        capture.extend(self.place.to_be_bytes());
        capture
    }
}

/// So many short frames, the first and some of the others writes that address 1 accepts.
pub fn good(random: &mut Random, number: usize) -> Vec<Vec<u8>> {
    let any = |place| {
        if place == 0 || random.one_in(4) {
            several::accepted(random, 1)
        } else {
            let length = 1 + random.below(3);
            random.bytes(length)
        }
    };
    (0..number).map(any).collect()
}

/// Frames whose records fill so many bytes, 0 or at least 3.
pub fn filling(random: &mut Random, mut room: usize) -> Vec<Vec<u8>> {
    let mut frames = vec![];
    while room > 0 {
        // No record has 1 or 2 bytes, so as many must not be left.
        let left = |length: &usize| room - 2 - length;
        let lengths: Vec<usize> = (1..=256.min(room - 2))
            .filter(|length| ![1, 2].contains(&left(length)))
            .collect();
        let length = random.pick(&lengths);
        room = left(&length);
        frames.push(random.bytes(length));
    }
    frames
}
