//! Captures of anything: all small ones of small bytes, alone and beside a write, and many of others.

use super::{answers, asking, parts, tried, write, Told};
use crate::call::Call;
use crate::compare::Compare;
use crate::failure::Checked;
use crate::groups::captures::{any_capture, small_parts, Parts};
use crate::random::Random;

/// Up to five bytes of records, each from 0 to 3, with every trailer that could point into them:
/// alone; behind a write, which answers if the walk comes so far; and before one, which answers
/// whatever they are.
pub fn small(compare: &mut Compare, random: &mut Random) -> Checked<()> {
    let written = write(random, 1, (0x10, 1));
    let value = written.writes[0].1;
    let front = parts(&[written]);
    for small in small_parts(5) {
        tried(compare, random, small.capture())?;
        let behind = Parts {
            records: [&front.records[..], &small.records].concat(),
            place: small.place + front.records.len() as u32,
            count: small.count,
        };
        compare.call(&mut asking(random, behind.capture(), 9))?;
        let before = Parts {
            place: small.records.len() as u32,
            records: [&small.records[..], &front.records].concat(),
            count: small.count,
        };
        answers(compare, random, &before, 9, Told::Found(value, 1))?;
    }
    Ok(())
}

/// Captures of any frames, many of them with something that has happened to them, and noise. Asked
/// for any item, at any address now and then.
pub fn any(compare: &mut Compare, random: &mut Random) -> Checked<()> {
    for _ in 0..20_000 {
        let capture = any_capture(random);
        for _ in 0..3 {
            let item = random.below(15) as u32;
            let address = random.pick(&[1, 1, 1, 1, 1, 1, 2, 99, 0, 100]);
            compare.call(&mut Call {
                address,
                ..asking(random, capture.clone(), item)
            })?;
        }
    }
    Ok(())
}
