//! The groups of calls. Each takes one part of the C face and tries what could go wrong there.

mod alarms;
mod ascii;
mod blocks;
mod captures;
mod damage;
mod frames;
mod idle;
mod last_write;
mod limits;
mod modbus_sessions;
mod noise;
mod number_text;
mod order;
mod outcome;
mod phases;
mod point;
mod polling_on;
mod polls;
mod put;
mod requests;
mod sessions;
mod several;
mod start;

use crate::compare::Compare;
use crate::failure::Checked;
use crate::random::Random;
use outcome::gives;

type Calls = fn(&mut Compare, &mut Random) -> Checked<()>;

/// The plain parts come first, so that a difference is met where it is easiest to understand; what
/// is systematic comes before what is random, and captures of all kinds before very many or very
/// large ones.
const GROUPS: &[(&str, Calls)] = &[
    ("start values at all lengths", start::lengths),
    ("order of a byte's refusals", order::byte),
    ("order of an idle call's refusals", order::idle),
    ("order of a frame's refusals", order::frames),
    ("order of a line's refusals", order::lines),
    ("order of a put's refusals", order::put),
    ("order of a reading's refusals", order::read),
    ("order of a writing's refusals", order::written),
    ("order of a playback's refusals", order::playback),
    ("order of a showing's refusals", order::show),
    ("order of a last write's refusals", order::last_write),
    ("every byte in every phase", phases::every_byte),
    ("every digit of every address", phases::digits),
    ("entries beside their range", limits::entries),
    ("alarm states that disagree", alarms::disagreeing),
    ("alarm states put by the firmware", alarms::put),
    ("alarm states written by each line", alarms::written),
    ("tables with another XU or length", point::tables),
    ("link states outside their limits", limits::states),
    ("every identifier polled", polls::identifiers),
    ("every identifier in a block", blocks::identifiers),
    ("every item at times around the turn", polls::times),
    ("polling on from each item", polling_on::whole),
    ("every byte while polling on", polling_on::every_byte),
    ("item numbers with other bits", put::item_numbers),
    ("silence, and the turn of the time", idle::silence),
    ("right frames of every length", frames::lengths),
    ("reads, single writes and loopbacks", requests::functions),
    ("spans of several registers", several::spans),
    ("counts of several registers", several::counts),
    ("lengths of several registers", several::lengths),
    ("edges of several values", several::edges),
    ("several registers into bad tables", several::lent),
    ("several registers at every address", several::addresses),
    ("frames of every kind and length", requests::every),
    ("alarm levels set around M1", alarms::levels),
    ("M1 put around the alarm levels", alarms::measured),
    ("XU set by whoever can", point::set),
    ("what XU does not take", point::refused),
    ("every span read at each XU", point::read),
    ("registers written at each XU", point::written),
    ("edges of number text at each XU", point::edges),
    ("runs over the list at each XU", point::runs),
    ("every character in every place", ascii::every_character),
    ("two characters of a line", ascii::two_characters),
    ("bits of a line flipped", ascii::bits),
    ("every LRC behind a message", ascii::every_lrc),
    ("other checks than the LRC", ascii::other_checks),
    ("every end of a line", ascii::every_end),
    ("text behind a line", ascii::texts),
    ("colons inside a line", ascii::inside),
    ("parts of a line before another", ascii::behind),
    ("anything before a line", ascii::fronts),
    ("very much before a line", ascii::long_fronts),
    ("lines of every number of bytes", ascii::numbers),
    ("lines of every number of characters", ascii::characters),
    ("tables and buffers lent to a line", ascii::lent),
    ("lines at every address", ascii::addresses),
    ("captures of every size", captures::sizes),
    ("small captures of small bytes", captures::small),
    ("every frame of a capture shown", captures::shown),
    ("tables lent to a playback", captures::lent),
    ("captures at every address", captures::addresses),
    ("captured writes over each other", captures::overwritten),
    ("captured writes of alarm levels", alarms::played),
    ("items asked for a last write", last_write::item_numbers),
    ("addresses asked for a last write", last_write::addresses),
    ("frames that all but write an item", last_write::near),
    ("spans that write an item", last_write::spans),
    ("every value written last", last_write::values),
    ("small captures beside a write", last_write::small),
    ("counts behind a last write", last_write::counts),
    ("places before a last write", last_write::places),
    ("lengths before a last write", last_write::lengths),
    ("anything in front of a last write", last_write::fronts),
    ("captures cut off in front", last_write::cut),
    ("last writes in all sizes", last_write::sizes),
    ("lengths in a capture's records", captures::lengths),
    ("trailers of captures", captures::trailers),
    ("captures with a byte wrong", captures::damaged),
    ("last writes with a byte wrong", last_write::damaged),
    ("the largest captures", captures::largest),
    ("last writes in the largest captures", last_write::largest),
    ("edges of number text written", number_text::edges_written),
    ("characters of number text read", number_text::characters),
    ("number text read", number_text::read),
    ("every value sent and told at each XU", point::every_value),
    ("every value of every item sent", polls::every_value),
    ("every value of every item set", blocks::every_value),
    ("every value of every item put", put::every_value),
    ("every value of every item read", frames::every_value_read),
    ("every value of every register", frames::every_value_written),
    ("every word of a request", frames::every_word),
    ("values put by the firmware", put::any),
    ("runs over the list by ACK and NAK", polls::runs),
    ("any text with any BCC", blocks::any),
    ("any write of several registers", several::any),
    ("sessions on the RKC line", sessions::whole),
    ("sessions on a bad line", sessions::damaged),
    ("sessions on the RTU line", modbus_sessions::whole),
    ("sessions on both Modbus lines", ascii::sessions),
    ("sessions on all lines", alarms::sessions),
    ("sessions in which XU changes", point::sessions),
    ("any line", ascii::any),
    ("sessions played back", captures::sessions),
    ("any capture", captures::any),
    ("sessions asked for last writes", last_write::sessions),
    ("any capture asked for a last write", last_write::any),
    ("faults of the caller, together", limits::together),
    ("noise in every argument", noise::anything),
    ("noise with a good table", noise::well_lent),
    ("single and odd flips of bits", damage::odd),
    ("bursts of up to 16 bits", damage::bursts),
];

/// Nothing that matters in these is random: another seed makes the same calls.
const ONCE: &[(&str, Calls)] = &[
    ("every kind of number text read", number_text::kinds),
    ("every value that fits written", number_text::every_fit),
];

/// Runs all groups, each with random numbers of its own, and tells the name and the calls of each
/// that passed.
pub fn all(
    compare: &mut Compare,
    seed: u64,
    mut told: impl FnMut(&'static str, u64) -> Checked<()>,
) -> Checked<()> {
    again(compare, seed, &mut told)?;
    run(ONCE, compare, seed.wrapping_add(GROUPS.len() as u64), told)
}

/// Runs those groups that make other calls with another seed.
pub fn again(
    compare: &mut Compare,
    seed: u64,
    told: impl FnMut(&'static str, u64) -> Checked<()>,
) -> Checked<()> {
    run(GROUPS, compare, seed, told)
}

fn run(
    groups: &[(&'static str, Calls)],
    compare: &mut Compare,
    seed: u64,
    mut told: impl FnMut(&'static str, u64) -> Checked<()>,
) -> Checked<()> {
    for ((name, calls), number) in groups.iter().zip(0..) {
        let before = compare.calls();
        calls(compare, &mut Random::new(seed.wrapping_add(number)))
            .and_then(|()| compare.finish())
            .map_err(|failure| failure.met_in(name))?;
        told(name, compare.calls() - before)?;
    }
    Ok(())
}
