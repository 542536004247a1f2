//! The calls of `compare` again and again, each time with other random numbers, until there are
//! enough of them.
//!
//! `soak [--seed N] [--calls N] [--seconds N] DRIVER...`: one round of all groups, and rounds of
//! those with random numbers until the calls are reached, 10^8 where not told. A run that takes
//! longer than the seconds, half an hour where not told, is given up and has failed. The seed is
//! printed, and with the same one all calls come again. The last line counts the groups of all
//! rounds, `N passed, M failed`; the first difference ends the run.

use compare::compare::Compare;
use compare::failure::{Checked, Failure};
use compare::words::Words;
use compare::{groups, numbers};
use std::process::ExitCode;
use std::time::{Duration, Instant};

/// The seeds of two rounds lie so far apart that no two groups share one.
const APART: u64 = 1000;

struct Bounds {
    calls: u64,
    time: Duration,
}

fn main() -> ExitCode {
    let mut words = Words::given();
    let seed = words.seed();
    let bounds = Bounds {
        calls: words.number("--calls").unwrap_or(100_000_000),
        time: Duration::from_secs(words.number("--seconds").unwrap_or(1800)),
    };
    let driver = words.rest("soak [--seed N] [--calls N] [--seconds N] DRIVER...");
    println!("seed {seed}");
    let mut passed = 0;
    let outcome = run(seed, &bounds, driver, &mut passed);
    let failed = u32::from(outcome.is_err());
    if let Err(failure) = outcome {
        println!("{failure}\nthe same calls come again with --seed {seed}");
    }
    println!("{passed} passed, {failed} failed");
    ExitCode::from(failed as u8)
}

/// Runs rounds until the calls are reached, and counts the groups that passed.
fn run(seed: u64, bounds: &Bounds, driver: Vec<String>, passed: &mut u32) -> Checked<()> {
    let started = Instant::now();
    let mut told = |_: &str, _: u64| {
        *passed += 1;
        in_time(started.elapsed(), bounds)
    };
    let mut compare = Compare::with(driver)?;
    groups::all(&mut compare, seed, &mut told)?;
    for round in 1.. {
        let seconds = started.elapsed().as_secs_f64();
        let rate = compare.calls() as f64 / seconds;
        println!(
            "round {round}: {} calls in {seconds:.0} s, {rate:.0} in a second",
            compare.calls()
        );
        if compare.calls() >= bounds.calls {
            break;
        }
        groups::again(&mut compare, seed.wrapping_add(round * APART), &mut told)?;
    }
    numbers::reached(&compare)
}

fn in_time(elapsed: Duration, bounds: &Bounds) -> Checked<()> {
    if elapsed <= bounds.time {
        return Ok(());
    }
    Err(Failure::wrong(format!(
        "{} s are over before {} calls were made",
        bounds.time.as_secs(),
        bounds.calls
    )))
}
