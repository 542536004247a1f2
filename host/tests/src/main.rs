//! Compares the library with the reference through the C face, on systematic, random and hostile
//! calls.
//!
//! `compare [--seed N] DRIVER...`: the words of DRIVER start the program that makes the library's
//! calls. The seed is printed, and with the same one all calls come again. The last line counts
//! the groups of calls, `N passed, M failed`; the first difference ends the run.

use compare::compare::Compare;
use compare::failure::{Checked, Failure};
use compare::words::Words;
use compare::{groups, numbers};
use std::process::ExitCode;
use std::time::Instant;

/// The least number of calls that a run is worth.
const LEAST_CALLS: u64 = 2_000_000;

fn main() -> ExitCode {
    let mut words = Words::given();
    let seed = words.seed();
    let driver = words.rest("compare [--seed N] DRIVER...");
    println!("seed {seed}");
    let mut passed = 0;
    match run(seed, driver, &mut passed) {
        Ok(()) => {
            println!("{passed} passed, 0 failed");
            ExitCode::SUCCESS
        }
        Err(failure) => {
            println!("{failure}\nthe same calls come again with --seed {seed}");
            println!("{passed} passed, 1 failed");
            ExitCode::FAILURE
        }
    }
}

/// Runs all groups, each with random numbers of its own, and counts those that passed.
fn run(seed: u64, driver: Vec<String>, passed: &mut u32) -> Checked<()> {
    let started = Instant::now();
    let mut compare = Compare::with(driver)?;
    groups::all(&mut compare, seed, |name, calls| {
        println!("{name}: {calls} calls");
        *passed += 1;
        Ok(())
    })?;
    numbers::reached(&compare)?;
    if compare.calls() < LEAST_CALLS {
        return Err(Failure::wrong(format!("only {} calls", compare.calls())));
    }
    *passed += 1;
    let seconds = started.elapsed().as_secs();
    println!("{} calls in {seconds} s", compare.calls());
    Ok(())
}
