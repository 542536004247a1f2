//! Tries wrong versions of the reference in the library's place: `compare` must find each of them
//! wrong in each of five runs. One that passes in any run shows what the groups of calls miss.
//!
//! `mutants [--seed N] [--runs N] EDITS REFERENCE WORK`: the directories of the edits, of the
//! reference, and where the wrong versions are built. First the reference as it stands is tried,
//! which must agree. The seed is printed, and with the same one all runs come again. The last line
//! is `N passed, M failed`.

mod copy;
mod edit;
mod trial;

use compare::words::Words;
use edit::Edit;
use std::path::PathBuf;
use std::process::ExitCode;
use std::sync::Mutex;
use std::thread;
use trial::Trial;

/// How many versions are tried at the same time.
const WORKERS: usize = 2;

fn main() -> ExitCode {
    let mut words = Words::given();
    let seed = words.seed();
    let runs = words.number("--runs").unwrap_or(5);
    let usage = "mutants [--seed N] [--runs N] EDITS REFERENCE WORK";
    let paths: Vec<PathBuf> = words.rest(usage).iter().map(PathBuf::from).collect();
    assert!(paths.len() == 3, "{usage}");
    println!("seed {seed}");
    let trial = Trial {
        reference: &paths[1],
        work: &paths[2],
        seed,
        runs,
    };
    let (passed, failed) = edit::all(&paths[0])
        .and_then(|edits| all(&trial, &edits))
        .unwrap_or_else(|why| {
            println!("{why}");
            (0, 1)
        });
    println!("{passed} passed, {failed} failed");
    if failed == 0 && passed > 0 {
        ExitCode::SUCCESS
    } else {
        ExitCode::FAILURE
    }
}

/// How many versions are caught and how many not. Where the unbroken reference does not agree, being
/// caught would mean nothing.
fn all(trial: &Trial, edits: &[Edit]) -> Result<(usize, usize), String> {
    println!("unbroken: {}", trial.unbroken()?);
    let queue = Mutex::new(edits.iter());
    let passed = Mutex::new(0);
    thread::scope(|scope| {
        for _ in 0..WORKERS {
            scope.spawn(|| worker(trial, &queue, &passed));
        }
    });
    let passed = *passed.lock().expect("no worker panics");
    Ok((passed, edits.len() - passed))
}

/// Tries versions as long as there are any.
fn worker<'a>(trial: &Trial, queue: &Mutex<impl Iterator<Item = &'a Edit>>, passed: &Mutex<usize>) {
    let next = || queue.lock().expect("no worker panics").next();
    while let Some(edit) = next() {
        match trial.caught(edit) {
            Ok(how) => {
                println!("{}: {how}", edit.label);
                *passed.lock().expect("no worker panics") += 1;
            }
            Err(why) => println!("{}: FAILED ({}): {why}", edit.label, edit.wrong),
        }
    }
}
