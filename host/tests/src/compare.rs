//! Each call is made by the reference and by the library, and what both gave and left is compared
//! byte for byte.

use crate::call::{Call, Function};
use crate::failure::{Checked, Failure};
use crate::library::Library;
use reference::ascii::bytes_of;
use std::collections::HashMap;

/// A batch goes to the driver once it has this many bytes. With the last call it stays below the
/// driver's limit of 2^20, also where that call brings the longest capture.
const BATCH_BYTES: usize = 900_000;

/// Calls as they were before they were made, and the answers that the reference gives to them.
#[derive(Default)]
struct Batch {
    calls: Vec<Call>,
    requests: Vec<u8>,
    answers: Vec<u8>,
    /// Where each call's answer ends.
    ends: Vec<usize>,
}

impl Batch {
    /// The calls, each with the place of its answer.
    fn parts(&self) -> impl Iterator<Item = (&Call, std::ops::Range<usize>)> {
        let starts = std::iter::once(&0).chain(&self.ends);
        let answers = starts.zip(&self.ends).map(|(start, end)| *start..*end);
        self.calls.iter().zip(answers)
    }
}

pub struct Compare {
    command: Vec<String>,
    library: Library,
    filling: Batch,
    /// The batch that the library works on.
    running: Batch,
    /// Calls whose outcomes were found the same.
    calls: u64,
    /// How often each number was given back by each function.
    counts: [[u64; 256]; 12],
    /// The same for frames and for lines, by the Modbus function that they ask for.
    asked: HashMap<(u8, u8), [u64; 256]>,
    /// How often a last write was found.
    found: u64,
}

impl Compare {
    /// The command starts the driver.
    pub fn with(command: Vec<String>) -> Checked<Compare> {
        Ok(Compare {
            library: started(&command)?,
            command,
            filling: Batch::default(),
            running: Batch::default(),
            calls: 0,
            counts: [[0; 256]; 12],
            asked: HashMap::new(),
            found: 0,
        })
    }

    /// Makes a call by the reference, whose result and lent arrays are handed back, and leaves it
    /// to the library to make it too.
    pub fn call(&mut self, call: &mut Call) -> Checked<u32> {
        let batch = &mut self.filling;
        batch.calls.push(call.clone());
        call.request(&mut batch.requests);
        let result = call.by_reference();
        call.answer(result, &mut batch.answers);
        batch.ends.push(batch.answers.len());
        self.counted(call, result);
        if self.filling.requests.len() >= BATCH_BYTES {
            self.turn()?;
        }
        Ok(result)
    }

    /// Makes a call that may be answered. Number and reply.
    pub fn heard(&mut self, call: &mut Call) -> Checked<(u32, Vec<u8>)> {
        let result = self.call(call)?;
        let reply = call.reply[..(result / 256) as usize].to_vec();
        Ok((result % 256, reply))
    }

    /// Compares all that is still under way.
    pub fn finish(&mut self) -> Checked<()> {
        self.turn()?;
        self.turn()
    }

    pub fn calls(&self) -> u64 {
        self.calls
    }

    fn counted(&mut self, call: &Call, result: u32) {
        let number = (result % 256) as usize;
        self.counts[call.function as usize][number] += 1;
        if let Some(asked) = asked(call) {
            let counts = self.asked.entry((call.function as u8, asked));
            counts.or_insert([0; 256])[number] += 1;
        }
        if call.function == Function::LastWrite && result >= 256 {
            self.found += 1;
        }
    }

    /// How often a function gave each number back.
    pub fn counts(&self, function: Function) -> &[u64; 256] {
        &self.counts[function as usize]
    }

    /// How often a function gave each number back to what asks for a Modbus function.
    pub fn counts_asked(&self, function: Function, asked: u8) -> [u64; 256] {
        let counts = self.asked.get(&(function as u8, asked));
        counts.copied().unwrap_or([0; 256])
    }

    /// How often a last write was found.
    pub fn found(&self) -> u64 {
        self.found
    }

    /// Takes in the answers to the running batch and hands over the filled one.
    fn turn(&mut self) -> Checked<()> {
        let batch = std::mem::take(&mut self.running);
        match self.library.receive(batch.answers.len()) {
            Ok(answers) => {
                for (call, place) in batch.parts() {
                    self.same(call, &batch.answers[place.clone()], &answers[place])?;
                }
            }
            Err(_) => self.one_by_one(&batch)?,
        }
        self.running = std::mem::take(&mut self.filling);
        self.library
            .send(&self.running.requests)
            .map_err(|error| Failure::no_answer(format!("the driver takes no requests: {error}")))
    }

    /// Compares the answers to one call.
    fn same(&mut self, call: &Call, reference: &[u8], library: &[u8]) -> Checked<()> {
        if reference == library {
            self.calls += 1;
            return Ok(());
        }
        Err(Failure::wrong(format!(
            "call {} differs\n{call}\nreference: {}\nlibrary: {}",
            self.calls + 1,
            call.shown(reference),
            call.shown(library)
        )))
    }

    /// The library has ended its driver somewhere in a batch. The calls are made again, each as a
    /// batch of its own, to find where.
    fn one_by_one(&mut self, batch: &Batch) -> Checked<()> {
        self.library = started(&self.command)?;
        for (call, place) in batch.parts() {
            let mut request = vec![];
            call.request(&mut request);
            let sent = self.library.send(&request);
            match sent.and_then(|()| self.library.receive(place.len())) {
                Ok(answer) => self.same(call, &batch.answers[place], &answer)?,
                Err(_) => {
                    let number = self.calls + 1;
                    let why = format!("call {number} ends the driver\n{call}");
                    return Err(Failure::no_answer(why));
                }
            }
        }
        Err(Failure::no_answer(
            "the driver ended, and not again in the same calls".to_string(),
        ))
    }
}

/// The Modbus function that a frame asks for, or a line with a message in it.
fn asked(call: &Call) -> Option<u8> {
    match call.function {
        Function::Rtu => call.input.get(1).copied(),
        Function::Ascii => bytes_of(&call.input).map(|bytes| bytes[1]),
        _ => None,
    }
}

fn started(command: &[String]) -> Checked<Library> {
    Library::start(command)
        .map_err(|error| Failure::no_answer(format!("{}: {error}", command.join(" "))))
}
