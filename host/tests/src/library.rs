//! The library behind its driver: a program that takes batches of requests and answers them.

use std::io::{self, Read, Write};
use std::process::{Child, ChildStdin, ChildStdout, Command, Stdio};

pub struct Library {
    driver: Child,
    requests: ChildStdin,
    answers: ChildStdout,
}

impl Library {
    /// Starts the driver by the words of its command.
    pub fn start(command: &[String]) -> io::Result<Library> {
        let mut driver = Command::new(&command[0])
            .args(&command[1..])
            .stdin(Stdio::piped())
            .stdout(Stdio::piped())
            .spawn()?;
        let requests = driver.stdin.take().expect("its input is a pipe");
        let answers = driver.stdout.take().expect("its output is a pipe");
        Ok(Library {
            driver,
            requests,
            answers,
        })
    }

    /// Hands over a batch. The driver works on it while the caller goes on.
    pub fn send(&mut self, batch: &[u8]) -> io::Result<()> {
        self.requests
            .write_all(&(batch.len() as u32).to_le_bytes())?;
        self.requests.write_all(batch)?;
        self.requests.flush()
    }

    /// Takes the answers to a batch, of a known length. An error where the driver has ended.
    pub fn receive(&mut self, length: usize) -> io::Result<Vec<u8>> {
        let mut answers = vec![0; length];
        self.answers.read_exact(&mut answers)?;
        Ok(answers)
    }
}

impl Drop for Library {
    /// A driver that still waits for requests is not left behind.
    fn drop(&mut self) {
        let _ = self.driver.kill();
        let _ = self.driver.wait();
    }
}
