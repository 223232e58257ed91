//! Running the program under test: a trace in, its output or what went wrong.

use std::fmt::{self, Display};
use std::io::{self, Read, Write};
use std::process::{Child, Command, ExitStatus, Stdio};
use std::sync::mpsc;
use std::thread;
use std::time::{Duration, Instant};

pub struct Program {
    pub path: String,
    pub arguments: Vec<String>,
    /// The longest that one run may take.
    pub patience: Duration,
}

#[derive(Debug)]
pub enum Failure {
    CannotRun(io::Error),
    Hangs,
    Exit(ExitStatus),
    WritesNothing,
}

impl Display for Failure {
    fn fmt(&self, out: &mut fmt::Formatter) -> fmt::Result {
        match self {
            Failure::CannotRun(error) => write!(out, "the program can't be run: {error}"),
            Failure::Hangs => write!(out, "the program doesn't come to an end"),
            Failure::Exit(status) => write!(out, "the program ends with {status}"),
            Failure::WritesNothing => write!(out, "the program writes nothing"),
        }
    }
}

impl Program {
    pub fn run(&self, input: &[u8]) -> Result<Vec<u8>, Failure> {
        let mut child = Command::new(&self.path)
            .args(&self.arguments)
            .stdin(Stdio::piped())
            .stdout(Stdio::piped())
            .stderr(Stdio::null())
            .spawn()
            .map_err(Failure::CannotRun)?;
        let outcome = self.talk(&mut child, input);
        if outcome.is_err() {
            // It may have ended by itself; then there is nothing left to stop.
            let _ = child.kill();
            let _ = child.wait();
        }
        outcome
    }

    fn talk(&self, child: &mut Child, input: &[u8]) -> Result<Vec<u8>, Failure> {
        let deadline = Instant::now() + self.patience;
        let mut stdin = child.stdin.take().expect("stdin is piped");
        let mut stdout = child.stdout.take().expect("stdout is piped");
        let input = input.to_vec();
        // A program may stop reading early: a long input is refused unread.
        thread::spawn(move || stdin.write_all(&input));
        let (sender, receiver) = mpsc::channel();
        thread::spawn(move || {
            let mut output = Vec::new();
            let read = stdout.read_to_end(&mut output);
            sender.send(read.map(|_| output))
        });
        let read = receiver.recv_timeout(self.patience);
        let output = read
            .map_err(|_| Failure::Hangs)?
            .map_err(Failure::CannotRun)?;
        let status = wait_until(child, deadline)?;
        if !status.success() {
            return Err(Failure::Exit(status));
        }
        if output.is_empty() {
            return Err(Failure::WritesNothing);
        }
        Ok(output)
    }
}

fn wait_until(child: &mut Child, deadline: Instant) -> Result<ExitStatus, Failure> {
    loop {
        if let Some(status) = child.try_wait().map_err(Failure::CannotRun)? {
            return Ok(status);
        }
        if Instant::now() > deadline {
            return Err(Failure::Hangs);
        }
        thread::sleep(Duration::from_micros(50));
    }
}
