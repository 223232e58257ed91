//! Timing ways of replaying the same trace, taken in turn.

use std::fs::File;
use std::io::{self, Read};
use std::path::Path;
use std::process::{Command, Stdio};
use std::time::{Duration, Instant};

/// The times of several runs.
#[derive(Clone, Default)]
pub struct Times {
    runs: Vec<Duration>,
}

impl Times {
    pub fn add(&mut self, time: Duration) {
        self.runs.push(time);
        self.runs.sort();
    }

    pub fn median(&self) -> Duration {
        self.part(2)
    }

    pub fn least(&self) -> Duration {
        self.part(0)
    }

    /// The lower and the upper quartile.
    pub fn quartiles(&self) -> [Duration; 2] {
        [self.part(1), self.part(3)]
    }

    /// The time that is reached by so many quarters of the runs.
    fn part(&self, quarters: usize) -> Duration {
        self.runs[(self.runs.len() - 1) * quarters / 4]
    }
}

/// The time of one of `turns` replays in a row.
pub fn in_a_row(turns: u32, mut replay: impl FnMut()) -> Duration {
    let start = Instant::now();
    for _ in 0..turns {
        replay();
    }
    start.elapsed() / turns
}

/// Runs a program with the file as its standard input, and reads all of its output into
/// `out`, which keeps its room from run to run.
pub fn whole_process(program: &str, input: &Path, out: &mut Vec<u8>) -> io::Result<Duration> {
    let input = File::open(input)?;
    out.clear();
    let start = Instant::now();
    let mut child = Command::new(program)
        .stdin(Stdio::from(input))
        .stdout(Stdio::piped())
        .stderr(Stdio::null())
        .spawn()?;
    let mut stdout = child.stdout.take().expect("stdout is piped");
    stdout.read_to_end(out)?;
    let status = child.wait()?;
    let time = start.elapsed();
    if status.success() {
        Ok(time)
    } else {
        Err(io::Error::other(format!("{program} ends with {status}")))
    }
}
