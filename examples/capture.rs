//! How a host captures a run: beside each call it keeps six numbers, under the lock that it holds for the call, and writes
//! them down as a trace when it likes. It needs nothing of Sockhurdle.
//!
//! `capture` prints a short run as a trace, for operator/picture; `capture --time` what keeping and writing cost.

use std::fmt::Write;
use std::hint::black_box;
use std::time::Instant;

/// The ops in the order of docs/TRACE.md, numbered from 1, as `trace_writer` has them.
const OPS: [&str; 10] = [
    "begin", "end", "snap", "own", "oldest", "vacuum", "stamp", "finish", "pin", "unpin",
];
const BEGIN: u64 = 1;
const OWN: u64 = 4;
const VACUUM: u64 = 6;
const FINISH: u64 = 8;
const PIN: u64 = 9;
const UNPIN: u64 = 10;

/// No trace has more records.
const MOST: usize = 1_489;

struct Capture {
    /// op, slot, id, stamp, clock, sample; what the op doesn't read is 0
    calls: Vec<[u64; 6]>,
}

impl Capture {
    /// All its room is made here, so that nothing is allocated under the lock.
    fn new() -> Capture {
        let calls = Vec::with_capacity(MOST);
        Capture { calls }
    }

    /// Under the lock, beside the call. What has no room is not kept: the beginning of a run is a run.
    #[inline]
    fn keep(&mut self, call: [u64; 6]) {
        if self.calls.len() < MOST {
            self.calls.push(call);
        }
    }

    /// Outside the lock. Six lines a call, as long as they have room in a trace.
    fn text(&self) -> String {
        let mut text = String::from("trace=proc-3\n");
        for &[op, slot, id, stamp, clock, sample] in &self.calls {
            let whole = text.len();
            let op = OPS[op as usize - 1];
            let _ = write!(
                text,
                "op={op}\nslot={slot}\nid={id}\nstamp={stamp}\nclock={clock}\nsample={sample}\n"
            );
            if text.len() > 65_536 {
                text.truncate(whole);
                break;
            }
        }
        text
    }
}

fn main() {
    let mut capture = Capture::new();
    if std::env::args().nth(1).as_deref() == Some("--time") {
        return time(&mut capture);
    }
    // A page is registered and takes its snapshot, a window page pins one, a re-encode comes and goes; then the pages go,
    // and the vacuum asks each time.
    capture.keep([BEGIN, 0, 0, 1, 0, 0]);
    capture.keep([OWN, 0, 1, 0, 2, 2]);
    capture.keep([PIN, 0, 0, 0, 2, 2]);
    capture.keep([BEGIN, 0, 0, 2, 0, 0]);
    capture.keep([FINISH, 1, 2, 3, 0, 0]);
    capture.keep([VACUUM, 0, 0, 0, 4, 4]);
    capture.keep([FINISH, 0, 1, 4, 0, 0]);
    capture.keep([VACUUM, 0, 0, 0, 5, 5]);
    capture.keep([UNPIN, 0, 0, 0, 0, 0]);
    capture.keep([VACUUM, 0, 0, 0, 5, 5]);
    print!("{}", capture.text());
}

/// The least of many runs, in nanoseconds a call.
fn time(capture: &mut Capture) {
    let (mut keep, mut write) = (f64::MAX, f64::MAX);
    for _ in 0..2_000 {
        capture.calls.clear();
        let begun = Instant::now();
        for number in 0..1_000 {
            black_box(&mut *capture).keep(black_box([BEGIN, 0, 0, number, 0, 0]));
        }
        keep = keep.min(begun.elapsed().as_nanos() as f64 / 1_000.0);
        let begun = Instant::now();
        black_box(capture.text());
        write = write.min(begun.elapsed().as_nanos() as f64 / 1_000.0);
    }
    println!("keeping a call: {keep:.1} ns; writing it as text: {write:.0} ns");
}
