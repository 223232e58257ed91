//! Runs the replay program, the operator's command and the shortest host at their border: inputs and outputs that are
//! slow, short, cut or not there.
//!
//! border PROGRAM COMMAND BARE CARELESS SHIM CASES, with the folder of the stored cases; the last line is
//! 'N passed, M failed'. CARELESS is a host with a fault at its border, which has to be seen.

use std::fs::{self, File};
use std::io::{Read, Write};
use std::net::Shutdown;
use std::os::fd::OwnedFd;
use std::os::unix::net::UnixStream;
use std::os::unix::process::ExitStatusExt;
use std::path::{Path, PathBuf};
use std::process::{Child, Command, Stdio};
use std::thread;
use std::time::Duration;

use twin::race_traces;

/// The same program three times: as Rattle has it, with words alone; under a main with a status and words; with the
/// status alone.
#[derive(Clone, Copy, PartialEq)]
enum Who {
    Program,
    Command,
    Bare,
}

/// How a run has to end.
#[derive(Clone, Copy, PartialEq, Debug)]
enum End {
    Done = 0,
    Unwritten = 1,
    Unread = 2,
    NoTrace = 3,
}

impl End {
    /// A word that standard error has to have; nothing is said of a success.
    fn word(self) -> &'static str {
        match self {
            End::Done => "",
            End::Unwritten => "could not be written",
            End::Unread => "could not be read",
            End::NoTrace => "is no trace",
        }
    }
}

/// What a run left.
struct Ran {
    status: Option<i32>,
    signal: Option<i32>,
    out: Vec<u8>,
    err: String,
}

struct Border {
    program: String,
    command: String,
    bare: String,
    /// What the shortest host is told: the fault that it has, where it is the careless one.
    told: Option<String>,
    shim: String,
    /// Who is run.
    all: Vec<Who>,
    passed: usize,
    failed: usize,
}

/// What every host is run on.
struct Texts {
    small: Vec<u8>,
    large: Vec<u8>,
    broken: Vec<u8>,
}

const SIGPIPE: i32 = 13;
const EIO: i32 = 5;
const EAGAIN: i32 = 11;

fn main() {
    let arguments: Vec<String> = std::env::args().skip(1).collect();
    let [program, command, bare, careless, shim, cases] = arguments.as_slice() else {
        eprintln!("usage: border PROGRAM COMMAND BARE CARELESS SHIM CASES");
        std::process::exit(2);
    };
    let mut border = Border {
        program: program.clone(),
        command: command.clone(),
        bare: bare.clone(),
        told: None,
        shim: shim.clone(),
        all: vec![Who::Program, Who::Command, Who::Bare],
        passed: 0,
        failed: 0,
    };
    let small = fs::read(Path::new(cases).join("runs/whole-case.trace")).unwrap_or_default();
    border.is(
        "the small trace",
        small.len() > 100,
        "no whole-case.trace among the cases",
    );
    let large = race_traces::all()
        .into_iter()
        .find(|trace| trace.name == "snapshots of all, proc-1");
    let large = large.expect("the race has such a trace").text;
    let mut broken = small.clone();
    broken.truncate(small.len() - 3);
    let texts = Texts {
        small,
        large,
        broken,
    };

    border.everywhere(&texts);
    border.words(Path::new(cases));
    border.sees_faults(careless, &texts);
    println!("{} passed, {} failed", border.passed, border.failed);
    if border.failed > 0 || border.passed == 0 {
        std::process::exit(1);
    }
}

/// What the twin prints.
fn right(text: &[u8]) -> Vec<u8> {
    let mut out = Vec::new();
    twin::replay::replay(text, &mut out).expect("a vector takes every byte");
    out
}

/// Whether an output says of itself that it is all: its last line is whole, and is the count, the second engine's line or refusal 9's.
fn is_all(out: &[u8]) -> bool {
    let Some(lines) = out.strip_suffix(b"\n") else {
        return false;
    };
    let last = lines.rsplit(|&byte| byte == b'\n').next().unwrap_or(b"");
    [&b"records="[..], b"agree=", b"at="]
        .iter()
        .any(|key| last.starts_with(key))
}

impl Border {
    fn is(&mut self, what: &str, good: bool, otherwise: &str) {
        if good {
            self.passed += 1;
        } else {
            self.failed += 1;
            // of a careless host only the number of its failures counts
            if self.told.is_none() {
                println!("FAILED {what}: {otherwise}");
            }
        }
    }

    fn everywhere(&mut self, texts: &Texts) {
        let Texts {
            small,
            large,
            broken,
        } = texts;
        self.plain(small, large, broken);
        self.slow(&[small, broken]);
        self.short(&[(small, 1), (broken, 1), (small, 7), (large, 1000)]);
        self.reads_fail(small);
        self.writes_fail(small, large);
        self.no_input(small);
        self.no_output(large);
    }

    /// That these tests can fail: a host with a fault fails some of them, and the same host without one fails none.
    fn sees_faults(&mut self, careless: &str, texts: &Texts) {
        let list = Command::new(careless).arg("--list").output();
        let list = String::from_utf8(list.expect("a host that runs").stdout).expect("names");
        self.is("faults", list.lines().count() > 5, "there are few");
        for fault in list.lines().chain(["none"]) {
            let mut other = Border {
                program: self.program.clone(),
                command: self.command.clone(),
                bare: careless.to_string(),
                told: Some(fault.to_string()),
                shim: self.shim.clone(),
                all: vec![Who::Bare],
                passed: 0,
                failed: 0,
            };
            other.everywhere(texts);
            self.is(
                &format!("a host with the fault '{fault}'"),
                (other.failed > 0) == (fault != "none"),
                &format!("{} passed, {} failed", other.passed, other.failed),
            );
        }
    }

    fn call(&self, who: Who) -> Command {
        let mut call = Command::new(match who {
            Who::Program => &self.program,
            Who::Command => &self.command,
            Who::Bare => &self.bare,
        });
        call.args(&self.told);
        call
    }

    /// The same with a C library that moves few bytes, or fails.
    fn shimmed(&self, who: Who, settings: &[(&str, usize)]) -> Command {
        let mut call = self.call(who);
        call.env("LD_PRELOAD", &self.shim);
        for (name, value) in settings {
            call.env(name, value.to_string());
        }
        call
    }

    /// Holds a run to the output that it has to leave, and to how it has to end.
    fn held(&mut self, what: &str, who: Who, ran: &Ran, out: &[u8], end: End) {
        let status = match who {
            Who::Program => 0,
            Who::Command | Who::Bare => end as i32,
        };
        let name = format!(
            "{what}, {}",
            match who {
                Who::Program => "program",
                Who::Command => "command",
                Who::Bare => "shortest host",
            }
        );
        let otherwise = format!(
            "status {:?}, signal {:?}, {} bytes, said {:?}",
            ran.status,
            ran.signal,
            ran.out.len(),
            ran.err
        );
        let said = if end == End::Done || who == Who::Bare {
            ran.err.is_empty()
        } else {
            ran.err.contains(end.word())
        };
        self.is(
            &name,
            ran.status == Some(status) && ran.out == out && said,
            &otherwise,
        );
        let all = matches!(end, End::Done | End::NoTrace);
        self.is(
            &format!("{name}, last line"),
            is_all(&ran.out) == all,
            "it says something else of itself",
        );
    }

    fn plain(&mut self, small: &[u8], large: &[u8], broken: &[u8]) {
        for who in self.all.clone() {
            for (text, end) in [
                (small, End::Done),
                (large, End::Done),
                (broken, End::NoTrace),
                (b"", End::NoTrace),
            ] {
                let ran = fed(self.call(who), text.to_vec(), None);
                self.held("plain", who, &ran, &right(text), end);
            }
        }
    }

    /// Byte by byte, each some time after the last.
    fn slow(&mut self, texts: &[&[u8]]) {
        for who in self.all.clone() {
            for text in texts {
                let ran = fed(
                    self.call(who),
                    text.to_vec(),
                    Some(Duration::from_micros(300)),
                );
                self.held("slow pipe", who, &ran, &right(text), ended(text));
            }
        }
    }

    /// Reads and writes that move few bytes each.
    fn short(&mut self, texts: &[(&[u8], usize)]) {
        for who in self.all.clone() {
            for (text, most) in texts {
                let ran = fed(self.shimmed(who, &[("SHORT", *most)]), text.to_vec(), None);
                self.held("short counts", who, &ran, &right(text), ended(text));
            }
        }
    }

    /// A read that fails, after any number of bytes: record boundaries are among them.
    fn reads_fail(&mut self, text: &[u8]) {
        for who in self.all.clone() {
            for turn in 1..=text.len() + 1 {
                let error = [EIO, EAGAIN][turn % 2] as usize;
                let settings = [("SHORT", 1), ("FAIL_READ", turn), ("ERROR", error)];
                let ran = fed(self.shimmed(who, &settings), text.to_vec(), None);
                self.held("failed read", who, &ran, b"", End::Unread);
            }
        }
    }

    /// A write that fails, after any number of bytes, and after each piece of a long output.
    fn writes_fail(&mut self, text: &[u8], large: &[u8]) {
        let out = right(text);
        for who in self.all.clone() {
            for turn in 1..=out.len() {
                let settings = [("SHORT", 1), ("FAIL_WRITE", turn)];
                let ran = fed(self.shimmed(who, &settings), text.to_vec(), None);
                self.held("failed write", who, &ran, &out[..turn - 1], End::Unwritten);
            }
            let mut before = 0;
            for turn in 1..=4 {
                let ran = fed(
                    self.shimmed(who, &[("FAIL_WRITE", turn)]),
                    large.to_vec(),
                    None,
                );
                let cut = &right(large)[..ran.out.len()];
                self.held("failed piece", who, &ran, cut, End::Unwritten);
                let lines = ran.out.is_empty() || ran.out.ends_with(b"\n");
                self.is(
                    "a piece ends with a line",
                    lines && (turn == 1 || ran.out.len() > before),
                    "it doesn't",
                );
                before = ran.out.len();
            }
        }
    }

    /// Inputs that can't be read: closed, a directory, one that has nothing yet, one that is waited for in vain.
    fn no_input(&mut self, text: &[u8]) {
        // a whole trace of one record, whose second has not come yet
        let one = &text[..first_record(text)];
        for who in self.all.clone() {
            let ran = in_shell(self.call(who), "<&-", Stdio::null());
            self.held("closed input", who, &ran, b"", End::Unread);
            let mut call = self.call(who);
            call.stdin(File::open("/").expect("there is a root"));
            let ran = taken(spawned(&mut call));
            self.held("directory", who, &ran, b"", End::Unread);
            for patience in [None, Some(Duration::from_millis(30))] {
                let (mut ours, theirs) = UnixStream::pair().expect("a pair of sockets");
                match patience {
                    None => theirs.set_nonblocking(true),
                    some => theirs.set_read_timeout(some),
                }
                .expect("a socket that doesn't wait for ever");
                ours.write_all(one).expect("room for a record");
                let mut call = self.call(who);
                call.stdin(OwnedFd::from(theirs));
                let ran = taken(spawned(&mut call));
                self.held("nothing more yet", who, &ran, b"", End::Unread);
                drop(ours);
            }
            // a writer that closes its end has ended the input: this is a trace
            let (mut ours, theirs) = UnixStream::pair().expect("a pair of sockets");
            ours.write_all(one).expect("room for a record");
            ours.shutdown(Shutdown::Write).expect("an end");
            let mut call = self.call(who);
            call.stdin(OwnedFd::from(theirs));
            let ran = taken(spawned(&mut call));
            self.held("ended after a record", who, &ran, &right(one), End::Done);
        }
    }

    /// Outputs that can't be written: closed, full, not taken, a pipe whose reader leaves.
    fn no_output(&mut self, text: &[u8]) {
        let all = right(text);
        for who in self.all.clone() {
            for to in [">&-", ">/dev/full"] {
                let ran = in_shell(self.call(who), to, Stdio::piped());
                self.held(to, who, &ran, b"", End::Unwritten);
            }
            // a socket that takes what has room and then nothing more
            let (mut ours, theirs) = UnixStream::pair().expect("a pair of sockets");
            theirs
                .set_nonblocking(true)
                .expect("a socket that doesn't wait");
            let mut call = self.call(who);
            call.stdin(Stdio::piped())
                .stdout(OwnedFd::from(theirs))
                .stderr(Stdio::piped());
            let mut child = call.spawn().expect("a program that runs");
            drop(call);
            feed(&mut child, text.to_vec(), None);
            let mut ran = taken(child);
            ours.read_to_end(&mut ran.out).expect("what had room");
            let cut = &all[..ran.out.len().min(all.len() - 1)];
            self.held("nobody reads", who, &ran, cut, End::Unwritten);
            for some in [0, 1000] {
                self.reader_leaves(who, text, &all, some);
            }
        }
    }

    /// A reader that leaves after some bytes. The signal ends the shortest host; the program, whose start ignores the signal as
    /// Rust's does, and the command see a write that fails.
    fn reader_leaves(&mut self, who: Who, text: &[u8], all: &[u8], some: usize) {
        let mut child = spawned(self.call(who).stdin(Stdio::piped()));
        let mut pipe = child.stdout.take().expect("stdout is piped");
        if some == 0 {
            drop(pipe);
            feed(&mut child, text.to_vec(), None);
        } else {
            feed(&mut child, text.to_vec(), None);
            let mut first = vec![0; some];
            let came = pipe.read_exact(&mut first).is_ok() && all.starts_with(&first);
            self.is(
                "what came before the reader left",
                came,
                "it is no beginning of the output",
            );
            drop(pipe);
        }
        let ran = taken(child);
        let good = match who {
            Who::Bare => ran.signal == Some(SIGPIPE),
            Who::Program => ran.status == Some(0) && ran.err.contains(End::Unwritten.word()),
            Who::Command => ran.status == Some(1) && ran.err.contains(End::Unwritten.word()),
        };
        let otherwise = format!(
            "status {:?}, signal {:?}, said {:?}",
            ran.status, ran.signal, ran.err
        );
        self.is("the reader leaves", good, &otherwise);
    }

    /// Every stored text that is no trace gets a reason, and some the very one.
    fn words(&mut self, cases: &Path) {
        let mut seen = 0;
        let files = stored(cases);
        for file in &files {
            let text = fs::read(file).expect("a stored case");
            let name = file
                .file_stem()
                .unwrap_or_default()
                .to_string_lossy()
                .into_owned();
            let out = right(&text);
            let ran = fed(self.call(Who::Command), text.clone(), None);
            self.held(&name, Who::Command, &ran, &out, ended(&text));
            if ended(&text) == End::Done {
                continue;
            }
            seen += 1;
            let vague = ran.err.contains("breaks a rule of docs");
            self.is(
                &format!("{name}, why"),
                !vague,
                &format!("no reason is given: {}", ran.err.trim()),
            );
            if let Some((_, words)) = REASONS.iter().find(|(case, _)| *case == name) {
                self.is(
                    &format!("{name}, words"),
                    ran.err.contains(words),
                    &format!("not '{words}': {}", ran.err.trim()),
                );
            }
        }
        self.is(
            "stored texts that are no traces",
            seen > 50,
            "there are few",
        );
        let known = |case: &str| {
            files
                .iter()
                .any(|file| file.file_stem().is_some_and(|stem| stem == case))
        };
        for (case, _) in REASONS {
            self.is(case, known(case), "no such case is stored");
        }
        let long = vec![b'x'; 70_000];
        let ran = fed(self.call(Who::Command), long, None);
        self.held(
            "long",
            Who::Command,
            &ran,
            b"answer=9\nat=0\n",
            End::NoTrace,
        );
        self.is(
            "long, words",
            ran.err.contains("longer than 65,536 bytes"),
            &ran.err,
        );
    }
}

/// Stored texts, and what has to be said of each.
const REASONS: [(&str, &str); 27] = [
    (
        "all-lines-crlf",
        "Line 1, where `trace=proc-1`, `trace=proc-2` or `trace=proc-3` has to stand, is `trace=proc-1\\r`: it ends in a carriage return",
    ),
    (
        "number-crlf",
        "Line 5, where `stamp=` of record 1 has to stand, is `stamp=5\\r`: it ends in a carriage return",
    ),
    ("number-plus", "is `stamp=+5`: a number has no sign"),
    ("number-minus", "is `stamp=-5`: a number has no sign"),
    (
        "number-leading-zero",
        "is `stamp=05`: a number has no leading zero",
    ),
    (
        "number-one-above",
        "a number is at most 18446744073709551615",
    ),
    ("number-empty", "it has no number"),
    ("number-letter", "is no digit"),
    ("number-space-before", "it has a space"),
    ("slot-65536", "is `slot=65536`: a slot is at most 65535"),
    (
        "unread-begin-slot",
        "begin reads no slot, so it has to be 0",
    ),
    (
        "unread-vacuum-stamp",
        "vacuum reads no stamp, so it has to be 0",
    ),
    (
        "unread-finish-sample",
        "finish reads no sample, so it has to be 0",
    ),
    ("op-unknown", "is `op=commit`: no op has this name"),
    ("op-empty", "it names no op"),
    ("key-other", "its key is not"),
    ("key-upper-case", "a key is in lower case"),
    ("blank-line-between", "it is empty"),
    (
        "text-empty",
        "It is empty: line 1 has to be `trace=proc-1`, `trace=proc-2` or `trace=proc-3`",
    ),
    (
        "incomplete-after-id",
        "It is cut short: line 5 is missing, where `stamp=` of record 1 has to stand",
    ),
    (
        "unterminated-stamp",
        "it is cut short, or its newline is missing",
    ),
    ("header-other", "no such version is known"),
    (
        "op-pin",
        "is `op=pin`: this op stands under `trace=proc-3` alone",
    ),
    (
        "proc-2-unpin",
        "is `op=unpin`: this op stands under `trace=proc-3` alone",
    ),
    (
        "op-pins",
        "no op has this name; they are begin, end, snap, own, oldest, vacuum, stamp, finish, pin, unpin",
    ),
    ("unread-pin-slot", "pin reads no slot, so it has to be 0"),
    ("unread-unpin-id", "unpin reads no id, so it has to be 0"),
];

/// How a run on a text ends where nothing fails.
fn ended(text: &[u8]) -> End {
    if right(text).starts_with(b"answer=9\n") {
        End::NoTrace
    } else {
        End::Done
    }
}

/// The length of the header and the first record.
fn first_record(text: &[u8]) -> usize {
    let ends = text.iter().enumerate().filter(|(_, byte)| **byte == b'\n');
    ends.map(|(place, _)| place + 1)
        .nth(6)
        .expect("a trace of a record")
}

fn spawned(call: &mut Command) -> Child {
    call.stdout(Stdio::piped())
        .stderr(Stdio::piped())
        .spawn()
        .expect("a program that runs")
}

/// Feeds a text in another thread, so that a program may write before it has read; it may also leave early.
fn feed(child: &mut Child, text: Vec<u8>, pause: Option<Duration>) {
    let mut stdin = child.stdin.take().expect("stdin is piped");
    thread::spawn(move || match pause {
        None => stdin.write_all(&text),
        Some(pause) => text.chunks(1).try_for_each(|byte| {
            thread::sleep(pause);
            stdin.write_all(byte)
        }),
    });
}

fn fed(mut call: Command, text: Vec<u8>, pause: Option<Duration>) -> Ran {
    let mut child = spawned(call.stdin(Stdio::piped()));
    feed(&mut child, text, pause);
    taken(child)
}

/// Through a shell, which can close a descriptor. Its input is a trace where it has one.
fn in_shell(call: Command, redirected: &str, input: Stdio) -> Ran {
    let mut shell = Command::new("sh");
    shell
        .args(["-c", &format!("exec \"$0\" \"$@\" {redirected}")])
        .arg(call.get_program())
        .args(call.get_args())
        .stdin(input);
    let mut child = spawned(&mut shell);
    if child.stdin.is_some() {
        feed(&mut child, b"trace=proc-1\n".to_vec(), None);
    }
    taken(child)
}

fn taken(child: Child) -> Ran {
    let output = child.wait_with_output().expect("a program that ends");
    Ran {
        status: output.status.code(),
        signal: output.status.signal(),
        out: output.stdout,
        err: String::from_utf8_lossy(&output.stderr).into_owned(),
    }
}

/// The stored traces in a folder and the folders in it, in the order of their names.
fn stored(folder: &Path) -> Vec<PathBuf> {
    let mut found = Vec::new();
    let entries = fs::read_dir(folder).expect("a folder of cases");
    for path in entries.flatten().map(|entry| entry.path()) {
        if path.is_dir() {
            found.extend(stored(&path));
        } else if path.extension().is_some_and(|end| end == "trace") {
            found.push(path);
        }
    }
    found.sort();
    found
}
