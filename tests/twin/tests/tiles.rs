//! The stored output of crates/tiles_demo, worked out again by the twin: same questions, same order.

use twin::table::SLOTS;
use twin::tiles::{Seen, right_bytes};

type Runs<'a> = ((&'a [u8], usize), (&'a [u8], usize));

/// A label, the count, the reader's own id, the newer coding's maker, and the two codings.
fn read(label: &str, count: usize, own: u64, maker: u64, (older, newer): Runs) -> String {
    let seen = Seen {
        xmax: 20,
        ids: &[10, 14],
        count,
    };
    let (refusal, part) = match right_bytes(&seen, own, maker, older, newer) {
        Ok(part) => (0, part),
        Err(number) => (number, &b""[..]),
    };
    format!(
        "{label}: refusal={refusal} part={}\n",
        String::from_utf8_lossy(part)
    )
}

/// The same, by a reader with no id.
fn line(label: &str, count: usize, maker: u64, runs: Runs) -> String {
    read(label, count, 0, maker, runs)
}

fn usual(older_used: usize, newer_used: usize) -> Runs<'static> {
    ((b"older", older_used), (b"new", newer_used))
}

fn answers() -> String {
    let over = SLOTS + 1;
    [
        line("settled", 2, 9, usual(5, 3)),
        line("listed", 2, 14, usual(5, 3)),
        line("at xmax", 2, 20, usual(5, 3)),
        line("past the count", 1, 14, usual(5, 3)),
        line("a full list", SLOTS, 9, usual(5, 3)),
        line("equal runs, settled", 2, 9, ((b"same", 4), (b"same", 4))),
        line("equal runs, listed", 2, 10, ((b"same", 3), (b"same", 4))),
        line("part of the newer", 2, 9, usual(5, 1)),
        line("part of the older", 2, 10, usual(2, 3)),
        line("none of the newer", 2, 9, usual(5, 0)),
        line("none of the older", 2, 10, usual(0, 3)),
        line("newer one beyond, chosen", 2, 9, usual(5, 4)),
        line("newer one beyond, not chosen", 2, 10, usual(5, 4)),
        line("older one beyond, chosen", 2, 10, usual(6, 3)),
        line("older one beyond, not chosen", 2, 9, usual(6, 3)),
        line("the largest length", 2, 9, usual(5, usize::MAX)),
        line("empty runs", 2, 9, ((b"", 0), (b"", 0))),
        line("one byte of an empty run", 2, 10, ((b"", 0), (b"", 1))),
        line("10", over, 9, usual(5, 3)),
        line("10 before 4", over, 0, usual(5, 3)),
        line("10 before 11", over, 9, usual(6, 3)),
        line("10 before 4 and 11", over, 0, usual(6, 4)),
        line("4", 2, 0, usual(5, 3)),
        line("4 before 11", 2, 0, usual(5, 4)),
        read("own, in flight", 2, 14, 14, usual(5, 3)),
        read("own, at xmax", 2, 20, 20, usual(5, 3)),
        read("another's, in flight", 2, 10, 14, usual(5, 3)),
        read("another's, settled", 2, 14, 9, usual(5, 3)),
        read("own, 10 first", over, 14, 14, usual(5, 3)),
        read("own, 4 first", 2, 14, 0, usual(5, 3)),
        read("own, one beyond", 2, 14, 14, usual(5, 4)),
    ]
    .concat()
}

#[test]
fn the_program_s_stored_output_is_the_twin_s() {
    assert_eq!(answers(), include_str!("../../../crates/tiles_demo/stdout"));
}

#[test]
fn the_part_lies_in_its_run() {
    let (older, newer) = (*b"same", *b"same");
    let seen = Seen {
        xmax: 20,
        ids: &[10],
        count: 1,
    };
    let start = |maker| right_bytes(&seen, 0, maker, (&older, 0), (&newer, 4)).map(<[u8]>::as_ptr);
    assert_eq!(start(9), Ok(newer.as_ptr()));
    assert_eq!(start(10), Ok(older.as_ptr()));
}
