//! Reading: every cut of a good text, and the numbers at the edges.

use twin::trace::Version::{self, Proc1, Proc2, Proc3};
use twin::trace::{BadTrace, LIMIT, read};

const GOOD: &str = "trace=proc-1\n\
    op=begin\nslot=0\nid=0\nstamp=5\nclock=0\nsample=0\n\
    op=own\nslot=0\nid=5\nstamp=0\nclock=9\nsample=3\n";

fn line(text: &str) -> Option<usize> {
    read(text.as_bytes()).err().map(|broken| broken.line)
}

#[test]
fn every_cut_breaks_at_its_last_line_or_the_missing_one() {
    for length in 0..=GOOD.len() {
        let cut = &GOOD[..length];
        let complete = cut.matches('\n').count();
        let whole = cut.ends_with('\n') && complete % 6 == 1;
        let expected = if whole { None } else { Some(complete + 1) };
        assert_eq!(line(cut), expected, "cut at {length}");
    }
}

#[test]
fn every_spoilt_byte_breaks_its_own_line() {
    for place in 0..GOOD.len() {
        let mut text = GOOD.as_bytes().to_vec();
        let at = GOOD[..place].matches('\n').count() + 1;
        text[place] = b'~';
        assert_eq!(read(&text), Err(BadTrace { line: at }), "byte {place}");
    }
}

#[test]
fn numbers_at_the_edges() {
    let with = |slot: &str, id: &str| {
        line(&format!(
            "trace=proc-1\nop=end\nslot={slot}\nid={id}\nstamp=0\nclock=0\nsample=0\n"
        ))
    };
    assert_eq!(with("65535", "18446744073709551615"), None);
    assert_eq!(with("65536", "1"), Some(3));
    assert_eq!(with("1", "18446744073709551616"), Some(4));
    for bad in ["", "00", "01", "+1", "-0", " 1", "1 ", "1\r", "0x1", "1.0"] {
        assert_eq!(with(bad, "1"), Some(3), "{bad:?}");
        assert_eq!(with("1", bad), Some(4), "{bad:?}");
    }
}

#[test]
fn the_length_is_tested_first() {
    assert_eq!(read(&vec![b'x'; LIMIT]), Err(BadTrace { line: 1 }));
    assert_eq!(read(&vec![b'x'; LIMIT + 1]), Err(BadTrace { line: 0 }));
}

#[test]
fn three_headers_are_known() {
    for version in Version::ALL {
        let text = GOOD.replace("trace=proc-1", version.header());
        let trace = read(text.as_bytes()).expect("a trace");
        assert_eq!((trace.version, trace.records.len()), (version, 2));
    }
    for other in ["proc-0", "proc-4", "proc-12", "proc-", "proc-2 "] {
        assert_eq!(line(&GOOD.replace("proc-1", other)), Some(1), "{other:?}");
    }
}

#[test]
fn pins_are_ops_of_the_last_header_alone() {
    let pin = "op=pin\nslot=0\nid=0\nstamp=0\nclock=9\nsample=3\n";
    let unpin = "op=unpin\nslot=63\nid=0\nstamp=0\nclock=0\nsample=0\n";
    for (version, allowed) in [(Proc1, false), (Proc2, false), (Proc3, true)] {
        let text = |records: &str| format!("{}\n{records}", version.header());
        for op in [pin, unpin] {
            let broken = if allowed { None } else { Some(2) };
            assert_eq!(line(&text(op)), broken, "{op}");
        }
        let both = if allowed { None } else { Some(8) };
        let end = "op=end\nslot=0\nid=0\nstamp=0\nclock=0\nsample=0\n";
        assert_eq!(line(&text(&[end, pin, unpin].concat())), both);
    }
}

#[test]
fn a_pin_reads_clock_and_sample_a_release_its_slot() {
    let fields = |op: &str, numbers: [u64; 5]| {
        let [slot, id, stamp, clock, sample] = numbers;
        line(&format!(
            "trace=proc-3\nop={op}\nslot={slot}\nid={id}\nstamp={stamp}\nclock={clock}\nsample={sample}\n"
        ))
    };
    for place in 0..5 {
        let mut numbers = [0; 5];
        numbers[place] = 1;
        let at = |reads: [bool; 5]| (!reads[place]).then_some(place + 3);
        assert_eq!(
            fields("pin", numbers),
            at([false, false, false, true, true])
        );
        assert_eq!(
            fields("unpin", numbers),
            at([true, false, false, false, false])
        );
    }
}
