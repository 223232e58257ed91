//! The twin's writer: its texts are what the twin's reader reads back.

use twin::trace::Version::{self, Proc1, Proc2, Proc3};
use twin::{trace, writer};

#[test]
fn no_rows_are_the_header_alone() {
    assert_eq!(writer::write(Proc1, &[], 13), Ok("trace=proc-1\n".into()));
    assert_eq!(writer::write(Proc2, &[], 13), Ok("trace=proc-2\n".into()));
    assert_eq!(writer::write(Proc3, &[], 13), Ok("trace=proc-3\n".into()));
    assert_eq!(writer::write(Proc1, &[], 12), Err(12));
}

#[test]
fn a_row_of_zeros_is_refusal_20_before_12() {
    assert_eq!(writer::write(Proc1, &[[0; 6]], 0), Err(20));
}

#[test]
fn what_is_written_is_read_back() {
    for seed in 1..=500 {
        let (version, rows, _) = writer::generate(seed);
        let Ok(text) = writer::write(version, &rows, usize::MAX) else {
            continue;
        };
        let trace = trace::read(text.as_bytes()).expect("a text of the writer");
        assert_eq!(trace.version, version);
        let numbers: Vec<[u64; 5]> = trace
            .records
            .iter()
            .map(|r| [r.slot.into(), r.id, r.stamp, r.clock, r.sample])
            .collect();
        let given: Vec<[u64; 5]> = rows.iter().map(|r| r[1..].try_into().unwrap()).collect();
        assert_eq!(numbers, given, "seed {seed}");
    }
}

/// A pin is op 9 and a release op 10, under the last header alone; there is no op 11.
#[test]
fn pins_under_an_earlier_header_are_refusal_20() {
    let rows = [[9, 0, 0, 0, 9, 3], [10, 63, 0, 0, 0, 0]];
    for (version, refused) in [(Proc1, true), (Proc2, true), (Proc3, false)] {
        for row in rows {
            let written = writer::write(version, &[row], usize::MAX);
            assert_eq!(written.err(), refused.then_some(20), "{row:?}");
        }
        assert_eq!(writer::write(version, &[[11, 0, 0, 0, 0, 0]], 0), Err(20));
    }
    let text = writer::write(Proc3, &rows, usize::MAX).unwrap();
    assert!(text.starts_with("trace=proc-3\nop=pin\nslot=0\nid=0\nstamp=0\nclock=9\nsample=3\n"));
    assert!(text.ends_with("op=unpin\nslot=63\nid=0\nstamp=0\nclock=0\nsample=0\n"));
}

/// Some runs are refused for their header alone.
#[test]
fn the_seeds_have_pins_under_every_header() {
    let pinned = |row: &writer::Row| matches!(row[0], 9 | 10);
    for version in Version::ALL {
        let mut runs = (1..=2_000).map(writer::generate);
        let found = runs.any(|(headed, rows, _)| {
            let good = writer::write(Proc3, &rows, usize::MAX) != Err(20);
            headed == version && good && rows.iter().any(pinned)
        });
        assert!(found, "{}", version.header());
    }
}

#[test]
fn the_borders_are_where_they_should_be() {
    let lengths: Vec<(&str, usize)> = writer::borders()
        .into_iter()
        .filter_map(|(name, rows, size)| {
            Some((name, writer::write(Proc1, &rows, size).ok()?.len()))
        })
        .collect();
    assert!(lengths.contains(&("1,489 rows, exactly full", 65_529)));
    assert!(lengths.contains(&("65,536 bytes, exactly full", 65_536)));
    assert!(!lengths.iter().any(|(name, _)| name.contains("short")));
}
