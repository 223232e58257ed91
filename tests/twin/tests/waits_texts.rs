//! The texts of a wait and of a table: every cut of a good one, and the numbers at the edges.

use twin::table::{PINS, SLOTS, Table};
use twin::trace::LIMIT;
use twin::waits::check::{Wait, report};
use twin::waits::events::{Event, Kind};
use twin::waits::read::{events, table, text_of_events, text_of_table};

const GOOD: &str = "wait=proc-1\n\
    event=register\nslot=0\nid=5\nxmin=0\nclock=0\nsample=0\n\
    event=observe\nslot=0\nid=0\nxmin=0\nclock=9\nsample=3\n";

fn line(text: &[u8]) -> Option<usize> {
    events(text).err().map(|broken| broken.line)
}

#[test]
fn the_events_of_a_text() {
    let found = [Event::register(0, 5), Event::observe(9, 3)];
    assert_eq!(events(GOOD.as_bytes()), Ok(found.to_vec()));
    assert_eq!(events(b"wait=proc-1\n"), Ok(vec![]));
}

#[test]
fn every_cut_breaks_at_its_last_line_or_the_missing_one() {
    for length in 0..=GOOD.len() {
        let cut = &GOOD[..length];
        let complete = cut.matches('\n').count();
        let whole = cut.ends_with('\n') && complete % 6 == 1;
        let expected = if whole { None } else { Some(complete + 1) };
        assert_eq!(line(cut.as_bytes()), expected, "cut at {length}");
    }
}

#[test]
fn every_spoilt_byte_breaks_its_own_line() {
    for place in 0..GOOD.len() {
        let mut text = GOOD.as_bytes().to_vec();
        let at = GOOD[..place].matches('\n').count() + 1;
        text[place] = b'~';
        assert_eq!(line(&text), Some(at), "byte {place}");
    }
}

/// A horizon, as text, with the slot and the xmin as given.
fn horizon(slot: &str, xmin: &str) -> Option<usize> {
    let text =
        format!("wait=proc-1\nevent=horizon\nslot={slot}\nid=0\nxmin={xmin}\nclock=0\nsample=0\n");
    line(text.as_bytes())
}

#[test]
fn numbers_at_the_edges() {
    assert_eq!(horizon("65535", "18446744073709551615"), None);
    assert_eq!(horizon("65536", "1"), Some(3));
    assert_eq!(horizon("1", "18446744073709551616"), Some(5));
    for bad in ["", "00", "01", "+1", "-0", " 1", "1 ", "1\r", "0x1", "1.0"] {
        assert_eq!(horizon(bad, "1"), Some(3), "{bad:?}");
        assert_eq!(horizon("1", bad), Some(5), "{bad:?}");
    }
}

/// The fields by the list of SPEC 16.1: 1 is put into each field in turn.
#[test]
fn a_field_that_is_not_read_is_0() {
    let reads = [
        ("register", "slot id"),
        ("end", "slot"),
        ("horizon", "slot xmin"),
        ("reserve", "id"),
        ("observe", "clock sample"),
    ];
    let keys = ["slot", "id", "xmin", "clock", "sample"];
    for (kind, read) in reads {
        for (place, key) in keys.iter().enumerate() {
            let field = |other: &str| format!("{other}={}\n", u8::from(other == *key));
            let fields: String = keys.iter().map(|other| field(other)).collect();
            let text = format!("wait=proc-1\nevent={kind}\n{fields}");
            let is_read = read.split(' ').any(|name| name == *key);
            let expected = if is_read { None } else { Some(place + 3) };
            assert_eq!(line(text.as_bytes()), expected, "{kind} {key}");
        }
    }
}

#[test]
fn the_length_is_tested_first() {
    let most = text_of_events(&vec![Event::plain(Kind::End); 1_424]);
    assert_eq!((most.len(), line(&most)), (65_516, None));
    assert_eq!(line(&vec![b'x'; LIMIT]), Some(1));
    assert_eq!(line(&vec![b'x'; LIMIT + 1]), Some(0));
}

#[test]
fn a_table_is_read_back() {
    let mut reached = Table::fresh();
    reached.begin(5).unwrap();
    reached.begin(9).unwrap();
    reached.pin(20, 7).unwrap();
    reached.vacuum(20, 4).unwrap();
    let text = text_of_table(&reached);
    assert!(text.starts_with("table=proc-1\ntxid=5\nxmin=5\ntxid=9\nxmin=9\ntxid=0\n"));
    assert!(text.contains("txid=0\nxmin=0\npin=5\npin=0\n"));
    assert!(text.ends_with("pin=0\nclock=20\nsample=4\nline=4\n"));
    assert_eq!(text.matches('\n').count(), 2 * SLOTS + PINS + 4);
    assert_eq!(table(text.as_bytes()), Ok(reached));
}

#[test]
fn every_cut_of_a_table_breaks_at_its_last_line_or_the_missing_one() {
    let text = text_of_table(&Table::fresh());
    for length in 0..text.len() {
        let complete = text[..length].matches('\n').count();
        let broken = table(&text.as_bytes()[..length]).unwrap_err();
        assert_eq!(broken.line, complete + 1, "cut at {length}");
    }
    for tail in ["\n", "x", "line=1\n"] {
        let longer = [&text, tail].concat();
        let broken = table(longer.as_bytes()).unwrap_err();
        assert_eq!(broken.line, 2 * SLOTS + PINS + 5);
    }
}

#[test]
fn a_table_has_any_numbers() {
    let text = text_of_table(&Table::fresh());
    let last = text.replacen("clock=1", "clock=18446744073709551615", 1);
    assert!(table(last.as_bytes()).is_ok());
    let over = text.replacen("clock=1", "clock=18446744073709551616", 1);
    assert_eq!(
        table(over.as_bytes()).unwrap_err().line,
        2 * SLOTS + PINS + 2
    );
}

#[test]
fn a_report_is_five_lines_and_a_table() {
    let table = text_of_table(&Table::fresh()).into_bytes();
    let text = text_of_events(&[Event::end(0)]);
    let wait = Wait {
        table: table.clone(),
        owner: None,
        text,
    };
    let five = b"answer=22\nslot=0\nid=0\nseen=0\nat=1\n";
    assert_eq!(report(&wait), [&five[..], &table].concat());
    // Where the table's own text breaks a rule the five lines stand alone, whatever the wait's does.
    let broken = Wait {
        table: b"table=proc-1\ntxid=01\n".to_vec(),
        text: b"".to_vec(),
        ..wait
    };
    assert_eq!(report(&broken), b"answer=9\nslot=0\nid=0\nseen=0\nat=2\n");
}
