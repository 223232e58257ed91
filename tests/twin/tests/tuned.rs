//! The replay tuned by hand against the plain one.

use std::collections::BTreeSet;
use twin::trace::Version;
use twin::tuned::{self, ROOM};
use twin::{compare, generate, race_traces};

/// What the tuned replay prints, into a buffer with the room that it asks for.
fn tuned(text: &[u8], length: usize) -> Vec<u8> {
    let mut out = vec![1; length + ROOM];
    let written = tuned::replay(text, &mut out).expect("there is room");
    out.truncate(written);
    out
}

#[test]
fn equals_the_plain_twin_on_generated_traces() {
    let mut headers = BTreeSet::new();
    for seed in 1..=300 {
        let text = generate::generate(seed);
        let expected = compare::answers(&text);
        assert!(tuned(&text, expected.len()) == expected, "seed {seed}");
        if !expected.starts_with(b"answer=9\n") {
            headers.insert(text[..13].to_vec());
        }
    }
    assert_eq!(headers.len(), Version::ALL.len());
}

#[test]
fn equals_the_plain_twin_on_the_traces_of_the_race() {
    for trace in race_traces::all() {
        let expected = compare::answers(&trace.text);
        let equal = tuned(&trace.text, expected.len()) == expected;
        assert!(equal, "{}", trace.name);
    }
}

#[test]
fn says_that_there_is_no_room() {
    let text = b"trace=proc-1\nop=end\nslot=0\nid=0\nstamp=0\nclock=0\nsample=0\n";
    assert_eq!(tuned::replay(text, &mut vec![1; ROOM - 1]), None);
    assert!(tuned::replay(text, &mut vec![1; ROOM]).is_some());
}

#[test]
fn hands_out_pieces() {
    for seed in 1..=100 {
        let text = generate::generate(seed);
        let (mut whole, mut buffer) = (Vec::new(), vec![1; ROOM]);
        let rest = tuned::fill(&text, &mut buffer, |piece| {
            whole.extend_from_slice(piece);
            Ok::<(), ()>(())
        });
        whole.extend_from_slice(&buffer[..rest.expect("every piece is taken")]);
        assert!(whole == compare::answers(&text), "seed {seed}");
    }
}

/// The text of records under the third header, each with its op, slot, clock and sample.
fn pinning(records: &[(&str, u64, u64, u64)]) -> Vec<u8> {
    let mut text = String::from("trace=proc-3\n");
    for (op, slot, clock, sample) in records {
        let (op, read) = (format!("op={op}\nslot={slot}\nid=0\nstamp=0"), clock);
        text += &format!("{op}\nclock={read}\nsample={sample}\n");
    }
    text.into_bytes()
}

/// `answer`, `slot`, `xmin`, `xmax`, `vacuum` and `holder` of each record; the others are 0.
fn answers(rows: &[[u64; 6]]) -> String {
    let mut text = String::new();
    for [answer, slot, xmin, xmax, line, holder] in rows {
        text += &format!("answer={answer}\nslot={slot}\nid=0\nseen=0\nxmin={xmin}\nxmax={xmax}\n");
        text += &format!("vacuum={line}\ncount=0\nholder={holder}\n");
    }
    format!("{text}records={}\n", rows.len())
}

#[test]
fn pins_are_kept_and_released() {
    let text = pinning(&[
        ("pin", 0, 10, 7),
        ("vacuum", 0, 10, 9),
        ("pin", 0, 10, 3),
        ("oldest", 0, 10, 10),
        ("unpin", 0, 0, 0),
        ("unpin", 0, 0, 0),
        ("unpin", 64, 0, 0),
        ("vacuum", 0, 20, 20),
        ("unpin", 1, 0, 0),
        ("vacuum", 0, 20, 20),
        ("pin", 0, 19, 1),
        ("pin", 0, 20, 21),
    ]);
    let expected = answers(&[
        [0, 0, 7, 7, 1, 0],
        [0, 0, 0, 0, 7, 2_000],
        // for the line, which is above the sample
        [0, 1, 7, 7, 7, 0],
        [0, 0, 7, 0, 7, 2_000],
        [0, 0, 0, 0, 7, 0],
        [16, 0, 0, 0, 7, 0],
        [15, 64, 0, 0, 7, 0],
        [0, 0, 0, 0, 7, 2_001],
        [0, 0, 0, 0, 7, 0],
        [0, 0, 0, 0, 20, 65_535],
        [7, 0, 0, 0, 20, 0],
        [8, 0, 0, 0, 20, 0],
    ]);
    assert_eq!(String::from_utf8(tuned(&text, 4_096)).unwrap(), expected);
}

#[test]
fn the_65th_pin_is_refused() {
    let text = pinning(&[("pin", 0, 5, 5); 65]);
    let mut rows: Vec<[u64; 6]> = (0..64).map(|pin| [0, pin, 5, 5, 1, 0]).collect();
    rows.push([14, 0, 0, 0, 1, 0]);
    let expected = answers(&rows);
    assert_eq!(String::from_utf8(tuned(&text, 16_384)).unwrap(), expected);
}

#[test]
fn earlier_headers_have_no_pins() {
    for op in ["pin", "unpin"] {
        let mut text = pinning(&[(op, 0, 0, 0)]);
        text[11] = b'2';
        assert_eq!(tuned(&text, 64), b"answer=9\nat=2\n");
    }
}
