//! The crate's and the header's constants are the library's.

use sockhurdle::{
    IMAGE_LEN, Image, PINS, PinNo, Refusal, SLOTS, SlotNo, SnapshotRef, Txid, check_image,
};

#[test]
fn an_image_has_that_length() {
    for length in 0..2 * IMAGE_LEN {
        let is_image = check_image(&vec![0; length]) != Err(Refusal::BadImage);
        assert_eq!(is_image, length == IMAGE_LEN, "{length}");
    }
    assert_eq!(Image::fresh().bytes().len(), IMAGE_LEN);
}

#[test]
fn a_list_has_at_most_that_many_ids() {
    let ids = vec![9; SLOTS + 1];
    assert_eq!(
        SnapshotRef::of_ids(20, &ids[1..]).settled(Txid(9)),
        Ok(false)
    );
    let refused = SnapshotRef::of_ids(20, &ids).settled(Txid(9));
    assert_eq!(refused, Err(Refusal::BadSnapshot));
}

#[test]
fn the_header_says_the_same() {
    let header = include_str!("../sockhurdle_host.h");
    let defined = |name: &str| -> u64 {
        let mut lines = header.lines().map(|line| line.split_whitespace());
        let number = lines.find_map(|mut words| {
            let found = words.next() == Some("#define") && words.next() == Some(name);
            if found {
                words.next()?.parse().ok()
            } else {
                None
            }
        });
        number.unwrap_or_else(|| panic!("no {name}"))
    };
    assert_eq!(defined("SOCKHURDLE_SLOTS"), SLOTS as u64);
    assert_eq!(defined("SOCKHURDLE_PINS"), PINS as u64);
    let (slot, pin, id) = (SlotNo(0), PinNo(0), Txid(1));
    let mismatch = Refusal::SlotOwnershipMismatch {
        slot,
        expected: id,
        observed: id,
    };
    let refusals = [
        ("SOCKHURDLE_NO_FREE_SLOT", Refusal::NoFreeSlot { id }),
        ("SOCKHURDLE_INVALID_SLOT", Refusal::InvalidSlot { slot }),
        ("SOCKHURDLE_SLOT_OWNERSHIP_MISMATCH", mismatch),
        ("SOCKHURDLE_CLOCK_EXHAUSTED", Refusal::ClockExhausted),
        ("SOCKHURDLE_BAD_RESERVATION", Refusal::BadReservation),
        ("SOCKHURDLE_BAD_CLOCK", Refusal::BadClock),
        ("SOCKHURDLE_BAD_SAMPLE", Refusal::BadSample),
        ("SOCKHURDLE_NO_ROOM", Refusal::NoRoom),
        ("SOCKHURDLE_ENDED_BEFORE", Refusal::EndedBefore { place: 0 }),
        ("SOCKHURDLE_WILD_JUMP", Refusal::WildJump),
        ("SOCKHURDLE_NO_FREE_PIN", Refusal::NoFreePin),
        ("SOCKHURDLE_INVALID_PIN", Refusal::InvalidPin { pin }),
        ("SOCKHURDLE_FREE_PIN", Refusal::FreePin { pin }),
        ("SOCKHURDLE_ZERO_TXID", Refusal::ZeroTxid),
        ("SOCKHURDLE_BAD_SNAPSHOT", Refusal::BadSnapshot),
        ("SOCKHURDLE_BAD_IMAGE", Refusal::BadImage),
    ];
    for (name, refusal) in refusals {
        assert_eq!(defined(name), refusal.number(), "{name}");
    }
}
