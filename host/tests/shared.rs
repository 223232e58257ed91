//! A shared table: its guards, its capture, a panic under its lock, and many threads at once.

use sockhurdle::{
    Holder, PINS, Pin, Refusal, SLOTS, Shared, SlotNo, Snapshot, Table, Transaction, Txid,
};
use std::collections::HashSet;
use std::panic::{AssertUnwindSafe, catch_unwind};
use std::sync::Mutex;
use std::thread;

/// Whether the job panics.
fn panics(job: impl FnOnce()) -> bool {
    catch_unwind(AssertUnwindSafe(job)).is_err()
}

#[test]
fn guards_end_and_release() {
    let shared = Shared::fresh();
    let mut page = shared.begin().unwrap();
    page.snapshot();
    let pinned = shared.pin().unwrap();
    assert_eq!(shared.vacuum(), (1, Holder::Slot(SlotNo(0))));
    drop(page);
    assert_eq!(shared.vacuum(), (1, Holder::Pin(pinned.number())));
    drop(pinned);
    assert_eq!(shared.vacuum(), (2, Holder::Nobody));
    assert!(shared.look(Table::is_idle));
}

#[test]
fn an_abort_is_taken_back_while_registered() {
    let shared = Shared::fresh();
    let undone = Mutex::new(Vec::new());
    let begin = || {
        let mut encode = shared.begin().unwrap();
        encode.on_abort(|id| {
            assert!(!shared.look(Table::is_idle), "still registered");
            undone.lock().unwrap().push(id.0);
        });
        encode
    };
    begin().commit();
    begin().finish().unwrap(); // 2, and 3 for its stamp
    begin().abort();
    drop(begin());
    let panicked = panics(|| {
        let _encode = begin();
        panic!("meant");
    });
    assert!(panicked);
    assert_eq!(*undone.lock().unwrap(), [4, 5, 6]);
    assert!(shared.look(Table::is_idle));
}

#[test]
fn an_undo_that_panics_leaves_it_registered() {
    let shared = Shared::fresh();
    let mut encode = shared.begin().unwrap();
    let id = encode.id();
    encode.on_abort(|_| panic!("meant"));
    assert!(panics(|| drop(encode)));
    assert!(!shared.pin().unwrap().settled(id).unwrap());
}

#[test]
fn a_poisoned_lock_is_taken() {
    let shared = Shared::fresh();
    let held = shared.begin().unwrap();
    assert!(panics(|| shared.look(|_| panic!("meant"))));
    held.finish().unwrap();
    assert_eq!(shared.vacuum(), (3, Holder::Nobody));
    assert!(shared.pin().is_ok());
}

#[test]
fn no_room_is_told() {
    let shared = Shared::fresh();
    let all: Vec<_> = (0..SLOTS).map(|_| shared.begin().unwrap()).collect();
    assert_eq!(shared.begin().unwrap_err().number(), 1);
    let pins: Vec<_> = (0..PINS).map(|_| shared.pin().unwrap()).collect();
    assert_eq!(shared.pin().unwrap_err(), Refusal::NoFreePin);
    drop((all, pins));
    assert_eq!(shared.begin().unwrap().id().0, SLOTS as u64 + 2);
}

#[test]
fn the_end_of_the_clock() {
    let shared = Shared::after(u64::MAX - 3);
    let last = shared.begin().unwrap();
    assert_eq!(last.id().0, u64::MAX - 2);
    assert_eq!(shared.stamp().unwrap().0, u64::MAX - 1);
    for _ in 0..3 {
        assert_eq!(shared.stamp(), Err(Refusal::ClockExhausted));
        assert_eq!(shared.begin().unwrap_err(), Refusal::ClockExhausted);
    }
    assert_eq!(last.finish(), Err(Refusal::ClockExhausted));
    assert!(shared.look(Table::is_idle), "it was given up");
    assert_eq!(shared.vacuum(), (u64::MAX, Holder::Nobody));
}

#[test]
fn a_run_is_kept_from_an_idle_table_on() {
    let shared = Shared::after(40);
    assert_eq!(shared.trace(), None);
    let held = shared.begin().unwrap();
    assert!(!shared.record());
    held.commit();
    assert!(shared.record());
    drop(shared.pin().unwrap());
    let expected = "trace=proc-3\n\
        op=vacuum\nslot=0\nid=0\nstamp=0\nclock=42\nsample=41\n\
        op=pin\nslot=0\nid=0\nstamp=0\nclock=42\nsample=42\n\
        op=unpin\nslot=0\nid=0\nstamp=0\nclock=0\nsample=0\n";
    assert_eq!(shared.trace().as_deref(), Some(expected));
    for _ in 0..1_000 {
        shared.begin().unwrap().commit();
    }
    let trace = shared.trace().unwrap();
    assert!(trace.starts_with(expected) && trace.len() <= 65_536);
    assert_eq!(trace.lines().count() % 6, 1);
}

/// Guards go from thread to thread, and pinned snapshots are read by many.
#[test]
fn threads_may_have_them() {
    fn sent<T: Send>() {}
    fn lent<T: Sync>() {}
    sent::<Transaction>();
    sent::<Pin>();
    lent::<Pin>();
    lent::<Shared>();
    lent::<Snapshot>();
}

/// Each thread is a transaction, a page or a pin, over and over. Ids are never given out twice, and what a reader finds settled stays
/// settled; at the end nothing is taken.
#[test]
fn many_threads() {
    let shared = Shared::fresh();
    let ids = Mutex::new(HashSet::new());
    let work = |who: usize| {
        let mut mine = Vec::new();
        for round in 0..150 {
            match (who + round) % 4 {
                0 => {
                    let encode = shared.begin().unwrap();
                    mine.push(encode.id().0);
                    mine.push(encode.finish().unwrap().0);
                }
                1 => {
                    let mut page = shared.begin().unwrap();
                    mine.push(page.id().0);
                    let seen = page.snapshot();
                    assert!(seen.xmin() <= seen.xmax() && seen.xmax() <= shared.clock());
                    assert!(page.usable(page.id()).unwrap());
                }
                2 => {
                    let page = shared.pin().unwrap();
                    let settled = (1..page.xmin()).all(|id| page.settled(Txid(id)).unwrap());
                    assert!(settled);
                    assert!(shared.vacuum().0 <= page.xmin());
                }
                _ => {
                    let (line, _) = shared.vacuum();
                    assert!(line <= shared.clock());
                    assert!(line <= shared.pin().unwrap().xmin());
                }
            }
        }
        let mut ids = ids.lock().unwrap();
        assert!(
            mine.into_iter().all(|id| ids.insert(id)),
            "an id given out twice"
        );
    };
    thread::scope(|threads| {
        for who in 0..16 {
            threads.spawn(move || work(who));
        }
    });
    assert!(shared.look(Table::is_idle));
    assert_eq!(shared.vacuum(), (shared.clock(), Holder::Nobody));
}
