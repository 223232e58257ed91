#![forbid(unsafe_code)]

use crate::capture::{Call, Capture};
use crate::{Holder, Pin, PinNo, Refusal, Registration, Snapshot, Stamp, Table, Transaction};
use std::sync::atomic::{AtomicU64, Ordering::Relaxed};
use std::sync::{Mutex, MutexGuard, PoisonError};

/// A table for many threads: the lock, the clock, and guards that end a transaction or release a pin when they are dropped.
///
/// ```
/// use sockhurdle::{Refusal, Shared};
///
/// let shared = Shared::fresh();
/// let encode = shared.begin()?; // a re-encode has an id, by which it marks what it makes
/// let new = encode.id();
/// let page = shared.pin()?; // a page takes its snapshot
/// encode.finish()?; // the re-encode is published
/// assert!(!page.settled(new)?); // the page goes on as it began
/// let (line, holder) = shared.vacuum(); // and keeps what it reads
/// assert!(new.0 >= line, "held by {holder:?}");
/// drop(page);
/// assert!(new.0 < shared.vacuum().0); // what the re-encode replaced may go
/// assert!(shared.pin()?.settled(new)?); // the next page sees the new tiles
/// # Ok::<(), Refusal>(())
/// ```
///
/// Every call is one section under the lock, and takes its number or its clock there, so that they come in order: of the refusals
/// only 1 (no free slot), 5 (the clock is at its end) and 14 (no free pin) are ever met, and the calls that these don't concern
/// refuse nothing. The lock is held for the proved call alone, which does not panic; a thread that panics in
/// [`look`](Shared::look) leaves the table as it was, so a poisoned lock is taken all the same.
///
/// What stays the host's: a transaction that is given up takes back what it did before it ends
/// ([`Transaction::on_abort`]), and settled is not committed (docs/HOST.md, Aborts).
pub struct Shared {
    /// The next number to be given out. It is written under the lock alone, so that any order does.
    clock: AtomicU64,
    held: Mutex<Held>,
}

/// What the lock guards.
struct Held {
    table: Table,
    /// Rooms for snapshots that nobody uses, so that guards allocate none where one is left.
    spare: Vec<Snapshot>,
    capture: Option<Capture>,
}

impl Held {
    #[inline]
    fn keep(&mut self, call: Call) {
        if let Some(capture) = &mut self.capture {
            capture.keep(call);
        }
    }

    fn room(&mut self) -> Snapshot {
        self.spare.pop().unwrap_or_else(Snapshot::room)
    }
}

/// Of a call that the protocol leaves no refusal.
const IN_ORDER: &str =
    "numbers and clocks come in order under the lock, and a guard holds what it was given";

impl Shared {
    /// A fresh table, its clock at 1.
    pub fn fresh() -> Self {
        Shared::of(Table::fresh())
    }

    /// A table that is there, with the clock where the table has it.
    pub fn of(table: Table) -> Self {
        let clock = AtomicU64::new(table.clock());
        let held = Mutex::new(Held {
            table,
            spare: Vec::new(),
            capture: None,
        });
        Shared { clock, held }
    }

    /// After a restart: a fresh table over a storage whose versions have ids and stamps up to `last`. New ones are above it, and
    /// all old ones are settled. What was at work when the host stopped has aborted: its versions are removed before.
    ///
    /// ```
    /// let shared = sockhurdle::Shared::after(700);
    /// assert_eq!(shared.begin()?.id().0, 701);
    /// # Ok::<(), sockhurdle::Refusal>(())
    /// ```
    pub fn after(last: u64) -> Self {
        let mut table = Table::fresh();
        let clock = last.saturating_add(1);
        let vacuumed = table.vacuum(clock, clock);
        vacuumed.expect("any clock may be observed on a fresh table");
        Shared::of(table)
    }

    fn lock(&self) -> MutexGuard<'_, Held> {
        // what panicked under the lock was no call of the table, and the table is as the last call left it
        self.held.lock().unwrap_or_else(PoisonError::into_inner)
    }

    /// The next number. At the end of the clock it stays, and the table refuses its last value by 5.
    fn number(&self, _under_the_lock: &mut Held) -> Stamp {
        let next = self.clock.load(Relaxed);
        if next < u64::MAX {
            self.clock.store(next + 1, Relaxed);
        }
        Stamp(next)
    }

    /// The clock as it is now, without the lock.
    pub fn clock(&self) -> u64 {
        self.clock.load(Relaxed)
    }

    /// Begins a transaction.
    ///
    /// # Errors
    ///
    /// 1 where no slot is free: wait for an end. 5 where the clock is at its end.
    pub fn begin(&self) -> Result<Transaction<'_>, Refusal> {
        let mut held = self.lock();
        let number = self.number(&mut held);
        held.keep(Call::Begin(number));
        let registration = held.table.begin(number)?;
        drop(held);
        Ok(Transaction::of(self, registration))
    }

    /// Takes a snapshot for a reader that is not registered, and a pin that holds it safe until the guard is dropped.
    ///
    /// # Errors
    ///
    /// 14 where no pin is free: try later, or begin a transaction.
    pub fn pin(&self) -> Result<Pin<'_>, Refusal> {
        let mut held = self.lock();
        let clock = self.clock();
        held.keep(Call::Pin(clock));
        let mut seen = held.room();
        match held.table.pin_into(clock, clock, &mut seen) {
            Ok(number) => {
                drop(held);
                Ok(Pin::of(self, number, seen))
            }
            Err(refusal) => {
                held.spare.push(seen);
                Err(refusal)
            }
        }
    }

    /// A snapshot that nothing holds safe: what its reader may use can go while it reads.
    pub fn snapshot(&self) -> Snapshot {
        let mut seen = Snapshot::room();
        self.snapshot_into(&mut seen);
        seen
    }

    /// The same, into room that is there.
    pub fn snapshot_into(&self, seen: &mut Snapshot) {
        let mut held = self.lock();
        let clock = self.clock();
        held.keep(Call::Snapshot(clock));
        let taken = held.table.snapshot_into(clock, clock, seen);
        taken.expect(IN_ORDER);
    }

    /// A publication stamp.
    ///
    /// # Errors
    ///
    /// 5 where the clock is at its end.
    pub fn stamp(&self) -> Result<Stamp, Refusal> {
        let mut held = self.lock();
        let number = self.number(&mut held);
        held.keep(Call::Stamp(number));
        held.table.stamp(number)
    }

    /// The oldest xmin that somebody retains, and who does. The line stays.
    pub fn oldest(&self) -> (u64, Holder) {
        let mut held = self.lock();
        let clock = self.clock();
        held.keep(Call::Oldest(clock));
        held.table.oldest(clock, clock).expect(IN_ORDER)
    }

    /// Raises the vacuum line as far as no reader needs what an id below it replaced; the line, and who holds it back. A version
    /// may go once the id that replaced it is below the line, and has not aborted.
    pub fn vacuum(&self) -> (u64, Holder) {
        let mut held = self.lock();
        let clock = self.clock();
        held.keep(Call::Vacuum(clock, clock));
        held.table.vacuum(clock, clock).expect(IN_ORDER)
    }

    /// Looks at the table, under the lock: whoever calls the shared table from within waits for ever.
    pub fn look<T>(&self, see: impl FnOnce(&Table) -> T) -> T {
        see(&self.lock().table)
    }

    /// Begins to keep the calls from here on, what was kept before is let go; `false` where a slot or a pin is taken, for a replay
    /// begins with none. A call is kept as six numbers, under the lock that it holds anyway; the first 1,489 are, which is as many as
    /// a trace may have.
    ///
    /// ```
    /// let shared = sockhurdle::Shared::fresh();
    /// assert!(shared.record());
    /// shared.begin()?.finish()?;
    /// shared.vacuum();
    /// let trace = shared.trace().expect("calls were kept");
    /// assert!(trace.starts_with("trace=proc-3\nop=begin\nslot=0\nid=0\nstamp=1\n"));
    /// assert_eq!(trace.lines().filter(|line| line.starts_with("op=")).count(), 3);
    /// # Ok::<(), sockhurdle::Refusal>(())
    /// ```
    pub fn record(&self) -> bool {
        let mut capture = Capture::new();
        let mut held = self.lock();
        let (idle, clock, line) = {
            let table = &held.table;
            (table.is_idle(), table.clock(), table.line())
        };
        if idle && (clock, line) != (1, 1) {
            // it takes a fresh table to this clock and this line
            capture.keep(Call::Vacuum(clock, line));
        }
        if idle {
            held.capture = Some(capture);
        }
        idle
    }

    /// The calls that were kept, as a trace that `operator/replay` replays and `operator/picture` draws; none where none are kept. The
    /// text is written outside the lock.
    pub fn trace(&self) -> Option<String> {
        let kept = self.lock().capture.clone();
        kept.map(|capture| capture.text())
    }
}

/// What the guards call.
impl Shared {
    pub(crate) fn transaction_snapshot(&self, of: Registration, room: &mut Option<Snapshot>) {
        let mut held = self.lock();
        let clock = self.clock();
        held.keep(Call::TransactionSnapshot(of, clock));
        let seen = room.get_or_insert_with(|| held.room());
        let taken = held.table.transaction_snapshot_into(of, clock, clock, seen);
        taken.expect(IN_ORDER);
    }

    /// Its room comes back in the same section.
    pub(crate) fn finish(
        &self,
        of: Registration,
        room: &mut Option<Snapshot>,
    ) -> Result<Stamp, Refusal> {
        let mut held = self.lock();
        let number = self.number(&mut held);
        held.keep(Call::Finish(of, number));
        let stamp = held.table.finish(of, number)?;
        held.spare.extend(room.take());
        Ok(stamp)
    }

    /// Ends a transaction, where it has not ended yet, and takes its room back.
    pub(crate) fn leave(&self, of: Option<Registration>, room: Option<Snapshot>) {
        if of.is_none() && room.is_none() {
            return;
        }
        let mut held = self.lock();
        held.spare.extend(room);
        if let Some(of) = of {
            held.keep(Call::End(of));
            held.table.end(of).expect(IN_ORDER);
        }
    }

    pub(crate) fn unpin(&self, pin: PinNo, room: Snapshot) {
        let mut held = self.lock();
        held.spare.push(room);
        held.keep(Call::Unpin(pin));
        held.table.unpin(pin).expect(IN_ORDER);
    }
}
