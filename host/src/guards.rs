#![forbid(unsafe_code)]

use crate::{PinNo, Refusal, Registration, Shared, Snapshot, Stamp, Txid};
use std::fmt;
use std::mem;
use std::ops::Deref;

/// What takes back what a transaction did.
type Undo<'a> = Box<dyn FnOnce(Txid) + Send + 'a>;

/// A registered transaction. It is committed or finished; where it is dropped instead, it was given up: what it did is taken back, and
/// then it ends. A guard that is forgotten stays registered for ever, and holds the line.
pub struct Transaction<'a> {
    shared: &'a Shared,
    registration: Registration,
    registered: bool,
    seen: Option<Snapshot>,
    undo: Option<Undo<'a>>,
}

impl<'a> Transaction<'a> {
    pub(crate) fn of(shared: &'a Shared, registration: Registration) -> Self {
        Transaction {
            shared,
            registration,
            registered: true,
            seen: None,
            undo: None,
        }
    }

    pub fn id(&self) -> Txid {
        self.registration.id
    }

    pub fn registration(&self) -> Registration {
        self.registration
    }

    /// Takes a snapshot, which is held safe until this transaction takes another one or ends; so it is lent that long and no longer:
    ///
    /// ```compile_fail,E0499
    /// # let shared = sockhurdle::Shared::fresh();
    /// let mut page = shared.begin()?;
    /// let first = page.snapshot();
    /// page.snapshot(); // from here on nothing holds the first one safe
    /// first.settled(sockhurdle::Txid(1))?;
    /// # Ok::<(), sockhurdle::Refusal>(())
    /// ```
    pub fn snapshot(&mut self) -> &Snapshot {
        let of = self.registration;
        self.shared.transaction_snapshot(of, &mut self.seen);
        self.seen.as_ref().expect("it was just taken")
    }

    /// The last snapshot that it took.
    pub fn seen(&self) -> Option<&Snapshot> {
        self.seen.as_ref()
    }

    /// Whether it may use what `id` made: it is settled in its last snapshot, or its own. Without a snapshot, its own alone.
    ///
    /// # Errors
    ///
    /// 4 where `id` is 0.
    pub fn usable(&self, id: Txid) -> Result<bool, Refusal> {
        match &self.seen {
            Some(seen) => seen.usable(id, Some(self.id())),
            None if id.0 == 0 => Err(Refusal::ZeroTxid),
            None => Ok(id == self.id()),
        }
    }

    /// What takes back what this transaction did, should it be given up: it removes the versions that it made, and strikes it out as
    /// ender of those that it meant to replace. It is called while the transaction is still registered, on drop, also where the thread
    /// panics. Where it panics itself, the transaction stays registered: nothing that it did is settled then.
    ///
    /// ```
    /// use sockhurdle::{Refusal, Shared};
    /// use std::sync::Mutex;
    ///
    /// let (shared, tiles) = (Shared::fresh(), Mutex::new(vec![]));
    /// let mut encode = shared.begin()?;
    /// encode.on_abort(|id| tiles.lock().unwrap().retain(|maker| *maker != id));
    /// tiles.lock().unwrap().push(encode.id());
    /// drop(encode); // given up
    /// assert!(tiles.lock().unwrap().is_empty());
    /// # Ok::<(), Refusal>(())
    /// ```
    pub fn on_abort(&mut self, undo: impl FnOnce(Txid) + Send + 'a) {
        self.undo = Some(Box::new(undo));
    }

    /// Ends it; what it did stays.
    pub fn commit(mut self) {
        self.undo = None;
    }

    /// Ends it and takes a publication stamp, in one step; what it did stays.
    ///
    /// # Errors
    ///
    /// 5 where the clock is at its end. Nothing is published then, and it is given up as if it were dropped.
    pub fn finish(mut self) -> Result<Stamp, Refusal> {
        let of = self.registration;
        let stamp = self.shared.finish(of, &mut self.seen)?;
        (self.registered, self.undo) = (false, None);
        Ok(stamp)
    }

    /// Gives it up, as dropping it does.
    pub fn abort(self) {}
}

impl Drop for Transaction<'_> {
    fn drop(&mut self) {
        if let Some(undo) = self.undo.take() {
            undo(self.registration.id);
        }
        let of = self.registered.then_some(self.registration);
        self.shared.leave(of, self.seen.take());
    }
}

impl fmt::Debug for Transaction<'_> {
    fn fmt(&self, f: &mut fmt::Formatter<'_>) -> fmt::Result {
        let mut shown = f.debug_struct("Transaction");
        shown.field("registration", &self.registration);
        shown.field("seen", &self.seen).finish_non_exhaustive()
    }
}

/// A pinned snapshot: [`Snapshot`]'s questions can be put to it. The pin is released on drop; a guard that is forgotten holds the line
/// for ever.
pub struct Pin<'a> {
    shared: &'a Shared,
    number: PinNo,
    seen: Snapshot,
}

impl<'a> Pin<'a> {
    pub(crate) fn of(shared: &'a Shared, number: PinNo, seen: Snapshot) -> Self {
        Pin {
            shared,
            number,
            seen,
        }
    }

    pub fn number(&self) -> PinNo {
        self.number
    }
}

impl Deref for Pin<'_> {
    type Target = Snapshot;

    fn deref(&self) -> &Snapshot {
        &self.seen
    }
}

impl Drop for Pin<'_> {
    fn drop(&mut self) {
        let seen = mem::replace(&mut self.seen, Snapshot::without_room());
        self.shared.unpin(self.number, seen);
    }
}

impl fmt::Debug for Pin<'_> {
    fn fmt(&self, f: &mut fmt::Formatter<'_>) -> fmt::Result {
        let mut shown = f.debug_struct("Pin");
        shown.field("number", &self.number);
        shown.field("seen", &self.seen).finish_non_exhaustive()
    }
}
