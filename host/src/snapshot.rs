use crate::{Refusal, SLOTS, answer, raw};
use std::fmt;

/// The id of a transaction; 0 is none's.
#[derive(Clone, Copy, Debug, PartialEq, Eq, PartialOrd, Ord, Hash)]
pub struct Txid(pub u64);

/// What a reader was shown, as it lies in the host's memory: xmax, and the ids in flight, 8 bytes each, the least byte first.
#[derive(Clone, Copy, Debug, PartialEq, Eq)]
pub struct SnapshotRef<'a> {
    xmax: u64,
    in_flight: &'a [u8],
}

impl<'a> SnapshotRef<'a> {
    /// A snapshot whose ids lie as bytes, anywhere and of any length. Whether they make a list is seen when it is asked.
    ///
    /// ```
    /// use sockhurdle::{Refusal, SnapshotRef, Txid};
    ///
    /// let seen = SnapshotRef::of_bytes(12, &[5, 0, 0, 0, 0, 0, 0, 0]);
    /// assert_eq!(seen.settled(Txid(5)), Ok(false));
    /// let torn = SnapshotRef::of_bytes(12, &[5, 0, 0]);
    /// assert_eq!(torn.settled(Txid(5)), Err(Refusal::BadImage));
    /// ```
    pub fn of_bytes(xmax: u64, in_flight: &'a [u8]) -> Self {
        SnapshotRef { xmax, in_flight }
    }

    /// A snapshot whose ids lie as numbers. Nothing is copied.
    #[cfg(target_endian = "little")]
    pub fn of_ids(xmax: u64, in_flight: &'a [u64]) -> Self {
        let length = size_of_val(in_flight);
        // Any number is 8 bytes, in this order; bytes need no alignment, and they live as long as the numbers.
        let in_flight = unsafe { std::slice::from_raw_parts(in_flight.as_ptr().cast(), length) };
        SnapshotRef { xmax, in_flight }
    }

    /// Whether every reader of this snapshot may use what `id` made: it is below xmax and not in flight.
    ///
    /// # Errors
    ///
    /// 18 where the bytes have the length of no list, 10 where they list more ids than a table has slots, 4 where `id` is 0.
    #[inline]
    pub fn settled(&self, id: Txid) -> Result<bool, Refusal> {
        let list = self.in_flight;
        // The bytes live, and nobody writes them, for as long as they are lent.
        answer(unsafe { raw::sockhurdle_settled(self.xmax, list.as_ptr(), list.len(), id.0) })
    }

    /// Whether the reader with the id `own` may use what `id` made: it is settled, or the reader's own. A reader that is no
    /// transaction has none.
    ///
    /// # Errors
    ///
    /// As [`settled`](SnapshotRef::settled).
    #[inline]
    pub fn usable(&self, id: Txid, own: Option<Txid>) -> Result<bool, Refusal> {
        let (list, own) = (self.in_flight, own.map_or(0, |own| own.0));
        // As above.
        answer(unsafe { raw::sockhurdle_usable(self.xmax, list.as_ptr(), list.len(), id.0, own) })
    }
}

/// What a reader was shown: xmin, xmax, and the ids that were in flight. It has room for those of a full table, so that one that
/// is kept can be filled again and again (`.._into` of [`Table`](crate::Table)) and nothing is allocated.
///
/// ```
/// use sockhurdle::{Refusal, Snapshot, Stamp, Table, Txid};
///
/// let mut table = Table::fresh();
/// let encode = table.begin(Stamp(1))?;
/// let mut seen = Snapshot::room();
/// table.snapshot_into(2, 2, &mut seen)?;
/// assert_eq!((seen.xmin(), seen.xmax(), seen.in_flight()), (1, 2, &[1][..]));
/// assert!(!seen.settled(encode.id)?); // still at work
/// assert!(seen.usable(encode.id, Some(encode.id))?); // but its own
/// table.end(encode)?;
/// table.snapshot_into(2, 2, &mut seen)?;
/// assert!(seen.settled(encode.id)?);
/// # Ok::<(), Refusal>(())
/// ```
#[derive(Clone)]
pub struct Snapshot {
    pub(crate) xmin: u64,
    pub(crate) xmax: u64,
    pub(crate) count: usize,
    pub(crate) ids: Box<[u64]>,
}

impl Snapshot {
    /// Room for a snapshot: one of zeros, in which no id is settled.
    pub fn room() -> Self {
        Snapshot {
            xmin: 0,
            xmax: 0,
            count: 0,
            ids: vec![0; SLOTS].into(),
        }
    }

    /// Every id below it is settled.
    pub fn xmin(&self) -> u64 {
        self.xmin
    }

    /// No id from it on is settled.
    pub fn xmax(&self) -> u64 {
        self.xmax
    }

    /// The ids that were in flight, in the order of their slots.
    pub fn in_flight(&self) -> &[u64] {
        &self.ids[..self.count]
    }

    /// The same, lent.
    pub fn lent(&self) -> SnapshotRef<'_> {
        SnapshotRef::of_ids(self.xmax, self.in_flight())
    }

    /// Whether every reader of this snapshot may use what `id` made: it is below xmax and was not in flight.
    ///
    /// # Errors
    ///
    /// 4 where `id` is 0.
    #[inline]
    pub fn settled(&self, id: Txid) -> Result<bool, Refusal> {
        self.lent().settled(id)
    }

    /// Whether the reader with the id `own` may use what `id` made: it is settled, or the reader's own. A reader that is no
    /// transaction has none.
    ///
    /// # Errors
    ///
    /// 4 where `id` is 0.
    #[inline]
    pub fn usable(&self, id: Txid, own: Option<Txid>) -> Result<bool, Refusal> {
        self.lent().usable(id, own)
    }

    /// What stands where a snapshot was taken out; no call is made with it.
    pub(crate) fn without_room() -> Self {
        Snapshot {
            xmin: 0,
            xmax: 0,
            count: 0,
            ids: Box::default(),
        }
    }
}

/// What stands past the ids plays no part.
impl PartialEq for Snapshot {
    fn eq(&self, other: &Self) -> bool {
        let said = |seen: &Snapshot| (seen.xmin, seen.xmax);
        said(self) == said(other) && self.in_flight() == other.in_flight()
    }
}

impl Eq for Snapshot {}

impl fmt::Debug for Snapshot {
    fn fmt(&self, f: &mut fmt::Formatter<'_>) -> fmt::Result {
        let mut shown = f.debug_struct("Snapshot");
        shown.field("xmin", &self.xmin).field("xmax", &self.xmax);
        shown.field("in_flight", &self.in_flight()).finish()
    }
}
