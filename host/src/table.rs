use crate::{PINS, Refusal, SLOTS, Snapshot, Txid, answer, raw};
use std::fmt;

/// Where the clock stands among the words; the sampled clock and the line follow.
const CLOCK: usize = 2 * SLOTS + PINS;

/// A number reserved from the shared clock.
#[derive(Clone, Copy, Debug, PartialEq, Eq, PartialOrd, Ord, Hash)]
pub struct Stamp(pub u64);

/// The number of a slot, from 0. Numbers that no slot has can be handed in, and are refused.
#[derive(Clone, Copy, Debug, PartialEq, Eq, PartialOrd, Ord, Hash)]
pub struct SlotNo(pub u16);

/// The number of a pin, from 0.
#[derive(Clone, Copy, Debug, PartialEq, Eq, PartialOrd, Ord, Hash)]
pub struct PinNo(pub u16);

/// What a begin gives: the transaction's slot and id, which every later call of it hands in.
#[derive(Clone, Copy, Debug, PartialEq, Eq, Hash)]
pub struct Registration {
    pub slot: SlotNo,
    pub id: Txid,
}

/// Who holds the oldest retained xmin.
#[derive(Clone, Copy, Debug, PartialEq, Eq, Hash)]
pub enum Holder {
    Slot(SlotNo),
    Pin(PinNo),
    /// No slot and no pin: it is the sample itself.
    Nobody,
}

impl fmt::Display for Holder {
    fn fmt(&self, f: &mut fmt::Formatter<'_>) -> fmt::Result {
        match self {
            Holder::Slot(slot) => write!(f, "slot {}", slot.0),
            Holder::Pin(pin) => write!(f, "pin {}", pin.0),
            Holder::Nobody => f.write_str("nobody"),
        }
    }
}

/// The holder as the library tells it: a slot's number, 2,000 and a pin's, or 65,535.
fn holder_of(number: u64) -> Holder {
    match number {
        65_535 => Holder::Nobody,
        slot if slot < SLOTS as u64 => Holder::Slot(SlotNo(slot as u16)),
        pin => Holder::Pin(PinNo((pin - 2_000) as u16)),
    }
}

/// The words of an answer: slot, id, seen, xmin, xmax, line, count, holder.
type Out = [u64; 8];

/// What an answer gives where its number is 0.
#[inline]
fn accepted<T>(number: u64, out: &Out, give: impl FnOnce(&Out) -> T) -> Result<T, Refusal> {
    if number == 0 {
        Ok(give(out))
    } else {
        Err(Refusal::told(number, out[0], out[1], out[2]))
    }
}

/// The numbers of a snapshot whose ids have been listed.
#[inline]
fn show(seen: &mut Snapshot, out: &Out) {
    (seen.xmin, seen.xmax, seen.count) = (out[3], out[4], out[6] as usize);
}

/// A table. Its words are written by the proved calls alone, each of which works where they lie.
///
/// ```
/// use sockhurdle::{Refusal, Stamp, Table};
///
/// let mut table = Table::fresh();
/// let writer = table.begin(Stamp(1))?;
/// let reader = table.begin(Stamp(2))?;
/// table.end(writer)?;
/// assert_eq!(table.stamp(Stamp(3))?, Stamp(3));
/// assert_eq!(table.finish(reader, Stamp(9))?, Stamp(9));
/// assert_eq!(table.begin(Stamp(5)), Err(Refusal::BadReservation));
/// # Ok::<(), Refusal>(())
/// ```
#[derive(Clone, Debug, PartialEq, Eq)]
pub struct Table(Box<[u64]>);

impl Table {
    /// The fresh table: all slots empty, all pins free, the counters 1.
    pub fn fresh() -> Self {
        let mut words = vec![0; raw::sockhurdle_words()].into_boxed_slice();
        // The words live, and nobody else has them, for as long as they are lent.
        let number = unsafe { raw::sockhurdle_fresh(words.as_mut_ptr(), words.len()) };
        assert_eq!(number, 0, "a table has as many words as the library says");
        Table(words)
    }

    /// A table of words that somebody else wrote, if it passes the table check; none where it does not.
    ///
    /// ```
    /// use sockhurdle::{Refusal, Stamp, Table};
    ///
    /// let mut table = Table::fresh();
    /// table.begin(Stamp(7))?;
    /// let mut words: Box<[u64]> = table.words().into();
    /// assert_eq!(Table::adopt(words.clone())?, Some(table));
    /// words[0] = 8; // the clock, which nobody has taken yet
    /// assert_eq!(Table::adopt(words)?, None);
    /// assert_eq!(Table::adopt([1, 2, 3].into()), Err(Refusal::BadImage));
    /// # Ok::<(), Refusal>(())
    /// ```
    ///
    /// # Errors
    ///
    /// 18 where the words have another length.
    pub fn adopt(words: Box<[u64]>) -> Result<Option<Self>, Refusal> {
        // The words live, and nobody writes them, for as long as they are lent.
        let passes = answer(unsafe { raw::sockhurdle_check(words.as_ptr(), words.len()) })?;
        Ok(passes.then_some(Table(words)))
    }

    /// Its words: the txids, the snapshot_xmins, the pins, then clock, sampled clock and line.
    pub fn words(&self) -> &[u64] {
        &self.0
    }

    /// One past the last reserved number, or the last clock observed.
    pub fn clock(&self) -> u64 {
        self.0[CLOCK]
    }

    /// The vacuum line.
    pub fn line(&self) -> u64 {
        self.0[CLOCK + 2]
    }

    /// Whether no slot and no pin is taken.
    pub fn is_idle(&self) -> bool {
        self.0[..SLOTS].iter().all(|txid| *txid == 0)
            && self.0[2 * SLOTS..CLOCK].iter().all(|xmin| *xmin == 0)
    }

    /// Registers a transaction with a reserved number, in the lowest empty slot.
    ///
    /// # Errors
    ///
    /// 5, 6 and 13 for a number that may not be reserved; 1 where no slot is free.
    #[inline]
    pub fn begin(&mut self, number: Stamp) -> Result<Registration, Refusal> {
        let (words, mut out): (_, Out) = (&mut *self.0, [0; 8]);
        // Both runs live, apart from each other, and nobody else has them, for as long as they are lent.
        let said = unsafe {
            raw::sockhurdle_begin(
                words.as_mut_ptr(),
                words.len(),
                number.0,
                out.as_mut_ptr(),
                out.len(),
            )
        };
        accepted(said, &out, |out| Registration {
            slot: SlotNo(out[0] as u16),
            id: Txid(out[1]),
        })
    }

    /// Ends a registration; its slot is empty again.
    ///
    /// # Errors
    ///
    /// 2, 4 and 3 where the transaction does not hold its slot.
    #[inline]
    pub fn end(&mut self, Registration { slot, id }: Registration) -> Result<(), Refusal> {
        let (words, mut out): (_, Out) = (&mut *self.0, [0; 8]);
        // As above.
        let said = unsafe {
            raw::sockhurdle_end(
                words.as_mut_ptr(),
                words.len(),
                slot.0,
                id.0,
                out.as_mut_ptr(),
                out.len(),
            )
        };
        accepted(said, &out, |_| ())
    }

    /// A snapshot, which nothing holds safe: versions that its reader may use can go while it reads. A reader that can't bear that
    /// registers ([`transaction_snapshot`](Table::transaction_snapshot)) or pins ([`pin`](Table::pin)).
    ///
    /// # Errors
    ///
    /// 7 and 8 for a clock or a sample that may not be observed.
    pub fn snapshot(&mut self, clock: u64, sample: u64) -> Result<Snapshot, Refusal> {
        let mut seen = Snapshot::room();
        self.snapshot_into(clock, sample, &mut seen)?;
        Ok(seen)
    }

    /// The same, into room that is there. A refusal leaves it as it was.
    ///
    /// # Errors
    ///
    /// As [`snapshot`](Table::snapshot).
    #[inline]
    pub fn snapshot_into(
        &mut self,
        clock: u64,
        sample: u64,
        seen: &mut Snapshot,
    ) -> Result<(), Refusal> {
        let (words, mut out): (_, Out) = (&mut *self.0, [0; 8]);
        // The three runs live, apart from each other, and nobody else has them, for as long as they are lent.
        let said = unsafe {
            raw::sockhurdle_snap(
                words.as_mut_ptr(),
                words.len(),
                clock,
                sample,
                out.as_mut_ptr(),
                out.len(),
                seen.ids.as_mut_ptr(),
                seen.ids.len(),
            )
        };
        accepted(said, &out, |out| show(seen, out))
    }

    /// A transaction's snapshot. Until it takes another one or ends, nothing that the snapshot's reader may use goes.
    ///
    /// ```
    /// use sockhurdle::{Holder, Refusal, Stamp, Table};
    ///
    /// let mut table = Table::fresh();
    /// let encode = table.begin(Stamp(1))?;
    /// let page = table.begin(Stamp(2))?;
    /// let seen = table.transaction_snapshot(page, 3, 3)?;
    /// assert_eq!(seen.in_flight(), [1, 2]);
    /// table.finish(encode, Stamp(3))?;
    /// assert!(!seen.settled(encode.id)?);
    /// assert_eq!(table.vacuum(4, 4)?, (1, Holder::Slot(page.slot))); // what 1 replaced stays
    /// table.end(page)?;
    /// assert_eq!(table.vacuum(4, 4)?, (4, Holder::Nobody)); // and may go
    /// # Ok::<(), Refusal>(())
    /// ```
    ///
    /// # Errors
    ///
    /// 2, 4 and 3 where the transaction does not hold its slot; then 7 and 8.
    pub fn transaction_snapshot(
        &mut self,
        of: Registration,
        clock: u64,
        sample: u64,
    ) -> Result<Snapshot, Refusal> {
        let mut seen = Snapshot::room();
        self.transaction_snapshot_into(of, clock, sample, &mut seen)?;
        Ok(seen)
    }

    /// The same, into room that is there. A refusal leaves it as it was.
    ///
    /// # Errors
    ///
    /// As [`transaction_snapshot`](Table::transaction_snapshot).
    #[inline]
    pub fn transaction_snapshot_into(
        &mut self,
        of: Registration,
        clock: u64,
        sample: u64,
        seen: &mut Snapshot,
    ) -> Result<(), Refusal> {
        let (words, mut out): (_, Out) = (&mut *self.0, [0; 8]);
        // As above.
        let said = unsafe {
            raw::sockhurdle_own(
                words.as_mut_ptr(),
                words.len(),
                of.slot.0,
                of.id.0,
                clock,
                sample,
                out.as_mut_ptr(),
                out.len(),
                seen.ids.as_mut_ptr(),
                seen.ids.len(),
            )
        };
        accepted(said, &out, |out| show(seen, out))
    }

    /// A snapshot for a reader that is not registered, and the lowest free pin, which holds it safe until it is released.
    ///
    /// ```
    /// use sockhurdle::{Holder, Refusal, Stamp, Table};
    ///
    /// let mut table = Table::fresh();
    /// let encode = table.begin(Stamp(1))?;
    /// let (pin, seen) = table.pin(2, 2)?;
    /// table.end(encode)?;
    /// assert!(!seen.settled(encode.id)?);
    /// assert_eq!(table.vacuum(2, 2)?, (1, Holder::Pin(pin)));
    /// table.unpin(pin)?;
    /// assert_eq!(table.vacuum(2, 2)?, (2, Holder::Nobody));
    /// assert_eq!(table.unpin(pin), Err(Refusal::FreePin { pin }));
    /// # Ok::<(), Refusal>(())
    /// ```
    ///
    /// # Errors
    ///
    /// 7 and 8 for a clock or a sample that may not be observed; 14 where no pin is free.
    pub fn pin(&mut self, clock: u64, sample: u64) -> Result<(PinNo, Snapshot), Refusal> {
        let mut seen = Snapshot::room();
        let pin = self.pin_into(clock, sample, &mut seen)?;
        Ok((pin, seen))
    }

    /// The same, into room that is there. A refusal leaves it as it was.
    ///
    /// # Errors
    ///
    /// As [`pin`](Table::pin).
    #[inline]
    pub fn pin_into(
        &mut self,
        clock: u64,
        sample: u64,
        seen: &mut Snapshot,
    ) -> Result<PinNo, Refusal> {
        let (words, mut out): (_, Out) = (&mut *self.0, [0; 8]);
        // As above.
        let said = unsafe {
            raw::sockhurdle_pin(
                words.as_mut_ptr(),
                words.len(),
                clock,
                sample,
                out.as_mut_ptr(),
                out.len(),
                seen.ids.as_mut_ptr(),
                seen.ids.len(),
            )
        };
        accepted(said, &out, |out| {
            show(seen, out);
            PinNo(out[0] as u16)
        })
    }

    /// Releases a pin. Its snapshot is not held safe any more.
    ///
    /// # Errors
    ///
    /// 15 where no pin has this number, 16 where it is free.
    #[inline]
    pub fn unpin(&mut self, pin: PinNo) -> Result<(), Refusal> {
        let (words, mut out): (_, Out) = (&mut *self.0, [0; 8]);
        // Both runs live, apart from each other, and nobody else has them, for as long as they are lent.
        let said = unsafe {
            raw::sockhurdle_unpin(
                words.as_mut_ptr(),
                words.len(),
                pin.0,
                out.as_mut_ptr(),
                out.len(),
            )
        };
        accepted(said, &out, |_| ())
    }

    /// Takes a reserved number as a publication stamp.
    ///
    /// # Errors
    ///
    /// 5, 6 and 13 for a number that may not be reserved.
    #[inline]
    pub fn stamp(&mut self, number: Stamp) -> Result<Stamp, Refusal> {
        let (words, mut out): (_, Out) = (&mut *self.0, [0; 8]);
        // As above.
        let said = unsafe {
            raw::sockhurdle_stamp(
                words.as_mut_ptr(),
                words.len(),
                number.0,
                out.as_mut_ptr(),
                out.len(),
            )
        };
        accepted(said, &out, |out| Stamp(out[1]))
    }

    /// Ends a registration and takes a publication stamp, in one step.
    ///
    /// # Errors
    ///
    /// 2, 4 and 3 where the transaction does not hold its slot; then 5, 6 and 13. The transaction stays registered.
    #[inline]
    pub fn finish(&mut self, of: Registration, number: Stamp) -> Result<Stamp, Refusal> {
        let (words, mut out): (_, Out) = (&mut *self.0, [0; 8]);
        // As above.
        let said = unsafe {
            raw::sockhurdle_finish(
                words.as_mut_ptr(),
                words.len(),
                of.slot.0,
                of.id.0,
                number.0,
                out.as_mut_ptr(),
                out.len(),
            )
        };
        accepted(said, &out, |out| Stamp(out[1]))
    }

    /// The oldest retained xmin, and who holds it.
    ///
    /// # Errors
    ///
    /// 7 and 8 for a clock or a sample that may not be observed.
    #[inline]
    pub fn oldest(&mut self, clock: u64, sample: u64) -> Result<(u64, Holder), Refusal> {
        let (words, mut out): (_, Out) = (&mut *self.0, [0; 8]);
        // As above.
        let said = unsafe {
            raw::sockhurdle_oldest(
                words.as_mut_ptr(),
                words.len(),
                clock,
                sample,
                out.as_mut_ptr(),
                out.len(),
            )
        };
        accepted(said, &out, |out| (out[3], holder_of(out[7])))
    }

    /// Raises the vacuum line as far as no reader needs what an id below it replaced; the line, and who holds it back.
    ///
    /// # Errors
    ///
    /// 7 and 8 for a clock or a sample that may not be observed.
    #[inline]
    pub fn vacuum(&mut self, clock: u64, sample: u64) -> Result<(u64, Holder), Refusal> {
        let (words, mut out): (_, Out) = (&mut *self.0, [0; 8]);
        // As above.
        let said = unsafe {
            raw::sockhurdle_vacuum(
                words.as_mut_ptr(),
                words.len(),
                clock,
                sample,
                out.as_mut_ptr(),
                out.len(),
            )
        };
        accepted(said, &out, |out| (out[5], holder_of(out[7])))
    }
}
