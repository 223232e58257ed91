use crate::{Refusal, answer, raw};

/// How many slots a table has. The library has its own number, and another here is found by the tests.
pub const SLOTS: usize = 1024;

/// How many pins a table has; the same.
pub const PINS: usize = 64;

/// How many bytes the image of a table has.
pub const IMAGE_LEN: usize = 16 * SLOTS + 8 * PINS + 24;

/// A slot; txid 0 marks it empty.
#[derive(Clone, Copy, Debug, Default, PartialEq, Eq)]
pub struct Slot {
    pub txid: u64,
    pub snapshot_xmin: u64,
}

/// What an image says: a table as plain numbers. Nothing keeps it from being one that the check refuses.
#[derive(Clone, Debug, PartialEq, Eq)]
pub struct Image {
    pub slots: [Slot; SLOTS],
    /// The xmins of pinned snapshots; 0 marks a free pin.
    pub pins: [u64; PINS],
    pub clock: u64,
    pub sampled_clock: u64,
    pub vacuum_line: u64,
}

impl Image {
    /// The fresh table: all slots empty, all pins free, the counters 1.
    pub fn fresh() -> Self {
        Image {
            slots: [Slot::default(); SLOTS],
            pins: [0; PINS],
            clock: 1,
            sampled_clock: 1,
            vacuum_line: 1,
        }
    }

    /// Its bytes: slot after slot the txid and the snapshot_xmin, then the pins, then clock, sampled clock and line, each as 8
    /// bytes, the least byte first.
    pub fn bytes(&self) -> Vec<u8> {
        let slots = self.slots.iter();
        let slots = slots.flat_map(|slot| [slot.txid, slot.snapshot_xmin]);
        let counters = [self.clock, self.sampled_clock, self.vacuum_line];
        let numbers = slots.chain(self.pins).chain(counters);
        numbers.flat_map(u64::to_le_bytes).collect()
    }

    /// What the bytes of an image say, if its table passes the check; none where it does not.
    ///
    /// # Errors
    ///
    /// 18 where the bytes have another length.
    pub fn of_bytes(image: &[u8]) -> Result<Option<Self>, Refusal> {
        if !check_image(image)? {
            return Ok(None);
        }
        let (words, _) = image.as_chunks();
        let mut numbers = words.iter().map(|word| u64::from_le_bytes(*word));
        let mut next = || numbers.next().expect("an image has all its numbers");
        let slots = std::array::from_fn(|_| Slot {
            txid: next(),
            snapshot_xmin: next(),
        });
        let pins = std::array::from_fn(|_| next());
        Ok(Some(Image {
            slots,
            pins,
            clock: next(),
            sampled_clock: next(),
            vacuum_line: next(),
        }))
    }
}

/// Whether the table of an image passes the table check.
///
/// # Errors
///
/// 18 where the bytes have another length than [`IMAGE_LEN`].
#[inline]
pub fn check_image(image: &[u8]) -> Result<bool, Refusal> {
    // The bytes live, and nobody writes them, for as long as they are lent.
    answer(unsafe { raw::sockhurdle_check_image(image.as_ptr(), image.len()) })
}
