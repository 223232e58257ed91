//! Images and lists read in plain Rust, from SPEC 18 alone, and the answers that follow by the twin's rules; with a fault put
//! in on demand, to see that the comparison can fail.

use crate::question::Question;
use twin::table::{PINS, SLOTS, Slot, Table};
use twin::tiles::{self, Seen};

#[derive(Clone, Copy, Debug, PartialEq, Eq)]
pub enum Fault {
    BigEndian,
    XminBeforeTxid,
    ClockAndSample,
    SampleAndLine,
    CountersFirst,
    PinsLeftOut,
    PinsLast,
    LongerImageRead,
    ShorterImageRead,
    OtherLengthIsNo,
    ShortListRead,
    TornListCut,
    CountCutToSlots,
    TenBefore18,
    FourBefore18,
    FourBefore10,
    TenOfFullList,
    OwnForMaker,
}

pub const FAULTS: &[Fault] = &[
    Fault::BigEndian,
    Fault::XminBeforeTxid,
    Fault::ClockAndSample,
    Fault::SampleAndLine,
    Fault::CountersFirst,
    Fault::PinsLeftOut,
    Fault::PinsLast,
    Fault::LongerImageRead,
    Fault::ShorterImageRead,
    Fault::OtherLengthIsNo,
    Fault::ShortListRead,
    Fault::TornListCut,
    Fault::CountCutToSlots,
    Fault::TenBefore18,
    Fault::FourBefore18,
    Fault::FourBefore10,
    Fault::TenOfFullList,
    Fault::OwnForMaker,
];

/// Of an image: two for each slot, one for each pin, and three.
const NUMBERS: usize = 2 * SLOTS + PINS + 3;

/// A reading of the bytes, right or with one fault.
pub struct Reading(pub Option<Fault>);

impl Reading {
    fn has(&self, fault: Fault) -> bool {
        self.0 == Some(fault)
    }

    fn number(&self, bytes: &[u8]) -> u64 {
        let digit = |number: u64, byte: &u8| number * 256 + u64::from(*byte);
        if self.has(Fault::BigEndian) {
            bytes.iter().fold(0, digit)
        } else {
            bytes.iter().rev().fold(0, digit)
        }
    }

    fn numbers(&self, bytes: &[u8]) -> Vec<u64> {
        bytes.chunks(8).map(|eight| self.number(eight)).collect()
    }

    /// The table of an image, or none where the length is another's.
    pub fn table(&self, image: &[u8]) -> Option<Table> {
        let length = 8 * NUMBERS;
        let fits = match image.len() {
            longer if longer > length => self.has(Fault::LongerImageRead),
            shorter if shorter < length => self.has(Fault::ShorterImageRead),
            _ => true,
        };
        let mut numbers = self.numbers(image);
        numbers.resize(NUMBERS, 0);
        if self.has(Fault::CountersFirst) {
            numbers.rotate_left(3);
        }
        let mut slots = [Slot::default(); SLOTS];
        for (slot, pair) in slots.iter_mut().zip(numbers.chunks(2)) {
            let swapped = self.has(Fault::XminBeforeTxid);
            let (txid, snapshot_xmin) = if swapped {
                (pair[1], pair[0])
            } else {
                (pair[0], pair[1])
            };
            *slot = Slot {
                txid,
                snapshot_xmin,
            };
        }
        let (first_pin, first_counter) = match self.has(Fault::PinsLast) {
            true => (2 * SLOTS + 3, 2 * SLOTS),
            false => (2 * SLOTS, 2 * SLOTS + PINS),
        };
        let mut pins = [0; PINS];
        if !self.has(Fault::PinsLeftOut) {
            pins.copy_from_slice(&numbers[first_pin..first_pin + PINS]);
        }
        let mut counters = [0, 1, 2].map(|place| numbers[first_counter + place]);
        if self.has(Fault::ClockAndSample) {
            counters.swap(0, 1);
        }
        if self.has(Fault::SampleAndLine) {
            counters.swap(1, 2);
        }
        let [clock, sample, line] = counters;
        fits.then(|| Table::of(slots, pins, clock, sample, line))
    }

    /// The answer: 0 for no, 1 for yes, else a refusal's number.
    pub fn answer(&self, question: &Question) -> u64 {
        match question {
            Question::Check(image) => match self.table(image) {
                Some(table) => table.passes().into(),
                None if self.has(Fault::OtherLengthIsNo) => 0,
                None => 18,
            },
            Question::Settled { xmax, list, id } => {
                self.of_list(*xmax, list, *id, |seen| tiles::settled(seen, *id))
            }
            Question::Usable {
                xmax,
                list,
                id,
                own,
            } => {
                let (own, id) = match self.has(Fault::OwnForMaker) {
                    true => (*id, *own),
                    false => (*own, *id),
                };
                self.of_list(*xmax, list, id, |seen| tiles::usable(seen, own, id))
            }
        }
    }

    fn of_list(
        &self,
        xmax: u64,
        list: &[u8],
        id: u64,
        ask: impl Fn(&Seen) -> Result<bool, u8>,
    ) -> u64 {
        let torn = !list.len().is_multiple_of(8);
        let long = list.len() / 8 > SLOTS;
        if torn && !self.has(Fault::ShortListRead) && !self.has(Fault::TornListCut) {
            return match () {
                () if self.has(Fault::TenBefore18) && long => 10,
                () if self.has(Fault::FourBefore18) && id == 0 => 4,
                () => 18,
            };
        }
        let mut ids = self.numbers(list);
        if torn && self.has(Fault::TornListCut) {
            ids.pop();
        }
        if self.has(Fault::CountCutToSlots) {
            ids.truncate(SLOTS);
        }
        if self.has(Fault::FourBefore10) && id == 0 {
            return 4;
        }
        if self.has(Fault::TenOfFullList) && ids.len() == SLOTS {
            return 10;
        }
        let seen = Seen {
            xmax,
            ids: &ids,
            count: ids.len(),
        };
        match ask(&seen) {
            Ok(yes) => yes.into(),
            Err(refusal) => refusal.into(),
        }
    }
}
