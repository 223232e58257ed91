//! Where a record stands from left to right. A record has a column and happens in its middle; how things stand after it
//! lasts to the middle of the next.

/// Room for the names of the rows, and for a number of twenty digits.
pub const LEFT: f64 = 140.0;
const RIGHT: f64 = 28.0;
const NARROWEST: f64 = 1.25;
const WIDEST: f64 = 44.0;
const DRAWN: f64 = 1000.0;
/// So that the words of a short trace have room.
const LEAST: f64 = 600.0;

pub struct Frame {
    pub records: usize,
    pub column: f64,
}

impl Frame {
    pub fn of(records: usize) -> Frame {
        let column = (DRAWN / records.max(1) as f64).clamp(NARROWEST, WIDEST);
        Frame { records, column }
    }

    /// The middle of a record's column; 0 is the fresh table, at the left edge.
    pub fn at(&self, record: usize) -> f64 {
        match record {
            0 => LEFT,
            _ => LEFT + (record as f64 - 0.5) * self.column,
        }
    }

    pub fn end(&self) -> f64 {
        LEFT + self.records as f64 * self.column
    }

    /// Where something ends; what nothing ended goes on to the edge.
    pub fn until(&self, to: Option<usize>) -> f64 {
        to.map_or(self.end(), |record| self.at(record))
    }

    pub fn width(&self) -> f64 {
        (self.end() + RIGHT).max(LEAST)
    }

    /// Half the size of a mark, so that two neighbours stay apart as long as they can be seen.
    pub fn mark(&self) -> f64 {
        (self.column / 2.0).clamp(1.5, 5.0)
    }

    /// The records whose numbers are written: as many as have room, in round steps.
    pub fn ticks(&self) -> impl Iterator<Item = usize> {
        let steps = [1, 2, 5, 10, 20, 50, 100, 200, 500];
        let step = *steps
            .iter()
            .find(|step| **step as f64 * self.column >= 30.0)
            .unwrap_or(&500);
        (1..=self.records).filter(move |record| record % step == 0)
    }
}

#[cfg(test)]
mod tests {
    use super::*;

    #[test]
    fn a_short_trace_has_wide_columns_and_a_long_one_narrow_ones() {
        let (short, long) = (Frame::of(20), Frame::of(1_489));
        assert_eq!((short.column, long.column), (WIDEST, NARROWEST));
        assert_eq!(short.at(1), LEFT + 22.0);
        assert_eq!(short.until(Some(3)), LEFT + 110.0);
        assert_eq!(short.until(None), LEFT + 880.0);
        assert!(long.width() < 2_100.0);
    }

    #[test]
    fn an_empty_trace_has_a_frame() {
        let empty = Frame::of(0);
        assert_eq!((empty.end(), empty.width()), (LEFT, LEAST));
        assert_eq!(empty.ticks().count(), 0);
    }

    #[test]
    fn written_numbers_have_room() {
        for records in [1, 20, 48, 300, 1_489] {
            let frame = Frame::of(records);
            let ticks: Vec<usize> = frame.ticks().collect();
            let close = |pair: &[usize]| (pair[1] - pair[0]) as f64 * frame.column < 29.0;
            assert!(!ticks.is_empty() && ticks.len() <= 40 && !ticks.windows(2).any(close));
        }
    }
}
