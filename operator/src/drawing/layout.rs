//! Where the parts of a picture stand from top to bottom: the ids, the records' numbers, who held the line, the refused
//! calls, and a row for each slot and pin that was used.

use super::frame::Frame;
use super::ids::Ids;
use super::lanes;
use crate::account::places::Place;
use crate::account::story::{FRESH, Story};
use std::collections::BTreeSet;

pub struct Layout<'a> {
    pub story: &'a Story<'a>,
    pub frame: Frame,
    pub ids: Ids,
    pub chart: Band,
    pub axis: Band,
    pub held: Band,
    pub refused: Band,
    pub rows: Rows,
}

/// A part of the picture from edge to edge.
#[derive(Clone, Copy)]
pub struct Band {
    pub top: f64,
    pub height: f64,
}

pub struct Rows {
    pub places: Vec<Place>,
    pub top: f64,
    /// Of one row.
    pub height: f64,
}

const CHART: f64 = 190.0;
const HELD: f64 = 22.0;
const BETWEEN: f64 = 8.0;

impl<'a> Layout<'a> {
    /// From `top` on.
    pub fn of(story: &'a Story<'a>, top: f64) -> Layout<'a> {
        let frame = Frame::of(story.steps.len());
        let band = |top: f64, height: f64| Band { top, height };
        let chart = band(top + 26.0, CHART);
        let axis = band(
            chart.bottom() + 6.0,
            if ops_have_room(&frame) { 30.0 } else { 18.0 },
        );
        let held = band(axis.bottom() + BETWEEN, HELD);
        let refused = band(
            held.bottom() + BETWEEN,
            lanes::refused_height(story, &frame),
        );
        let places: BTreeSet<Place> = story.stays.iter().map(|stay| stay.place).collect();
        let height = match places.len() {
            0..=40 => 24.0,
            41..=160 => 15.0,
            _ => 7.0,
        };
        let rows = Rows {
            places: places.into_iter().collect(),
            top: refused.bottom() + BETWEEN,
            height,
        };
        Layout {
            story,
            frame,
            ids: ids(story),
            chart,
            axis,
            held,
            refused,
            rows,
        }
    }

    /// How high an id stands in the chart.
    pub fn y(&self, id: u64) -> f64 {
        self.chart.bottom() - self.ids.height(id) * self.chart.height
    }

    pub fn bottom(&self) -> f64 {
        self.rows.top + self.rows.height * self.rows.places.len() as f64 + BETWEEN
    }
}

impl Band {
    pub fn bottom(&self) -> f64 {
        self.top + self.height
    }

    pub fn middle(&self) -> f64 {
        self.top + self.height / 2.0
    }
}

impl Rows {
    /// The row of a place that is one of them.
    pub fn row(&self, place: Place) -> Band {
        let row = self.places.binary_search(&place).unwrap_or(0);
        Band {
            top: self.top + row as f64 * self.height,
            height: self.height,
        }
    }
}

/// Whether the name of each record's op has room below its number.
pub fn ops_have_room(frame: &Frame) -> bool {
    frame.column >= 40.0
}

/// All ids that the chart shows.
pub fn ids(story: &Story) -> Ids {
    let clocks = story.steps.iter().map(|step| step.clock);
    let lines = story.steps.iter().map(|step| step.answer.line);
    let oldest = story.steps.iter().filter_map(|step| step.oldest);
    Ids::of(clocks.chain(lines).chain(oldest).chain([FRESH]))
}

#[cfg(test)]
mod tests {
    use super::*;
    use crate::account::made_up;

    #[test]
    fn there_is_a_row_for_each_place_that_was_used() {
        let (text, said) = made_up::with_pins();
        let story = made_up::story_of(&text, &said);
        let layout = Layout::of(&story, 0.0);
        assert_eq!(
            layout.rows.places,
            [Place::Slot(0), Place::Slot(1), Place::Pin(0)]
        );
        let tops = layout
            .rows
            .places
            .iter()
            .map(|place| layout.rows.row(*place).top);
        let expected = [0.0, 24.0, 48.0].map(|down| layout.rows.top + down);
        assert_eq!(tops.collect::<Vec<_>>(), expected);
        assert_eq!(layout.bottom(), layout.rows.top + 72.0 + BETWEEN);
    }

    #[test]
    fn parts_stand_below_each_other() {
        let (text, said) = made_up::with_pins();
        let story = made_up::story_of(&text, &said);
        let layout = Layout::of(&story, 40.0);
        let parts = [layout.chart, layout.axis, layout.held, layout.refused];
        assert!(parts.windows(2).all(|pair| pair[0].bottom() <= pair[1].top));
        assert!(layout.refused.bottom() <= layout.rows.top);
        assert_eq!(
            (layout.y(1), layout.y(6)),
            (layout.chart.bottom(), layout.chart.top)
        );
    }

    #[test]
    fn nothing_at_all_has_a_layout() {
        let story = Story::of(b"trace=proc-2\n", b"records=0\n").unwrap();
        let layout = Layout::of(&story, 0.0);
        assert!(layout.rows.places.is_empty() && layout.bottom() > layout.chart.bottom());
    }
}
