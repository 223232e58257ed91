//! The ids over the records: the clock, the oldest retained xmin and the line.

use super::frame::LEFT;
use super::layout::{self, Layout};
use super::svg::{Svg, short};
use crate::account::story::{FRESH, Step};

/// More cuts than these are told by the legend alone.
const CUTS: usize = 12;

pub fn draw(svg: &mut Svg, layout: &Layout) {
    axis(svg, layout);
    let clock = heights(layout, Some(FRESH), |step| Some(step.clock));
    let line = heights(layout, Some(FRESH), |step| Some(step.answer.line));
    let oldest = heights(layout, None, |step| step.oldest);
    svg.path(&area(layout, &line, &clock), "kept", "");
    cuts(svg, layout);
    svg.path(&stairs(layout, &line), "line", "");
    svg.path(&stairs(layout, &clock), "clock", "");
    svg.path(&stairs(layout, &oldest), "oldest", "");
}

/// How high something stands on the fresh table and after each record; nothing where it is none.
fn heights(
    layout: &Layout,
    fresh: Option<u64>,
    after: impl Fn(&Step) -> Option<u64>,
) -> Vec<Option<f64>> {
    let ids = [fresh]
        .into_iter()
        .chain(layout.story.steps.iter().map(after));
    ids.map(|id| id.map(|id| layout.y(id))).collect()
}

/// A path that goes on at one height until the next record that changes it; broken where there is none.
fn stairs(layout: &Layout, heights: &[Option<f64>]) -> String {
    let mut drawn = String::new();
    let mut last = None;
    for (record, &height) in heights.iter().enumerate() {
        if height == last {
            continue;
        }
        let x = short(layout.frame.at(record));
        if last.is_some() {
            drawn.push_str(&format!("H{x}"));
        }
        match (last, height) {
            (Some(_), Some(y)) => drawn.push_str(&format!("V{}", short(y))),
            (None, Some(y)) => drawn.push_str(&format!("M{x} {}", short(y))),
            _ => {}
        }
        last = height;
    }
    if last.is_some() {
        drawn.push_str(&format!("H{}", short(layout.frame.end())));
    }
    drawn
}

/// What lies between the line and the clock: along the one, and back along the other.
fn area(layout: &Layout, line: &[Option<f64>], clock: &[Option<f64>]) -> String {
    let back = corners(layout, line).into_iter().rev();
    let corners = corners(layout, clock).into_iter().chain(back);
    let drawn: Vec<String> = corners
        .map(|(x, y)| format!("{} {}", short(x), short(y)))
        .collect();
    format!("M{}Z", drawn.join("L"))
}

/// Where each height begins and ends.
fn corners(layout: &Layout, heights: &[Option<f64>]) -> Vec<(f64, f64)> {
    let mut all = Vec::new();
    for (record, height) in heights.iter().enumerate() {
        let next = (record + 1 < heights.len()).then_some(record + 1);
        let y = height.unwrap_or(layout.chart.bottom());
        all.push((layout.frame.at(record), y));
        all.push((layout.frame.until(next), y));
    }
    all
}

/// The ids on the left and the records' numbers below.
fn axis(svg: &mut Svg, layout: &Layout) {
    let (frame, chart) = (&layout.frame, layout.chart);
    svg.words(LEFT - 8.0, chart.top - 12.0, "name", "ids");
    for id in layout.ids.ticks(18.0 / chart.height) {
        let y = layout.y(id);
        svg.stroke([LEFT, y, frame.end(), y], "grid", "");
        svg.words(LEFT - 8.0, y + 3.5, "tick left", &id.to_string());
    }
    svg.words(LEFT - 8.0, layout.axis.top + 12.0, "name", "record");
    for record in frame.ticks() {
        let x = frame.at(record);
        svg.words(x, layout.axis.top + 12.0, "tick", &record.to_string());
    }
    if layout::ops_have_room(frame) {
        for step in &layout.story.steps {
            let x = frame.at(step.number);
            svg.words(x, layout.axis.top + 25.0, "tick", step.record.op);
        }
    }
}

/// Where ids are left out, unless there are too many such places.
fn cuts(svg: &mut Svg, layout: &Layout) {
    let cuts = &layout.ids.cuts;
    for (from, to) in cuts.iter().filter(|_| cuts.len() <= CUTS) {
        let y = (layout.y(*from) + layout.y(*to)) / 2.0;
        let told = format!("left out: the ids between {from} and {to}");
        svg.stroke([LEFT, y, layout.frame.end(), y], "cut", &told);
    }
}

#[cfg(test)]
mod tests {
    use super::*;
    use crate::account::made_up;
    use crate::account::story::Story;

    #[test]
    fn stairs_change_at_the_record_and_break_where_nothing_is() {
        let text = made_up::trace(
            "proc-2",
            &["begin 0 0 1 0 0", "end 0 1 0 0 0", "begin 0 0 2 0 0"],
        );
        let said = made_up::output(&[
            "0 0 1 0 0 0 1 0 0",
            "0 0 0 0 0 0 1 0 0",
            "0 0 2 0 0 0 1 0 0",
        ]);
        let story = made_up::story_of(&text, &said);
        let layout = Layout::of(&story, 0.0);
        let heights = [None, Some(9.0), None, Some(5.0)];
        assert_eq!(stairs(&layout, &heights), "M162 9H206M250 5H272");
        let flat = [Some(1.0), Some(1.0), Some(2.0), Some(2.0)];
        assert_eq!(stairs(&layout, &flat), "M140 1H206V2H272");
        let there = "M140 1L162 1L162 1L206 1L206 2L250 2L250 2L272 2L";
        assert!(area(&layout, &heights, &flat).starts_with(there));
    }

    #[test]
    fn an_empty_trace_is_drawn() {
        let story = Story::of(b"trace=proc-2\n", b"records=0\n").unwrap();
        let mut svg = Svg::default();
        draw(&mut svg, &Layout::of(&story, 0.0));
        assert!(!svg.text.contains("NaN"));
    }
}
