//! A row for each slot and pin that was used, with a bar for each stay in it: from its taking to its end, and in it the xmin
//! that it retains. Where it held the line, from the first vacuum that named it until it let go, the bar is another.

use super::frame::LEFT;
use super::labels;
use super::layout::{Band, Layout};
use super::svg::Svg;
use crate::account::culprits;
use crate::account::places::Place;
use crate::account::story::{Hold, Holder, Stay};
use crate::account::words;

/// Rows lower than this have no words in their bars, and only every tenth and those who held the line have their names.
const LEGIBLE: f64 = 12.0;

/// The rows and their names; the names of those who held the line are marked.
pub fn names(svg: &mut Svg, layout: &Layout) {
    let culprits = culprits::culprits(layout.story);
    let mut free = f64::MIN;
    for (row, &place) in layout.rows.places.iter().enumerate() {
        let band = layout.rows.row(place);
        if row % 2 == 0 {
            let wide = layout.frame.end() - LEFT;
            svg.rect([LEFT, band.top, wide, band.height], "lane", "");
        }
        let held = culprits.iter().any(|one| one.stay.place == place);
        let class = if held { "name culprit" } else { "name" };
        let wanted = held || row % 10 == 0 || band.height >= LEGIBLE;
        if wanted && band.top >= free {
            svg.words(LEFT - 8.0, band.middle() + 4.0, class, &place.to_string());
            free = band.top + LEGIBLE;
        }
    }
}

pub fn bars(svg: &mut Svg, layout: &Layout) {
    let culprits = culprits::culprits(layout.story);
    for stay in &layout.story.stays {
        for hold in &stay.holds {
            let named = culprits.iter().find(|one| std::ptr::eq(one.hold, hold));
            let vacuums = named.map_or(&[][..], |one| &one.vacuums);
            bar(svg, layout, stay, hold, vacuums);
        }
    }
    holders(svg, layout);
}

/// One hold, and the vacuums that named it.
fn bar(svg: &mut Svg, layout: &Layout, stay: &Stay, hold: &Hold, vacuums: &[usize]) {
    let band = inner(layout.rows.row(stay.place));
    let title = told(stay, hold, vacuums);
    let class = match stay.place {
        Place::Slot(_) => "bar",
        Place::Pin(_) => "bar pin",
    };
    let (from, to) = (layout.frame.at(hold.from), layout.frame.until(hold.to));
    let marks: Vec<f64> = vacuums
        .iter()
        .map(|vacuum| layout.frame.at(*vacuum))
        .collect();
    svg.rect([from, band.top, to - from, band.height], class, &title);
    if let Some(&first) = marks.first() {
        svg.rect([first, band.top, to - first, band.height], "held", &title);
    }
    if layout.rows.height >= LEGIBLE {
        let (x, room) = widest(from, &marks, to, layout.frame.mark());
        let wordings = wordings(stay, hold);
        let fitting = labels::fitting(&wordings, room);
        svg.words(x + 4.0, band.middle() + 4.0, "in", fitting);
    }
}

/// The widest stretch of a bar that no mark covers: where it begins, and how wide it is.
fn widest(from: f64, marks: &[f64], to: f64, half: f64) -> (f64, f64) {
    let begins = [from]
        .into_iter()
        .chain(marks.iter().map(|mark| mark + half));
    let ends = marks.iter().map(|mark| mark - half).chain([to]);
    let stretches = begins.zip(ends).map(|(begin, end)| (begin, end - begin));
    stretches.fold(
        (from, 0.0),
        |best, next| if next.1 > best.1 { next } else { best },
    )
}

/// A row without its margins.
fn inner(row: Band) -> Band {
    let margin = if row.height >= LEGIBLE { 2.0 } else { 1.0 };
    Band {
        top: row.top + margin,
        height: row.height - 2.0 * margin,
    }
}

/// What a bar says, the longest first.
fn wordings(stay: &Stay, hold: &Hold) -> Vec<String> {
    let whose = stay.id.map(|id| format!("id {id}, xmin {}", hold.xmin));
    let short = [format!("xmin {}", hold.xmin), hold.xmin.to_string()];
    whose.into_iter().chain(short).collect()
}

fn told(stay: &Stay, hold: &Hold, vacuums: &[usize]) -> String {
    let span = words::span(hold.from, hold.to);
    let mut told = format!("{} kept xmin {} {span}", words::stay(stay), hold.xmin);
    if let Some(first) = vacuums.first() {
        let count = words::counted(vacuums.len() as u64, "vacuum");
        told.push_str(&format!(
            " and held the line: {count} named it, the first is record {first}"
        ));
    }
    told
}

/// The mark of each vacuum again, on who held the line.
fn holders(svg: &mut Svg, layout: &Layout) {
    for step in layout.story.vacuums() {
        let Holder::Hold(at) = step.holder else {
            continue;
        };
        let row = layout.rows.row(layout.story.hold(at).0.place);
        let half = layout.frame.mark().min(row.height / 2.0 - 1.0);
        let x = layout.frame.at(step.number);
        svg.diamond(
            x,
            row.middle(),
            half,
            "holder",
            &words::step(layout.story, step),
        );
    }
}

#[cfg(test)]
mod tests {
    use super::*;
    use crate::account::made_up;

    fn drawn() -> String {
        let (text, said) = made_up::with_pins();
        let story = made_up::story_of(&text, &said);
        let mut svg = Svg::default();
        let layout = Layout::of(&story, 0.0);
        names(&mut svg, &layout);
        bars(&mut svg, &layout);
        svg.text
    }

    #[test]
    fn a_pin_has_a_row_and_a_bar_of_its_own() {
        let drawn = drawn();
        assert!(drawn.contains(">pin 0</text>"));
        assert_eq!(drawn.matches("class=\"bar pin\"").count(), 1);
        assert_eq!(drawn.matches("class=\"bar\"").count(), 2);
        assert!(drawn.contains("pin 0 kept xmin 1 from record 2 to 6 and held the line: 1 vacuum named it, the first is record 5"));
    }

    #[test]
    fn the_holder_of_each_vacuum_is_marked_in_its_row() {
        let drawn = drawn();
        assert_eq!(drawn.matches("class=\"holder\"").count(), 3);
        assert_eq!(drawn.matches("class=\"held\"").count(), 2);
    }

    #[test]
    fn words_stand_between_the_marks() {
        assert_eq!(widest(0.0, &[], 50.0, 5.0), (0.0, 50.0));
        assert_eq!(widest(0.0, &[20.0], 100.0, 5.0), (25.0, 75.0));
        assert_eq!(widest(0.0, &[60.0, 70.0], 100.0, 5.0), (0.0, 55.0));
    }

    /// The pin's bar begins in the middle of column 2, is held from the middle of column 5, and ends in that of column 6.
    #[test]
    fn bars_begin_and_end_in_their_columns() {
        let drawn = drawn();
        assert!(drawn.contains("<rect class=\"bar pin\" x=\"206\""));
        assert!(drawn.contains("<rect class=\"held\" x=\"338\""));
        let pin = drawn.split("class=\"bar pin\"").nth(1).unwrap();
        assert!(pin.split('>').next().unwrap().contains("width=\"176\""));
    }
}
