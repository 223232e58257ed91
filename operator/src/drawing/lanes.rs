//! Two lanes over the rows: who held the line, and the refused calls.

use super::frame::{Frame, LEFT};
use super::labels::{self, Label};
use super::layout::Layout;
use super::svg::Svg;
use crate::account::culprits;
use crate::account::refusals;
use crate::account::story::Story;
use crate::account::words;

/// Levels on which the names of refusals find room, the height of one, and of the marks above them.
const LEVELS: usize = 3;
const LEVEL: f64 = 13.0;
const MARKS: f64 = 14.0;

/// Who held the line, one after the other.
pub fn held(svg: &mut Svg, layout: &Layout) {
    let (lane, frame, story) = (layout.held, &layout.frame, layout.story);
    svg.words(LEFT - 8.0, lane.middle() + 4.0, "name", "line held by");
    svg.rect(
        [LEFT, lane.top, frame.end() - LEFT, lane.height],
        "lane",
        "",
    );
    for reign in culprits::reigns(story) {
        let (stay, hold) = story.hold(reign.at);
        let (from, to) = (frame.at(reign.from), frame.until(reign.to));
        let who = words::stay(stay);
        let span = words::span(reign.from, reign.to);
        let told = format!("{who} held the line {span}: it kept xmin {}", hold.xmin);
        svg.rect([from, lane.top, to - from, lane.height], "held", &told);
        let wordings = [
            format!("{who}: xmin {}", hold.xmin),
            who,
            stay.place.to_string(),
        ];
        svg.words(
            from + 4.0,
            lane.middle() + 4.0,
            "in",
            labels::fitting(&wordings, to - from),
        );
    }
}

/// A cross at each refused call, with its number and name below it where there is room.
pub fn refused(svg: &mut Svg, layout: &Layout) {
    let lane = layout.refused;
    if lane.height == 0.0 {
        return;
    }
    svg.words(LEFT - 8.0, lane.top + 10.0, "name", "refused");
    for step in layout
        .story
        .steps
        .iter()
        .filter(|step| !step.answer.accepted())
    {
        let x = layout.frame.at(step.number);
        let half = layout.frame.mark().min(4.0);
        svg.cross(
            x,
            lane.top + 6.0,
            half,
            "refused",
            &words::step(layout.story, step),
        );
    }
    for Label { x, level, words } in names(layout.story, &layout.frame) {
        let y = lane.top + MARKS + (level as f64 + 0.75) * LEVEL;
        svg.words(x, y, "refusal", &words);
    }
}

pub fn refused_height(story: &Story, frame: &Frame) -> f64 {
    if story.steps.iter().all(|step| step.answer.accepted()) {
        return 0.0;
    }
    let names = names(story, frame);
    let levels = names.iter().map(|label| label.level + 1).max().unwrap_or(0);
    MARKS + levels as f64 * LEVEL
}

/// Of refusals of one kind that stand closer than their name is wide, the first has it.
fn names(story: &Story, frame: &Frame) -> Vec<Label> {
    let mut wanted: Vec<(f64, Vec<String>)> = Vec::new();
    let (mut last, mut end) = (0, f64::MIN);
    for step in story.steps.iter().filter(|step| !step.answer.accepted()) {
        let number = step.answer.number;
        let (x, name) = (frame.at(step.number) - 4.0, refusals::name(number));
        if number != last || x >= end {
            (last, end) = (number, x + labels::width(&name) + 4.0);
            wanted.push((x, vec![name, number.to_string()]));
        }
    }
    labels::packed(&wanted, frame.width(), LEVELS)
}

#[cfg(test)]
mod tests {
    use super::*;
    use crate::account::made_up;

    #[test]
    fn a_refused_call_has_its_number_and_name() {
        let (text, said) = made_up::with_pins();
        let story = made_up::story_of(&text, &said);
        let mut svg = Svg::default();
        refused(&mut svg, &Layout::of(&story, 0.0));
        assert_eq!(svg.text.matches("class=\"refused\"").count(), 1);
        assert!(svg.text.contains(">16 FreePin</text>"));
    }

    /// A hundred ends of nothing: names that stand beside each other, on one level but for what the edge moves.
    #[test]
    fn refusals_of_one_kind_share_a_name() {
        let text = made_up::trace("proc-2", &["end 0 0 0 0 0"; 100]);
        let said = made_up::output(&["4 0 0 0 0 0 1 0 0"; 100]);
        let story = made_up::story_of(&text, &said);
        let names = names(&story, &Frame::of(100));
        assert!(names.len() > 5 && names.len() < 20);
        assert!(names.iter().rev().skip(1).all(|label| label.level == 0));
    }

    #[test]
    fn the_lane_names_one_holder_after_the_other() {
        let (text, said) = made_up::with_pins();
        let story = made_up::story_of(&text, &said);
        let mut svg = Svg::default();
        held(&mut svg, &Layout::of(&story, 0.0));
        let told: Vec<&str> = svg
            .text
            .split("<title>")
            .skip(1)
            .filter_map(|rest| rest.split('<').next())
            .collect();
        let expected = [
            "pin 0 held the line from record 5 to 6: it kept xmin 1",
            "slot 1, id 2 held the line from record 8 to the end: it kept xmin 2",
        ];
        assert_eq!(told, expected);
        assert!(svg.text.contains(">slot 1</text>"));
    }

    #[test]
    fn without_a_refusal_there_is_no_lane_of_refusals() {
        let story = Story::of(b"trace=proc-2\n", b"records=0\n").unwrap();
        assert_eq!(refused_height(&story, &Frame::of(0)), 0.0);
    }
}
