//! The marks over the chart: each record's column, to point at, and the vacuums, with lines down to who held the line.

use super::frame::LEFT;
use super::labels;
use super::layout::Layout;
use super::svg::Svg;
use crate::account::story::{Holder, Step};
use crate::account::words;

/// More vacuums than these have no line down to their holder, which would hide the rows.
const GUIDES: usize = 80;

/// Each record's column, to point at.
pub fn columns(svg: &mut Svg, layout: &Layout) {
    let column = layout.frame.column;
    for step in &layout.story.steps {
        let x = layout.frame.at(step.number) - column / 2.0;
        let place = [x, layout.chart.top, column, layout.chart.height];
        svg.rect(place, "column", &words::step(layout.story, step));
    }
}

/// From each vacuum down to its holder's row, but for the records' numbers.
pub fn guides(svg: &mut Svg, layout: &Layout) {
    if layout.story.vacuums().count() > GUIDES {
        return;
    }
    for step in layout.story.vacuums() {
        let Holder::Hold(at) = step.holder else {
            continue;
        };
        let row = layout.rows.row(layout.story.hold(at).0.place);
        let x = layout.frame.at(step.number);
        let (line, bottom) = (layout.y(step.answer.line), layout.chart.bottom());
        svg.stroke([x, line, x, bottom], "guide", "");
        svg.stroke([x, layout.axis.bottom(), x, row.middle()], "guide", "");
    }
}

/// A mark on the line at each vacuum, full where somebody held it.
pub fn vacuums(svg: &mut Svg, layout: &Layout) {
    for step in layout.story.vacuums() {
        let (x, y) = (layout.frame.at(step.number), layout.y(step.answer.line));
        let class = match step.holder {
            Holder::Hold(_) => "vacuum",
            _ => "vacuum nobody",
        };
        let told = words::step(layout.story, step);
        svg.diamond(x, y, layout.frame.mark(), class, &told);
    }
}

/// Beside a vacuum the line that it gave, where it is another than the one last told and where there is room.
pub fn lines(svg: &mut Svg, layout: &Layout) {
    let half = layout.frame.mark();
    let (mut free, mut height, mut told) = (f64::MIN, f64::MIN, None);
    let vacuums: Vec<&Step> = layout.story.vacuums().collect();
    for (place, step) in vacuums.iter().enumerate() {
        let (x, y) = (layout.frame.at(step.number), layout.y(step.answer.line));
        let line = format!("line {}", step.answer.line);
        let wide = labels::width(&line) + 4.0;
        // To the right of the mark, or to the left of it where the edge or the next line is too near.
        let next = vacuums[place..]
            .iter()
            .find(|next| next.answer.line != step.answer.line);
        let end = next.map_or(layout.frame.width(), |next| layout.frame.at(next.number));
        let (left, right) = (x - half - wide, x + half + 2.0);
        let place = if right + wide > end && left >= LEFT {
            left
        } else {
            right
        };
        let room = place >= free || (y - height).abs() >= 12.0;
        if room && told != Some(step.answer.line) {
            svg.words(place, y - 5.0, "value", &line);
            (free, height, told) = (place + wide, y, Some(step.answer.line));
        }
    }
}

#[cfg(test)]
mod tests {
    use super::*;
    use crate::account::made_up;

    #[test]
    fn each_vacuum_has_one_mark_and_each_record_one_column() {
        let (text, said) = made_up::with_pins();
        let story = made_up::story_of(&text, &said);
        let mut svg = Svg::default();
        let layout = Layout::of(&story, 0.0);
        columns(&mut svg, &layout);
        guides(&mut svg, &layout);
        vacuums(&mut svg, &layout);
        assert_eq!(svg.text.matches("class=\"vacuum\"").count(), 3);
        assert_eq!(svg.text.matches("class=\"column\"").count(), 9);
        assert_eq!(svg.text.matches("class=\"guide\"").count(), 6);
    }

    /// The second and the third vacuum give line 2, which is told once.
    #[test]
    fn a_line_is_told_where_it_is_another() {
        let (text, said) = made_up::with_pins();
        let story = made_up::story_of(&text, &said);
        let mut svg = Svg::default();
        lines(&mut svg, &Layout::of(&story, 0.0));
        let told: Vec<&str> = svg
            .text
            .lines()
            .filter_map(|line| line.split('>').nth(1))
            .collect();
        assert_eq!(told, ["line 1</text", "line 2</text"]);
    }
}
