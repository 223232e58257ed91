//! The whole picture: the legend, then in one drawing the ids, who held the line, the refused calls, and the rows.

use super::layout::Layout;
use super::svg::{Svg, short};
use super::{chart, lanes, legend, marks, rows};
use crate::account::story::Story;

/// Held bars are hatched, so that they can be told without their colour.
const HATCH: &str = "<defs><pattern id=\"hatch\" width=\"6\" height=\"6\" patternUnits=\"userSpaceOnUse\" \
patternTransform=\"rotate(45)\"><rect class=\"hatch-ground\" width=\"6\" height=\"6\"/>\
<rect class=\"hatch-stripe\" width=\"2\" height=\"6\"/></pattern></defs>\n";

pub fn picture(story: &Story) -> String {
    let mut svg = Svg::default();
    let layout = Layout::of(story, 0.0);
    chart::draw(&mut svg, &layout);
    marks::columns(&mut svg, &layout);
    marks::vacuums(&mut svg, &layout);
    marks::lines(&mut svg, &layout);
    lanes::held(&mut svg, &layout);
    rows::names(&mut svg, &layout);
    // Bars and words stand on the guides that come down from the chart.
    marks::guides(&mut svg, &layout);
    lanes::refused(&mut svg, &layout);
    rows::bars(&mut svg, &layout);
    let (width, height) = (short(layout.frame.width()), short(layout.bottom()));
    let legend = legend::list(story, !layout.ids.cuts.is_empty());
    format!(
        "{legend}<figure class=\"wide\">\n<svg role=\"img\" aria-label=\"The records from left to right, with who held the line\" \
         width=\"{width}\" height=\"{height}\" viewBox=\"0 0 {width} {height}\">\n{HATCH}{}</svg>\n</figure>\n",
        svg.text
    )
}
