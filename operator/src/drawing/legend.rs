//! What the marks mean, in plain words, over the picture: a list that a narrow window breaks into more lines.

use super::svg::{Svg, short};
use crate::account::places::Place;
use crate::account::story::{Stay, Story};

/// A sign's room.
const SIGN: f64 = 30.0;
const HIGH: f64 = 16.0;

/// How a sign is drawn: by the class of a stroke, of a bar, or of a mark.
enum Sign {
    Stroke(&'static str),
    Bar(&'static str),
    Diamond,
    Cross,
}
use Sign::{Bar, Cross, Diamond, Stroke};

/// When an entry is needed: no pins without pins, no refusals without refusals, no cut without one.
#[derive(Clone, Copy)]
enum When {
    Always,
    Pins,
    Refused,
    Cut,
}

#[rustfmt::skip]
static ENTRIES: [(When, Sign, &str); 10] = [
    (When::Always, Stroke("clock"), "the clock"),
    (When::Always, Stroke("line"), "the vacuum line: what an id below it replaced may go"),
    (When::Always, Stroke("oldest"), "the oldest xmin that somebody retains"),
    (When::Always, Bar("kept"), "between line and clock: old tiles stay"),
    (When::Always, Bar("bar"), "a registration in its slot, with the xmin that it retains"),
    (When::Pins, Bar("bar pin"), "a pin, with the xmin that it retains"),
    (When::Always, Bar("held"), "it held the line: from the vacuum that named it until it let go"),
    (When::Always, Diamond, "a vacuum: on the line, and again on who held it"),
    (When::Refused, Cross, "a refused call, with its number and name"),
    (When::Cut, Stroke("cut"), "many ids between two are left out: not to scale"),
];

fn entries(story: &Story, cut: bool) -> impl Iterator<Item = (&'static Sign, &'static str)> {
    let pin = |stay: &Stay| matches!(stay.place, Place::Pin(_));
    let pins = story.stays.iter().any(pin);
    let refused = story.steps.iter().any(|step| !step.answer.accepted());
    let needed = move |when: When| match when {
        When::Always => true,
        When::Pins => pins,
        When::Refused => refused,
        When::Cut => cut,
    };
    let wanted = ENTRIES.iter().filter(move |(when, _, _)| needed(*when));
    wanted.map(|(_, sign, words)| (sign, *words))
}

pub fn list(story: &Story, cut: bool) -> String {
    let (wide, high) = (short(SIGN), short(HIGH));
    let mut text = "<ul class=\"legend\">\n".to_string();
    for (sign, words) in entries(story, cut) {
        let mut svg = Svg::default();
        draw_sign(&mut svg, sign);
        text.push_str(&format!(
            "<li><svg aria-hidden=\"true\" width=\"{wide}\" height=\"{high}\">{}</svg>{words}</li>\n",
            svg.text
        ));
    }
    text + "</ul>\n"
}

fn draw_sign(svg: &mut Svg, sign: &Sign) {
    let (middle, y) = (SIGN / 2.0, HIGH / 2.0);
    match sign {
        Stroke(class) => svg.stroke([0.0, y, SIGN, y], class, ""),
        Bar(class) => svg.rect([0.0, y - 6.0, SIGN, 12.0], class, ""),
        Diamond => svg.diamond(middle, y, 5.0, "holder", ""),
        Cross => svg.cross(middle, y, 4.0, "refused", ""),
    }
}

#[cfg(test)]
mod tests {
    use super::*;
    use crate::account::made_up;

    #[test]
    fn the_legend_tells_what_is_there() {
        let (text, said) = made_up::with_pins();
        let all = entries(&made_up::story_of(&text, &said), true).count();
        let none = entries(
            &Story::of(b"trace=proc-2\n", b"records=0\n").unwrap(),
            false,
        )
        .count();
        assert_eq!((all, none), (10, 7));
    }

    #[test]
    fn each_entry_has_its_sign_and_its_words() {
        let (text, said) = made_up::with_pins();
        let list = list(&made_up::story_of(&text, &said), true);
        assert_eq!(list.matches("<li><svg").count(), 10);
        assert!(list.contains("</svg>the clock</li>"));
        assert_eq!(list.matches("class=\"holder\"").count(), 1);
        assert_eq!(list.matches("class=\"refused\"").count(), 1);
    }
}
