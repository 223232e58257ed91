//! The words beside the picture: who held the line, and what was refused.

use super::svg::escaped;
use crate::account::culprits::{self, Culprit};
use crate::account::refusals;
use crate::account::story::{Hold, Stay, Story};
use crate::account::words;
use std::collections::BTreeMap;

/// What an operator wants to know first, in a sentence or two.
pub fn summary(story: &Story) -> String {
    let (clock, line) = story.end();
    let records = words::counted(story.steps.len() as u64, "record");
    let end = format!("{records}. At the end the clock is {clock} and the line {line}.");
    let culprits = culprits::culprits(story);
    let Some(first) = culprits.first() else {
        return format!("{end} No vacuum found anybody who held the line.");
    };
    let who = words::stay(first.stay);
    let span = words::span(first.hold.from, first.hold.to);
    let back = match first.back {
        0 => "no vacuum that named it had sampled more".to_string(),
        back => format!("the line {} back", words::counted(back, "id")),
    };
    format!(
        "{end} The longest hold of the line was that of {who}: it kept xmin {} {span}, and {back}.",
        first.hold.xmin
    )
}

const CULPRITS: [&str; 7] = [
    "who",
    "kept xmin",
    "from record",
    "to record",
    "line stood at",
    "ids kept back",
    "named by vacuum",
];

pub fn culprits_table(story: &Story) -> String {
    let rows: Vec<Vec<String>> = culprits::culprits(story)
        .iter()
        .map(|one| culprit(story, one))
        .collect();
    if rows.is_empty() {
        return "<p>Nobody: no vacuum named a holder.</p>\n".to_string();
    }
    table("culprits", &CULPRITS, &rows)
}

fn culprit(story: &Story, one: &Culprit) -> Vec<String> {
    vec![
        words::stay(one.stay),
        one.hold.xmin.to_string(),
        one.hold.from.to_string(),
        ending(story, one.stay, one.hold),
        one.line.to_string(),
        one.back.to_string(),
        listed(&one.vacuums),
    ]
}

/// The record at which it was let go, and how.
fn ending(story: &Story, stay: &Stay, hold: &Hold) -> String {
    match hold.to {
        Some(to) if stay.to == Some(to) => format!("{to} ({})", story.steps[to - 1].record.op),
        Some(to) => format!("{to} (new snapshot)"),
        None => "still held".to_string(),
    }
}

const REFUSED: [&str; 4] = ["refusal", "given when", "how often", "records"];

pub fn refused_table(story: &Story) -> String {
    let mut found: BTreeMap<u64, Vec<usize>> = BTreeMap::new();
    for step in story.steps.iter().filter(|step| !step.answer.accepted()) {
        found
            .entry(step.answer.number)
            .or_default()
            .push(step.number);
    }
    let row = |(number, records): (&u64, &Vec<usize>)| {
        let name = refusals::name(*number);
        vec![
            name,
            refusals::when(*number).to_string(),
            records.len().to_string(),
            listed(records),
        ]
    };
    let rows: Vec<Vec<String>> = found.iter().map(row).collect();
    if rows.is_empty() {
        return "<p>None.</p>\n".to_string();
    }
    table("refusals", &REFUSED, &rows)
}

/// The first of many numbers, and how many more there are.
fn listed(numbers: &[usize]) -> String {
    const MOST: usize = 12;
    let shown: Vec<String> = numbers.iter().take(MOST).map(usize::to_string).collect();
    let more = numbers.len() - shown.len();
    let rest = if more > 0 {
        format!(" and {more} more")
    } else {
        String::new()
    };
    shown.join(", ") + &rest
}

fn table(class: &str, head: &[&str], rows: &[Vec<String>]) -> String {
    let mut text = format!("<div class=\"wide\"><table class=\"{class}\">\n<tr>");
    for name in head {
        text.push_str(&format!("<th>{name}</th>"));
    }
    text.push_str("</tr>\n");
    for row in rows {
        let cells: String = row
            .iter()
            .map(|cell| format!("<td>{}</td>", escaped(cell)))
            .collect();
        text.push_str(&format!("<tr>{cells}</tr>\n"));
    }
    text + "</table></div>\n"
}

#[cfg(test)]
mod tests {
    use super::*;
    use crate::account::made_up;

    #[test]
    fn culprits_stand_in_words() {
        let (text, said) = made_up::with_pins();
        let table = culprits_table(&made_up::story_of(&text, &said));
        let rows: Vec<&str> = table.lines().skip(2).collect();
        let slot = "<tr><td>slot 1, id 2</td><td>2</td><td>3</td><td>still held</td><td>2</td><td>4</td><td>8, 9</td></tr>";
        let pin = "<tr><td>pin 0</td><td>1</td><td>2</td><td>6 (unpin)</td><td>1</td><td>5</td><td>5</td></tr>";
        assert_eq!(rows, [slot, pin, "</table></div>"]);
    }

    #[test]
    fn refusals_stand_by_their_number() {
        let (text, said) = made_up::with_pins();
        let table = refused_table(&made_up::story_of(&text, &said));
        assert!(
            table.contains(
                "<tr><td>16 FreePin</td><td>the pin is free</td><td>1</td><td>7</td></tr>"
            )
        );
    }

    #[test]
    fn the_summary_names_the_longest_hold() {
        let (text, said) = made_up::with_pins();
        let expected = "9 records. At the end the clock is 6 and the line 2. The longest hold of the line was that of \
                        slot 1, id 2: it kept xmin 2 from record 3 to the end, and the line 4 ids back.";
        assert_eq!(summary(&made_up::story_of(&text, &said)), expected);
        let empty = Story::of(b"trace=proc-2\n", b"records=0\n").unwrap();
        assert!(summary(&empty).ends_with("No vacuum found anybody who held the line."));
        assert!(culprits_table(&empty).starts_with("<p>Nobody"));
        assert!(refused_table(&empty).starts_with("<p>None"));
    }

    #[test]
    fn long_lists_are_cut() {
        let numbers: Vec<usize> = (1..=15).collect();
        assert_eq!(
            listed(&numbers),
            "1, 2, 3, 4, 5, 6, 7, 8, 9, 10, 11, 12 and 3 more"
        );
        assert_eq!(listed(&numbers[..2]), "1, 2");
    }
}
