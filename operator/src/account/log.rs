//! The replay for a terminal: a line for each record, in columns.

use super::story::Story;
use super::words;

const HEAD: [&str; 5] = ["record", "call", "answer", "line", "holder"];
/// The numbers stand to the right in their columns.
const RIGHT: [bool; 5] = [true, false, false, true, false];

pub fn log(story: &Story) -> String {
    let mut rows = vec![HEAD.map(str::to_string)];
    for step in &story.steps {
        rows.push([
            step.number.to_string(),
            words::call(&step.record),
            words::answer(step.record.op, &step.answer),
            step.answer.line.to_string(),
            words::holder(story, step),
        ]);
    }
    aligned(&rows)
}

fn aligned(rows: &[[String; 5]]) -> String {
    let width = |column: usize| rows.iter().map(|row| row[column].len()).max().unwrap_or(0);
    let widths: Vec<usize> = (0..5).map(width).collect();
    let mut text = String::new();
    for row in rows {
        let cells: Vec<String> = (0..5)
            .map(|column| match RIGHT[column] {
                true => format!("{:>1$}", row[column], widths[column]),
                false => format!("{:<1$}", row[column], widths[column]),
            })
            .collect();
        text.push_str(cells.join("  ").trim_end());
        text.push('\n');
    }
    text
}

#[cfg(test)]
mod tests {
    use super::*;
    use crate::account::made_up;

    #[test]
    fn a_line_for_each_record_in_columns() {
        let (text, said) = made_up::with_pins();
        let log = log(&made_up::story_of(&text, &said));
        let lines: Vec<&str> = log.lines().collect();
        assert_eq!(lines.len(), 10);
        let call = lines[0].find("call").unwrap();
        let line = lines[0].find("line").unwrap();
        let holder = lines[0].find("holder").unwrap();
        for (number, told) in lines.iter().enumerate().skip(1) {
            assert!(told.starts_with(&format!("{number:>6}  ")));
            assert_ne!(&told[call..call + 1], " ");
            assert!(told[line..line + 4].trim_start().parse::<u64>().is_ok());
            assert_ne!(&told[holder..holder + 1], " ");
        }
        assert!(lines[5].ends_with("  pin 0") && lines[7].ends_with("  -"));
    }
}
