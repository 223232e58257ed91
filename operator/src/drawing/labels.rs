//! Words that have to find room. A letter is taken to be as wide as a wide font has it, so that what fits here fits there.

pub fn width(words: &str) -> f64 {
    words.chars().map(letter).sum()
}

/// Of eleven pixels' height.
fn letter(letter: char) -> f64 {
    match letter {
        'f' | 'i' | 'j' | 'l' | 'r' | 't' | ' ' | ',' | ':' => 4.5,
        'm' | 'w' | 'M' | 'W' => 11.0,
        _ => 7.0,
    }
}

/// The first of the wordings, the longest first, that has room in this width; none where none has.
pub fn fitting(wordings: &[String], room: f64) -> &str {
    let fits = wordings.iter().find(|words| width(words) + 6.0 <= room);
    fits.map_or("", |words| words)
}

/// A label that found room: where it begins, on which level, and its words.
#[derive(Debug, PartialEq)]
pub struct Label {
    pub x: f64,
    pub level: usize,
    pub words: String,
}

/// Puts labels, given from left to right, on the first level that is free at their place. What would go past `end` is moved
/// to the left. One that finds no room in any of its wordings is left out.
pub fn packed(wanted: &[(f64, Vec<String>)], end: f64, levels: usize) -> Vec<Label> {
    let mut free = vec![f64::MIN; levels];
    let mut labels = Vec::new();
    for (at, wordings) in wanted {
        let placed = wordings.iter().find_map(|words| {
            let x = at.min(end - width(words));
            let level = free.iter().position(|taken| *taken <= x)?;
            Some(Label {
                x,
                level,
                words: words.clone(),
            })
        });
        if let Some(label) = placed {
            free[label.level] = label.x + width(&label.words) + 4.0;
            labels.push(label);
        }
    }
    labels
}

#[cfg(test)]
mod tests {
    use super::*;

    fn words(all: &[&str]) -> Vec<String> {
        all.iter().map(|one| one.to_string()).collect()
    }

    #[test]
    fn the_longest_wording_that_fits_is_taken() {
        let wordings = words(&["slot 2, id 3", "slot 2", "2"]);
        assert_eq!(width(&wordings[1]), 34.5);
        assert_eq!(fitting(&wordings, 100.0), "slot 2, id 3");
        assert_eq!(fitting(&wordings, 44.0), "slot 2");
        assert_eq!(fitting(&wordings, 13.0), "2");
        assert_eq!(fitting(&wordings, 5.0), "");
    }

    #[test]
    fn labels_go_to_the_next_level_then_get_shorter_then_go() {
        let wordings = words(&["6 BadReservation", "6"]);
        let wanted: Vec<_> = [0.0, 20.0, 30.0, 31.0]
            .map(|at| (at, wordings.clone()))
            .into_iter()
            .collect();
        let placed = packed(&wanted, 500.0, 2);
        let short: Vec<_> = placed
            .iter()
            .map(|label| (label.x, label.level, label.words.len()))
            .collect();
        assert_eq!(short, [(0.0, 0, 16), (20.0, 1, 16)]);
        let apart = packed(&[(0.0, words(&["ab"])), (20.0, words(&["c"]))], 500.0, 1);
        assert_eq!(apart.len(), 2);
    }

    #[test]
    fn a_label_at_the_edge_is_moved_into_the_picture() {
        let placed = packed(&[(95.0, words(&["ten"]))], 100.0, 1);
        assert_eq!(placed[0].x, 81.5);
    }
}
