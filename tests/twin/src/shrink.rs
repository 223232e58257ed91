//! Making a trace small while it still shows what it showed.

use crate::text::lines;

/// Shrinks `text` as long as `shows` stays true of it and tries are left.
pub fn shrink(text: &[u8], tries: usize, shows: impl FnMut(&[u8]) -> bool) -> Vec<u8> {
    let mut shrinker = Shrinker {
        best: text.to_vec(),
        tries,
        shows,
    };
    loop {
        let before = shrinker.best.clone();
        shrinker.drop_lines(6);
        shrinker.drop_lines(1);
        shrinker.shrink_numbers();
        if shrinker.best.len() <= 600 {
            shrinker.drop_bytes();
        }
        if shrinker.best == before || shrinker.tries == 0 {
            return shrinker.best;
        }
    }
}

struct Shrinker<Shows> {
    best: Vec<u8>,
    tries: usize,
    shows: Shows,
}

impl<Shows: FnMut(&[u8]) -> bool> Shrinker<Shows> {
    /// Keeps the candidate if it still shows the thing.
    fn keep(&mut self, candidate: Vec<u8>) -> bool {
        if self.tries == 0 || candidate == self.best {
            return false;
        }
        self.tries -= 1;
        let kept = (self.shows)(&candidate);
        if kept {
            self.best = candidate;
        }
        kept
    }

    /// Drops runs of whole groups of `size` lines after the header, large runs first.
    fn drop_lines(&mut self, size: usize) {
        let mut run = (lines(&self.best).len() / size).next_power_of_two() * size;
        while run >= size {
            let mut from = 1;
            while from < lines(&self.best).len() && self.tries > 0 {
                let mut list = lines(&self.best);
                let end = (from + run).min(list.len());
                list.drain(from..end);
                if !self.keep(list.concat()) {
                    from += run;
                }
            }
            run /= 2;
        }
    }

    fn shrink_numbers(&mut self) {
        for place in 0..lines(&self.best).len() {
            let list = lines(&self.best);
            let Some((key, number)) = field(&list[place]) else {
                continue;
            };
            let smaller = [
                0,
                1,
                2,
                3,
                number.isqrt(),
                number / 2,
                number - number.min(1),
            ];
            for candidate in smaller.into_iter().filter(|small| *small < number) {
                let mut list = list.clone();
                list[place] = format!("{key}={candidate}\n").into_bytes();
                if self.keep(list.concat()) {
                    break;
                }
            }
        }
    }

    fn drop_bytes(&mut self) {
        let mut place = 0;
        while place < self.best.len() && self.tries > 0 {
            let mut candidate = self.best.clone();
            candidate.remove(place);
            if !self.keep(candidate) {
                place += 1;
            }
        }
    }
}

fn field(line: &[u8]) -> Option<(String, u64)> {
    let text = std::str::from_utf8(line).ok()?;
    let (key, number) = text.strip_suffix('\n')?.split_once('=')?;
    Some((key.to_string(), number.parse().ok()?))
}
