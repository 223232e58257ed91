//! How high an id stands. Ids are drawn to scale, but for a stretch in which nothing happens and which is far longer than
//! the others, as after a jump of the clock: that is cut short, and the legend says so.

/// A stretch this many times the middle one is cut to it.
const LONGEST: u128 = 8;

pub struct Ids {
    values: Vec<u64>,
    heights: Vec<u128>,
    /// The stretches that are cut, by the ids at their ends.
    pub cuts: Vec<(u64, u64)>,
}

impl Ids {
    pub fn of(values: impl Iterator<Item = u64>) -> Ids {
        let mut values: Vec<u64> = values.collect();
        values.sort_unstable();
        values.dedup();
        let most = longest(&values);
        let mut ids = Ids {
            values: Vec::new(),
            heights: Vec::new(),
            cuts: Vec::new(),
        };
        for value in values {
            let height = match (ids.values.last(), ids.heights.last()) {
                (Some(&before), Some(&height)) => {
                    let stretch = u128::from(value - before);
                    if stretch > most {
                        ids.cuts.push((before, value));
                    }
                    height + stretch.min(most)
                }
                _ => 0,
            };
            ids.values.push(value);
            ids.heights.push(height);
        }
        ids
    }

    /// From 0, the least, to 1, the largest; for the ids that it was made of.
    pub fn height(&self, id: u64) -> f64 {
        let top = self.heights.last().copied().unwrap_or(0).max(1);
        match self.values.binary_search(&id) {
            Ok(place) => self.heights[place] as f64 / top as f64,
            Err(_) => 0.0,
        }
    }

    /// Some of the ids, from the least on, at least `apart` from each other: round ones where there are enough of them.
    pub fn ticks(&self, apart: f64) -> Vec<u64> {
        let round = self.spaced(apart, self.step(apart));
        if self.cuts.is_empty() && round.len() > 2 {
            return round;
        }
        self.spaced(apart, 1)
    }

    /// The least of 1, 2, 5, 10, 20 and so on that stands `apart` to scale.
    fn step(&self, apart: f64) -> u64 {
        let (least, most) = (self.values.first(), self.values.last());
        let range = most.zip(least).map_or(0, |(most, least)| most - least);
        let tens = (0..19).map(|tens| 10u64.pow(tens));
        let steps = tens.flat_map(|ten| [1, 2, 5].map(|digit| digit * ten));
        let mut enough = steps.filter(|step| *step as f64 >= apart * range as f64);
        enough.next().unwrap_or(1)
    }

    /// The least, and of those that the step divides each that is far enough from the one before.
    fn spaced(&self, apart: f64, step: u64) -> Vec<u64> {
        let mut ticks: Vec<u64> = Vec::new();
        for &value in &self.values {
            let free = ticks.last().is_none_or(|&last| {
                value % step == 0 && self.height(value) - self.height(last) >= apart * 0.75
            });
            if free {
                ticks.push(value);
            }
        }
        ticks
    }
}

fn longest(values: &[u64]) -> u128 {
    let mut stretches: Vec<u64> = values.windows(2).map(|pair| pair[1] - pair[0]).collect();
    stretches.sort_unstable();
    let middle = stretches.get(stretches.len() / 2).copied().unwrap_or(1);
    u128::from(middle) * LONGEST
}

#[cfg(test)]
mod tests {
    use super::*;

    #[test]
    fn ids_are_to_scale() {
        let ids = Ids::of([1, 11, 3, 5, 3].into_iter());
        assert_eq!([1, 3, 5, 11].map(|id| ids.height(id)), [0.0, 0.2, 0.4, 1.0]);
        assert!(ids.cuts.is_empty());
    }

    #[test]
    fn a_jump_is_cut_and_told() {
        let ids = Ids::of([1, 2, 3, u64::MAX].into_iter());
        assert_eq!(ids.cuts, [(3, u64::MAX)]);
        assert_eq!(
            [1, 2, 3, u64::MAX].map(|id| ids.height(id)),
            [0.0, 0.1, 0.2, 1.0]
        );
    }

    #[test]
    fn no_id_and_one_id_have_heights() {
        assert_eq!(Ids::of([].into_iter()).height(7), 0.0);
        assert_eq!(Ids::of([7].into_iter()).height(7), 0.0);
        assert_eq!(Ids::of([7].into_iter()).ticks(0.1), [7]);
    }

    #[test]
    fn ticks_are_round_and_keep_apart() {
        assert_eq!(Ids::of(1..=101).ticks(0.2), [1, 20, 40, 60, 80, 100]);
        assert_eq!(Ids::of(1..=5).ticks(0.1), [1, 2, 3, 4, 5]);
        assert_eq!(Ids::of([7, 13, 19].into_iter()).ticks(0.1), [7, 13, 19]);
    }
}
