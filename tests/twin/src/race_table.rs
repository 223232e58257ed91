//! The tables of the race, laid out as docs/SPEED.md has them.

use crate::race::Times;
use std::fmt::{self, Display, Formatter};
use std::time::Duration;

/// The times of one trace: the plain replay, the tuned one, and the program's, where there is one.
#[derive(Default)]
pub struct Lanes {
    pub plain: Times,
    pub tuned: Times,
    pub ours: Option<Times>,
}

pub struct Row<'a> {
    pub name: &'a str,
    pub bytes_in: usize,
    pub bytes_out: usize,
    pub lanes: &'a Lanes,
}

pub const HEADING: &str = "\
| trace | bytes in | bytes out | plain | tuned | ours | ours / plain | ours / tuned |
|---|---|---|---|---|---|---|---|";

impl Display for Row<'_> {
    fn fmt(&self, out: &mut Formatter) -> fmt::Result {
        let Lanes { plain, tuned, ours } = self.lanes;
        write!(
            out,
            "| {} | {} | {} ",
            self.name, self.bytes_in, self.bytes_out
        )?;
        write!(out, "| {} | {} ", Spread(plain), Spread(tuned))?;
        match ours {
            None => write!(out, "| none is linked | | |"),
            Some(ours) => {
                let (to_plain, to_tuned) = (Ratio(ours, plain), Ratio(ours, tuned));
                write!(out, "| {} | {to_plain} | {to_tuned} |", Spread(ours))
            }
        }
    }
}

/// The median, with the least and the quartiles in parentheses; microseconds.
struct Spread<'a>(&'a Times);

impl Display for Spread<'_> {
    fn fmt(&self, out: &mut Formatter) -> fmt::Result {
        let [lower, upper] = self.0.quartiles().map(Micros);
        let (median, least) = (Micros(self.0.median()), Micros(self.0.least()));
        write!(out, "{median} ({least}; {lower} to {upper})")
    }
}

/// Of the medians, with that of the least times in parentheses.
struct Ratio<'a>(&'a Times, &'a Times);

impl Display for Ratio<'_> {
    fn fmt(&self, out: &mut Formatter) -> fmt::Result {
        let medians = over(self.0.median(), self.1.median());
        let least = over(self.0.least(), self.1.least());
        write!(out, "{medians:.2} ({least:.2})")
    }
}

fn over(time: Duration, other: Duration) -> f64 {
    time.as_secs_f64() / other.as_secs_f64()
}

/// Microseconds, with so many places that three digits are seen.
struct Micros(Duration);

impl Display for Micros {
    fn fmt(&self, out: &mut Formatter) -> fmt::Result {
        let micros = self.0.as_secs_f64() * 1e6;
        let places = match micros {
            ..1.0 => 3,
            ..100.0 => 1,
            _ => 0,
        };
        write!(out, "{micros:.places$}")
    }
}
