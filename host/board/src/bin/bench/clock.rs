//! Time: the sides of a comparison take turns, so that a machine that slows
//! down slows all of them.

use std::fmt;
use std::hint::black_box;
use std::time::{Duration, Instant};

pub const REPETITIONS: usize = 15;

/// What a repetition is made to last. It is above 20 ms, so that a machine
/// that quickens later doesn't come below them.
const LONG_ENOUGH: Duration = Duration::from_millis(30);

/// One side: does as many turns as it is told, and says how long they took.
pub struct Side<'a> {
    name: &'a str,
    turns: Box<dyn FnMut(u32) -> Duration + 'a>,
    /// How many things of a kind a turn does. What is told is the time of one.
    things: u32,
}

impl<'a> Side<'a> {
    /// A side that does nothing between its turns. The clock is read twice in
    /// all, so that also turns far shorter than a reading are timed well.
    pub fn steady<R>(name: &'a str, mut work: impl FnMut() -> R + 'a) -> Side<'a> {
        let turns = move |count| {
            let begun = Instant::now();
            for _ in 0..count {
                black_box(work());
            }
            begun.elapsed()
        };
        Side {
            name,
            turns: Box::new(turns),
            things: 1,
        }
    }

    /// A side that makes something ready before each turn, out of the timing.
    /// What a turn leaves is dropped out of it too.
    pub fn readied<P, R>(
        name: &'a str,
        mut ready: impl FnMut() -> P + 'a,
        mut work: impl FnMut(P) -> R + 'a,
    ) -> Side<'a> {
        let mut turn = move || {
            let prepared = black_box(ready());
            let begun = Instant::now();
            let left = black_box(work(prepared));
            let time = begun.elapsed();
            drop(left);
            time
        };
        Side {
            name,
            turns: Box::new(move |count| (0..count).map(|_| turn()).sum()),
            things: 1,
        }
    }

    /// The same side, whose turns do so many things of a kind.
    pub fn of(self, things: u32) -> Side<'a> {
        Side { things, ..self }
    }

    /// How many turns make a repetition that is long enough.
    fn repetition(&mut self) -> u32 {
        let mut count = 1;
        while (self.turns)(count) < LONG_ENOUGH {
            count *= 2;
        }
        count
    }

    /// The microseconds that one thing took, over a repetition.
    fn time(&mut self, count: u32) -> f64 {
        (self.turns)(count).as_secs_f64() * 1e6 / f64::from(count) / f64::from(self.things)
    }
}

/// Ours beside one of theirs, in microseconds for one thing.
pub struct Row {
    what: String,
    beside: String,
    ours: Vec<f64>,
    theirs: Vec<f64>,
}

/// Races ours, the first side, with each of the others: A B C, A B C, ...
pub fn race(what: &str, mut sides: Vec<Side>) -> Vec<Row> {
    let counts: Vec<u32> = sides.iter_mut().map(Side::repetition).collect();
    let mut times = vec![Vec::new(); sides.len()];
    let mut round = || {
        let turn = |(at, side): (usize, &mut Side)| times[at].push(side.time(counts[at]));
        sides.iter_mut().enumerate().for_each(turn);
    };
    (0..REPETITIONS).for_each(|_| round());
    let row = |at: usize| Row {
        what: what.to_string(),
        beside: sides[at].name.to_string(),
        ours: times[0].clone(),
        theirs: times[at].clone(),
    };
    (1..sides.len()).map(row).collect()
}

impl fmt::Display for Row {
    fn fmt(&self, out: &mut fmt::Formatter) -> fmt::Result {
        let (ours, theirs) = (median(&self.ours), median(&self.theirs));
        let mut rounds: Vec<f64> = ratios(&self.ours, &self.theirs);
        rounds.sort_by(f64::total_cmp);
        write!(
            out,
            "{:<34} {:>7} {:>9.0}  {:<30} {:>7} {:>6}  {} to {}",
            self.what,
            figures(ours),
            1e6 / ours,
            self.beside,
            figures(theirs),
            ratio(ours / theirs),
            ratio(rounds[0]),
            ratio(rounds[rounds.len() - 1])
        )
    }
}

/// Three figures, or as many as a whole number has.
fn figures(number: f64) -> String {
    let decimals = 2 - number.log10().floor() as i32;
    format!("{number:.*}", decimals.max(0) as usize)
}

/// Two decimals, or four where so few would leave next to nothing.
fn ratio(number: f64) -> String {
    let decimals = [2, 4][usize::from(number < 0.1)];
    format!("{number:.decimals$}")
}

fn ratios(ours: &[f64], theirs: &[f64]) -> Vec<f64> {
    ours.iter().zip(theirs).map(|(a, b)| a / b).collect()
}

/// The value in the middle, or between the two in the middle. Of no value at
/// all there is none.
fn median(values: &[f64]) -> f64 {
    let mut sorted = values.to_vec();
    sorted.sort_by(f64::total_cmp);
    let middle = sorted.len() / 2;
    match sorted.len() {
        0 => f64::NAN,
        length if length % 2 == 1 => sorted[middle],
        _ => (sorted[middle - 1] + sorted[middle]) / 2.0,
    }
}

#[cfg(test)]
mod tests {
    use super::*;
    use std::cell::RefCell;

    #[test]
    fn a_median_is_in_the_middle() {
        assert_eq!(median(&[9.0, 1.0, 2.0]), 2.0);
        assert_eq!(median(&[4.0, 1.0, 3.0, 100.0]), 3.5);
        assert_eq!(median(&[7.0]), 7.0);
        assert!(median(&[]).is_nan());
    }

    #[test]
    fn three_figures_are_shown() {
        assert_eq!(figures(0.031_24), "0.0312");
        assert_eq!(figures(2.784), "2.78");
        assert_eq!(figures(6_784.4), "6784");
    }

    #[test]
    fn small_ratios_are_told_apart() {
        assert_eq!([ratio(0.1), ratio(12.345)], ["0.10", "12.35"]);
        assert_eq!([ratio(0.0059), ratio(0.07)], ["0.0059", "0.0700"]);
    }

    #[test]
    fn the_sides_take_turns() {
        let order = RefCell::new(Vec::new());
        let side = |name: &'static str, long: u64| Side {
            name,
            turns: Box::new({
                let order = &order;
                move |count| {
                    order.borrow_mut().push(name);
                    Duration::from_millis(long) * count
                }
            }),
            things: 1,
        };
        let rows = race("nothing", vec![side("ours", 60), side("theirs", 40)]);
        assert_eq!(order.borrow().len(), 2 + 2 * REPETITIONS);
        assert!(order.borrow().chunks(2).all(|p| p == ["ours", "theirs"]));
        let row = rows[0].to_string();
        let figures: Vec<&str> = row.split_whitespace().collect();
        assert_eq!(
            figures,
            ["nothing", "60000", "17", "theirs", "40000", "1.50", "1.50", "to", "1.50"]
        );
    }

    #[test]
    fn a_repetition_is_long_enough() {
        let mut side = Side {
            name: "seven",
            turns: Box::new(|count| Duration::from_millis(7) * count),
            things: 1,
        };
        assert_eq!(side.repetition(), 8);
        assert_eq!(side.time(8), 7_000.0);
        let mut side = side.of(100);
        assert_eq!(side.repetition(), 8);
        assert_eq!(side.time(8), 70.0);
    }

    #[test]
    fn a_turn_is_made_ready_each_time() {
        let mut made = 0;
        let mut done = 0;
        let ready = || {
            made += 1;
            made
        };
        let mut side = Side::readied("counted", ready, |number| done += number);
        (side.turns)(4);
        drop(side);
        assert_eq!((made, done), (4, 10));
    }
}
