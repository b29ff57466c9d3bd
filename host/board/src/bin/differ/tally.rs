//! What a run has met, so that one which met too little is not called a success.

use crate::rows::Rows;
use crate::seen::Seen;
use crate::starts::Starts;
use mullirim_host::histories::{Start, SMALL, SMALL_SPLITS};
use mullirim_host::second::answer;
use std::collections::HashSet;
use std::fmt;

const ANSWERS: [&str; 5] = ["taken", "stalled", "unfit", "faulted", "reset asked"];

pub struct Tally {
    pub requests: u64,
    starts: u64,
    refused_starts: u64,
    wide_starts: u64,
    splits: HashSet<(u32, u32)>,
    answers: [u64; 5],
    unfit_sessions: u64,
    start_rows: Starts,
    rows: Rows,
}

impl Tally {
    pub fn new() -> Tally {
        Tally {
            requests: 0,
            starts: 0,
            refused_starts: 0,
            wide_starts: 0,
            splits: HashSet::new(),
            answers: [0; 5],
            unfit_sessions: 0,
            start_rows: Starts::new(),
            rows: Rows::new(),
        }
    }

    pub fn start(&mut self, call: &Start, answer: u8) {
        self.starts += 1;
        self.wide_starts += u64::from(call.a.max(call.b) > 65_535);
        match answer {
            answer::TAKEN => _ = self.splits.insert((call.a, call.b)),
            _ => self.refused_starts += 1,
        }
        self.start_rows.see(call, answer);
    }

    /// A request on which the two loaders agreed.
    pub fn agreed(&mut self, seen: &Seen) {
        self.answers[usize::from(seen.outcome.answer)] += 1;
        self.unfit_sessions += u64::from(!seen.lent().fits());
        self.rows.see(seen);
    }

    /// Every row, with how often it was met.
    pub fn rows(&self) -> impl Iterator<Item = (String, u64)> + '_ {
        self.start_rows.counts().chain(self.rows.counts())
    }

    /// The rows that this run didn't meet, and splits of small flashes.
    pub fn missed(&self) -> Vec<String> {
        let never = self.rows().filter(|(_, count)| *count == 0);
        let mut missed: Vec<String> = never.map(|(name, _)| name).collect();
        let splits = SMALL_SPLITS - self.small_splits();
        if splits > 0 {
            missed.push(format!("{splits} splits of up to {SMALL} blocks"));
        }
        missed
    }

    fn small_splits(&self) -> u64 {
        let small = self.splits.iter().filter(|(_, blocks)| *blocks <= SMALL);
        small.count() as u64
    }
}

impl fmt::Display for Tally {
    fn fmt(&self, out: &mut fmt::Formatter) -> fmt::Result {
        let answers: Vec<String> = ANSWERS
            .iter()
            .zip(self.answers)
            .map(|(name, count)| format!("{count} {name}"))
            .collect();
        writeln!(
            out,
            "{} requests ({} of them with an unfit session): {}.",
            self.requests,
            self.unfit_sessions,
            answers.join(", ")
        )?;
        write!(
            out,
            "{} starts ({} refused, {} with A or B over 65,535) on all {} splits of up to {SMALL} blocks and {} of more. \
             {} rows, each met {} times or more. No difference.",
            self.starts,
            self.refused_starts,
            self.wide_starts,
            self.small_splits(),
            self.splits.len() as u64 - self.small_splits(),
            self.rows().count(),
            self.rows().map(|(_, count)| count).min().unwrap_or(0)
        )
    }
}

#[cfg(test)]
mod tests {
    use super::*;

    #[test]
    fn nothing_met_is_all_missed() {
        let tally = Tally::new();
        let missed = tally.missed();
        assert_eq!(missed.len(), tally.rows().count() + 1);
        assert_eq!(missed[0], "start: A is 1");
        let splits = format!("{SMALL_SPLITS} splits of up to {SMALL} blocks");
        assert_eq!(missed.last(), Some(&splits));
    }

    #[test]
    fn a_start_is_counted_in_its_rows() {
        let mut tally = Tally::new();
        let start = Start {
            lent: 2_048,
            a: 65_537,
            b: 2,
            part0: 0,
            part1: 0,
        };
        tally.start(&start, answer::UNFIT);
        let met: Vec<_> = tally.rows().filter(|(_, count)| *count > 0).collect();
        assert_eq!(met, [("start refused: A fits in 16 bits".to_string(), 1)]);
        assert_eq!(
            (tally.starts, tally.refused_starts, tally.wide_starts),
            (1, 1, 1)
        );
    }

    #[test]
    fn rows_have_names_of_their_own() {
        let tally = Tally::new();
        let names: HashSet<_> = tally.rows().map(|(name, _)| name).collect();
        assert_eq!(names.len(), tally.rows().count());
    }
}
