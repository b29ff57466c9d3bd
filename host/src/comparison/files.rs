//! A comparison file by file: the words of such a program, its way through the
//! files, and what a run has met, so that one which met too little is not
//! called a success.

use super::Place::{Number, Switch};
use super::{begin, finish, read, Same};
use crate::rows::Rows;
use std::fmt;
use std::process::ExitCode;

struct Asked {
    seed: u64,
    first: u64,
    files: u64,
    rows: bool,
}

/// The whole of such a program. `both` compares the file of a seed and a number.
pub fn compare<Holds: ?Sized>(
    program: &str,
    rows: Rows<Holds>,
    both: impl Fn(u64, u64, &mut Tally<Holds>) -> Same,
) -> ExitCode {
    begin(program, &help(program), asked_in, |asked| {
        run(asked, Tally::new(rows), both)
    })
}

fn help(program: &str) -> String {
    format!(
        "\
{program} [--seed N] [--first N] [--files N] [--rows]
  --seed N   the seed of all files (default 20261115)
  --first N  the number of the first file (default 0)
  --files N  how many files to compare (default 120000)
  --rows     say how often each row of the paper was met"
    )
}

fn asked_in(words: &[String]) -> Result<Asked, String> {
    let mut asked = Asked {
        seed: 20_261_115,
        first: 0,
        files: 120_000,
        rows: false,
    };
    let flags = vec![
        ("--seed", Number(&mut asked.seed)),
        ("--first", Number(&mut asked.first)),
        ("--files", Number(&mut asked.files)),
        ("--rows", Switch(&mut asked.rows)),
    ];
    read(words, flags)?;
    Ok(asked)
}

fn run<Holds: ?Sized>(
    asked: &Asked,
    mut tally: Tally<Holds>,
    both: impl Fn(u64, u64, &mut Tally<Holds>) -> Same,
) -> ExitCode {
    for number in (asked.first..).take(asked.files as usize) {
        if let Err(difference) = both(asked.seed, number, &mut tally) {
            println!("file {number}: {difference}");
            println!("again: --seed {} --first {number}", asked.seed);
            return ExitCode::FAILURE;
        }
    }
    if asked.rows {
        let counts = tally.rows.counts();
        counts.for_each(|(name, count)| println!("{count:8} {name}"));
    }
    finish(&tally, &tally.rows.missed())
}

pub struct Tally<Holds: ?Sized> {
    pub calls: u64,
    pub rows: Rows<Holds>,
    files: u64,
    read: u64,
    written: u64,
}

impl<Holds: ?Sized> Tally<Holds> {
    pub fn new(rows: Rows<Holds>) -> Tally<Holds> {
        Tally {
            calls: 0,
            rows,
            files: 0,
            read: 0,
            written: 0,
        }
    }

    /// A file on which all calls agreed.
    pub fn agreed(&mut self, read: bool, written: bool) {
        self.files += 1;
        self.read += u64::from(read);
        self.written += u64::from(written);
    }
}

impl<Holds: ?Sized> fmt::Display for Tally<Holds> {
    fn fmt(&self, out: &mut fmt::Formatter) -> fmt::Result {
        let least = self.rows.counts().map(|(_, count)| count).min();
        write!(
            out,
            "{} files, {} calls: {} files read, {} written, the others refused. \
             {} rows, each met {} times or more. No difference.",
            self.files,
            self.calls,
            self.read,
            self.written,
            self.rows.counts().count(),
            least.unwrap_or(0)
        )
    }
}

#[cfg(test)]
mod tests {
    use super::*;

    fn asked(words: &str) -> Asked {
        let words: Vec<String> = words.split(' ').map(str::to_string).collect();
        asked_in(&words).ok().unwrap()
    }

    #[test]
    fn words_are_read() {
        let some = asked("--seed 7 --files 9 --rows");
        assert_eq!((some.seed, some.files, some.rows), (7, 9, true));
        let other = asked("--first 5");
        assert_eq!((other.first, other.seed), (5, 20_261_115));
        assert_eq!((other.files, other.rows), (120_000, false));
    }

    type Odd = dyn Fn(u64) -> bool;

    /// Odd numbers meet the one row, and a file is different from 7 on.
    fn ran(words: &str) -> String {
        let mut rows: Rows<Odd> = Rows::none();
        rows.row("odd".to_string(), Box::new(|number| number % 2 == 1));
        let code = run(&asked(words), Tally::new(rows), |_, number, tally| {
            tally.rows.count(|holds| holds(number));
            match number < 7 {
                true => Ok(()),
                false => Err("different".to_string()),
            }
        });
        format!("{code:?}")
    }

    #[test]
    fn a_difference_or_a_missed_row_is_a_failure() {
        let (success, failure) = (ExitCode::SUCCESS, ExitCode::FAILURE);
        assert_eq!(ran("--files 7"), format!("{success:?}"));
        assert_eq!(ran("--files 8"), format!("{failure:?}"));
        assert_eq!(ran("--first 4 --files 1"), format!("{failure:?}"));
        assert_eq!(ran("--first 5 --files 1"), format!("{success:?}"));
    }
}
