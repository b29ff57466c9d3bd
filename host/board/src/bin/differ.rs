//! Compares the proved loader with the second one, call by call: answer, count,
//! every field of the session, every byte of flash and reply. Where all sums of
//! blocks are right, both are held to the sum over the application's bytes too,
//! and where a range was searched, to what a walk over its bytes finds. The first
//! difference ends the run.

#[path = "differ/commands.rs"]
mod commands;
#[path = "differ/compare.rs"]
mod compare;
#[path = "differ/eights.rs"]
mod eights;
#[path = "differ/joins.rs"]
mod joins;
#[path = "differ/large.rs"]
mod large;
#[path = "differ/pieces.rs"]
mod pieces;
#[path = "differ/rows.rs"]
mod rows;
#[path = "differ/seen.rs"]
mod seen;
#[path = "differ/starts.rs"]
mod starts;
#[path = "differ/tally.rs"]
mod tally;
#[path = "differ/unerased.rs"]
mod unerased;
#[path = "differ/unfit.rs"]
mod unfit;
#[path = "differ/uploads.rs"]
mod uploads;

use compare::Pair;
use mullirim_host::comparison::Place::{Number, Switch};
use mullirim_host::comparison::{begin, finish, read};
use std::process::ExitCode;
use std::time::{Duration, Instant};
use tally::Tally;

const HELP: &str = "\
differ [--seed N] [--first N] [--requests N | --soak] [--rows]
  --seed N      the seed of all histories (default 20261115)
  --first N     the number of the first history (default 0)
  --requests N  stop after the history in which the Nth request falls (default 450000)
  --soak        go on until stopped, with a line of progress each second
  --rows        say how often each row was met";

struct Asked {
    seed: u64,
    first: u64,
    requests: u64,
    soak: bool,
    rows: bool,
}

fn main() -> ExitCode {
    begin("differ", HELP, asked_in, run)
}

fn asked_in(words: &[String]) -> Result<Asked, String> {
    let mut asked = Asked {
        seed: 20_261_115,
        first: 0,
        requests: 450_000,
        soak: false,
        rows: false,
    };
    let flags = vec![
        ("--seed", Number(&mut asked.seed)),
        ("--first", Number(&mut asked.first)),
        ("--requests", Number(&mut asked.requests)),
        ("--soak", Switch(&mut asked.soak)),
        ("--rows", Switch(&mut asked.rows)),
    ];
    read(words, flags)?;
    Ok(asked)
}

fn run(asked: &Asked) -> ExitCode {
    println!("seed {}, from history {}", asked.seed, asked.first);
    let mut tally = Tally::new();
    let mut shown = Instant::now();
    for number in asked.first.. {
        if let Err(difference) = Pair::new(asked.seed, number).play(&mut tally) {
            println!("request {}: {difference}", tally.requests);
            println!("again: --seed {} --first {number}", asked.seed);
            return ExitCode::FAILURE;
        }
        if asked.soak && shown.elapsed() >= Duration::from_secs(1) {
            println!(
                "{} requests, {} histories",
                tally.requests,
                number - asked.first + 1
            );
            shown = Instant::now();
        }
        if !asked.soak && tally.requests >= asked.requests {
            break;
        }
    }
    if asked.rows {
        tally
            .rows()
            .for_each(|(name, count)| println!("{count:8} {name}"));
    }
    finish(&tally, &tally.missed())
}

#[cfg(test)]
mod tests {
    use super::*;

    fn asked(words: &str) -> Asked {
        let words: Vec<String> = words.split(' ').map(str::to_string).collect();
        asked_in(&words).ok().unwrap()
    }

    #[test]
    fn words_are_read() {
        let some = asked("--seed 7 --soak --first 9");
        assert_eq!((some.seed, some.first, some.soak), (7, 9, true));
        assert_eq!((some.requests, some.rows), (450_000, false));
        let others = asked("--requests 5 --rows");
        assert_eq!((others.requests, others.rows), (5, true));
        assert_eq!(
            (others.seed, others.first, others.soak),
            (20_261_115, 0, false)
        );
    }

    #[test]
    fn four_thousand_requests_agree_and_meet_most() {
        let mut tally = Tally::new();
        for number in 0..40 {
            assert_eq!(Pair::new(3, number).play(&mut tally), Ok(()));
        }
        assert!(tally.requests >= 4_000);
        assert!(tally.missed().len() < tally.rows().count() / 4);
    }
}
