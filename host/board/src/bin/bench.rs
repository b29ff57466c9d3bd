//! Times the proved calls beside plain Rust and, for sums, their join and a whole
//! download, beside zlib. Before anything is timed, all sides must have come to the
//! same result.

#[path = "bench/bundle.rs"]
mod bundle;
#[path = "bench/clock.rs"]
mod clock;
#[path = "bench/download.rs"]
mod download;
#[path = "bench/eighths.rs"]
mod eighths;
#[path = "bench/joins.rs"]
mod joins;
#[path = "bench/kept.rs"]
mod kept;
#[path = "bench/piece.rs"]
mod piece;
#[path = "bench/plain.rs"]
mod plain;
#[path = "bench/question.rs"]
mod question;
#[path = "bench/refresh.rs"]
mod refresh;
#[path = "bench/search.rs"]
mod search;
#[path = "bench/start.rs"]
mod start;
#[path = "bench/suffix.rs"]
mod suffix;
#[path = "bench/sums.rs"]
mod sums;
#[path = "bench/zlib.rs"]
mod zlib;

use clock::{Row, REPETITIONS};
use mullirim_board::{request, Answer, Session};
use mullirim_host::second;
use mullirim_host::tape::setup;
use std::ops::Range;
use std::process::ExitCode;

/// The board of the paper's desk examples.
const FIRST: u16 = 16;
const BLOCKS: u16 = 64;
const BLOCK: usize = second::BLOCK as usize;
const FLASH: usize = BLOCKS as usize * BLOCK;
const APPLICATION: Range<usize> = FIRST as usize * BLOCK..FLASH;

#[derive(Clone, Copy)]
struct Board {
    first: u16,
    blocks: u16,
}

/// That board, one with as many blocks as can be, and one with the longest
/// application that these can have.
const BOARDS: [Board; 3] = [
    Board {
        first: FIRST,
        blocks: BLOCKS,
    },
    Board {
        first: FIRST,
        blocks: second::MOST_BLOCKS as u16,
    },
    Board {
        first: 1,
        blocks: second::MOST_BLOCKS as u16,
    },
];

impl Board {
    fn bytes(self) -> usize {
        usize::from(self.blocks) * BLOCK
    }

    fn application(self) -> Range<usize> {
        usize::from(self.first) * BLOCK..self.bytes()
    }

    /// The session of a start over this flash.
    fn started(self, flash: &[u8]) -> Session {
        mullirim_board::start(flash, self.first.into(), self.blocks.into(), 0, 0).session
    }

    /// What was measured, with the board where it isn't that of the desk.
    fn named(self, what: &str) -> String {
        match (self.first, self.blocks) {
            (FIRST, BLOCKS) => what.to_string(),
            (FIRST, blocks) => format!("{what}, B = {blocks}"),
            (first, blocks) => format!("{what}, A = {first}, B = {blocks}"),
        }
    }
}

/// A comparison: what was measured, or how the sides differed.
type Compared = Result<Vec<Row>, String>;

fn main() -> ExitCode {
    println!(
        "{:<34} {:>7} {:>9}  {:<30} {:>7} {:>6}  rounds",
        "what", "ours", "a second", "beside", "theirs", "ratio"
    );
    let comparisons = [
        sums::compare,
        joins::compare,
        download::compare,
        piece::compare,
        search::compare,
        refresh::compare,
        start::compare,
        question::compare,
        suffix::compare,
        bundle::compare,
    ];
    for compare in comparisons {
        match compare() {
            Ok(rows) => rows.iter().for_each(|row| println!("{row}")),
            Err(why) => {
                eprintln!("bench: {why}");
                return ExitCode::FAILURE;
            }
        }
    }
    println!(
        "Microseconds, medians of {REPETITIONS}. A second: how often ours is done in one. Ratio: ours by theirs; below 1"
    );
    println!(
        "ours is quicker. Rounds: the least and the greatest ratio within one round of all sides."
    );
    ExitCode::SUCCESS
}

/// Goes on where the sides agree.
fn agree(what: &str, same: bool) -> Result<(), String> {
    match same {
        true => Ok(()),
        false => Err(format!("{what}: the sides differ")),
    }
}

/// Bytes without a short period, so that no side can guess them.
fn noise(length: usize) -> Vec<u8> {
    let mut number = 1u32;
    let mut byte = || {
        number = number.wrapping_mul(1_664_525).wrapping_add(1_013_904_223);
        (number >> 24) as u8
    };
    (0..length).map(|_| byte()).collect()
}

/// The session of a start over this flash of the desk's board.
fn started(flash: &[u8]) -> Session {
    BOARDS[0].started(flash)
}

/// One DNLOAD through the proved loader.
fn dnload(session: &mut Session, flash: &mut [u8], data: &[u8]) -> Answer {
    let mut reply = [0; 1_024];
    let setup = setup(0x21, 1, data.len() as u16);
    request(session, flash, &setup, data, &mut reply)
}
