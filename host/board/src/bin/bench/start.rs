//! A start, which reads each block of the application once and joins their sums.
//! Rust that reads all of it once more for the whole sum stands beside it, too.

use super::clock::{race, Side};
use super::kept::Sums;
use super::{agree, noise, Board, Compared, BOARDS};
use std::hint::black_box;

pub fn compare() -> Compared {
    let mut rows = Vec::new();
    for board in BOARDS {
        rows.extend(on(board)?);
    }
    Ok(rows)
}

fn on(board: Board) -> Compared {
    let what = board.named("start");
    let flash = noise(board.bytes());
    let application = &flash[board.application()];
    let ours = board.started(&flash);
    for theirs in [Sums::new(application), Sums::by_two_readings(application)] {
        agree(&what, theirs.kept_by(&ours))?;
    }
    let sides = vec![
        Side::steady("ours", || board.started(black_box(&flash))),
        Side::steady("Rust: same work", || Sums::new(black_box(application))),
        Side::steady("Rust: application read twice", || {
            Sums::by_two_readings(black_box(application))
        }),
    ];
    Ok(race(&what, sides))
}
