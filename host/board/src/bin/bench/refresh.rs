//! One changed block: ERASE of it, which reads the block for its sum and joins the
//! whole one. Beside it stand Rust that reads all of the application for the whole,
//! as ours once did, Rust that joins it too, and a start, which reads all once.

use super::clock::{race, Side};
use super::kept::{Kept, WAYS};
use super::{agree, dnload, noise, Board, Compared, BOARDS};
use mullirim_board::Session;
use mullirim_host::second::command;
use mullirim_host::tape::header;
use std::hint::black_box;

/// The erased block, counted from the application's first.
const CHANGED: u16 = 20;

pub fn compare() -> Compared {
    let mut rows = Vec::new();
    for board in BOARDS {
        rows.extend(on(board)?);
    }
    Ok(rows)
}

fn on(board: Board) -> Compared {
    let what = board.named("ERASE of one block");
    let mut flash = noise(board.bytes());
    let session = board.started(&flash);
    let mut plain = WAYS.map(|(_, refresh)| Kept::new(&flash[board.application()], refresh));
    let mut erased = session;
    let code = erase(board, &mut erased, &mut flash);
    agree(
        &what,
        code == 0 && erased.sums == board.started(&flash).sums,
    )?;
    for kept in &mut plain {
        kept.erase(CHANGED.into());
        agree(&what, kept.same(&flash[board.application()], &erased))?;
    }
    let read = flash.clone();
    let ours = || {
        let mut session = session;
        erase(board, &mut session, &mut flash);
        session
    };
    let mut sides = vec![Side::steady("ours", ours)];
    for ((name, _), mut kept) in WAYS.into_iter().zip(plain) {
        sides.push(Side::steady(name, move || kept.erase(CHANGED.into())));
    }
    sides.push(Side::steady("ours, a start: all read once", || {
        board.started(black_box(&read))
    }));
    Ok(race(&what, sides))
}

fn erase(board: Board, session: &mut Session, flash: &mut [u8]) -> u32 {
    let one = header(command::ERASE, board.first + CHANGED, 1);
    dnload(session, flash, &one).code
}
