//! The least a request costs: GETSTATE neither searches nor sums, so that only
//! the checks, the table of states and the copies of the session are left.

use super::clock::{race, Side};
use super::{agree, noise, Board, Compared, BOARDS};
use mullirim_board::request;
use mullirim_host::second::{self, TRANSFER};
use mullirim_host::tape::setup;
use std::hint::black_box;

pub fn compare() -> Compared {
    let mut rows = Vec::new();
    for board in BOARDS {
        rows.extend(on(board)?);
    }
    Ok(rows)
}

fn on(board: Board) -> Compared {
    let what = board.named("GETSTATE");
    let mut flash = noise(board.bytes());
    let mut second_flash = flash.clone();
    let mut session = board.started(&flash);
    let second = second::Session::from(&session);
    let asked = setup(0xA1, 5, 1);
    let mut reply = [0; TRANSFER];
    let mut second_reply = [0; TRANSFER];
    let mut ours = || {
        let answer = request(&mut session, &mut flash, black_box(&asked), &[], &mut reply);
        (answer.code, answer.count, reply[0])
    };
    let mut theirs = || {
        let asked = black_box(&asked);
        let outcome = second::step(&second, &mut second_flash, asked, &[], &mut second_reply);
        (u32::from(outcome.answer), outcome.count, second_reply[0])
    };
    agree(&what, ours() == (0, 1, 2) && theirs() == (0, 1, 2))?;
    let sides = vec![
        Side::steady("ours", ours),
        Side::steady("second loader", theirs),
    ];
    Ok(race(&what, sides))
}
