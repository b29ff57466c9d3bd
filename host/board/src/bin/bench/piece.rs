//! One piece of a download: 1,024 bytes in state 5, which touch one block. Beside
//! ours stand Rust that reads all of the application after it, as ours once did, and
//! Rust that joins the sums of the blocks too.

use super::clock::{race, Side};
use super::kept::{Kept, WAYS};
use super::{agree, dnload, noise, Board, Compared, BOARDS};
use mullirim_board::{request, Session};
use mullirim_host::second::{command, ERASED, TRANSFER};
use mullirim_host::tape::{header, setup};

pub fn compare() -> Compared {
    let mut rows = Vec::new();
    for board in BOARDS {
        rows.extend(on(board)?);
    }
    Ok(rows)
}

fn on(board: Board) -> Compared {
    let what = board.named("piece of 1024");
    let piece = &noise(TRANSFER)[..];
    let mut flash = vec![ERASED; board.bytes()];
    let session = awaiting(board, &mut flash);
    let mut plain = WAYS.map(|(_, refresh)| Kept::new(&flash[board.application()], refresh));
    let mut sent = session;
    let code = dnload(&mut sent, &mut flash, piece).code;
    agree(&what, code == 0 && sent.sums == board.started(&flash).sums)?;
    for kept in &mut plain {
        kept.put(0, piece);
        agree(&what, kept.same(&flash[board.application()], &sent))?;
    }
    let ours = || {
        let mut session = session;
        dnload(&mut session, &mut flash, piece);
        session
    };
    let mut sides = vec![Side::steady("ours", ours)];
    for ((name, _), mut kept) in WAYS.into_iter().zip(plain) {
        sides.push(Side::steady(name, move || kept.put(0, piece)));
    }
    Ok(race(&what, sides))
}

/// A session in state 5 that awaits all of the application.
fn awaiting(board: Board, flash: &mut [u8]) -> Session {
    let mut session = board.started(flash);
    let length = board.application().len() as u32;
    dnload(
        &mut session,
        flash,
        &header(command::PROG, board.first, length),
    );
    request(
        &mut session,
        flash,
        &setup(0xA1, 3, 6),
        &[],
        &mut [0; TRANSFER],
    );
    session
}
