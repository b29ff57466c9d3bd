//! A whole download onto an erased application. Beside ours stand Rust that reads
//! the application after each piece, as ours once did, and Rust that joins the sums
//! of the blocks too. The second loader sums bit by bit and is no rival in speed; it
//! stands here because it does all the same. Where zlib is at hand, one copy and one
//! sum of all bytes stand beside it too: no request, and no block by itself.

use super::clock::{race, Side};
use super::kept::{Kept, Refresh, WAYS};
use super::zlib::Zlib;
use super::{agree, noise, started, Compared, APPLICATION, FIRST, FLASH};
use mullirim_board::{request, Session};
use mullirim_host::second::{self, command, state, ERASED, TRANSFER};
use mullirim_host::tape::{header, setup};
use std::hint::black_box;

const PIECES: [usize; 2] = [1_016, 1_024];

/// A request as the host sends it.
struct Sent {
    setup: [u8; 8],
    data: Vec<u8>,
}

pub fn compare() -> Compared {
    let image = noise(APPLICATION.len());
    let zlib = Zlib::find();
    let mut rows = Vec::new();
    for piece in PIECES {
        let pieces = cut(&image, piece);
        let sent = requests(&pieces);
        let what = format!("download, pieces of {piece}");
        agree(&what, same(&image, &pieces, &sent, zlib.as_ref()))?;
        let mut sides = sides(&pieces, &sent);
        sides.extend(zlib.as_ref().map(|zlib| bare(&image, zlib)));
        rows.extend(race(&what, sides));
    }
    Ok(rows)
}

/// The image in pieces. The first shares its request with the command.
fn cut(image: &[u8], piece: usize) -> Vec<&[u8]> {
    let (first, rest) = image.split_at(piece.min(TRANSFER - command::LENGTH));
    let mut pieces = vec![first];
    pieces.extend(rest.chunks(piece));
    pieces
}

/// PROG with the first piece, the other pieces, the close; GETSTATUS after each.
fn requests(pieces: &[&[u8]]) -> Vec<Sent> {
    let prog = header(command::PROG, FIRST, APPLICATION.len() as u32);
    let mut downloads = vec![[&prog, pieces[0]].concat()];
    downloads.extend(pieces[1..].iter().map(|piece| piece.to_vec()));
    downloads.push(Vec::new());
    let mut sent = Vec::new();
    for data in downloads {
        sent.push(Sent {
            setup: setup(0x21, 1, data.len() as u16),
            data,
        });
        sent.push(Sent {
            setup: setup(0xA1, 3, 6),
            data: Vec::new(),
        });
    }
    sent
}

fn erased() -> Vec<u8> {
    vec![ERASED; FLASH]
}

/// The application before a download, as plain Rust keeps it.
fn plain(refresh: Refresh) -> Kept {
    Kept::new(&erased()[APPLICATION], refresh)
}

fn sides<'a>(pieces: &'a [&'a [u8]], sent: &'a [Sent]) -> Vec<Side<'a>> {
    let session = started(&erased());
    let second = second::Session::from(&session);
    let mut sides = vec![Side::readied("ours", erased, move |mut flash| {
        let (taken, session) = play(session, &mut flash, sent);
        (taken, session, flash)
    })];
    for (name, refresh) in WAYS {
        let ready = move || plain(refresh);
        sides.push(Side::readied(name, ready, |mut kept| {
            (kept.download(pieces), kept)
        }));
    }
    let by_bits = move |mut flash: Vec<u8>| {
        let (taken, session) = play_second(second.clone(), &mut flash, sent);
        (taken, session, flash)
    };
    sides.push(Side::readied("second loader, bit by bit", erased, by_bits));
    sides
}

/// What any download does with its bytes at least.
fn bare<'a>(image: &'a [u8], zlib: &'a Zlib) -> Side<'a> {
    Side::readied("one copy and one sum, zlib", erased, |mut flash| {
        (copy_and_sum(image, &mut flash, zlib), flash)
    })
}

/// The sum is that of the copy. For all the compiler knows the copy is looked at and
/// changed in between, so neither is left out.
fn copy_and_sum(image: &[u8], flash: &mut [u8], zlib: &Zlib) -> u32 {
    flash[APPLICATION].copy_from_slice(black_box(image));
    zlib.sum(&black_box(flash)[APPLICATION])
}

/// Whether all are done, have the image in flash, and keep the same sums.
fn same(image: &[u8], pieces: &[&[u8]], sent: &[Sent], zlib: Option<&Zlib>) -> bool {
    let session = started(&erased());
    let second = second::Session::from(&session);
    let mut flashes = [erased(), erased()];
    let (taken, ours) = play(session, &mut flashes[0], sent);
    let (second_taken, second) = play_second(second, &mut flashes[1], sent);
    let plainly = |(_, refresh): &(&str, Refresh)| {
        let mut kept = plain(*refresh);
        kept.download(pieces) && kept.same(image, &ours)
    };
    let barely = |zlib: &Zlib| {
        let mut flash = erased();
        copy_and_sum(image, &mut flash, zlib) == ours.sums.whole && flash == flashes[0]
    };
    taken
        && second_taken
        && flashes.iter().all(|flash| flash[APPLICATION] == *image)
        && second::Session::from(&ours) == second
        && ours.phase.state == state::IDLE
        && WAYS.iter().all(plainly)
        && zlib.into_iter().all(barely)
}

/// Plays the requests through the proved loader: whether all were taken, and
/// the session at the end.
fn play(mut session: Session, flash: &mut [u8], sent: &[Sent]) -> (bool, Session) {
    let mut reply = [0; TRANSFER];
    let mut taken = true;
    for Sent { setup, data } in sent {
        taken &= request(&mut session, flash, setup, data, &mut reply).code == 0;
    }
    (taken, session)
}

/// The same through the second loader.
fn play_second(
    mut session: second::Session,
    flash: &mut [u8],
    sent: &[Sent],
) -> (bool, second::Session) {
    let mut reply = [0; TRANSFER];
    let mut taken = true;
    for Sent { setup, data } in sent {
        let outcome = second::step(&session, flash, setup, data, &mut reply);
        taken &= outcome.answer == second::answer::TAKEN;
        session = outcome.session;
    }
    (taken, session)
}

#[cfg(test)]
mod tests {
    use super::*;

    #[test]
    fn pieces_are_the_image() {
        let image = noise(APPLICATION.len());
        for piece in PIECES {
            let pieces = cut(&image, piece);
            assert_eq!(pieces.concat(), image);
            let sent = requests(&pieces);
            assert_eq!(sent.len(), 2 * pieces.len() + 2);
            assert_eq!(sent[0].data.len(), TRANSFER);
            assert!(sent[sent.len() - 2].data.is_empty());
        }
    }

    #[test]
    fn all_do_the_same() {
        let image = noise(APPLICATION.len());
        let pieces = cut(&image, 1_024);
        let sent = requests(&pieces);
        assert!(same(&image, &pieces, &sent, None));
        assert!(!same(&noise(1), &pieces, &sent, None));
        assert!(!same(&image, &pieces[1..], &sent, None));
        assert!(!same(&image, &pieces, &sent[1..], None));
    }

    #[test]
    fn one_copy_and_one_sum_are_of_the_same_bytes() {
        let zlib = Zlib::find().expect("libz.so.1");
        let image = noise(APPLICATION.len());
        let pieces = cut(&image, 1_016);
        let sent = requests(&pieces);
        assert!(same(&image, &pieces, &sent, Some(&zlib)));
        let [mut ours, mut copied] = [erased(), erased()];
        let (taken, session) = play(started(&ours), &mut ours, &sent);
        let sum = copy_and_sum(&image, &mut copied, &zlib);
        assert!(taken);
        assert_eq!(copied, ours);
        assert_eq!(sum, session.sums.whole);
        assert_eq!(sum, second::sum(&image));
    }
}
