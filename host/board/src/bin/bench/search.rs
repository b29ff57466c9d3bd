//! CHECK of the application: the search for a byte that isn't 0xFF, over all of
//! it where it is erased, and up to such a byte in its first block.

use super::clock::{race, Side};
use super::{agree, dnload, started, Compared, APPLICATION, BLOCK, FIRST, FLASH};
use mullirim_board::Session;
use mullirim_host::second::{self, command, ERASED, TRANSFER};
use mullirim_host::tape::{header, setup};
use std::hint::black_box;

/// The first byte of a block, the last of its first eight, and the last of all.
const PLACES: [usize; 3] = [0, 7, BLOCK - 1];

pub fn compare() -> Compared {
    let mut rows = over_all()?;
    for place in PLACES {
        rows.extend(up_to(place)?);
    }
    Ok(rows)
}

fn over_all() -> Compared {
    let mut flash = vec![ERASED; FLASH];
    agree("CHECK of erased flash", same(&mut flash, true))?;
    flash[FLASH - 1] = 0;
    agree("CHECK of a last byte", same(&mut flash, false))?;
    flash[FLASH - 1] = ERASED;
    let theirs = flash.clone();
    let session = started(&flash);
    let ours = || {
        let mut session = session;
        check(&mut session, &mut flash)
    };
    let what = format!("CHECK of {} bytes", APPLICATION.len());
    let application = &theirs[APPLICATION];
    let sides = vec![
        Side::steady("ours", ours),
        Side::steady("Rust, iter().all", || all(black_box(application))),
        Side::steady("Rust, iter().position", || first(black_box(application))),
        Side::steady("Rust, position, block by block", || {
            first_by_block(black_box(application))
        }),
    ];
    Ok(race(&what, sides))
}

/// A search this short is little beside the request that asks for it, so the
/// whole request is set beside the second loader's.
fn up_to(place: usize) -> Compared {
    let mut flash = vec![ERASED; FLASH];
    flash[APPLICATION.start + place] = 0;
    let mut second_flash = flash.clone();
    let session = started(&flash);
    let second = second::Session::from(&session);
    let mut ours = || {
        let mut session = session;
        check(&mut session, &mut flash)
    };
    let mut theirs = || second_check(&second, &mut second_flash);
    let what = format!("CHECK, byte {place} found");
    agree(&what, !ours() && !theirs())?;
    let sides = vec![
        Side::steady("ours", ours),
        Side::steady("second loader", theirs),
    ];
    Ok(race(&what, sides))
}

/// Whether all four find the flash erased, or all four don't.
fn same(flash: &mut [u8], erased: bool) -> bool {
    let ours = check(&mut started(flash), flash);
    let application = &flash[APPLICATION];
    let place = first(application);
    ours == erased
        && all(application) == erased
        && place.is_none() == erased
        && place == first_by_block(application)
}

/// Whether a CHECK of the whole application is taken; else it faulted.
fn check(session: &mut Session, flash: &mut [u8]) -> bool {
    dnload(session, flash, black_box(&asked())).code == 0
}

/// The same by the second loader.
fn second_check(session: &second::Session, flash: &mut [u8]) -> bool {
    let asked = black_box(asked());
    let setup = setup(0x21, 1, asked.len() as u16);
    second::step(session, flash, &setup, &asked, &mut [0; TRANSFER]).answer == 0
}

fn asked() -> [u8; 8] {
    header(command::CHECK, FIRST, APPLICATION.len() as u32)
}

fn all(bytes: &[u8]) -> bool {
    bytes.iter().all(|byte| *byte == ERASED)
}

fn first(bytes: &[u8]) -> Option<usize> {
    bytes.iter().position(|byte| *byte != ERASED)
}

/// The walk as the paper has it: over blocks, and over the bytes of each.
fn first_by_block(bytes: &[u8]) -> Option<usize> {
    let in_block = |(number, block): (usize, &[u8])| Some(number * BLOCK + first(block)?);
    bytes.chunks(BLOCK).enumerate().find_map(in_block)
}

#[cfg(test)]
mod tests {
    use super::*;

    #[test]
    fn a_byte_at_either_end_is_found_by_all() {
        let mut flash = vec![ERASED; FLASH];
        assert!(same(&mut flash, true));
        assert!(!same(&mut flash, false));
        for place in [APPLICATION.start, FLASH - 1] {
            flash[place] = 0xFE;
            assert!(same(&mut flash, false));
            assert!(!same(&mut flash, true));
            flash[place] = ERASED;
        }
        flash[APPLICATION.start - 1] = 0;
        assert!(same(&mut flash, true));
    }

    #[test]
    fn the_second_loader_finds_a_byte_too() {
        let mut flash = vec![ERASED; FLASH];
        let session = second::Session::from(&started(&flash));
        assert!(second_check(&session, &mut flash));
        for place in PLACES {
            flash[APPLICATION.start + place] = 0xFE;
            assert!(!second_check(&session, &mut flash));
            flash[APPLICATION.start + place] = ERASED;
        }
    }
}
