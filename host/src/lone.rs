//! Bytes that alone are not erased: how they come to be, and ranges that end near
//! them. A search that takes several bytes at a time goes wrong there, if anywhere.

use crate::dice::Dice;
use crate::second::{Session, BLOCK, ERASED};

/// A byte that is not erased: often by one bit, or with one bit alone set.
pub fn byte(dice: &mut Dice) -> u8 {
    match dice.below(6) {
        0..=2 => !(1 << dice.below(8)),
        3 => 1 << dice.below(8),
        4 => 0,
        _ => dice.below(u32::from(ERASED)) as u8,
    }
}

/// A place in a block, with a liking for its ends and for the first of each
/// eight bytes.
pub fn place(dice: &mut Dice) -> u32 {
    match dice.below(8) {
        0..=1 => [0, BLOCK - 1, BLOCK - 1][dice.below(3) as usize],
        2..=3 => dice.below(8),
        4 => BLOCK - 1 - dice.below(8),
        5 => 8 * dice.below(BLOCK / 8),
        _ => dice.below(BLOCK),
    }
}

/// Erased bytes, all but one.
pub fn data(dice: &mut Dice, length: u32) -> Vec<u8> {
    let mut bytes = vec![ERASED; length as usize];
    let place = place(dice).min(length.saturating_sub(1));
    if let Some(one) = bytes.get_mut(place as usize) {
        *one = byte(dice);
    }
    bytes
}

/// Block and length of a range that ends near the only byte of its block that is
/// not erased: right before it, with it, or some bytes later. It begins at that
/// block or at one of the two before, if they are erased.
pub fn range(dice: &mut Dice, session: &Session, flash: &[u8]) -> Option<(u32, u32)> {
    let from = session.a + dice.below(session.b - session.a);
    let lone = |block| Some((block, lone_in(block_of(flash, block))?));
    let (block, place) = (from..session.b).find_map(lone)?;
    let most = dice.below(3);
    let erased = |back: &u32| dirty(block_of(flash, block - back)).next().is_none();
    let before = (1..=most.min(block - session.a)).take_while(erased).count() as u32;
    let first = block - before;
    let reach = before * BLOCK + place;
    let length = match dice.below(8) {
        0..=1 => reach,
        2 => reach + 1,
        3..=5 => reach + 2 + dice.below(6),
        6 => reach + 8 + dice.below(16),
        _ => (before + 1) * BLOCK,
    };
    Some((first, length.clamp(1, (session.b - first) * BLOCK)))
}

fn block_of(flash: &[u8], block: u32) -> &[u8] {
    let place = (block * BLOCK) as usize;
    &flash[place..place + BLOCK as usize]
}

/// The places of bytes that are not erased.
fn dirty(bytes: &[u8]) -> impl Iterator<Item = u32> + '_ {
    let places = (0..).zip(bytes).filter(|(_, byte)| **byte != ERASED);
    places.map(|(place, _)| place)
}

/// The place of the only byte that is not erased.
pub fn lone_in(bytes: &[u8]) -> Option<u32> {
    let mut places = dirty(bytes);
    let first = places.next()?;
    places.next().is_none().then_some(first)
}

#[cfg(test)]
mod tests {
    use super::*;
    use std::collections::HashSet;

    #[test]
    fn one_byte_alone_is_not_erased() {
        let mut dice = Dice::new(1);
        for length in 1..200 {
            let bytes = data(&mut dice, length);
            assert_eq!(bytes.len(), length as usize);
            assert!(lone_in(&bytes).is_some());
        }
        assert!(data(&mut dice, 0).is_empty());
    }

    #[test]
    fn every_place_and_every_byte_has_its_turn() {
        let mut dice = Dice::new(2);
        let places: HashSet<_> = (0..50_000).map(|_| place(&mut dice)).collect();
        assert_eq!(places, (0..BLOCK).collect());
        let bytes: HashSet<_> = (0..50_000).map(|_| byte(&mut dice)).collect();
        assert_eq!(bytes, (0..ERASED).collect());
    }

    /// Blocks 1 and 2 are erased, block 3 but for a byte, and block 4 is written.
    #[test]
    fn ranges_end_near_the_lone_byte() {
        let mut flash = vec![ERASED; 5 * BLOCK as usize];
        flash[3 * BLOCK as usize + 100] = 0x7F;
        flash[4 * BLOCK as usize..].fill(0);
        let session = Session {
            a: 1,
            b: 5,
            ..Session::zeros()
        };
        let mut dice = Dice::new(3);
        let ranges = (0..5_000).filter_map(|_| range(&mut dice, &session, &flash));
        let ends: HashSet<_> = ranges
            .map(|(first, length)| (first, first * BLOCK + length))
            .collect();
        let near = (100..=123).chain([BLOCK]).map(|end| 3 * BLOCK + end);
        let awaited = near.flat_map(|end| (1..=3).map(move |first| (first, end)));
        assert_eq!(ends, awaited.collect());
    }
}
