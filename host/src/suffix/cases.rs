//! What a pair of calls is lent: a file to read and to write, parts to write it
//! with, and a buffer. Each case is made from a seed and its number alone, so
//! that any of them can be repeated by itself.

use super::{files, SIZE};
use crate::dice::Dice;
use crate::layout::Parts;
use std::ops::Range;

/// What stands before and behind a lent buffer, to see a byte that goes astray.
const GUARD: usize = 16;

pub struct Case {
    pub file: Vec<u8>,
    /// The right file that a small change made this one of.
    pub before: Option<Vec<u8>>,
    pub parts: Parts,
    /// The buffer with its guards, all filled with anything.
    pub frame: Vec<u8>,
}

impl Case {
    pub fn new(seed: u64, number: u64) -> Case {
        let mut dice = Dice::new(seed.rotate_left(32) ^ number);
        let (file, before) = files::some_file(&mut dice);
        let parts = files::parts(&mut dice);
        let room = room(&mut dice, (file.len() + SIZE) as u32);
        Case {
            frame: dice.bytes(room + 2 * GUARD as u32),
            file,
            before,
            parts,
        }
    }

    /// Where the buffer lies in its frame.
    pub fn lent(&self) -> Range<usize> {
        GUARD..self.frame.len() - GUARD
    }
}

/// A buffer's length, where so many bytes are needed.
fn room(dice: &mut Dice, needed: u32) -> u32 {
    match dice.below(16) {
        0..=3 => needed,
        4..=5 => needed + 1,
        6..=7 => needed - 1,
        8 => needed - SIZE as u32,
        9 => 0,
        10 => dice.below(SIZE as u32),
        11 => dice.below(needed),
        12 => needed + 4_096 + dice.below(100),
        _ => needed + dice.below(64),
    }
}
