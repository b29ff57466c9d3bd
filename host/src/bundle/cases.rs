//! What a round of calls is lent: a file to read, images of it to ask for, and a
//! list of images to write with a buffer for them. Each case is made from a
//! seed and its number alone, so that any of them can be repeated by itself.

use super::files;
use super::lists::{self, List, GUARD};
use crate::dice::Dice;
use crate::lent::Lent;
use std::ops::Range;

pub struct Case {
    pub file: Lent,
    /// The images of the file that are asked for, there or not.
    pub asked: Vec<usize>,
    /// What is written: the lengths, and the images' bytes end to end.
    pub lengths: Vec<u64>,
    pub images: Lent,
    /// The buffer, with its guards where it is not vast, filled with anything.
    pub frame: Lent,
}

impl Case {
    pub fn new(seed: u64, number: u64) -> Case {
        let mut dice = Dice::new(seed.rotate_left(32) ^ number);
        let file = files::some_file(&mut dice);
        let List {
            lengths,
            images,
            frame,
        } = lists::some_list(&mut dice);
        Case {
            asked: asked(&mut dice, &file),
            file,
            lengths,
            images,
            frame,
        }
    }

    /// Where the buffer lies in its frame.
    pub fn lent(&self) -> Range<usize> {
        match self.frame {
            Lent::Few(_) => GUARD..self.frame.len() - GUARD,
            Lent::Vast(_) => 0..self.frame.len(),
        }
    }
}

/// Some images that a file of this count has, and some that it has not.
fn asked(dice: &mut Dice, file: &[u8]) -> Vec<usize> {
    let count = file.first().map_or(0, |count| usize::from(*count));
    let some = dice.below(count.max(1) as u32) as usize;
    let far: [u64; 9] = [
        count as u64 + 1,
        255,
        256,
        65_536,
        1 << 32,
        1 << 61,
        (1 << 61) + some as u64,
        1 << 63,
        u64::MAX,
    ];
    let far = far.get(dice.below(10) as usize).copied();
    let far = far.unwrap_or_else(|| dice.turn());
    vec![0, some, count.saturating_sub(1), count, far as usize]
}
