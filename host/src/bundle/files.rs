//! The files: right ones, and wrong ones of every kind that the paper refuses.
//! They are laid here byte by byte, by none of those that are tried with them.

use super::damage::{damage, shortened};
use super::vast;
use crate::dice::Dice;
use crate::lent::Lent;

/// A bundle in its parts, right or not.
pub struct Bundle {
    pub count: u16,
    pub entries: Vec<Entry>,
    /// What stands behind the entries.
    pub rest: Vec<u8>,
}

pub struct Entry {
    pub offset: u32,
    pub length: u32,
}

impl Bundle {
    /// The bundle of images of these lengths, also where the paper has none of
    /// so many.
    pub fn right(dice: &mut Dice, lengths: &[u32]) -> Bundle {
        let mut bundle = Bundle {
            count: lengths.len() as u16,
            entries: Vec::new(),
            rest: Vec::new(),
        };
        for length in lengths {
            let offset = 2 + 8 * lengths.len() + bundle.rest.len();
            bundle.entries.push(Entry {
                offset: offset as u32,
                length: *length,
            });
            bundle.rest.extend(dice.many(*length));
        }
        bundle
    }

    pub fn head(&self) -> u32 {
        2 + 8 * self.entries.len() as u32
    }

    pub fn length(&self) -> u32 {
        self.head() + self.rest.len() as u32
    }

    pub fn bytes(&self) -> Vec<u8> {
        let mut bytes = self.count.to_le_bytes().to_vec();
        for entry in &self.entries {
            bytes.extend(entry.offset.to_le_bytes());
            bytes.extend(entry.length.to_le_bytes());
        }
        bytes.extend(&self.rest);
        bytes
    }
}

pub fn some_file(dice: &mut Dice) -> Lent {
    match dice.below(40) {
        0..=9 => right(dice).bytes().into(),
        10..=20 => damaged(dice, 1).bytes().into(),
        21..=27 => damaged(dice, 2).bytes().into(),
        28..=30 => damaged(dice, 3).bytes().into(),
        31..=34 => cut(dice).into(),
        35..=36 => of_wrong_count(dice).into(),
        37 => of_empty_images(dice).into(),
        38 => any(dice).into(),
        _ if dice.below(2) == 0 => tiny(dice).into(),
        _ => vast::some_file(dice),
    }
}

fn right(dice: &mut Dice) -> Bundle {
    let lengths = lengths(dice);
    Bundle::right(dice, &lengths)
}

/// How many images, of those that a bundle can have.
pub fn count(dice: &mut Dice) -> usize {
    match dice.below(10) {
        0..=1 => 1,
        2 => 2,
        3 => 31,
        4..=5 => 32,
        _ => 1 + dice.below(32) as usize,
    }
}

fn lengths(dice: &mut Dice) -> Vec<u32> {
    let count = count(dice);
    if count == 1 {
        return vec![lone_length(dice)];
    }
    lengths_of(dice, count)
}

/// The lengths of so many images, each at least 1.
pub fn lengths_of(dice: &mut Dice, count: usize) -> Vec<u32> {
    let most = [1, 3, 40][dice.below(3) as usize];
    let mut lengths: Vec<u32> = (0..count).map(|_| 1 + dice.below(most)).collect();
    if count > 0 && dice.below(4) == 0 {
        lengths[dice.below(count as u32) as usize] = match dice.below(20) {
            0 => lone_length(dice),
            _ => 255 + dice.below(3),
        };
    }
    lengths
}

/// A length around a border, or any.
pub fn lone_length(dice: &mut Dice) -> u32 {
    match dice.below(100) {
        0..=3 => 65_535 + dice.below(3),
        4..=5 => 65_525 + dice.below(3),
        6..=20 => 255 + dice.below(3),
        21..=40 => 1,
        41..=50 => 2,
        _ => 1 + dice.below(100),
    }
}

fn damaged(dice: &mut Dice, times: u32) -> Bundle {
    let mut bundle = right(dice);
    for _ in 0..times {
        damage(dice, &mut bundle);
    }
    bundle
}

/// The first bytes of a file, right or damaged.
fn cut(dice: &mut Dice) -> Vec<u8> {
    let times = dice.below(2);
    let bundle = damaged(dice, times);
    shortened(dice, &bundle)
}

/// All is right for the images that are there, but for their number.
fn of_wrong_count(dice: &mut Dice) -> Vec<u8> {
    let border = [0, 0, 33, 33, 34, 64, 255, 256, 257, 288];
    let count = match border.get(dice.below(12) as usize) {
        Some(count) => *count,
        None => 33 + dice.below(100) as usize,
    };
    let lengths = lengths_of(dice, count);
    let mut bundle = Bundle::right(dice, &lengths);
    if dice.below(3) == 0 {
        damage(dice, &mut bundle);
    }
    bundle.bytes()
}

/// Some images or all of them have no bytes, and all else is right for that.
fn of_empty_images(dice: &mut Dice) -> Vec<u8> {
    let mut lengths = lengths(dice);
    let all = dice.below(3) == 0;
    for length in &mut lengths {
        if all || dice.below(4) == 0 {
            *length = 0;
        }
    }
    Bundle::right(dice, &lengths).bytes()
}

/// Nothing, or little more than a count.
fn tiny(dice: &mut Dice) -> Vec<u8> {
    let length = [2, dice.below(12)][dice.below(2) as usize];
    let mut file = dice.many(length);
    let counts = [[0, 0], [1, 0], [2, 0], [32, 0], [33, 0], [255, 255], [0, 1]];
    for (byte, low) in file.iter_mut().zip(counts[dice.below(7) as usize]) {
        *byte = low;
    }
    file
}

/// Any bytes behind a count that may pass.
fn any(dice: &mut Dice) -> Vec<u8> {
    let length = 2 + dice.below(400);
    let mut file = dice.many(length);
    file[0] = dice.below(40) as u8;
    file[1] = u8::from(dice.below(8) == 0);
    file
}

#[cfg(test)]
mod tests {
    use super::*;

    #[test]
    fn a_right_bundle_lies_as_the_paper_says() {
        let bundle = Bundle::right(&mut Dice::new(1), &[1, 258]);
        let bytes = bundle.bytes();
        let head = b"\x02\0\x12\0\0\0\x01\0\0\0\x13\0\0\0\x02\x01\0\0";
        assert_eq!((&bytes[..18], bytes.len()), (&head[..], 18 + 1 + 258));
        assert_eq!((bundle.head(), bundle.length()), (18, 277));
    }

    #[test]
    fn every_length_and_count_comes() {
        let mut dice = Dice::new(2);
        let counts: Vec<usize> = (0..2_000).map(|_| count(&mut dice)).collect();
        assert!((1..=32).all(|count| counts.contains(&count)));
        assert!(counts.iter().all(|count| (1..=32).contains(count)));
        let lengths: Vec<u32> = (0..2_000).map(|_| lone_length(&mut dice)).collect();
        assert!([1, 255, 256, 257, 65_535, 65_536, 65_537]
            .iter()
            .all(|length| lengths.contains(length)));
    }
}
