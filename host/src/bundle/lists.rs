//! The lists of images to write, each with a buffer: right ones, and ones that
//! break every set of the writer's rules.

use super::files::{count, lengths_of, lone_length};
use super::vast;
use crate::dice::Dice;
use crate::lent::Lent;

/// What stands before and behind a lent buffer, to see a byte that goes astray.
pub const GUARD: usize = 16;

pub struct List {
    pub lengths: Vec<u64>,
    pub images: Lent,
    pub frame: Lent,
}

/// The rules that a list can break, by their bits.
const COUNT: u32 = 1;
const EMPTY: u32 = 2;
const ROOM: u32 = 4;
const LENGTHS: u32 = 8;

pub fn some_list(dice: &mut Dice) -> List {
    match dice.below(40) {
        0..=15 => with(dice, 0),
        16..=33 => {
            let rules = 1 + dice.below(15);
            with(dice, rules)
        }
        34..=38 => too_long(dice),
        _ if dice.below(2) == 0 => vast::some_list(dice),
        _ => lone(dice),
    }
}

/// The bytes of the bundle of these lengths, in a number that holds them.
pub fn needed(lengths: &[u64]) -> u128 {
    let images: u128 = lengths.iter().map(|length| u128::from(*length)).sum();
    2 + 8 * lengths.len() as u128 + images
}

/// One that breaks these rules, and no others.
fn with(dice: &mut Dice, rules: u32) -> List {
    let count = match rules & COUNT {
        0 => count(dice),
        _ => wrong_count(dice),
    };
    let mut lengths = wide(lengths_of(dice, count));
    if rules & EMPTY != 0 && count > 0 {
        empty_some(dice, &mut lengths);
    }
    let needed = needed(&lengths) as u32;
    let bytes: u64 = lengths.iter().sum();
    let bytes = match rules & LENGTHS {
        0 => bytes as u32,
        _ => other_bytes(dice, bytes as u32),
    };
    let room = match rules & ROOM {
        0 => enough(dice, needed),
        _ => too_little(dice, needed, 2 + 8 * count as u32),
    };
    List {
        lengths,
        images: dice.many(bytes).into(),
        frame: frame(dice, room),
    }
}

/// One image, around a border, with just its room or near that.
fn lone(dice: &mut Dice) -> List {
    let length = match dice.below(4) {
        0 => 65_535 + dice.below(3),
        _ => lone_length(dice),
    };
    let room = length + 9 + dice.below(3);
    List {
        lengths: vec![length.into()],
        images: dice.many(length).into(),
        frame: frame(dice, room),
    }
}

fn wide(lengths: Vec<u32>) -> Vec<u64> {
    lengths.into_iter().map(u64::from).collect()
}

fn frame(dice: &mut Dice, room: u32) -> Lent {
    dice.many(room + 2 * GUARD as u32).into()
}

fn wrong_count(dice: &mut Dice) -> usize {
    let border = [0, 0, 33, 33, 34, 64, 255, 256, 257, 288];
    match border.get(dice.below(12) as usize) {
        Some(count) => *count,
        None => 33 + dice.below(100) as usize,
    }
}

/// The first, the last, any or all images have no bytes.
fn empty_some(dice: &mut Dice, lengths: &mut [u64]) {
    let count = lengths.len();
    match dice.below(8) {
        0..=1 => lengths[0] = 0,
        2..=3 => lengths[count - 1] = 0,
        4 => lengths.fill(0),
        _ => lengths[dice.below(count as u32) as usize] = 0,
    }
}

/// Another number of bytes than this.
fn other_bytes(dice: &mut Dice, right: u32) -> u32 {
    match dice.below(8) {
        0..=2 => right + 1,
        3..=5 if right > 0 => right - 1,
        6 if right > 0 => 0,
        _ => right + 1 + dice.below(300),
    }
}

fn enough(dice: &mut Dice, needed: u32) -> u32 {
    match dice.below(20) {
        0..=9 => needed,
        10..=12 => needed + 1,
        13 => needed + 4_096 + dice.below(100),
        _ => needed + dice.below(64),
    }
}

fn too_little(dice: &mut Dice, needed: u32, head: u32) -> u32 {
    let room = match dice.below(12) {
        0..=3 => needed - 1,
        4 => 2,
        5 => needed - 2,
        6 => needed.saturating_sub(8),
        7 => head,
        8 => head - 1,
        9 => needed - head,
        10 => 0,
        _ => dice.below(needed),
    };
    room.min(needed - 1)
}

/// One with lengths that no buffer holds, though they would do if some number
/// were cut to its last 32 or 64 bits.
fn too_long(dice: &mut Dice) -> List {
    let count = match dice.below(8) {
        0 => 33,
        _ => count(dice),
    };
    let mut lengths = wide(lengths_of(dice, count));
    let (bytes, needed) = (lengths.iter().sum::<u64>(), needed(&lengths));
    lengthen(dice, &mut lengths);
    if dice.below(8) == 0 {
        empty_some(dice, &mut lengths);
    }
    let room = enough(dice, needed as u32);
    List {
        lengths,
        images: dice.many(bytes as u32).into(),
        frame: frame(dice, room),
    }
}

fn lengthen(dice: &mut Dice, lengths: &mut [u64]) {
    let one = dice.below(lengths.len() as u32) as usize;
    let other = dice.below(lengths.len() as u32) as usize;
    let (large, small) = (dice.turn(), dice.below(lengths.len() as u32 + 9));
    let head = 2 + 8 * lengths.len() as u64;
    let mut add = |place: usize, more: u64| lengths[place] = lengths[place].wrapping_add(more);
    match dice.below(10) {
        0 => lengths[one] = (1 << 32) - 1,
        1 => lengths[one] = 1 << 32,
        2 => lengths[one] = u64::MAX,
        3 => lengths[one] = 1 << 63,
        4 => lengths[one] = head.wrapping_neg().wrapping_add(small.into()),
        5 => add(one, 1 << 32),
        6 => add(one, (1 + large % 1_000) << 32),
        7 if one != other => {
            add(one, 1 << 31);
            add(other, 1 << 31);
        }
        8 if one != other => {
            add(one, large | 1 << 32);
            add(other, (large | 1 << 32).wrapping_neg());
        }
        _ => {
            lengths[one] = large;
            lengths[other] = u64::MAX - u64::from(small);
        }
    }
}

#[cfg(test)]
mod tests {
    use super::*;

    /// The rules that a list breaks, told in another way than it was made.
    fn broken(list: &List) -> u32 {
        let room = list.frame.len() - 2 * GUARD;
        let bytes: u64 = list.lengths.iter().sum();
        let rules = [
            !(1..33).contains(&list.lengths.len()),
            list.lengths.contains(&0),
            needed(&list.lengths) > room as u128,
            bytes != list.images.len() as u64,
        ];
        (0..4).map(|rule| u32::from(rules[rule]) << rule).sum()
    }

    #[test]
    fn a_list_breaks_what_it_is_told_to() {
        let mut dice = Dice::new(2);
        for rules in 0..16 {
            for _ in 0..100 {
                let list = with(&mut dice, rules);
                let none = list.lengths.is_empty();
                let told = if none { rules & !EMPTY } else { rules };
                assert_eq!(broken(&list), told);
            }
        }
    }

    #[test]
    fn no_long_list_has_its_room() {
        let mut dice = Dice::new(3);
        for _ in 0..1_000 {
            let list = too_long(&mut dice);
            let room = list.frame.len() - 2 * GUARD;
            let rest = list.lengths.contains(&0);
            assert!(rest || needed(&list.lengths) > room as u128);
        }
    }
}
