//! Files, images and buffers of over 4 GiB. Nearly nothing of them is read or
//! written, but their lengths and ends are past 32 bits.

use super::files::{count, Bundle, Entry};
use super::lists::{needed, List, GUARD};
use crate::dice::Dice;
use crate::lent::{Lent, Vast};

const PAST_32_BITS: u64 = 1 << 32;

fn vast(first: &[u8], length: u64) -> Lent {
    Lent::Vast(Vast::new(first, length as usize))
}

/// One less, the same or one more.
fn near(dice: &mut Dice, number: u64) -> u64 {
    number - 1 + u64::from(dice.below(3))
}

pub fn some_file(dice: &mut Dice) -> Lent {
    match dice.below(8) {
        0 => with_little_behind_32_bits(dice),
        1 => left_over(dice),
        2..=4 => one_image(dice),
        5..=6 => two_images(dice),
        _ => that_wraps(dice),
    }
}

/// If the length were cut there wouldn't be a whole count or table.
fn with_little_behind_32_bits(dice: &mut Dice) -> Lent {
    let count = [0, 1, 32, 33][dice.below(4) as usize];
    let little = dice.below(2 + 8 * u32::from(count));
    let little = [0, 1, little][dice.below(3) as usize];
    vast(&[count, 0], PAST_32_BITS + u64::from(little))
}

/// A right bundle, if the length were cut.
fn left_over(dice: &mut Dice) -> Lent {
    let lengths = small_lengths(dice);
    let bytes = Bundle::right(dice, &lengths).bytes();
    vast(&bytes, PAST_32_BITS + bytes.len() as u64)
}

fn head(entries: Vec<Entry>) -> Vec<u8> {
    let bundle = Bundle {
        count: entries.len() as u16,
        entries,
        rest: Vec::new(),
    };
    bundle.bytes()
}

/// It ends around 4 GiB or as far behind as it can, and so does the file.
fn one_image(dice: &mut Dice) -> Lent {
    let length = match dice.below(3) {
        0 => u32::MAX,
        _ => u32::MAX - 8 - dice.below(2),
    };
    let end = 10 + u64::from(length);
    vast(&head(vec![Entry { offset: 10, length }]), near(dice, end))
}

/// The second begins below 4 GiB and ends behind.
fn two_images(dice: &mut Dice) -> Lent {
    let offset = u32::MAX - dice.below(2);
    let length = match dice.below(2) {
        0 => u32::MAX,
        _ => 1 + dice.below(9),
    };
    let first = Entry {
        offset: 18,
        length: offset - 18,
    };
    let end = u64::from(offset) + u64::from(length);
    vast(
        &head(vec![first, Entry { offset, length }]),
        near(dice, end),
    )
}

/// The first ends behind 4 GiB, where no offset can say that the second begins.
fn that_wraps(dice: &mut Dice) -> Lent {
    let first = Entry {
        offset: 18,
        length: u32::MAX - dice.below(18),
    };
    let end = 18 + u64::from(first.length);
    let second = Entry {
        offset: end as u32,
        length: 1 + dice.below(9),
    };
    let length = end + u64::from(second.length);
    vast(&head(vec![first, second]), length)
}

pub fn some_list(dice: &mut Dice) -> List {
    match dice.below(16) {
        0..=1 => with_a_large_buffer(dice),
        2..=3 => with_more_images(dice),
        4..=6 => with_a_long_image(dice),
        7..=12 => with_a_far_offset(dice),
        13..=14 => with_an_empty_image(dice),
        _ => of_many(dice),
    }
}

fn small_lengths(dice: &mut Dice) -> Vec<u32> {
    (0..count(dice)).map(|_| 1 + dice.below(9)).collect()
}

/// A right list: its lengths and its bytes.
fn small(dice: &mut Dice) -> (Vec<u64>, Vec<u8>) {
    let lengths = small_lengths(dice);
    let images = dice.many(lengths.iter().sum());
    (lengths.into_iter().map(u64::from).collect(), images)
}

/// A buffer that has its room, but not if its length were cut.
fn with_a_large_buffer(dice: &mut Dice) -> List {
    let (lengths, images) = small(dice);
    let cut = dice.below(needed(&lengths) as u32);
    List {
        lengths,
        images: images.into(),
        frame: vast(&dice.many(500), PAST_32_BITS + u64::from(cut)),
    }
}

/// As many bytes as there ought to be, if their number were cut.
fn with_more_images(dice: &mut Dice) -> List {
    let (lengths, images) = small(dice);
    let room = needed(&lengths) as u32 + dice.below(9);
    List {
        lengths,
        images: vast(&images, PAST_32_BITS + images.len() as u64),
        frame: dice.many(room + 2 * GUARD as u32).into(),
    }
}

/// Few bytes of images, and a buffer around what the lengths need.
fn around(dice: &mut Dice, lengths: Vec<u64>) -> List {
    let needed = needed(&lengths) as u64;
    let room = match dice.below(2) {
        0 => needed + u64::from(dice.below(1_000)),
        _ => near(dice, needed),
    };
    let images = dice.below(9);
    List {
        lengths,
        images: dice.many(images).into(),
        frame: vast(&dice.many(500), room),
    }
}

/// The last of them is around 4 GiB long.
fn with_a_long_image(dice: &mut Dice) -> List {
    let (mut lengths, _) = small(dice);
    if let Some(last) = lengths.last_mut() {
        *last = near(dice, PAST_32_BITS);
    }
    around(dice, lengths)
}

/// The last of them begins around 4 GiB, and each is shorter.
fn with_a_far_offset(dice: &mut Dice) -> List {
    let (mut lengths, _) = small(dice);
    lengths.push(1 + u64::from(dice.below(9)));
    lengths.truncate(32);
    let count = lengths.len();
    let offset = needed(&lengths) as u64 - lengths[count - 1];
    let place = dice.below(count as u32 - 1) as usize;
    lengths[place] += near(dice, PAST_32_BITS) - offset;
    around(dice, lengths)
}

fn with_an_empty_image(dice: &mut Dice) -> List {
    let mut list = with_a_long_image(dice);
    let place = dice.below(list.lengths.len() as u32) as usize;
    list.lengths[place] = 0;
    list
}

/// As many images as would be one if their number were cut to 16 bits.
fn of_many(dice: &mut Dice) -> List {
    List {
        lengths: vec![1; 65_537],
        images: dice.many(65_537).into(),
        frame: vast(&dice.many(500), PAST_32_BITS),
    }
}
