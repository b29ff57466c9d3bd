//! What can be wrong with a bundle, one field at a time. A damage may leave it
//! right, and several may come together.

use super::files::Bundle;
use crate::dice::Dice;

pub fn damage(dice: &mut Dice, bundle: &mut Bundle) {
    let damage = match dice.below(16) {
        0 => count,
        1..=4 => offset,
        5..=8 => length,
        9..=10 => length_with_followers,
        11 => sum_that_wraps,
        12 => offsets_from_one_on,
        13 => swapped,
        14 => left_over,
        _ => missing,
    };
    if !bundle.entries.is_empty() {
        damage(dice, bundle);
    }
}

fn count(dice: &mut Dice, bundle: &mut Bundle) {
    let right = bundle.count;
    let wrong = [
        0,
        33,
        right.wrapping_add(1),
        right.wrapping_sub(1),
        right.swap_bytes(),
        right | 0x0100,
        right ^ 1 << dice.below(16),
        0xFFFF,
    ];
    bundle.count = wrong[dice.below(8) as usize];
}

/// The place of an entry, the first and the last more often than others.
fn some_place(dice: &mut Dice, bundle: &Bundle) -> usize {
    let count = bundle.entries.len();
    match dice.below(4) {
        0 => 0,
        1 => count - 1,
        _ => dice.below(count as u32) as usize,
    }
}

/// An offset. The end may stay what it was, so that nothing else is wrong, or
/// the image may be empty as well.
fn offset(dice: &mut Dice, bundle: &mut Bundle) {
    let place = some_place(dice, bundle);
    let wrong = wrong_offset(dice, bundle, place);
    let entry = &mut bundle.entries[place];
    let end = entry.offset.wrapping_add(entry.length);
    entry.offset = wrong;
    match dice.below(8) {
        0..=3 => entry.length = end.wrapping_sub(wrong),
        4 => entry.length = 0,
        _ => {}
    }
}

fn wrong_offset(dice: &mut Dice, bundle: &Bundle, place: usize) -> u32 {
    let right = bundle.entries[place].offset;
    let before = &bundle.entries[place.saturating_sub(1)];
    match dice.below(18) {
        0..=2 => right.wrapping_add(1),
        3..=5 => right.wrapping_sub(1),
        6 => right.wrapping_add(0x100),
        7 => right.wrapping_add(0x1_0000),
        8 => right.wrapping_add(0x100_0000),
        9 => right.swap_bytes(),
        10 => right ^ 1 << dice.below(32),
        11 => right.wrapping_sub(bundle.head()),
        12 => bundle.length() + dice.below(3),
        13 => before.offset,
        14 => right.wrapping_add(bundle.entries[place].length),
        15 => 0,
        16 => u32::MAX,
        _ => any(dice),
    }
}

fn length(dice: &mut Dice, bundle: &mut Bundle) {
    let place = some_place(dice, bundle);
    bundle.entries[place].length = wrong_length(dice, bundle, place);
}

fn wrong_length(dice: &mut Dice, bundle: &Bundle, place: usize) -> u32 {
    let (entry, file) = (&bundle.entries[place], bundle.length());
    let up_to = |end: u32| end.wrapping_sub(entry.offset);
    match dice.below(20) {
        0..=2 => 0,
        3..=4 => entry.length.wrapping_add(1),
        5..=6 => entry.length.wrapping_sub(1),
        7 => up_to(file),
        8 => up_to(file.wrapping_add(1)),
        9 => up_to(0),
        10 => up_to(1),
        11 => up_to(entry.offset.wrapping_sub(1)),
        12 => up_to(dice.below(file + 1)),
        13 => entry.length.wrapping_add(0x1_0000),
        14 => entry.length.swap_bytes(),
        15 => entry.length ^ 1 << dice.below(32),
        16 => 0x8000_0000,
        17 => u32::MAX,
        _ => any(dice),
    }
}

/// A length, and all behind it lies where it says.
fn length_with_followers(dice: &mut Dice, bundle: &mut Bundle) {
    let place = some_place(dice, bundle);
    bundle.entries[place].length = wrong_length(dice, bundle, place);
    chain(bundle, place);
}

/// An end that is past 32 bits, and all behind it lies where it would be if the
/// number began from 0 again, up to the file's end.
fn sum_that_wraps(dice: &mut Dice, bundle: &mut Bundle) {
    let place = some_place(dice, bundle);
    let entry = &mut bundle.entries[place];
    let end = dice.below(entry.offset.max(1));
    entry.length = end.wrapping_sub(entry.offset);
    chain(bundle, place);
    let file = bundle.length();
    if let Some(last) = bundle.entries[place + 1..].last_mut() {
        last.length = file.wrapping_sub(last.offset);
    }
}

/// Each entry behind this one gets the offset at which the one before it ends.
fn chain(bundle: &mut Bundle, place: usize) {
    let mut end = bundle.entries[place].offset;
    for entry in &mut bundle.entries[place..] {
        entry.offset = end;
        end = end.wrapping_add(entry.length);
    }
}

/// From one entry on all offsets are one more or one less.
fn offsets_from_one_on(dice: &mut Dice, bundle: &mut Bundle) {
    let place = some_place(dice, bundle);
    let by = [1, u32::MAX][dice.below(2) as usize];
    for entry in &mut bundle.entries[place..] {
        entry.offset = entry.offset.wrapping_add(by);
    }
}

/// Two entries change places, or offset and length of one.
fn swapped(dice: &mut Dice, bundle: &mut Bundle) {
    let (one, other) = (some_place(dice, bundle), some_place(dice, bundle));
    if one != other {
        return bundle.entries.swap(one, other);
    }
    let entry = &mut bundle.entries[one];
    (entry.offset, entry.length) = (entry.length, entry.offset);
}

fn left_over(dice: &mut Dice, bundle: &mut Bundle) {
    let more = match dice.below(60) {
        0..=1 => 65_536,
        2..=8 => 255 + dice.below(3),
        9..=30 => 1,
        31..=40 => 2,
        41..=45 => 8,
        _ => 1 + dice.below(64),
    };
    bundle.rest.extend(dice.many(more));
}

fn missing(dice: &mut Dice, bundle: &mut Bundle) {
    let there = bundle.rest.len();
    let gone = match dice.below(4) {
        0..=1 => 1,
        2 => there,
        _ => dice.below(there as u32 + 1) as usize,
    };
    bundle.rest.truncate(there.saturating_sub(gone));
}

/// A file that ends at a border, beside one, or anywhere.
pub fn shortened(dice: &mut Dice, bundle: &Bundle) -> Vec<u8> {
    let mut all = bundle.bytes();
    let place = some_place(dice, bundle);
    let border = match dice.below(10) {
        0 => dice.below(4),
        1..=2 => 2 + 8 * place as u32,
        3 => bundle.head(),
        4..=6 => bundle.head() - dice.below(10),
        7..=8 => bundle.entries[place].offset,
        _ => dice.below(all.len() as u32),
    };
    let beside = [0, 1, u32::MAX][dice.below(3) as usize];
    all.truncate(border.wrapping_add(beside) as usize);
    all
}

fn any(dice: &mut Dice) -> u32 {
    dice.turn() as u32
}

#[cfg(test)]
mod tests {
    use super::*;

    const HEAD: u32 = 26;

    fn three() -> Bundle {
        Bundle::right(&mut Dice::new(1), &[4, 5, 6])
    }

    fn numbers(bundle: &Bundle) -> Vec<(u32, u32)> {
        let entries = bundle.entries.iter();
        entries.map(|entry| (entry.offset, entry.length)).collect()
    }

    #[test]
    fn followers_lie_end_to_end() {
        let mut bundle = three();
        bundle.entries[1].length = 9;
        chain(&mut bundle, 1);
        assert_eq!(numbers(&bundle), [(HEAD, 4), (HEAD + 4, 9), (HEAD + 13, 6)]);
    }

    /// In numbers of 32 bits nothing would be wrong with it.
    #[test]
    fn a_sum_wraps_up_to_the_end_of_the_file() {
        for seed in 0..50 {
            let mut bundle = three();
            sum_that_wraps(&mut Dice::new(seed), &mut bundle);
            let mut end = HEAD;
            for (offset, length) in numbers(&bundle) {
                assert_eq!(offset, end);
                end = end.wrapping_add(length);
            }
            let lengths = bundle.entries.iter().map(|entry| u64::from(entry.length));
            assert!(lengths.sum::<u64>() + u64::from(HEAD) >= 1 << 32);
        }
    }

    #[test]
    fn every_field_is_damaged() {
        let mut dice = Dice::new(3);
        let mut met = [false; 8];
        for _ in 0..1_000 {
            let mut bundle = three();
            damage(&mut dice, &mut bundle);
            let right = three();
            let fields = numbers(&bundle).into_iter().zip(numbers(&right));
            for (place, (left, was)) in fields.enumerate() {
                met[2 * place] |= left.0 != was.0;
                met[2 * place + 1] |= left.1 != was.1;
            }
            met[6] |= bundle.count != 3;
            met[7] |= bundle.rest.len() != right.rest.len();
        }
        assert_eq!(met, [true; 8]);
    }
}
