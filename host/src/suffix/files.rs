//! The files: right ones, and wrong ones of every kind that the paper refuses.
//! They are laid here byte by byte, by none of those that are tried with them.

use crate::dice::Dice;
use crate::layout::Parts;
use crate::second::sum;

/// A suffix but for its sum.
const HEAD: usize = 12;

/// The rules that a head or a sum can break, by their bits.
const SIGNATURE: u32 = 1;
const LENGTH: u32 = 2;
const VERSION: u32 = 4;
const SUM: u32 = 8;

/// A file, and the right one that a small change made it of.
pub fn some_file(dice: &mut Dice) -> (Vec<u8>, Option<Vec<u8>>) {
    match dice.below(20) {
        0..=4 => (right(dice), None),
        5..=6 => (two_suffixes(dice), None),
        7..=10 => changed(dice),
        11..=14 => (wrong(dice), None),
        15..=17 => (short(dice), None),
        _ => (image(dice), None),
    }
}

pub fn parts(dice: &mut Dice) -> Parts {
    Parts {
        device: number(dice),
        product: number(dice),
        vendor: number(dice),
    }
}

fn number(dice: &mut Dice) -> u16 {
    let border = [0x0000, 0x0001, 0x00FF, 0xFF00, 0xFFFF];
    match border.get(dice.below(10) as usize) {
        Some(number) => *number,
        None => dice.below(65_536) as u16,
    }
}

/// Bytes of some length: around a border, as they are and with a suffix behind
/// them, or any.
fn image(dice: &mut Dice) -> Vec<u8> {
    let near = |dice: &mut Dice, border: u32| border - 16 * dice.below(2) - 1 + dice.below(3);
    let length = match dice.below(200) {
        0 => match dice.below(7) {
            6 => dice.below(70_001),
            _ => near(dice, 65_536),
        },
        1..=15 => near(dice, 1_024),
        16..=30 => near(dice, 256),
        31..=50 => dice.below(34),
        _ => dice.below(300),
    };
    dice.bytes(length)
}

fn right(dice: &mut Dice) -> Vec<u8> {
    let image = image(dice);
    suffixed(dice, image)
}

fn two_suffixes(dice: &mut Dice) -> Vec<u8> {
    let file = right(dice);
    suffixed(dice, file)
}

fn suffixed(dice: &mut Dice, mut file: Vec<u8>) -> Vec<u8> {
    file.extend(head(dice, 0));
    file.extend(sum(&file).to_le_bytes());
    file
}

/// One that breaks some rules, and no others.
fn wrong(dice: &mut Dice) -> Vec<u8> {
    let rules = 1 + dice.below(15);
    let mut file = image(dice);
    file.extend(head(dice, rules));
    summed(dice, file, rules)
}

/// The last bytes of a suffix that breaks some other rules, or none.
fn short(dice: &mut Dice) -> Vec<u8> {
    let rules = dice.below(16);
    let length = dice.below(16) as usize;
    let head = head(dice, rules);
    let file = head[HEAD - length.saturating_sub(4)..].to_vec();
    let mut file = summed(dice, file, rules);
    file.truncate(length);
    file
}

fn head(dice: &mut Dice, rules: u32) -> [u8; HEAD] {
    let parts = parts(dice);
    let mut head = [
        0, 0, 0, 0, 0, 0, //
        0x00, 0x01, 0x55, 0x46, 0x44, 0x10,
    ];
    for (at, number) in [(0, parts.device), (2, parts.product), (4, parts.vendor)] {
        head[at..at + 2].copy_from_slice(&number.to_le_bytes());
    }
    if rules & SIGNATURE != 0 {
        break_signature(dice, &mut head[8..11]);
    }
    if rules & LENGTH != 0 {
        break_length(dice, &mut head[11]);
    }
    if rules & VERSION != 0 {
        break_version(dice, &mut head[6..8]);
    }
    head
}

fn break_signature(dice: &mut Dice, signature: &mut [u8]) {
    match dice.below(4) {
        0 => signature.reverse(),
        1 => signature.copy_from_slice(&dice.bytes(3)),
        _ => another_byte(dice, signature),
    }
}

fn break_length(dice: &mut Dice, length: &mut u8) {
    match [0x00, 0x0F, 0x11, 0xFF].get(dice.below(6) as usize) {
        Some(wrong) => *length = *wrong,
        None => *length ^= 1 + dice.below(255) as u8,
    }
}

fn break_version(dice: &mut Dice, version: &mut [u8]) {
    let wrong: [u16; 6] = [0x0000, 0x0001, 0x0101, 0x0110, 0x011A, 0x0200];
    match wrong.get(dice.below(8) as usize) {
        Some(wrong) => version.copy_from_slice(&wrong.to_le_bytes()),
        None => another_byte(dice, version),
    }
}

fn summed(dice: &mut Dice, mut file: Vec<u8>, rules: u32) -> Vec<u8> {
    let right = sum(&file);
    let mut last = right.to_le_bytes();
    if rules & SUM != 0 {
        match dice.below(6) {
            0 => last = (!right).to_le_bytes(),
            1 => last.reverse(),
            2 => last = sum(&file[..file.len().saturating_sub(HEAD)]).to_le_bytes(),
            3 => last.copy_from_slice(&dice.bytes(4)),
            _ => another_byte(dice, &mut last),
        }
    }
    file.extend(last);
    file
}

fn another_byte(dice: &mut Dice, bytes: &mut [u8]) {
    let place = dice.below(bytes.len() as u32) as usize;
    bytes[place] ^= 1 + dice.below(255) as u8;
}

/// A right file with a byte changed, some more behind it, or one cut off.
fn changed(dice: &mut Dice) -> (Vec<u8>, Option<Vec<u8>>) {
    let before = right(dice);
    let mut file = before.clone();
    let image = file.len() - 16;
    match dice.below(16) {
        0 => file.push(dice.below(256) as u8),
        1 => file.extend(dice.bytes(16)),
        2 => _ = file.pop(),
        3 => _ = file.remove(0),
        4 if image > 0 => another_byte(dice, &mut file[..1]),
        5 if image > 0 => another_byte(dice, &mut file[image - 1..image]),
        6 if image > 0 => another_byte(dice, &mut file[..image]),
        _ => another_byte(dice, &mut file[image..]),
    }
    (file, Some(before))
}

#[cfg(test)]
mod tests {
    use super::*;

    /// Its sum is Python's zlib.crc32 of what stands before it, complemented.
    #[test]
    fn a_right_sum_is_laid() {
        let file = [0xFF, 0xFF, 0, 0, 1, 0, 0, 1, 0x55, 0x46, 0x44, 0x10];
        let laid = summed(&mut Dice::new(1), file.to_vec(), SUM - 1);
        assert_eq!(laid[..12], file);
        assert_eq!(laid[12..], [0xF6, 0x66, 0xA4, 0x58]);
    }

    #[test]
    fn a_head_breaks_what_it_is_told_to() {
        let mut dice = Dice::new(2);
        for rules in 0..8 {
            for _ in 0..100 {
                let head = head(&mut dice, rules);
                assert_eq!(&head[8..11] != b"UFD", rules & SIGNATURE != 0);
                assert_eq!(head[11] != 16, rules & LENGTH != 0);
                assert_eq!(head[6..8] != [0, 1], rules & VERSION != 0);
            }
        }
    }
}
