//! The built-in flash and image: a controller's boot area and an application
//! that begins with its tariff as text. In the old one two prices have their
//! digits the wrong way round.

use mullirim_host::second::{BLOCK, ERASED};

pub const BLOCKS: u16 = 64;
const BOOT_SEED: u32 = 1;
const CODE_SEED: u32 = 2;
const IMAGE: usize = 24 * BLOCK as usize;
const LINE: usize = 64;
const SEASONS: [&str; 2] = ["dry", "rains"];
const HOURS: [&str; 4] = ["night", "morning", "midday", "evening"];
const CLASSES: [&str; 8] = [
    "household",
    "shop",
    "clinic",
    "school",
    "mill",
    "water pump",
    "cold store",
    "workshop",
];

/// A price put right, both in tenths of a cent.
struct Correction {
    row: usize,
    old: u32,
    new: u32,
}

/// Far enough apart to lie in different blocks.
const CORRECTIONS: [Correction; 2] = [
    Correction {
        row: 8,
        old: 310,
        new: 130,
    },
    Correction {
        row: 55,
        old: 420,
        new: 240,
    },
];

/// The built-in flash whose application starts at block `first`.
pub fn flash(first: u16) -> Vec<u8> {
    let boot = usize::from(first) * BLOCK as usize;
    let all = usize::from(BLOCKS) * BLOCK as usize;
    let mut flash: Vec<u8> = filler(BOOT_SEED).take(boot).collect();
    flash.extend(image(all - boot, |correction| correction.old));
    flash.resize(all, ERASED);
    flash
}

/// The built-in image as it should be, for an application of `room` bytes.
pub fn corrected(room: usize) -> Vec<u8> {
    image(room, |correction| correction.new)
}

/// What was corrected, as far as it lies in an application of `room` bytes.
pub fn notes(room: usize) -> Vec<String> {
    let inside = |correction: &&Correction| (correction.row + 2) * LINE <= room;
    let note = |correction: &Correction| {
        let (old, new) = (cents(correction.old), cents(correction.new));
        format!("{}{old} becomes {new} cents per kWh", names(correction.row))
    };
    CORRECTIONS.iter().filter(inside).map(note).collect()
}

fn image(room: usize, price: fn(&Correction) -> u32) -> Vec<u8> {
    let mut image = line("TARIFF cents per kWh");
    for row in 0..SEASONS.len() * CLASSES.len() * HOURS.len() {
        let put = CORRECTIONS.iter().find(|correction| correction.row == row);
        let cents = cents(put.map_or_else(|| usual(row), price));
        image.extend(line(&format!("{}{cents:>5}", names(row))));
    }
    image.extend(filler(CODE_SEED).take(IMAGE - image.len()));
    image.truncate(room);
    image
}

fn line(text: &str) -> Vec<u8> {
    format!("{text:<width$}\n", width = LINE - 1).into_bytes()
}

/// Season, class and hours of a row.
fn names(row: usize) -> String {
    let hours = HOURS[row % HOURS.len()];
    let class = CLASSES[row / HOURS.len() % CLASSES.len()];
    let season = SEASONS[row / HOURS.len() / CLASSES.len()];
    format!("{season:<7}{class:<12}{hours:<9}")
}

/// The price of a row without a correction.
fn usual(row: usize) -> u32 {
    150 + 10 * (row as u32 % 4) + 5 * (row as u32 / 4)
}

fn cents(tenths: u32) -> String {
    format!("{}.{}", tenths / 10, tenths % 10)
}

/// Bytes that look like code and are the same at every run.
fn filler(seed: u32) -> impl Iterator<Item = u8> {
    let next = |x: &u32| Some(x.wrapping_mul(1_664_525).wrapping_add(1_013_904_223));
    std::iter::successors(Some(seed), next).map(|x| (x >> 24) as u8)
}

#[cfg(test)]
mod tests {
    use super::*;

    #[test]
    fn the_flash_is_boot_area_image_and_erased_rest() {
        let flash = flash(16);
        assert_eq!(flash.len(), 65_536);
        assert!(flash[16_384..].starts_with(b"TARIFF cents per kWh "));
        assert!(flash[16_384 + IMAGE - 8..16_384 + IMAGE] != [ERASED; 8]);
        assert!(flash[16_384 + IMAGE..].iter().all(|byte| *byte == ERASED));
    }

    #[test]
    fn two_prices_differ_and_nothing_else() {
        let old = &flash(16)[16_384..][..IMAGE];
        let new = corrected(49_152);
        assert_eq!(new.len(), IMAGE);
        let differ: Vec<usize> = (0..IMAGE).filter(|i| old[*i] != new[*i]).collect();
        // Row 8 begins at 576 and row 55 at 3,584; a price stands 28 further.
        assert_eq!(differ, [605, 606, 3_613, 3_614]);
        assert_eq!(old[604..609], *b" 31.0");
        assert_eq!(new[604..609], *b" 13.0");
        assert_eq!(old[3_612..3_617], *b" 42.0");
        assert_eq!(new[3_612..3_617], *b" 24.0");
    }

    #[test]
    fn what_is_noted_was_corrected() {
        let notes = notes(49_152);
        assert_eq!(notes.len(), 2);
        assert!(notes[0].starts_with("dry    clinic      night "));
        assert!(notes[0].ends_with(" 31.0 becomes 13.0 cents per kWh"));
        assert!(notes[1].starts_with("rains  water pump  evening "));
        assert_eq!(super::notes(1_024).len(), 1);
    }

    #[test]
    fn a_short_application_holds_what_fits() {
        assert_eq!(flash(63).len(), 65_536);
        assert_eq!(corrected(1_024), corrected(49_152)[..1_024]);
    }
}
