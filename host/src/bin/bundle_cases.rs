//! Writes the inputs that the program `bundle_list` is tried with, each to
//! FOLDER/NAME.in: `bundle_cases FOLDER`. What it must make of them is stored in
//! `tests/listed`. Since it says the same of every refused file, one that must
//! be refused would pass if only that rule were left out.

use mullirim_host::bundle::LISTED;
use mullirim_host::dice::Dice;
use std::path::Path;
use std::process::ExitCode;
use std::{env, fs, io};

type Case = fn() -> Vec<u8>;

const CASES: [(&str, Case); 23] = [
    ("example", || bundle(&[b"123456789"])),
    ("thirty_two", || with_lengths(&thirty_two())),
    ("digits", || with_lengths(&DIGITS)),
    ("sum_of_zeros", || bundle(&[b"a", &[0xFF; 4]])),
    ("as_much_as_can_be", || of_bytes(1, LISTED)),
    ("as_much_as_can_be_in_32", || of_bytes(32, LISTED)),
    ("nothing", Vec::new),
    ("one_byte", || vec![1]),
    ("count_of_0", || laid(&[], b"")),
    ("count_of_33", || with_lengths(&[1; 33])),
    ("count_of_257", count_of_257),
    ("table_a_byte_short", || laid(&[(10, 1)], b"")[..9].to_vec()),
    ("first_offset_one_more", || {
        laid(&[(27, 1), (28, 2), (30, 3)], b"1234567")
    }),
    ("offset_one_less", || {
        laid(&[(26, 2), (27, 3), (30, 3)], b"1234567")
    }),
    ("last_offset_one_more", || {
        laid(&[(26, 2), (28, 2), (31, 2)], b"1234567")
    }),
    ("image_of_no_bytes", || {
        laid(&[(26, 2), (28, 0), (28, 5)], b"1234567")
    }),
    ("last_image_of_no_bytes", || {
        laid(&[(18, 7), (25, 0)], b"1234567")
    }),
    ("last_byte_missing", || laid(&[(18, 2), (20, 5)], b"123456")),
    ("end_that_wraps", || {
        laid(&[(18, 0xFFFF_FFF8), (10, 9)], b"1")
    }),
    ("byte_left_over", || laid(&[(18, 2), (20, 4)], b"1234567")),
    ("byte_behind_as_much_as_can_be", || {
        [&of_bytes(1, LISTED)[..], b"7"].concat()
    }),
    ("bundle_a_byte_too_long", || of_bytes(1, LISTED + 1)),
    ("bundle_far_too_long", || of_bytes(32, 3 * LISTED)),
];

/// Lengths around each further digit.
const DIGITS: [usize; 14] = [
    1, 9, 10, 11, 99, 100, 101, 999, 1_000, 1_001, 9_999, 10_000, 10_001, 20_109,
];

fn main() -> ExitCode {
    let words: Vec<String> = env::args().skip(1).collect();
    let [folder] = &words[..] else {
        eprintln!("bundle_cases FOLDER");
        return ExitCode::from(2);
    };
    match write_all(Path::new(folder)) {
        Ok(()) => ExitCode::SUCCESS,
        Err(error) => {
            eprintln!("bundle_cases: {folder}: {error}");
            ExitCode::FAILURE
        }
    }
}

fn write_all(folder: &Path) -> io::Result<()> {
    fs::create_dir_all(folder)?;
    for (name, case) in CASES {
        fs::write(folder.join(name).with_extension("in"), case())?;
    }
    Ok(())
}

/// A count, these entries and what follows them.
fn laid(entries: &[(u32, u32)], images: &[u8]) -> Vec<u8> {
    let mut file = (entries.len() as u16).to_le_bytes().to_vec();
    for (offset, length) in entries {
        file.extend(offset.to_le_bytes());
        file.extend(length.to_le_bytes());
    }
    file.extend(images);
    file
}

fn bundle(images: &[&[u8]]) -> Vec<u8> {
    let mut end = 2 + 8 * images.len() as u32;
    let mut entries = Vec::new();
    for image in images {
        entries.push((end, image.len() as u32));
        end += image.len() as u32;
    }
    laid(&entries, &images.concat())
}

/// Images of these lengths, and of any bytes.
fn with_lengths(lengths: &[usize]) -> Vec<u8> {
    let mut dice = Dice::new(12);
    let images = lengths.iter().map(|length| dice.bytes(*length as u32));
    let images: Vec<Vec<u8>> = images.collect();
    let images: Vec<&[u8]> = images.iter().map(Vec::as_slice).collect();
    bundle(&images)
}

fn thirty_two() -> Vec<usize> {
    (0..32).map(|k| 1 + k * (k + 1) / 8).collect()
}

/// So many images in a file of so many bytes.
fn of_bytes(count: usize, bytes: usize) -> Vec<u8> {
    let images = bytes - 2 - 8 * count;
    let mut lengths = vec![images / count; count];
    lengths[0] += images % count;
    with_lengths(&lengths)
}

/// One image, by the low byte of the count.
fn count_of_257() -> Vec<u8> {
    let mut file = bundle(&[b"1234"]);
    file[1] = 1;
    file
}

#[cfg(test)]
mod tests {
    use super::*;
    use mullirim_host::bundle::read;

    /// How many images, or which refusal, in the cases' order.
    const READ: [Result<usize, u32>; 23] = [
        Ok(1),
        Ok(32),
        Ok(14),
        Ok(2),
        Ok(1),
        Ok(32),
        Err(1),
        Err(1),
        Err(2),
        Err(2),
        Err(2),
        Err(3),
        Err(4),
        Err(4),
        Err(4),
        Err(5),
        Err(5),
        Err(6),
        Err(6),
        Err(7),
        Err(7),
        Ok(1),
        Ok(32),
    ];

    #[test]
    fn each_case_is_what_it_is_there_for() {
        for ((name, case), awaited) in CASES.into_iter().zip(READ) {
            let count = read(&case()).map(|images| images.len());
            assert_eq!((name, count), (name, awaited));
        }
    }

    #[test]
    fn the_long_ones_end_at_the_border() {
        let lengths = [4, 5, 20, 21, 22].map(|place| CASES[place].1().len());
        assert_eq!(lengths, [65_536, 65_536, 65_537, 65_537, 196_608]);
    }
}
