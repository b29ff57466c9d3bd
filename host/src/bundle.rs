//! A second reader, writer and lister of site bundles, written from the paper
//! of further requests (Wish 12) alone. They are kept as plain as can be,
//! because their only use is to disagree with the proved ones wherever one of
//! the two misreads the paper. Below them: the files and the lists of images to
//! try both with, and the rows of the paper that these must meet.

pub mod cases;
mod counts;
mod damage;
mod entries;
mod files;
mod lists;
mod parts;
mod reading;
pub mod rows;
pub mod seen;
mod vast;
mod writing;

use crate::layout::{BundleFound, Part, Written};
use crate::second::sum;
use std::ops::Range;

/// The most images of a bundle.
pub const MOST: usize = 32;

/// The most bytes that are listed: 64 KiB.
pub const LISTED: usize = 65_536;

/// What doesn't fit into an entry's 32 bits begins here.
const PAST_32_BITS: u128 = 1 << 32;

/// Why a file is refused: the first of these that holds, the entries taken one
/// by one.
pub mod refusal {
    pub const SHORT: u32 = 1;
    pub const COUNT: u32 = 2;
    pub const TABLE: u32 = 3;
    pub const OFFSET: u32 = 4;
    pub const EMPTY: u32 = 5;
    pub const PAST: u32 = 6;
    pub const LEFT_OVER: u32 = 7;
}

/// Why no bundle is written: the first of these that holds. The paper has three
/// of them; the fourth is for lengths that aren't those of the images' bytes.
pub mod unwritten {
    pub const COUNT: u32 = 1;
    pub const EMPTY: u32 = 2;
    pub const NO_ROOM: u32 = 3;
    pub const LENGTHS: u32 = 4;
}

/// The bytes before the images of a bundle of so many.
pub const fn head(count: usize) -> usize {
    2 + 8 * count
}

/// Where each image lies; or the refusal.
pub fn read(file: &[u8]) -> Result<Vec<Range<usize>>, u32> {
    if file.len() < 2 {
        return Err(refusal::SHORT);
    }
    let count = number(&file[..2]) as usize;
    if count == 0 || count > MOST {
        return Err(refusal::COUNT);
    }
    if file.len() < head(count) {
        return Err(refusal::TABLE);
    }
    let mut images = Vec::new();
    let mut end = head(count) as u64;
    for entry in file[2..head(count)].chunks(8) {
        let (offset, length) = (number(&entry[..4]), number(&entry[4..]));
        if offset != end {
            return Err(refusal::OFFSET);
        }
        if length == 0 {
            return Err(refusal::EMPTY);
        }
        end = offset + length;
        if end > file.len() as u64 {
            return Err(refusal::PAST);
        }
        images.push(offset as usize..end as usize);
    }
    if end < file.len() as u64 {
        return Err(refusal::LEFT_OVER);
    }
    Ok(images)
}

/// Where image k lies, counted from 0; nowhere, where there is none.
pub fn image(file: &[u8], k: usize) -> Range<usize> {
    let images = read(file).unwrap_or_default();
    images.get(k).cloned().unwrap_or(0..0)
}

/// The bundle at the buffer's front, and how many bytes that are; or the
/// refusal, and nothing is written. The images come as their lengths, and as
/// their bytes end to end.
pub fn write(lengths: &[u64], images: &[u8], buffer: &mut [u8]) -> Result<usize, u32> {
    let count = lengths.len();
    if count == 0 || count > MOST {
        return Err(unwritten::COUNT);
    }
    if lengths.contains(&0) {
        return Err(unwritten::EMPTY);
    }
    let (entries, end) = entries_of(lengths);
    let numbers = entries.iter().flatten();
    let past = numbers.clone().any(|number| *number >= PAST_32_BITS);
    if past || end > buffer.len() as u128 {
        return Err(unwritten::NO_ROOM);
    }
    if end != (head(count) + images.len()) as u128 {
        return Err(unwritten::LENGTHS);
    }
    let mut all = (count as u16).to_le_bytes().to_vec();
    all.extend(numbers.flat_map(|number| (*number as u32).to_le_bytes()));
    all.extend(images);
    buffer[..all.len()].copy_from_slice(&all);
    Ok(all.len())
}

/// Offset and length of each image, and where the last one ends, in numbers
/// that hold any sum of lengths.
fn entries_of(lengths: &[u64]) -> (Vec<[u128; 2]>, u128) {
    let mut entries = Vec::new();
    let mut end = head(lengths.len()) as u128;
    for length in lengths {
        entries.push([end, u128::from(*length)]);
        end += u128::from(*length);
    }
    (entries, end)
}

/// What the program writes when it has read this.
pub fn list(input: &[u8]) -> String {
    let read = read(input).ok().filter(|_| input.len() <= LISTED);
    let Some(images) = read else {
        return "refused\n".to_string();
    };
    let mut text = format!("images {}\n", images.len());
    for (number, place) in images.into_iter().enumerate() {
        let image = &input[place];
        text += &format!("{number} {} {:08X}\n", image.len(), sum(image));
    }
    text
}

fn number(bytes: &[u8]) -> u64 {
    let from_last = bytes.iter().rev();
    from_last.fold(0, |number, byte| number << 8 | u64::from(*byte))
}

/// As the call for C must hand it back.
impl From<&Result<Vec<Range<usize>>, u32>> for BundleFound {
    fn from(read: &Result<Vec<Range<usize>>, u32>) -> BundleFound {
        BundleFound {
            refused: read.as_ref().err().copied().unwrap_or(0),
            count: read.as_ref().map_or(0, Vec::len),
        }
    }
}

/// The same for an image.
impl From<Range<usize>> for Part {
    fn from(place: Range<usize>) -> Part {
        Part {
            from: place.start,
            length: place.len(),
        }
    }
}

/// The same for writing.
impl From<Result<usize, u32>> for Written {
    fn from(written: Result<usize, u32>) -> Written {
        Written {
            refused: written.err().unwrap_or(0),
            count: written.unwrap_or(0),
        }
    }
}

#[cfg(test)]
mod tests {
    use super::*;

    /// One image, 123456789, as the paper says it must lie.
    const ONE: &[u8] = b"\x01\0\x0A\0\0\0\x09\0\0\x00123456789";
    /// Three of them: 1, 23, 456.
    const THREE: &[u8] =
        b"\x03\0\x1A\0\0\0\x01\0\0\0\x1B\0\0\0\x02\0\0\0\x1D\0\0\0\x03\0\0\x00123456";

    /// A file with one byte changed.
    fn changed(file: &[u8], place: usize, byte: u8) -> Vec<u8> {
        let mut file = file.to_vec();
        file[place] = byte;
        file
    }

    #[test]
    fn a_bundle_is_read() {
        assert_eq!(read(THREE), Ok(vec![26..27, 27..29, 29..32]));
    }

    #[test]
    fn an_image_is_found() {
        assert_eq!(&ONE[image(ONE, 0)], b"123456789");
        assert_eq!(&THREE[image(THREE, 0)], b"1");
        assert_eq!(&THREE[image(THREE, 2)], b"456");
        assert_eq!(image(THREE, 3), 0..0);
        assert_eq!(image(THREE, usize::MAX), 0..0);
        assert_eq!(image(&THREE[..31], 0), 0..0);
    }

    #[test]
    fn a_cut_file_is_refused() {
        let refused = [&[1; 2][..], &[3; 24], &[6; 6]].concat();
        for (length, refused) in refused.into_iter().enumerate() {
            assert_eq!(read(&THREE[..length]), Err(refused));
        }
    }

    #[test]
    fn a_wrong_count_is_refused() {
        for (place, byte) in [(0, 0), (0, 33), (0, 255), (1, 1), (1, 32)] {
            assert_eq!(read(&changed(ONE, place, byte)), Err(2));
        }
        assert_eq!(read(&changed(ONE, 0, 32)), Err(3));
        assert_eq!(read(&[0, 0]), Err(2));
        assert_eq!(read(&[33, 0]), Err(2));
    }

    #[test]
    fn a_wrong_entry_is_refused() {
        for place in [2, 10, 18] {
            for byte in [THREE[place] - 1, THREE[place] + 1] {
                assert_eq!(read(&changed(THREE, place, byte)), Err(4));
            }
            assert_eq!(read(&changed(THREE, place + 3, 1)), Err(4));
            assert_eq!(read(&changed(THREE, place + 4, 0)), Err(5));
            assert_eq!(read(&changed(THREE, place + 7, 1)), Err(6));
        }
        assert_eq!(read(&changed(THREE, 22, 2)), Err(7));
        assert_eq!(read(&changed(THREE, 22, 4)), Err(6));
        assert_eq!(read(&[THREE, b"7"].concat()), Err(7));
    }

    /// An end that is past 32 bits is not before the file's.
    #[test]
    fn no_end_wraps() {
        let wraps = b"\x02\0\x12\0\0\0\xF8\xFF\xFF\xFF\x0A\0\0\0\x09\0\0\0!";
        assert_eq!(read(wraps), Err(6));
    }

    #[test]
    fn entries_are_taken_one_by_one() {
        let empty = changed(THREE, 22, 0);
        assert_eq!(read(&changed(&empty, 11, 1)), Err(4));
        let past = changed(THREE, 7, 1);
        assert_eq!(read(&changed(&past, 10, 0)), Err(6));
        let offset = changed(THREE, 2, 0);
        assert_eq!(read(&changed(&offset, 6, 0)), Err(4));
    }

    fn written(lengths: &[u64], images: &[u8], room: usize) -> (Result<usize, u32>, Vec<u8>) {
        let mut buffer = vec![0xEE; room];
        (write(lengths, images, &mut buffer), buffer)
    }

    #[test]
    fn what_lies_behind_a_bundle_stays() {
        assert_eq!(written(&[9], b"123456789", 19), (Ok(19), ONE.to_vec()));
        let (count, buffer) = written(&[1, 2, 3], b"123456", 35);
        assert_eq!(count, Ok(32));
        assert_eq!(buffer, [THREE, &[0xEE; 3]].concat());
    }

    #[test]
    fn a_refusal_writes_nothing() {
        let big = 1 << 32;
        let cases: [(&[u64], usize, u32); 12] = [
            (&[], 9, 1),
            (&[0; 33], 9, 1),
            (&[1; 33], 999, 1),
            (&[9, 0], 0, 2),
            (&[0, big], 99, 2),
            (&[9], 18, 3),
            (&[big], 99, 3),
            (&[u64::MAX, 1], 99, 3),
            (&[u64::MAX, 10], 99, 3),
            (&[8], 18, 4),
            (&[9, 1], 99, 4),
            (&[4, 6], 99, 4),
        ];
        for (lengths, room, refused) in cases {
            let nothing = (Err(refused), vec![0xEE; room]);
            assert_eq!(written(lengths, b"123456789", room), nothing);
        }
    }

    #[test]
    fn a_bundle_is_listed() {
        assert_eq!(list(ONE), "images 1\n0 9 340BC6D9\n");
        let zeros = b"\x01\0\x0A\0\0\0\x04\0\0\0\xFF\xFF\xFF\xFF";
        assert_eq!(list(zeros), "images 1\n0 4 00000000\n");
        assert_eq!(list(b""), "refused\n");
        assert_eq!(list(&ONE[..18]), "refused\n");
    }

    /// One image in a file of so many bytes.
    fn filled(length: usize) -> Vec<u8> {
        let mut buffer = vec![0; length];
        let images = vec![0; length - 10];
        assert_eq!(
            write(&[length as u64 - 10], &images, &mut buffer),
            Ok(length)
        );
        buffer
    }

    #[test]
    fn a_longer_input_is_refused() {
        assert!(list(&filled(LISTED)).starts_with("images 1\n0 65526 "));
        assert!(read(&filled(LISTED + 1)).is_ok());
        assert_eq!(list(&filled(LISTED + 1)), "refused\n");
    }
}
