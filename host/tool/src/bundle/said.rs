//! What is said of bundles and their images.

use super::fault;
use crate::ending::{ending, Ending};
use crate::names::shown;
use crate::screen::counted;
use crate::suffix::{for_whom, wrong};
use mullirim_board::sum;
use mullirim_files::bundle::{Refusal, Unwritten, MOST};
use std::path::{Path, PathBuf};

/// The paper's lines, with more behind an image that is or was a DFU file.
pub fn listed(images: &[&[u8]]) -> String {
    let mut lines = vec![format!("images {}", images.len())];
    lines.extend(images.iter().enumerate().map(|(number, image)| {
        let (length, sum) = (image.len(), sum(image));
        format!("{number} {length} {sum:08X}{}", told(image))
    }));
    lines.join("\n")
}

/// A whole DFU file ends in the sum of all before it, which makes its own sum 0;
/// so that of the image inside is told too.
fn told(image: &[u8]) -> String {
    match ending(image) {
        Ending::Plain => String::new(),
        Ending::Whole(parts, length) => format!(
            " a DFU file for {}; its image has {} and the sum {:08X}",
            for_whom(parts),
            counted(length, "byte"),
            sum(&image[..length])
        ),
        Ending::Damaged(refusal) => {
            let wrong = wrong(refusal);
            format!(" ends in a DFU suffix {wrong}; a visit refuses it")
        }
        Ending::Lost(lost) => format!(" {}; a visit refuses it", lost.told()),
    }
}

/// Exactly these members, whatever the images are.
pub fn json(found: &Result<Vec<&[u8]>, Refusal>) -> String {
    match found {
        Ok(images) => {
            let objects: Vec<String> = images.iter().map(|image| object(image)).collect();
            format!("{{\"images\": [{}]}}", objects.join(", "))
        }
        Err(refusal) => format!("{{\"refused\": {}}}", refusal.number()),
    }
}

fn object(image: &[u8]) -> String {
    let (length, sum) = (image.len(), sum(image));
    format!("{{\"length\": {length}, \"sum\": \"{sum:08X}\"}}")
}

pub fn refused(path: &Path, file: &[u8], refusal: Refusal) -> String {
    format!("{}: {}", shown(path), fault::why(file, refusal))
}

/// Why nothing was packed, of these images with these lengths.
pub fn unwritten(why: Unwritten, images: &[PathBuf], lengths: &[u64]) -> String {
    match why {
        Unwritten::Count => {
            let given = match images.len() {
                0 => "none is".to_string(),
                more => format!("{more} are"),
            };
            format!("a bundle has 1 to {MOST} images, and {given} given")
        }
        Unwritten::Empty => {
            let empty = images.iter().zip(lengths).find(|(_, length)| **length == 0);
            let name = empty.map_or("an image".to_string(), |(path, _)| shown(path));
            format!("{name}: the image is empty; in a bundle each has at least 1 byte")
        }
        Unwritten::NoRoom => {
            "the images are too long: a bundle's offsets and lengths have 32 bits".to_string()
        }
        Unwritten::Lengths => "the images' lengths do not add up to their bytes".to_string(),
    }
}

pub fn packed(out: &Path, count: usize, bytes: usize) -> String {
    format!(
        "{}: {}, {}",
        shown(out),
        counted(count, "image"),
        counted(bytes, "byte")
    )
}

/// A line for each file, and one for what may be taken for more of them.
pub fn unpacked(files: &[(PathBuf, &[u8])], others: &[PathBuf]) -> String {
    let line = |(path, image): &(PathBuf, &[u8])| {
        let bytes = counted(image.len(), "byte");
        format!("{}: {bytes}", shown(path))
    };
    let mut lines: Vec<String> = files.iter().map(line).collect();
    if !others.is_empty() {
        let others: Vec<String> = others.iter().map(shown).collect();
        let others = others.join(", ");
        lines.push(format!("there before, and not of this bundle: {others}"));
    }
    lines.join("\n")
}

#[cfg(test)]
mod tests {
    use super::*;

    /// `123456789` as `dfu-suffix` 0.11 made a DFU file of it.
    const DFU: [u8; 25] = *b"123456789\x01\0\x02\0\x03\0\0\x01UFD\x10\xE1\xA5\xED\x2E";

    #[test]
    fn plain_images_have_the_papers_lines() {
        assert_eq!(listed(&[b"123456789"]), "images 1\n0 9 340BC6D9");
        let (long, zero) = ([0xFF; 1_024], [0]);
        let lines = "images 3\n0 1024 47C5000B\n1 1 2DFD1072\n2 9 340BC6D9";
        assert_eq!(listed(&[&long, &zero, b"123456789"]), lines);
    }

    #[test]
    fn a_dfu_file_shows_its_numbers() {
        let line = "0 25 00000000 a DFU file for device 0x0001, product 0x0002, vendor 0x0003; \
                    its image has 9 bytes and the sum 340BC6D9";
        assert_eq!(listed(&[&DFU]), format!("images 1\n{line}"));
    }

    #[test]
    fn what_a_visit_refuses_is_told() {
        for (place, wrong) in [
            (0, "whose sum is not that of the bytes before it"),
            (15, "whose version of DFU is not 0x0100"),
            (20, "whose length is not given as 16 bytes"),
            (18, "whose fixed bytes, 00 01 55 46 44 10, were altered"),
        ] {
            let mut image = DFU;
            image[place] ^= 1;
            let end = format!(" ends in a DFU suffix {wrong}; a visit refuses it");
            assert_eq!(told(&image), end);
        }
    }

    #[test]
    fn json_has_these_members_alone() {
        let one = r#"{"images": [{"length": 9, "sum": "340BC6D9"}]}"#;
        assert_eq!(json(&Ok(vec![b"123456789"])), one);
        let two =
            r#"{"images": [{"length": 25, "sum": "00000000"}, {"length": 1, "sum": "2DFD1072"}]}"#;
        assert_eq!(json(&Ok(vec![&DFU, &[0]])), two);
        assert_eq!(json(&Err(Refusal::Offset)), r#"{"refused": 4}"#);
    }

    #[test]
    fn each_way_to_pack_nothing_has_its_words() {
        let images = ["a", "b\n", "c"].map(PathBuf::from);
        let said = |why| unwritten(why, &images, &[1, 0, 0]);
        let why = "a bundle has 1 to 32 images, and 3 are given";
        assert_eq!(said(Unwritten::Count), why);
        let why = "a bundle has 1 to 32 images, and none is given";
        assert_eq!(unwritten(Unwritten::Count, &[], &[]), why);
        let why = "b\\n: the image is empty; in a bundle each has at least 1 byte";
        assert_eq!(said(Unwritten::Empty), why);
        assert!(said(Unwritten::NoRoom).contains("32 bits"));
        assert!(said(Unwritten::Lengths).contains("do not add up"));
    }
}
