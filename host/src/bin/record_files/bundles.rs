//! The files and the lists of images for bundles.

use crate::{all_met, numbers};
use mullirim_host::bundle::cases::Case;
use mullirim_host::bundle::rows::Rows;
use mullirim_host::bundle::seen::Seen;
use mullirim_host::bundle::{image, read, write};
use mullirim_host::layout::{BundleFound, Part, Written};
use mullirim_host::lent::Lent;
use std::io::{self, Write};
use std::ops::Range;

pub fn record(seed: u64, files: u64, out: &mut impl Write) -> io::Result<()> {
    let mut rows = Rows::unmet();
    for number in 0..files {
        out.write_all(&case_bytes(&Case::new(seed, number), &mut rows))?;
    }
    all_met(&rows)
}

/// What the calls are lent, and what must come of them.
fn case_bytes(case: &Case, rows: &mut Rows) -> Vec<u8> {
    let read = BundleFound::from(&read(&case.file));
    let asked = case.asked.iter();
    let parts: Vec<Part> = asked.map(|k| image(&case.file, *k).into()).collect();
    let mut frame = case.frame.clone();
    let written = write(&case.lengths, &case.images, &mut frame[case.lent()]).into();
    rows.see(&Seen::new(case, read, &parts, written));
    let pieces = [
        b"B".to_vec(),
        held(&case.file, 0..case.file.len()),
        numbers([read.refused as usize, read.count]),
        images_bytes(&case.asked, &parts),
        list_bytes(case),
        written_bytes(written),
        held(&frame, case.lent()),
    ];
    pieces.concat()
}

fn images_bytes(asked: &[usize], parts: &[Part]) -> Vec<u8> {
    let mut bytes = numbers([asked.len()]);
    for (k, part) in asked.iter().zip(parts) {
        bytes.extend(longs([*k, part.from, part.length]));
    }
    bytes
}

fn list_bytes(case: &Case) -> Vec<u8> {
    let mut bytes = numbers([case.lengths.len()]);
    bytes.extend(case.lengths.iter().flat_map(|length| length.to_le_bytes()));
    bytes.extend(held(&case.images, 0..case.images.len()));
    bytes.extend(held(&case.frame, case.lent()));
    bytes
}

fn written_bytes(written: Written) -> Vec<u8> {
    numbers([written.refused as usize, written.count])
}

/// What is lent: its length, how many bytes are told, and these. All others are
/// zeros.
fn held(lent: &Lent, part: Range<usize>) -> Vec<u8> {
    let length = part.len();
    let told = match lent.is_vast() {
        true => without_last_zeros(lent.told()),
        false => &lent[part],
    };
    [&longs([length])[..], &numbers([told.len()]), told].concat()
}

fn without_last_zeros(bytes: &[u8]) -> &[u8] {
    let last = bytes.iter().rposition(|byte| *byte > 0);
    &bytes[..last.map_or(0, |last| last + 1)]
}

/// Each in 64 bits.
fn longs<const N: usize>(numbers: [usize; N]) -> Vec<u8> {
    let bytes = |number| (number as u64).to_le_bytes();
    numbers.map(bytes).concat()
}

#[cfg(test)]
mod tests {
    use super::*;
    use mullirim_host::lent::Vast;

    /// The one image 7, and the image 8 with a byte of room more than it needs.
    fn case() -> Case {
        Case {
            file: b"\x01\0\x0A\0\0\0\x01\0\0\0\x07".to_vec().into(),
            asked: vec![0, usize::MAX],
            lengths: vec![1],
            images: vec![8].into(),
            frame: vec![0xEE; 12 + 32].into(),
        }
    }

    #[test]
    fn a_case_is_laid_with_all_that_comes_of_it() {
        let bytes = case_bytes(&case(), &mut Rows::unmet());
        let file = b"B\x0B\0\0\0\0\0\0\0\x0B\0\0\0\x01\0\x0A\0\0\0\x01\0\0\0\x07";
        let found = b"\0\0\0\0\x01\0\0\0\x02\0\0\0";
        let first = b"\0\0\0\0\0\0\0\0\x0A\0\0\0\0\0\0\0\x01\0\0\0\0\0\0\0";
        let no_other = [[0xFF; 8], [0; 8], [0; 8]].concat();
        let list = b"\x01\0\0\0\x01\0\0\0\0\0\0\0\x01\0\0\0\0\0\0\0\x01\0\0\0\x08";
        let buffer = b"\x0C\0\0\0\0\0\0\0\x0C\0\0\0";
        let lent = [
            &file[..],
            found,
            first,
            &no_other,
            list,
            buffer,
            &[0xEE; 12],
        ]
        .concat();
        let written = b"\0\0\0\0\x0B\0\0\0";
        let bundle = b"\x01\0\x0A\0\0\0\x01\0\0\0\x08\xEE";
        assert_eq!(bytes, [&lent[..], written, buffer, bundle].concat());
    }

    #[test]
    fn of_a_vast_loan_only_the_front_is_told() {
        let vast = Lent::Vast(Vast::new(&[0, 7, 0], 1 << 32));
        let told = b"\0\0\0\0\x01\0\0\0\x02\0\0\0\0\x07";
        assert_eq!(held(&vast, 0..vast.len()), told);
    }

    #[test]
    fn a_recording_without_all_rows_has_no_end() {
        let mut out = Vec::new();
        let missed = record(3, 2, &mut out).unwrap_err();
        assert!(missed.to_string().starts_with("never met: "));
        let cases = [0, 1].map(|number| case_bytes(&Case::new(3, number), &mut Rows::unmet()));
        assert_eq!(out, cases.concat());
    }
}
