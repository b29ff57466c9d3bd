//! The files for the suffix.

use crate::{all_met, numbers};
use mullirim_host::layout::{Parts, SuffixFound, Written};
use mullirim_host::suffix::cases::Case;
use mullirim_host::suffix::rows::Rows;
use mullirim_host::suffix::seen::Seen;
use mullirim_host::suffix::{read, write};
use std::io::{self, Write};

pub fn record(seed: u64, files: u64, out: &mut impl Write) -> io::Result<()> {
    let mut rows = Rows::unmet();
    for number in 0..files {
        out.write_all(&case_bytes(&Case::new(seed, number), &mut rows))?;
    }
    all_met(&rows)
}

/// What the calls are lent, and what must come of them.
fn case_bytes(case: &Case, rows: &mut Rows) -> Vec<u8> {
    let Case { file, parts, .. } = case;
    let mut frame = case.frame.clone();
    let buffer = &mut frame[case.lent()];
    let read = SuffixFound::from(read(file));
    let mut bytes = vec![b'F'];
    bytes.extend(numbers([file.len()]));
    bytes.extend(file);
    bytes.extend(parts_bytes(*parts));
    bytes.extend(numbers([buffer.len()]));
    bytes.extend(&*buffer);
    bytes.extend(parts_bytes(read.parts));
    bytes.extend(numbers([read.refused.into(), read.length]));
    let written = Written::from(write(file, *parts, buffer));
    bytes.extend(numbers([written.refused as usize, written.count]));
    bytes.extend(&*buffer);
    rows.see(&Seen::new(case, read, written));
    bytes
}

fn parts_bytes(parts: Parts) -> Vec<u8> {
    numbers([parts.device, parts.product, parts.vendor].map(usize::from))
}

#[cfg(test)]
mod tests {
    use super::*;

    const PARTS: Parts = Parts {
        device: 0xFFFF,
        product: 0,
        vendor: 1,
    };
    /// As `dfu-suffix -a` writes it behind nothing.
    const SUFFIX: [u8; 16] = *b"\xFF\xFF\0\0\x01\0\0\x01UFD\x10\xF6\x66\xA4\x58";

    fn case(file: &[u8], room: usize) -> Case {
        Case {
            file: file.to_vec(),
            before: None,
            parts: PARTS,
            frame: vec![0xEE; room + 32],
        }
    }

    #[test]
    fn a_write_is_laid_with_the_whole_buffer() {
        let bytes = case_bytes(&case(&[], 17), &mut Rows::unmet());
        let lent = b"F\0\0\0\0\xFF\xFF\0\0\0\0\0\0\x01\0\0\0\x11\0\0\0";
        let refused = b"\0\0\0\0\0\0\0\0\0\0\0\0\x01\0\0\0\0\0\0\0";
        let written = b"\0\0\0\0\x10\0\0\0";
        let parts = [lent, &[0xEE; 17][..], refused, written, &SUFFIX, &[0xEE]];
        assert_eq!(bytes, parts.concat());
    }

    #[test]
    fn a_read_is_laid_with_its_parts() {
        let file = [&b"\x07"[..], &SUFFIX[..]].concat();
        let bytes = case_bytes(&case(&SUFFIX, 0), &mut Rows::unmet());
        let read = b"\xFF\xFF\0\0\0\0\0\0\x01\0\0\0\0\0\0\0\0\0\0\0\x01\0\0\0\0\0\0\0";
        assert!(bytes.ends_with(read));
        let bytes = case_bytes(&case(&file, 0), &mut Rows::unmet());
        let read = b"\0\0\0\0\0\0\0\0\0\0\0\0\x05\0\0\0\0\0\0\0\x01\0\0\0\0\0\0\0";
        assert!(bytes.ends_with(read));
    }

    #[test]
    fn a_recording_without_all_rows_has_no_end() {
        let mut out = Vec::new();
        let missed = record(3, 2, &mut out).unwrap_err();
        assert!(missed.to_string().starts_with("never met: "));
        let cases = [0, 1].map(|number| case_bytes(&Case::new(3, number), &mut Rows::unmet()));
        assert_eq!(out, cases.concat());
    }
}
