//! The rows of the paper that a file can fall under.

use super::seen::Seen;
use crate::layout::Parts;
use crate::rows;

pub type Rows = rows::Rows<dyn Fn(&Seen) -> bool>;

impl Rows {
    /// Every row, and none of them met.
    pub fn unmet() -> Rows {
        let mut rows = Rows::none();
        rows.reading();
        rows.writing();
        rows
    }

    pub fn add(&mut self, name: impl Into<String>, holds: impl Fn(&Seen) -> bool + 'static) {
        self.row(name.into(), Box::new(holds));
    }

    pub fn see(&mut self, seen: &Seen) {
        self.count(|holds| holds(seen));
    }

    /// Each part with each of its borders, and all different down to the byte.
    pub fn parts(&mut self, what: &str, of: impl Fn(&Seen) -> Option<Parts> + Copy + 'static) {
        for (at, part) in ["bcdDevice", "idProduct", "idVendor"].iter().enumerate() {
            for border in [0x0000, 0x0001, 0x00FF, 0xFF00, 0xFFFF] {
                let name = format!("{what}, {part} {border:04X}");
                self.add(name, move |seen| {
                    of(seen).is_some_and(|parts| numbers(parts)[at] == border)
                });
            }
        }
        self.add(format!("{what}, no two bytes of the parts the same"), {
            move |seen| of(seen).is_some_and(all_different)
        });
    }
}

/// Lengths around which a sum, a piece or a number's width may go wrong.
pub const LENGTHS: [usize; 14] = [
    0, 1, 15, 16, 17, 255, 256, 257, 1_023, 1_024, 1_025, 65_535, 65_536, 65_537,
];

fn numbers(parts: Parts) -> [u16; 3] {
    [parts.device, parts.product, parts.vendor]
}

fn all_different(parts: Parts) -> bool {
    let mut bytes = numbers(parts).map(u16::to_le_bytes).concat();
    bytes.sort_unstable();
    bytes.windows(2).all(|two| two[0] != two[1])
}

#[cfg(test)]
mod tests {
    use super::*;
    use crate::layout::{SuffixFound, Written};
    use crate::suffix::cases::Case;
    use std::collections::HashSet;

    const PARTS: Parts = Parts {
        device: 0xFFFF,
        product: 0,
        vendor: 1,
    };

    /// A lone suffix whose sum is Python's zlib.crc32, complemented, with a bit
    /// of its length byte and of its version changed; and no room at all.
    fn case() -> Case {
        Case {
            file: b"\xFF\xFF\0\0\x01\0\x01\x01UFD\x11\xF6\x66\xA4\x58".to_vec(),
            before: None,
            parts: PARTS,
            frame: vec![0; 32],
        }
    }

    fn met(refused: u16) -> Vec<String> {
        let mut rows = Rows::unmet();
        let read = SuffixFound {
            parts: PARTS,
            refused,
            length: 0,
        };
        let written = Written {
            refused: 1,
            count: 0,
        };
        rows.see(&Seen::new(&case(), read, written));
        let met = rows.counts().filter(|(_, count)| *count > 0);
        met.map(|(name, _)| name.to_string()).collect()
    }

    #[test]
    fn nothing_met_is_all_missed() {
        let rows = Rows::unmet();
        assert_eq!(rows.missed().len(), rows.counts().count());
        assert_eq!(rows.missed()[0], "accepted, bytes before the suffix: 0");
    }

    #[test]
    fn a_file_is_counted_in_its_rows() {
        let rows = [
            "refused 3: length, bcdDFU, sum",
            "no room, bytes of the buffer: 0",
        ];
        assert_eq!(met(3), rows);
    }

    /// Two that agree on a wrong refusal have not met the row.
    #[test]
    fn another_refusal_is_not_counted() {
        assert_eq!(met(4), ["no room, bytes of the buffer: 0"]);
        assert_eq!(met(0), ["no room, bytes of the buffer: 0"]);
    }

    #[test]
    fn rows_have_names_of_their_own() {
        let rows = Rows::unmet();
        let names: HashSet<_> = rows.counts().map(|(name, _)| name).collect();
        assert_eq!(names.len(), rows.counts().count());
    }
}
