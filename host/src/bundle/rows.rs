//! The rows of the paper that a case can fall under.

use super::seen::Seen;
use crate::rows;

pub type Rows = rows::Rows<dyn Fn(&Seen) -> bool>;

impl Rows {
    /// Every row, and none of them met.
    pub fn unmet() -> Rows {
        let mut rows = Rows::none();
        rows.reading();
        rows.counts_and_tables();
        rows.entries();
        rows.parts();
        rows.writing();
        rows
    }

    pub fn add(&mut self, name: impl Into<String>, holds: impl Fn(&Seen) -> bool + 'static) {
        self.row(name.into(), Box::new(holds));
    }

    pub fn see(&mut self, seen: &Seen) {
        self.count(|holds| holds(seen));
    }
}

/// Lengths around which a number's width may go wrong.
pub const LENGTHS: [u64; 8] = [1, 2, 255, 256, 257, 65_535, 65_536, 65_537];

#[cfg(test)]
mod tests {
    use super::*;
    use crate::bundle::cases::Case;
    use crate::layout::{BundleFound, Part, Written};
    use std::collections::HashSet;

    /// Two images, of which the first ends past the file and the second is
    /// empty; and three to write, one of them empty, without room.
    fn case() -> Case {
        let file = b"\x02\0\x12\0\0\0\x03\0\0\0\x15\0\0\0\0\0\0\0!!";
        Case {
            file: file.to_vec().into(),
            asked: vec![0],
            lengths: vec![1, 0, 1],
            images: vec![1, 2].into(),
            frame: vec![0; 32].into(),
        }
    }

    fn met(read: u32, written: u32) -> Vec<String> {
        let mut rows = Rows::unmet();
        let read = BundleFound {
            refused: read,
            count: 0,
        };
        let written = Written {
            refused: written,
            count: 0,
        };
        let parts = [Part { from: 0, length: 0 }];
        rows.see(&Seen::new(&case(), read, &parts, written));
        let met = rows.counts().filter(|(_, count)| *count > 0);
        met.map(|(name, _)| name.to_string()).collect()
    }

    #[test]
    fn nothing_met_is_all_missed() {
        let rows = Rows::unmet();
        assert_eq!(rows.missed().len(), rows.counts().count());
        assert_eq!(rows.missed()[0], "accepted, images: 1");
    }

    #[test]
    fn a_case_is_counted_in_its_rows() {
        let rows = [
            "refused 6, past: the first entry",
            "refused 6: with 5 in a later entry",
            "refused 6, a byte past: the first entry",
            "no image 0, refused 6",
            "unwritten 2: empty image, no room",
            "unwritten 2 without room: one between",
        ];
        assert_eq!(met(6, 2), rows);
    }

    /// Two that agree on a wrong refusal have not met the row.
    #[test]
    fn another_refusal_is_not_counted() {
        assert_eq!(met(5, 3), ["no image 0, refused 5"]);
        assert!(met(0, 0).is_empty());
    }

    #[test]
    fn rows_have_names_of_their_own() {
        let rows = Rows::unmet();
        let names: HashSet<_> = rows.counts().map(|(name, _)| name).collect();
        assert_eq!(names.len(), rows.counts().count());
    }
}
