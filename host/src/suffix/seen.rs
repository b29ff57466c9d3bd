//! A case as the rows look at it: taken apart, with what came of it.

use super::cases::Case;
use crate::layout::{SuffixFound, Written};
use crate::second::sum;

/// The reader's rules in the paper's order.
pub const RULES: [&str; 5] = ["under 16 bytes", "signature", "length", "bcdDFU", "sum"];

pub struct Seen<'a> {
    pub case: &'a Case,
    pub read: SuffixFound,
    pub written: Written,
    /// The rules that the file breaks, by their bits. What a short file is too
    /// short to have counts as broken.
    broken: u32,
    /// The sum that ought to stand at the end.
    pub sum: u32,
}

impl<'a> Seen<'a> {
    pub fn new(case: &'a Case, read: SuffixFound, written: Written) -> Seen<'a> {
        let file = &case.file;
        let sum = sum(&file[..file.len().saturating_sub(4)]);
        let broken = [
            file.len() < 16,
            last(file, 8, 3) != Some(b"UFD"),
            last(file, 5, 1) != Some(&[16]),
            last(file, 10, 2) != Some(&[0, 1]),
            last(file, 4, 4) != Some(&sum.to_le_bytes()),
        ];
        Seen {
            case,
            read,
            written,
            broken: (0..5).map(|rule| u32::from(broken[rule]) << rule).sum(),
            sum,
        }
    }

    pub fn accepted(&self) -> bool {
        self.read.refused == 0 && self.broken == 0
    }

    /// These rules are broken and no others, and the first of them refused it.
    pub fn refused(&self, rules: u32) -> bool {
        self.broken == rules && u32::from(self.read.refused) == rules.trailing_zeros() + 1
    }

    /// By this rule, and nothing else is wrong.
    pub fn refused_alone(&self, rule: usize) -> bool {
        self.refused(1 << rule)
    }

    /// What stands before the last 16 bytes.
    pub fn image(&self) -> &[u8] {
        let file = &self.case.file;
        &file[..file.len().saturating_sub(16)]
    }

    pub fn last(&self, from_end: usize, length: usize) -> &[u8] {
        last(&self.case.file, from_end, length).unwrap_or(&[])
    }

    /// Where the one byte is that was changed in a right file.
    pub fn changed(&self) -> Option<usize> {
        let (file, before) = (&self.case.file, self.case.before.as_ref()?);
        let mut places = (0..file.len()).filter(|place| before.get(*place) != file.get(*place));
        let place = places.next().filter(|_| file.len() == before.len());
        place.filter(|_| places.next().is_none())
    }

    pub fn was_written(&self) -> bool {
        self.written.refused == 0 && self.written.count == self.case.file.len() + 16
    }

    pub fn had_no_room(&self) -> bool {
        self.written.refused == 1 && self.written.count == 0
    }

    /// The buffer's length.
    pub fn room(&self) -> usize {
        self.case.lent().len()
    }
}

/// So many bytes of a file, so far from its end.
fn last(file: &[u8], from_end: usize, length: usize) -> Option<&[u8]> {
    let at = file.len().checked_sub(from_end)?;
    Some(&file[at..at + length])
}
