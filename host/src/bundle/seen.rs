//! A case as the rows look at it: taken apart, with what came of it.

use super::cases::Case;
use super::{head, MOST};
use crate::layout::{BundleFound, Part, Written};

/// The rules of an entry, by their bits in the paper's order; the first of them
/// is refusal 4.
pub const OFFSET: u32 = 1;
pub const EMPTY: u32 = 2;
pub const PAST: u32 = 4;

/// The rules of the writer, in the same way; the first is its refusal 1.
pub mod list {
    pub const COUNT: u32 = 1;
    pub const EMPTY: u32 = 2;
    pub const ROOM: u32 = 4;
    pub const LENGTHS: u32 = 8;
}

pub struct Seen<'a> {
    pub case: &'a Case,
    pub read: BundleFound,
    /// What came of the images that were asked for, in their order.
    pub parts: &'a [Part],
    pub written: Written,
    /// The entries that are there whole, of as many as the count says.
    pub entries: Vec<Entry>,
    pub list: List,
}

pub struct Entry {
    pub offset: u64,
    pub length: u64,
    /// Where the image before ended.
    pub awaited: u64,
    /// The rules that it breaks.
    pub rules: u32,
}

impl Entry {
    pub fn end(&self) -> u64 {
        self.offset + self.length
    }

    /// The number of the first rule that it breaks.
    pub fn refusal(&self) -> u32 {
        4 + self.rules.trailing_zeros()
    }
}

/// What is to be written, in numbers that hold all its sums.
pub struct List {
    /// The bytes of all images, and of the whole bundle, by the lengths.
    pub bytes: u128,
    pub needed: u128,
    /// Where the last image begins.
    pub last_offset: u128,
    pub room: u128,
    /// The rules that it breaks.
    pub rules: u32,
}

impl<'a> Seen<'a> {
    pub fn new(case: &'a Case, read: BundleFound, parts: &'a [Part], written: Written) -> Seen<'a> {
        Seen {
            case,
            read,
            parts,
            written,
            entries: entries(&case.file),
            list: List::new(case),
        }
    }

    /// The file's length.
    pub fn length(&self) -> u64 {
        self.case.file.len() as u64
    }

    /// What stands in the place of the count, in a file that has it.
    pub fn count(&self) -> Option<usize> {
        count(&self.case.file)
    }

    /// A count that may be, and all its entries are there.
    pub fn whole_table(&self) -> bool {
        (1..=MOST).contains(&self.entries.len()) && self.count() == Some(self.entries.len())
    }

    /// The bytes behind the last image, in a file that has more of them.
    pub fn left_over(&self) -> Option<u64> {
        let last = self.entries.last().filter(|_| self.whole_table())?;
        let more = self.length().checked_sub(last.end());
        more.filter(|more| *more > 0)
    }

    /// As many right entries as the count says, up to the end of the file,
    /// though that may be too many or none.
    pub fn right_but_for_the_count(&self) -> bool {
        let all = self.count() == Some(self.entries.len());
        let right = self.entries.iter().all(|entry| entry.rules == 0);
        let end = self.entries.last().map_or(2, Entry::end);
        all && right && end == self.length()
    }

    /// A right bundle, taken for one.
    pub fn accepted(&self) -> bool {
        let taken = self.read.refused == 0 && self.read.count == self.entries.len();
        taken && self.whole_table() && self.right_but_for_the_count()
    }

    pub fn refused(&self, refusal: u32) -> bool {
        self.read.refused == refusal && self.read.count == 0
    }

    /// The first entry that breaks a rule, by its place, where the file was
    /// refused for the first rule that it breaks.
    pub fn refused_at(&self) -> Option<(usize, &Entry)> {
        let mut places = self.entries.iter().enumerate();
        let broken = places.find(|(_, entry)| entry.rules > 0);
        broken.filter(|(_, entry)| self.whole_table() && self.refused(entry.refusal()))
    }

    pub fn was_written(&self) -> bool {
        let count = self.written.count as u128;
        self.list.rules == 0 && self.written.refused == 0 && count == self.list.needed
    }

    /// These rules are broken and no others, and the first of them refused it.
    pub fn unwritten(&self, rules: u32) -> bool {
        let first = rules.trailing_zeros() + 1;
        self.list.rules == rules && self.written.refused == first && self.written.count == 0
    }
}

impl List {
    fn new(case: &Case) -> List {
        let Case { lengths, .. } = case;
        let bytes: u128 = lengths.iter().map(|length| u128::from(*length)).sum();
        let needed = head(lengths.len()) as u128 + bytes;
        let last_offset = needed - lengths.last().map_or(0, |length| u128::from(*length));
        let room = case.lent().len() as u128;
        let past = last_offset >> 32 > 0 || lengths.iter().any(|length| length >> 32 > 0);
        let broken = [
            (list::COUNT, !(1..=MOST).contains(&lengths.len())),
            (list::EMPTY, lengths.contains(&0)),
            (list::ROOM, past || needed > room),
            (list::LENGTHS, bytes != case.images.len() as u128),
        ];
        List {
            bytes,
            needed,
            last_offset,
            room,
            rules: bits(&broken),
        }
    }
}

fn count(file: &[u8]) -> Option<usize> {
    let first = file.first_chunk().copied();
    first.map(|first| usize::from(u16::from_le_bytes(first)))
}

fn entries(file: &[u8]) -> Vec<Entry> {
    let count = count(file).unwrap_or(0);
    let table = &file[file.len().min(2)..file.len().min(head(count))];
    let mut awaited = head(count) as u64;
    let mut entries = Vec::new();
    for eight in table.chunks_exact(8) {
        let number = |at: usize| u32::from_le_bytes([0, 1, 2, 3].map(|byte| eight[at + byte]));
        let (offset, length) = (u64::from(number(0)), u64::from(number(4)));
        let end = offset + length;
        let broken = [
            (OFFSET, offset != awaited),
            (EMPTY, length == 0),
            (PAST, end > file.len() as u64),
        ];
        entries.push(Entry {
            offset,
            length,
            awaited,
            rules: bits(&broken),
        });
        awaited = end;
    }
    entries
}

/// The bits of the rules that are broken.
fn bits(rules: &[(u32, bool)]) -> u32 {
    let broken = rules.iter().filter(|(_, broken)| *broken);
    broken.map(|(rule, _)| rule).sum()
}
