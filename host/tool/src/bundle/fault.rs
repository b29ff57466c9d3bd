//! Why a file is no bundle, for people: which image is at fault, and by which
//! numbers. That the file is refused, and why, the proved reader has said.

use crate::screen::{counted, grouped};
use mullirim_files::bundle::{head, Refusal};

pub fn why(file: &[u8], refusal: Refusal) -> String {
    let numbers = match numbers(file, refusal) {
        Some(numbers) => format!(" ({numbers})"),
        None => String::new(),
    };
    format!(
        "no bundle (refusal {}): {}{numbers}; it was {}, or is of another kind; get it anew",
        refusal.number(),
        words(refusal),
        done_to_it(refusal)
    )
}

fn words(refusal: Refusal) -> &'static str {
    match refusal {
        Refusal::Short => "the file has under 2 bytes, and a count of images alone has 2",
        Refusal::Count => "the file's count of images is not from 1 to 32",
        Refusal::Table => "the file ends before all of its images have their entries",
        Refusal::Offset => "an image does not begin right behind what stands before it",
        Refusal::Empty => "an image has no bytes",
        Refusal::Past => "an image ends behind the end of the file",
        Refusal::LeftOver => "the file goes on behind its last image",
    }
}

/// What most often leads there.
fn done_to_it(refusal: Refusal) -> &'static str {
    match refusal {
        Refusal::Short | Refusal::Table | Refusal::Past => "cut",
        Refusal::Count | Refusal::Offset | Refusal::Empty => "altered",
        Refusal::LeftOver => "added to",
    }
}

/// The numbers that do not fit, where the file holds any.
fn numbers(file: &[u8], refusal: Refusal) -> Option<String> {
    let count = count(file)?;
    let [length, head] = [file.len(), head(count)].map(grouped);
    let entries = entries(file, count);
    let first = |wrong: &dyn Fn(&&Entry) -> bool| entries.iter().find(wrong);
    match refusal {
        Refusal::Short => None,
        Refusal::Count => Some(format!("it is {}", grouped(count))),
        Refusal::Table => Some(format!(
            "for {} these take {head} bytes, and it has {length}",
            counted(count, "image")
        )),
        Refusal::Offset => first(&|entry| entry.offset != entry.due).map(Entry::misplaced),
        Refusal::Empty => first(&|entry| entry.length == 0).map(Entry::named),
        Refusal::Past => first(&|entry| entry.end() > file.len() as u64)
            .map(|entry| format!("{} at byte {}, of {length}", entry.named(), entry.ends())),
        Refusal::LeftOver => entries.last().map(|entry| {
            let last = entry.named();
            format!("{last} ends at byte {}, of {length}", entry.ends())
        }),
    }
}

/// What a file says of an image, and where the image before it ended. The
/// numbers have 32 bits there, so that their sums can't wrap here.
struct Entry {
    number: usize,
    offset: u64,
    length: u64,
    due: u64,
}

impl Entry {
    fn end(&self) -> u64 {
        self.offset + self.length
    }

    fn ends(&self) -> String {
        grouped(self.end())
    }

    fn named(&self) -> String {
        format!("image {}", self.number)
    }

    fn misplaced(&self) -> String {
        let [offset, due] = [self.offset, self.due].map(grouped);
        format!("{} at byte {offset}, not at {due}", self.named())
    }
}

fn count(file: &[u8]) -> Option<usize> {
    let count = file.first_chunk::<2>()?;
    Some(usize::from(u16::from_le_bytes(*count)))
}

/// The entries of so many images, as far as the file holds them.
fn entries(file: &[u8], count: usize) -> Vec<Entry> {
    let mut due = head(count) as u64;
    let mut entries = Vec::new();
    for (number, bytes) in file[2..].chunks_exact(8).take(count).enumerate() {
        let (offset, length) = bytes.split_at(4);
        let [offset, length] = [offset, length].map(little_endian);
        entries.push(Entry {
            number,
            offset,
            length,
            due,
        });
        due = offset + length;
    }
    entries
}

fn little_endian(bytes: &[u8]) -> u64 {
    let more = |number, byte: &u8| number << 8 | u64::from(*byte);
    bytes.iter().rev().fold(0, more)
}

#[cfg(test)]
mod tests {
    use super::*;
    use Refusal::*;

    /// Two images, of 3 bytes and of 2.
    const WHOLE: [u8; 23] = [
        2, 0, 18, 0, 0, 0, 3, 0, 0, 0, 21, 0, 0, 0, 2, 0, 0, 0, 7, 7, 7, 9, 9,
    ];

    fn with(place: usize, byte: u8) -> Vec<u8> {
        let mut file = WHOLE.to_vec();
        file[place] = byte;
        file
    }

    fn told(file: &[u8], refusal: Refusal, told: &str) {
        assert_eq!(numbers(file, refusal).unwrap(), told);
        let why = why(file, refusal);
        assert!(why.contains(&format!(" ({told}); it was ")), "{why}");
    }

    #[test]
    fn each_refusal_has_its_number_and_words_of_its_own() {
        let all = [Short, Count, Table, Offset, Empty, Past, LeftOver];
        for (number, refusal) in (1..).zip(all) {
            let why = why(&[], refusal);
            let begin = format!("no bundle (refusal {number}): {}; it was ", words(refusal));
            assert!(why.starts_with(&begin), "{why}");
            assert!(why.ends_with(", or is of another kind; get it anew"));
            let same = all.iter().filter(|other| words(**other) == words(refusal));
            assert_eq!(same.count(), 1);
        }
    }

    #[test]
    fn counts_and_entries_are_told_in_numbers() {
        assert_eq!(numbers(&[], Short), None);
        assert_eq!(numbers(&[1], Short), None);
        told(&[0, 0], Count, "it is 0");
        told(&[33, 0], Count, "it is 33");
        told(&[0x39, 0x30, 7], Count, "it is 12,345");
        let needs = "for 2 images these take 18 bytes, and it has 17";
        told(&WHOLE[..17], Table, needs);
        let needs = "for 1 image these take 10 bytes, and it has 2";
        told(&[1, 0], Table, needs);
    }

    #[test]
    fn the_first_image_at_fault_is_told() {
        told(&with(2, 19), Offset, "image 0 at byte 19, not at 18");
        told(&with(10, 20), Offset, "image 1 at byte 20, not at 21");
        told(&with(6, 2), Offset, "image 1 at byte 21, not at 20");
        told(&with(6, 0), Empty, "image 0");
        told(&with(14, 0), Empty, "image 1");
        told(&WHOLE[..20], Past, "image 0 at byte 21, of 20");
        told(&WHOLE[..22], Past, "image 1 at byte 23, of 22");
        let longer = [&WHOLE[..], &[0; 4]].concat();
        told(&longer, LeftOver, "image 1 ends at byte 23, of 27");
    }

    /// In 32 bits the end would be 17, which is within the file.
    #[test]
    fn an_end_does_not_wrap() {
        let mut file = WHOLE.to_vec();
        file[6..10].fill(0xFF);
        told(&file, Past, "image 0 at byte 4,294,967,313, of 23");
    }
}
