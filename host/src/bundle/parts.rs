//! The rows of the images that are asked for.

use super::rows::Rows;
use super::seen::Seen;
use crate::layout::Part;

impl Rows {
    pub fn parts(&mut self) {
        for k in 0..32 {
            self.add(format!("image {k}, the last one"), move |seen| {
                given(seen, k) && seen.read.count == k + 1
            });
        }
        for k in 0..31 {
            self.add(format!("image {k}, others behind it"), move |seen| {
                given(seen, k) && seen.read.count > k + 1
            });
        }
        self.no_such();
        self.none_of_a_refused_file();
    }

    fn no_such(&mut self) {
        for (what, k) in FAR {
            self.add(format!("no image {what}"), move |seen| {
                seen.accepted() && not_given(seen, k(seen.read.count as u64))
            });
        }
    }

    fn none_of_a_refused_file(&mut self) {
        for refusal in 1..8 {
            let name = format!("no image 0, refused {refusal}");
            self.add(name, move |seen| {
                seen.refused(refusal) && not_given(seen, 0)
            });
        }
        for refusal in 4..8 {
            let name = format!("no image 0 that has a right entry, refused {refusal}");
            self.add(name, move |seen| {
                let right = seen.entries.first().is_some_and(|entry| entry.rules == 0);
                right && seen.refused(refusal) && not_given(seen, 0)
            });
        }
        self.add("no last image that has a right entry, refused 7", |seen| {
            let last = seen.entries.len() as u64;
            seen.refused(7) && last > 1 && not_given(seen, last - 1)
        });
    }
}

type Number = fn(u64) -> u64;

/// Numbers that no image has, by the count.
const FAR: [(&str, Number); 11] = [
    ("n of n", |count| count),
    ("n + 1 of n", |count| count + 1),
    (
        "32 of 32",
        |count| if count == 32 { 32 } else { u64::MAX - 1 },
    ),
    ("255", |_| 255),
    ("256", |_| 256),
    ("65,536", |_| 65_536),
    ("2^32", |_| 1 << 32),
    ("2^61", |_| 1 << 61),
    ("2^61 + n - 1 of n", |count| (1 << 61) + count - 1),
    ("2^63", |_| 1 << 63),
    ("2^64 - 1", |_| u64::MAX),
];

/// Whether this image was asked for, and came as its entry says.
fn given(seen: &Seen, k: usize) -> bool {
    let Some(entry) = seen.entries.get(k).filter(|_| seen.accepted()) else {
        return false;
    };
    let awaited = Part {
        from: entry.offset as usize,
        length: entry.length as usize,
    };
    came(seen, k) == Some(awaited)
}

/// Whether this image was asked for, and nothing came.
fn not_given(seen: &Seen, k: u64) -> bool {
    let nothing = Part { from: 0, length: 0 };
    came(seen, k as usize) == Some(nothing)
}

fn came(seen: &Seen, k: usize) -> Option<Part> {
    let place = seen.case.asked.iter().position(|asked| *asked == k);
    place.map(|place| seen.parts[place])
}
