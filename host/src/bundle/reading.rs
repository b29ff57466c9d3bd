//! The rows of whole files: those that are bundles, those that end too soon and
//! those that end too late.

use super::rows::{Rows, LENGTHS};
use super::seen::Seen;

impl Rows {
    pub fn reading(&mut self) {
        self.accepted();
        self.accepted_far();
        for length in 0..2 {
            self.add(format!("refused 1: bytes in all: {length}"), move |seen| {
                seen.refused(1) && seen.length() == length
            });
        }
        self.more();
    }

    fn accepted(&mut self) {
        for count in 1..=32 {
            self.add(format!("accepted, images: {count}"), move |seen| {
                seen.accepted() && seen.read.count == count
            });
        }
        for length in LENGTHS {
            let name = format!("accepted, one image, its bytes: {length}");
            self.add(name, move |seen| {
                seen.accepted() && lone(seen) && seen.entries[0].length == length
            });
        }
        for (what, holds) in SHORT {
            self.add(format!("accepted, {what} of one byte"), move |seen| {
                seen.accepted() && seen.read.count > 2 && holds(&long(seen))
            });
        }
        self.add("accepted, 32 images of one byte", |seen| {
            let short = seen.entries.iter().all(|entry| entry.length == 1);
            seen.accepted() && seen.read.count == 32 && short
        });
        for length in [65_535, 65_536, 65_537] {
            let name = format!("accepted, bytes of the file: {length}");
            self.add(name, move |seen| seen.accepted() && seen.length() == length);
        }
    }

    /// Files that end behind 4 GiB.
    fn accepted_far(&mut self) {
        for (end, what) in [(0, "at"), (1, "a byte past")] {
            let name = format!("accepted, one image that ends {what} 32 bits");
            self.add(name, move |seen| {
                seen.accepted() && lone(seen) && seen.length() == FAR + end
            });
        }
        self.add("accepted, one image as long as it can be", |seen| {
            seen.accepted() && lone(seen) && seen.entries[0].length == FAR - 1
        });
        self.add(
            "accepted, an image at the last offset that can be",
            |seen| seen.accepted() && seen.entries[seen.read.count - 1].offset == FAR - 1,
        );
        self.add("accepted, a second image as long as it can be", |seen| {
            seen.accepted() && seen.read.count == 2 && seen.entries[1].length == FAR - 1
        });
    }

    /// All entries pass, and there is more.
    fn more(&mut self) {
        for more in [1, 2, 8, 255, 256, 257, 65_536, FAR] {
            self.add(format!("refused 7: bytes left over: {more}"), move |seen| {
                left_over(seen) == Some(more)
            });
        }
        for count in [1, 2, 31, 32] {
            let name = format!("refused 7: a byte behind so many images: {count}");
            self.add(name, move |seen| {
                left_over(seen) == Some(1) && seen.entries.len() == count
            });
        }
        self.add("refused 7: a byte left over behind 4 GiB", |seen| {
            left_over(seen) == Some(1) && seen.length() > FAR
        });
    }
}

/// What 32 bits don't hold begins here.
pub const FAR: u64 = 1 << 32;

pub fn lone(seen: &Seen) -> bool {
    seen.entries.len() == 1
}

/// How many bytes, where nothing else is wrong.
fn left_over(seen: &Seen) -> Option<u64> {
    let right = seen.entries.iter().all(|entry| entry.rules == 0);
    seen.left_over().filter(|_| right && seen.refused(7))
}

/// Which of the images have more than one byte.
fn long(seen: &Seen) -> Vec<bool> {
    let entries = seen.entries.iter();
    entries.map(|entry| entry.length > 1).collect()
}

type Short = fn(&[bool]) -> bool;

/// By which images have more than one byte.
const SHORT: [(&str, Short); 3] = [
    ("the first image alone", |long| {
        !long[0] && long[1..].iter().all(|long| *long)
    }),
    ("the last image alone", |long| {
        !long[long.len() - 1] && long[..long.len() - 1].iter().all(|long| *long)
    }),
    ("an image between", |long| {
        long[1..long.len() - 1].contains(&false)
    }),
];
