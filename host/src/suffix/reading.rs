//! The rows of reading.

use super::rows::{Rows, LENGTHS};
use super::seen::{Seen, RULES};
use crate::second::sum;

/// Rules by their places in the paper's order.
const SIGNATURE: usize = 1;
const LENGTH: usize = 2;
const VERSION: usize = 3;
const SUM: usize = 4;

impl Rows {
    pub fn reading(&mut self) {
        self.accepted();
        self.orders();
        self.shorts();
        self.signatures();
        self.numbers();
        self.sums();
        self.changes();
    }

    fn accepted(&mut self) {
        for length in LENGTHS {
            let name = format!("accepted, bytes before the suffix: {length}");
            self.add(name, move |seen| {
                seen.accepted() && seen.read.length == length
            });
        }
        self.parts("accepted", |seen| {
            seen.accepted().then_some(seen.read.parts)
        });
        self.add("accepted, with two suffixes", |seen| {
            seen.accepted() && ends_in_a_suffix(seen.image())
        });
    }

    /// Every set of rules that are broken together: the first of them refuses.
    fn orders(&mut self) {
        for rules in 1..32_u32 {
            let broken = (0..5).filter(|rule| rules & 1 << rule != 0);
            let names: Vec<&str> = broken.map(|rule| RULES[rule]).collect();
            let first = rules.trailing_zeros() + 1;
            let name = format!("refused {first}: {}", names.join(", "));
            self.add(name, move |seen| seen.refused(rules));
        }
    }

    fn shorts(&mut self) {
        for length in 0..16 {
            self.add(format!("refused 1: bytes in all: {length}"), move |seen| {
                seen.read.refused == 1 && seen.case.file.len() == length
            });
        }
    }

    /// Each with a sum that is right for what stands there.
    fn signatures(&mut self) {
        for place in 0..3 {
            let name = format!("refused 2: byte {place} of the signature alone");
            self.add(name, move |seen| {
                let there = seen.last(8, 3);
                let wrong = (0..there.len()).filter(|at| there[*at] != b"UFD"[*at]);
                seen.refused_alone(SIGNATURE) && wrong.eq([place])
            });
        }
        self.add("refused 2: the signature the other way round", |seen| {
            seen.refused_alone(SIGNATURE) && seen.last(8, 3) == b"DFU"
        });
    }

    /// Length bytes and versions; each with a sum that is right for it.
    fn numbers(&mut self) {
        for length in [0x00, 0x0F, 0x11, 0xFF] {
            self.add(format!("refused 3: length {length:02X}"), move |seen| {
                seen.refused_alone(LENGTH) && seen.last(5, 1) == [length]
            });
        }
        for version in [0x0000, 0x0001, 0x0101, 0x0110, 0x011A, 0x0200_u16] {
            self.add(format!("refused 4: bcdDFU {version:04X}"), move |seen| {
                seen.refused_alone(VERSION) && seen.last(10, 2) == version.to_le_bytes()
            });
        }
    }

    fn sums(&mut self) {
        self.sum("complemented", |seen| (!seen.sum).to_le_bytes());
        self.sum("high byte first", |seen| seen.sum.to_be_bytes());
        self.sum("of all but the suffix", |seen| {
            sum(seen.image()).to_le_bytes()
        });
    }

    fn sum(&mut self, what: &str, wrong: impl Fn(&Seen) -> [u8; 4] + 'static) {
        self.add(format!("refused 5: the sum {what}"), move |seen| {
            seen.refused_alone(SUM) && seen.last(4, 4) == wrong(seen)
        });
    }

    /// A right file, and what a small change makes of it.
    fn changes(&mut self) {
        let refused = [5, 5, 5, 5, 5, 5, 4, 4, 2, 2, 2, 3, 5, 5, 5, 5];
        for (place, refused) in refused.into_iter().enumerate() {
            let name = format!("refused {refused}: byte {place} of a right suffix changed");
            self.add(name, move |seen| {
                let changed = seen.image().len() + place;
                seen.read.refused == refused && seen.changed() == Some(changed)
            });
        }
        for (what, holds) in IMAGES {
            let name = format!("refused 5: {what} of the image changed");
            self.add(name, move |seen| {
                let (image, changed) = (seen.image().len(), seen.changed());
                seen.read.refused == 5 && changed.is_some_and(|place| holds(place, image))
            });
        }
        for (what, holds) in MOVED {
            self.add(format!("refused: a right file, {what}"), move |seen| {
                let before = seen.case.before.as_ref();
                let moved = before.is_some_and(|before| holds(&seen.case.file, before));
                seen.read.refused > 0 && moved
            });
        }
    }
}

type Where = fn(usize, usize) -> bool;

/// By the changed byte's place and the image's length.
const IMAGES: [(&str, Where); 3] = [
    ("the first byte", |place, image| place == 0 && image > 1),
    ("the last byte", |place, image| {
        place + 1 == image && image > 1
    }),
    ("a byte", |place, image| place < image),
];

type Moved = fn(&[u8], &[u8]) -> bool;

/// By the file and the right one it was.
const MOVED: [(&str, Moved); 4] = [
    ("a byte behind it", |file, before| {
        file.len() == before.len() + 1 && file.starts_with(before)
    }),
    ("16 bytes behind it", |file, before| {
        file.len() == before.len() + 16 && file.starts_with(before)
    }),
    ("its last byte gone", |file, before| {
        file.len() + 1 == before.len() && before.starts_with(file)
    }),
    ("its first byte gone", |file, before| {
        file.len() + 1 == before.len() && before.ends_with(file)
    }),
];

fn ends_in_a_suffix(file: &[u8]) -> bool {
    file.len() >= 16 && {
        let (summed, last) = file.split_at(file.len() - 4);
        summed.ends_with(b"\x00\x01UFD\x10") && last == sum(summed).to_le_bytes()
    }
}
