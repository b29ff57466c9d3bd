//! The rows that a start can fall under, each with how often one did.

use crate::seen::bytes;
use mullirim_host::histories::{Start, SMALL};
use mullirim_host::second::{answer, MOST_BLOCKS};

type Row = (&'static str, fn(&Start) -> bool);

const TAKEN: [Row; 9] = [
    ("A is 1", |start| start.a == 1),
    ("one block of application", |start| start.a + 1 == start.b),
    ("B is the most", |start| start.b as usize == MOST_BLOCKS),
    ("B is the most, A is 1", |start| {
        start.b as usize == MOST_BLOCKS && start.a == 1
    }),
    ("B is the most, one block of application", |start| {
        start.b as usize == MOST_BLOCKS && start.a + 1 == start.b
    }),
    ("B is one under the most", |start| {
        start.b as usize == MOST_BLOCKS - 1
    }),
    ("the last address is 65,535", |start| start.b == SMALL),
    ("a block at addresses over 65,535", |start| {
        start.b == SMALL + 1
    }),
    ("other", |_| true),
];

/// Each with nothing else wrong, as far as that can be.
const REFUSED: [Row; 12] = [
    ("A is 0", |start| start.a == 0 && sized(start)),
    ("A is B", |start| start.a == start.b && sized(start)),
    ("A is over B", |start| {
        (start.b + 1..65_536).contains(&start.a) && sized(start)
    }),
    ("B is one over the most", |start| {
        start.b as usize == MOST_BLOCKS + 1 && sized(start)
    }),
    ("flash too short", |start| {
        split(start.a, start.b) && (start.lent as u64) < bytes(start.b)
    }),
    ("flash too long", |start| {
        split(start.a, start.b) && start.lent as u64 > bytes(start.b)
    }),
    ("A fits in 8 bits", |start| {
        let over = (256..65_536).contains(&start.a);
        over && split(start.a % 256, start.b) && sized(start)
    }),
    ("B fits in 8 bits", |start| {
        let cut = start.b % 256;
        let over = (256..65_536).contains(&start.b);
        over && split(start.a, cut) && start.lent as u64 == bytes(cut)
    }),
    ("A fits in 16 bits", |start| {
        start.a > 65_535 && cut(start) && start.b < 65_536
    }),
    ("B fits in 16 bits", |start| {
        start.b > 65_535 && cut(start) && start.a < 65_536
    }),
    ("A and B fit in 16 bits", |start| {
        start.a > 65_535 && start.b > 65_535 && cut(start)
    }),
    ("B's bytes fit in 32 bits", |start| {
        let cut = bytes(start.b) as u32 as usize;
        start.b > 65_535 && cut == start.lent && start.a < start.b
    }),
];

fn split(a: u32, b: u32) -> bool {
    1 <= a && a < b && b as usize <= MOST_BLOCKS
}

fn sized(start: &Start) -> bool {
    start.lent as u64 == bytes(start.b)
}

/// The start would be taken if its numbers were cut to 16 bits.
fn cut(start: &Start) -> bool {
    let (a, b) = (start.a % 65_536, start.b % 65_536);
    split(a, b) && start.lent as u64 == bytes(b)
}

pub struct Starts {
    taken: [u64; TAKEN.len()],
    refused: [u64; REFUSED.len()],
}

impl Starts {
    pub fn new() -> Starts {
        Starts {
            taken: [0; TAKEN.len()],
            refused: [0; REFUSED.len()],
        }
    }

    pub fn see(&mut self, start: &Start, answer: u8) {
        let (rows, counts) = match answer {
            answer::TAKEN => (&TAKEN[..], &mut self.taken[..]),
            _ => (&REFUSED[..], &mut self.refused[..]),
        };
        for ((_, holds), count) in rows.iter().zip(counts) {
            *count += u64::from(holds(start));
        }
    }

    /// Every row with its count.
    pub fn counts(&self) -> impl Iterator<Item = (String, u64)> {
        let taken = TAKEN.iter().zip(self.taken);
        let refused = REFUSED.iter().zip(self.refused);
        let taken = taken.map(|((name, _), count)| (format!("start: {name}"), count));
        taken.chain(refused.map(|((name, _), count)| (format!("start refused: {name}"), count)))
    }
}
