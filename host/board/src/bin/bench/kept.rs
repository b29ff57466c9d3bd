//! The sums that a loader keeps, in Rust, in two ways. As one writes it at first: a
//! byte table for a sum, and all of the application read again for the whole one. And
//! as ours does it: eight streams for the sum of a block, and the whole one joined
//! from these, here by four tables of 256.

use super::plain::{past, sum, NOTHING_SUMMED};
use super::{eighths, BLOCK};
use mullirim_board::Session;
use mullirim_host::second::ERASED;
use std::ops::Range;

/// What a block of zeros makes of a sum, by each of its four bytes.
static PAST_A_BLOCK: [[u32; 256]; 4] = past(BLOCK);

/// The sum of some bytes and of a block behind them, from the sum of each.
pub fn join(before: u32, block: u32) -> u32 {
    let [a, b, c, d] = (!before).to_le_bytes().map(usize::from);
    let [first, second, third, fourth] = &PAST_A_BLOCK;
    block ^ first[a] ^ second[b] ^ third[c] ^ fourth[d]
}

/// By application block from 0, and the whole.
#[derive(Clone, Debug, PartialEq)]
pub struct Sums {
    pub block: Vec<u32>,
    pub whole: u32,
}

impl Sums {
    /// Each block read once, and then joined.
    pub fn new(application: &[u8]) -> Sums {
        let mut sums = Sums {
            block: application.chunks(BLOCK).map(eighths::sum).collect(),
            whole: 0,
        };
        sums.join();
        sums
    }

    /// All read twice by the byte table: by blocks, and for the whole.
    pub fn by_two_readings(application: &[u8]) -> Sums {
        Sums {
            block: application.chunks(BLOCK).map(sum).collect(),
            whole: sum(application),
        }
    }

    /// Whether a session keeps these, and zeros for all other blocks.
    pub fn kept_by(&self, session: &Session) -> bool {
        let Session { board, sums, .. } = session;
        let (first, blocks) = (board.first as usize, board.blocks as usize);
        let others = sums.block[..first].iter().chain(&sums.block[blocks..]);
        sums.block[first..blocks] == self.block
            && sums.whole == self.whole
            && others.copied().all(|sum| sum == 0)
    }

    fn join(&mut self) {
        let each = self.block.iter();
        self.whole = each.fold(NOTHING_SUMMED, |before, block| join(before, *block));
    }

    fn read_blocks(
        &mut self,
        application: &[u8],
        changed: Range<usize>,
        sum: impl Fn(&[u8]) -> u32,
    ) {
        for block in changed.start / BLOCK..changed.end.div_ceil(BLOCK) {
            self.block[block] = sum(&application[block * BLOCK..(block + 1) * BLOCK]);
        }
    }
}

/// Makes the sums right again after these bytes of the application changed; at
/// least one did.
pub type Refresh = fn(&mut Sums, &[u8], Range<usize>);

/// What ours did before it joined and summed by streams, and what it does.
pub const WAYS: [(&str, Refresh); 2] = [
    ("Rust: application reread", |sums, application, changed| {
        sums.read_blocks(application, changed, sum);
        sums.whole = sum(application);
    }),
    ("Rust: same work", |sums, application, changed| {
        sums.read_blocks(application, changed, eighths::sum);
        sums.join();
    }),
];

/// An application with its sums, without any protocol.
#[derive(Clone)]
pub struct Kept {
    application: Vec<u8>,
    sums: Sums,
    refresh: Refresh,
}

impl Kept {
    pub fn new(application: &[u8], refresh: Refresh) -> Kept {
        Kept {
            application: application.to_vec(),
            sums: Sums::new(application),
            refresh,
        }
    }

    /// Whether ours has the same bytes in its application and keeps the same sums.
    pub fn same(&self, application: &[u8], session: &Session) -> bool {
        self.application == application && self.sums.kept_by(session)
    }

    /// A piece copied to its place and the sums refreshed after it.
    pub fn put(&mut self, place: usize, piece: &[u8]) -> u32 {
        let changed = place..place + piece.len();
        self.application[changed.clone()].copy_from_slice(piece);
        (self.refresh)(&mut self.sums, &self.application, changed);
        self.sums.whole
    }

    pub fn erase(&mut self, block: usize) -> u32 {
        let changed = block * BLOCK..(block + 1) * BLOCK;
        self.application[changed.clone()].fill(ERASED);
        (self.refresh)(&mut self.sums, &self.application, changed);
        self.sums.whole
    }

    /// A download: the erased check, then piece by piece.
    pub fn download(&mut self, pieces: &[&[u8]]) -> bool {
        if !self.application.iter().all(|byte| *byte == ERASED) {
            return false;
        }
        let mut place = 0;
        for piece in pieces {
            self.put(place, piece);
            place += piece.len();
        }
        true
    }
}

#[cfg(test)]
mod tests {
    use super::*;
    use crate::{noise, APPLICATION};
    use mullirim_host::dice::Dice;
    use mullirim_host::second;

    #[test]
    fn joins_are_the_second_loaders() {
        let mut dice = Dice::new(8);
        for _ in 0..10_000 {
            let (before, block) = (dice.turn() as u32, dice.turn() as u32);
            assert_eq!(join(before, block), second::join(before, block));
        }
    }

    #[test]
    fn either_way_of_a_start_gives_the_same() {
        for blocks in [1, 2, 48, 255] {
            let application = noise(blocks * BLOCK);
            let sums = Sums::new(&application);
            assert_eq!(sums, Sums::by_two_readings(&application));
            assert_eq!(sums.whole, second::sum(&application));
        }
    }

    #[test]
    fn refreshed_sums_are_those_made_new() {
        for (_, refresh) in WAYS {
            let mut application = noise(APPLICATION.len());
            let mut sums = Sums::new(&application);
            for changed in [0..1, 1_023..1_025, 2_048..3_072, 49_151..49_152] {
                application[changed.clone()].fill(0);
                assert_ne!(sums, Sums::new(&application));
                refresh(&mut sums, &application, changed);
                assert_eq!(sums, Sums::new(&application));
            }
        }
    }

    /// Only one of the two looks at blocks that were not changed.
    #[test]
    fn the_ways_differ_by_what_they_read() {
        let [reread, joined] = WAYS.map(|(_, refresh)| {
            let mut application = noise(4 * BLOCK);
            let mut sums = Sums::new(&application);
            application[0] ^= 1;
            refresh(&mut sums, &application, 2_048..2_049);
            sums.whole == Sums::new(&application).whole
        });
        assert!(reread && !joined);
    }

    #[test]
    fn a_download_asks_for_erased_flash() {
        let image = noise(1_500);
        let pieces = [&image[..1_016], &image[1_016..]];
        for (_, refresh) in WAYS {
            let mut kept = Kept::new(&vec![ERASED; APPLICATION.len()], refresh);
            assert!(kept.download(&pieces));
            assert_eq!(kept.application[..1_500], image);
            assert_eq!(kept.sums, Sums::new(&kept.application));
            assert!(!kept.download(&pieces));
            assert_eq!(kept.erase(1), kept.sums.whole);
            assert_eq!(kept.application[1_024..2_048], [ERASED; 1_024]);
            assert_eq!(kept.sums, Sums::new(&kept.application));
        }
    }
}
