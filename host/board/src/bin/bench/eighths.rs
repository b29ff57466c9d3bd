//! The sum by ours' method, in Rust: a block is cut into eighths, a stream goes over
//! each of them a word at a turn, and what the eight come to is joined.

use super::plain::{past, taken_in, NOTHING_SUMMED};
use std::array;

const STREAMS: usize = 8;
const WORD: usize = 4;

/// The paper's sum. All blocks of 1,024 bytes go first, and then parts of those sizes
/// that ours has.
pub fn sum(bytes: &[u8]) -> u32 {
    behind(NOTHING_SUMMED, bytes)
}

/// The same from any sum of what stands before.
fn behind(before: u32, bytes: &[u8]) -> u32 {
    let at = Eighths::<128>::taken_in((before, bytes));
    let at = Eighths::<64>::taken_in(at);
    let at = Eighths::<32>::taken_in(at);
    let at = Eighths::<16>::taken_in(at);
    let (running, rest) = Eighths::<4>::taken_in(at);
    let each = rest.iter();
    each.fold(running, |running, byte| taken_in(running, *byte))
}

/// Blocks whose eighths have so many bytes.
struct Eighths<const BYTES: usize>;

impl<const BYTES: usize> Eighths<BYTES> {
    /// What an eighth of zeros makes of a sum, by each of its eight half bytes.
    const PAST: &'static [[u32; 16]; 8] = &past(BYTES);

    /// The sum behind all such blocks at the front, and the bytes that are left.
    fn taken_in((running, bytes): (u32, &[u8])) -> (u32, &[u8]) {
        let blocks = bytes.chunks_exact(STREAMS * BYTES);
        let rest = blocks.remainder();
        (blocks.fold(running, Self::with_block), rest)
    }

    fn with_block(running: u32, block: &[u8]) -> u32 {
        let mut eighths = block.chunks_exact(BYTES);
        let eighths: [&[u8; BYTES]; STREAMS] = array::from_fn(|_| {
            let eighth = eighths.next().expect("eight of them");
            eighth.try_into().expect("so many bytes")
        });
        let mut streams = [running, 0, 0, 0, 0, 0, 0, 0];
        for word in 0..BYTES / WORD {
            for (stream, eighth) in streams.iter_mut().zip(eighths) {
                *stream ^= word_at(eighth, word);
            }
            for _ in 0..WORD {
                streams = streams.map(|stream| taken_in(stream, 0));
            }
        }
        Self::joined(streams)
    }

    fn joined([first, others @ ..]: [u32; STREAMS]) -> u32 {
        let join = |before, stream| Self::past_an_eighth(before) ^ stream;
        others.into_iter().fold(first, join)
    }

    fn past_an_eighth(running: u32) -> u32 {
        let places = Self::PAST.iter().enumerate();
        places.fold(0, |mixed, (place, entries)| {
            mixed ^ entries[(running >> (4 * place)) as usize % 16]
        })
    }
}

fn word_at(bytes: &[u8], word: usize) -> u32 {
    let four = &bytes[WORD * word..WORD * (word + 1)];
    u32::from_le_bytes(four.try_into().expect("four bytes"))
}

#[cfg(test)]
mod tests {
    use super::*;
    use crate::noise;
    use mullirim_host::dice::Dice;
    use mullirim_host::second;

    /// All blocks' ends and what stands beside them, up to two of the largest.
    const MOST: usize = 2_100;

    #[test]
    fn sums_of_every_length_are_the_second_loaders() {
        assert_eq!(sum(b"123456789"), 0x340B_C6D9);
        let bytes = noise(49_152);
        for length in (0..=MOST).chain([49_152]) {
            assert_eq!(sum(&bytes[..length]), second::sum(&bytes[..length]));
        }
    }

    #[test]
    fn a_sum_goes_on_from_any_other() {
        let bytes = noise(MOST);
        let mut dice = Dice::new(9);
        let some = [0, 1, 1 << 31, dice.turn() as u32, dice.turn() as u32];
        for before in some {
            let mut awaited = before;
            assert_eq!(behind(before, &[]), awaited);
            for (place, byte) in bytes.iter().enumerate() {
                awaited = second::taken_in(awaited, *byte);
                assert_eq!(behind(before, &bytes[..=place]), awaited);
            }
        }
    }

    /// In a block of each size, and in the rest.
    #[test]
    fn a_changed_byte_is_seen() {
        let mut bytes = noise(2_047);
        let before = sum(&bytes);
        for place in 0..bytes.len() {
            let bit = 1 << (place % 8);
            bytes[place] ^= bit;
            assert_ne!(sum(&bytes), before);
            assert_eq!(sum(&bytes), second::sum(&bytes));
            bytes[place] ^= bit;
        }
    }
}
