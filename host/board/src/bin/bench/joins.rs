//! The join of two sums by itself: that of some bytes and that of a block behind
//! them give the sum of both. zlib has the same for a block of any length.

use super::clock::{race, Row, Side};
use super::zlib::Combine;
use super::{agree, kept, noise, Compared, BLOCK};
use std::hint::black_box;

/// The sum of what goes before, and that of the block.
type Pair = (u32, u32);

const PAIRS: usize = 10_000;
const WHAT: &str = "join of two sums";

pub fn compare() -> Compared {
    let pairs = pairs();
    let ours = all(&pairs, mullirim_board::join);
    agree(WHAT, ours == all(&pairs, kept::join))?;
    let combine = Combine::find();
    match &combine {
        None => println!("zlib: no crc32_combine on this machine"),
        Some(zlib) => {
            let theirs = all(&pairs, |before, block| zlib.join(before, block, BLOCK));
            agree(WHAT, ours == theirs)?;
            println!("join: {PAIRS} pairs as zlib's crc32_combine");
        }
    }
    Ok(timed(&pairs, combine.as_ref()))
}

fn pairs() -> Vec<Pair> {
    let number = |four: &[u8]| u32::from_le_bytes(four.try_into().expect("four bytes"));
    let bytes = noise(8 * PAIRS);
    let eights = bytes.chunks_exact(8);
    eights.map(|e| (number(&e[..4]), number(&e[4..]))).collect()
}

fn all(pairs: &[Pair], join: impl Fn(u32, u32) -> u32) -> Vec<u32> {
    let each = pairs.iter();
    each.map(|(before, block)| join(*before, *block)).collect()
}

/// A turn is all pairs, so that none is known beforehand; the time is for one.
fn timed(pairs: &[Pair], zlib: Option<&Combine>) -> Vec<Row> {
    let mut sides = vec![
        Side::steady("ours", || mixed(black_box(pairs), mullirim_board::join)),
        Side::steady("Rust, four tables", || mixed(black_box(pairs), kept::join)),
    ];
    if let Some(zlib) = zlib {
        sides.push(Side::steady("zlib, crc32_combine", || {
            mixed(black_box(pairs), |before, block| {
                zlib.join(before, block, BLOCK)
            })
        }));
    }
    let sides = sides.into_iter().map(|side| side.of(PAIRS as u32));
    race(WHAT, sides.collect())
}

/// Every join counts for what comes out, so that none is left out.
fn mixed(pairs: &[Pair], join: impl Fn(u32, u32) -> u32) -> u32 {
    let joins = pairs.iter().map(|(before, block)| join(*before, *block));
    joins.fold(0, |mixed, sum| mixed ^ sum)
}

#[cfg(test)]
mod tests {
    use super::*;
    use mullirim_host::second;
    use std::collections::HashSet;

    #[test]
    fn the_sides_agree() {
        let pairs = pairs();
        let awaited = all(&pairs, second::join);
        assert_eq!(all(&pairs, mullirim_board::join), awaited);
        assert_eq!(all(&pairs, kept::join), awaited);
        let zlib = Combine::find().expect("crc32_combine in libz.so.1");
        let join = |before, block| zlib.join(before, block, BLOCK);
        assert_eq!(all(&pairs, join), awaited);
    }

    #[test]
    fn no_pair_is_there_twice() {
        let pairs = pairs();
        assert_eq!(pairs.len(), PAIRS);
        assert_eq!(pairs.iter().collect::<HashSet<_>>().len(), PAIRS);
    }
}
