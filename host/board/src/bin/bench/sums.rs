//! The sum by itself.

use super::clock::{race, Side};
use super::zlib::Zlib;
use super::{agree, eighths, noise, plain, Compared};
use std::hint::black_box;

/// Too few for eight streams, one block of theirs, five of them and a rest, a block of
/// the flash, and the application of the desk examples.
const LENGTHS: [usize; 5] = [16, 128, 1_000, 1_024, 49_152];

pub fn compare() -> Compared {
    let zlib = Zlib::find();
    if zlib.is_none() {
        println!("zlib: not on this machine");
    }
    let mut rows = Vec::new();
    for length in LENGTHS {
        let bytes = noise(length);
        let what = format!("sum of {length} bytes");
        agree(&what, same(&bytes, zlib.as_ref()))?;
        rows.extend(race(&what, sides(&bytes, zlib.as_ref())));
    }
    Ok(rows)
}

/// Whether all sides come to the same sum.
fn same(bytes: &[u8], zlib: Option<&Zlib>) -> bool {
    let ours = mullirim_board::sum(bytes);
    [plain::sum(bytes), eighths::sum(bytes)] == [ours; 2]
        && zlib.iter().all(|zlib| zlib.sum(bytes) == ours)
}

fn sides<'a>(bytes: &'a [u8], zlib: Option<&'a Zlib>) -> Vec<Side<'a>> {
    let mut sides = vec![
        Side::steady("ours", || mullirim_board::sum(black_box(bytes))),
        Side::steady("Rust, byte table", || plain::sum(black_box(bytes))),
        Side::steady("Rust: same method", || eighths::sum(black_box(bytes))),
    ];
    if let Some(zlib) = zlib {
        sides.push(Side::steady("zlib", || zlib.sum(black_box(bytes))));
    }
    sides
}

#[cfg(test)]
mod tests {
    use super::*;

    /// From each place beside a multiple of eight.
    #[test]
    fn the_sides_agree_on_every_length() {
        let zlib = Zlib::find().expect("libz.so.1");
        let bytes = noise(7 + 49_152);
        for first in 0..8 {
            for length in (0..=2_100).chain([49_152]) {
                let lent = &bytes[first..][..length];
                assert!(same(lent, Some(&zlib)), "{length} bytes from {first}");
            }
        }
    }
}
