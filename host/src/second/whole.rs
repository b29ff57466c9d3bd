//! The sum of blocks that follow each other, from the sum of each alone.
//!
//! The 32 bits of a sum are taken as a polynomial over the numbers 0 and 1: bit
//! 31 is the coefficient of x^0, bit 0 that of x^31. A bit that is taken in
//! multiplies by x, and what division by the CRC's polynomial leaves is kept. So n
//! bits of zeros multiply by x^n, and it doesn't matter how that power is had.

use super::{BLOCK, NOTHING_SUMMED};

/// The CRC's polynomial, without its x^32.
const DIVISOR: u32 = 0xEDB8_8320;
const X: u32 = 1 << 30;
/// The power of x that a block of zeros multiplies by: x to the 8,192. Each
/// squaring doubles the exponent, and 8,192 is a power of two.
const PAST_A_BLOCK: u32 = squared(X, (8 * BLOCK).ilog2());

/// The sum of some bytes and of a block behind them, from the sum of those bytes
/// and from that of the block by itself.
///
/// Two sums over the same bytes that begin with different bits stay different
/// by what as many bytes of zeros make of the difference. The block's own sum
/// began with no byte taken in; here it has to begin with `before`.
pub fn join(before: u32, block: u32) -> u32 {
    block ^ product(before ^ NOTHING_SUMMED, PAST_A_BLOCK)
}

/// The sum of these blocks in turn. The sum of none is where a sum starts.
pub fn joined(blocks: &[u32]) -> u32 {
    blocks
        .iter()
        .fold(NOTHING_SUMMED, |before, block| join(before, *block))
}

const fn squared(mut power: u32, times: u32) -> u32 {
    let mut done = 0;
    while done < times {
        power = product(power, power);
        done += 1;
    }
    power
}

/// By the coefficients of `right`, the highest first: the lowest bit has it.
const fn product(left: u32, right: u32) -> u32 {
    let mut product = 0;
    let mut bit = 0;
    while bit < u32::BITS {
        product = times_x(product) ^ (left * (right >> bit & 1));
        bit += 1;
    }
    product
}

/// An x^32 that comes about is divided away.
const fn times_x(polynomial: u32) -> u32 {
    (polynomial >> 1) ^ (DIVISOR * (polynomial & 1))
}

#[cfg(test)]
mod tests {
    use super::*;
    use crate::dice::Dice;
    use crate::second::{sum, taken_in};

    const ONE: u32 = 1 << 31;

    #[test]
    fn a_block_of_zeros_is_one_product() {
        let mut dice = Dice::new(1);
        let starts = [0, 1, ONE, X, u32::MAX].into_iter();
        let others: Vec<u32> = (0..200).map(|_| dice.turn() as u32).collect();
        for start in starts.chain(others) {
            let walked = (0..BLOCK).fold(start, |rest, _| taken_in(rest, 0));
            assert_eq!(product(start, PAST_A_BLOCK), walked);
        }
    }

    #[test]
    fn products_are_those_of_polynomials() {
        let mut dice = Dice::new(2);
        let mut number = || dice.turn() as u32;
        assert_eq!([X, DIVISOR], [times_x(ONE), times_x(1)]);
        for _ in 0..200 {
            let (p, q, r) = (number(), number(), number());
            assert_eq!([product(p, ONE), product(p, 0)], [p, 0]);
            assert_eq!(product(p, X), times_x(p));
            assert_eq!(product(p, q), product(q, p));
            assert_eq!(product(p, q ^ r), product(p, q) ^ product(p, r));
            assert_eq!(product(p, product(q, r)), product(product(p, q), r));
        }
    }

    /// However many bytes go before the block.
    #[test]
    fn a_join_is_the_sum_over_both() {
        let mut dice = Dice::new(3);
        for length in [0, 1, 3, 4, 5, 1_023, 1_024, 1_025, 3_000, 4_096] {
            let before = dice.bytes(length);
            let block = dice.bytes(BLOCK);
            let both = [&before[..], &block].concat();
            assert_eq!(join(sum(&before), sum(&block)), sum(&both));
        }
    }

    #[test]
    fn blocks_are_joined_in_turn() {
        let mut dice = Dice::new(4);
        for count in 0..20 {
            let bytes = dice.bytes(count * BLOCK);
            let sums: Vec<u32> = bytes.chunks(BLOCK as usize).map(sum).collect();
            assert_eq!(joined(&sums), sum(&bytes));
        }
        assert_eq!(joined(&[]), NOTHING_SUMMED);
        assert_eq!(joined(&[0x1234_5678]), 0x1234_5678);
        assert_ne!(joined(&[1, 2]), joined(&[2, 1]));
    }

    /// No sum of a block is given up: each bit of each counts.
    #[test]
    fn every_bit_of_every_sum_matters() {
        let mut dice = Dice::new(5);
        let mut sums: Vec<u32> = (0..255).map(|_| dice.turn() as u32).collect();
        let whole = joined(&sums);
        for block in [0, 1, 127, 253, 254] {
            for bit in 0..u32::BITS {
                sums[block] ^= 1 << bit;
                assert_ne!(joined(&sums), whole);
                sums[block] ^= 1 << bit;
            }
        }
        assert_eq!(joined(&sums), whole);
    }
}
