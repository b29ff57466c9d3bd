//! The proved loader for Rust: the two calls that its library exports, and its
//! sum and the join of two sums by themselves, made safe. What the C header asks
//! of a board (buffers that don't overlap, nobody else writing meanwhile) the
//! borrows here grant by themselves.

mod raw;

pub use mullirim_host::layout::{Answer, Session, Started, Sums};

/// Reads a flash of `blocks` blocks whose application starts at block `first`
/// and makes its session. Unfit numbers give code 2 and a session of zeros.
pub fn start(flash: &[u8], first: u32, blocks: u32, part: u32, klass: u32) -> Started {
    // SAFETY: the slice lends its bytes for the call, and a pointer from a
    // slice is not null, also where it is empty.
    unsafe { raw::mullirim_start(flash.as_ptr(), flash.len(), first, blocks, part, klass) }
}

/// Serves one control transfer. Any values will do.
pub fn request(
    session: &mut Session,
    flash: &mut [u8],
    setup: &[u8],
    data: &[u8],
    reply: &mut [u8],
) -> Answer {
    // SAFETY: each pointer comes with its slice's own length; session, flash
    // and reply are borrowed for this call alone, so nothing overlaps with
    // them. Every pattern of bits is a session, so none can be a wrong value.
    unsafe {
        raw::mullirim_request(
            session,
            flash.as_mut_ptr(),
            flash.len(),
            setup.as_ptr(),
            setup.len(),
            data.as_ptr(),
            data.len(),
            reply.as_mut_ptr(),
            reply.len(),
        )
    }
}

/// The sum of the bytes, by the same proved function as the loader's sums.
pub fn sum(bytes: &[u8]) -> u32 {
    // SAFETY: the slice lends its bytes for the call, which only reads them.
    unsafe { raw::mullirim_sum(bytes.as_ptr(), bytes.len()) }
}

/// The sum of some bytes and of a block behind them, from the sum of each, by the
/// same proved function as the loader's whole sum.
pub fn join(before: u32, block: u32) -> u32 {
    // SAFETY: only numbers are handed over, and any will do.
    unsafe { raw::mullirim_join(before, block) }
}

#[cfg(test)]
mod tests {
    use super::*;
    use mullirim_host::dice::Dice;
    use mullirim_host::second::{self, BLOCK, MOST_BLOCKS};

    /// Every block that a session has a sum for, and not one more.
    #[test]
    fn the_most_blocks_are_the_librarys() {
        let flash = vec![0x5A; (MOST_BLOCKS + 1) * BLOCK as usize];
        let most = MOST_BLOCKS as u32;
        let (_, awaited) = second::start(&flash[BLOCK as usize..], 1, most, 7, 9);
        let started = start(&flash[BLOCK as usize..], 1, most, 7, 9);
        assert_eq!(started.code, 0);
        assert_eq!(second::Session::from(&started.session), awaited);
        assert_eq!(start(&flash, 1, most + 1, 7, 9).code, 2);
    }

    /// Cut down to 16 bits they would be allowed.
    #[test]
    fn wide_numbers_are_refused() {
        let flash = [0x5A; 4_096];
        assert_eq!(start(&flash, 2, 4, 0, 0).code, 0);
        for (first, blocks) in [(65_538, 4), (2, 65_540), (65_538, 131_076)] {
            let started = start(&flash, first, blocks, 0, 0);
            assert_eq!(started.code, 2);
            assert_eq!(
                started.session.bytes(),
                Session::from(&second::Session::zeros()).bytes()
            );
        }
    }

    /// The first and the last application that so many blocks can have.
    #[test]
    fn the_most_blocks_are_summed() {
        let most = MOST_BLOCKS as u32;
        let flash: Vec<u8> = (0..most * BLOCK).map(|i| (i * 7 + i / 256) as u8).collect();
        for first in [1, most - 1] {
            let started = start(&flash, first, most, 7, 9);
            let (_, awaited) = second::start(&flash, first, most, 7, 9);
            assert_eq!(started.code, 0);
            assert_eq!(second::Session::from(&started.session), awaited);
        }
    }

    #[test]
    fn a_query_is_answered() {
        let mut flash = vec![0x5A; 65_536];
        let mut started = start(&flash, 16, 64, 0, 0);
        let mut reply = [0xEE; 1_024];
        let setup = [0xA1, 0x42, 0x23, 0, 0, 0, 4, 0];
        let answer = request(&mut started.session, &mut flash, &setup, &[], &mut reply);
        assert_eq!((started.code, answer.code, answer.count), (0, 0, 4));
        assert_eq!(reply[..5], [0x4D, 0x4C, 0x01, 0x20, 0xEE]);
    }

    /// What the header says of `unerased`: the address of the first byte that was
    /// found, which a refusal keeps, INFO reports at its end and RESET forgets.
    #[test]
    fn an_address_is_kept_and_reported() {
        let mut flash = vec![0xFF; 4_096];
        (flash[3_000], flash[3_001]) = (0xFE, 0);
        let mut session = start(&flash, 1, 4, 0, 0).session;
        let mut reply = [0xEE; 1_024];
        let mut asked = |setup: &[u8], data: &[u8]| {
            let answer = request(&mut session, &mut flash, setup, data, &mut reply);
            let said = &reply[..answer.count as usize];
            (answer.code, session.unerased, said.to_vec())
        };
        let (dnload, clear) = ([0x21, 1, 0, 0, 0, 0, 8, 0], [0x21, 4, 0, 0, 0, 0, 0, 0]);
        let found = |code| (code, 3_000, Vec::new());
        assert_eq!(asked(&dnload, &[3, 0, 1, 0, 0, 12, 0, 0]), found(3));
        assert_eq!(asked(&clear, &[]), found(0));
        assert_eq!(asked(&dnload, &[3, 0, 1, 0, 1, 12, 0, 0]), found(3));
        assert_eq!(asked(&clear, &[]), found(0));
        assert_eq!(asked(&dnload, &[5, 0, 0, 0, 0, 0, 0, 0]), found(0));
        asked(&[0xA1, 3, 0, 0, 0, 0, 6, 0], &[]);
        let (_, _, info) = asked(&[0xA1, 2, 0, 0, 0, 0, 25, 0], &[]);
        assert_eq!((info.len(), &info[20..]), (24, &[0xB8, 0x0B, 0, 0][..]));
        let none = (4, 0xFFFF_FFFF, Vec::new());
        assert_eq!(asked(&dnload, &[7, 0, 0, 0, 0, 0, 0, 0]), none);
    }

    /// Eight streams go over blocks of 32 to 1,024 bytes, so every length up to two of
    /// the largest and some more is tried, from each place beside a multiple of eight.
    #[test]
    fn a_sum_is_the_papers() {
        assert_eq!(sum(b"123456789"), 0x340B_C6D9);
        let bytes = Dice::new(3).bytes(7 + 49_152);
        for first in 0..8 {
            for length in (0..=2_100).chain([49_152]) {
                let lent = &bytes[first..][..length];
                assert_eq!(sum(lent), second::sum(lent), "{length} bytes from {first}");
            }
        }
    }

    #[test]
    fn a_join_is_the_second_loaders() {
        let mut dice = Dice::new(1);
        let ends = [0, 1, 1 << 31, u32::MAX];
        for (before, block) in ends.iter().flat_map(|a| ends.map(|b| (*a, b))) {
            assert_eq!(join(before, block), second::join(before, block));
        }
        for bit in 0..u32::BITS {
            assert_eq!(join(!(1 << bit), 0), second::join(!(1 << bit), 0));
        }
        for _ in 0..10_000 {
            let (before, block) = (dice.turn() as u32, dice.turn() as u32);
            assert_eq!(join(before, block), second::join(before, block));
        }
    }

    #[test]
    fn a_join_is_the_sum_over_both() {
        let mut dice = Dice::new(2);
        for length in [0, 1, 1_023, 1_024, 1_025, 5_000] {
            let bytes = dice.bytes(length + BLOCK);
            let (before, block) = bytes.split_at(length as usize);
            assert_eq!(join(sum(before), sum(block)), sum(&bytes));
        }
    }

    #[test]
    fn nothing_lent_is_unfit() {
        let mut started = start(&[], 0, 0, 0, 0);
        let answer = request(&mut started.session, &mut [], &[], &[], &mut []);
        assert_eq!((started.code, answer.code, answer.count), (2, 2, 0));
        assert_eq!(
            second::Session::from(&started.session),
            second::Session::zeros()
        );
    }
}
