//! Sessions that no start and no request led to: fit ones, nearly fit ones, and
//! numbers thrown together.

use crate::dice::Dice;
use crate::histories::SMALL;
use crate::second::{joined, state, status, Session};
use crate::second::{BLOCK, FLASH_STREAM, INFO_STREAM, MOST_BLOCKS, NONE};

/// As many bytes has the info stream, and so many stand before its last number.
pub const INFO_BYTES: u32 = 24;
pub const INFO_BEFORE_LAST: u32 = 20;

const STATES: [u8; 6] = [
    state::IDLE,
    state::DOWN_SYNC,
    state::DOWN_IDLE,
    state::MANIFEST_SYNC,
    state::UP_IDLE,
    state::ERROR,
];

const STATUSES: [u8; 5] = [
    status::NOT_ERASED,
    status::ADDRESS,
    status::NOT_DONE,
    status::COMMAND,
    status::STALL,
];

/// A fit session for a flash of `b` blocks. Its sums and the address that a
/// search left are anything, since no rule judges them.
pub fn fit(dice: &mut Dice, b: u32) -> Session {
    let a = some_first(dice, b);
    let state = match dice.below(9) {
        6 => state::DOWN_IDLE,
        7..=8 => state::UP_IDLE,
        place => STATES[place as usize],
    };
    let mut session = Session {
        a,
        b,
        part0: dice.turn() as u32,
        part1: dice.turn() as u32,
        state,
        after: state::IDLE,
        unerased: some_address(dice, a, b),
        ..Session::zeros()
    };
    for sum in &mut session.sums {
        *sum = dice.turn() as u32;
    }
    session.whole = dice.turn() as u32;
    choose_phase(dice, &mut session);
    choose_upload(dice, &mut session);
    session
}

/// The first block of an application. That of a large flash is often a short one,
/// which is quickly summed, and often begins at a small address.
fn some_first(dice: &mut Dice, b: u32) -> u32 {
    match dice.below(8) {
        0..=3 if b > SMALL => b - 1 - dice.below(8),
        4..=5 if b > SMALL => 1 + dice.below(SMALL - 1),
        _ => 1 + dice.below(b - 1),
    }
}

/// What a search may have left, or could not have: an address of the application
/// with a liking for its ends, none, or a number of any size.
pub fn some_address(dice: &mut Dice, a: u32, b: u32) -> u32 {
    match dice.below(8) {
        0..=1 => NONE,
        2 => 0,
        3..=5 => between(dice, a * BLOCK, b * BLOCK - 1),
        6 => [a * BLOCK - 1, b * BLOCK, NONE - 1, a][dice.below(4) as usize],
        _ => dice.turn() as u32,
    }
}

/// Status, state after sync and download, as the state wants them.
fn choose_phase(dice: &mut Dice, session: &mut Session) {
    if session.state == state::ERROR {
        session.status = STATUSES[dice.below(5) as usize];
    }
    if session.state == state::DOWN_SYNC && dice.below(2) == 0 {
        session.after = state::DOWN_IDLE;
    }
    if session.state == state::DOWN_IDLE || session.after == state::DOWN_IDLE {
        let end = session.b * BLOCK;
        session.down_place = match dice.below(4) {
            // The next piece may go on behind address 65,536.
            0 if session.a < SMALL && SMALL < session.b => SMALL * BLOCK - 1 - dice.below(1_023),
            _ => between(dice, session.a * BLOCK, end),
        };
        session.down_left = between(dice, 0, end - session.down_place);
    }
}

fn choose_upload(dice: &mut Dice, session: &mut Session) {
    let offset = dice.below(session.b - session.a) * dice.below(2);
    session.up_choice = [FLASH_STREAM, INFO_STREAM][usize::from(dice.below(4) == 0)];
    session.up_prefix = dice.below(2) as u8;
    session.up_first = session.a + offset;
    let most = (session.b - session.up_first) * BLOCK;
    let least = match dice.below(3) {
        0..=1 if most > 1 << 16 => 1 << 16,
        _ => 1,
    };
    session.up_len = between(dice, least, most);
    if session.state == state::UP_IDLE {
        session.up_place = upload_place(dice, session);
    }
}

/// A place up to the stream's end, at times one from which address 65,536, place
/// 65,536, the last byte or the last of the info numbers is read.
fn upload_place(dice: &mut Dice, session: &Session) -> u32 {
    let prefix = 8 * u32::from(session.up_prefix);
    let end = stream_end(session);
    let before = (1_u32 << 16).saturating_sub(session.up_first * BLOCK);
    match dice.below(6) {
        0..=1 if (1_024..end).contains(&before) => before + prefix - 1 - dice.below(1_024),
        2 if end > 1 << 16 => (1 << 16) - 1 - dice.below(1_023),
        3 => end - 1 - dice.below(end.min(1_024)),
        4 if session.up_choice == INFO_STREAM => INFO_BEFORE_LAST,
        5 if session.up_choice == INFO_STREAM => INFO_BEFORE_LAST - 1 + dice.below(6),
        _ => between(dice, 0, end),
    }
}

fn stream_end(session: &Session) -> u32 {
    match session.up_choice {
        INFO_STREAM => INFO_BYTES,
        _ => session
            .up_len
            .wrapping_add(8 * u32::from(session.up_prefix)),
    }
}

/// A number from `least` to `most`, with a liking for the two ends and, where
/// there is one between them, for a multiple of 65,536.
fn between(dice: &mut Dice, least: u32, most: u32) -> u32 {
    let near = 1 + dice.below(9);
    let wide = (most >> 16) - (least >> 16);
    match dice.below(8) {
        0 => least,
        1 => most,
        2 => most - near.min(most - least),
        3 => least + near.min(most - least),
        roll @ 4..=6 if wide > 0 => {
            let multiple = ((least >> 16) + 1 + dice.below(wide)) << 16;
            match roll {
                4 => multiple,
                _ => (multiple - 1_024 + dice.below(2_048)).clamp(least, most),
            }
        }
        _ => least + dice.below(most - least + 1),
    }
}

/// Gives a fit session the right sums of its blocks, and makes some of them
/// wrong then: none, the whole one alone, that of one block with a liking for the
/// two ends, some, or all. Where a block's is wrong, the whole may be what the
/// wrong sums give, or right for the flash, or neither.
pub fn sum_nearly(dice: &mut Dice, session: &mut Session, right: &[u32]) {
    let (a, b) = (session.a as usize, session.b as usize);
    let right = &right[a..b];
    let kept = &mut session.sums[a..b];
    kept.copy_from_slice(right);
    session.whole = joined(right);
    let any = dice.below(b as u32 - a as u32) as usize;
    match dice.below(10) {
        0 => return,
        1 => {
            session.whole = another_sum(dice, session.whole);
            return;
        }
        2..=4 => kept[any] = another_sum(dice, kept[any]),
        5 => kept[0] = another_sum(dice, kept[0]),
        6 => kept[b - a - 1] = another_sum(dice, kept[b - a - 1]),
        7..=8 => {
            let some = kept.iter_mut().filter(|_| dice.below(4) == 0);
            some.for_each(|sum| *sum = !*sum);
        }
        _ => kept
            .iter_mut()
            .for_each(|sum| *sum = another_sum(dice, *sum)),
    }
    match dice.below(3) {
        0 => session.whole = joined(kept),
        1 => session.whole = another_sum(dice, session.whole),
        _ => {}
    }
}

/// Another sum than this one: by a bit, at an end of all sums, or any.
fn another_sum(dice: &mut Dice, sum: u32) -> u32 {
    let other = match dice.below(4) {
        0 => sum ^ 1 << dice.below(32),
        1 => 0,
        2 => u32::MAX,
        _ => dice.turn() as u32,
    };
    match other == sum {
        true => !sum,
        false => other,
    }
}

/// Every state, status and flag, and what lies between and beside them.
const BYTES: [u8; 18] = [
    0, 1, 2, 3, 4, 5, 6, 7, 8, 9, 10, 11, 12, 13, 14, 15, 16, 255,
];

/// A session with one field changed. Mostly that breaks a rule; where it
/// doesn't, the session is to be served.
pub fn altered(dice: &mut Dice, mut session: Session) -> Session {
    let number = strange_number(dice, &session);
    let end = session.b.wrapping_mul(BLOCK);
    let roll = dice.below(12);
    // As far as a number may go, or a little further.
    let past = |most: u32| match roll {
        0..4 => most.wrapping_add(roll),
        _ => number,
    };
    let byte = match dice.below(2) {
        0 => BYTES[dice.below(BYTES.len() as u32) as usize],
        _ => STATES[dice.below(6) as usize],
    };
    match dice.below(15) {
        0 => session.a = number,
        1 => session.b = number,
        2 => session.state = byte,
        3 => session.status = byte,
        4 => session.after = byte,
        5 => session.down_place = number,
        6 => session.down_left = past(end.wrapping_sub(session.down_place)),
        7 => session.up_choice = byte,
        8 => session.up_prefix = byte,
        9 => session.up_first = number,
        10 => session.up_len = past(end.wrapping_sub(session.up_first.wrapping_mul(BLOCK))),
        // Few sessions are amid the info bytes: each is put to its end or just past it.
        11 if session.up_choice == INFO_STREAM && roll < 9 => {
            session.up_place = INFO_BYTES + u32::from(roll % 3 > 0);
        }
        11 => session.up_place = past(stream_end(&session)),
        12 => session.unerased = number,
        13 => session.sums[dice.below(MOST_BLOCKS as u32) as usize] = number,
        _ => session.whole = number,
    }
    session
}

/// A number near a border of the session's own: its blocks, its addresses, its
/// read range, the ends of 32 bits, a block whose address would wrap into the
/// application, or a number that would be one of these if it were cut to 8 or 16
/// bits.
fn strange_number(dice: &mut Dice, session: &Session) -> u32 {
    let (start, end) = (session.a.wrapping_mul(BLOCK), session.b.wrapping_mul(BLOCK));
    let borders = [
        0,
        session.a,
        session.b,
        start,
        end,
        end.wrapping_sub(session.down_place),
        end.wrapping_sub(session.down_left),
        end.wrapping_sub(session.up_first.wrapping_mul(BLOCK)),
        session.up_len,
        session.up_len.wrapping_add(8),
        INFO_BYTES,
        MOST_BLOCKS as u32,
        MOST_BLOCKS as u32 * BLOCK,
        session.up_first.wrapping_add(1 << 22),
        u32::MAX,
        session.a.wrapping_add(1 << 8),
        session.b.wrapping_add(1 << 8),
        session.up_first.wrapping_add(1 << 8),
        start.wrapping_add(1 << 16),
        session.down_place.wrapping_add(1 << 16),
        session.down_left.wrapping_add(1 << 16),
        session.up_place.wrapping_add(1 << 16),
        session.up_len.wrapping_add(1 << 16),
    ];
    let border = borders[dice.below(borders.len() as u32) as usize];
    border.wrapping_add(dice.below(3)).wrapping_sub(1)
}

/// Numbers thrown together.
pub fn junk(dice: &mut Dice) -> Session {
    let mut session = Session::zeros();
    for _ in 0..8 {
        session = altered(dice, session);
    }
    session
}

#[cfg(test)]
mod tests {
    use super::*;

    #[test]
    fn fit_sessions_fit() {
        let mut dice = Dice::new(1);
        for b in 2..=MOST_BLOCKS as u32 {
            for _ in 0..100 {
                let session = fit(&mut dice, b);
                assert!(session.fits(), "{session:?}");
            }
        }
    }

    /// None, 0, the application's first and last byte, and others; a quarter or more
    /// are addresses of the application.
    #[test]
    fn any_address_may_have_been_found() {
        let mut dice = Dice::new(4);
        let mut seen = [0; 5];
        for _ in 0..4_000 {
            seen[match some_address(&mut dice, 2, 9) {
                NONE => 0,
                0 => 1,
                2_048 => 2,
                9_215 => 3,
                _ => 4,
            }] += 1;
        }
        assert!(seen.iter().all(|times| *times > 100), "{seen:?}");
        let all = (0..4_000).map(|_| some_address(&mut dice, 2, 9));
        assert!(all.filter(|found| (2_048..9_216).contains(found)).count() > 1_000);
    }

    /// How many are wrong, and whether the whole is then right for the flash or
    /// what the sums give.
    #[test]
    fn sums_are_nearly_right() {
        let mut dice = Dice::new(3);
        let right: Vec<u32> = (0..9).map(|_| dice.turn() as u32).collect();
        let whole = joined(&right[2..]);
        let mut seen = [[0; 3]; 8];
        for _ in 0..4_000 {
            let mut session = Session {
                a: 2,
                b: 9,
                ..fit(&mut dice, 9)
            };
            let outside = session.sums;
            sum_nearly(&mut dice, &mut session, &right);
            assert_eq!(session.sums[..2], outside[..2]);
            assert_eq!(session.sums[9..], outside[9..]);
            let kept = &session.sums[2..9];
            let wrong = kept.iter().zip(&right[2..]).filter(|(a, b)| a != b);
            let place = match session.whole {
                sum if sum == whole => 0,
                sum if sum == joined(kept) => 1,
                _ => 2,
            };
            seen[wrong.count()][place] += 1;
        }
        assert!(seen[0][0] > 20 && seen[0][1] == 0 && seen[0][2] > 20);
        let some = [1, 2, 3, 7].iter().flat_map(|count| seen[*count]);
        assert!(some.into_iter().all(|times| times > 20), "{seen:?}");
    }

    /// In every state, so that no rule is tried in one state alone.
    #[test]
    fn altered_sessions_are_both_fit_and_unfit() {
        let mut dice = Dice::new(2);
        for wanted in STATES {
            let mut seen = [false; 2];
            for _ in 0..2_000 {
                let session = fit(&mut dice, 9);
                if session.state == wanted {
                    seen[usize::from(altered(&mut dice, session).fits())] = true;
                }
            }
            assert_eq!(seen, [true, true]);
        }
    }
}
