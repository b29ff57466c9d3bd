//! Pseudo-random requests. They look at the session that they will meet, so that
//! more often than not its state takes them.

use crate::dice::Dice;
use crate::histories::SMALL;
use crate::lone;
use crate::second::{command, state, Session, BLOCK, ERASED, INFO_STREAM, MOST_BLOCKS};
use crate::sessions::{INFO_BEFORE_LAST, INFO_BYTES};
use crate::tape::{header, setup, QUERY};

/// The setup bytes and the data.
pub type Request = (Vec<u8>, Vec<u8>);

/// A request for a fit session.
pub fn choose(dice: &mut Dice, session: &Session, flash: &[u8]) -> Request {
    match dice.below(24) {
        0 => strange(dice),
        1..=2 => {
            let call = sensible(dice, session, flash);
            damaged(dice, call)
        }
        3 => any_request(dice),
        4 => border(dice, session),
        5 => misshapen(dice, session.state),
        _ => sensible(dice, session, flash),
    }
}

/// A request that the state allows, with one part of its form just wrong: its
/// type, its wIndex, its wLength by one, the query's wValue.
fn misshapen(dice: &mut Dice, state: u8) -> Request {
    let fitting = match (state, dice.below(2)) {
        (state::ERROR, 0) => (0x21, 4, 0),
        (state::ERROR, _) => (0xA1, 3, 6),
        (_, 0) => (0x21, 6, 0),
        _ => (0xA1, 2, [1, 1_024][dice.below(2) as usize]),
    };
    let anywhere = [(0xA1, 3, 6), (0xA1, 5, 1), (0xA1, 0x42, 4), (0x21, 1, 0)];
    let (kind, number, length) = match dice.below(6) {
        n @ 0..=3 => anywhere[n as usize],
        _ => fitting,
    };
    let (mut setup, data) = request(kind, number, length);
    if number == 0x42 {
        setup[2] = 0x23;
    }
    match dice.below(5) {
        0 => setup[0] ^= 0x80,
        1 => setup[4 + dice.below(2) as usize] = 1 << dice.below(8),
        2 => setup[6..8].copy_from_slice(&(length as u16 + 1).to_le_bytes()),
        3 => setup[6..8].copy_from_slice(&(length as u16).saturating_sub(1).to_le_bytes()),
        _ => setup[2 + dice.below(2) as usize] ^= 1 << dice.below(8),
    }
    (setup, data)
}

fn request(kind: u8, number: u8, length: u32) -> Request {
    (setup(kind, number, length as u16).to_vec(), Vec::new())
}

fn dnload(data: Vec<u8>) -> Request {
    (setup(0x21, 1, data.len() as u16).to_vec(), data)
}

/// A request of good form, with no thought for the state.
pub fn any_request(dice: &mut Dice) -> Request {
    match dice.below(9) {
        0 => dnload(Vec::new()),
        1 => {
            let length = 1 + dice.below(24);
            dnload(dice.bytes(length))
        }
        2 => request(0xA1, 2, 1 + dice.below(1_024)),
        3 => request(0xA1, 2, 1_024),
        4 => request(0xA1, 3, 6),
        5 => request(0x21, 4, 0),
        6 => request(0xA1, 5, 1),
        7 => request(0x21, 6, 0),
        _ => (QUERY.to_vec(), Vec::new()),
    }
}

/// Bytes that mean nothing, or next to it.
fn strange(dice: &mut Dice) -> Request {
    let kind = [0x21, 0xA1, 0x80, 0x00][dice.below(4) as usize];
    let number = [0, 1, 2, 3, 4, 5, 6, 7, 0x42][dice.below(9) as usize];
    match dice.below(5) {
        0 => (dice.bytes(8), Vec::new()),
        1 => request(kind, number, dice.below(8)),
        2 => request(0xA1, 2, [0, 1_025, 65_535][dice.below(3) as usize]),
        3 => {
            let length = [1_025, 1_025, 1_032, 2_048, 65_535][dice.below(5) as usize];
            dnload(dice.bytes(length))
        }
        _ => {
            let length = dice.below(12);
            (dice.bytes(length), Vec::new())
        }
    }
}

/// A length at a border: of the eight bytes of a command, of a request, of the
/// first data of a PROG, or of what the download still awaits.
fn border_length(dice: &mut Dice, left: u32) -> u32 {
    let left = left.min(2_000);
    let borders = [
        0,
        1,
        7,
        8,
        9,
        1_015,
        1_016,
        1_017,
        1_023,
        1_024,
        1_025,
        left.saturating_sub(1),
        left,
        left + 1,
    ];
    borders[dice.below(borders.len() as u32) as usize]
}

/// A transfer of such a length: an upload, any data, or a PROG at the start of
/// the application whose data is its length, one byte less or one more.
fn border(dice: &mut Dice, session: &Session) -> Request {
    let length = border_length(dice, session.down_left);
    if dice.below(3) == 0 {
        return request(0xA1, 2, length);
    }
    let mut data = dice.bytes(length);
    if dice.below(2) == 0 && length >= 8 {
        let named = (length - 8 + dice.below(3)).wrapping_sub(1);
        data[..8].copy_from_slice(&header(command::PROG, session.a as u16, named));
    }
    dnload(data)
}

/// A good call with one thing wrong, or with one ignored byte changed.
fn damaged(dice: &mut Dice, (mut setup, mut data): Request) -> Request {
    match dice.below(7) {
        0 => setup.truncate(dice.below(8) as usize),
        1 => setup.push(0),
        2 => data.push(0),
        3 => data.truncate(data.len() / 2),
        4 => setup[2 + dice.below(2) as usize] = 1 + dice.below(255) as u8,
        5 => setup[7] ^= 1 << dice.below(8),
        _ => setup[dice.below(8) as usize] ^= 1 << dice.below(8),
    }
    (setup, data)
}

fn sensible(dice: &mut Dice, session: &Session, flash: &[u8]) -> Request {
    let roll = dice.below(10);
    match (session.state, roll) {
        (_, 0) => any_status(dice),
        (state::IDLE, 1..=2) => upload(dice, session),
        (state::IDLE, 3..=5) if reads_the_last(session) => upload(dice, session),
        (state::IDLE, _) => dnload(a_command(dice, session, flash)),
        (state::DOWN_SYNC | state::MANIFEST_SYNC, 1) => any_request(dice),
        (state::DOWN_SYNC | state::MANIFEST_SYNC, _) => request(0xA1, 3, 6),
        (state::DOWN_IDLE, 1) if session.down_left > 0 => request(0x21, 6, 0),
        (state::DOWN_IDLE, _) => dnload(piece(dice, session.down_left)),
        (state::UP_IDLE, 1..=2) => request(0x21, 6, 0),
        (state::UP_IDLE, _) => upload(dice, session),
        _ => request(0x21, 4, 0),
    }
}

/// The chosen stream is the last of the most blocks, or the end of it: it is
/// seldom chosen, and soon another is.
fn reads_the_last(session: &Session) -> bool {
    let last = MOST_BLOCKS as u32 - 1;
    session.up_choice != INFO_STREAM && session.up_first == last
}

fn any_status(dice: &mut Dice) -> Request {
    match dice.below(3) {
        0 => request(0xA1, 3, 6),
        1 => request(0xA1, 5, 1),
        _ => (QUERY.to_vec(), Vec::new()),
    }
}

fn upload(dice: &mut Dice, session: &Session) -> Request {
    let stream = match (session.up_choice, session.up_prefix) {
        (INFO_STREAM, _) => INFO_BYTES,
        (_, prefix) => session.up_len + 8 * u32::from(prefix),
    };
    let left = stream - session.up_place;
    let length = match dice.below(16) {
        0 => 1_023,
        1 => 1,
        2..=4 => 1 + dice.below(1_024),
        5 if left < 1_024 => (left + dice.below(3)).saturating_sub(1).max(1),
        6..=8 if session.up_choice == INFO_STREAM => 1 + dice.below(INFO_BYTES),
        9 if session.up_choice == INFO_STREAM => {
            INFO_BEFORE_LAST.saturating_sub(session.up_place).max(1)
        }
        _ => 1_024,
    };
    request(0xA1, 2, length)
}

/// The next data of a download: mostly what it still awaits, now and then too
/// much, or a closing before its time.
fn piece(dice: &mut Dice, left: u32) -> Vec<u8> {
    let most = left.min(1_024);
    let length = match dice.below(12) {
        0 => 0,
        1 => (left + 1).min(1_024),
        2 if left >> 16 > 0 => 0,
        3..=5 if left > 0 && left % 65_536 == 0 => 0,
        2..=6 => dice.below(most + 1),
        _ => most,
    };
    some_data(dice, length)
}

/// What is written: anything, or bytes that leave the flash erased but for one.
fn some_data(dice: &mut Dice, length: u32) -> Vec<u8> {
    match dice.below(4) {
        0 => lone::data(dice, length),
        _ => dice.bytes(length),
    }
}

/// A command, now and then good but for its length: cut short, or with bytes
/// behind it that only a PROG may have.
fn a_command(dice: &mut Dice, session: &Session, flash: &[u8]) -> Vec<u8> {
    let mut data = whole_command(dice, session, flash);
    match dice.below(16) {
        0 => data.truncate(1 + dice.below(7) as usize),
        1 => {
            let more = 1 + dice.below(9) * dice.below(2);
            data.extend(dice.bytes(more));
        }
        // Only BIN reads it.
        2 => data[1] = [1, 2, 128, 255, dice.below(256) as u8][dice.below(5) as usize],
        _ => {}
    }
    data
}

fn whole_command(dice: &mut Dice, session: &Session, flash: &[u8]) -> Vec<u8> {
    // All of the most blocks are seldom erased at once.
    if session.b - session.a == MOST_BLOCKS as u32 - 1 && dice.below(2) == 0 {
        return whole_range(dice, session, flash);
    }
    let (block, count) = blocks(dice, session);
    match dice.below(25 + 10 * u32::from(session.b > SMALL)) {
        25..=28 => far(dice, session),
        29..=30 => up_to_the_first(dice, session, flash, command::CHECK),
        31..=32 => up_to_the_first(dice, session, flash, command::PROG),
        33..=34 => long_prog(dice, session, flash),
        0..=3 => header(command::ERASE, block, count).to_vec(),
        4..=11 => prog(dice, session, flash),
        12..=13 => ranged(dice, session, command::READ),
        14 => ranged(dice, session, command::CHECK),
        15 => check_erased(dice, session, flash),
        16 => header(command::INFO, block, count).to_vec(),
        17 => vec![
            command::BIN,
            [0, 0, 1, 2, 128][dice.below(5) as usize],
            1,
            2,
            3,
            4,
            5,
            6,
        ],
        18 => header(command::RESET, block, count).to_vec(),
        19..=20 => near_a_lone_byte(dice, session, flash, command::PROG),
        21..=23 => near_a_lone_byte(dice, session, flash, command::CHECK),
        _ => {
            let unknown = [0, 8, 9, 255, dice.below(256) as u8];
            header(unknown[dice.below(5) as usize], block, count).to_vec()
        }
    }
}

/// Blocks to erase: a few, often up to the very end. At times just outside of
/// the application, or numbers that would lie in it if they were cut short;
/// and the high half of the count is set, since ERASE must not read it.
fn blocks(dice: &mut Dice, session: &Session) -> (u16, u32) {
    let room = session.b - session.a;
    let offset = dice.below(room);
    let block = session.a + offset;
    let some = 1 + dice.below((room - offset).min(4));
    let (block, count) = match dice.below(20) {
        0 => (block, 0),
        1 => (block, room - offset + 1),
        2..=3 => (block, room - offset),
        4 => (session.a - 1, some),
        5 => (session.b * dice.below(2), 1),
        6 => (block + 256 * (1 + dice.below(255)), some),
        7 => (block, some + 256 * (1 + dice.below(255))),
        8 => (block, some + 16_384 * (1 + dice.below(3))),
        _ => (block, some),
    };
    let high = match dice.below(6) {
        0 => dice.below(65_536) << 16,
        _ => 0,
    };
    (block as u16, count | high)
}

/// A block and length for READ or CHECK, near every edge of the application, or
/// numbers that would lie in it if they wrapped or were cut short.
fn ranged(dice: &mut Dice, session: &Session, number: u8) -> Vec<u8> {
    let room = session.b - session.a;
    let offset = dice.below(room);
    let bytes = (room - offset) * BLOCK;
    let block = (session.a + offset) as u16;
    let wide = (u32::BITS - bytes.leading_zeros()).max(16);
    let (block, length) = match dice.below(16) {
        0 => (block, 0),
        1 => (block, bytes + 1),
        2 => (block, u32::MAX - dice.below((session.b + 4) * BLOCK)),
        3 => (session.a as u16 - 1, 1 + dice.below(2_000)),
        4 => (session.b as u16, 1),
        5 => (dice.below(65_536) as u16, 1 + dice.below(2_000)),
        6 if dice.below(2) == 0 => (session.a as u16, room * BLOCK),
        6 => (block, bytes),
        9 => (0, 1 + dice.below(2_000)),
        7 => (block + 256, 1 + dice.below(bytes)),
        8 => (
            block,
            (1 + dice.below(bytes)) | 1 << (wide + dice.below(32 - wide)),
        ),
        10 => (block, 1 + dice.below(bytes)),
        _ => (block, 1 + dice.below(bytes.min(3_000))),
    };
    header(number, block, length).to_vec()
}

/// A command that names a range.
fn range_of(dice: &mut Dice, block: u32, bytes: u32) -> Vec<u8> {
    let (number, length) = match dice.below(4) {
        0 => (command::ERASE, bytes.div_ceil(BLOCK)),
        1 => (command::READ, bytes),
        2 => (command::CHECK, bytes),
        _ => (command::PROG, bytes),
    };
    header(number, block as u16, length).to_vec()
}

/// All of the application; where it is all erased, more often the CHECK that finds
/// it so.
fn whole_range(dice: &mut Dice, session: &Session, flash: &[u8]) -> Vec<u8> {
    let bytes = (session.b - session.a) * BLOCK;
    let (first, end) = (session.a * BLOCK, session.b * BLOCK);
    let application = &flash[first as usize..end as usize];
    if application.iter().all(|byte| *byte == ERASED) && dice.below(4) == 0 {
        return header(command::CHECK, session.a as u16, bytes).to_vec();
    }
    range_of(dice, session.a, bytes)
}

/// A command of a large flash, with a range that is long or at one of the borders
/// that a small one has not.
fn far(dice: &mut Dice, session: &Session) -> Vec<u8> {
    let (a, b) = (session.a, session.b);
    let block = a + dice.below(b - a);
    let across = a.max(SMALL - 1 - dice.below(2));
    let (block, bytes) = match dice.below(8) {
        0 => (block, (b - block) * BLOCK - dice.below(2)),
        1 => (across, 1 + dice.below((b - across) * BLOCK)),
        2 => (b - 1, BLOCK - dice.below(2)),
        3 => (b, 1),
        4 => (block, (b - block) * BLOCK + 1),
        5 => (block + 256, 1 + dice.below(BLOCK)),
        6 => (a - 1, 1 + dice.below(BLOCK)),
        _ => (block, 1 + dice.below(4_096) + ((1 + dice.below(4)) << 16)),
    };
    range_of(dice, block, bytes)
}

/// The first erased block from a random one on, and how many bytes are erased
/// from there without a break, up to four blocks.
fn erased_run(dice: &mut Dice, session: &Session, flash: &[u8]) -> Option<(u16, u32)> {
    let from = session.a + dice.below(session.b - session.a);
    let found = (from..session.b).find(|block| {
        let place = (block * BLOCK) as usize;
        flash[place..place + BLOCK as usize]
            .iter()
            .all(|byte| *byte == ERASED)
    })?;
    let rest = &flash[(found * BLOCK) as usize..];
    let run = rest.iter().take(4_096).take_while(|byte| **byte == ERASED);
    Some((found as u16, run.count() as u32))
}

fn check_erased(dice: &mut Dice, session: &Session, flash: &[u8]) -> Vec<u8> {
    match (dice.below(4), erased_run(dice, session, flash)) {
        (0..=1, _) => up_to_the_first(dice, session, flash, command::CHECK),
        (2, Some((block, run))) => header(command::CHECK, block, run + dice.below(2)).to_vec(),
        (_, Some((block, _))) => header(command::CHECK, block, 1 + dice.below(8)).to_vec(),
        _ => ranged(dice, session, command::CHECK),
    }
}

/// A range from the application's start, or a random block of it, up to the
/// first byte that is not erased, however far, or with that byte.
fn up_to_the_first(dice: &mut Dice, session: &Session, flash: &[u8], number: u8) -> Vec<u8> {
    let block = session.a + dice.below(session.b - session.a) * dice.below(2);
    let rest = &flash[(block * BLOCK) as usize..(session.b * BLOCK) as usize];
    let run = rest.iter().take_while(|byte| **byte == ERASED).count() as u32;
    let length = (run + dice.below(2)).clamp(1, rest.len() as u32);
    header(number, block as u16, length).to_vec()
}

/// A PROG with more data than its length would be if it were cut to 16 bits; where
/// too little is erased for that, one up to the first byte that is not.
fn long_prog(dice: &mut Dice, session: &Session, flash: &[u8]) -> Vec<u8> {
    let block = session.a + dice.below(session.b - session.a) * dice.below(2);
    let rest = &flash[(block * BLOCK) as usize..(session.b * BLOCK) as usize];
    let run = rest.iter().take_while(|byte| **byte == ERASED).count() as u32;
    if run >> 16 == 0 {
        return up_to_the_first(dice, session, flash, command::PROG);
    }
    let length = ((1 + dice.below(run >> 16)) << 16) + dice.below(9);
    let some = 10 + dice.below(30);
    let header = header(command::PROG, block as u16, length.min(run));
    [&header[..], &dice.bytes(some)].concat()
}

/// A range that ends near a byte which alone is not erased; for a PROG at times
/// with data. Where there is no such byte, one is written at times.
fn near_a_lone_byte(dice: &mut Dice, session: &Session, flash: &[u8], number: u8) -> Vec<u8> {
    if let Some((block, length)) = lone::range(dice, session, flash) {
        let data = match number {
            command::PROG => dice.below(3) / 2 * (1 + dice.below(length.min(8))),
            _ => 0,
        };
        return [&header(number, block as u16, length)[..], &dice.bytes(data)].concat();
    }
    match (dice.below(2), erased_run(dice, session, flash)) {
        (0, Some((block, _))) => {
            let data = lone::data(dice, 1_016);
            [&header(command::PROG, block, 1_016), &data[..]].concat()
        }
        _ => up_to_the_first(dice, session, flash, number),
    }
}

/// A PROG over erased flash where there is some, with first data that fits
/// its length most times.
fn prog(dice: &mut Dice, session: &Session, flash: &[u8]) -> Vec<u8> {
    let run = erased_run(dice, session, flash);
    let (block, run) = match (dice.below(18), run) {
        (3.., Some(found)) => found,
        (2, _) => return near_a_lone_byte(dice, session, flash, command::PROG),
        (1, _) => return up_to_the_first(dice, session, flash, command::PROG),
        _ => return prog_anywhere(dice, session),
    };
    let length = match dice.below(5) {
        0 => run + dice.below(2),
        1 => 1 + dice.below(40),
        _ => 1 + dice.below(run),
    };
    let first = match dice.below(10) {
        0 => (length + 1).min(1_016),
        1..=3 => 0,
        4 => length.min(1_016),
        _ => dice.below(length.min(1_016) + 1),
    };
    [
        header(command::PROG, block, length).to_vec(),
        some_data(dice, first),
    ]
    .concat()
}

/// A PROG wherever it falls, at times also with more data than its length.
fn prog_anywhere(dice: &mut Dice, session: &Session) -> Vec<u8> {
    let mut data = ranged(dice, session, command::PROG);
    if dice.below(2) == 0 {
        data[4..8].copy_from_slice(&[1 + dice.below(8) as u8, 0, 0, 0]);
    }
    let first = dice.below(16);
    data.extend(dice.bytes(first));
    data
}
