//! A second loader, written from the two papers alone: that of the scope, and that
//! of further requests as far as they have landed. It is kept as plain as can be
//! (no table, no state machine tricks) because its only use is to disagree with
//! the first one wherever one of the two misreads a paper.

mod whole;

use std::ops::Range;
pub use whole::{join, joined};

pub const BLOCK: u32 = 1_024;
pub const ERASED: u8 = 0xFF;
pub const MOST_BLOCKS: usize = 256;
/// The largest request, and the least room a reply buffer may have.
pub const TRANSFER: usize = 1_024;

pub mod answer {
    pub const TAKEN: u8 = 0;
    pub const STALLED: u8 = 1;
    pub const UNFIT: u8 = 2;
    pub const FAULTED: u8 = 3;
    pub const RESET_ASKED: u8 = 4;
}

pub mod state {
    pub const IDLE: u8 = 2;
    pub const DOWN_SYNC: u8 = 3;
    pub const DOWN_IDLE: u8 = 5;
    pub const MANIFEST_SYNC: u8 = 6;
    pub const UP_IDLE: u8 = 9;
    pub const ERROR: u8 = 10;
}

pub mod status {
    pub const OK: u8 = 0x00;
    pub const NOT_ERASED: u8 = 0x05;
    pub const ADDRESS: u8 = 0x08;
    pub const NOT_DONE: u8 = 0x09;
    pub const COMMAND: u8 = 0x0B;
    pub const STALL: u8 = 0x0F;
}

pub mod command {
    pub const PROG: u8 = 1;
    pub const READ: u8 = 2;
    pub const CHECK: u8 = 3;
    pub const ERASE: u8 = 4;
    pub const INFO: u8 = 5;
    pub const BIN: u8 = 6;
    pub const RESET: u8 = 7;
    pub const LENGTH: usize = 8;
}

/// What the upload's choice may be.
pub const FLASH_STREAM: u8 = 0;
pub const INFO_STREAM: u8 = 1;

const INFO_LENGTH: u64 = 24;

/// What stands for an address where a search found no byte.
pub const NONE: u32 = 0xFFFF_FFFF;

/// The session. Every number is open, so that broken sessions can be tried.
#[derive(Clone, Debug, PartialEq, Eq)]
pub struct Session {
    pub a: u32,
    pub b: u32,
    pub part0: u32,
    pub part1: u32,
    pub state: u8,
    pub status: u8,
    pub after: u8,
    pub down_place: u32,
    pub down_left: u32,
    pub up_choice: u8,
    pub up_prefix: u8,
    pub up_first: u32,
    pub up_len: u32,
    pub up_place: u32,
    /// What the last search found. It is kept to be told alone: no rule judges
    /// it and nothing hangs on it.
    pub unerased: u32,
    pub sums: [u32; MOST_BLOCKS],
    pub whole: u32,
}

/// What one call leaves, beside the flash and the reply buffer.
#[derive(Clone, Debug, PartialEq, Eq)]
pub struct Outcome {
    pub answer: u8,
    pub count: u32,
    pub session: Session,
}

/// Where a sum starts.
pub const NOTHING_SUMMED: u32 = 0xFFFF_FFFF;

/// The sum of the DFU file suffix, bit by bit.
pub fn sum(bytes: &[u8]) -> u32 {
    bytes
        .iter()
        .fold(NOTHING_SUMMED, |rest, byte| taken_in(rest, *byte))
}

/// A sum with one more byte.
pub fn taken_in(rest: u32, byte: u8) -> u32 {
    (0..8).fold(rest ^ u32::from(byte), |rest, _| {
        (rest >> 1) ^ (0xEDB8_8320 * (rest & 1))
    })
}

/// A fresh start.
pub fn start(flash: &[u8], a: u32, b: u32, part0: u32, part1: u32) -> (u8, Session) {
    if !layout_fits(a, b) || flash.len() as u64 != bytes_of(b) {
        return (answer::UNFIT, Session::zeros());
    }
    let bare = Session {
        a,
        b,
        part0,
        part1,
        ..Session::zeros()
    };
    let mut session = bare.fresh();
    session.refresh_sums(flash, a..b);
    (answer::TAKEN, session)
}

/// One request, for any inputs at all.
pub fn step(
    session: &Session,
    flash: &mut [u8],
    setup: &[u8],
    data: &[u8],
    reply: &mut [u8],
) -> Outcome {
    let setup = match fit_setup(session, flash, setup, data, reply) {
        Some(setup) => setup,
        None => return silent(answer::UNFIT, session.clone()),
    };
    match setup.request() {
        Some(request) if request.allowed(session.state, data.len()) => {
            serve(session, flash, request, setup.length, data, reply)
        }
        _ => stalled(session),
    }
}

impl Session {
    /// What a refused start hands back; no state is 0, so it never fits.
    pub fn zeros() -> Session {
        Session {
            a: 0,
            b: 0,
            part0: 0,
            part1: 0,
            state: 0,
            status: 0,
            after: 0,
            down_place: 0,
            down_left: 0,
            up_choice: FLASH_STREAM,
            up_prefix: 0,
            up_first: 0,
            up_len: 0,
            up_place: 0,
            unerased: 0,
            sums: [0; MOST_BLOCKS],
            whole: 0,
        }
    }

    /// As after a fresh start; the sums are those already kept.
    fn fresh(&self) -> Session {
        Session {
            state: state::IDLE,
            status: status::OK,
            after: state::IDLE,
            down_place: 0,
            down_left: 0,
            up_choice: FLASH_STREAM,
            up_prefix: 1,
            up_first: self.a,
            up_len: (self.b - self.a) * BLOCK,
            up_place: 0,
            unerased: NONE,
            ..self.clone()
        }
    }

    /// The paper's rules for a session.
    pub fn fits(&self) -> bool {
        layout_fits(self.a, self.b)
            && self.state_fits()
            && self.download_fits()
            && self.upload_fits()
    }

    fn state_fits(&self) -> bool {
        use state::*;
        let known = [IDLE, DOWN_SYNC, DOWN_IDLE, MANIFEST_SYNC, UP_IDLE, ERROR];
        let status_fits = match self.state {
            ERROR => [0x05, 0x08, 0x09, 0x0B, 0x0F].contains(&self.status),
            _ => self.status == status::OK,
        };
        let after_fits = match self.state {
            DOWN_SYNC => self.after == IDLE || self.after == DOWN_IDLE,
            _ => self.after == IDLE,
        };
        known.contains(&self.state) && status_fits && after_fits
    }

    fn download_runs(&self) -> bool {
        self.state == state::DOWN_IDLE
            || (self.state == state::DOWN_SYNC && self.after == state::DOWN_IDLE)
    }

    fn download_fits(&self) -> bool {
        if !self.download_runs() {
            return self.down_place == 0 && self.down_left == 0;
        }
        let place = u64::from(self.down_place);
        let end = place + u64::from(self.down_left);
        bytes_of(self.a) <= place && place <= bytes_of(self.b) && end <= bytes_of(self.b)
    }

    fn upload_fits(&self) -> bool {
        let range_fits = application_range(self, self.up_first, self.up_len).is_some();
        let place_fits = match self.state {
            state::UP_IDLE => u64::from(self.up_place) <= self.stream_length(),
            _ => self.up_place == 0,
        };
        self.up_choice <= 1 && self.up_prefix <= 1 && range_fits && place_fits
    }

    fn stream_length(&self) -> u64 {
        match (self.up_choice, self.up_prefix) {
            (INFO_STREAM, _) => INFO_LENGTH,
            (_, 0) => u64::from(self.up_len),
            _ => u64::from(self.up_len) + command::LENGTH as u64,
        }
    }

    /// All the bytes an upload begun now would give.
    fn stream(&self, flash: &[u8]) -> Vec<u8> {
        if self.up_choice == INFO_STREAM {
            return self.info();
        }
        let start = (self.up_first * BLOCK) as usize;
        let mut stream = Vec::new();
        if self.up_prefix == 1 {
            stream.extend([command::PROG, 0]);
            stream.extend((self.up_first as u16).to_le_bytes());
            stream.extend(self.up_len.to_le_bytes());
        }
        stream.extend(&flash[start..start + self.up_len as usize]);
        stream
    }

    fn info(&self) -> Vec<u8> {
        let mut info = Vec::new();
        info.extend((BLOCK as u16).to_le_bytes());
        info.extend((self.b as u16).to_le_bytes());
        info.extend(self.part0.to_le_bytes());
        info.extend(self.part1.to_le_bytes());
        info.extend((self.b * BLOCK).to_le_bytes());
        info.extend((self.a * BLOCK).to_le_bytes());
        info.extend(self.unerased.to_le_bytes());
        info
    }

    /// This session moved to another state: a download lives on in state 5
    /// only, an upload's place in state 9 only.
    fn entering(&self, state: u8) -> Session {
        let mut next = Session {
            state,
            status: status::OK,
            after: state::IDLE,
            ..self.clone()
        };
        if state != state::DOWN_IDLE {
            next.down_place = 0;
            next.down_left = 0;
        }
        if state != state::UP_IDLE {
            next.up_place = 0;
        }
        next
    }

    fn failing(&self, status: u8) -> Session {
        Session {
            status,
            ..self.entering(state::ERROR)
        }
    }

    /// Only these blocks are read. The sums of the others stay as they were
    /// lent, and the whole is what the sums give, be they right or wrong.
    fn refresh_sums(&mut self, flash: &[u8], blocks: Range<u32>) {
        for block in blocks {
            let first = (block * BLOCK) as usize;
            self.sums[block as usize] = sum(&flash[first..first + BLOCK as usize]);
        }
        self.whole = joined(&self.sums[self.a as usize..self.b as usize]);
    }
}

fn bytes_of(blocks: u32) -> u64 {
    u64::from(blocks) * u64::from(BLOCK)
}

fn layout_fits(a: u32, b: u32) -> bool {
    1 <= a && a < b && b as usize <= MOST_BLOCKS
}

/// The bytes of a range of the application. Reckoned in 64 bits, so that no
/// block or length of 32 bits can wrap into it.
fn application_range(session: &Session, block: u32, length: u32) -> Option<Range<usize>> {
    let first = bytes_of(block);
    let end = first + u64::from(length);
    let inside = bytes_of(session.a) <= first && end <= bytes_of(session.b);
    (length > 0 && inside).then_some(first as usize..end as usize)
}

fn number(bytes: &[u8]) -> u32 {
    bytes
        .iter()
        .rev()
        .fold(0, |high, byte| high << 8 | u32::from(*byte))
}

struct Setup {
    kind: u8,
    number: u8,
    value: u32,
    index: u32,
    length: usize,
}

#[derive(Clone, Copy)]
enum Request {
    Dnload,
    Upload,
    GetStatus,
    ClrStatus,
    GetState,
    Abort,
    Query,
}

/// The setup taken apart, or nothing where the call is unfit.
fn fit_setup(
    session: &Session,
    flash: &[u8],
    setup: &[u8],
    data: &[u8],
    reply: &[u8],
) -> Option<Setup> {
    if setup.len() != 8 || reply.len() < TRANSFER {
        return None;
    }
    let setup = Setup {
        kind: setup[0],
        number: setup[1],
        value: number(&setup[2..4]),
        index: number(&setup[4..6]),
        length: number(&setup[6..8]) as usize,
    };
    let awaited = match (setup.kind, setup.number) {
        (0x21, 1) => setup.length,
        _ => 0,
    };
    let fits = session.fits() && flash.len() as u64 == bytes_of(session.b) && data.len() == awaited;
    fits.then_some(setup)
}

impl Setup {
    /// The request whose form this setup has, if any.
    fn request(&self) -> Option<Request> {
        if self.index != 0 {
            return None;
        }
        match (self.kind, self.number, self.length) {
            (0x21, 1, 0..=1_024) => Some(Request::Dnload),
            (0xA1, 2, 1..=1_024) => Some(Request::Upload),
            (0xA1, 3, 6) => Some(Request::GetStatus),
            (0x21, 4, 0) => Some(Request::ClrStatus),
            (0xA1, 5, 1) => Some(Request::GetState),
            (0x21, 6, 0) => Some(Request::Abort),
            (0xA1, 0x42, 4) if self.value == 0x23 => Some(Request::Query),
            _ => None,
        }
    }
}

impl Request {
    fn allowed(self, state: u8, data: usize) -> bool {
        use state::*;
        match self {
            Request::Dnload => (state == IDLE && data != 0) || state == DOWN_IDLE,
            Request::Upload => state == IDLE || state == UP_IDLE,
            Request::ClrStatus => state == ERROR,
            Request::Abort => state != ERROR,
            Request::GetStatus | Request::GetState | Request::Query => true,
        }
    }
}

/// An answer that puts nothing in the reply buffer.
fn silent(answer: u8, session: Session) -> Outcome {
    Outcome {
        answer,
        count: 0,
        session,
    }
}

fn stalled(session: &Session) -> Outcome {
    let next = match session.state {
        state::ERROR => session.clone(),
        _ => session.failing(status::STALL),
    };
    silent(answer::STALLED, next)
}

fn replied(session: Session, bytes: &[u8], reply: &mut [u8]) -> Outcome {
    reply[..bytes.len()].copy_from_slice(bytes);
    Outcome {
        answer: answer::TAKEN,
        count: bytes.len() as u32,
        session,
    }
}

fn serve(
    session: &Session,
    flash: &mut [u8],
    request: Request,
    length: usize,
    data: &[u8],
    reply: &mut [u8],
) -> Outcome {
    match request {
        Request::Dnload => download(session, flash, data),
        Request::Upload => upload(session, flash, length, reply),
        Request::GetStatus => get_status(session, reply),
        Request::ClrStatus | Request::Abort => silent(answer::TAKEN, session.entering(state::IDLE)),
        Request::GetState => replied(session.clone(), &[session.state], reply),
        Request::Query => replied(session.clone(), &[0x4D, 0x4C, 0x01, 0x20], reply),
    }
}

fn get_status(session: &Session, reply: &mut [u8]) -> Outcome {
    let next = match session.state {
        state::DOWN_SYNC => session.entering(session.after),
        state::MANIFEST_SYNC => session.entering(state::IDLE),
        _ => session.clone(),
    };
    let bytes = [next.status, 0, 0, 0, next.state, 0];
    replied(next, &bytes, reply)
}

fn upload(session: &Session, flash: &[u8], length: usize, reply: &mut [u8]) -> Outcome {
    let stream = session.stream(flash);
    // In state 2 the place is zero, by the session's rules.
    let place = session.up_place as usize;
    let end = stream.len().min(place + length);
    let mut next = session.entering(state::IDLE);
    if length == TRANSFER {
        next = session.entering(state::UP_IDLE);
        next.up_place = end as u32;
    }
    replied(next, &stream[place..end], reply)
}

/// A download's outcome: the next session, or the status of its fault.
type Done = Result<Session, u8>;

fn download(session: &Session, flash: &mut [u8], data: &[u8]) -> Outcome {
    // What a search finds is noted here, since a fault keeps it too.
    let mut noted = session.clone();
    let done = match session.state {
        state::IDLE => obey(&mut noted, flash, data),
        _ => go_on(session, flash, data),
    };
    match done {
        // Of all downloads only RESET ends in state 2.
        Ok(next) if next.state == state::IDLE => silent(answer::RESET_ASKED, next),
        Ok(next) => silent(answer::TAKEN, next),
        Err(status) => silent(answer::FAULTED, noted.failing(status)),
    }
}

/// A DNLOAD in state 2: one command.
fn obey(session: &mut Session, flash: &mut [u8], data: &[u8]) -> Done {
    let (header, rest) = data
        .split_at_checked(command::LENGTH)
        .ok_or(status::COMMAND)?;
    if header[0] != command::PROG && !rest.is_empty() {
        return Err(status::COMMAND);
    }
    let next = session.entering(state::DOWN_SYNC);
    match header[0] {
        command::PROG => prog(session, flash, header, rest),
        command::READ => read(next, header),
        command::CHECK => check(session, flash, header),
        command::ERASE => erase(next, flash, header),
        command::INFO => Ok(Session {
            up_choice: INFO_STREAM,
            ..next
        }),
        command::BIN => Ok(Session {
            up_prefix: u8::from(header[1] == 0),
            ..next
        }),
        command::RESET => Ok(session.fresh()),
        _ => Err(status::COMMAND),
    }
}

fn named_range(session: &Session, header: &[u8]) -> Result<Range<usize>, u8> {
    let block = number(&header[2..4]);
    let length = number(&header[4..8]);
    application_range(session, block, length).ok_or(status::ADDRESS)
}

/// The address of the first byte of a range that is not erased.
fn first_unerased(flash: &[u8], range: Range<usize>) -> Option<usize> {
    let mut bytes = flash[range.clone()].iter();
    let place = bytes.position(|byte| *byte != ERASED)?;
    Some(range.start + place)
}

/// Notes what a search of the range finds, be it a byte or none.
fn demand_erased(session: &mut Session, flash: &[u8], range: Range<usize>) -> Result<(), u8> {
    let found = first_unerased(flash, range);
    session.unerased = found.map_or(NONE, |address| address as u32);
    match found {
        None => Ok(()),
        Some(_) => Err(status::NOT_ERASED),
    }
}

fn prog(session: &mut Session, flash: &mut [u8], header: &[u8], first: &[u8]) -> Done {
    let range = named_range(session, header)?;
    if first.len() > range.len() {
        return Err(status::ADDRESS);
    }
    demand_erased(session, flash, range.clone())?;
    Ok(write(session, flash, range, first))
}

fn read(next: Session, header: &[u8]) -> Done {
    let range = named_range(&next, header)?;
    Ok(Session {
        up_choice: FLASH_STREAM,
        up_first: number(&header[2..4]),
        up_len: range.len() as u32,
        ..next
    })
}

fn check(session: &mut Session, flash: &[u8], header: &[u8]) -> Done {
    let range = named_range(session, header)?;
    demand_erased(session, flash, range)?;
    Ok(session.entering(state::DOWN_SYNC))
}

fn erase(mut next: Session, flash: &mut [u8], header: &[u8]) -> Done {
    let block = number(&header[2..4]);
    // Both numbers have 16 bits, so neither the product nor the sum wraps.
    let count = number(&header[4..6]);
    let range = application_range(&next, block, count * BLOCK).ok_or(status::ADDRESS)?;
    flash[range].fill(ERASED);
    next.refresh_sums(flash, block..block + count);
    Ok(next)
}

/// A DNLOAD in state 5.
fn go_on(session: &Session, flash: &mut [u8], data: &[u8]) -> Done {
    let place = session.down_place as usize;
    let left = session.down_left as usize;
    if data.len() > left {
        return Err(status::ADDRESS);
    }
    match (data.len(), left) {
        (0, 0) => Ok(session.entering(state::MANIFEST_SYNC)),
        (0, _) => Err(status::NOT_DONE),
        _ => Ok(write(session, flash, place..place + left, data)),
    }
}

/// Puts the next piece at the front of the places still to be filled. The sums
/// follow at once, for every block the piece touches, so that a download
/// dropped later leaves none behind.
fn write(session: &Session, flash: &mut [u8], places: Range<usize>, piece: &[u8]) -> Session {
    let end = places.start + piece.len();
    let mut next = Session {
        after: state::DOWN_IDLE,
        down_place: end as u32,
        down_left: (places.end - end) as u32,
        ..session.entering(state::DOWN_SYNC)
    };
    if !piece.is_empty() {
        flash[places.start..end].copy_from_slice(piece);
        let first = places.start as u32 / BLOCK;
        let last = (end as u32 - 1) / BLOCK;
        next.refresh_sums(flash, first..last + 1);
    }
    next
}

#[cfg(test)]
mod tests {
    use super::*;

    const GETSTATUS: [u8; 8] = [0xA1, 3, 0, 0, 0, 0, 6, 0];
    const CLRSTATUS: [u8; 8] = [0x21, 4, 0, 0, 0, 0, 0, 0];
    const GETSTATE: [u8; 8] = [0xA1, 5, 0, 0, 0, 0, 1, 0];
    const ABORT: [u8; 8] = [0x21, 6, 0, 0, 0, 0, 0, 0];
    const UPLOAD: [u8; 8] = [0xA1, 2, 0, 0, 0, 0, 0, 4];

    /// A board with A = 16, B = 64, part numbers zero and the application erased.
    struct Board {
        session: Session,
        flash: Vec<u8>,
    }

    impl Board {
        fn fresh() -> Board {
            let mut flash = vec![ERASED; 65_536];
            flash[..16_384].fill(0x5A);
            let (answer, session) = start(&flash, 16, 64, 0, 0);
            assert_eq!(answer, 0);
            Board { session, flash }
        }

        /// One call. Whatever it was, what it leaves must fit, the sums must be
        /// those of the flash, and only the bytes counted may be written.
        fn call(&mut self, setup: &[u8], data: &[u8]) -> (u8, Vec<u8>) {
            let mut reply = [0xEE; 1_100];
            let out = step(&self.session, &mut self.flash, setup, data, &mut reply);
            let (said, rest) = reply.split_at(out.count as usize);
            assert!(rest.iter().all(|byte| *byte == 0xEE));
            self.session = out.session;
            assert!(self.session.fits());
            let (_, anew) = start(&self.flash, 16, 64, 0, 0);
            assert_eq!(self.session.sums, anew.sums);
            assert_eq!(self.session.whole, anew.whole);
            (out.answer, said.to_vec())
        }

        fn dnload(&mut self, data: &[u8]) -> u8 {
            let [low, high] = (data.len() as u16).to_le_bytes();
            self.call(&[0x21, 1, 0, 0, 0, 0, low, high], data).0
        }

        fn status(&mut self) -> Vec<u8> {
            self.call(&GETSTATUS, &[]).1
        }

        fn now(&self) -> (u8, u8) {
            (self.session.state, self.session.status)
        }

        /// Fresh, but for these bytes of the application.
        fn unerased_at(places: &[usize]) -> Board {
            let Board { mut flash, .. } = Board::fresh();
            places.iter().for_each(|place| flash[*place] = 0xFE);
            let (_, session) = start(&flash, 16, 64, 0, 0);
            Board { session, flash }
        }

        /// What INFO tells at its end, asked from whatever state.
        fn told(&mut self) -> [u8; 4] {
            self.call(&[0xA1, 2, 0, 0, 0, 0, 0, 0], &[]);
            self.call(&CLRSTATUS, &[]);
            assert_eq!(self.dnload(&[5, 0, 0, 0, 0, 0, 0, 0]), 0);
            self.status();
            let (_, info) = self.call(&UPLOAD, &[]);
            self.call(&ABORT, &[]);
            assert_eq!(info.len(), 24);
            info[20..].try_into().unwrap()
        }
    }

    #[test]
    fn sums_of_known_texts() {
        assert_eq!(sum(b"123456789"), 0x340B_C6D9);
        assert_eq!(sum(b""), 0xFFFF_FFFF);
        assert_eq!(sum(b"a"), !0xE8B7_BE43);
        assert_eq!(sum(b"abc"), !0x3524_41C2);
        assert_eq!(
            sum(b"The quick brown fox jumps over the lazy dog"),
            !0x414F_A339
        );
    }

    #[test]
    fn example_01_fresh_state() {
        let mut board = Board::fresh();
        assert_eq!(board.call(&GETSTATE, &[]), (0, vec![0x02]));
    }

    #[test]
    fn example_02_query() {
        let mut board = Board::fresh();
        let setup = [0xA1, 0x42, 0x23, 0x00, 0x00, 0x00, 0x04, 0x00];
        assert_eq!(board.call(&setup, &[]), (0, vec![0x4D, 0x4C, 0x01, 0x20]));
    }

    #[test]
    fn example_03_erase_all() {
        let mut board = Board::fresh();
        board.flash[16_384..].fill(0x11);
        board.session = start(&board.flash, 16, 64, 0, 0).1;
        let many = [0x04, 0x00, 0x10, 0x00, 0x31, 0x00, 0x00, 0x00];
        assert_eq!(board.dnload(&many), 3);
        assert_eq!(board.now(), (10, 0x08));
        assert!(board.flash[16_384..].iter().all(|byte| *byte == 0x11));
        board.call(&CLRSTATUS, &[]);
        let all = [0x04, 0x00, 0x10, 0x00, 0x30, 0x00, 0x00, 0x00];
        assert_eq!(board.dnload(&all), 0);
        assert_eq!(board.now(), (3, 0));
        assert!(board.flash[16_384..].iter().all(|byte| *byte == 0xFF));
        assert!(board.flash[..16_384].iter().all(|byte| *byte == 0x5A));
    }

    #[test]
    fn example_04_erase_below_the_application() {
        let mut board = Board::fresh();
        assert_eq!(board.dnload(&[4, 0, 15, 0, 1, 0, 0, 0]), 3);
        assert_eq!(board.now(), (10, 0x08));
        assert_eq!(board.flash[15 * 1_024], 0x5A);
    }

    #[test]
    fn example_05_prog_to_the_end() {
        let mut board = Board::fresh();
        assert_eq!(board.dnload(&[1, 0, 63, 0, 0x00, 0x04, 0, 0]), 0);
        assert_eq!(board.now(), (3, 0));
        let mut board = Board::fresh();
        assert_eq!(board.dnload(&[1, 0, 63, 0, 0x01, 0x04, 0, 0]), 3);
        assert_eq!(board.now(), (10, 0x08));
    }

    #[test]
    fn example_06_prog_of_nothing_and_of_too_much() {
        let mut board = Board::fresh();
        assert_eq!(board.dnload(&[1, 0, 16, 0, 0, 0, 0, 0]), 3);
        assert_eq!(board.now(), (10, 0x08));
        let mut board = Board::fresh();
        assert_eq!(board.dnload(&[1, 0, 16, 0, 0xFF, 0xFF, 0xFF, 0xFF]), 3);
        assert_eq!(board.now(), (10, 0x08));
    }

    #[test]
    fn example_07_seven_bytes() {
        let mut board = Board::fresh();
        assert_eq!(board.dnload(&[4, 0, 16, 0, 1, 0, 0]), 3);
        assert_eq!(board.status(), [0x0B, 0x00, 0x00, 0x00, 0x0A, 0x00]);
    }

    #[test]
    fn example_08_no_bytes() {
        let mut board = Board::fresh();
        assert_eq!(board.dnload(&[]), 1);
        assert_eq!(board.now(), (10, 0x0F));
    }

    #[test]
    fn example_09_one_byte_missing() {
        let mut board = Board::fresh();
        assert_eq!(board.dnload(&[1, 0, 16, 0, 3, 0, 0, 0, 0xAA, 0xBB]), 0);
        assert_eq!(board.status(), [0, 0, 0, 0, 5, 0]);
        assert_eq!(board.dnload(&[]), 3);
        assert_eq!(board.now(), (10, 0x09));
        assert_eq!(board.flash[16_384..16_387], [0xAA, 0xBB, 0xFF]);
    }

    #[test]
    fn example_10_prog_over_a_zero_byte() {
        let mut board = Board::fresh();
        board.flash[17_407] = 0;
        board.session = start(&board.flash, 16, 64, 0, 0).1;
        assert_eq!(board.dnload(&[1, 0, 16, 0, 0x00, 0x04, 0, 0, 0x77]), 3);
        assert_eq!(board.now(), (10, 0x05));
        assert_eq!(board.flash[16_384], 0xFF);
        assert_eq!(board.told(), [0xFF, 0x43, 0x00, 0x00]);
    }

    #[test]
    fn example_11_clearing() {
        let mut board = Board::fresh();
        assert_eq!(board.call(&CLRSTATUS, &[]).0, 1);
        assert_eq!(board.now(), (10, 0x0F));
        assert_eq!(board.call(&CLRSTATUS, &[]).0, 0);
        assert_eq!(board.now(), (2, 0));
    }

    #[test]
    fn example_12_upload_lengths() {
        let mut board = Board::fresh();
        assert_eq!(board.call(&[0xA1, 2, 0, 0, 0, 0, 0x01, 0x04], &[]).0, 1);
        let mut board = Board::fresh();
        assert_eq!(board.call(&UPLOAD, &[]).0, 0);
    }

    #[test]
    fn example_13_read_back() {
        let mut board = Board::fresh();
        assert_eq!(board.dnload(&[2, 0, 0x10, 0x00, 0xD0, 0x07, 0, 0]), 0);
        assert_eq!(board.status(), [0, 0, 0, 0, 2, 0]);
        let (_, first) = board.call(&UPLOAD, &[]);
        let prefix = [0x01, 0x00, 0x10, 0x00, 0xD0, 0x07, 0x00, 0x00];
        assert_eq!((first.len(), &first[..8]), (1_024, &prefix[..]));
        let (_, second) = board.call(&UPLOAD, &[]);
        assert_eq!(second.len(), 984);
        assert_eq!(first[8..], board.flash[16_384..17_400]);
        assert_eq!(second, board.flash[17_400..18_384]);
        assert_eq!(board.call(&UPLOAD, &[]), (0, vec![]));
        assert_eq!(board.now(), (9, 0));
        board.call(&ABORT, &[]);
        assert_eq!(board.dnload(&first), 0);
        assert_eq!(board.session.down_left, 984);
        assert_eq!(board.status()[4], 5);
        assert_eq!(board.dnload(&second), 0);
        assert_eq!(board.session.down_left, 0);
    }

    #[test]
    fn example_14_info() {
        let mut board = Board::fresh();
        assert_eq!(board.dnload(&[5, 0, 0, 0, 0, 0, 0, 0]), 0);
        assert_eq!(board.status()[4], 2);
        let mut info = vec![0x00, 0x04, 0x40, 0x00];
        info.extend([0; 8]);
        info.extend([0x00, 0x00, 0x01, 0x00, 0x00, 0x40, 0x00, 0x00]);
        info.extend([0xFF, 0xFF, 0xFF, 0xFF]);
        assert_eq!(board.call(&UPLOAD, &[]), (0, info));
    }

    #[test]
    fn a_piece_may_cross_into_the_next_block_and_be_dropped() {
        let mut board = Board::fresh();
        let mut first = vec![1, 0, 20, 0, 0xC4, 0x09, 0, 0];
        first.extend([0x31; 1_000]);
        assert_eq!(board.dnload(&first), 0);
        board.status();
        assert_eq!(board.dnload(&[0x32; 1_000]), 0);
        assert_eq!(
            (board.session.down_place, board.session.down_left),
            (22_480, 500)
        );
        assert_eq!(board.call(&ABORT, &[]).0, 0);
        assert_eq!(board.now(), (2, 0));
        assert_eq!(board.flash[22_479..22_481], [0x32, 0xFF]);
    }

    #[test]
    fn reset_keeps_what_the_paper_names() {
        let mut board = Board::fresh();
        let fresh = board.session.clone();
        assert_eq!(board.dnload(&[6, 9, 0, 0, 0, 0, 0, 0]), 0);
        board.status();
        assert_eq!(board.dnload(&[2, 0, 17, 0, 5, 0, 0, 0]), 0);
        board.status();
        assert_eq!(board.session.up_prefix, 0);
        assert_eq!(board.dnload(&[7, 1, 2, 3, 4, 5, 6, 7]), 4);
        assert_eq!(board.session, fresh);
    }

    /// Of blocks 16 to 63 these bytes are not erased: the first of block 18, and
    /// two in block 19.
    const PLACES: [usize; 3] = [18_432, 20_000, 20_001];

    /// A range with what a search of it must find.
    const SEARCHED: [(u8, u32, u32); 7] = [
        (18, 1, 18_432),
        (18, 3_000, 18_432),
        (16, 49_152, 18_432),
        (16, 2_049, 18_432),
        (19, 545, 20_000),
        (19, 546, 20_000),
        (19, 1_024, 20_000),
    ];

    #[test]
    fn a_search_keeps_the_first_address() {
        for (block, length, found) in SEARCHED {
            for (number, data) in [(3, &[][..]), (1, &[]), (1, &[7])] {
                let mut board = Board::unerased_at(&PLACES);
                let header = [&[number, 0, block, 0], &length.to_le_bytes()[..], data];
                assert_eq!(board.dnload(&header.concat()), 3);
                assert_eq!(board.now(), (10, 0x05));
                assert_eq!(board.session.unerased, found);
                assert_eq!(board.told(), found.to_le_bytes());
            }
        }
    }

    #[test]
    fn a_search_that_finds_none_says_so() {
        for clean in [
            &[3, 0, 16, 0, 0, 8, 0, 0][..],
            &[3, 0, 19, 0, 0x20, 2, 0, 0],
            &[1, 0, 16, 0, 0, 8, 0, 0],
            &[1, 0, 19, 0, 0x20, 2, 0, 0, 7],
        ] {
            let mut board = Board::unerased_at(&PLACES);
            assert_eq!(board.dnload(&[3, 0, 18, 0, 1, 0, 0, 0]), 3);
            board.call(&CLRSTATUS, &[]);
            assert_eq!(board.session.unerased, 18_432);
            assert_eq!(board.dnload(clean), 0);
            assert_eq!(board.session.unerased, 0xFFFF_FFFF);
            assert_eq!(board.told(), [0xFF; 4]);
        }
    }

    /// Commands that are refused before they search, or that never do.
    #[test]
    fn what_does_not_search_keeps_the_number() {
        let commands: [(u8, &[u8]); 14] = [
            (3, &[3, 0, 16, 0, 1, 0, 0]),
            (3, &[1]),
            (3, &[3, 0, 16, 0, 1, 0, 0, 0, 0]),
            (3, &[8, 0, 16, 0, 1, 0, 0, 0]),
            (3, &[3, 0, 15, 0, 1, 0, 0, 0]),
            (3, &[3, 0, 16, 0, 0, 0, 0, 0]),
            (3, &[1, 0, 63, 0, 1, 4, 0, 0]),
            (3, &[1, 0, 16, 0, 1, 0, 0, 0, 7, 7]),
            (3, &[1, 0, 18, 0, 1, 0, 0, 0, 7, 7]),
            (1, &[]),
            (0, &[2, 0, 18, 0, 1, 0, 0, 0]),
            (0, &[4, 0, 18, 0, 1, 0, 0, 0]),
            (0, &[5, 0, 18, 0, 1, 0, 0, 0]),
            (0, &[6, 1, 18, 0, 1, 0, 0, 0]),
        ];
        for number in [20_000, NONE, 0] {
            for (answer, command) in commands {
                let mut board = Board::unerased_at(&PLACES);
                board.session.unerased = number;
                assert_eq!(board.dnload(command), answer, "{command:?}");
                assert_eq!(board.session.unerased, number, "{command:?}");
                assert_eq!(board.told(), number.to_le_bytes());
            }
        }
    }

    /// In state 5, what came of the data is told by state and status.
    #[test]
    fn the_data_of_a_download_keeps_the_number() {
        let tries: [(u32, &[u8], (u8, u8)); 4] = [
            (3, &[7, 8], (3, 0)),
            (0, &[], (6, 0)),
            (1, &[7, 8], (10, 0x08)),
            (1, &[], (10, 0x09)),
        ];
        for (left, data, now) in tries {
            let mut board = Board::unerased_at(&PLACES);
            board.session.state = state::DOWN_IDLE;
            (board.session.down_place, board.session.down_left) = (16_384, left);
            board.session.unerased = 20_001;
            board.dnload(data);
            assert_eq!((board.now(), board.session.unerased), (now, 20_001));
        }
    }

    #[test]
    fn only_reset_and_a_fresh_start_forget_the_number() {
        let mut board = Board::unerased_at(&PLACES);
        assert_eq!(board.session.unerased, 0xFFFF_FFFF);
        board.session.unerased = 20_001;
        for setup in [GETSTATUS, GETSTATE, UPLOAD, ABORT, CLRSTATUS, CLRSTATUS] {
            board.call(&setup, &[]);
            assert_eq!(board.session.unerased, 20_001);
        }
        assert_eq!(board.dnload(&[7, 0, 0, 0, 0, 0, 0, 0]), 4);
        assert_eq!(board.session.unerased, 0xFFFF_FFFF);
    }

    /// The number that stands when the bytes are read, from each place of them.
    #[test]
    fn info_tells_the_number_in_parts_too() {
        let mut board = Board::fresh();
        board.session.up_choice = INFO_STREAM;
        board.session.unerased = 0x0A0B_0C0D;
        let info = board.session.info();
        assert_eq!(info[16..], [0, 0x40, 0, 0, 0x0D, 0x0C, 0x0B, 0x0A]);
        for place in 0..=24 {
            board.session.state = state::UP_IDLE;
            board.session.up_place = place;
            let read = info[place as usize..].to_vec();
            assert_eq!(board.call(&UPLOAD, &[]), (0, read));
            assert_eq!((board.now().0, board.session.up_place), (9, 24));
        }
        for length in 1..=25 {
            board.session.state = state::IDLE;
            board.session.up_place = 0;
            let read = info[..usize::from(length).min(24)].to_vec();
            let setup = [0xA1, 2, 0, 0, 0, 0, length, 0];
            assert_eq!(board.call(&setup, &[]), (0, read));
        }
        board.session.state = state::UP_IDLE;
        board.session.up_place = 25;
        assert!(!board.session.fits());
    }

    #[test]
    fn unfit_calls_change_nothing() {
        let mut board = Board::fresh();
        let before = (board.session.clone(), board.flash.clone());
        let long = [0x21, 1, 0, 0, 0, 0, 8, 0];
        assert_eq!(board.call(&GETSTATE[..7], &[]).0, 2);
        assert_eq!(board.call(&GETSTATE, &[0]).0, 2);
        assert_eq!(board.call(&long, &[4, 0, 16, 0, 1, 0, 0]).0, 2);
        let out = step(&before.0, &mut board.flash, &GETSTATE, &[], &mut [0; 1_023]);
        assert_eq!(
            (out.answer, out.count, out.session),
            (2, 0, before.0.clone())
        );
        let out = step(
            &before.0,
            &mut board.flash[1..],
            &GETSTATE,
            &[],
            &mut [0; 1_024],
        );
        assert_eq!(
            (out.answer, out.count, out.session),
            (2, 0, before.0.clone())
        );
        assert_eq!((board.session, board.flash), before);
    }

    #[test]
    fn broken_sessions_are_unfit() {
        let whole = Board::fresh().session;
        let breaks: [fn(&mut Session); 14] = [
            |s| s.a = 0,
            |s| s.a = 64,
            |s| s.b = MOST_BLOCKS as u32 + 1,
            |s| s.b = u32::MAX,
            |s| s.state = 4,
            |s| s.status = 0x0F,
            |s| s.state = 10,
            |s| s.after = 5,
            |s| s.down_left = 1,
            |s| s.up_place = 1,
            |s| s.up_choice = 2,
            |s| s.up_prefix = 2,
            |s| s.up_len = 0,
            |s| s.up_first = u32::MAX,
        ];
        for harm in breaks {
            let mut broken = whole.clone();
            harm(&mut broken);
            assert!(!broken.fits());
        }
    }

    #[test]
    fn no_rule_judges_the_number() {
        let mut session = Board::fresh().session;
        for number in [0, 1, 16_383, 16_384, 65_536, 1 << 31, u32::MAX] {
            session.unerased = number;
            assert!(session.fits());
        }
    }

    #[test]
    fn a_running_download_stays_in_the_application() {
        let mut session = Board::fresh().session;
        session.state = state::DOWN_IDLE;
        for (place, left, fits) in [
            (16_384, 49_152, true),
            (65_536, 0, true),
            (16_383, 0, false),
            (65_537, 0, false),
            (65_536, 1, false),
            (65_536, u32::MAX, false),
        ] {
            session.down_place = place;
            session.down_left = left;
            assert_eq!(session.fits(), fits);
        }
    }

    /// ERASE of one block, with what no call led to in the session.
    fn erased(session: &Session, flash: &mut [u8], block: u8) -> Session {
        let asked = [4, 0, block, 0, 1, 0, 0, 0];
        let setup = [0x21, 1, 0, 0, 0, 0, 8, 0];
        let out = step(session, flash, &setup, &asked, &mut [0; TRANSFER]);
        assert_eq!(out.answer, answer::TAKEN);
        out.session
    }

    /// As if other bytes lay in the blocks whose sums are wrong: the whole is
    /// then what a walk over those bytes gives.
    #[test]
    fn wrong_sums_are_kept_and_give_the_whole() {
        for wrong in [&[16][..], &[63], &[29], &[31], &[16, 17, 40, 63], &[30]] {
            let Board { session, mut flash } = Board::fresh();
            let mut session = session;
            let mut other = flash.clone();
            for block in wrong {
                let bytes = &mut other[block * 1_024..][..1_024];
                bytes.fill(*block as u8);
                session.sums[*block] = sum(bytes);
            }
            let next = erased(&session, &mut flash, 30);
            other[30 * 1_024..31 * 1_024].fill(ERASED);
            assert_eq!(next.sums, start(&other, 16, 64, 0, 0).1.sums);
            assert_eq!(next.whole, sum(&other[16_384..]));
            let right = next.whole == sum(&flash[16_384..]);
            assert_eq!(right, *wrong == [30]);
        }
    }

    #[test]
    fn a_wrong_whole_becomes_right_when_a_byte_is_stored() {
        let Board { session, mut flash } = Board::fresh();
        let wrong = Session {
            whole: session.whole ^ 1,
            ..session
        };
        let asked = [1, 0, 16, 0, 5, 0, 0, 0];
        let setup = [0x21, 1, 0, 0, 0, 0, 8, 0];
        let none = step(&wrong, &mut flash, &setup, &asked, &mut [0; TRANSFER]);
        assert_eq!(none.session.whole, wrong.whole);
        let next = erased(&wrong, &mut flash, 63);
        assert_eq!(next.whole, sum(&flash[16_384..]));
    }

    #[test]
    fn an_application_of_one_block_has_its_sum_as_the_whole() {
        let mut flash = vec![0x5A; 4_096];
        let (_, session) = start(&flash, 3, 4, 0, 0);
        assert_eq!(session.whole, sum(&flash[3_072..]));
        let mut wrong = session.clone();
        (wrong.sums[3], wrong.whole) = (1, 2);
        let next = erased(&wrong, &mut flash, 3);
        assert_eq!(next.sums[3], sum(&[ERASED; 1_024]));
        assert_eq!(next.whole, next.sums[3]);
    }

    const MOST: u32 = MOST_BLOCKS as u32;

    /// One command in state 2 on an erased board of the most blocks.
    fn commanded(a: u32, command: &[u8]) -> (u8, Session, Vec<u8>) {
        let mut flash = vec![ERASED; (MOST * BLOCK) as usize];
        let session = start(&flash, a, MOST, 0, 0).1;
        let setup = [0x21, 1, 0, 0, 0, 0, command.len() as u8, 0];
        let out = step(&session, &mut flash, &setup, command, &mut [0; TRANSFER]);
        (out.answer, out.session, flash)
    }

    /// B may have more than 8 bits, and addresses more than 16.
    #[test]
    fn info_of_the_most_blocks() {
        let (_, session, mut flash) = commanded(MOST - 1, &[5, 0, 0, 0, 0, 0, 0, 0]);
        let idle = session.entering(state::IDLE);
        let mut reply = [0xEE; TRANSFER];
        let out = step(&idle, &mut flash, &UPLOAD, &[], &mut reply);
        let sizes = (MOST << 16 | BLOCK).to_le_bytes();
        let ends = [MOST * BLOCK, (MOST - 1) * BLOCK].map(u32::to_le_bytes);
        let info = [&sizes[..], &[0; 8], &ends.concat(), &[0xFF; 4]].concat();
        assert_eq!(reply[..out.count as usize], info);
    }

    #[test]
    fn the_last_of_the_most_blocks_is_written_and_the_next_is_not() {
        let [low, high] = (MOST as u16 - 1).to_le_bytes();
        let last = ((MOST - 1) * BLOCK) as usize;
        let (answer, session, flash) = commanded(1, &[1, 0, low, high, 0, 4, 0, 0, 0x31, 0x32]);
        assert_eq!((answer, session.state), (answer::TAKEN, state::DOWN_SYNC));
        assert_eq!(session.down_place as usize, last + 2);
        assert_eq!(session.down_left, 1_022);
        assert_eq!(flash[last - 1..last + 3], [ERASED, 0x31, 0x32, ERASED]);
        assert_eq!(session.sums[MOST_BLOCKS - 1], sum(&flash[last..]));
        assert_eq!(session.whole, sum(&flash[1_024..]));
        let [next, over] = (MOST as u16).to_le_bytes();
        for command in [
            [4, 0, next, over, 1, 0, 0, 0],
            [3, 0, low, high, 1, 4, 0, 0],
        ] {
            let (answer, session, _) = commanded(1, &command);
            assert_eq!((answer, session.status), (answer::FAULTED, status::ADDRESS));
        }
    }

    #[test]
    fn a_wrong_start_hands_back_zeros() {
        let flash = vec![ERASED; 65_536];
        let wide = [(65_552, 64), (16, 65_600), (65_552, 65_600)];
        let near = [(0, 64), (64, 64), (16, MOST_BLOCKS as u32 + 1), (16, 63)];
        for (a, b) in near.into_iter().chain(wide) {
            let (answer, session) = start(&flash, a, b, 1, 2);
            assert_eq!((answer, &session), (2, &Session::zeros()));
            assert_eq!(session.unerased, 0);
            assert!(!session.fits());
        }
    }
}
