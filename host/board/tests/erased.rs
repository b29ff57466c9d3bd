//! The proved search for a byte that is not erased, swept place by place. What it
//! must answer, and the address that it must leave, need no second loader: a byte is
//! found if it lies in the range, and none before it.

use mullirim_board::{request, start, Session};
use mullirim_host::layout::{Download, Phase};
use mullirim_host::second::{answer, command, state, status, BLOCK, ERASED, MOST_BLOCKS};
use mullirim_host::tape::{header, setup};

const TAKEN: u32 = answer::TAKEN as u32;
const FAULTED: u32 = answer::FAULTED as u32;
/// The board: a block of loader and four of application.
const FIRST: u32 = 1;
const BLOCKS: u32 = 5;
const FLASH: usize = (BLOCKS * BLOCK) as usize;
/// What stands for an address before a search, which must put another in its place.
const STOOD: u32 = 0x1234_5678;
/// What it leaves where it found none.
const NONE: u32 = 0xFFFF_FFFF;
/// How many bytes lie around the flash that is lent, on either side at least.
const AROUND: usize = 32;

/// A flash amid other bytes, lent at an address of our choice.
struct Board {
    memory: Vec<u8>,
    /// Where in it the flash begins.
    from: usize,
    session: Session,
}

/// What a request comes to: the answer, where the session stands, and the address
/// that it keeps.
type Left = (u32, Phase, Download, u32);

/// A PROG or CHECK of so many bytes, from the start of a block on.
#[derive(Clone, Copy, Debug)]
struct Asked<'a> {
    number: u8,
    block: u32,
    length: usize,
    data: &'a [u8],
}

impl Asked<'_> {
    fn start(&self) -> usize {
        (self.block * BLOCK) as usize
    }

    /// What it comes to where this is the first byte that is not erased, counted
    /// from the range's start; outside of the range it doesn't matter.
    fn awaited(&self, first: Option<isize>) -> Left {
        let phase = |state, status, after| Phase {
            state,
            status,
            after,
        };
        let none = Download { place: 0, left: 0 };
        let runs = Download {
            place: (self.start() + self.data.len()) as u32,
            left: (self.length - self.data.len()) as u32,
        };
        let refused = phase(state::ERROR, status::NOT_ERASED, 2);
        let within = first.filter(|place| (0..self.length as isize).contains(place));
        match (within, self.number) {
            (Some(place), _) => (FAULTED, refused, none, self.start() as u32 + place as u32),
            (_, command::PROG) => (TAKEN, phase(state::DOWN_SYNC, 0, 5), runs, NONE),
            _ => (TAKEN, phase(state::DOWN_SYNC, 0, 2), none, NONE),
        }
    }
}

impl Board {
    /// All erased, the flash this many bytes behind a multiple of eight.
    fn new(shift: usize) -> Board {
        let memory = vec![ERASED; FLASH + 2 * AROUND + 16];
        let from = AROUND + memory[AROUND..].as_ptr().align_offset(8) + shift;
        let flash = &memory[from..from + FLASH];
        assert_eq!(flash.as_ptr() as usize % 8, shift);
        let started = start(flash, FIRST, BLOCKS, 0, 0);
        assert_eq!((started.code, started.session.unerased), (TAKEN, NONE));
        Board {
            memory,
            from,
            session: Session {
                unerased: STOOD,
                ..started.session
            },
        }
    }

    /// Asks with the memory as it is, which then is put back, and the fresh
    /// session, since no rule holds its sums to the flash. Only a PROG that is
    /// taken may change a byte, or a sum: its first data lies in its place.
    fn ask(&mut self, asked: &Asked) -> Left {
        let head = header(asked.number, asked.block as u16, asked.length as u32);
        let sent = [&head, asked.data].concat();
        let setup = setup(0x21, 1, sent.len() as u16);
        let (before, mut session) = (self.memory.clone(), self.session);
        let flash = &mut self.memory[self.from..self.from + FLASH];
        let answer = request(&mut session, flash, &setup, &sent, &mut [0; 1_024]);
        let written = match answer.code == TAKEN {
            true => asked.data,
            false => &[],
        };
        if written.is_empty() {
            assert_eq!(session.sums, self.session.sums, "{asked:?}");
        }
        let mut awaited = before.clone();
        awaited[self.from + asked.start()..][..written.len()].copy_from_slice(written);
        assert!(self.memory == awaited, "{asked:?}");
        self.memory.copy_from_slice(&before);
        let Session {
            phase,
            download,
            unerased,
            ..
        } = session;
        (answer.code, phase, download, unerased)
    }

    /// Asks with one byte set, this far from the range's start.
    fn ask_with(&mut self, asked: &Asked, place: isize, value: u8) {
        let at = (self.from + asked.start()).wrapping_add_signed(place);
        self.memory[at] = value;
        let awaited = asked.awaited(Some(place));
        assert_eq!(
            self.ask(asked),
            awaited,
            "{asked:?}, {value:02X} at {place}"
        );
        self.memory[at] = ERASED;
    }

    /// None, and then one byte at each place from one before the range to
    /// sixteen behind it.
    fn sweep(&mut self, asked: &Asked, value: u8) {
        assert_eq!(self.ask(asked), asked.awaited(None), "{asked:?}");
        for place in -1..=asked.length as isize + 16 {
            self.ask_with(asked, place, value);
        }
    }
}

fn check(block: u32, length: usize) -> Asked<'static> {
    Asked {
        number: command::CHECK,
        block,
        length,
        data: &[],
    }
}

fn prog(length: usize, data: &[u8]) -> Asked<'_> {
    Asked {
        number: command::PROG,
        block: 2,
        length,
        data,
    }
}

/// Short ones, and those around one block and two.
fn lengths() -> impl Iterator<Item = usize> {
    (1..=40).chain(1_008..=1_040).chain(2_040..=2_064)
}

/// Tries a board at each of the eight alignments.
fn at_each_alignment(tried: impl Fn(&mut Board)) {
    for shift in 0..8 {
        tried(&mut Board::new(shift));
    }
}

#[test]
fn a_check_finds_a_byte_at_each_place() {
    at_each_alignment(|board| lengths().for_each(|length| board.sweep(&check(2, length), 0x7F)));
}

/// Before the range lies the loader, and behind it what is not lent at all.
#[test]
fn a_check_of_the_application_goes_no_further() {
    let all = FLASH - (FIRST * BLOCK) as usize;
    at_each_alignment(|board| {
        (all - 16..=all).for_each(|length| board.sweep(&check(FIRST, length), 0x7F));
    });
}

/// At either end of each block, and of its first eight bytes.
#[test]
fn a_check_of_the_most_blocks_finds_a_byte_in_each() {
    let most = MOST_BLOCKS as u32;
    let mut flash = vec![ERASED; (most * BLOCK) as usize];
    let session = start(&flash, 1, most, 0, 0).session;
    let asked = header(command::CHECK, 1, (most - 1) * BLOCK);
    let checked = |flash: &mut [u8]| {
        let mut session = session;
        let setup = setup(0x21, 1, asked.len() as u16);
        let code = request(&mut session, flash, &setup, &asked, &mut [0; 1_024]).code;
        (code, session.unerased)
    };
    assert_eq!(checked(&mut flash), (TAKEN, NONE));
    for block in 0..MOST_BLOCKS {
        for place in [0, 7, 8, 1_023].map(|place| block * BLOCK as usize + place) {
            flash[place] = 0x7F;
            let awaited = [(FAULTED, place as u32), (TAKEN, NONE)][usize::from(block == 0)];
            assert_eq!(checked(&mut flash), awaited, "{place}");
            flash[place] = ERASED;
        }
    }
}

#[test]
fn a_check_finds_every_value_at_each_place_of_three_eights_and_behind() {
    let asked = check(2, 31);
    at_each_alignment(|board| (0..ERASED).for_each(|value| board.sweep(&asked, value)));
}

#[test]
fn a_check_looks_at_nothing_but_its_range() {
    at_each_alignment(|board| {
        board.memory.fill(0);
        let from = board.from + 2 * BLOCK as usize;
        for length in lengths() {
            let asked = check(2, length);
            board.memory[from..from + length].fill(ERASED);
            assert_eq!(board.ask(&asked), asked.awaited(None));
            let more = check(2, length + 1);
            assert_eq!(board.ask(&more), more.awaited(Some(length as isize)));
        }
    });
}

/// Any two bytes of four eights and some more, over the border of two blocks too.
#[test]
fn a_check_names_the_first_of_two() {
    at_each_alignment(|board| {
        for (from, length) in [(0, 37), (1_000, 1_037)] {
            let asked = check(2, length);
            let start = board.from + asked.start();
            for (one, other) in (from..length).flat_map(|one| (one..length).map(move |b| (one, b)))
            {
                (board.memory[start + one], board.memory[start + other]) = (0x7F, 0);
                assert_eq!(board.ask(&asked), asked.awaited(Some(one as isize)));
                board.memory[start..start + length].fill(ERASED);
            }
        }
    });
}

#[test]
fn a_prog_finds_a_byte_at_each_place() {
    at_each_alignment(|board| {
        for length in (1..=40).chain(1_020..=1_040) {
            board.sweep(&prog(length, &[]), 0xFE);
            board.sweep(&prog(length, &vec![0x31; length.min(1_016)]), 0);
        }
    });
}
