//! One request as the rows look at it: taken apart, with what came of it.

use crate::eights::Lone;
use crate::joins::Refresh;
use crate::unerased::Found;
use mullirim_host::histories::Call;
use mullirim_host::second::{answer, state, status, Outcome, Session, BLOCK};
use std::ops::{Range, RangeInclusive};

/// A row of the paper's table of requests.
pub struct Form {
    pub name: &'static str,
    pub kind: u8,
    pub number: u8,
    pub lengths: RangeInclusive<u32>,
    pub states: &'static [u8],
}

pub const STATES: [u8; 6] = [2, 3, 5, 6, 9, 10];

const fn form(
    name: &'static str,
    kind: u8,
    number: u8,
    lengths: RangeInclusive<u32>,
    states: &'static [u8],
) -> Form {
    Form {
        name,
        kind,
        number,
        lengths,
        states,
    }
}

pub const FORMS: [Form; 7] = [
    form("DNLOAD", 0x21, 1, 0..=1_024, &[2, 5]),
    form("UPLOAD", 0xA1, 2, 1..=1_024, &[2, 9]),
    form("GETSTATUS", 0xA1, 3, 6..=6, &STATES),
    form("CLRSTATUS", 0x21, 4, 0..=0, &[10]),
    form("GETSTATE", 0xA1, 5, 1..=1, &STATES),
    form("ABORT", 0x21, 6, 0..=0, &[2, 3, 5, 6, 9]),
    form("query", 0xA1, 0x42, 4..=4, &STATES),
];

pub struct Seen<'a> {
    pub call: &'a Call,
    pub outcome: &'a Outcome,
    /// As the call left it.
    pub flash: &'a [u8],
    /// The bytes of the reply that were counted.
    pub reply: &'a [u8],
    /// A DNLOAD of good form with some data in state 2.
    pub command: Option<Command<'a>>,
    /// Where a range was not erased by one byte alone.
    pub lone: Option<Lone>,
    /// The byte that a search found, by the session that it left.
    pub found: Option<Found>,
    /// The length of the data of a DNLOAD of good form in state 5.
    pub piece: Option<u32>,
    /// The bytes asked for by an UPLOAD that was taken.
    pub upload: Option<u32>,
    /// Where bytes were stored.
    pub refresh: Option<Refresh>,
}

impl<'a> Seen<'a> {
    /// With the right sums of the flash's blocks, before the call and after it.
    pub fn new(
        call: &'a Call,
        outcome: &'a Outcome,
        flash: &'a [u8],
        reply: &'a [u8],
        right: [&[u32]; 2],
    ) -> Seen<'a> {
        let mut seen = Seen {
            call,
            outcome,
            flash,
            reply: &reply[..outcome.count as usize],
            command: None,
            lone: None,
            found: None,
            piece: None,
            upload: None,
            refresh: Refresh::new(call, outcome, right),
        };
        let bytes = &call.data[..];
        let fit = outcome.answer != answer::UNFIT;
        let dnload = fit && seen.formed(&FORMS[0]);
        let command = dnload && call.session.state == state::IDLE && !bytes.is_empty();
        let piece = dnload && call.session.state == state::DOWN_IDLE;
        let upload = seen.formed(&FORMS[1]) && seen.answered(answer::TAKEN);
        seen.command = command.then_some(Command { bytes });
        if seen.faulted(status::NOT_ERASED) {
            let range = seen.command.as_ref().map(Command::range);
            let at = seen.next().unerased.into();
            seen.lone = range.clone().and_then(|range| Lone::new(flash, range));
            seen.found = range.and_then(|range| Found::new(flash, range, at));
        }
        seen.piece = piece.then_some(bytes.len() as u32);
        seen.upload = upload.then_some(seen.length());
        seen
    }

    pub fn lent(&self) -> &'a Session {
        &self.call.session
    }

    pub fn next(&self) -> &'a Session {
        &self.outcome.session
    }

    pub fn answered(&self, answer: u8) -> bool {
        self.outcome.answer == answer
    }

    pub fn faulted(&self, status: u8) -> bool {
        self.answered(answer::FAULTED) && self.next().status == status
    }

    fn setup(&self, at: usize) -> u32 {
        word(&self.call.setup, at)
    }

    pub fn value(&self) -> u32 {
        self.setup(2)
    }

    pub fn index(&self) -> u32 {
        self.setup(4)
    }

    pub fn length(&self) -> u32 {
        self.setup(6)
    }

    pub fn is(&self, kind: u8, number: u8) -> bool {
        self.call.setup.len() == 8 && self.call.setup[..2] == [kind, number]
    }

    /// Type and number are this request's.
    pub fn names(&self, form: &Form) -> bool {
        self.is(form.kind, form.number)
    }

    /// All but type and number, and what `but` leaves out.
    fn shaped(&self, form: &Form, but: Part) -> bool {
        let value = form.number != 0x42 || self.value() == 0x23;
        (but == Part::Index || self.index() == 0)
            && (but == Part::Length || form.lengths.contains(&self.length()))
            && (but == Part::Value || value)
    }

    pub fn formed(&self, form: &Form) -> bool {
        self.names(form) && self.shaped(form, Part::None)
    }

    pub fn well_formed(&self) -> bool {
        FORMS.iter().any(|form| self.formed(form))
    }

    /// Stalled in a state that allows the request: by this part of its form.
    pub fn stalled_by(&self, form: &Form, part: Part) -> bool {
        let named = match part {
            Part::Kind => self.is(form.kind ^ 0x80, form.number),
            _ => self.names(form),
        };
        self.answered(answer::STALLED)
            && named
            && self.shaped(form, part)
            && (part == Part::Kind || !self.formed(form))
            && form.states.contains(&self.lent().state)
    }

    /// A download runs: in state 5, or in state 3 that leads to it.
    pub fn download_runs(&self) -> bool {
        let lent = self.lent();
        lent.state == state::DOWN_IDLE
            || (lent.state == state::DOWN_SYNC && lent.after == state::DOWN_IDLE)
    }

    /// The bytes of the application, as addresses.
    pub fn application(&self) -> Range<u64> {
        bytes(self.lent().a)..bytes(self.lent().b)
    }

    /// How many bytes of the range are not erased.
    pub fn dirty(&self, range: Range<u64>) -> usize {
        let range = range.start as usize..(range.end as usize).min(self.flash.len());
        let bytes = self.flash[range].iter();
        bytes.filter(|byte| **byte != 0xFF).count()
    }
}

/// A part of a request's form.
#[derive(Clone, Copy, PartialEq)]
pub enum Part {
    None,
    Kind,
    Value,
    Index,
    Length,
}

/// The data of a command, whole or not.
pub struct Command<'a> {
    pub bytes: &'a [u8],
}

impl Command<'_> {
    pub fn is(&self, number: u8) -> bool {
        self.whole() && self.bytes[0] == number
    }

    pub fn whole(&self) -> bool {
        self.bytes.len() >= 8
    }

    pub fn extra(&self) -> usize {
        self.bytes.len().saturating_sub(8)
    }

    pub fn block(&self) -> u32 {
        word(self.bytes, 2)
    }

    /// Bytes 4 to 7, as PROG, READ and CHECK read them.
    pub fn long(&self) -> u32 {
        word(self.bytes, 4) | word(self.bytes, 6) << 16
    }

    /// The range that is named: for ERASE, by its count of blocks.
    pub fn range(&self) -> Range<u64> {
        let length = match self.bytes[0] {
            4 => bytes(word(self.bytes, 4)),
            _ => self.long().into(),
        };
        bytes(self.block())..bytes(self.block()) + length
    }
}

fn word(bytes: &[u8], at: usize) -> u32 {
    match bytes.get(at..at + 2) {
        Some(two) => u32::from(two[0]) | u32::from(two[1]) << 8,
        None => 0,
    }
}

pub fn bytes(blocks: u32) -> u64 {
    u64::from(blocks) * u64::from(BLOCK)
}
