//! The rows of the data that follows a PROG.

use crate::rows::Rows;
use crate::seen::Seen;
use mullirim_host::second::{answer, state, status};

impl Rows {
    pub fn piece(&mut self, name: &str, holds: impl Fn(&Seen, u32) -> bool + 'static) {
        self.add(format!("piece: {name}"), move |seen| {
            seen.piece.is_some_and(|length| holds(seen, length))
        });
    }

    pub fn pieces(&mut self) {
        self.written();
        self.borders_of_pieces();
        self.not_written();
    }

    fn written(&mut self) {
        let some = |seen: &Seen, length: u32| seen.answered(answer::TAKEN) && length > 0;
        self.piece("a part", move |seen, length| {
            some(seen, length) && seen.next().down_left > 0
        });
        self.piece("the rest", move |seen, length| {
            some(seen, length) && seen.next().down_left == 0
        });
        self.piece("1,024 bytes", move |seen, length| {
            some(seen, length) && length == 1_024
        });
        self.piece("one byte", move |seen, length| {
            some(seen, length) && length == 1
        });
    }

    fn borders_of_pieces(&mut self) {
        let some = |seen: &Seen, length: u32| seen.answered(answer::TAKEN) && length > 0;
        let end = |seen: &Seen| seen.next().down_place;
        self.piece("within a block", move |seen, length| {
            some(seen, length) && seen.lent().down_place / 1_024 == end(seen) / 1_024
        });
        self.piece("across a border", move |seen, length| {
            some(seen, length) && seen.lent().down_place / 1_024 < (end(seen) - 1) / 1_024
        });
        self.piece("up to a border", move |seen, length| {
            some(seen, length) && end(seen) % 1_024 == 0
        });
        self.piece("a byte past a border", move |seen, length| {
            some(seen, length) && length > 1 && end(seen) % 1_024 == 1
        });
        self.piece("up to the end", move |seen, length| {
            some(seen, length) && u64::from(end(seen)) == seen.application().end
        });
    }

    fn not_written(&mut self) {
        self.piece("closed", |seen, length| {
            length == 0 && seen.next().state == 6
        });
        self.piece("closed at the end of the application", |seen, length| {
            let end = u64::from(seen.lent().down_place) == seen.application().end;
            length == 0 && seen.next().state == state::MANIFEST_SYNC && end
        });
        self.piece("08, a byte too many", |seen, length| {
            seen.faulted(status::ADDRESS) && length == seen.lent().down_left + 1
        });
        self.piece("08, nothing awaited", |seen, _| {
            seen.faulted(status::ADDRESS) && seen.lent().down_left == 0
        });
        self.piece("09, a byte missing", |seen, _| {
            seen.faulted(status::NOT_DONE) && seen.lent().down_left == 1
        });
        self.piece("09, many missing", |seen, _| {
            seen.faulted(status::NOT_DONE) && seen.lent().down_left > 1_024
        });
    }
}
