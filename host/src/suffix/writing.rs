//! The rows of writing.

use super::rows::{Rows, LENGTHS};
use super::seen::Seen;

impl Rows {
    pub fn writing(&mut self) {
        self.written();
        self.no_room();
    }

    fn written(&mut self) {
        for length in LENGTHS {
            self.add(
                format!("written, bytes of the file: {length}"),
                move |seen| seen.was_written() && seen.case.file.len() == length,
            );
        }
        self.parts("written", |seen| {
            seen.was_written().then_some(seen.case.parts)
        });
        for (what, holds) in ROOMS {
            self.add(format!("written, {what}"), move |seen| {
                seen.was_written() && holds(seen.room(), seen.case.file.len() + 16)
            });
        }
        self.add("written, a second suffix", |seen| {
            seen.was_written() && seen.accepted()
        });
        self.add("written, an empty file with just its room", |seen| {
            seen.was_written() && seen.case.file.is_empty() && seen.room() == 16
        });
    }

    fn no_room(&mut self) {
        for missing in [1, 2, 15, 16, 17] {
            let name = format!("no room, bytes missing: {missing}");
            self.add(name, move |seen| {
                seen.had_no_room() && seen.room() + missing == seen.case.file.len() + 16
            });
        }
        for room in 0..16 {
            self.add(
                format!("no room, bytes of the buffer: {room}"),
                move |seen| seen.had_no_room() && seen.room() == room,
            );
        }
        let empty = |seen: &Seen| seen.had_no_room() && seen.case.file.is_empty();
        for room in [0, 15] {
            let name = format!("no room, an empty file, bytes of the buffer: {room}");
            self.add(name, move |seen| empty(seen) && seen.room() == room);
        }
        self.add("no room, for a second suffix", |seen| {
            seen.had_no_room() && seen.accepted()
        });
    }
}

type Room = fn(usize, usize) -> bool;

/// By the room lent and the room needed.
const ROOMS: [(&str, Room); 4] = [
    ("just its room", |room, needed| room == needed),
    ("a byte more than its room", |room, needed| {
        room == needed + 1
    }),
    ("some more than its room", |room, needed| room > needed + 1),
    ("far more than its room", |room, needed| {
        room >= needed + 4_096
    }),
];
