//! The rows of the address that a search leaves in the session: where it found a
//! byte, what else was not erased, what stood there before, what keeps it, and how
//! INFO tells it.

use crate::commands::Where;
use crate::rows::Rows;
use crate::seen::{bytes, Command, Seen, FORMS};
use crate::unfit::reasons;
use mullirim_host::second::{answer, command, state, status, Session};
use mullirim_host::second::{BLOCK, ERASED, INFO_STREAM, NONE};
use mullirim_host::sessions::{INFO_BEFORE_LAST, INFO_BYTES};
use std::ops::Range;

const BLOCK_BYTES: u64 = BLOCK as u64;

/// A search that found a byte.
pub struct Found {
    range: Range<u64>,
    at: u64,
    value: u8,
    /// How many bytes of the range are not erased: behind it in its block, and
    /// behind that block.
    more: (usize, usize),
}

impl Found {
    /// Nothing where that is not the address of the first byte of the range that is
    /// not erased.
    pub fn new(flash: &[u8], range: Range<u64>, at: u64) -> Option<Found> {
        let bytes = |range: Range<u64>| &flash[range.start as usize..range.end as usize];
        let dirty = |range| bytes(range).iter().filter(|byte| **byte != ERASED).count();
        let first = range.contains(&at) && dirty(range.start..at) == 0 && dirty(at..at + 1) == 1;
        let end = block_end(&range, at);
        first.then(|| Found {
            at,
            value: flash[at as usize],
            more: (dirty(at + 1..end), dirty(end..range.end)),
            range,
        })
    }

    fn long(&self) -> bool {
        self.range.end - self.range.start > 1
    }

    fn is_first(&self) -> bool {
        self.at == self.range.start
    }

    fn is_last(&self) -> bool {
        self.at + 1 == self.range.end
    }

    fn in_later_block(&self) -> bool {
        self.at >= self.range.start + BLOCK_BYTES
    }
}

/// Where the block of an address ends, or before that the range.
fn block_end(range: &Range<u64>, at: u64) -> u64 {
    let end = (at / BLOCK_BYTES + 1) * BLOCK_BYTES;
    end.min(range.end)
}

/// Whether the byte before a range, and the one behind it, are not erased. Behind
/// the flash is none.
fn beside(seen: &Seen, range: &Range<u64>) -> (bool, bool) {
    let dirty = |at: u64| seen.dirty(at..at + 1) == 1;
    let behind = range.end < seen.application().end && dirty(range.end);
    (dirty(range.start - 1), behind)
}

impl Rows {
    pub fn unerased(&mut self) {
        for (name, asks) in SEARCHES {
            self.address_found(name, asks);
            self.none_found(name, asks);
        }
        for (what, stood) in STOOD {
            self.address_kept(what, stood);
            self.address_told(what, stood);
        }
        self.reset("neither an address nor none", neither);
        self.add("unfit: an info upload one byte past its end", |seen| {
            let past = seen.lent().up_place == INFO_BYTES + 1;
            past && seen.answered(answer::UNFIT) && reasons(seen) == ["an info upload past its end"]
        });
        self.command("an address kept by ERASE of its block", |seen, command| {
            let at = u64::from(seen.lent().unerased);
            let erased = seen.answered(answer::TAKEN) && command.is(command::ERASE);
            erased && command.range().contains(&at) && seen.next().unerased == seen.lent().unerased
        });
    }

    fn address_found(&mut self, name: &str, asks: Asks) {
        for (what, holds) in FOUND {
            self.command(format!("{name} found {what}"), move |seen, command| {
                let found = seen.found.as_ref().filter(|_| asks(command));
                found.is_some_and(|found| holds(seen, found))
            });
        }
    }

    fn none_found(&mut self, name: &str, asks: Asks) {
        for (what, holds) in NONE_FOUND {
            self.command(
                format!("{name} found none, {what}"),
                move |seen, command| {
                    let none = seen.answered(answer::TAKEN) && seen.next().unerased == NONE;
                    none && asks(command) && holds(seen, &command.range())
                },
            );
        }
    }

    fn address_kept(&mut self, what: &str, stood: Stood) {
        for (by, keeps) in KEEPS {
            self.add(format!("{what} kept by {by}"), move |seen| {
                kept(seen, stood) && keeps(seen)
            });
        }
        self.kept_by_refusals(what, stood);
        self.reset(what, stood);
    }

    fn kept_by_refusals(&mut self, what: &str, stood: Stood) {
        for (status, by, refused) in REFUSALS {
            let name = format!("{what} kept by {status:02X}: {by}");
            self.command(name, move |seen, command| {
                kept(seen, stood) && seen.faulted(status) && refused(seen, command)
            });
        }
        for (number, name) in [(command::PROG, "PROG"), (command::CHECK, "CHECK")] {
            for (status, how, refused) in REFUSALS_OF_BOTH {
                let name = format!("{what} kept by {status:02X}: {name} {how}");
                self.command(name, move |seen, command| {
                    let faulted = seen.faulted(status) && command.bytes[0] == number;
                    kept(seen, stood) && faulted && refused(seen, command)
                });
            }
        }
    }

    fn reset(&mut self, what: &str, stood: Stood) {
        self.add(format!("RESET, {what} stood"), move |seen| {
            let forgotten = seen.next().unerased == NONE;
            seen.answered(answer::RESET_ASKED) && stood(seen.lent()) && forgotten
        });
    }

    fn address_told(&mut self, what: &str, stood: Stood) {
        for (part, holds) in TOLD {
            self.add(format!("INFO tells {what}: {part}"), move |seen| {
                let (lent, count) = (seen.lent(), seen.outcome.count);
                let info = seen.upload.is_some() && lent.up_choice == INFO_STREAM;
                let part = info && holds(lent.up_place, lent.up_place + count);
                part && stood(lent) && tells(lent.unerased, lent.up_place, seen.reply)
            });
        }
    }
}

type Asks = fn(&Command) -> bool;

const SEARCHES: [(&str, Asks); 3] = [
    ("CHECK", |command| command.is(command::CHECK)),
    ("PROG with no data", |command| {
        command.is(command::PROG) && command.extra() == 0
    }),
    ("PROG with data", |command| {
        command.is(command::PROG) && command.extra() > 0
    }),
];

/// By the session that is lent.
type Stood = fn(&Session) -> bool;

const STOOD: [(&str, Stood); 2] = [
    ("an address", is_address),
    ("none", |lent| lent.unerased == NONE),
];

/// Of a byte of the application.
fn is_address(lent: &Session) -> bool {
    (bytes(lent.a)..bytes(lent.b)).contains(&lent.unerased.into())
}

fn neither(lent: &Session) -> bool {
    lent.unerased != NONE && !is_address(lent)
}

/// What stood there stands there still.
fn kept(seen: &Seen, stood: Stood) -> bool {
    stood(seen.lent()) && seen.next().unerased == seen.lent().unerased
}

const FOUND: [(&str, fn(&Seen, &Found) -> bool); 23] = [
    ("the first byte", |_, found| {
        found.is_first() && found.long()
    }),
    ("the last byte", |_, found| found.is_last() && found.long()),
    ("the one byte of its range", |_, found| !found.long()),
    ("a byte in the middle of its first block", |_, found| {
        !found.is_first() && !found.is_last() && !found.in_later_block()
    }),
    ("a byte in a later block", |_, found| {
        found.in_later_block() && !found.is_last()
    }),
    ("the last byte, in a later block", |_, found| {
        found.in_later_block() && found.is_last()
    }),
    ("the first byte of a later block", |_, found| {
        found.in_later_block() && found.at % BLOCK_BYTES == 0
    }),
    ("the last byte of a block before the last", |_, found| {
        !found.is_last() && found.at % BLOCK_BYTES == BLOCK_BYTES - 1
    }),
    ("a byte at an address of more than 16 bits", |_, found| {
        found.at >> 16 > 0
    }),
    ("a byte by one bit", |_, found| {
        found.value.count_zeros() == 1
    }),
    ("a byte that is alone", |_, found| found.more == (0, 0)),
    ("the first of two neighbours", |seen, found| {
        !found.is_last() && seen.dirty(found.at + 1..found.at + 2) == 1
    }),
    ("the first of several in its block alone", |_, found| {
        found.more.0 > 0 && found.more.1 == 0
    }),
    (
        "a byte alone in its block, others behind that",
        |_, found| found.more.0 == 0 && found.more.1 > 0,
    ),
    (
        "the first byte, the last not erased either",
        |seen, found| {
            let Range { start, end } = found.range;
            found.is_first() && start + 2 < end && seen.dirty(end - 1..end) == 1
        },
    ),
    (
        "a byte, that before the range not erased either",
        |seen, found| beside(seen, &found.range).0,
    ),
    (
        "a byte, that behind the range not erased either",
        |seen, found| beside(seen, &found.range).1,
    ),
    ("a byte, none stood", |seen, _| seen.lent().unerased == NONE),
    ("a byte, 0 stood", |seen, _| seen.lent().unerased == 0),
    ("a byte, a lower address stood", |seen, found| {
        is_address(seen.lent()) && u64::from(seen.lent().unerased) < found.at
    }),
    ("a byte, a higher address stood", |seen, found| {
        is_address(seen.lent()) && u64::from(seen.lent().unerased) > found.at
    }),
    ("a byte, its own address stood", |seen, found| {
        u64::from(seen.lent().unerased) == found.at
    }),
    ("a byte, a number that is no address stood", |seen, _| {
        neither(seen.lent())
    }),
];

const NONE_FOUND: [(&str, fn(&Seen, &Range<u64>) -> bool); 8] = [
    ("none stood", |seen, _| seen.lent().unerased == NONE),
    ("0 stood", |seen, _| seen.lent().unerased == 0),
    ("an address stood", |seen, _| is_address(seen.lent())),
    ("an address of its range stood", |seen, range| {
        range.contains(&seen.lent().unerased.into())
    }),
    ("a number that is no address stood", |seen, _| {
        neither(seen.lent())
    }),
    ("the byte before not erased", |seen, range| {
        beside(seen, range).0
    }),
    ("the byte behind not erased", |seen, range| {
        beside(seen, range).1
    }),
    ("the bytes before and behind not erased", |seen, range| {
        beside(seen, range) == (true, true)
    }),
];

/// A command that faults with this status before it searches, or that never would.
const REFUSALS: [(u8, &str, Where); 7] = [
    (status::COMMAND, "no such command", |_, command| {
        command.whole() && !(1..8).contains(&command.bytes[0])
    }),
    (
        status::COMMAND,
        "bytes after CHECK, erased",
        |seen, command| command.is(command::CHECK) && erased(seen, command) == Some(true),
    ),
    (
        status::COMMAND,
        "bytes after CHECK, not erased",
        |seen, command| command.is(command::CHECK) && erased(seen, command) == Some(false),
    ),
    (
        status::COMMAND,
        "bytes after another command",
        |_, command| {
            let others = (2..8).filter(|number| *number != command::CHECK);
            command.extra() > 0 && others.into_iter().any(|number| command.is(number))
        },
    ),
    (
        status::ADDRESS,
        "PROG with more data, erased",
        |seen, command| command.is(command::PROG) && erased(seen, command) == Some(true),
    ),
    (
        status::ADDRESS,
        "PROG with more data, not erased",
        |seen, command| command.is(command::PROG) && erased(seen, command) == Some(false),
    ),
    (status::ADDRESS, "READ or ERASE", |_, command| {
        command.is(command::READ) || command.is(command::ERASE)
    }),
];

/// The same for a PROG as for a CHECK.
const REFUSALS_OF_BOTH: [(u8, &str, Where); 5] = [
    (status::COMMAND, "cut short", |_, command| !command.whole()),
    (status::ADDRESS, "of nothing", |_, command| {
        command.range().is_empty()
    }),
    (
        status::ADDRESS,
        "before the application",
        |seen, command| command.range().start < seen.application().start,
    ),
    (
        status::ADDRESS,
        "past the end, erased up to it",
        |seen, command| erased_up_to_the_end(seen, command) == Some(true),
    ),
    (
        status::ADDRESS,
        "past the end, not erased",
        |seen, command| erased_up_to_the_end(seen, command) == Some(false),
    ),
];

/// Whether the range that a command names is all erased; nothing where it is empty
/// or not wholly in the application.
fn erased(seen: &Seen, command: &Command) -> Option<bool> {
    let (range, room) = (command.range(), seen.application());
    let inside = !range.is_empty() && room.start <= range.start && range.end <= room.end;
    inside.then(|| seen.dirty(range) == 0)
}

/// The same for the part of a range in the application, where it goes on behind it.
fn erased_up_to_the_end(seen: &Seen, command: &Command) -> Option<bool> {
    let (range, room) = (command.range(), seen.application());
    let past = room.contains(&range.start) && range.end > room.end;
    past.then(|| seen.dirty(range.start..room.end) == 0)
}

const KEEPS: [(&str, fn(&Seen) -> bool); 18] = [
    ("READ", |seen| taken(seen, command::READ)),
    ("ERASE", |seen| taken(seen, command::ERASE)),
    ("INFO", |seen| taken(seen, command::INFO)),
    ("BIN", |seen| taken(seen, command::BIN)),
    ("a piece", |seen| {
        seen.piece.is_some_and(|length| length > 0) && seen.answered(answer::TAKEN)
    }),
    ("a close", |seen| {
        seen.piece == Some(0) && seen.next().state == state::MANIFEST_SYNC
    }),
    ("08: a piece", |seen| {
        seen.piece.is_some() && seen.faulted(status::ADDRESS)
    }),
    ("09", |seen| seen.faulted(status::NOT_DONE)),
    ("a stall", |seen| {
        seen.answered(answer::STALLED) && seen.lent().state != state::ERROR
    }),
    ("a stall in state 10", |seen| {
        seen.answered(answer::STALLED) && seen.lent().state == state::ERROR
    }),
    ("what is unfit", |seen| seen.answered(answer::UNFIT)),
    ("UPLOAD", |seen| seen.upload.is_some()),
    ("GETSTATUS", |seen| served(seen, 2)),
    ("GETSTATUS with status 05", |seen| {
        served(seen, 2) && seen.lent().status == status::NOT_ERASED
    }),
    ("CLRSTATUS", |seen| served(seen, 3)),
    ("GETSTATE", |seen| served(seen, 4)),
    ("ABORT", |seen| served(seen, 5)),
    ("query", |seen| served(seen, 6)),
];

/// A request of this form that was taken.
fn served(seen: &Seen, form: usize) -> bool {
    seen.answered(answer::TAKEN) && seen.formed(&FORMS[form])
}

fn taken(seen: &Seen, number: u8) -> bool {
    let command = seen.command.as_ref();
    seen.answered(answer::TAKEN) && command.is_some_and(|command| command.is(number))
}

/// Whether those of the address's bytes that an answer has, from this place of the
/// info bytes on, are the address's, low byte first.
fn tells(address: u32, place: u32, reply: &[u8]) -> bool {
    let bytes = (place..).zip(reply);
    let mut last = bytes.filter(|(place, _)| *place >= INFO_BEFORE_LAST);
    last.all(|(place, byte)| {
        let rest = address >> (8 * (place - INFO_BEFORE_LAST));
        u32::from(*byte) == rest % 256
    })
}

/// By the first place of the info bytes that an answer has, and the one behind it.
type Part = fn(u32, u32) -> bool;

const TOLD: [(&str, Part); 7] = [
    ("all at once", |place, end| place == 0 && end == INFO_BYTES),
    ("up to its first byte", |place, end| {
        place < end && end == INFO_BEFORE_LAST
    }),
    ("up to the middle of it", |place, end| {
        place < INFO_BEFORE_LAST && (INFO_BEFORE_LAST + 1..INFO_BYTES).contains(&end)
    }),
    ("gone on with across its first byte", |place, end| {
        (1..INFO_BEFORE_LAST).contains(&place) && end == INFO_BYTES
    }),
    ("from its first byte on", |place, end| {
        place == INFO_BEFORE_LAST && end == INFO_BYTES
    }),
    ("from the middle of it", |place, end| {
        place > INFO_BEFORE_LAST && place < end
    }),
    ("nothing from behind it", |place, _| place == INFO_BYTES),
];

#[cfg(test)]
mod tests {
    use super::*;

    /// What a search of a range from block 2 on finds, of blocks 0 to 5 in which
    /// these bytes alone are not erased. It is told the first of them.
    fn found(places: &[u64], length: u64) -> Option<Found> {
        let mut flash = [ERASED; 6 * 1_024];
        places
            .iter()
            .for_each(|place| flash[*place as usize] = 0xFE);
        Found::new(&flash, 2_048..2_048 + length, places[0])
    }

    #[test]
    fn a_byte_is_told_by_its_place() {
        let told = |place, length| {
            let found = found(&[place], length)?;
            Some((found.is_first(), found.is_last(), found.in_later_block()))
        };
        assert_eq!(told(2_048, 2_000), Some((true, false, false)));
        assert_eq!(told(4_047, 2_000), Some((false, true, true)));
        assert_eq!(told(3_071, 1_024), Some((false, true, false)));
        assert_eq!(told(3_072, 2_000), Some((false, false, true)));
        assert_eq!(told(2_047, 2_000), None);
        assert_eq!(told(4_048, 2_000), None);
    }

    #[test]
    fn what_lies_behind_it_is_counted_by_blocks() {
        let more = |places: &[u64], length| Some(found(places, length)?.more);
        assert_eq!(more(&[2_048], 4_096), Some((0, 0)));
        let several = [2_050, 2_051, 3_071, 3_072, 5_000];
        assert_eq!(more(&several, 4_096), Some((2, 2)));
        assert_eq!(more(&several, 1_024), Some((2, 0)));
        assert_eq!(more(&several, 1_023), Some((1, 0)));
        assert_eq!(more(&several[2..], 4_096), Some((0, 2)));
    }

    #[test]
    fn the_address_is_told_low_byte_first() {
        let info: Vec<u8> = (0..20).chain([0x0D, 0x0C, 0x0B, 0x0A]).collect();
        for (place, end) in (0..=24).flat_map(|place| (place..=24).map(move |end| (place, end))) {
            let part = &info[place as usize..end as usize];
            assert!(tells(0x0A0B_0C0D, place, part));
            let told = end > 20 && place < end;
            assert_eq!(tells(!0x0A0B_0C0D, place, part), !told);
        }
        for other in [0x0D0C_0B0A, 0x0C0D, 0x0A0B_0C0C, 0x0B0B_0C0D, NONE] {
            assert!(!tells(other, 0, &info));
        }
    }

    /// A loader that names another byte than the first meets no row.
    #[test]
    fn another_byte_than_the_first_is_not_found() {
        let mut flash = [ERASED; 6 * 1_024];
        (flash[2_050], flash[2_060]) = (0, 0x7F);
        let told = |at| Found::new(&flash, 2_048..6_144, at).map(|found| found.value);
        assert_eq!(told(2_050), Some(0));
        for other in [2_049, 2_060, 2, 0, NONE.into()] {
            assert_eq!(told(other), None);
        }
    }
}
