//! The rows of large flashes: what lies at addresses of more than 16 bits or is
//! longer than 16 bits can count, and the last of the most blocks.

use crate::commands::{Where, NAMED};
use crate::eights::Lone;
use crate::rows::Rows;
use crate::seen::{bytes, Command, Seen};
use crate::unfit::reasons;
use mullirim_host::histories::SMALL;
use mullirim_host::second::{answer, command, state, status, Session, INFO_STREAM, MOST_BLOCKS};
use mullirim_host::sessions::INFO_BYTES;
use std::ops::Range;

const MOST: u32 = MOST_BLOCKS as u32;
/// The first number of more than 16 bits.
const WIDE: u64 = 1 << 16;

impl Rows {
    pub fn large(&mut self) {
        for (number, name) in NAMED {
            self.carried_out(number, name);
            self.outside(number, name);
        }
        for (number, name) in [(command::PROG, "PROG"), (command::CHECK, "CHECK")] {
            self.far_bytes(number, name);
        }
        self.command(
            "PROG taken, with more data than its length, cut to 16 bits",
            |seen, command| {
                let data = command.extra() as u64;
                let taken = seen.answered(answer::TAKEN) && command.is(command::PROG);
                taken && length(command) >= WIDE && data > length(command) % WIDE
            },
        );
        self.far_pieces();
        self.far_uploads();
        self.info_of_large();
        self.far_sums();
        self.add(
            "reset asked, with a sum kept of a block at an address of more than 16 bits",
            |seen| {
                let Session { b, sums, .. } = seen.lent();
                let mut far = sums.iter().take(*b as usize).skip(SMALL as usize);
                seen.answered(answer::RESET_ASKED) && far.any(|sum| *sum != 0)
            },
        );
        self.add(
            "unfit: a block too many alone, with all its bytes",
            |seen| {
                let too_many = seen.answered(answer::UNFIT) && seen.lent().b == MOST + 1;
                too_many && reasons(seen)[..] == ["B over the most"]
            },
        );
    }

    fn carried_out(&mut self, number: u8, name: &str) {
        for (what, holds) in TAKEN {
            self.command(format!("{name} taken, {what}"), move |seen, command| {
                seen.answered(answer::TAKEN) && command.is(number) && holds(seen, command)
            });
        }
    }

    /// Status 08 by the range.
    fn outside(&mut self, number: u8, name: &str) {
        for (what, holds) in OUTSIDE {
            self.command(format!("08: {name}, {what}"), move |seen, command| {
                seen.faulted(status::ADDRESS) && command.is(number) && holds(seen, command)
            });
        }
    }

    /// Status 05, for PROG or CHECK, by one byte alone.
    fn far_bytes(&mut self, number: u8, name: &str) {
        for (what, holds) in ALONE {
            self.command(format!("05: {name}, alone {what}"), move |seen, command| {
                let lone = seen.lone.as_ref().filter(|_| command.is(number));
                lone.is_some_and(|lone| holds(command, lone))
            });
        }
    }

    fn far_pieces(&mut self) {
        for (what, holds) in WRITTEN {
            self.piece(what, move |seen, length| {
                let written = seen.lent().down_place.into()..seen.next().down_place.into();
                seen.answered(answer::TAKEN) && length > 0 && holds(seen, written)
            });
        }
        self.piece("closed at the end of the most blocks", |seen, length| {
            let end = u64::from(seen.lent().down_place) == bytes(MOST);
            length == 0 && seen.next().state == state::MANIFEST_SYNC && end
        });
        self.piece("09, over 65,535 missing", |seen, _| {
            seen.faulted(status::NOT_DONE) && u64::from(seen.lent().down_left) >= WIDE
        });
        self.piece("09, a multiple of 65,536 missing", |seen, _| {
            let left = u64::from(seen.lent().down_left);
            seen.faulted(status::NOT_DONE) && left >= WIDE && left % WIDE == 0
        });
    }

    fn far_uploads(&mut self) {
        for (stream, prefix) in [("a range with its prefix", 1), ("a range alone", 0)] {
            for (what, holds) in READ {
                self.add(format!("upload of {stream}: {what}"), move |seen| {
                    let lent = seen.lent();
                    let chosen = lent.up_choice != INFO_STREAM && lent.up_prefix == prefix;
                    chosen && seen.upload.is_some() && holds(lent, answered(seen))
                });
            }
        }
    }

    fn info_of_large(&mut self) {
        for (what, holds) in INFO {
            self.add(format!("upload of the info bytes: {what}"), move |seen| {
                let info = seen.upload.is_some() && seen.lent().up_choice == INFO_STREAM;
                let whole = seen.lent().up_place == 0 && seen.outcome.count == INFO_BYTES;
                info && whole && holds(seen.lent())
            });
        }
    }

    /// What a request changed of the kept sums.
    fn far_sums(&mut self) {
        let changed = |seen: &Seen, blocks: Range<usize>| {
            seen.lent().sums[blocks.clone()] != seen.next().sums[blocks]
        };
        let rows: [(&str, Range<usize>); 2] = [
            (
                "of a block at an address of more than 16 bits",
                SMALL as usize..MOST_BLOCKS,
            ),
            (
                "of the last of the most blocks",
                MOST_BLOCKS - 1..MOST_BLOCKS,
            ),
        ];
        for (what, blocks) in rows {
            for (by, number) in [("ERASE", command::ERASE), ("PROG", command::PROG)] {
                let blocks = blocks.clone();
                self.command(
                    format!("sum {what} changed by {by}"),
                    move |seen, command| command.is(number) && changed(seen, blocks.clone()),
                );
            }
            let name = format!("sum {what} changed");
            self.piece(&name, move |seen, _| changed(seen, blocks.clone()));
        }
        self.add(
            "sums of small and of large addresses changed at once",
            move |seen| {
                changed(seen, 0..SMALL as usize) && changed(seen, SMALL as usize..MOST_BLOCKS)
            },
        );
    }
}

/// A range begins before the address and goes on behind it.
fn across(range: &Range<u64>, place: u64) -> bool {
    range.start < place && place < range.end
}

const TAKEN: [(&str, Where); 6] = [
    ("at an address of more than 16 bits", |_, command| {
        command.range().start >= WIDE
    }),
    ("across address 65,536", |_, command| {
        across(&command.range(), WIDE)
    }),
    ("over 65,535 bytes", |_, command| length(command) >= WIDE),
    ("at the last of the most blocks", |_, command| {
        command.block() == MOST - 1
    }),
    ("to the end of the most blocks", |_, command| {
        command.range().end == bytes(MOST)
    }),
    ("all that the most blocks can have", |_, command| {
        command.range() == (bytes(1)..bytes(MOST))
    }),
];

const OUTSIDE: [(&str, Where); 5] = [
    ("at the block behind the most", |seen, command| {
        seen.lent().b == MOST && command.block() == MOST && length(command) > 0
    }),
    ("just past the end of the most blocks", |seen, command| {
        let unit = if command.is(command::ERASE) { 1_024 } else { 1 };
        let past = command.block() < MOST && command.range().end == bytes(MOST) + unit;
        seen.lent().b == MOST && past
    }),
    (
        "at the block before, of a large address",
        |seen, command| {
            let before = command.block() + 1 == seen.lent().a;
            before && command.range().start >= WIDE && length(command) > 0
        },
    ),
    (
        "of the most, a block that fits in 8 bits",
        |seen, command| {
            let cut = command.block() % 256;
            let fits = (seen.lent().a..seen.lent().b).contains(&cut);
            seen.lent().b == MOST && command.block() > 255 && fits
        },
    ),
    (
        "of a large flash, a length that fits in 16 bits",
        |seen, command| {
            let start = command.range().start;
            let cut = start + length(command) % WIDE;
            let fits = start < cut && cut <= seen.application().end;
            seen.lent().b > SMALL && length(command) >= WIDE && fits
        },
    ),
];

type Alone = fn(&Command, &Lone) -> bool;

const ALONE: [(&str, Alone); 3] = [
    ("at an address of more than 16 bits", |command, lone| {
        command.range().start + lone.place >= WIDE
    }),
    ("over 65,535 bytes behind the start", |_, lone| {
        lone.place >= WIDE
    }),
    ("the last byte of the most blocks", |command, lone| {
        command.range().start + lone.place + 1 == bytes(MOST)
    }),
];

/// By the addresses that a piece was written to.
type Written = fn(&Seen, Range<u64>) -> bool;

const WRITTEN: [(&str, Written); 6] = [
    ("at an address of more than 16 bits", |_, written| {
        written.start >= WIDE
    }),
    ("across address 65,536", |_, written| across(&written, WIDE)),
    ("into the last of the most blocks", |_, written| {
        written.end > bytes(MOST - 1)
    }),
    ("up to the end of the most blocks", |_, written| {
        written.end == bytes(MOST)
    }),
    ("of over 65,535 that are awaited", |seen, _| {
        u64::from(seen.lent().down_left) >= WIDE
    }),
    (
        "longer than what is awaited, cut to 16 bits",
        |seen, written| {
            let left = u64::from(seen.lent().down_left);
            left >= WIDE && written.end - written.start > left % WIDE
        },
    ),
];

/// By the places of the stream that were answered.
type Read = fn(&Session, Range<u64>) -> bool;

const READ: [(&str, Read); 6] = [
    ("begun, over 65,535 bytes", |lent, places| {
        places.start == 0 && u64::from(lent.up_len) >= WIDE
    }),
    ("begun at a large address", |lent, places| {
        places.start == 0 && bytes(lent.up_first) >= WIDE
    }),
    ("from a place over 65,535 on", |_, places| {
        places.start >= WIDE && !places.is_empty()
    }),
    ("across place 65,536", |_, places| across(&places, WIDE)),
    ("across address 65,536", |lent, places| {
        across(&addresses(lent, places), WIDE)
    }),
    ("the last byte of the most blocks", |lent, places| {
        !places.is_empty() && addresses(lent, places).end == bytes(MOST)
    }),
];

type Info = fn(&Session) -> bool;

const INFO: [(&str, Info); 3] = [
    ("of the most blocks", |lent| lent.b == MOST),
    (
        "a byte not erased at an address of more than 16 bits",
        |lent| u64::from(lent.unerased) >= WIDE && bytes(lent.b) > lent.unerased.into(),
    ),
    (
        "an application at an address of more than 16 bits",
        |lent| bytes(lent.a) >= WIDE,
    ),
];

fn length(command: &Command) -> u64 {
    let Range { start, end } = command.range();
    end - start
}

/// The places of the stream that an upload was answered with.
fn answered(seen: &Seen) -> Range<u64> {
    let place = u64::from(seen.lent().up_place);
    place..place + u64::from(seen.outcome.count)
}

/// The addresses of a range that stand at these places of its stream.
fn addresses(lent: &Session, places: Range<u64>) -> Range<u64> {
    let prefix = 8 * u64::from(lent.up_prefix);
    let address = |place: u64| bytes(lent.up_first) + place.saturating_sub(prefix);
    address(places.start)..address(places.end)
}
