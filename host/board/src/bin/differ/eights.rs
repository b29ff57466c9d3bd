//! The rows of the search for a byte that is not erased. It may take eight bytes
//! at a time, counted from the range's start, and two eights in a turn: so the rows
//! are how far a range goes behind its last whole eight, and where in it a byte alone
//! is not erased.

use crate::rows::Rows;
use crate::seen::{Command, Seen};
use mullirim_host::lone::lone_in;
use mullirim_host::second::{answer, BLOCK};
use std::ops::Range;

const EIGHT: u64 = 8;
const BLOCK_BYTES: u64 = BLOCK as u64;

/// The only byte of a range that is not erased.
pub struct Lone {
    /// Counted from the range's start.
    pub place: u64,
    value: u8,
    /// How long the range is.
    length: u64,
}

/// Where an eight stands.
#[derive(Clone, Copy, Debug, PartialEq)]
enum Eight {
    First,
    Second,
    /// Behind the last two.
    Single,
}

impl Lone {
    pub fn new(flash: &[u8], range: Range<u64>) -> Option<Lone> {
        let bytes = &flash[range.start as usize..range.end as usize];
        let place = lone_in(bytes)?;
        Some(Lone {
            place: place.into(),
            value: bytes[place as usize],
            length: bytes.len() as u64,
        })
    }

    /// Its place in a whole eight of the range, and which of two that eight is.
    fn in_eight(&self) -> Option<(Eight, u64)> {
        let pairs = self.length - self.length % (2 * EIGHT);
        let eight = match self.place {
            place if place >= pairs => Eight::Single,
            place if place % (2 * EIGHT) < EIGHT => Eight::First,
            _ => Eight::Second,
        };
        (self.place < self.eights()).then_some((eight, self.place % EIGHT))
    }

    /// Its place among the bytes behind the last whole eight, and their number.
    fn behind(&self) -> Option<(u64, u64)> {
        let rest = self.length - self.eights();
        (self.place >= self.eights()).then(|| (self.place - self.eights(), rest))
    }

    /// How many bytes the whole eights of the range have.
    fn eights(&self) -> u64 {
        self.length - self.length % EIGHT
    }

    fn in_later_block(&self) -> bool {
        self.place >= BLOCK_BYTES
    }

    /// In the block that the range ends inside of, with blocks before it.
    fn in_last_part(&self) -> bool {
        let part = self.length % BLOCK_BYTES;
        self.in_later_block() && self.place >= self.length - part
    }
}

impl Rows {
    /// For PROG or CHECK.
    pub fn eights(&mut self, number: u8, name: &'static str) {
        let mut both = OfCommand {
            rows: self,
            number,
            name,
        };
        both.in_eights();
        both.behind_eights();
        both.in_blocks();
        both.bits();
        both.just_outside();
        both.short();
    }
}

/// The rows of one command.
struct OfCommand<'a> {
    rows: &'a mut Rows,
    number: u8,
    name: &'static str,
}

impl OfCommand<'_> {
    /// Refused for one byte alone.
    fn lone(&mut self, what: &str, holds: impl Fn(&Lone) -> bool + 'static) {
        let name = format!("05: {}, alone {what}", self.name);
        let number = self.number;
        self.rows.command(name, move |seen, command| {
            command.is(number) && seen.lone.as_ref().is_some_and(&holds)
        });
    }

    fn taken(&mut self, what: &str, holds: impl Fn(&Seen, &Command) -> bool + 'static) {
        let name = format!("{} taken, {what}", self.name);
        let number = self.number;
        self.rows.command(name, move |seen, command| {
            seen.answered(answer::TAKEN) && command.is(number) && holds(seen, command)
        });
    }

    fn in_eights(&mut self) {
        for (eight, name) in [
            (Eight::First, "a first eight"),
            (Eight::Second, "a second eight"),
            (Eight::Single, "an eight without a second"),
        ] {
            for place in 0..EIGHT {
                self.lone(&format!("byte {place} of {name}"), move |lone| {
                    lone.in_eight() == Some((eight, place))
                });
            }
        }
    }

    fn behind_eights(&mut self) {
        self.lone("the one byte behind the eights", |lone| {
            lone.behind() == Some((0, 1))
        });
        for rest in 2..EIGHT {
            let first = format!("the first of {rest} behind the eights");
            self.lone(&first, move |lone| lone.behind() == Some((0, rest)));
            let last = format!("the last of {rest} behind the eights");
            self.lone(&last, move |lone| lone.behind() == Some((rest - 1, rest)));
        }
    }

    fn in_blocks(&mut self) {
        self.lone("the first byte of a later block", |lone| {
            lone.in_later_block() && lone.place % BLOCK_BYTES == 0
        });
        self.lone("the last byte of a later block", |lone| {
            lone.in_later_block() && lone.place % BLOCK_BYTES == BLOCK_BYTES - 1
        });
        self.lone("the last byte of a block before the last", |lone| {
            lone.place % BLOCK_BYTES == BLOCK_BYTES - 1 && lone.place + 1 < lone.length
        });
        self.lone("in the part of a block at the end", Lone::in_last_part);
        self.taken("a part of a block at the end", |_, command| {
            let length = u64::from(command.long());
            length > BLOCK_BYTES && length % BLOCK_BYTES > 0
        });
    }

    fn bits(&mut self) {
        for bit in 0..8 {
            self.lone(&format!("by bit {bit}"), move |lone| {
                lone.value == !(1 << bit)
            });
        }
        self.lone("a byte of zeros", |lone| lone.value == 0);
    }

    /// The bytes of the application next to a range are not searched.
    fn just_outside(&mut self) {
        for rest in 0..EIGHT {
            let what = format!("{rest} behind the eights and the next byte not erased");
            self.taken(&what, move |seen, command| {
                let end = command.range().end;
                let next = end < seen.application().end && seen.dirty(end..end + 1) == 1;
                u64::from(command.long()) % EIGHT == rest && next
            });
        }
        self.taken("the byte before not erased", |seen, command| {
            let start = command.range().start;
            start > seen.application().start && seen.dirty(start - 1..start) == 1
        });
    }

    fn short(&mut self) {
        for length in 1..EIGHT {
            self.taken(&format!("{length} long"), move |_, command| {
                u64::from(command.long()) == length
            });
            self.lone(&format!("in a range of {length}"), move |lone| {
                lone.length == length
            });
        }
    }
}

#[cfg(test)]
mod tests {
    use super::*;
    use mullirim_host::second::ERASED;

    /// Of a range of 1,039 bytes, with this byte alone not erased.
    fn lone(place: usize) -> Lone {
        let mut flash = [ERASED; 3_072];
        flash[1_024 + place] = 0x7F;
        Lone::new(&flash, 1_024..2_063).unwrap()
    }

    #[test]
    fn a_byte_is_in_an_eight_or_behind_them() {
        assert_eq!(lone(0).in_eight(), Some((Eight::First, 0)));
        assert_eq!(lone(0).behind(), None);
        assert_eq!(lone(1_015).in_eight(), Some((Eight::First, 7)));
        assert_eq!(lone(1_023).in_eight(), Some((Eight::Second, 7)));
        assert_eq!(lone(1_024).in_eight(), Some((Eight::Single, 0)));
        assert_eq!(lone(1_031).in_eight(), Some((Eight::Single, 7)));
        assert_eq!(lone(1_032).in_eight(), None);
        assert_eq!(lone(1_032).behind(), Some((0, 7)));
        assert_eq!(lone(1_038).behind(), Some((6, 7)));
        assert!(lone(1_024).in_last_part() && !lone(1_023).in_last_part());
    }

    #[test]
    fn only_one_byte_is_alone() {
        let mut flash = [ERASED; 2_048];
        assert!(Lone::new(&flash, 1_024..2_048).is_none());
        flash[2_047] = 0;
        assert_eq!(Lone::new(&flash, 1_024..2_048).unwrap().value, 0);
        assert!(Lone::new(&flash, 1_024..2_047).is_none());
        flash[1_024] = 0;
        assert!(Lone::new(&flash, 1_024..2_048).is_none());
    }
}
