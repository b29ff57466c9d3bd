//! The rows of writing.

use super::reading::FAR;
use super::rows::{Rows, LENGTHS};
use super::seen::{list, Seen};
use super::MOST;

/// The writer's rules in the paper's order, and ours.
const RULES: [&str; 4] = ["count", "empty image", "no room", "wrong lengths"];

impl Rows {
    pub fn writing(&mut self) {
        self.written();
        self.rules();
        self.wrong_counts_of_lists();
        self.empty_images();
        self.no_room();
        self.no_room_at_all();
        self.wrong_lengths();
        self.far();
    }

    fn written(&mut self) {
        for count in 1..=MOST {
            self.add(format!("written, images: {count}"), move |seen| {
                seen.was_written() && seen.case.lengths.len() == count
            });
        }
        for length in LENGTHS {
            let name = format!("written, one image, its bytes: {length}");
            self.add(name, move |seen| {
                seen.was_written() && seen.case.lengths == [length]
            });
        }
        for (what, holds) in ROOMS {
            self.add(format!("written, {what}"), move |seen| {
                seen.was_written() && holds(seen.list.room, seen.list.needed)
            });
        }
        self.add(
            "written, a buffer with no room if its length were cut",
            |seen| {
                let cut = seen.list.room % u128::from(FAR);
                seen.was_written() && cut < seen.list.needed && seen.list.room >= u128::from(FAR)
            },
        );
    }

    /// Every set of rules that are broken together: the first of them refuses.
    fn rules(&mut self) {
        for rules in 1..16_u32 {
            let broken = (0..4).filter(|rule| rules & 1 << rule != 0);
            let names: Vec<&str> = broken.map(|rule| RULES[rule]).collect();
            let first = rules.trailing_zeros() + 1;
            let name = format!("unwritten {first}: {}", names.join(", "));
            self.add(name, move |seen| seen.unwritten(rules));
        }
    }

    /// With the room for all of them, and bytes that the lengths add up to.
    fn wrong_counts_of_lists(&mut self) {
        for count in [0, 33, 34, 64, 255, 256, 257, 288, 65_537] {
            let name = format!("unwritten 1 alone, images: {count}");
            self.add(name, move |seen| {
                seen.unwritten(list::COUNT) && seen.case.lengths.len() == count
            });
        }
        self.add("unwritten 1: no images and no buffer", |seen| {
            let nothing = seen.case.lengths.is_empty() && seen.list.room == 0;
            seen.written.refused == 1 && nothing
        });
        self.add("unwritten 1: a length past 32 bits", |seen| {
            seen.written.refused == 1 && longest(seen) >= FAR
        });
    }

    fn empty_images(&mut self) {
        for (what, holds) in EMPTY {
            for (rules, beside) in [(0, "alone"), (list::ROOM, "without room")] {
                self.add(format!("unwritten 2 {beside}: {what}"), move |seen| {
                    seen.unwritten(list::EMPTY | rules) && holds(&empty(seen))
                });
            }
        }
        self.add("unwritten 2: beside a length past 32 bits", |seen| {
            seen.written.refused == 2 && longest(seen) >= FAR
        });
        self.add("unwritten 2: in a buffer of over 4 GiB", |seen| {
            seen.written.refused == 2 && seen.list.room >= u128::from(FAR)
        });
    }

    /// For lengths that are those of the images.
    fn no_room(&mut self) {
        for missing in [1, 2, 8] {
            self.add(format!("unwritten 3 alone, bytes missing: {missing}"), {
                move |seen| {
                    seen.unwritten(list::ROOM) && seen.list.room + missing == seen.list.needed
                }
            });
        }
        for (what, room) in LITTLE {
            self.add(format!("unwritten 3 alone, {what}"), move |seen| {
                let head = seen.list.needed - seen.list.bytes;
                seen.unwritten(list::ROOM) && seen.list.room == room(head, seen.list.bytes)
            });
        }
    }

    /// For lengths that no buffer holds.
    fn no_room_at_all(&mut self) {
        for (what, length) in LONG {
            self.add(format!("unwritten 3, a length of {what}"), move |seen| {
                seen.unwritten(list::ROOM | list::LENGTHS) && longest(seen) == length
            });
        }
        for (what, cut) in CUT {
            let name = format!("unwritten 3, all would do with {what}");
            self.add(name, move |seen| would_do(seen, cut(seen)));
        }
        self.add(
            "unwritten 3, each length has 32 bits, their sum not",
            |seen| {
                let cut = seen.list.bytes % u128::from(FAR);
                longest(seen) < FAR && would_do(seen, cut)
            },
        );
        self.add(
            "unwritten 3, the whole would wrap 64 bits into the room",
            |seen| {
                let wrapped = seen.list.needed % (1 << 64);
                let wraps = seen.list.needed >> 64 > 0 && seen.list.bytes >> 64 == 0;
                seen.written.refused == 3 && wraps && wrapped <= seen.list.room
            },
        );
    }

    fn wrong_lengths(&mut self) {
        for (what, holds) in OTHER {
            for (rooms, room) in [("just their room", true), ("more room", false)] {
                let name = format!("unwritten 4, {what}, the lengths have {rooms}");
                self.add(name, move |seen| {
                    let there = seen.case.images.len() as u128;
                    let just = seen.list.room == seen.list.needed;
                    let held = seen.unwritten(list::LENGTHS) && holds(there, seen.list.bytes);
                    held && just == room
                });
            }
        }
        self.add(
            "unwritten 4, as many bytes if their number were cut",
            |seen| {
                let there = seen.case.images.len() as u128;
                seen.unwritten(list::LENGTHS) && there == seen.list.bytes + u128::from(FAR)
            },
        );
    }

    /// Numbers around 4 GiB, in buffers that would have the room.
    fn far(&mut self) {
        for (what, refused, holds) in AROUND {
            self.add(format!("unwritten {refused}, {what}"), move |seen| {
                let room = seen.list.needed <= seen.list.room;
                let rules = [list::ROOM | list::LENGTHS, list::LENGTHS][refused - 3];
                seen.unwritten(rules) && room && holds(seen.list.last_offset as u64, longest(seen))
            });
        }
        self.add(
            "unwritten 3, a buffer of over 4 GiB a byte too short",
            |seen| {
                let fits = seen.list.last_offset < u128::from(FAR) && longest(seen) < FAR;
                let short = seen.list.room + 1 == seen.list.needed;
                seen.written.refused == 3 && fits && short && seen.list.room > u128::from(FAR)
            },
        );
    }
}

fn longest(seen: &Seen) -> u64 {
    seen.case.lengths.iter().copied().max().unwrap_or(0)
}

/// Which of the images have no bytes.
fn empty(seen: &Seen) -> Vec<bool> {
    let lengths = seen.case.lengths.iter();
    lengths.map(|length| *length == 0).collect()
}

/// Whether nothing would be wrong, if there were so many bytes of images.
fn would_do(seen: &Seen, bytes: u128) -> bool {
    let fits = seen.list.needed - seen.list.bytes + bytes <= seen.list.room;
    let same = bytes == seen.case.images.len() as u128;
    seen.unwritten(list::ROOM | list::LENGTHS) && same && fits
}

type Room = fn(u128, u128) -> bool;

/// By the room lent and the room needed.
const ROOMS: [(&str, Room); 5] = [
    ("the least that can be", |room, needed| {
        needed == 11 && room == 11
    }),
    ("just its room", |room, needed| room == needed),
    ("a byte more than its room", |room, needed| {
        room == needed + 1
    }),
    ("some more than its room", |room, needed| room > needed + 1),
    ("far more than its room", |room, needed| {
        room >= needed + 4_096
    }),
];

type Empty = fn(&[bool]) -> bool;

/// By which of the images have no bytes.
const EMPTY: [(&str, Empty); 5] = [
    ("the only one", |zero| zero.len() == 1),
    ("the first of several", |zero| {
        zero[0] && !zero[1..].contains(&true) && zero.len() > 1
    }),
    ("the last of several", |zero| {
        let last = zero.len() - 1;
        zero[last] && !zero[..last].contains(&true) && last > 0
    }),
    ("one between", |zero| {
        let last = zero.len() - 1;
        !zero[0] && !zero[last] && zero.contains(&true)
    }),
    ("all 32", |zero| zero.len() == 32 && !zero.contains(&false)),
];

type Little = fn(u128, u128) -> u128;

/// Rooms, by the bytes before the images and those of the images.
const LITTLE: [(&str, Little); 5] = [
    ("no buffer", |_, _| 0),
    ("room for the images alone", |_, images| images),
    ("room for the table alone", |head, _| head),
    ("room for the table but for a byte", |head, _| head - 1),
    ("room for the count", |_, _| 2),
];

/// The longest of the lengths.
const LONG: [(&str, u64); 5] = [
    ("2^32 - 1", FAR - 1),
    ("2^32", FAR),
    ("2^63", 1 << 63),
    ("2^64 - 1", u64::MAX),
    ("2^64 - 2", u64::MAX - 1),
];

type Cut = fn(&Seen) -> u128;

/// How the bytes of all images might be miscounted.
const CUT: [(&str, Cut); 3] = [
    ("a sum of 64 bits", |seen| seen.list.bytes % (1 << 64)),
    ("a sum of 32 bits", |seen| seen.list.bytes % u128::from(FAR)),
    ("lengths of 32 bits", |seen| {
        let lengths = seen.case.lengths.iter();
        lengths.map(|length| u128::from(length % FAR)).sum()
    }),
];

type Other = fn(u128, u128) -> bool;

/// By the bytes that are there, and the sum of the lengths.
const OTHER: [(&str, Other); 3] = [
    ("a byte more", |there, told| there == told + 1),
    ("a byte less", |there, told| there + 1 == told),
    ("no bytes", |there, _| there == 0),
];

type Around = fn(u64, u64) -> bool;

/// By the last offset and the longest length.
const AROUND: [(&str, usize, Around); 6] = [
    ("a length of 2^32 - 1 has its room", 4, |_, longest| {
        longest == FAR - 1
    }),
    ("an offset of 2^32 - 1 has its room", 4, |offset, _| {
        offset == FAR - 1
    }),
    (
        "a length of 2^32 would have its room",
        3,
        |offset, longest| longest == FAR && offset < FAR,
    ),
    (
        "a length of 2^32 + 1 would have its room",
        3,
        |_, longest| longest == FAR + 1,
    ),
    (
        "an offset of 2^32 would have its room",
        3,
        |offset, longest| offset == FAR && longest < FAR,
    ),
    (
        "an offset of 2^32 + 1 would have its room",
        3,
        |offset, longest| offset == FAR + 1 && longest < FAR,
    ),
];
