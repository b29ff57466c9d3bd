//! The rows of the entries: each rule at each place, alone and with others.

use super::reading::FAR;
use super::rows::Rows;
use super::seen::{Entry, Seen, EMPTY, OFFSET, PAST};

/// Where an entry stands among how many.
#[derive(Clone, Copy, PartialEq)]
enum Place {
    Only,
    First,
    Between,
    Last,
}

const PLACES: [(Place, &str); 4] = [
    (Place::Only, "the only entry"),
    (Place::First, "the first entry"),
    (Place::Between, "an entry between"),
    (Place::Last, "the last entry"),
];

/// The sets of rules that the first wrong entry can break. What begins where the
/// image before ended and has no bytes doesn't end past the file.
const SETS: [(u32, &str); 6] = [
    (OFFSET, "offset"),
    (EMPTY, "zero length"),
    (PAST, "past"),
    (OFFSET | EMPTY, "offset, zero length"),
    (OFFSET | PAST, "offset, past"),
    (OFFSET | EMPTY | PAST, "offset, zero length, past"),
];

impl Rows {
    pub fn entries(&mut self) {
        self.sets();
        self.nothing_else();
        self.orders();
        self.offsets();
        self.offsets_that_pass_elsewhere();
        self.ends();
        self.ends_that_wrap();
    }

    /// A row for each place, where an entry is the first wrong one.
    fn at(
        &mut self,
        places: &[(Place, &str)],
        what: &str,
        holds: impl Fn(&Seen, &Entry) -> bool + Copy + 'static,
    ) {
        for (place, name) in places {
            let place = *place;
            self.add(format!("{what}: {name}"), move |seen| {
                let at = seen
                    .refused_at()
                    .filter(|(at, _)| place_of(*at, seen) == place);
                at.is_some_and(|(_, entry)| holds(seen, entry))
            });
        }
    }

    fn sets(&mut self) {
        for (rules, names) in SETS {
            let refusal = 4 + rules.trailing_zeros();
            let what = format!("refused {refusal}, {names}");
            self.at(&PLACES, &what, move |_, entry| entry.rules == rules);
        }
    }

    /// In no other entry, nor behind the last. An image can't end past the file
    /// and another one behind it be right.
    fn nothing_else(&mut self) {
        let alone = |seen: &Seen, entry: &Entry, rule: u32| {
            let wrong = seen.entries.iter().filter(|entry| entry.rules > 0).count();
            entry.rules == rule && wrong == 1 && seen.left_over().is_none()
        };
        for (rule, what) in [(OFFSET, "refused 4 alone"), (EMPTY, "refused 5 alone")] {
            self.at(&PLACES, what, move |seen, entry| alone(seen, entry, rule));
        }
        let last = [PLACES[0], PLACES[3]];
        self.at(&last, "refused 6 alone", move |seen, entry| {
            alone(seen, entry, PAST)
        });
    }

    /// The entries are taken one by one, and bytes left over come last.
    fn orders(&mut self) {
        for first in 4..7 {
            for later in 4..7 {
                let name = format!("refused {first}: with {later} in a later entry");
                self.add(name, move |seen| {
                    let at = refused(seen, first);
                    at.is_some_and(|(at, _)| breaks(&seen.entries[at + 1..], later))
                });
            }
            let name = format!("refused {first}: with bytes left over");
            self.add(name, move |seen| {
                refused(seen, first).is_some() && seen.left_over().is_some()
            });
        }
    }

    fn offsets(&mut self) {
        self.at(&PLACES, "refused 4, one more", |_, entry| {
            entry.offset == entry.awaited + 1
        });
        self.at(&PLACES, "refused 4, one less", |_, entry| {
            entry.offset + 1 == entry.awaited
        });
        for bits in [8, 16, 24] {
            let what = format!("refused 4, right in its last {bits} bits");
            self.at(&PLACES, &what, move |_, entry| {
                entry.rules & OFFSET > 0 && (entry.offset ^ entry.awaited) % (1 << bits) == 0
            });
        }
        self.at(&PLACES, "refused 4, high byte first", |_, entry| {
            let swapped = u64::from((entry.awaited as u32).swap_bytes());
            entry.rules & OFFSET > 0 && entry.offset == swapped
        });
    }

    fn offsets_that_pass_elsewhere(&mut self) {
        self.at(
            &PLACES,
            "refused 4, counted behind the table",
            |seen, entry| entry.offset + 2 + 8 * seen.entries.len() as u64 == entry.awaited,
        );
        self.at(&PLACES, "refused 4, the end of the file", |seen, entry| {
            entry.rules & OFFSET > 0 && entry.offset == seen.length()
        });
        self.add("refused 4: where the image before begins", |seen| {
            let at = refused(seen, 4).filter(|(at, _)| *at > 0);
            at.is_some_and(|(at, entry)| seen.entries[at - 1].offset == entry.offset)
        });
        self.add("refused 4: the end before is past 32 bits, cut", |seen| {
            let at = refused(seen, 4).filter(|(_, entry)| entry.awaited >= FAR);
            at.is_some_and(|(_, entry)| entry.awaited % FAR == entry.offset)
        });
    }

    fn ends(&mut self) {
        self.at(&PLACES, "refused 6, a byte past", |seen, entry| {
            entry.refusal() == 6 && entry.end() == seen.length() + 1
        });
        self.at(&PLACES, "refused 6, no byte of it there", |seen, entry| {
            entry.refusal() == 6 && entry.offset == seen.length()
        });
        self.at(&PLACES, "refused 6, the greatest length", |_, entry| {
            entry.refusal() == 6 && entry.length == FAR - 1
        });
        self.at(&PLACES, "refused 6, a length of 2^31", |_, entry| {
            entry.refusal() == 6 && entry.length == FAR / 2
        });
        self.at(
            &PLACES,
            "refused 6, within if cut to 16 bits",
            |seen, entry| {
                let cut = entry.offset + entry.length % 65_536;
                entry.refusal() == 6 && cut <= seen.length()
            },
        );
        self.add("refused 6: a byte past, a file of over 4 GiB", |seen| {
            let at = refused(seen, 6).filter(|_| seen.length() > FAR);
            at.is_some_and(|(_, entry)| entry.end() == seen.length() + 1)
        });
    }

    /// Ends that a number of 32 bits would take for others.
    fn ends_that_wrap(&mut self) {
        let wraps = |entry: &Entry| entry.refusal() == 6 && entry.end() >= FAR;
        self.at(
            &PLACES,
            "refused 6, an end that would wrap to 0",
            move |_, entry| wraps(entry) && entry.end() == FAR,
        );
        self.at(
            &PLACES,
            "refused 6, an end that would wrap",
            move |seen, entry| wraps(entry) && entry.end() - FAR <= seen.length(),
        );
        let passing = [PLACES[1], PLACES[2]];
        self.at(
            &passing,
            "refused 6, all would pass if ends wrapped",
            move |seen, entry| wraps(entry) && passes_wrapped(seen),
        );
    }
}

fn place_of(at: usize, seen: &Seen) -> Place {
    match (at, seen.entries.len() - at) {
        (0, 1) => Place::Only,
        (0, _) => Place::First,
        (_, 1) => Place::Last,
        _ => Place::Between,
    }
}

/// The first wrong entry, where it is wrong by this rule first.
fn refused<'a>(seen: &'a Seen, refusal: u32) -> Option<(usize, &'a Entry)> {
    seen.refused_at()
        .filter(|(_, entry)| entry.refusal() == refusal)
}

/// Whether one of these is wrong by this rule first.
fn breaks(entries: &[Entry], refusal: u32) -> bool {
    let mut wrong = entries.iter().filter(|entry| entry.rules > 0);
    wrong.any(|entry| entry.refusal() == refusal)
}

/// Whether a reader would take the file if it summed in 32 bits.
fn passes_wrapped(seen: &Seen) -> bool {
    let mut end = 2 + 8 * seen.entries.len() as u64;
    for entry in &seen.entries {
        let wrapped = entry.end() % FAR;
        if entry.offset != end || entry.length == 0 || wrapped > seen.length() {
            return false;
        }
        end = wrapped;
    }
    end == seen.length()
}
