//! The rows of the whole sum, which is made from the kept sums of the blocks
//! alone: which of them were wrong when bytes were stored, and where among the
//! blocks of the application those lie that bytes were stored to.

use crate::rows::Rows;
use crate::seen::Seen;
use mullirim_host::histories::Call;
use mullirim_host::second::{answer, command, joined, state, Outcome, BLOCK, MOST_BLOCKS};
use std::ops::Range;

/// A call that stored bytes, and so made sums anew.
pub struct Refresh {
    /// The blocks that bytes were stored to.
    touched: Range<usize>,
    /// The blocks of the application.
    application: Range<usize>,
    /// Those of them whose kept sum was not that of their bytes.
    wrong: Vec<usize>,
    /// The sum of the application's bytes, before the call and after it.
    before: u32,
    after: u32,
}

impl Refresh {
    /// By the right sums of the flash's blocks, before the call and after it.
    pub fn new(call: &Call, outcome: &Outcome, right: [&[u32]; 2]) -> Option<Refresh> {
        let places = call.stored(outcome)?;
        let size = BLOCK as usize;
        let application = call.session.a as usize..call.session.b as usize;
        let [before, after] = right.map(|sums| &sums[application.clone()]);
        let wrong = |block: &usize| call.session.sums[*block] != right[0][*block];
        Some(Refresh {
            touched: places.start / size..places.end.div_ceil(size),
            wrong: application.clone().filter(wrong).collect(),
            application,
            before: joined(before),
            after: joined(after),
        })
    }

    fn one_block(&self) -> bool {
        self.application.len() == 1
    }

    /// Some kept sum was wrong, and none outside of these blocks.
    fn wrong_in(&self, blocks: Range<usize>) -> bool {
        !self.wrong.is_empty() && self.wrong.iter().all(|block| blocks.contains(block))
    }

    fn before_touched(&self) -> Range<usize> {
        self.application.start..self.touched.start
    }

    fn behind_touched(&self) -> Range<usize> {
        self.touched.end..self.application.end
    }

    fn wrong_among(&self, blocks: Range<usize>) -> bool {
        self.wrong.iter().any(|block| blocks.contains(block))
    }
}

impl Rows {
    pub fn joins(&mut self) {
        for (by, stores) in STORES {
            for (what, holds) in WRONG.iter().chain(&TOUCHED) {
                self.refresh(format!("sums after {by}: {what}"), stores, *holds);
            }
        }
        // The data of a PROG fits in one block.
        for (by, stores) in [STORES[0], STORES[2]] {
            let name = format!("sums after {by}: all of several blocks stored to");
            self.refresh(name, stores, |_, refresh| {
                refresh.touched == refresh.application && !refresh.one_block()
            });
        }
        self.kept();
    }

    fn refresh(&mut self, name: String, stores: Stores, holds: Joined) {
        self.add(name, move |seen| {
            let refresh = seen.refresh.as_ref().filter(|_| stores(seen));
            refresh.is_some_and(|refresh| holds(seen, refresh))
        });
    }

    /// Where no byte is stored also a whole stays that its blocks don't give.
    fn kept(&mut self) {
        for (what, holds) in NOTHING_STORED {
            self.add(format!("a wrong whole kept by {what}"), move |seen| {
                let lent = seen.lent();
                holds(seen)
                    && seen.next().whole == lent.whole
                    && joined(&lent.sums[lent.a as usize..lent.b as usize]) != lent.whole
            });
        }
    }
}

type Stores = fn(&Seen) -> bool;

const STORES: [(&str, Stores); 3] = [
    ("ERASE", |seen| is_command(seen, command::ERASE)),
    ("PROG", |seen| is_command(seen, command::PROG)),
    ("a piece", |seen| seen.piece.is_some()),
];

fn is_command(seen: &Seen, number: u8) -> bool {
    let command = seen.command.as_ref();
    command.is_some_and(|command| command.is(number))
}

type Joined = fn(&Seen, &Refresh) -> bool;

/// Which kept sums were wrong. Where one stays wrong, the whole must not be that
/// of the flash: a loader that reads the application for it is found out.
const WRONG: [(&str, Joined); 10] = [
    ("none wrong before", |seen, refresh| {
        refresh.wrong.is_empty() && seen.lent().whole == refresh.before
    }),
    (
        "the whole alone wrong before, then right",
        |seen, refresh| {
            let alone = refresh.wrong.is_empty() && seen.lent().whole != refresh.before;
            alone && seen.next().whole == refresh.after
        },
    ),
    (
        "wrong before the blocks stored to, whole wrong",
        |seen, refresh| {
            let wrong = refresh.wrong_in(refresh.before_touched());
            wrong && seen.next().whole != refresh.after
        },
    ),
    (
        "wrong behind the blocks stored to, whole wrong",
        |seen, refresh| {
            let wrong = refresh.wrong_in(refresh.behind_touched());
            wrong && seen.next().whole != refresh.after
        },
    ),
    ("wrong before and behind, whole wrong", |seen, refresh| {
        let before = refresh.wrong_among(refresh.before_touched());
        let wrong = before && refresh.wrong_among(refresh.behind_touched());
        wrong && seen.next().whole != refresh.after
    }),
    (
        "wrong of a block stored to alone, whole right",
        |seen, refresh| {
            let wrong = refresh.wrong_in(refresh.touched.clone());
            wrong && seen.next().whole == refresh.after
        },
    ),
    (
        "wrong of a block stored to and of another",
        |seen, refresh| {
            let among = refresh.wrong_among(refresh.touched.clone());
            let wrong = among && !refresh.wrong_in(refresh.touched.clone());
            wrong && seen.next().whole != refresh.after
        },
    ),
    (
        "wrong of the first block alone, and kept",
        |seen, refresh| {
            let first = refresh.application.start;
            let kept = refresh.wrong == [first] && first < refresh.touched.start;
            kept && seen.next().whole != refresh.after
        },
    ),
    (
        "wrong of the last block alone, and kept",
        |seen, refresh| {
            let last = refresh.application.end - 1;
            let kept = refresh.wrong == [last] && refresh.touched.end <= last;
            kept && seen.next().whole != refresh.after
        },
    ),
    ("whole right before, wrong by a block's", |seen, refresh| {
        seen.lent().whole == refresh.before && seen.next().whole != refresh.after
    }),
];

/// Where the blocks lie that bytes were stored to.
const TOUCHED: [(&str, Joined); 5] = [
    (
        "the first of several blocks alone stored to",
        |_, refresh| {
            let first = refresh.application.start;
            refresh.touched == (first..first + 1) && !refresh.one_block()
        },
    ),
    (
        "the last of several blocks alone stored to",
        |_, refresh| {
            let last = refresh.application.end - 1;
            refresh.touched == (last..last + 1) && !refresh.one_block()
        },
    ),
    ("blocks stored to between others", |_, refresh| {
        !refresh.before_touched().is_empty() && !refresh.behind_touched().is_empty()
    }),
    ("an application of one block", |_, refresh| {
        refresh.one_block()
    }),
    ("an application of the most blocks", |_, refresh| {
        refresh.application.len() == MOST_BLOCKS - 1
    }),
];

const NOTHING_STORED: [(&str, Stores); 5] = [
    ("PROG with no data", |seen| {
        let none = seen.command.as_ref().is_some_and(|c| c.extra() == 0);
        seen.answered(answer::TAKEN) && is_command(seen, command::PROG) && none
    }),
    ("a PROG with data that faulted", |seen| {
        let some = seen.command.as_ref().is_some_and(|c| c.extra() > 0);
        seen.answered(answer::FAULTED) && is_command(seen, command::PROG) && some
    }),
    ("CHECK", |seen| {
        seen.answered(answer::TAKEN) && is_command(seen, command::CHECK)
    }),
    ("RESET", |seen| seen.answered(answer::RESET_ASKED)),
    ("the close of a download", |seen| {
        seen.piece == Some(0) && seen.next().state == state::MANIFEST_SYNC
    }),
];

#[cfg(test)]
mod tests {
    use super::*;
    use mullirim_host::second::{start, step, ERASED, TRANSFER};

    /// ERASE of block 3, of an application of blocks 2 to 5, with these kept sums
    /// made wrong: its refresh, and whether the whole is right then.
    fn erased(wrong: &[usize]) -> (Refresh, bool) {
        let mut flash = vec![0x5A; 6 * 1_024];
        let (_, mut session) = start(&flash, 2, 6, 0, 0);
        let mut right = session.sums;
        for block in wrong {
            session.sums[*block] ^= 1;
        }
        let call = Call {
            session,
            lent: flash.len(),
            setup: vec![0x21, 1, 0, 0, 0, 0, 8, 0],
            data: vec![4, 0, 3, 0, 1, 0, 0, 0],
            room: TRANSFER,
        };
        let reply = &mut [0; TRANSFER];
        let outcome = step(&call.session, &mut flash, &call.setup, &call.data, reply);
        let before = right;
        right[3] = mullirim_host::second::sum(&[ERASED; 1_024]);
        let refresh = Refresh::new(&call, &outcome, [&before, &right]).expect("bytes stored");
        let whole = outcome.session.whole == refresh.after;
        (refresh, whole)
    }

    #[test]
    fn wrong_sums_are_told_by_their_blocks() {
        let (none, whole) = erased(&[]);
        assert!(whole && none.wrong.is_empty() && !none.wrong_in(2..6));
        assert_eq!((none.touched, none.application), (3..4, 2..6));
        let (touched, whole) = erased(&[3]);
        assert!(whole && touched.wrong_in(3..4) && touched.before != touched.after);
        let (both, whole) = erased(&[2, 5]);
        assert!(!whole && both.wrong == [2, 5] && !both.wrong_in(both.before_touched()));
        assert!(both.wrong_among(both.before_touched()));
        assert!(both.wrong_among(both.behind_touched()));
        let (behind, whole) = erased(&[4]);
        assert!(!whole && behind.wrong_in(behind.behind_touched()));
    }
}
