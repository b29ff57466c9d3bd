//! The two loaders side by side through one history.

use crate::seen::Seen;
use crate::tally::Tally;
use mullirim_board::{request, start, Session};
use mullirim_host::comparison::{same, same_bytes, Same};
use mullirim_host::histories::{Call, History, Start, REPLY_ROOM};
use mullirim_host::second::{self, answer, Outcome, BLOCK};

/// What stands for an address where there is none, as the paper writes it.
const NONE: u32 = 0xFFFF_FFFF;

/// What lies before the flash that is lent.
const BEFORE: [u8; 7] = [0x5A; 7];

pub struct Pair {
    history: History,
    /// The proved loader's own flash and reply. They live on from call to
    /// call, so that a byte astray is seen at once and stays seen. The flash
    /// is moved by up to seven bytes, so that it doesn't always lie as the
    /// allocator likes.
    flash: Vec<u8>,
    moved: usize,
    reply: [u8; REPLY_ROOM],
    awaited: [u8; REPLY_ROOM],
}

impl Pair {
    pub fn new(seed: u64, number: u64) -> Pair {
        let history = History::new(seed, number);
        // Every second history of a kind is wild: so the tame ones and the wild
        // ones of either kind are moved by each number.
        let moved = (history.turn / 2 % 8) as usize;
        Pair {
            flash: [&BEFORE[..moved], &history.flash].concat(),
            moved,
            history,
            reply: [0xEE; REPLY_ROOM],
            awaited: [0xEE; REPLY_ROOM],
        }
    }

    pub fn play(&mut self, tally: &mut Tally) -> Same {
        for start in self.history.starts() {
            self.start(&start, tally)?;
        }
        for _ in 0..self.history.length {
            let call = self.history.call();
            self.call(&call, tally)
                .map_err(|difference| format!("{difference}\n{}", described(&call)))?;
        }
        Ok(())
    }

    fn start(&mut self, call: &Start, tally: &mut Tally) -> Same {
        let lent = &self.flash[self.moved..][..call.lent];
        let started = start(lent, call.a, call.b, call.part0, call.part1);
        let answer = self.history.begin(call);
        tally.start(call, answer);
        same("start's answer", &started.code, &u32::from(answer))?;
        same_session(&started.session, &self.history.session)?;
        if answer == second::answer::TAKEN {
            self.same_whole(&self.history.session)?;
        }
        self.same_flash()
    }

    fn call(&mut self, call: &Call, tally: &mut Tally) -> Same {
        let found = walked(call, &self.history.flash[..call.lent]);
        let mut session = Session::from(&call.session);
        let flash = &mut self.flash[self.moved..][..call.lent];
        let reply = &mut self.reply[..call.room];
        let answer = request(&mut session, flash, &call.setup, &call.data, reply);
        let before = self.history.right.clone();
        let awaited = self.history.serve(call, &mut self.awaited);
        tally.requests += 1;
        same("answer", &answer.code, &u32::from(awaited.answer))?;
        same("count", &answer.count, &awaited.count)?;
        same_session(&session, &awaited.session)?;
        same_search(&awaited, found)?;
        self.same_flash()?;
        same_bytes("reply", &self.reply, &self.awaited)?;
        if call.stored(&awaited).is_some() {
            self.same_whole(&awaited.session)?;
        }
        let right = [&before[..], &self.history.right];
        let flash = &self.history.flash;
        tally.agreed(&Seen::new(call, &awaited, flash, &self.awaited, right));
        Ok(())
    }

    /// Neither loader reads the application for its whole sum. Where the sums of
    /// all its blocks are right, it must be what reading gives all the same.
    fn same_whole(&self, kept: &second::Session) -> Same {
        let blocks = kept.a as usize..kept.b as usize;
        if kept.sums[blocks.clone()] != self.history.right[blocks] {
            return Ok(());
        }
        let bytes = (kept.a * BLOCK) as usize..(kept.b * BLOCK) as usize;
        let read = second::sum(&self.history.flash[bytes]);
        same("whole sum", &kept.whole, &read)
    }

    fn same_flash(&self) -> Same {
        let (before, flash) = self.flash.split_at(self.moved);
        same_bytes("bytes before the flash", before, &BEFORE[..self.moved])?;
        same_bytes("flash", flash, &self.history.flash)
    }
}

fn same_session(left: &Session, awaited: &second::Session) -> Same {
    same("session", &second::Session::from(left), awaited)
}

/// What a search of the range that a CHECK or PROG names would find, by its data and
/// the flash before it alone; nothing where no search is asked for. It is a third
/// reading of the paper, in the paper's numbers: the two loaders might be wrong alike.
fn walked(call: &Call, flash: &[u8]) -> Option<u32> {
    let [1 | 3, _, low, high, length @ ..] = &call.data[..] else {
        return None;
    };
    let first = usize::from(*low) * 1_024 + usize::from(*high) * 262_144;
    let length = u32::from_le_bytes(*length.first_chunk()?) as usize;
    let range = flash.get(first..first + length)?;
    let command = call.setup.starts_with(&[0x21, 1]) && call.session.state == 2;
    let place = || range.iter().position(|byte| *byte != 0xFF);
    command.then(|| place().map_or(NONE, |place| (first + place) as u32))
}

/// A command that searched, which is one that was taken or that found a byte, was
/// answered by what there was to find, and has left that.
fn same_search(outcome: &Outcome, found: Option<u32>) -> Same {
    let taken = outcome.answer == answer::TAKEN;
    let refused = outcome.answer == answer::FAULTED && outcome.session.status == 0x05;
    match found {
        None if refused => Err("nothing was to be searched, and the fault is 05".to_string()),
        Some(found) if taken || refused => {
            same("whether a range is erased", taken, found == NONE)?;
            same(
                "address that a search left",
                outcome.session.unerased,
                found,
            )
        }
        _ => Ok(()),
    }
}

fn described(call: &Call) -> String {
    let head = &call.data[..call.data.len().min(16)];
    format!(
        "setup {:02X?}, {} data bytes from {head:02X?}, reply room {}, {} bytes of flash, {:?}",
        call.setup,
        call.data.len(),
        call.room,
        call.lent,
        call.session
    )
}

#[cfg(test)]
mod tests {
    use super::*;

    /// In state 2, on three blocks of which the last two are the application.
    fn call(data: &[u8]) -> Call {
        let flash = [0xFF; 3 * 1_024];
        Call {
            session: second::start(&flash, 1, 3, 0, 0).1,
            lent: flash.len(),
            setup: vec![0x21, 1, 0, 0, 0, 0, data.len() as u8, 0],
            data: data.to_vec(),
            room: 1_024,
        }
    }

    const CHECK: [u8; 8] = [3, 0, 1, 0, 0, 8, 0, 0];

    #[test]
    fn a_walk_finds_the_first_byte_of_the_range() {
        let mut flash = [0xFF; 3 * 1_024];
        (flash[1_023], flash[2_000], flash[2_001]) = (0, 0xFE, 0);
        let found = |data: &[u8]| walked(&call(data), &flash);
        assert_eq!(found(&CHECK), Some(2_000));
        assert_eq!(found(&[1, 0, 1, 0, 0, 8, 0, 0, 7]), Some(2_000));
        assert_eq!(found(&[3, 0, 1, 0, 0xD1, 3, 0, 0]), Some(2_000));
        assert_eq!(found(&[3, 0, 1, 0, 0xD0, 3, 0, 0]), Some(NONE));
        assert_eq!(found(&[3, 0, 2, 0, 0, 4, 0, 0]), Some(NONE));
    }

    #[test]
    fn where_no_search_is_asked_for_there_is_no_walk() {
        let flash = [0; 3 * 1_024];
        let found = |data: &[u8]| walked(&call(data), &flash);
        assert_eq!(found(&[3, 0, 1, 0, 1, 8, 0, 0]), None);
        assert_eq!(found(&[3, 0, 1, 0, 0, 8, 0, 1]), None);
        assert_eq!(found(&[3, 0, 1, 1, 0, 8, 0, 0]), None);
        assert_eq!(found(&[2, 0, 1, 0, 0, 8, 0, 0]), None);
        assert_eq!(found(&CHECK[..7]), None);
        assert_eq!(found(&[]), None);
        let mut other = call(&CHECK);
        other.session.state = 5;
        assert_eq!(walked(&other, &flash), None);
        other.session.state = 2;
        assert_eq!(walked(&other, &flash), Some(1_024));
        other.setup[1] = 2;
        assert_eq!(walked(&other, &flash), None);
    }

    /// However alike the two loaders are: all that may be left is what was to be
    /// found.
    #[test]
    fn what_a_search_left_is_held_to_the_walk() {
        let held = |answer, status, unerased, found| {
            let session = second::Session {
                status,
                unerased,
                ..second::Session::zeros()
            };
            let outcome = Outcome {
                answer,
                count: 0,
                session,
            };
            same_search(&outcome, found).is_ok()
        };
        let (taken, faulted) = (answer::TAKEN, answer::FAULTED);
        assert!(held(faulted, 0x05, 2_000, Some(2_000)));
        for wrong in [2_001, 1_999, 2_000 - 1_024, 0, NONE] {
            assert!(!held(faulted, 0x05, wrong, Some(2_000)));
            assert!(!held(taken, 0, wrong, Some(2_000)));
        }
        assert!(held(taken, 0, NONE, Some(NONE)));
        for wrong in [0, 2_000, NONE - 1] {
            assert!(!held(taken, 0, wrong, Some(NONE)));
        }
        assert!(!held(faulted, 0x05, NONE, Some(NONE)) && !held(faulted, 0x05, 2_000, None));
        assert!(held(faulted, 0x08, 7, Some(2_000)) && held(taken, 0, 7, None));
    }
}
