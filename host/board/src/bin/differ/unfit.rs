//! Why a request is unfit: the paper's reasons and the session's rules, each by
//! itself, so that a run can tell whether each was ever the only one.

use crate::seen::{bytes, Seen, STATES};
use mullirim_host::second::{Session, MOST_BLOCKS, TRANSFER};
use mullirim_host::sessions::INFO_BYTES;

/// Every reason. `A not below B` leaves no application to judge a range by.
pub const REASONS: [&str; 29] = [
    "setup under 8 bytes",
    "setup over 8 bytes",
    "reply room under 1,024",
    "flash too short",
    "flash too long",
    "DNLOAD with less data than wLength",
    "DNLOAD with more data than wLength",
    "another request with data",
    "A is 0",
    "A not below B",
    "B over the most",
    "no such state",
    "a status outside state 10",
    "no such status in state 10",
    "state after sync outside state 3",
    "no such state after sync",
    "a download's place where none runs",
    "a download's bytes where none runs",
    "a download before the application",
    "a download's place behind the end",
    "a download's bytes behind the end",
    "no such choice",
    "no such prefix flag",
    "read range empty",
    "read range before the application",
    "read range behind the end",
    "an upload's place outside state 9",
    "an info upload past its end",
    "a flash upload past its end",
];

pub fn reasons(seen: &Seen) -> Vec<&'static str> {
    let held = lent(seen).into_iter().chain(phase(seen.lent()));
    let held = held.chain(download(seen)).chain(upload(seen));
    let names = REASONS.iter().zip(held);
    names
        .filter(|(_, held)| *held)
        .map(|(name, _)| *name)
        .collect()
}

fn lent(seen: &Seen) -> [bool; 11] {
    let (call, session) = (seen.call, seen.lent());
    let eight = call.setup.len() == 8;
    let (data, due) = (call.data.len(), seen.length() as usize);
    let dnload = seen.is(0x21, 1);
    let flash = bytes(session.b);
    [
        call.setup.len() < 8,
        call.setup.len() > 8,
        call.room < TRANSFER,
        (call.lent as u64) < flash,
        call.lent as u64 > flash,
        dnload && data < due,
        dnload && data > due,
        eight && !dnload && data > 0,
        session.a == 0,
        session.a >= session.b,
        session.b as usize > MOST_BLOCKS,
    ]
}

fn phase(session: &Session) -> [bool; 5] {
    let status = [0x05, 0x08, 0x09, 0x0B, 0x0F].contains(&session.status);
    [
        !STATES.contains(&session.state),
        session.state != 10 && session.status != 0,
        session.state == 10 && !status,
        session.state != 3 && session.after != 2,
        session.state == 3 && session.after != 2 && session.after != 5,
    ]
}

fn download(seen: &Seen) -> [bool; 5] {
    let (session, room) = (seen.lent(), seen.application());
    let runs = seen.download_runs();
    let place = u64::from(session.down_place);
    let end = place + u64::from(session.down_left);
    [
        !runs && session.down_place != 0,
        !runs && session.down_left != 0,
        runs && place < room.start,
        runs && place > room.end,
        runs && place <= room.end && end > room.end,
    ]
}

fn upload(seen: &Seen) -> [bool; 8] {
    let (session, room) = (seen.lent(), seen.application());
    let first = bytes(session.up_first);
    let some = session.a < session.b;
    let info = session.up_choice == 1;
    let end = match info {
        true => INFO_BYTES.into(),
        false => u64::from(session.up_len) + 8 * u64::from(session.up_prefix),
    };
    let past = session.state == 9 && u64::from(session.up_place) > end;
    [
        session.up_choice > 1,
        session.up_prefix > 1,
        session.up_len == 0,
        some && first < room.start,
        some && first + u64::from(session.up_len) > room.end,
        session.state != 9 && session.up_place != 0,
        past && info,
        past && !info,
    ]
}
