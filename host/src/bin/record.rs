//! Writes a recording of histories to standard output, with all that the second
//! loader makes of them: `record SEED HISTORIES`. `tests/replay.c` reads it, and
//! says how it is laid out.

use mullirim_host::histories::{Call, History, Start, REPLY_ROOM};
use mullirim_host::layout;
use mullirim_host::second::{Outcome, Session};
use std::io::{self, Write};
use std::process::ExitCode;

fn main() -> ExitCode {
    let words: Vec<u64> = std::env::args()
        .skip(1)
        .filter_map(|word| word.parse().ok())
        .collect();
    let [seed, histories] = words[..] else {
        eprintln!("record SEED HISTORIES");
        return ExitCode::from(2);
    };
    match write(seed, histories) {
        Ok(()) => ExitCode::SUCCESS,
        Err(error) => {
            eprintln!("record: {error}");
            ExitCode::FAILURE
        }
    }
}

fn write(seed: u64, histories: u64) -> io::Result<()> {
    let mut out = io::BufWriter::new(io::stdout().lock());
    let mut requests: u32 = 0;
    for number in 0..histories {
        let mut history = History::new(seed, number);
        out.write_all(&history_bytes(&mut history))?;
        requests += history.length;
    }
    out.write_all(b"E")?;
    out.write_all(&requests.to_le_bytes())?;
    out.flush()
}

fn history_bytes(history: &mut History) -> Vec<u8> {
    let mut bytes = Vec::new();
    for start in history.starts() {
        bytes.extend(start_bytes(&start, &history.flash));
        bytes.push(history.begin(&start));
        bytes.extend(session_bytes(&history.session));
    }
    bytes.extend(calls_bytes(history));
    bytes
}

fn calls_bytes(history: &mut History) -> Vec<u8> {
    let mut bytes = Vec::new();
    let mut reply = [0xEE; REPLY_ROOM];
    for _ in 0..history.length {
        let call = history.call();
        let before = history.flash.clone();
        let outcome = history.serve(&call, &mut reply);
        bytes.extend(call_bytes(&call));
        bytes.extend(outcome_bytes(&outcome, &reply));
        bytes.extend(change_bytes(&before, &history.flash));
    }
    bytes
}

fn start_bytes(call: &Start, flash: &[u8]) -> Vec<u8> {
    let mut bytes = vec![b'S'];
    bytes.extend((flash.len() as u32).to_le_bytes());
    bytes.extend(flash);
    bytes.extend((call.lent as u32).to_le_bytes());
    bytes.extend(call.a.to_le_bytes());
    bytes.extend(call.b.to_le_bytes());
    bytes.extend(call.part0.to_le_bytes());
    bytes.extend(call.part1.to_le_bytes());
    bytes
}

fn call_bytes(call: &Call) -> Vec<u8> {
    let mut bytes = vec![b'R'];
    bytes.extend(session_bytes(&call.session));
    for length in [call.lent, call.setup.len(), call.data.len(), call.room] {
        bytes.extend((length as u32).to_le_bytes());
    }
    bytes.extend(&call.setup);
    bytes.extend(&call.data);
    bytes
}

fn outcome_bytes(outcome: &Outcome, reply: &[u8]) -> Vec<u8> {
    let mut bytes = vec![outcome.answer];
    bytes.extend(outcome.count.to_le_bytes());
    bytes.extend(&reply[..outcome.count as usize]);
    bytes.extend(session_bytes(&outcome.session));
    bytes
}

/// The first changed byte's place, and what stands from there to the last one.
fn change_bytes(before: &[u8], after: &[u8]) -> Vec<u8> {
    if before == after {
        return vec![0; 8];
    }
    let changed = |place: &usize| before[*place] != after[*place];
    let first = (0..after.len()).find(changed).unwrap_or(0);
    let end = (0..after.len()).rfind(changed).unwrap_or(0) + 1;
    let mut bytes = (first as u32).to_le_bytes().to_vec();
    bytes.extend(((end - first) as u32).to_le_bytes());
    bytes.extend(&after[first..end]);
    bytes
}

/// The session as the header's struct lies.
fn session_bytes(session: &Session) -> Vec<u8> {
    layout::Session::from(session).bytes()
}

#[cfg(test)]
mod tests {
    use super::*;

    #[test]
    fn a_change_reaches_from_first_to_last() {
        let none = change_bytes(&[1, 2, 3], &[1, 2, 3]);
        assert_eq!(none, [0; 8]);
        let some = change_bytes(&[1, 2, 3, 4, 5], &[1, 9, 3, 8, 5]);
        assert_eq!(some, [1, 0, 0, 0, 3, 0, 0, 0, 9, 3, 8]);
    }
}
