//! Writes a script to standard output: `session` or `desk`.

#[path = "script/desk.rs"]
mod desk;
#[path = "script/session.rs"]
mod session;

use std::io::{self, Write};
use std::process::ExitCode;

fn main() -> ExitCode {
    let words: Vec<String> = std::env::args().skip(1).collect();
    let Some(script) = named(&words) else {
        eprintln!("script session | desk");
        return ExitCode::FAILURE;
    };
    match io::stdout().write_all(&script) {
        Ok(()) => ExitCode::SUCCESS,
        Err(_) => ExitCode::FAILURE,
    }
}

fn named(words: &[String]) -> Option<Vec<u8>> {
    match words {
        [name] if name == "session" => Some(session::script()),
        [name] if name == "desk" => Some(desk::script()),
        _ => None,
    }
}

#[cfg(test)]
mod tests {
    use super::*;
    use mullirim_host::second::{start, step, Session, NONE, TRANSFER};
    use mullirim_host::tape::{first_flash, read_head, read_record};

    /// Every session a script leads to, with the answer before it. Each must
    /// fit and keep the sums a fresh start would find.
    fn sessions(script: &[u8]) -> Vec<(u8, Session)> {
        assert!(script.len() < 65_536);
        let (head, mut rest) = read_head(script).unwrap();
        let (a, b) = (u32::from(head.a), u32::from(head.b));
        let mut flash = first_flash(head.a, head.b);
        let mut seen = vec![start(&flash, a, b, head.part0, head.part1)];
        while let Some((setup, data, further)) = read_record(rest) {
            let last = &seen[seen.len() - 1].1;
            let out = step(last, &mut flash, setup, data, &mut [0; TRANSFER]);
            let (_, anew) = start(&flash, a, b, 0, 0);
            assert!(out.session.fits());
            assert_eq!(
                (out.session.sums, out.session.whole),
                (anew.sums, anew.whole)
            );
            seen.push((out.answer, out.session));
            rest = further;
        }
        assert!(rest.is_empty());
        seen
    }

    fn reaches_all(seen: &[(u8, Session)]) {
        for answer in 0..=4 {
            assert!(seen.iter().any(|(said, _)| *said == answer));
        }
        for state in [2, 3, 5, 6, 9, 10] {
            assert!(seen.iter().any(|(_, session)| session.state == state));
        }
        for status in [0x05, 0x08, 0x09, 0x0B, 0x0F] {
            assert!(seen.iter().any(|(_, session)| session.status == status));
        }
    }

    #[test]
    fn the_session_reaches_all() {
        reaches_all(&sessions(&session::script()));
    }

    /// The first byte of block 17 as a range's first and last, that of block 19
    /// too, and none after each.
    #[test]
    fn the_session_finds_bytes_and_none() {
        let seen = sessions(&session::script());
        for found in [17 * 1_024, 19 * 1_024, NONE] {
            let kept = seen.iter().filter(|(_, now)| now.unerased == found);
            assert!(kept.count() > 20, "{found}");
        }
        let steps = seen.windows(2);
        let cleared = steps.filter(|two| two[0].1.unerased != NONE && two[1].1.unerased == NONE);
        let by: Vec<u8> = cleared.map(|two| two[1].0).collect();
        assert!(by.contains(&0) && by.contains(&4), "{by:?}");
    }

    #[test]
    fn the_desk_is_kept_in_order() {
        let seen = sessions(&desk::script());
        assert_eq!(seen.iter().filter(|(said, _)| *said == 4).count(), 14);
    }
}
