//! What else a client may find or do: a board in the middle of something,
//! commands sent as files, detach and restart.

use crate::bench::{erased, written, Bench, Left};
use crate::files::{image, whole_file};
use mullirim_host::second::{command, state, status, step, Session, ERASED, TRANSFER};
use mullirim_host::tape::{header, setup};

/// A request: its setup and its data.
type Request<'a> = (&'a [u8], &'a [u8]);

/// The board after some more requests, by the second loader.
fn after(bench: &Bench, requests: &[Request]) -> (Session, Vec<u8>) {
    let (mut session, mut flash) = (bench.session.clone(), bench.flash.clone());
    for (setup, data) in requests {
        session = step(&session, &mut flash, setup, data, &mut [0; TRANSFER]).session;
    }
    (session, flash)
}

/// Every state that a client may have been stopped in; the next one ends it,
/// and its download, to another place, is carried out.
pub fn left_behind(bench: &mut Bench) -> Result<(), String> {
    let (prog, info) = (header(command::PROG, 40, 2), header(command::INFO, 0, 0));
    let data = [&prog[..], &[1, 2]].concat();
    let begun = (&setup(0x21, 1, 8)[..], &prog[..]);
    let sent = (&setup(0x21, 1, 10)[..], &data[..]);
    let told = (&setup(0x21, 1, 8)[..], &info[..]);
    let close = (&setup(0x21, 1, 0)[..], &[][..]);
    let poll = (&setup(0xA1, 3, 6)[..], &[][..]);
    let upload = (&setup(0xA1, 2, 1_024)[..], &[][..]);
    let wrong = (&setup(0xA1, 2, 1_025)[..], &[][..]);
    let places: [(u8, &[Request]); 8] = [
        (state::IDLE, &[]),
        (state::DOWN_SYNC, &[begun]),
        (state::DOWN_SYNC, &[sent]),
        (state::DOWN_SYNC, &[told]),
        (state::DOWN_IDLE, &[begun, poll]),
        (state::MANIFEST_SYNC, &[sent, poll, close]),
        (state::UP_IDLE, &[told, poll, upload]),
        (state::ERROR, &[wrong]),
    ];
    for (state, requests) in places {
        found_in(bench, state, requests).map_err(|error| format!("in state {state}: {error}"))?;
    }
    Ok(())
}

fn found_in(bench: &mut Bench, state: u8, requests: &[Request]) -> Result<(), String> {
    bench.power_on(16, erased(16, 64))?;
    let (session, mut flash) = after(bench, requests);
    if session.state != state {
        return Err(format!("the requests lead to state {}", session.state));
    }
    bench.leave(session, flash.clone())?;
    bench.lay("image", &whole_file(16, &image(2_000)))?;
    let run = bench.dfu_util(&["-D", "image"])?;
    flash[16_384..][..2_000].copy_from_slice(&image(2_000));
    bench.hold(&run, &Left::done(flash))
}

/// Our own client exits with 1 where a command was not carried out.
pub fn refused_commands(bench: &mut Bench) -> Result<(), String> {
    let tries = [
        (["erase", "15", "1"], status::ADDRESS),
        (["erase", "16", "49"], status::ADDRESS),
        (["erase", "16", "0"], status::ADDRESS),
        (["check", "16", "1"], status::NOT_ERASED),
        (["check", "16", "49153"], status::ADDRESS),
        (["read", "64", "1"], status::ADDRESS),
    ];
    bench.power_on(16, written(64))?;
    for (words, code) in tries {
        let run = bench.command(&words)?;
        let left = Left {
            exit: Some(1),
            says: &[&format!("state 10, status {code:02X}")],
            phase: (state::ERROR, code),
            ..Left::done(written(64))
        };
        let held = bench.hold(&run, &left);
        held.map_err(|error| format!("{words:?}: {error}"))?;
    }
    let mut flash = written(64);
    flash[20 * 1_024..22 * 1_024].fill(ERASED);
    for words in [["erase", "20", "2"], ["check", "20", "2048"]] {
        let run = bench.command(&words)?;
        bench.hold(&run, &Left::done(flash.clone()))?;
    }
    Ok(())
}

/// A file of eight bytes that is a command is carried out, but the client waits
/// for a state that never comes, and has to be stopped.
pub fn command_as_download(bench: &mut Bench) -> Result<(), String> {
    bench.power_on(16, written(64))?;
    bench.lay("image", &header(command::ERASE, 16, 48))?;
    let run = bench.dfu_util_until(1_000, &["-D", "image"])?;
    let left = Left {
        exit: None,
        ..Left::done(erased(16, 64))
    };
    bench.hold(&run, &left)
}

/// DETACH is stalled. A USB reset (`-R`) and the RESET command start the board
/// anew, with its flash as it is.
pub fn restarts(bench: &mut Bench) -> Result<(), String> {
    bench.power_on(16, erased(16, 64))?;
    let run = bench.dfu_util(&["-e"])?;
    let left = Left {
        says: &["can't detach"],
        phase: (state::ERROR, status::STALL),
        ..Left::done(erased(16, 64))
    };
    bench.hold(&run, &left)?;
    let mut flash = erased(16, 64);
    flash[16_384..][..2_000].copy_from_slice(&image(2_000));
    bench.lay("image", &whole_file(16, &image(2_000)))?;
    let run = bench.dfu_util(&["-R", "-D", "image"])?;
    let left = Left {
        says: &["Done!", "can't detach", "Resetting USB"],
        restarts: true,
        ..Left::done(flash.clone())
    };
    bench.hold(&run, &left)?;
    let run = bench.command(&["info"])?;
    bench.hold(&run, &Left::done(flash.clone()))?;
    let run = bench.command(&["reset"])?;
    let left = Left {
        says: &["the board restarts"],
        ..Left::done(flash.clone())
    };
    bench.hold(&run, &left)?;
    bench.lay("image", &header(command::RESET, 0, 0))?;
    let run = bench.dfu_util(&["-D", "image"])?;
    let left = Left {
        exit: Some(74),
        says: &["Error during download get_status (LIBUSB_ERROR_NO_DEVICE)"],
        ..Left::done(flash)
    };
    bench.hold(&run, &left)
}
