//! Listing, and uploads.

use crate::bench::{erased, same_bytes, written, Bench, Left, MOST};
use crate::files::{image, prefixed, whole_file};
use mullirim_host::second::{state, status, BLOCK};

/// The loader hears nothing of a list. A serial number finds its own board.
pub fn list(bench: &mut Bench) -> Result<(), String> {
    bench.power_on(16, written(64))?;
    let found = [
        "Found DFU: [1209:0001] ver=0100",
        "intf=0",
        "alt=0",
        "serial=\"STAND-IN\"",
    ];
    let tries: [(&[&str], &[&str]); 3] = [
        (&["-l"], &found),
        (&["-S", "STAND-IN", "-l"], &found),
        (&["-S", "ANOTHER", "-l"], &[]),
    ];
    for (words, says) in tries {
        let run = bench.dfu_util(words)?;
        let left = Left {
            says,
            ..Left::done(written(64))
        };
        bench.hold(&run, &left)?;
        if run.words.contains("Found DFU") == says.is_empty() || bench.read("trace").is_ok() {
            return Err(format!(
                "{words:?}: the wrong board, or a transfer\n{}",
                run.words
            ));
        }
    }
    Ok(())
}

/// One upload, which must give these bytes.
fn gives(bench: &mut Bench, wanted: &[u8]) -> Result<(), String> {
    let flash = bench.flash.clone();
    bench.remove("read-out");
    let run = bench.dfu_util(&["-U", "read-out"])?;
    let left = Left {
        says: &["Upload done."],
        phase: (state::UP_IDLE, status::OK),
        ..Left::done(flash)
    };
    bench.hold(&run, &left)?;
    same_bytes("the file", &bench.read("read-out")?, wanted)
}

/// The application behind its header; and once more, since the board is still
/// in the first upload.
pub fn whole(bench: &mut Bench) -> Result<(), String> {
    let small = [(16, 64), (1, 2), (3, 7), (1, 64), (63, 64)];
    let large = [(64, 65), (1, MOST), (16, MOST), (MOST - 1, MOST)];
    for (first, blocks) in small.into_iter().chain(large) {
        bench.power_on(first, written(blocks))?;
        let file = prefixed(first, &written(blocks)[(first * BLOCK) as usize..]);
        gives(bench, &file)?;
        gives(bench, &file)?;
    }
    Ok(())
}

/// READ, BIN and INFO choose what an upload gives.
pub fn chosen(bench: &mut Bench) -> Result<(), String> {
    let flash = written(64);
    bench.power_on(16, flash.clone())?;
    let tell = |bench: &mut Bench, words: &[&str]| {
        let run = bench.command(words)?;
        bench.hold(&run, &Left::done(written(64)))
    };
    for length in [1, 1_016, 1_017, 2_000, 2_040, 41 * BLOCK] {
        tell(bench, &["read", "23", &length.to_string()])?;
        let range = &flash[23 * 1_024..][..length as usize];
        gives(bench, &prefixed(23, range))?;
        tell(bench, &["bin", "1"])?;
        gives(bench, range)?;
        tell(bench, &["bin", "0"])?;
    }
    tell(bench, &["info"])?;
    let info = [
        [0, 4, 64, 0], // block size, blocks
        [1, 0, 0x4C, 0x4D],
        [2, 0, 0x4C, 0x4D],
        [0, 0, 1, 0],    // where the application ends
        [0, 0x40, 0, 0], // and where it starts
        [0xFF; 4],       // nothing was searched
    ];
    gives(bench, &info.concat())
}

/// After a CHECK or a download that was refused for a byte that is not erased, the
/// last info bytes are its address; after a CHECK that found none they say so.
pub fn where_not_erased(bench: &mut Bench) -> Result<(), String> {
    let mut flash = erased(16, 64);
    (flash[17_000], flash[17_001], flash[65_535]) = (0xFE, 0, 0x7F);
    bench.power_on(16, flash.clone())?;
    let checks = [
        ("16", "1024", status::NOT_ERASED, [0x68, 0x42, 0, 0]),
        ("17", "1024", status::OK, [0xFF; 4]),
        ("17", "48128", status::NOT_ERASED, [0xFF, 0xFF, 0, 0]),
        // Refused before anything is searched.
        ("16", "49153", status::ADDRESS, [0xFF, 0xFF, 0, 0]),
        ("17", "48127", status::OK, [0xFF; 4]),
    ];
    for (block, length, code, told) in checks {
        let run = bench.command(&["check", block, length])?;
        let left = match code {
            status::OK => Left::done(flash.clone()),
            _ => refused(1, code, &flash),
        };
        bench.hold(&run, &left)?;
        tells(bench, &flash, told)?;
    }
    bench.lay("image", &whole_file(16, &image(3_000)))?;
    let run = bench.dfu_util(&["-D", "image"])?;
    bench.hold(&run, &refused(74, status::NOT_ERASED, &flash))?;
    tells(bench, &flash, [0x68, 0x42, 0, 0])
}

/// What a client leaves that was refused with this status.
fn refused(exit: i32, code: u8, flash: &[u8]) -> Left<'static> {
    Left {
        exit: Some(exit),
        phase: (state::ERROR, code),
        ..Left::done(flash.to_vec())
    }
}

/// The info bytes of a board on this flash end in these four.
fn tells(bench: &mut Bench, flash: &[u8], told: [u8; 4]) -> Result<(), String> {
    let run = bench.command(&["info"])?;
    bench.hold(&run, &Left::done(flash.to_vec()))?;
    let info = [
        [0, 4, 64, 0],
        [1, 0, 0x4C, 0x4D],
        [2, 0, 0x4C, 0x4D],
        [0, 0, 1, 0],
        [0, 0x40, 0, 0],
        told,
    ];
    gives(bench, &info.concat())
}

/// The same on a board of the most blocks, at addresses of more than 16 bits.
pub fn far(bench: &mut Bench) -> Result<(), String> {
    let (first, flash) = (MOST - 56, written(MOST));
    bench.power_on(first, flash.clone())?;
    let tell = |bench: &mut Bench, words: &[&str]| {
        let run = bench.command(words)?;
        bench.hold(&run, &Left::done(written(MOST)))
    };
    for (block, length) in [(MOST - 1, BLOCK), (first + 10, 40_000)] {
        tell(bench, &["read", &block.to_string(), &length.to_string()])?;
        let range = &flash[(block * BLOCK) as usize..][..length as usize];
        gives(bench, &prefixed(block, range))?;
    }
    tell(bench, &["info"])?;
    let info = [
        (MOST << 16 | BLOCK).to_le_bytes(),
        [1, 0, 0x4C, 0x4D],
        [2, 0, 0x4C, 0x4D],
        (MOST * BLOCK).to_le_bytes(),
        (first * BLOCK).to_le_bytes(),
        [0xFF; 4],
    ];
    gives(bench, &info.concat())
}

/// A request for fewer than 1,024 bytes ends an upload, so each begins anew and
/// a client that asks in small pieces never comes to an end.
pub fn small(bench: &mut Bench) -> Result<(), String> {
    bench.power_on(16, written(64))?;
    bench.remove("read-out");
    let run = bench.dfu_util_until(10_000, &["-t", "512", "-U", "read-out"])?;
    let left = Left {
        exit: None,
        ..Left::done(written(64))
    };
    bench.hold(&run, &left)?;
    let first = &prefixed(16, &written(64)[16_384..])[..512];
    let read = bench.read("read-out")?;
    match read.chunks_exact(512).all(|piece| piece == first) {
        true => Ok(()),
        false => Err("a small upload went on".to_string()),
    }
}

/// The client writes over no file, and says so once it has looked at the board.
pub fn onto_a_file(bench: &mut Bench) -> Result<(), String> {
    bench.power_on(16, written(64))?;
    bench.lay("kept.bin", b"what was kept")?;
    let run = bench.dfu_util(&["-U", "kept.bin"])?;
    let left = Left {
        exit: Some(73),
        says: &["Cannot open file kept.bin for writing: File exists"],
        ..Left::done(written(64))
    };
    bench.hold(&run, &left)?;
    same_bytes("the file", &bench.read("kept.bin")?, b"what was kept")
}
