//! Downloads that are refused: by the loader, with the status that the client
//! prints, or by the client itself.

use crate::bench::{erased, written, Bench, Left, PRODUCT, VENDOR};
use crate::files::{image, prefixed, suffixed, whole_file};
use mullirim_host::second::{command, state, status, BLOCK};
use mullirim_host::tape::header;

const NOT_ERASED: [&str; 1] = ["status(5) = Memory erase check failed"];
const ADDRESS: [&str; 1] =
    ["status(8) = Cannot program memory due to received address that is out of range"];
const COMMAND: [&str; 1] = ["status(11) = iString indicates a vendor specific error"];
const NOT_DONE: [&str; 2] = ["status(9) = Received DFU_DNLOAD with wLength = 0", "Done!"];
/// What dfu-util ends with where a download failed.
const FAILED: Option<i32> = Some(74);

/// Sends a file to the board as it is; the loader refuses it with this status,
/// and the flash is this one.
fn refused(
    bench: &mut Bench,
    file: &[u8],
    code: u8,
    says: &[&str],
    flash: Vec<u8>,
) -> Result<(), String> {
    bench.lay("image", file)?;
    let run = bench.dfu_util(&["-D", "image"])?;
    let left = Left {
        exit: FAILED,
        says,
        phase: (state::ERROR, code),
        ..Left::done(flash)
    };
    bench.hold(&run, &left)
}

/// One byte that is written refuses all of the range. One beside it does not.
pub fn not_erased(bench: &mut Bench) -> Result<(), String> {
    let file = whole_file(20, &image(3_000));
    let (place, end) = (20 * 1_024, 20 * 1_024 + 3_000);
    for at in [place, place + 1, place + 1_023, place + 1_024, end - 1] {
        let mut flash = erased(16, 64);
        flash[at] = 0xFE;
        bench.power_on(16, flash.clone())?;
        refused(bench, &file, status::NOT_ERASED, &NOT_ERASED, flash)?;
    }
    for at in [place - 1, end] {
        let mut flash = erased(16, 64);
        flash[at] = 0;
        bench.power_on(16, flash.clone())?;
        flash[place..end].copy_from_slice(&image(3_000));
        bench.lay("image", &file)?;
        let run = bench.dfu_util(&["-D", "image"])?;
        bench.hold(&run, &Left::done(flash))?;
    }
    bench.power_on(16, written(64))?;
    refused(bench, &file, status::NOT_ERASED, &NOT_ERASED, written(64))
}

/// Below the application, beyond it, and over either end of it.
pub fn outside(bench: &mut Bench) -> Result<(), String> {
    let ranges = [
        (0, 1),
        (15, 1),
        (15, 1_025),
        (15, 49 * BLOCK),
        (16, 48 * BLOCK + 1),
        (63, 1_025),
        (64, 1),
        (80, 2_000),
        (65_535, 1_024),
    ];
    for (block, length) in ranges {
        bench.power_on(16, erased(16, 64))?;
        let file = whole_file(block, &image(length));
        refused(bench, &file, status::ADDRESS, &ADDRESS, erased(16, 64))
            .map_err(|error| format!("{length} bytes at block {block}: {error}"))?;
    }
    // Lengths that no file has: none, and one that wraps past the top.
    for length in [0, u32::MAX, u32::MAX - 16 * BLOCK + 1] {
        bench.power_on(16, erased(16, 64))?;
        let file = [&header(command::PROG, 16, length)[..], &image(9)].concat();
        refused(bench, &file, status::ADDRESS, &ADDRESS, erased(16, 64))?;
    }
    Ok(())
}

/// Its first byte is no command, or there are fewer than eight.
pub fn no_prefix(bench: &mut Bench) -> Result<(), String> {
    for length in [1, 7, 8, 9, 1_024, 1_025, 49_152] {
        for suffix in [false, true] {
            bench.power_on(16, erased(16, 64))?;
            let file = match suffix {
                true => suffixed(&image(length), VENDOR, PRODUCT),
                false => image(length),
            };
            refused(bench, &file, status::COMMAND, &COMMAND, erased(16, 64))?;
        }
    }
    Ok(())
}

/// The prefix tells a byte more than come. The client says "Done!" and exits
/// with 0 all the same; what came is in the flash.
pub fn too_little(bench: &mut Bench) -> Result<(), String> {
    for length in [1, 1_016, 2_000] {
        bench.power_on(16, erased(16, 64))?;
        let file = [&header(command::PROG, 16, length + 1)[..], &image(length)].concat();
        bench.lay("image", &file)?;
        let run = bench.dfu_util(&["-D", "image"])?;
        let mut flash = erased(16, 64);
        flash[16_384..][..length as usize].copy_from_slice(&image(length));
        let left = Left {
            says: &NOT_DONE,
            phase: (state::ERROR, status::NOT_DONE),
            ..Left::done(flash)
        };
        bench.hold(&run, &left)?;
    }
    Ok(())
}

/// The prefix tells a byte less than come: the piece with that byte is refused,
/// and the pieces before it stay. To send again, one has to erase.
pub fn too_much(bench: &mut Bench) -> Result<(), String> {
    for (length, stay) in [
        (2, 0),
        (1_016, 0),
        (1_017, 1_016),
        (2_041, 2_040),
        (3_000, 2_040),
    ] {
        bench.power_on(16, erased(16, 64))?;
        let file = [&header(command::PROG, 16, length - 1)[..], &image(length)].concat();
        let mut flash = erased(16, 64);
        flash[16_384..][..stay].copy_from_slice(&image(length)[..stay]);
        refused(bench, &file, status::ADDRESS, &ADDRESS, flash.clone())?;
        if stay == 0 {
            continue;
        }
        let file = whole_file(16, &image(length));
        refused(bench, &file, status::NOT_ERASED, &NOT_ERASED, flash.clone())?;
        let run = bench.command(&["erase", "16", "3"])?;
        bench.hold(&run, &Left::done(erased(16, 64)))?;
        bench.lay("image", &file)?;
        let run = bench.dfu_util(&["-D", "image"])?;
        flash[16_384..][..length as usize].copy_from_slice(&image(length));
        bench.hold(&run, &Left::done(flash))?;
    }
    Ok(())
}

/// One bit is wrong in the file. The client warns, takes the suffix for a part
/// of the image and sends it, which is 16 bytes more than the prefix tells.
pub fn damaged_suffix(bench: &mut Bench) -> Result<(), String> {
    let mut file = whole_file(16, &image(2_000));
    file[8] ^= 1;
    let mut flash = erased(16, 64);
    flash[16_384..][..1_016].copy_from_slice(&file[8..1_024]);
    let says = [&ADDRESS[..], &["DFU suffix CRC does not match"]].concat();
    bench.power_on(16, erased(16, 64))?;
    refused(bench, &file, status::ADDRESS, &says, flash)
}

/// An image without a suffix that ends as one would: the client keeps these 16
/// bytes to itself, and the loader misses them.
pub fn looks_suffixed(bench: &mut Bench) -> Result<(), String> {
    let sent = [&header(command::PROG, 16, 100 + 16)[..], &image(100)].concat();
    bench.power_on(16, erased(16, 64))?;
    bench.lay("image", &suffixed(&sent, VENDOR, PRODUCT))?;
    let run = bench.dfu_util(&["-D", "image"])?;
    let mut flash = erased(16, 64);
    flash[16_384..][..100].copy_from_slice(&image(100));
    let left = Left {
        says: &NOT_DONE,
        phase: (state::ERROR, status::NOT_DONE),
        ..Left::done(flash)
    };
    bench.hold(&run, &left)
}

/// The suffix names another product, or the client is told to look for one.
pub fn another_board(bench: &mut Bench) -> Result<(), String> {
    let file = suffixed(&prefixed(16, &image(99)), VENDOR, 0x0002);
    let differs = "Error: File ID 1209:0002 does not match device";
    let tries = [
        (",1209:0001", 64, differs),
        ("1209:0001", 64, differs),
        (",1209:0002", 74, "No DFU capable USB device available"),
    ];
    bench.power_on(16, erased(16, 64))?;
    bench.lay("image", &file)?;
    for (board, exit, says) in tries {
        let run = bench.run("dfu-util", &["-d", board, "-D", "image"], None)?;
        let left = Left {
            exit: Some(exit),
            says: &[says],
            ..Left::done(erased(16, 64))
        };
        bench.hold(&run, &left)?;
    }
    Ok(())
}

/// Told nothing, or a board outside DFU mode (no comma), the client takes any
/// board that is in DFU mode, even where file and board differ.
pub fn any_board(bench: &mut Bench) -> Result<(), String> {
    let mut flash = erased(16, 64);
    flash[16_384..][..99].copy_from_slice(&image(99));
    for words in [&["-D", "image"][..], &["-d", "1209:0002", "-D", "image"]] {
        bench.power_on(16, erased(16, 64))?;
        bench.lay(
            "image",
            &suffixed(&prefixed(16, &image(99)), VENDOR, 0x0002),
        )?;
        let run = bench.run("dfu-util", words, None)?;
        bench.hold(&run, &Left::done(flash.clone()))?;
    }
    Ok(())
}

/// An empty file is a close with nothing to close.
pub fn nothing(bench: &mut Bench) -> Result<(), String> {
    bench.power_on(16, erased(16, 64))?;
    let says = ["Error sending completion packet (LIBUSB_ERROR_PIPE)"];
    refused(bench, &[], status::STALL, &says, erased(16, 64))
}

/// Stalled both ways, and nothing is done.
pub fn too_large(bench: &mut Bench) -> Result<(), String> {
    bench.power_on(16, erased(16, 64))?;
    bench.lay("image", &whole_file(16, &image(3_000)))?;
    bench.remove("read-out");
    let stalls = [
        (["-D", "image"], "Error during download (LIBUSB_ERROR_PIPE)"),
        (
            ["-U", "read-out"],
            "Error during upload (LIBUSB_ERROR_PIPE)",
        ),
    ];
    for (words, says) in stalls {
        let run = bench.dfu_util(&[&["-t", "1025"], &words[..]].concat())?;
        let left = Left {
            exit: FAILED,
            says: &[says],
            phase: (state::ERROR, status::STALL),
            ..Left::done(erased(16, 64))
        };
        bench.hold(&run, &left)?;
    }
    let run = bench.dfu_util(&["-D", "image"])?;
    let mut flash = erased(16, 64);
    flash[16_384..][..3_000].copy_from_slice(&image(3_000));
    bench.hold(&run, &Left::done(flash))
}
