//! Downloads that are carried out.

use crate::bench::{erased, written, Bench, Left, MOST};
use crate::files::{as_the_package_does, image, prefixed, whole_file};
use mullirim_host::second::{state, status, BLOCK};

/// That it says "Done!" is not enough; it does so after an error too.
const DONE: [&str; 1] = [
    "Download done.\nDFU state(2) = dfuIDLE, status(0) = No error condition is present\nDone!\n",
];

/// Sends a file, and holds what it leaves to this image at this block.
fn carried_out(
    bench: &mut Bench,
    file: &[u8],
    size: &str,
    block: u32,
    image: &[u8],
) -> Result<(), String> {
    let mut flash = bench.flash.clone();
    let place = (block * BLOCK) as usize;
    flash[place..place + image.len()].copy_from_slice(image);
    bench.lay("image", file)?;
    let run = bench.dfu_util(&["-t", size, "-D", "image"])?;
    let left = Left {
        says: &DONE,
        ..Left::done(flash)
    };
    bench.hold(&run, &left)
}

/// Lengths around all that is counted in: nothing fits evenly.
pub fn odd_lengths(bench: &mut Bench) -> Result<(), String> {
    let lengths = [
        1, 2, 7, 8, 9, 55, 56, 57, 63, 64, 65, 1_015, 1_016, 1_017, 1_023, 1_024, 1_025, 2_000,
        2_039, 2_040, 2_041, 10_007,
    ];
    let sizes = ["64", "1023", "8", "1000", "65", "512"];
    for (number, length) in lengths.into_iter().enumerate() {
        let (block, image) = (16 + number as u32, image(length));
        as_the_package_does(bench, block, &image)?;
        for size in ["1024", sizes[number % sizes.len()]] {
            bench.power_on(16, erased(16, 64))?;
            let file = whole_file(block, &image);
            carried_out(bench, &file, size, block, &image)
                .map_err(|error| format!("{length} bytes in {size}: {error}"))?;
        }
    }
    Ok(())
}

/// All of the application, and all but its last byte, on boards of every kind.
pub fn whole(bench: &mut Bench) -> Result<(), String> {
    let small = [(1, 2), (3, 7), (16, 64), (1, 64), (63, 64), (32, 33)];
    let large = [(64, 65), (1, MOST), (16, MOST), (MOST - 1, MOST)];
    for (first, blocks) in small.into_iter().chain(large) {
        for short in [0, 1] {
            let image = image((blocks - first) * BLOCK - short);
            bench.power_on(first, erased(first, blocks))?;
            let file = whole_file(first, &image);
            carried_out(bench, &file, "1024", first, &image)
                .map_err(|error| format!("{first}:{blocks} less {short}: {error}"))?;
        }
    }
    Ok(())
}

/// dfu-util warns, and sends it.
pub fn no_suffix(bench: &mut Bench) -> Result<(), String> {
    let image = image(3_000);
    bench.power_on(16, erased(16, 64))?;
    carried_out(bench, &prefixed(20, &image), "1024", 20, &image)
}

/// What was read out is a file to send: after an erase it brings back every
/// byte. Without an erase it is refused, and nothing changes.
pub fn there_and_back(bench: &mut Bench) -> Result<(), String> {
    for (first, blocks) in [(16, 64), (1, 3), (5, 6), (16, MOST), (MOST - 1, MOST)] {
        let before = written(blocks);
        bench.power_on(first, before.clone())?;
        bench.remove("read-out");
        let run = bench.dfu_util(&["-U", "read-out"])?;
        let left = Left {
            phase: (state::UP_IDLE, status::OK),
            ..Left::done(before.clone())
        };
        bench.hold(&run, &left)?;
        let file = bench.read("read-out")?;
        bench.lay("image", &file)?;
        let run = bench.dfu_util(&["-D", "image"])?;
        let left = Left {
            exit: Some(74),
            says: &["status(5) = Memory erase check failed"],
            phase: (state::ERROR, status::NOT_ERASED),
            ..Left::done(before.clone())
        };
        bench.hold(&run, &left)?;
        let run = bench.command(&["erase", &first.to_string(), &(blocks - first).to_string()])?;
        bench.hold(&run, &Left::done(erased(first, blocks)))?;
        let image = &before[(first * BLOCK) as usize..];
        carried_out(bench, &file, "1024", first, image)?;
    }
    Ok(())
}
