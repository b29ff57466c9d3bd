//! DFU files, read and written by `dfu-suffix` and by `mullirim suffix`: each
//! takes what the other makes and refuses what the other refuses, but for two
//! kinds of files with which the tool is stricter.

use crate::bench::{erased, same_bytes, written, Bench, Run, MOST};
use crate::files::{image, suffixed_for};
use mullirim_host::second::{sum, BLOCK};

/// Device, product and vendor.
type Numbers = [u16; 3];

const NUMBERS: [Numbers; 5] = [
    [0xFFFF, 0x0001, 0x1209],
    [0x0100, 0x0001, 0x1209],
    [0, 0, 0],
    [1, 2, 3],
    [0xFFFF, 0xFFFF, 0xFFFF],
];
const LENGTHS: [u32; 7] = [1, 8, 15, 16, 17, 40, 24_576];
/// What dfu-suffix ends with where a file is not as it should be.
const REFUSED: Option<i32> = Some(65);

fn said(run: &Run, exit: Option<i32>, words: &str) -> Result<(), String> {
    match run.exit == exit && run.words.contains(words) {
        true => Ok(()),
        false => Err(format!(
            "exit {:?}, not {exit:?} with \"{words}\"\n{}",
            run.exit, run.words
        )),
    }
}

/// `dfu-suffix -a` on a file of these bytes.
fn stock_adds(
    bench: &mut Bench,
    name: &str,
    bytes: &[u8],
    for_whom: Numbers,
) -> Result<(), String> {
    bench.lay(name, bytes)?;
    let [device, product, vendor] = for_whom.map(|number| format!("{number:04x}"));
    let words = ["-d", &device, "-p", &product, "-v", &vendor, "-a", name];
    let run = bench.on_files("dfu-suffix", &words)?;
    said(&run, Some(0), "Suffix successfully added to file")
}

/// `mullirim suffix add` to a file of these bytes; numbers in decimal or hex.
fn tool_adds(bench: &mut Bench, bytes: &[u8], for_whom: Numbers, hex: bool) -> Result<(), String> {
    bench.lay("bare", bytes)?;
    bench.remove("ours");
    let [device, product, vendor] = for_whom.map(|number| match hex {
        true => format!("0x{number:x}"),
        false => number.to_string(),
    });
    let numbers = [
        "--device",
        &device,
        "--product",
        &product,
        "--vendor",
        &vendor,
    ];
    let words = [&["suffix", "add", "bare", "-o", "ours"], &numbers[..]].concat();
    let run = bench.mullirim(&words)?;
    said(&run, Some(0), "ours: ")?;
    same_bytes("what was read", &bench.read("bare")?, bytes)
}

/// What `dfu-suffix -c` says of a file that is right.
fn stock_checks(bench: &mut Bench, name: &str, for_whom: Numbers) -> Result<(), String> {
    let run = bench.on_files("dfu-suffix", &["-c", name])?;
    let [device, product, vendor] = for_whom;
    let words = format!(
        "BCD device:\t0x{device:04X}\nProduct ID:\t0x{product:04X}\nVendor ID:\t0x{vendor:04X}\n\
         BCD DFU:\t0x0100\nLength:\t\t16\n"
    );
    said(&run, Some(0), &words)
}

fn tool_shows(bench: &mut Bench, name: &str, for_whom: Numbers, length: u32) -> Result<(), String> {
    let [device, product, vendor] = for_whom;
    let object = format!(
        "{{\"device\": {device}, \"product\": {product}, \"vendor\": {vendor}, \
         \"length\": {length}}}\n"
    );
    let run = bench.mullirim(&["suffix", "show", name, "--json"])?;
    match run.exit == Some(0) && run.words == object {
        true => Ok(()),
        false => Err(format!("exit {:?}, not {object}{}", run.exit, run.words)),
    }
}

fn both_refuse(bench: &mut Bench, file: &[u8], number: u32, words: &str) -> Result<(), String> {
    bench.lay("file", file)?;
    let run = bench.on_files("dfu-suffix", &["-c", "file"])?;
    said(&run, REFUSED, words)?;
    tool_refuses(bench, number)
}

fn tool_refuses(bench: &mut Bench, number: u32) -> Result<(), String> {
    let run = bench.mullirim(&["suffix", "show", "file", "--json"])?;
    let object = format!("{{\"refused\": {number}}}\nmullirim suffix: file: ");
    said(&run, Some(1), &object)
}

/// What the stock tool wrote is what was worked out here, and the tool reads
/// the numbers and the length out of it.
pub fn read(bench: &mut Bench) -> Result<(), String> {
    for length in LENGTHS {
        for numbers in NUMBERS {
            let image = image(length);
            stock_adds(bench, "made", &image, numbers)?;
            let made = bench.read("made")?;
            same_bytes("dfu-suffix", &made, &suffixed_for(&image, numbers))?;
            tool_shows(bench, "made", numbers, length)?;
            let run = bench.mullirim(&["suffix", "check", "made"])?;
            said(&run, Some(0), "made: whole, ")?;
        }
    }
    Ok(())
}

/// What the tool wrote the stock tool accepts, and would have written itself.
pub fn write(bench: &mut Bench) -> Result<(), String> {
    for length in LENGTHS {
        for (turn, numbers) in NUMBERS.into_iter().enumerate() {
            let image = image(length);
            tool_adds(bench, &image, numbers, turn % 2 == 0)?;
            stock_checks(bench, "ours", numbers)?;
            stock_adds(bench, "made", &image, numbers)?;
            let (ours, made) = (bench.read("ours")?, bench.read("made")?);
            same_bytes("mullirim suffix add", &ours, &made)?;
        }
    }
    Ok(())
}

/// And takes off again.
pub fn take_off(bench: &mut Bench) -> Result<(), String> {
    for length in LENGTHS {
        let image = image(length);
        tool_adds(bench, &image, NUMBERS[1], true)?;
        let run = bench.on_files("dfu-suffix", &["-D", "ours"])?;
        said(&run, Some(0), "Suffix successfully removed from file")?;
        same_bytes("what is left", &bench.read("ours")?, &image)?;
    }
    Ok(())
}

/// Each byte of a small file in turn, and some bits of each.
pub fn damaged(bench: &mut Bench) -> Result<(), String> {
    let whole = suffixed_for(&image(40), NUMBERS[1]);
    for at in 0..whole.len() {
        for bits in [0x01, 0x10, 0x80, 0xFF] {
            let mut file = whole.clone();
            file[at] ^= bits;
            let (number, words) = match at {
                46 | 47 => (4, "DFU suffix CRC does not match"),
                48..=50 => (2, "Invalid DFU suffix signature"),
                51 => (3, "DFU suffix CRC does not match"),
                _ => (5, "DFU suffix CRC does not match"),
            };
            both_refuse(bench, &file, number, words)
                .map_err(|error| format!("byte {at}, bits {bits:02X}: {error}"))?;
        }
    }
    Ok(())
}

/// Files without a suffix, also such as have no room for one.
pub fn without(bench: &mut Bench) -> Result<(), String> {
    for length in [1, 4, 15] {
        both_refuse(bench, &image(length), 1, "File too short for DFU suffix")?;
    }
    let whole = suffixed_for(&image(40), NUMBERS[1]);
    both_refuse(
        bench,
        &whole[..whole.len() - 1],
        2,
        "Invalid DFU suffix signature",
    )?;
    for length in [16, 17, 40, 24_576] {
        both_refuse(bench, &image(length), 2, "Invalid DFU suffix signature")?;
    }
    Ok(())
}

/// The stock tool lets other versions pass, and longer suffixes, where the sum
/// is right; the tool does not. The stock tool adds no second suffix; the tool
/// does, and says so.
pub fn otherwise(bench: &mut Bench) -> Result<(), String> {
    let whole = suffixed_for(&image(40), NUMBERS[1]);
    for (at, byte, number, words) in [
        (46, 0x1A, 4, "BCD DFU:\t0x011A"),
        (51, 17, 3, "Length:\t\t17"),
    ] {
        let mut file = whole[..whole.len() - 4].to_vec();
        file[at] = byte;
        file[47] = 1;
        file.extend(sum(&file).to_le_bytes());
        bench.lay("file", &file)?;
        let run = bench.on_files("dfu-suffix", &["-c", "file"])?;
        said(&run, Some(0), words)?;
        tool_refuses(bench, number)?;
    }
    bench.lay("made", &whole)?;
    let run = bench.on_files("dfu-suffix", &["-a", "made"])?;
    said(&run, REFUSED, "Please remove existing DFU suffix")?;
    tool_adds(bench, &whole, [4, 5, 6], false)?;
    let twice = suffixed_for(&whole, [4, 5, 6]);
    same_bytes("the second suffix", &bench.read("ours")?, &twice)?;
    stock_checks(bench, "ours", [4, 5, 6])
}

/// Files that `dfu-prefix` and `dfu-suffix` made, in a visit: the image lands
/// alone, and what was around it is told.
pub fn visit(bench: &mut Bench) -> Result<(), String> {
    for (first, blocks) in [(16, 64), (1, 2), (3, 7), (16, MOST), (MOST - 1, MOST)] {
        for length in [1, 1_000, (blocks - first) * BLOCK] {
            let image = image(length);
            bench.lay("packed", &image)?;
            let address = format!("0x{:x}", first * BLOCK);
            let run = bench.on_files("dfu-prefix", &["-s", &address, "-a", "packed"])?;
            said(&run, Some(0), "")?;
            let packed = bench.read("packed")?;
            stock_adds(bench, "packed", &packed, NUMBERS[1])?;
            lands(bench, first, blocks, &image)?;
        }
    }
    Ok(())
}

fn lands(bench: &mut Bench, first: u32, blocks: u32, image: &[u8]) -> Result<(), String> {
    bench.lay("site", &written(blocks))?;
    bench.remove("left");
    let split = first.to_string();
    let words = ["visit", "--flash", "site", "--split", &split];
    let more = ["--image", "packed", "--after", "left"];
    let run = bench.mullirim(&[&words[..], &more].concat())?;
    said(&run, Some(0), "Done: the image is in place")?;
    said(&run, Some(0), "DFU suffix taken off: its sum is right")?;
    let header = format!("PROG header taken off: it is for block {first}\n");
    said(&run, Some(0), &header)?;
    let mut flash = erased(first, blocks);
    flash[(first * BLOCK) as usize..][..image.len()].copy_from_slice(image);
    same_bytes("what the visit left", &bench.read("left")?, &flash)
}
