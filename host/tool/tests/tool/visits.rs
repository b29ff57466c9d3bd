//! `mullirim visit`, and help everywhere.

use crate::folder::{some_flash, Folder, Said};
use mullirim_host::second::{start, MOST_BLOCKS};

#[test]
fn help_is_shown_everywhere() {
    let folder = Folder::new("help");
    let all = folder.done(&["--help"]);
    assert!(all.starts_with("mullirim: the technician's tool"));
    for command in ["visit", "sums", "suffix", "bundle"] {
        assert!(all.contains(&format!("  mullirim {command} ")));
    }
    assert_eq!(folder.done(&["fly", "--help"]), all);
    help_is_whole(&all);
}

#[test]
fn help_tells_of_the_board() {
    help_tells(
        &["visit", "--fast"],
        "mullirim visit: a technician's visit",
        "--flash|--image|--plain|--split|--no-erase|--save|--after|--help",
    );
    help_tells(
        &["sums", "a", "b"],
        "mullirim sums: the sums that the dashboard reads",
        "--image|--split|--compare|--plain|--json|--help",
    );
}

#[test]
fn help_tells_of_files() {
    help_tells(
        &["suffix", "add", "-o"],
        "mullirim suffix: the last 16 bytes of DFU files",
        "show|check|add|--device|--product|--vendor|-o|--json|--help|64 MiB|is written over",
    );
    help_tells(
        &["bundle", "unpack", "-o"],
        "mullirim bundle: the images of a site, packed into one file",
        "list|pack|unpack|-o|--json|--overwrite|--help|64 MiB|1 to 32|image-00.bin",
    );
}

/// A command's help begins so and has these words, and is the same wherever it
/// is asked for behind the command's name.
fn help_tells(words: &[&str], begins: &str, has: &str) {
    let folder = Folder::new("help");
    let help = folder.done(&[words[0], "--help"]);
    assert!(help.starts_with(begins));
    assert_eq!(folder.done(&[words, &["--help"]].concat()), help);
    for word in has.split('|') {
        assert!(help.contains(word), "{word}");
    }
    help_is_whole(&help);
}

fn help_is_whole(help: &str) {
    assert!(help.lines().all(|line| line.len() < 80), "{help}");
    assert!(help.contains("Exit: 0 done"));
}

#[test]
fn a_visit_that_is_refused_writes_nothing() {
    let folder = Folder::new("nothing");
    let words = ["visit", "--split", "64", "--save", "s", "--after", "a"];
    let why = "mullirim visit: with 64 blocks of flash the application can't start at block 64; \
               --split 1 to 63 would fit";
    folder.refused(&words, 1, why);
    assert!(folder.names().is_empty());
}

/// The application of a flash of the most blocks, with a byte of every third block
/// put right and its last 700 bytes left out.
fn corrected(flash: &[u8], first: usize) -> Vec<u8> {
    let mut image = flash[first * 1_024..flash.len() - 700].to_vec();
    image
        .iter_mut()
        .step_by(3 * 1_024)
        .for_each(|byte| *byte ^= 1);
    image
}

/// What a visit must show of the sums, by the loader that goes bit by bit.
fn sums_shown(old: &[u8], new: &[u8], first: usize) -> String {
    let [old, new] = [old, new].map(|flash| start(flash, first as u32, MOST_BLOCKS as u32, 0, 0).1);
    let row = |name: &str, old, new| format!("             {name:>5}   {old:08X}   {new:08X}\n");
    let other = |block: &usize| old.sums[*block] != new.sums[*block];
    let changed: Vec<usize> = (first..MOST_BLOCKS).filter(other).collect();
    let same = MOST_BLOCKS - first - changed.len();
    let s = if changed.len() == 1 { "" } else { "s" };
    let mut text = format!(
        "5 Sums       {} block{s} changed, {same} did not\n\n",
        changed.len()
    );
    text += "             block   old sum    new sum\n";
    for block in changed {
        text += &row(&block.to_string(), old.sums[block], new.sums[block]);
    }
    text + &row("whole", old.whole, new.whole)
}

#[test]
fn a_flash_of_the_most_blocks_is_visited() {
    let folder = Folder::new("most");
    for first in [1, 16, MOST_BLOCKS - 1] {
        let flash = some_flash(first as u64, MOST_BLOCKS as u32);
        let image = corrected(&flash, first);
        let mut left = [&flash[..first * 1_024], &image].concat();
        left.resize(flash.len(), 0xFF);
        folder.put("f", &flash);
        folder.put("i", &image);
        let split = first.to_string();
        let words = ["visit", "--flash", "f", "--image", "i", "--split", &split];
        let said = folder.done(&[&words[..], &["--save", "s", "--after", "a"]].concat());
        assert_eq!(folder.get("s"), flash[first * 1_024..]);
        assert_eq!(folder.get("a"), left);
        let last = MOST_BLOCKS - 1;
        let board = format!(
            "{MOST_BLOCKS} blocks of 1,024 bytes, the application from block {first} to {last}\n"
        );
        assert!(said.contains(&board), "{said}");
        assert!(said.contains(&sums_shown(&flash, &left, first)), "{said}");
        assert!(said.ends_with("Done: the image is in place and every sum is right.\n"));
        assert!(said.lines().all(|line| line.len() < 80), "{said}");
    }
}

/// An application of the most blocks that is erased but for these bytes, from block
/// 16 on, and a visit to it that erases nothing and sends this many bytes.
fn sent_unerased(folder: &Folder, places: &[usize], length: usize) -> (Vec<u8>, Said) {
    let mut flash = some_flash(7, MOST_BLOCKS as u32);
    flash[16_384..].fill(0xFF);
    places.iter().for_each(|place| flash[*place] = 0x7F);
    folder.put("f", &flash);
    folder.put("i", vec![0x31; length]);
    let words = ["visit", "--flash", "f", "--image", "i", "--after", "a"];
    (flash, folder.run(&[&words[..], &["--no-erase"]].concat()))
}

#[test]
fn a_visit_without_an_erase_says_where_one_was_needed() {
    let folder = Folder::new("unerased");
    for (places, told) in [
        (&[16_384, 200_000][..], "0x4000 (16,384), in block 16"),
        (&[200_000, 200_001], "0x30D40 (200,000), in block 195"),
        (&[262_143], "0x3FFFF (262,143), in block 255"),
    ] {
        let (flash, said) = sent_unerased(&folder, places, 262_144 - 16_384);
        let why = format!(
            "mullirim visit: ended at step 4, download: the application was not all erased, and \
             nothing was programmed: the byte at address {told}, is not FF; a visit without \
             --no-erase erases first\n"
        );
        assert_eq!((said.code, said.err), (Some(1), why));
        assert!(said.out.contains("3 Erase      left out (--no-erase)\n"));
        assert_eq!(folder.get("a"), flash);
    }
}

#[test]
fn a_visit_without_an_erase_is_done_where_none_was_needed() {
    let folder = Folder::new("erased");
    for length in [1, 5_000] {
        let (mut flash, said) = sent_unerased(&folder, &[16_383, 21_384, 200_000], length);
        flash[16_384..16_384 + length].fill(0x31);
        assert_eq!((said.code, &*said.err), (Some(0), ""));
        assert_eq!(folder.get("a"), flash);
        assert!(said.out.ends_with(DONE));
    }
}

const DONE: &str = "Done: the image is in place and every sum is right.\n";

/// The sums that are shown then are right for the flash, and not those that an image
/// by itself would have; where nothing was left they are, and nothing is told.
#[test]
fn a_visit_without_an_erase_tells_what_it_left_behind_the_image() {
    let folder = Folder::new("left");
    let split = format!("16:{MOST_BLOCKS}");
    let foretold = |folder: &Folder| {
        let sums = folder.done(&["sums", "--image", "i", "--split", &split]);
        sums.lines().last().unwrap().replace("whole   ", "")
    };
    let shown = |said: &Said| {
        let whole = said.out.lines().find(|line| line.contains("whole   "));
        whole
            .unwrap()
            .split_whitespace()
            .last()
            .unwrap()
            .to_string()
    };
    let (flash, said) = sent_unerased(&folder, &[21_384, 21_386, 200_000], 5_000);
    let left = "             left behind the image, not FF: 3 bytes, from 0x5388 on\n             \
                block sums and whole sum count that, those of sums --image do not\n";
    assert!(
        said.out.contains(left) && said.out.ends_with(DONE),
        "{}",
        said.out
    );
    assert!(said.out.lines().all(|line| line.len() < 80), "{}", said.out);
    let sent = [&flash[..16_384], &[0x31; 5_000], &flash[21_384..]].concat();
    let whole = start(&sent, 16, MOST_BLOCKS as u32, 0, 0).1.whole;
    assert_eq!(shown(&said), format!("{whole:08X}"));
    assert_ne!(shown(&said), foretold(&folder));
    let (_, said) = sent_unerased(&folder, &[16_383], 5_000);
    assert!(!said.out.contains("left behind the image") && said.out.ends_with(DONE));
    assert_eq!(shown(&said), foretold(&folder));
}
