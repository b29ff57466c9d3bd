//! What is said of bundles, and of files that are none.

use super::{bundled, image_name, names_in, pair_with, some_images, NINE, PAIR, PAPERS};
use crate::dfu::suffixed;
use crate::folder::{Folder, Said, TOOL};
use mullirim_host::second::sum;
use std::fs::File;
use std::io::Write;

#[test]
fn the_papers_bundle_is_listed() {
    let folder = Folder::new("papers");
    folder.put("f", PAPERS);
    let lines = "images 1\n0 9 340BC6D9\n";
    assert_eq!(folder.done(&["bundle", "list", "f"]), lines);
    let object = "{\"images\": [{\"length\": 9, \"sum\": \"340BC6D9\"}]}\n";
    assert_eq!(folder.done(&["bundle", "list", "f", "--json"]), object);
    assert_eq!(folder.done(&["bundle", "list", "--json", "f"]), object);
    assert_eq!(folder.names(), ["f"]);
}

/// Sums of zlib's crc32, complemented: `abc` and `de`.
#[test]
fn images_are_numbered_from_0() {
    let folder = Folder::new("pair");
    folder.put("f", PAIR);
    let lines = "images 2\n0 3 CADBBE3D\n1 2 826FD674\n";
    assert_eq!(folder.done(&["bundle", "list", "f"]), lines);
    let object = "{\"images\": [{\"length\": 3, \"sum\": \"CADBBE3D\"}, \
                  {\"length\": 2, \"sum\": \"826FD674\"}]}\n";
    assert_eq!(folder.done(&["bundle", "list", "f", "--json"]), object);
}

#[test]
fn each_image_has_its_length_and_sum() {
    let folder = Folder::new("lines");
    for count in [1, 2, 9, 10, 31, 32] {
        let images = some_images(100 + u64::from(count), count);
        folder.put("f", bundled(&images));
        let mut lines = format!("images {count}\n");
        let mut objects = Vec::new();
        for (number, image) in images.iter().enumerate() {
            let (length, sum) = (image.len(), sum(image));
            lines += &format!("{number} {length} {sum:08X}\n");
            objects.push(format!("{{\"length\": {length}, \"sum\": \"{sum:08X}\"}}"));
        }
        assert_eq!(folder.done(&["bundle", "list", "f"]), lines);
        let object = format!("{{\"images\": [{}]}}\n", objects.join(", "));
        assert_eq!(folder.done(&["bundle", "list", "f", "--json"]), object);
    }
}

/// JSON has the same members for every image.
#[test]
fn a_dfu_file_in_a_bundle_is_told_with_its_numbers() {
    let folder = Folder::new("dfu");
    let whole = suffixed(NINE, [0x0100, 0xFFFF, 0x1209]);
    let mut damaged = whole.clone();
    damaged[0] ^= 1;
    let bad = sum(&damaged);
    let bare = suffixed(&[], [1, 2, 3]);
    folder.put("f", bundled(&[whole, NINE.to_vec(), damaged, bare]));
    let lines = format!(
        "images 4\n\
         0 25 00000000 a DFU file for device 0x0100, product 0xFFFF, vendor 0x1209; \
         its image has 9 bytes and the sum 340BC6D9\n\
         1 9 340BC6D9\n\
         2 25 {bad:08X} ends in a DFU suffix whose sum is not that of the bytes before it; \
         a visit refuses it\n\
         3 16 00000000 a DFU file for device 0x0001, product 0x0002, vendor 0x0003; \
         its image has 0 bytes and the sum FFFFFFFF\n"
    );
    assert_eq!(folder.done(&["bundle", "list", "f"]), lines);
    let object = format!(
        "{{\"images\": [{{\"length\": 25, \"sum\": \"00000000\"}}, \
         {{\"length\": 9, \"sum\": \"340BC6D9\"}}, \
         {{\"length\": 25, \"sum\": \"{bad:08X}\"}}, \
         {{\"length\": 16, \"sum\": \"00000000\"}}]}}\n"
    );
    assert_eq!(folder.done(&["bundle", "list", "f", "--json"]), object);
}

/// All ways of reading refuse the file `f`, which stays; nothing is written.
fn refused(folder: &Folder, file: &[u8], number: u32, why: &str) {
    folder.put("f", file);
    let message = format!("mullirim bundle: f: no bundle (refusal {number}): {why}; get it anew");
    folder.refused(&["bundle", "list", "f"], 1, &message);
    for words in [&["-o", "d"][..], &["-o", "d", "--overwrite"]] {
        folder.refused(&[&["bundle", "unpack", "f"], words].concat(), 1, &message);
    }
    let awaited = Said {
        code: Some(1),
        out: format!("{{\"refused\": {number}}}\n"),
        err: message + "\n",
    };
    assert_eq!(folder.run(&["bundle", "list", "f", "--json"]), awaited);
    assert_eq!(folder.get("f"), file);
    assert_eq!(folder.names(), ["f"]);
}

const CUT: &str = "it was cut, or is of another kind";
const ALTERED: &str = "it was altered, or is of another kind";

#[test]
fn a_file_without_a_count_is_refused() {
    let folder = Folder::new("no-count");
    let short = "the file has under 2 bytes, and a count of images alone has 2";
    for file in [&[][..], &[1]] {
        refused(&folder, file, 1, &format!("{short}; {CUT}"));
    }
    let words = "the file's count of images is not from 1 to 32";
    for (count, said) in [
        ([0, 0], "0"),
        ([33, 0], "33"),
        ([0, 1], "256"),
        ([255, 255], "65,535"),
    ] {
        let why = format!("{words} (it is {said}); {ALTERED}");
        refused(&folder, &count, 2, &why);
        refused(&folder, &pair_with(0, &count), 2, &why);
    }
}

#[test]
fn a_file_without_all_entries_is_refused() {
    let folder = Folder::new("entries");
    let words = "the file ends before all of its images have their entries";
    for length in 2..18 {
        let numbers = format!("for 2 images these take 18 bytes, and it has {length}");
        let why = format!("{words} ({numbers}); {CUT}");
        refused(&folder, &PAIR[..length], 3, &why);
    }
    let why = format!("{words} (for 32 images these take 258 bytes, and it has 23); {CUT}");
    refused(&folder, &pair_with(0, &[32]), 3, &why);
}

const OFFSET: &str = "an image does not begin right behind what stands before it";
const EMPTY: &str = "an image has no bytes";
const PAST: &str = "an image ends behind the end of the file";
const LEFT_OVER: &str = "the file goes on behind its last image";

#[test]
fn an_entry_that_does_not_fit_is_refused() {
    let folder = Folder::new("entry");
    let altered = |place, bytes: &[u8], number, words: &str, numbers: &str| {
        let why = format!("{words} ({numbers}); {ALTERED}");
        refused(&folder, &pair_with(place, bytes), number, &why);
    };
    for (place, byte, numbers) in [
        (2, 17, "image 0 at byte 17, not at 18"),
        (2, 19, "image 0 at byte 19, not at 18"),
        (5, 1, "image 0 at byte 16,777,234, not at 18"),
        (10, 20, "image 1 at byte 20, not at 21"),
        (10, 22, "image 1 at byte 22, not at 21"),
        (6, 2, "image 1 at byte 21, not at 20"),
        (6, 4, "image 1 at byte 21, not at 22"),
    ] {
        altered(place, &[byte], 4, OFFSET, numbers);
    }
    altered(6, &[0], 5, EMPTY, "image 0");
    altered(14, &[0], 5, EMPTY, "image 1");
}

#[test]
fn an_image_that_ends_elsewhere_than_the_file_is_refused() {
    let folder = Folder::new("ends");
    for (length, number, end) in [(18, 0, 21), (20, 0, 21), (21, 1, 23), (22, 1, 23)] {
        let why = format!("{PAST} (image {number} at byte {end}, of {length}); {CUT}");
        refused(&folder, &PAIR[..length], 6, &why);
    }
    // In 32 bits these ends would be within the file.
    let why = format!("{PAST} (image 0 at byte 4,294,967,313, of 23); {CUT}");
    refused(&folder, &pair_with(6, &[0xFF; 4]), 6, &why);
    let why = format!("{PAST} (image 1 at byte 4,294,967,316, of 23); {CUT}");
    refused(&folder, &pair_with(14, &[0xFF; 4]), 6, &why);
    for more in [1, 2, 1_000] {
        let length = [&PAIR[..], &vec![7; more]].concat();
        let end = 23 + more;
        let end = if more < 1_000 {
            end.to_string()
        } else {
            "1,023".to_string()
        };
        let why = format!(
            "{LEFT_OVER} (image 1 ends at byte 23, of {end}); \
             it was added to, or is of another kind"
        );
        refused(&folder, &length, 7, &why);
    }
}

/// What is wrong beside it, and all that stands later in the order, is not told.
#[test]
fn the_first_refusal_is_told() {
    let folder = Folder::new("bundle-order");
    let told = |file: &[u8], number: u32| {
        folder.put("f", file);
        let said = folder.run(&["bundle", "list", "f", "--json"]);
        let awaited = format!("{{\"refused\": {number}}}\n");
        assert_eq!((said.code, said.out), (Some(1), awaited), "{}", said.err);
    };
    let longer = |file: Vec<u8>| [&file[..], &[7]].concat();
    // All that can be wrong with the first entry, and then less and less.
    told(&longer(pair_with(2, &[9, 0, 0, 0, 0])), 4);
    told(&longer(pair_with(2, &[9, 0, 0, 0, 99])), 4);
    told(&longer(pair_with(6, &[0, 0, 0, 0, 9, 0, 0, 0, 99])), 5);
    told(&longer(pair_with(6, &[99, 0, 0, 0, 9, 0, 0, 0, 0])), 6);
    // The second one is looked at when the first is right.
    told(&longer(pair_with(10, &[9, 0, 0, 0, 0])), 4);
    told(&longer(pair_with(10, &[9, 0, 0, 0, 99])), 4);
    told(&longer(pair_with(14, &[0])), 5);
    told(&longer(pair_with(14, &[99])), 6);
    told(&longer(PAIR.to_vec()), 7);
    // A count that is none, of a file that is too short for it as well.
    told(&[33, 0, 0], 2);
}

#[test]
fn every_altered_byte_is_found() {
    let folder = Folder::new("altered");
    let lines = "images 2\n0 3 CADBBE3D\n1 2 826FD674\n";
    for (place, byte) in PAIR.iter().enumerate() {
        for damage in [0x01, 0x80, 0xFF] {
            folder.put("f", pair_with(place, &[byte ^ damage]));
            let said = folder.run(&["bundle", "list", "f"]);
            // Count and entries leave no choice; an image has a sum.
            let code = if place < 18 { 1 } else { 0 };
            assert_eq!(said.code, Some(code), "{place}: {}", said.err);
            assert_ne!(said.out, lines);
            assert_eq!(said.out.is_empty(), code == 1);
        }
    }
    folder.put("f", PAIR);
    assert_eq!(folder.done(&["bundle", "list", "f"]), lines);
}

#[test]
fn a_file_that_cannot_be_read_is_named() {
    let folder = Folder::new("bundle-unread");
    let cases = [
        ("none", "No such file or directory (os error 2)"),
        (".", "Is a directory (os error 21)"),
        ("/proc/self/mem", "Input/output error (os error 5)"),
    ];
    for (file, error) in cases {
        let why = format!("mullirim bundle: can't read {file}: {error}");
        folder.refused(&["bundle", "list", file], 1, &why);
        folder.refused(&["bundle", "list", file, "--json"], 1, &why);
        folder.refused(&["bundle", "unpack", file, "-o", "d"], 1, &why);
        folder.refused(&["bundle", "pack", "out", file], 1, &why);
    }
    assert!(folder.names().is_empty());
}

#[test]
fn a_bundle_comes_through_a_pipe_too() {
    let folder = Folder::new("piped");
    folder.put("f", PAPERS);
    let line = format!(
        "cat f | {TOOL} bundle list /dev/stdin && cat f | {TOOL} bundle unpack /dev/stdin -o d"
    );
    let mut shell = folder.command("sh");
    let said = Said::new(shell.args(["-c", &line]).output().unwrap());
    let lines = "images 1\n0 9 340BC6D9\nd/image-00.bin: 9 bytes\n";
    assert_eq!((said.code, &*said.out, &*said.err), (Some(0), lines, ""));
    assert_eq!(names_in(&folder, "d"), Some(vec![image_name(0)]));
}

#[test]
fn a_longer_bundle_than_the_longest_is_not_awaited() {
    let folder = Folder::new("longest");
    let why = |file: &str| {
        format!(
            "mullirim bundle: {file}: the file has more than 64 MiB, \
             and a longer bundle is not taken"
        )
    };
    for file in ["/dev/zero", "/dev/urandom"] {
        folder.refused(&["bundle", "list", file], 1, &why(file));
        folder.refused(&["bundle", "list", file, "--json"], 1, &why(file));
        folder.refused(&["bundle", "unpack", file, "-o", "d"], 1, &why(file));
    }
    // The longest is still read to its end: one image, all zeros.
    let most: u32 = 64 * 1_024 * 1_024;
    let mut file = File::create(folder.path().join("f")).unwrap();
    let length = (most - 10).to_le_bytes();
    file.write_all(&[&[1, 0, 10, 0, 0, 0], &length[..]].concat())
        .unwrap();
    file.set_len(most.into()).unwrap();
    let said = folder.done(&["bundle", "list", "f"]);
    let zeros = sum(&vec![0; most as usize - 10]);
    assert_eq!(said, format!("images 1\n0 67108854 {zeros:08X}\n"));
    file.set_len(u64::from(most) + 1).unwrap();
    folder.refused(&["bundle", "list", "f"], 1, &why("f"));
    assert_eq!(folder.names(), ["f"]);
}

#[test]
fn names_are_shown_without_what_a_terminal_obeys() {
    let folder = Folder::new("bundle-names");
    folder.put("a\n\x1b", PAPERS);
    let said = folder.done(&["bundle", "unpack", "a\n\x1b", "-o", "\rd"]);
    assert_eq!(said, "\\rd/image-00.bin: 9 bytes\n");
    let said = folder.done(&["bundle", "pack", "\u{9b}", "a\n\x1b"]);
    assert_eq!(said, "\\u{9b}: 1 image, 29 bytes\n");
    folder.put("a\n\x1b", [7]);
    let said = folder.run(&["bundle", "list", "a\n\x1b"]);
    let begin = "mullirim bundle: a\\n\\u{1b}: no bundle (refusal 1): ";
    assert!(said.err.starts_with(begin), "{}", said.err);
}
