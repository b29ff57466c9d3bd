//! What can't be used or understood: the message, the exit code, and nothing
//! on standard output.

use crate::dfu::{headed, suffixed};
use crate::folder::{most_bytes, some_flash, Folder};
use mullirim_host::second::MOST_BLOCKS;
use std::ffi::OsStr;
use std::fs;
use std::os::unix::ffi::OsStrExt;

const HOW: &str = "(--help shows how)";

/// What is said of a word that is no split for `sums`.
fn no_split(word: &str) -> String {
    format!(
        "mullirim sums: --split takes A:B with A from 1 and B over A and up to {MOST_BLOCKS}, \
         as 16:64, and '{word}' is not that"
    )
}

/// And of one that is none for `visit`.
fn no_block(word: &str) -> String {
    let last = MOST_BLOCKS - 1;
    format!("mullirim visit: --split takes a block number from 1 to {last}, and '{word}' is none")
}

#[test]
fn wrong_use_ends_with_2() {
    let folder = Folder::new("use");
    let refused = |words: &[&str], message: &str| {
        folder.refused(words, 2, &format!("{message} {HOW}"));
    };
    let what = "mullirim: say what to do: visit, sums, suffix or bundle";
    refused(&[], what);
    refused(&["fly"], "mullirim: no command is called fly");
    refused(&["--json"], "mullirim: no command is called --json");
    refused(&["Sums", "f"], "mullirim: no command is called Sums");
    refused(&["\x1b[2J"], "mullirim: no command is called \\u{1b}[2J");
    refused(
        &["visit", "--fast"],
        "mullirim visit: no flag is called --fast",
    );
    let needs = "mullirim visit: --flash needs the name of a file";
    refused(&["visit", "--flash"], needs);
    refused(&["visit", "--split", "16:64"], &no_block("16:64"));
    let none = "mullirim sums: name a flash file, or an image by --image";
    refused(&["sums"], none);
    refused(
        &["sums", "--fast"],
        "mullirim sums: no flag is called --fast",
    );
    let two = "mullirim sums: --compare takes two files, and 1 is given";
    refused(&["sums", "--compare", "f"], two);
    let over = format!("16:{}", MOST_BLOCKS + 1);
    for word in ["0:64", "64:64", &over, "16", "65537:65538"] {
        refused(&["sums", "f", "--split", word], &no_split(word));
    }
    assert!(folder.names().is_empty());
}

#[test]
fn one_file_under_two_names_is_wrong_use() {
    let folder = Folder::new("twice");
    folder.put("f", some_flash(1, 64));
    fs::hard_link(folder.path().join("f"), folder.path().join("hard")).unwrap();
    std::os::unix::fs::symlink("f", folder.path().join("soft")).unwrap();
    for other in ["f", "./f", "hard", "soft"] {
        let why = format!("mullirim sums: both names of --compare lead to the same file {HOW}");
        folder.refused(&["sums", "--compare", "f", other], 2, &why);
        let why = format!("mullirim visit: --after must not name the file of --flash {HOW}");
        folder.refused(&["visit", "--flash", "f", "--after", other], 2, &why);
    }
    assert_eq!(folder.get("f"), some_flash(1, 64));
    assert_eq!(folder.names(), ["f", "hard", "soft"]);
}

/// The three ways in which a file comes to the tool, and how each is told of it.
fn ways(file: &str) -> [(Vec<&str>, &'static str); 4] {
    [
        (vec!["sums", file], "mullirim sums"),
        (vec!["sums", "--image", file], "mullirim sums"),
        (vec!["visit", "--flash", file], "mullirim visit"),
        (vec!["visit", "--image", file], "mullirim visit"),
    ]
}

#[test]
fn a_file_that_cannot_be_read_is_named_in_every_way() {
    let folder = Folder::new("unread");
    folder.put("plain", "x");
    let cases = [
        ("none", "No such file or directory (os error 2)"),
        ("plain/below", "Not a directory (os error 20)"),
        (".", "Is a directory (os error 21)"),
        // What this process may open but nobody may read from its start.
        ("/proc/self/mem", "Input/output error (os error 5)"),
    ];
    for (file, error) in cases {
        for (words, who) in ways(file) {
            folder.refused(&words, 1, &format!("{who}: can't read {file}: {error}"));
        }
    }
    let words = ["sums", "--compare", "none", "also-none"];
    let why = "mullirim sums: can't read none: No such file or directory (os error 2)";
    folder.refused(&words, 1, why);
}

#[test]
fn a_file_kept_from_its_reader_is_named() {
    let folder = Folder::new("kept");
    folder.put("f", some_flash(1, 64));
    let path = folder.path().join("f");
    let closed = <fs::Permissions as std::os::unix::fs::PermissionsExt>::from_mode(0o000);
    fs::set_permissions(&path, closed).unwrap();
    let why = "mullirim sums: can't read f: Permission denied (os error 13)";
    // Nothing is kept from root.
    match fs::read(&path) {
        Err(_) => folder.refused(&["sums", "f"], 1, why),
        Ok(_) => assert_eq!(folder.run(&["sums", "f"]).code, Some(0)),
    }
}

#[test]
fn a_flash_has_whole_blocks() {
    let folder = Folder::new("length");
    let most = MOST_BLOCKS * 1_024;
    let long = format!("more than {}", most_bytes());
    let cases = [
        (0, "0 bytes"),
        (1, "1 byte"),
        (1_024, "1,024 bytes"),
        (2_047, "2,047 bytes"),
        (65_535, "65,535 bytes"),
        (65_537, "65,537 bytes"),
        (most + 1, &long),
        (most + 1_024, &long),
        (1_000_000, &long),
    ];
    for (length, said) in cases {
        folder.put("f", vec![0x42; length]);
        let rule = format!("it has 2 to {MOST_BLOCKS} whole blocks of 1,024 bytes");
        for command in ["sums", "visit"] {
            let why = format!("mullirim {command}: f: no flash has {said}; {rule}");
            let words = match command {
                "sums" => vec!["sums", "f"],
                _ => vec!["visit", "--flash", "f"],
            };
            folder.refused(&words, 1, &why);
        }
    }
}

#[test]
fn a_flash_has_the_blocks_of_the_split() {
    let folder = Folder::new("split");
    folder.put("f", some_flash(1, 49));
    let why = "mullirim sums: f: the flash has 49 blocks, and the split 16:64 speaks of 64";
    folder.refused(&["sums", "f"], 1, why);
    let why = "mullirim sums: f: the flash has 49 blocks, and the split 1:48 speaks of 48";
    folder.refused(&["sums", "f", "--split", "1:48"], 1, why);
    folder.put("f", some_flash(1, 48));
    let why = "mullirim sums: f: the flash has 48 blocks, and the split 16:64 speaks of 64; \
               an application by itself is an image, for --image";
    folder.refused(&["sums", "f"], 1, why);
    folder.put("g", some_flash(2, 64));
    folder.refused(&["sums", "--compare", "g", "f"], 1, why);
    let why = "mullirim visit: with 48 blocks of flash the application can't start at block 48; \
               --split 1 to 47 would fit";
    folder.refused(&["visit", "--flash", "f", "--split", "48"], 1, why);
}

#[test]
fn an_image_fits_the_application() {
    let folder = Folder::new("room");
    folder.put("i", []);
    let why = "i: the image is empty; a download has at least 1 byte";
    folder.refused(
        &["sums", "--image", "i"],
        1,
        &format!("mullirim sums: {why}"),
    );
    folder.refused(
        &["visit", "--image", "i"],
        1,
        &format!("mullirim visit: {why}"),
    );
    folder.put("i", [7; 49_153]);
    let why = "i: the image has 49,153 bytes, and the application holds 49,152 bytes";
    folder.refused(
        &["sums", "--image", "i"],
        1,
        &format!("mullirim sums: {why}"),
    );
    folder.refused(
        &["visit", "--image", "i"],
        1,
        &format!("mullirim visit: {why}"),
    );
    folder.put("i", [7; 1_000_000]);
    let why = format!(
        "mullirim sums: i: the image has more than {}, and the application holds 1,024 bytes",
        most_bytes()
    );
    folder.refused(&["sums", "--image", "i", "--split", "3:4"], 1, &why);
}

/// The ways in which a flash comes to the tool.
fn flash_ways(file: &str) -> [(Vec<&str>, &'static str); 3] {
    [
        (vec!["sums", file], "mullirim sums"),
        (vec!["sums", "--compare", file, "other"], "mullirim sums"),
        (vec!["visit", "--flash", file], "mullirim visit"),
    ]
}

#[test]
fn a_flash_with_a_suffix_is_refused_in_every_way() {
    let folder = Folder::new("suffix");
    folder.put("other", some_flash(2, 64));
    let why = "f: the file ends in a DFU suffix, whose 16 bytes would be taken for firmware; \
               take them off first, or name it by --image if it is an image";
    let flash = some_flash(1, 64);
    for firmware in [&flash[..], &flash[..49_152], &flash[..1_008], &[]] {
        let mut file = suffixed(firmware, [0x0100, 0xFFFF, 0x0451]);
        folder.put("f", &file);
        for (words, who) in flash_ways("f") {
            folder.refused(&words, 1, &format!("{who}: {why}"));
        }
        // Also where it is damaged.
        file[firmware.len()] ^= 1;
        folder.put("f", &file);
        folder.refused(&["sums", "f"], 1, &format!("mullirim sums: {why}"));
    }
    folder.put("f", &flash);
    folder.done(&["sums", "f"]);
}

#[test]
fn a_flash_with_a_header_is_refused_in_every_way() {
    let folder = Folder::new("header");
    folder.put("other", some_flash(2, 64));
    let why = "f: the file begins with a PROG header, whose 8 bytes would shift the firmware; \
               take them off first, or name it by --image if it is an image";
    let flash = some_flash(1, 64);
    for length in [0, 1, 1_016, 20_000, 49_152, 65_536] {
        folder.put("f", headed(16, &flash[..length]));
        for (words, who) in flash_ways("f") {
            folder.refused(&words, 1, &format!("{who}: {why}"));
        }
    }
}

/// What a flash holds is nobody's to judge; its last application may have been
/// programmed with a suffix, and its boot area may begin with anything.
#[test]
fn whole_blocks_are_a_flash_whatever_they_begin_with_or_end_in() {
    let folder = Folder::new("blocks");
    let flash = some_flash(1, 64);
    folder.put("other", &flash);
    let mut damaged = suffixed(&flash[..65_520], [1, 2, 3]);
    damaged[7] ^= 1;
    let both = headed(16, &suffixed(&flash[..65_512], [1, 2, 3]));
    let padded = [&suffixed(&flash[..60_000], [1, 2, 3])[..], &[0xFF; 5_520]].concat();
    for file in [
        suffixed(&flash[..65_520], [1, 2, 3]),
        damaged,
        headed(16, &flash[..65_528]),
        both,
        padded,
    ] {
        assert_eq!(file.len(), 65_536);
        folder.put("f", &file);
        let said = folder.done(&["sums", "f"]);
        let whole = mullirim_host::second::sum(&file[16_384..]);
        assert!(said.ends_with(&format!("whole   {whole:08X}\n")), "{said}");
        folder.done(&["sums", "--compare", "f", "other"]);
        let words = ["visit", "--flash", "f", "--save", "s"];
        folder.done(&words);
        assert_eq!(folder.get("s"), file[16_384..]);
    }
}

#[test]
fn a_name_is_shown_without_what_a_terminal_obeys() {
    let folder = Folder::new("control");
    let name = OsStr::from_bytes(b"a\n\x1b[31m\xFF");
    let why = "can't read a\\n\\u{1b}[31m\\xFF: No such file or directory (os error 2)";
    let words = [OsStr::new("sums"), name];
    folder.refused(&words, 1, &format!("mullirim sums: {why}"));
    let words = [OsStr::new("visit"), OsStr::new("--flash"), name];
    folder.refused(&words, 1, &format!("mullirim visit: {why}"));
    folder.put(name, [7; 2_048]);
    let said = folder.done(&[&words[..], &["--split".as_ref(), "1".as_ref()]].concat());
    assert!(said.contains("1 Start      a\\n\\u{1b}[31m\\xFF\n"));
    assert!(!said.contains('\x1b'));
    let words = ["sums".as_ref(), name, "--split".as_ref(), "1:2".as_ref()];
    let said = folder.done(&words);
    assert!(said.starts_with("a\\n\\u{1b}[31m\\xFF: a flash of 2 blocks\n"));
}

#[test]
fn names_of_written_files_and_other_words_are_shown_so_too() {
    let folder = Folder::new("written");
    let words = ["visit", "--save", "\rs", "--after", "\u{9b}a"];
    let said = folder.done(&words);
    assert!(said.contains("             saved to \\rs\n"), "{said}");
    assert!(
        said.contains("             flash written to \\u{9b}a\n"),
        "{said}"
    );
    assert_eq!(folder.names(), ["\rs", "\u{9b}a"]);
    let why = no_block("\\u{1b}");
    folder.refused(&["visit", "--split", "\x1b"], 2, &format!("{why} {HOW}"));
    let why = no_split("\\u{7}");
    folder.refused(&["sums", "--split", "\x07"], 2, &format!("{why} {HOW}"));
}
