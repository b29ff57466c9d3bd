//! `mullirim suffix`: what it says of a DFU file, what it writes, and every
//! file that it refuses.

use crate::dfu::{suffixed, summed};
use crate::folder::{some_flash, Folder, Said, TOOL};
use std::fs::{self, File};
use std::os::unix::fs::symlink;

const HOW: &str = "(--help shows how)";
const SHORT: &str = "the file has under 16 bytes, and a DFU suffix alone has 16: it has none, or \
                     the file was cut; get it anew";
const SIGNATURE: &str = "the file has no DFU suffix: 55 46 44 does not stand where its signature \
                         would; it is of another kind, or its end was cut or altered; get it \
                         anew, or add a suffix to it if you know that it is right";
const LENGTH: &str = "the DFU suffix does not give its own length as 16 bytes: the file was \
                      altered, or is of a kind that is not known here; get it anew";
const VERSION: &str = "the DFU suffix does not give 0x0100 as its version of DFU: the file was \
                       altered, or was made for boards of another kind; get it anew, with a \
                       suffix of that version";
const SUM: &str = "the sum in the DFU suffix is not that of the bytes before it: the file was \
                   altered or cut; get it anew";

/// The words of each refusal, by its number.
const REFUSALS: [&str; 6] = ["", SHORT, SIGNATURE, LENGTH, VERSION, SUM];

/// All three ways of asking refuse the file `f`, which stays as it was.
fn refused(folder: &Folder, file: &[u8], number: usize) {
    folder.put("f", file);
    let message = format!("mullirim suffix: f: {}", REFUSALS[number]);
    folder.refused(&["suffix", "check", "f"], 1, &message);
    folder.refused(&["suffix", "show", "f"], 1, &message);
    let awaited = Said {
        code: Some(1),
        out: format!("{{\"refused\": {number}}}\n"),
        err: message + "\n",
    };
    assert_eq!(folder.run(&["suffix", "show", "f", "--json"]), awaited);
    assert_eq!(folder.get("f"), file);
}

#[test]
fn a_whole_file_is_shown() {
    let folder = Folder::new("shown");
    let image = &some_flash(1, 24)[..];
    folder.put("new.dfu", suffixed(image, [0x0100, 0x0001, 0x1209]));
    let shown = "new.dfu: a DFU file, whose sum is right\n\
                 device    0x0100\n\
                 product   0x0001\n\
                 vendor    0x1209\n\
                 image     24,576 bytes\n";
    assert_eq!(folder.done(&["suffix", "show", "new.dfu"]), shown);
    let whole = "new.dfu: whole, an image of 24,576 bytes for \
                 device 0x0100, product 0x0001, vendor 0x1209\n";
    assert_eq!(folder.done(&["suffix", "check", "new.dfu"]), whole);
    assert_eq!(folder.names(), ["new.dfu"]);
}

#[test]
fn json_is_one_line_of_decimal_numbers() {
    let folder = Folder::new("line");
    let cases = [
        (
            24_576,
            [1, 2, 3],
            r#"{"device": 1, "product": 2, "vendor": 3, "length": 24576}"#,
        ),
        (
            0,
            [0xFFFF, 0, 0x1209],
            r#"{"device": 65535, "product": 0, "vendor": 4617, "length": 0}"#,
        ),
        (
            1,
            [0, 256, 10],
            r#"{"device": 0, "product": 256, "vendor": 10, "length": 1}"#,
        ),
    ];
    for (length, numbers, object) in cases {
        folder.put("f", suffixed(&some_flash(2, 24)[..length], numbers));
        for words in [["show", "f", "--json"], ["show", "--json", "f"]] {
            let words = [&["suffix"], &words[..]].concat();
            assert_eq!(folder.done(&words), format!("{object}\n"));
        }
    }
}

#[test]
fn under_16_bytes_are_refused_first() {
    let folder = Folder::new("short");
    let whole = suffixed(&[], [1, 2, 3]);
    for length in 0..16 {
        refused(&folder, &whole[16 - length..], 1);
    }
    folder.put("f", &whole);
    folder.done(&["suffix", "check", "f"]);
}

/// What is wrong beside it, and all that stands later in the order, is not told.
#[test]
fn the_first_refusal_is_told() {
    let folder = Folder::new("order");
    let whole = suffixed(&[7; 40], [1, 2, 3]);
    let (signature, length, version, sum) = (48, 51, 46, 52);
    let wrong = |places: &[usize]| {
        let mut file = whole.clone();
        for place in places {
            file[*place] ^= 0x20;
        }
        file
    };
    refused(&folder, &wrong(&[signature, length, version, sum]), 2);
    refused(&folder, &wrong(&[length, version, sum]), 3);
    refused(&folder, &wrong(&[version, sum]), 4);
    refused(&folder, &wrong(&[sum]), 5);
    // The same where the sum is right for the wrong bytes.
    for (place, number) in [(signature, 2), (length, 3), (version, 4)] {
        let file = summed(wrong(&[place])[..52].to_vec());
        refused(&folder, &file, number);
    }
}

/// The number that each byte of a small file stands for when it is altered.
fn refusal_of(place: usize, image: usize) -> usize {
    match place.checked_sub(image) {
        Some(6 | 7) => 4,
        Some(8..=10) => 2,
        Some(11) => 3,
        _ => 5,
    }
}

#[test]
fn every_damaged_byte_is_found() {
    let folder = Folder::new("damaged");
    let image = &some_flash(3, 1)[..40];
    let whole = suffixed(image, [0x0100, 0x0001, 0x1209]);
    let mut met = [0; 6];
    for place in 0..whole.len() {
        for damage in [0x01, 0x80, 0xFF] {
            let mut file = whole.clone();
            file[place] ^= damage;
            folder.put("f", file);
            let number = refusal_of(place, image.len());
            let message = format!("mullirim suffix: f: {}", REFUSALS[number]);
            folder.refused(&["suffix", "check", "f"], 1, &message);
            met[number] += 1;
        }
    }
    assert_eq!(met, [0, 0, 9, 3, 6, 150]);
    folder.put("f", &whole);
    folder.done(&["suffix", "check", "f"]);
}

#[test]
fn a_cut_file_is_found() {
    let folder = Folder::new("cut");
    let whole = suffixed(&some_flash(4, 1)[..40], [1, 2, 3]);
    for length in 0..whole.len() {
        folder.put("f", &whole[..length]);
        let number = if length < 16 { 1 } else { 2 };
        let message = format!("mullirim suffix: f: {}", REFUSALS[number]);
        folder.refused(&["suffix", "check", "f"], 1, &message);
    }
}

fn adding<'a>(file: &'a str, numbers: [&'a str; 3], out: &'a str) -> Vec<&'a str> {
    let [device, product, vendor] = numbers;
    let numbers = ["--device", device, "--product", product, "--vendor", vendor];
    [&["suffix", "add", file], &numbers[..], &["-o", out]].concat()
}

#[test]
fn what_is_added_is_what_the_numbers_say() {
    let folder = Folder::new("added");
    let cases = [
        (["0", "65535", "1"], [0, 0xFFFF, 1]),
        (["0x0", "0xffff", "0x01"], [0, 0xFFFF, 1]),
        (["0x0100", "1", "0x1209"], [0x0100, 1, 0x1209]),
        (["256", "0x1", "4617"], [0x0100, 1, 0x1209]),
    ];
    for length in [0, 1, 40, 65_536] {
        let file = &some_flash(5, 64)[..length];
        folder.put("f", file);
        for (words, numbers) in cases {
            let said = folder.done(&adding("f", words, "out"));
            assert_eq!(folder.get("out"), suffixed(file, numbers));
            assert_eq!(said.lines().count(), 1, "{said}");
            let object = folder.done(&["suffix", "show", "out", "--json"]);
            let [device, product, vendor] = numbers;
            let awaited = format!(
                "{{\"device\": {device}, \"product\": {product}, \"vendor\": {vendor}, \
                 \"length\": {length}}}\n"
            );
            assert_eq!(object, awaited);
        }
        assert_eq!(folder.get("f"), file);
    }
    let said = folder.done(&adding("f", ["256", "1", "4617"], "out"));
    let line = "out: 65,552 bytes, which are f and a suffix for \
                device 0x0100, product 0x0001, vendor 0x1209\n";
    assert_eq!(said, line);
    assert_eq!(folder.names(), ["f", "out"]);
}

/// A suffix is added, and the second line says this of the file.
fn second(folder: &Folder, file: &[u8], already: &str) {
    folder.put("f", file);
    let said = folder.done(&adding("f", ["4", "5", "6"], "out"));
    let bytes = file.len() + 16;
    let lines = format!(
        "out: {bytes} bytes, which are f and a suffix for \
         device 0x0004, product 0x0005, vendor 0x0006\n\
         f {already}: it stays, and the new one is the second; a visit refuses such an image\n"
    );
    assert_eq!(said, lines);
    assert_eq!(folder.get("out"), suffixed(file, [4, 5, 6]));
    let object = folder.done(&["suffix", "show", "out", "--json"]);
    let length = file.len();
    let awaited =
        format!("{{\"device\": 4, \"product\": 5, \"vendor\": 6, \"length\": {length}}}\n");
    assert_eq!(object, awaited);
}

#[test]
fn a_second_suffix_is_added_and_told() {
    let folder = Folder::new("second");
    let once = suffixed(b"firmware", [1, 2, 3]);
    second(&folder, &once, "has a suffix already");
    for (place, wrong) in [
        (19, "whose length is not given as 16 bytes"),
        (14, "whose version of DFU is not 0x0100"),
        (0, "whose sum is not that of the bytes before it"),
    ] {
        let mut damaged = once.clone();
        damaged[place] ^= 0x20;
        second(&folder, &damaged, &format!("has a suffix already, {wrong}"));
    }
    let mut altered = once.clone();
    altered[16] = b'u';
    let why = "ends in a DFU suffix whose fixed bytes, 00 01 55 46 44 10, were altered";
    second(&folder, &altered, why);
    let why = "has a part of a DFU suffix near its end: bytes were cut off there, or added";
    second(&folder, &once[..18], why);
    let why = "begins with a whole DFU file of 24 bytes, behind which 30 bytes were added";
    second(&folder, &[&once[..], &[0; 30]].concat(), why);
    // One of which less is left is none.
    folder.put("f", &once[..17]);
    let said = folder.done(&adding("f", ["4", "5", "6"], "out"));
    assert_eq!(said.lines().count(), 1, "{said}");
}

/// The longest file of all, full of what looks like a suffix.
#[test]
fn a_second_suffix_is_looked_for_in_one_pass() {
    let folder = Folder::new("pass");
    let length = 64 * 1_024 * 1_024 - 16;
    let mut file = [0x00, 0x01, 0x55, 0x46, 0x44, 0x10].repeat(length / 6);
    file.resize(length, 0);
    file[length - 100..].fill(0);
    folder.put("f", &file);
    let said = folder.done(&adding("f", ["4", "5", "6"], "out"));
    assert_eq!(said.lines().count(), 1, "{said}");
}

/// Where OUT is no plain file, or is where standard output goes, what is said
/// goes to standard error.
#[test]
fn what_is_said_is_kept_out_of_what_is_written() {
    let folder = Folder::new("mixed");
    let once = suffixed(b"firmware", [1, 2, 3]);
    folder.put("f", &once);
    let twice = suffixed(&once, [4, 5, 6]);
    let told = |out: &str| {
        format!(
            "{out}: 40 bytes, which are f and a suffix for device 0x0004, product 0x0005, \
             vendor 0x0006\nf has a suffix already: it stays, and the new one is the second; \
             a visit refuses such an image\n"
        )
    };
    let words = |out| adding("f", ["4", "5", "6"], out).join(" ");
    for (out, to) in [
        ("/dev/stdout", "| cat > out"),
        ("/proc/self/fd/1", "| cat > out"),
        ("/dev/stdout", "> out"),
        ("out", "> out"),
        ("./out", ">> out"),
        ("/dev/fd/3", "3>&1 >/dev/null | cat > out"),
    ] {
        folder.put("out", "");
        let line = format!("{TOOL} {} {to}", words(out));
        let mut shell = folder.command("sh");
        let said = Said::new(shell.args(["-c", &line]).output().unwrap());
        let awaited = (Some(0), "", &*told(out));
        assert_eq!((said.code, &*said.out, &*said.err), awaited, "{line}");
        assert_eq!(folder.get("out"), twice, "{line}");
    }
    let said = folder.run(&adding("f", ["4", "5", "6"], "/dev/null"));
    let awaited = (Some(0), "", &*told("/dev/null"));
    assert_eq!((said.code, &*said.out, &*said.err), awaited);
    for out in ["out", "new"] {
        assert_eq!(folder.done(&adding("f", ["4", "5", "6"], out)), told(out));
    }
}

#[test]
fn the_input_is_never_written_over() {
    let folder = Folder::new("input");
    folder.put("f", b"firmware");
    fs::create_dir(folder.path().join("below")).unwrap();
    fs::hard_link(folder.path().join("f"), folder.path().join("hard")).unwrap();
    symlink("f", folder.path().join("soft")).unwrap();
    symlink("soft", folder.path().join("softer")).unwrap();
    symlink(".", folder.path().join("here")).unwrap();
    let absolute = folder.path().join("f");
    let absolute = absolute.to_str().unwrap();
    let why = format!("mullirim suffix: -o must not name the file that is read {HOW}");
    let names = [
        "f",
        "./f",
        "below/../f",
        "here/f",
        "hard",
        "soft",
        "softer",
        absolute,
    ];
    for file in names {
        for out in names {
            folder.refused(&adding(file, ["1", "2", "3"], out), 2, &why);
        }
    }
    assert_eq!(folder.get("f"), b"firmware");
    let there = ["below", "f", "hard", "here", "soft", "softer"];
    assert_eq!(folder.names(), there);
}

#[test]
fn a_link_that_leads_nowhere_is_not_followed() {
    let folder = Folder::new("nowhere");
    folder.put("f", b"firmware");
    symlink("none", folder.path().join("link")).unwrap();
    let why = format!("mullirim suffix: -o names a link that leads nowhere {HOW}");
    folder.refused(&adding("f", ["1", "2", "3"], "link"), 2, &why);
    assert_eq!(folder.names(), ["f", "link"]);
}

/// A link stays one, and the file behind it is written whole.
#[test]
fn another_file_is_written_over_whole() {
    let folder = Folder::new("over");
    folder.put("f", b"firmware");
    folder.put("old", [9; 1_000]);
    symlink("old", folder.path().join("link")).unwrap();
    folder.done(&adding("f", ["1", "2", "3"], "link"));
    assert!(folder.path().join("link").is_symlink());
    assert_eq!(folder.get("old"), suffixed(b"firmware", [1, 2, 3]));
    assert_eq!(folder.names(), ["f", "link", "old"]);
}

/// Words that end with 2, and write nothing.
fn wrong_use(folder: &Folder, words: &[&str], message: &str) {
    let words = [&["suffix"], words].concat();
    folder.refused(&words, 2, &format!("mullirim suffix: {message} {HOW}"));
    assert_eq!(folder.names(), ["f"]);
}

#[test]
fn wrong_use_ends_with_2() {
    let folder = Folder::new("suffix-use");
    folder.put("f", suffixed(b"firmware", [1, 2, 3]));
    let refused = |words: &[&str], message: &str| wrong_use(&folder, words, message);
    refused(&[], "say what to do: show, check or add");
    refused(&["f"], "a suffix can be shown, checked or added, not 'f'");
    let escaped = "a suffix can be shown, checked or added, not '\\u{1b}[2J'";
    refused(&["\x1b[2J"], escaped);
    refused(&["show"], "show needs the name of a file");
    refused(&["check", ""], "the name of a file is empty");
    let two = "check takes one file, and 2 are given";
    refused(&["check", "f", "f"], two);
    refused(&["show", "f", "-j"], "show has no flag that is called -j");
    let none = "check has no flag that is called --json";
    refused(&["check", "f", "--json"], none);
    let twice = ["show", "f", "--json", "--json"];
    refused(&twice, "--json is given twice");
    refused(&["add", "f", "--device"], "--device needs a number");
}

#[test]
fn an_addition_without_all_its_numbers_is_wrong_use() {
    let folder = Folder::new("suffix-numbers");
    folder.put("f", b"firmware");
    for (left_out, value) in [
        ("--device", "N"),
        ("--product", "N"),
        ("--vendor", "N"),
        ("-o", "OUT"),
    ] {
        let words = adding("f", ["1", "2", "3"], "out");
        let place = words.iter().position(|word| *word == left_out).unwrap();
        let words = [&words[1..place], &words[place + 2..]].concat();
        let message = format!("add needs {left_out} {value} as well");
        wrong_use(&folder, &words, &message);
    }
    for word in [
        "65536", "0x10000", "-1", "+1", "1209h", "FFFF", "0x", "0X1", "1.0",
    ] {
        let why = format!(
            "--vendor takes a number from 0 to 65535, decimal or in hex after 0x, \
             and '{word}' is none"
        );
        wrong_use(&folder, &adding("f", ["1", "2", word], "out")[1..], &why);
    }
}

#[test]
fn a_file_that_cannot_be_read_is_named() {
    let folder = Folder::new("suffix-unread");
    let cases = [
        ("none", "No such file or directory (os error 2)"),
        (".", "Is a directory (os error 21)"),
    ];
    for (file, error) in cases {
        let why = format!("mullirim suffix: can't read {file}: {error}");
        folder.refused(&["suffix", "show", file], 1, &why);
        folder.refused(&["suffix", "show", file, "--json"], 1, &why);
        folder.refused(&["suffix", "check", file], 1, &why);
        folder.refused(&adding(file, ["1", "2", "3"], "out"), 1, &why);
    }
    assert!(folder.names().is_empty());
}

#[test]
fn a_file_without_an_end_is_not_awaited() {
    let folder = Folder::new("endless");
    let long = |who: &str, what: &str| {
        format!("mullirim suffix: {who}: {what} 64 MiB, and a longer DFU file is not taken")
    };
    let why = long("/dev/zero", "the file has more than");
    folder.refused(&["suffix", "show", "/dev/zero"], 1, &why);
    folder.refused(&["suffix", "show", "/dev/zero", "--json"], 1, &why);
    folder.refused(&["suffix", "check", "/dev/zero"], 1, &why);
    let why = long("/dev/zero", "with its suffix the file has more than");
    folder.refused(&adding("/dev/zero", ["1", "2", "3"], "out"), 1, &why);
    // The longest file is still read to its end, where there is no signature.
    let most = 64 * 1_024 * 1_024;
    let file = File::create(folder.path().join("f")).unwrap();
    file.set_len(most).unwrap();
    let why = format!("mullirim suffix: f: {SIGNATURE}");
    folder.refused(&["suffix", "check", "f"], 1, &why);
    file.set_len(most + 1).unwrap();
    let why = long("f", "the file has more than");
    folder.refused(&["suffix", "check", "f"], 1, &why);
    file.set_len(most - 15).unwrap();
    let why = long("f", "with its suffix the file has more than");
    folder.refused(&adding("f", ["1", "2", "3"], "out"), 1, &why);
    assert_eq!(folder.names(), ["f"]);
}

#[test]
fn names_are_shown_without_what_a_terminal_obeys() {
    let folder = Folder::new("suffix-names");
    folder.put("a\n\x1b", b"firmware");
    let said = folder.done(&adding("a\n\x1b", ["1", "2", "3"], "\rout"));
    let line = "\\rout: 24 bytes, which are a\\n\\u{1b} and a suffix for \
                device 0x0001, product 0x0002, vendor 0x0003\n";
    assert_eq!(said, line);
    let said = folder.done(&["suffix", "check", "\rout"]);
    assert!(said.starts_with("\\rout: whole, "));
    let said = folder.done(&["suffix", "show", "\rout"]);
    assert!(said.starts_with("\\rout: a DFU file, "));
    let why = format!("mullirim suffix: a\\n\\u{{1b}}: {SHORT}");
    folder.refused(&["suffix", "check", "a\n\x1b"], 1, &why);
}
