//! Images in DFU files and behind PROG headers: what a visit programs of them,
//! what it says, and which files it refuses before it touches a board.

use crate::dfu::{headed, suffixed, summed};
use crate::folder::{most_bytes, some_flash, Folder, Said};
use crate::json::{self, Json};
use mullirim_host::second::MOST_BLOCKS;

const FOR: [u16; 3] = [0x0100, 0x0001, 0x1209];
const SUFFIX: &str = "DFU suffix taken off: its sum is right";
const FOR_WHOM: &str = "it is for device 0x0100, product 0x0001, vendor 0x1209";
const HEADER: &str = "PROG header taken off: it is for block 3";
const UNVOUCHED: &str = "no DFU suffix: nothing vouches for these bytes";
const BEGINS: &str = "begins like a PROG header for block 3: taken as part of the image";
const PLAIN: &str = "--plain takes the file as it stands";
const OUTER_TOO: &str = "--plain takes the file as it stands, its suffix too";

/// A flash of 8 blocks, the application from block 3 on.
fn site(folder: &Folder) -> Vec<u8> {
    let flash = some_flash(11, 8);
    folder.put("flash", &flash);
    flash
}

const VISIT: [&str; 11] = [
    "visit", "--flash", "flash", "--image", "i", "--split", "3", "--save", "save", "--after",
    "after",
];

fn visit(folder: &Folder, file: &[u8]) -> Said {
    folder.put("i", file);
    folder.run(&VISIT)
}

/// The visit is done, leaves the image in the flash, and says this of the file
/// before it reads anything.
fn visited(folder: &Folder, file: &[u8], image: &[u8], told: &[&str]) {
    let flash = site(folder);
    let said = visit(folder, file);
    landed(folder, &flash, &said, image, told);
    assert_eq!(folder.get("i"), file);
}

fn landed(folder: &Folder, flash: &[u8], said: &Said, image: &[u8], told: &[&str]) {
    assert_eq!((said.code, &*said.err), (Some(0), ""), "{}", said.out);
    let mut left = flash[..3_072].to_vec();
    left.extend(image);
    left.resize(8_192, 0xFF);
    assert_eq!(folder.get("after"), left);
    assert_eq!(folder.get("save"), flash[3_072..]);
    let lines: Vec<&str> = said.out.lines().collect();
    let start = [
        "1 Start      flash",
        "             8 blocks of 1,024 bytes, ",
    ];
    assert!(lines[2] == start[0] && lines[3].starts_with(start[1]));
    assert!(lines[4].starts_with("             whole sum "));
    let s = if image.len() == 1 { "" } else { "s" };
    let named = format!("image i, {} byte{s}", grouped(image.len()));
    let told = [&[&*named], told].concat();
    let told: Vec<String> = told.iter().map(|l| format!("             {l}")).collect();
    assert_eq!(lines[5..][..told.len()], told);
    assert!(lines[5 + told.len()].starts_with("2 Read back  "));
    let mut lines = lines.iter().skip_while(|line| **line != "4 Download   i");
    assert_eq!(lines.next(), Some(&"4 Download   i"));
    assert!(lines.next().unwrap().starts_with("             [####"));
    assert!(said.out.lines().all(|line| line.len() < 80));
}

fn grouped(number: usize) -> String {
    match (number / 1_000, number % 1_000) {
        (0, rest) => rest.to_string(),
        (thousands, rest) => format!("{thousands},{rest:03}"),
    }
}

/// The visit is refused and writes nothing; and so are the sums.
fn refused(folder: &Folder, file: &[u8], why: &str) {
    site(folder);
    let before = ["flash", "i"];
    let said = visit(folder, file);
    let message = format!("mullirim visit: i: {why}\n");
    assert_eq!((said.code, &*said.out, said.err), (Some(1), "", message));
    assert_eq!(folder.names(), before);
    let message = format!("mullirim sums: i: {why}");
    let words = ["sums", "--image", "i", "--split", "3:8"];
    folder.refused(&words, 1, &message);
    folder.refused(&[&words[..], &["--json"]].concat(), 1, &message);
    let words = ["sums", "--compare", "flash", "--image", "i"];
    let words = [&words[..], &["--split", "3:8"]].concat();
    folder.refused(&words, 1, &message);
}

#[test]
fn a_dfu_file_lands_without_its_suffix() {
    let folder = Folder::new("dfu");
    for length in [1, 1_008, 1_024, 3_000, 5_104, 5_120] {
        let image = &some_flash(12, 5)[..length];
        let file = suffixed(image, FOR);
        visited(&folder, &file, image, &[SUFFIX, FOR_WHOM]);
    }
    // An image of erased bytes or zeros is one too.
    for byte in [0, 0xFF] {
        let image = [byte; 40];
        visited(&folder, &suffixed(&image, FOR), &image, &[SUFFIX, FOR_WHOM]);
    }
}

#[test]
fn plain_bytes_land_as_they_are_and_nothing_vouches_for_them() {
    let folder = Folder::new("plain");
    for length in [1, 15, 16, 17, 3_000, 5_120] {
        let image = &some_flash(13, 5)[..length];
        visited(&folder, image, image, &[UNVOUCHED]);
    }
}

#[test]
fn a_header_for_this_place_is_taken_off() {
    let folder = Folder::new("headed");
    for length in [1, 16, 1_016, 3_000, 5_120] {
        let image = &some_flash(14, 5)[..length];
        visited(&folder, &headed(3, image), image, &[HEADER, UNVOUCHED]);
        let mut other = headed(3, image);
        other[1] = 0xA5;
        visited(&folder, &other, image, &[HEADER, UNVOUCHED]);
    }
}

#[test]
fn both_are_taken_off() {
    let folder = Folder::new("wrapped");
    for length in [1, 1_000, 3_000, 5_120] {
        let image = &some_flash(15, 5)[..length];
        let file = suffixed(&headed(3, image), FOR);
        visited(&folder, &file, image, &[SUFFIX, FOR_WHOM, HEADER]);
    }
}

#[test]
fn two_headers_are_refused() {
    let folder = Folder::new("inner");
    for block in [3, 4, 0xFFFF] {
        let file = headed(3, &headed(block, &some_flash(16, 1)[..100]));
        let why = format!(
            "behind its PROG header stands another, for block {block}, which would be taken for \
             firmware; get the file anew"
        );
        refused(&folder, &file, &format!("{why}; {PLAIN}"));
        let whole = suffixed(&file, FOR);
        refused(&folder, &whole, &format!("{why}; {OUTER_TOO}"));
    }
}

#[test]
fn a_length_that_does_not_match_is_no_header_and_told() {
    let folder = Folder::new("unlike");
    let image = &some_flash(17, 1)[..200];
    for (at, byte, told) in [
        (4, 199, "199"),
        (4, 201, "201"),
        (5, 1, "456"),
        (7, 255, "4,278,190,280"),
    ] {
        let lengths = format!("it tells of {told} bytes, but has 200 behind it");
        let mut file = headed(3, image);
        file[at] = byte;
        visited(&folder, &file, &file, &[BEGINS, &lengths, UNVOUCHED]);
        let whole = suffixed(&file, FOR);
        let told = [SUFFIX, FOR_WHOM, BEGINS, &lengths];
        visited(&folder, &whole, &file, &told);
    }
}

#[test]
fn another_command_or_place_is_no_header() {
    let folder = Folder::new("other");
    let image = &some_flash(17, 1)[..200];
    for (at, byte) in [(0, 2), (0, 0), (2, 4), (3, 1)] {
        let mut file = headed(3, image);
        file[at] = byte;
        file[4] = if at == 0 { 200 } else { 199 };
        visited(&folder, &file, &file, &[UNVOUCHED]);
        let whole = suffixed(&file, FOR);
        visited(&folder, &whole, &file, &[SUFFIX, FOR_WHOM]);
    }
}

#[test]
fn a_header_for_another_place_is_refused() {
    let folder = Folder::new("place");
    let image = &some_flash(18, 1)[..200];
    for block in [0, 2, 4, 16, 0x0300, 0xFFFF] {
        let why = format!(
            "its PROG header is for block {block}, and the application starts at block 3; \
             the file was made for another place"
        );
        let file = headed(block, image);
        refused(&folder, &file, &format!("{why}; {PLAIN}"));
        let whole = suffixed(&file, FOR);
        refused(&folder, &whole, &format!("{why}; {OUTER_TOO}"));
    }
}

const LENGTH: &str = "the DFU suffix does not give its own length as 16 bytes: the file was \
                      altered, or is of a kind that is not known here; get it anew";
const VERSION: &str = "the DFU suffix does not give 0x0100 as its version of DFU: the file was \
                       altered, or was made for boards of another kind; get it anew, with a \
                       suffix of that version";
const SUM: &str = "the sum in the DFU suffix is not that of the bytes before it: the file was \
                   altered or cut; get it anew";

#[test]
fn each_damage_that_the_reader_tells_is_refused() {
    let folder = Folder::new("told");
    let image = &some_flash(19, 1)[..100];
    let whole = suffixed(&headed(3, image), FOR);
    let end = whole.len() - 16;
    for (at, why) in [(end + 11, LENGTH), (end + 6, VERSION), (end + 15, SUM)] {
        let mut file = whole.clone();
        file[at] ^= 0x1A;
        refused(&folder, &file, why);
        // Whatever the sum says, a suffix of another kind is not taken.
        if at < end + 12 {
            refused(&folder, &summed(file[..end + 12].to_vec()), why);
        }
        // And a suffix of its own vouches for it, but makes no firmware of it.
        let why = format!(
            "the image inside ends in a DFU suffix too, which would be taken for firmware; \
             and that one is not right: {why}"
        );
        refused(&folder, &suffixed(&file, FOR), &why);
    }
}

/// A file that lost its suffix in some way, and what is said of it.
fn lost() -> Vec<(Vec<u8>, &'static str)> {
    let altered = "ends in a DFU suffix whose fixed bytes, 00 01 55 46 44 10, were altered";
    let shifted = "has a part of a DFU suffix near its end: bytes were cut off there, or added";
    let newline = "begins with a whole DFU file of 116 bytes, behind which 1 byte was added";
    let padding = "begins with a whole DFU file of 116 bytes, behind which 908 bytes were added";
    let whole = suffixed(&some_flash(20, 1)[..100], FOR);
    let mut lost = Vec::new();
    for at in 108..111 {
        let mut file = whole.clone();
        file[at] ^= 0x20;
        lost.push((file.clone(), altered));
        // Also where the image was altered with it.
        file[50] ^= 1;
        lost.push((file, altered));
    }
    let mut file = whole.clone();
    file[108..111].fill(0);
    lost.push((file, altered));
    for cut in [1, 4, 5, 6] {
        lost.push((whole[..116 - cut].to_vec(), shifted));
    }
    lost.push((whole[100..115].to_vec(), shifted));
    lost.push(([&whole[..], b"\n"].concat(), newline));
    lost.push(([&whole[..], &[0xFF; 908]].concat(), padding));
    lost
}

#[test]
fn a_suffix_that_is_no_longer_read_as_one_is_refused_too() {
    let folder = Folder::new("lost");
    for (file, told) in lost() {
        let why = format!("the file {told}; get it anew; {PLAIN}");
        refused(&folder, &file, &why);
    }
}

/// `suffix add` is no way to get such an end programmed.
#[test]
fn a_suffix_behind_a_lost_one_changes_nothing() {
    let folder = Folder::new("behind");
    let numbers = ["--device", "0x100", "--product", "1", "--vendor", "0x1209"];
    for (file, told) in lost() {
        folder.put("i", &file);
        folder.done(&[&["suffix", "add", "i", "-o", "o"], &numbers[..]].concat());
        let whole = folder.get("o");
        assert_eq!(whole, suffixed(&file, FOR));
        std::fs::remove_file(folder.path().join("o")).unwrap();
        let why = format!("the image inside {told}; get the file anew; {OUTER_TOO}");
        refused(&folder, &whole, &why);
    }
}

/// What a header stands before is judged as a file is.
#[test]
fn a_suffix_behind_a_header_is_refused() {
    let folder = Folder::new("under");
    let dfu = suffixed(&some_flash(20, 1)[..100], FOR);
    let why = format!(
        "the image inside ends in a DFU suffix too, which would be taken for firmware; \
         and that one is not right: {SUM}"
    );
    refused(&folder, &suffixed(&headed(3, &dfu), FOR), &why);
    let file = headed(3, &[&dfu[..], &[0xFF; 100]].concat());
    let why = "the image inside begins with a whole DFU file of 116 bytes, behind which \
               100 bytes were added; get the file anew";
    refused(&folder, &file, &format!("{why}; {PLAIN}"));
    let whole = suffixed(&file, FOR);
    refused(&folder, &whole, &format!("{why}; {OUTER_TOO}"));
}

const PLAINLY: [&str; 2] = [
    "taken as it stands (--plain), whatever is around it",
    "nothing vouches for these bytes",
];

/// The way out that messages name: all of the file lands, whatever it is.
#[test]
fn with_plain_a_file_is_taken_as_it_stands() {
    let folder = Folder::new("stands");
    let image = &some_flash(21, 1)[..100];
    let dfu = suffixed(image, FOR);
    let mut files: Vec<Vec<u8>> = lost().into_iter().map(|(file, _)| file).collect();
    files.extend([
        image.to_vec(),
        dfu.clone(),
        suffixed(&dfu, FOR),
        headed(3, image),
        headed(4, image),
        headed(3, &headed(3, image)),
        suffixed(&headed(3, &dfu), FOR),
        [&dfu[..115], &[0]].concat(),
        headed(3, image)[..50].to_vec(),
    ]);
    let flash = site(&folder);
    for file in files {
        folder.put("i", &file);
        let said = folder.run(&[&VISIT[..], &["--plain"]].concat());
        landed(&folder, &flash, &said, &file, &PLAINLY);
        let length = grouped(file.len());
        let words = ["sums", "--plain", "--split", "3:8"];
        let said = folder.done(&[&words[..], &["--image", "i"]].concat());
        let head = format!(
            "i: an image of {length} bytes, as it would stand in a flash of 8 blocks\n     {}\n\
             the application from block 3 to 7\n",
            PLAINLY[0]
        );
        assert!(said.starts_with(&head), "{said}");
        // What stands in the flash after the visit is what the sums foretold.
        let more = ["--compare", "after", "--image", "i"];
        let said = folder.done(&[&words[..], &more].concat());
        assert!(said.contains("\n0 blocks differ, 5 do not\n"), "{said}");
    }
}

#[test]
fn plain_is_measured_too_and_only_for_images() {
    let folder = Folder::new("plainly");
    site(&folder);
    folder.put("i", vec![7; 5_121]);
    let why = "i: the image has 5,121 bytes, and the application holds 5,120 bytes";
    let words = [&VISIT[..], &["--plain"]].concat();
    folder.refused(&words, 1, &format!("mullirim visit: {why}"));
    let words = ["sums", "--plain", "--split", "3:8", "--image", "i"];
    folder.refused(&words, 1, &format!("mullirim sums: {why}"));
    let why = "--plain is for an image that is named by --image (--help shows how)";
    for words in [
        &["visit", "--plain"][..],
        &["visit", "--plain", "--flash", "flash", "--split", "3"],
        &["sums", "--plain", "flash", "--split", "3:8"],
        &["sums", "--plain", "--compare", "flash", "i"],
    ] {
        folder.refused(words, 2, &format!("mullirim {}: {why}", words[0]));
    }
    assert_eq!(folder.names(), ["flash", "i"]);
}

/// An application may begin like the very header that would load it.
#[test]
fn what_is_saved_is_put_back_exactly_with_plain() {
    let folder = Folder::new("back");
    let application = headed(3, &some_flash(21, 5)[..5_112]);
    let flash = [&some_flash(22, 3)[..], &application].concat();
    folder.put("flash", &flash);
    let words = |image, save, after| {
        let files = [
            "visit", "--flash", "flash", "--split", "3", "--image", image,
        ];
        [&files[..], &["--save", save, "--after", after]].concat()
    };
    folder.put("new", [7; 40]);
    folder.done(&words("new", "save", "changed"));
    assert_eq!(folder.get("save"), application);
    std::fs::rename(folder.path().join("changed"), folder.path().join("flash")).unwrap();
    let said = folder.done(&[&words("save", "s", "back")[..], &["--plain"]].concat());
    assert!(said.contains(PLAINLY[0]), "{said}");
    assert_eq!(folder.get("back"), flash);
    // Without it, the beginning comes off, and the visit says so.
    let said = folder.done(&words("save", "s", "short"));
    assert!(said.contains(HEADER), "{said}");
    assert_eq!(folder.get("short")[3_072..][..5_112], application[8..]);
}

/// What is known of the file stands there also where the visit ends early.
#[test]
fn what_was_found_is_told_before_anything_is_read() {
    let folder = Folder::new("early");
    site(&folder);
    folder.put("i", suffixed(&headed(3, &[7; 40]), FOR));
    let words = ["visit", "--flash", "flash", "--image", "i", "--split", "3"];
    let said = folder.run(&[&words[..], &["--save", "none/save"]].concat());
    assert_eq!(said.code, Some(1));
    let lines = ["image i, 40 bytes", SUFFIX, FOR_WHOM, HEADER];
    let lines: String = lines.map(|line| format!("             {line}\n")).concat();
    let order = format!("{lines}2 Read back  ");
    assert!(said.out.contains(&order), "{}", said.out);
    assert!(!said.out.contains("3 Erase"));
}

#[test]
fn two_suffixes_are_refused() {
    let folder = Folder::new("two");
    let why = "the file ends in two DFU suffixes, of which the first would be taken for \
               firmware; take one off first (dfu-suffix -D FILE)";
    let image = &some_flash(22, 1)[..100];
    let twice = |file: &[u8]| suffixed(&suffixed(file, FOR), [7, 8, 9]);
    refused(&folder, &twice(image), why);
    refused(&folder, &twice(&headed(3, image)), why);
    refused(&folder, &twice(&[]), why);
}

/// Each byte of a small file in turn: no damage lands without a word.
#[test]
fn no_damaged_byte_of_a_dfu_file_is_programmed() {
    let folder = Folder::new("each");
    let image = &some_flash(23, 1)[..40];
    for whole in [suffixed(image, FOR), suffixed(&headed(3, image), FOR)] {
        for at in 0..whole.len() {
            for damage in [0x01, 0x80, 0xFF] {
                let mut file = whole.clone();
                file[at] ^= damage;
                site(&folder);
                let said = visit(&folder, &file);
                assert_eq!((said.code, &*said.out), (Some(1), ""), "{at}: {}", said.err);
                assert!(said.err.contains("; get it anew"), "{at}: {}", said.err);
                assert_eq!(folder.names(), ["flash", "i"]);
            }
        }
        visited(
            &folder,
            &whole,
            image,
            &[SUFFIX, FOR_WHOM, HEADER][..2 + usize::from(whole.len() > 56)],
        );
        std::fs::remove_file(folder.path().join("save")).unwrap();
        std::fs::remove_file(folder.path().join("after")).unwrap();
    }
}

/// All else that one slip, a cut or padding does to the end of a file.
#[test]
fn no_slip_at_the_end_of_a_dfu_file_is_programmed() {
    let folder = Folder::new("slip");
    let whole = suffixed(&some_flash(23, 1)[..40], FOR);
    let mut slips: Vec<Vec<u8>> = (1..=6).map(|cut| whole[..56 - cut].to_vec()).collect();
    for at in 40..56 {
        let (before, behind) = whole.split_at(at);
        slips.push([before, &behind[1..]].concat());
        slips.push([before, b"\r", behind].concat());
        if let [one, other, rest @ ..] = behind {
            slips.push([before, &[*other, *one], rest].concat());
        }
    }
    for byte in [0x00, 0xFF, 0x1A, 0x0A] {
        let behind = [1, 22, 23, 128, 1_024].map(|behind| vec![byte; behind]);
        slips.extend(behind.map(|behind| [&whole[..], &behind].concat()));
    }
    slips.retain(|slip| *slip != whole);
    site(&folder);
    for slip in &slips {
        let said = visit(&folder, slip);
        assert_eq!((said.code, &*said.out), (Some(1), ""), "{slip:?}");
        assert!(said.err.contains("; get it anew"), "{}", said.err);
        assert_eq!(folder.names(), ["flash", "i"]);
    }
    // Two neighbours are the same, of device and product.
    assert_eq!(slips.len(), 6 + 16 + 16 + 14 + 20);
}

/// A file without a suffix has nothing to be held to: what lands is what it
/// holds, and the visit says that nothing vouches for it.
#[test]
fn what_cannot_be_told_from_plain_bytes_is_programmed_with_a_word() {
    let folder = Folder::new("word");
    let file = headed(3, &some_flash(24, 1)[..40]);
    let (mut other_place, mut plain, mut misfit, mut still) = (0, 0, 0, 0);
    for at in 0..file.len() {
        let mut file = file.clone();
        file[at] ^= 0x80;
        match at {
            2 | 3 => {
                site(&folder);
                let said = visit(&folder, &file);
                assert_eq!((said.code, &*said.out), (Some(1), ""));
                assert!(said.err.contains("made for another place"), "{}", said.err);
                other_place += 1;
            }
            0 => {
                visited(&folder, &file, &file, &[UNVOUCHED]);
                plain += 1;
            }
            4..8 => {
                let told = ["168", "32,808", "8,388,648", "2,147,483,688"][at - 4];
                let lengths = format!("it tells of {told} bytes, but has 40 behind it");
                visited(&folder, &file, &file, &[BEGINS, &lengths, UNVOUCHED]);
                misfit += 1;
            }
            _ => {
                visited(&folder, &file, &file[8..], &[HEADER, UNVOUCHED]);
                still += 1;
            }
        }
    }
    assert_eq!((other_place, plain, misfit, still), (2, 1, 4, 41));
}

#[test]
fn an_image_is_measured_without_its_wrapping() {
    let folder = Folder::new("measured");
    let empty = "the image is empty; a download has at least 1 byte";
    refused(&folder, &suffixed(&[], FOR), empty);
    refused(&folder, &headed(3, &[]), empty);
    refused(&folder, &suffixed(&headed(3, &[]), FOR), empty);
    let image = some_flash(25, 6);
    let long = "the image has 5,121 bytes, and the application holds 5,120 bytes";
    refused(&folder, &suffixed(&image[..5_121], FOR), long);
    refused(&folder, &headed(3, &image[..5_121]), long);
    let both = suffixed(&headed(3, &image[..5_121]), FOR);
    refused(&folder, &both, long);
    let most = most_bytes();
    let long = format!("the image has more than {most}, and the application holds 5,120 bytes");
    let image = some_flash(26, MOST_BLOCKS as u32 + 1);
    let by_one = &image[..MOST_BLOCKS * 1_024 + 1];
    refused(&folder, &suffixed(&headed(3, by_one), FOR), &long);
    refused(&folder, &suffixed(&headed(3, &image), FOR), &long);
    refused(&folder, &image, &long);
}

/// What a board answers to an upload can be sent back, and what is saved too.
#[test]
fn an_upload_is_taken_and_so_is_what_a_visit_saves() {
    let folder = Folder::new("upload");
    folder.done(&["visit", "--save", "s"]);
    let saved = folder.get("s");
    assert_eq!(saved.len(), 49_152);
    folder.put("u", headed(16, &saved));
    let said = folder.done(&["visit", "--image", "u", "--after", "a"]);
    let told = "image u, 49,152 bytes\n             PROG header taken off: it is for block 16\n";
    assert!(said.contains(told), "{said}");
    assert_eq!(folder.get("a")[16_384..], saved);
    let said = folder.done(&["visit", "--image", "s", "--after", "b"]);
    let told = format!("image s, 49,152 bytes\n             {UNVOUCHED}\n");
    assert!(said.contains(&told), "{said}");
    assert_eq!(folder.get("a"), folder.get("b"));
}

#[test]
fn a_visit_of_its_own_image_says_nothing_of_files() {
    let folder = Folder::new("own");
    site(&folder);
    for words in [
        &["visit"][..],
        &["visit", "--flash", "flash", "--split", "3"],
    ] {
        let said = folder.done(words);
        for word in ["suffix", "header", "vouches"] {
            assert!(!said.contains(word), "{said}");
        }
    }
}

/// The sums of a file are those of its image by itself, and the text says what
/// was taken off.
#[test]
fn sums_are_those_of_the_image() {
    let folder = Folder::new("same");
    let image = &some_flash(27, 5)[..3_000];
    folder.put("plain", image);
    let words = |file| ["sums", "--split", "3:8", "--image", file];
    let plain = folder.done(&words("plain"));
    let head = "an image of 3,000 bytes, as it would stand in a flash of 8 blocks\n";
    let (start, table) = plain.split_once(head).unwrap();
    assert_eq!(start, "plain: ");
    assert!(table.starts_with("the application from block 3 to 7\n"));
    let wrapped = headed(3, image);
    for (file, told) in [
        (suffixed(image, FOR), &[SUFFIX, FOR_WHOM][..]),
        (wrapped.clone(), &[HEADER]),
        (suffixed(&wrapped, FOR), &[SUFFIX, FOR_WHOM, HEADER]),
    ] {
        folder.put("i", file);
        let told: String = told.iter().map(|line| format!("     {line}\n")).collect();
        let awaited = format!("i: {head}{told}{table}");
        assert_eq!(folder.done(&words("i")), awaited);
        let compared = ["sums", "--compare", "--image", "plain", "--image", "i"];
        let said = folder.done(&[&compared[..], &["--split", "3:8"]].concat());
        let new = format!("new: i, {head}{told}the application from block 3 to 7\n");
        assert!(said.contains(&new), "{said}");
        assert!(said.contains("\n0 blocks differ, 5 do not\n"), "{said}");
    }
}

/// What only begins like a header is summed with the image, and told.
#[test]
fn sums_tell_of_a_header_that_does_not_fit() {
    let folder = Folder::new("misfit");
    site(&folder);
    let file = &headed(3, &some_flash(27, 5)[..3_000])[..2_808];
    let lengths = "it tells of 3,000 bytes, but has 2,800 behind it";
    let head = "an image of 2,808 bytes, as it would stand in a flash of 8 blocks\n";
    for (file, told) in [
        (file.to_vec(), &[BEGINS, lengths][..]),
        (suffixed(file, FOR), &[SUFFIX, FOR_WHOM, BEGINS, lengths]),
    ] {
        folder.put("i", file);
        let told: String = told.iter().map(|line| format!("     {line}\n")).collect();
        let said = folder.done(&["sums", "--split", "3:8", "--image", "i"]);
        let awaited = format!("i: {head}{told}the application from block 3 to 7\n");
        assert!(said.starts_with(&awaited), "{said}");
        let words = ["sums", "--compare", "flash", "--image", "i"];
        let said = folder.done(&[&words[..], &["--split", "3:8"]].concat());
        let new = format!("new: i, {head}{told}the application from block 3 to 7\n");
        assert!(said.contains(&new), "{said}");
    }
}

#[test]
fn json_tells_what_was_taken_off_at_its_end() {
    let folder = Folder::new("fields");
    let image = &some_flash(28, 5)[..3_000];
    let number = |name: &str, number| (name.to_string(), Json::Number(number));
    let parts = || {
        Json::Object(vec![
            number("device", 256),
            number("product", 1),
            number("vendor", 4_617),
        ])
    };
    let wrapped = headed(3, image);
    let cases = [
        (image.to_vec(), Json::Null, Json::Null),
        (suffixed(image, FOR), parts(), Json::Null),
        (wrapped.clone(), Json::Null, Json::Number(3)),
        (suffixed(&wrapped, FOR), parts(), Json::Number(3)),
    ];
    folder.put("flash", some_flash(29, 8));
    for (file, suffix, header) in cases {
        folder.put("i", file);
        let words = ["sums", "--image", "i", "--split", "3:8", "--json"];
        let value = json::read(&folder.done(&words));
        let names = ["file", "kind", "bytes", "first", "blocks", "sums", "whole"];
        assert_eq!(value.names()[..7], names);
        assert_eq!(value.names()[7..], ["suffix", "header_block"]);
        assert_eq!(*value.at("bytes"), Json::Number(3_000));
        assert_eq!(*value.at("suffix"), suffix);
        assert_eq!(*value.at("header_block"), header);
        let words = [&["sums", "--compare", "flash"], &words[1..]].concat();
        let value = json::read(&folder.done(&words));
        let names = ["file", "kind", "bytes"];
        assert_eq!(value.at("old").names(), names);
        assert_eq!(value.at("new").names()[..3], names);
        assert_eq!(*value.at("new").at("suffix"), suffix);
        assert_eq!(*value.at("new").at("header_block"), header);
    }
}

/// The images `abc` and, at the bundle's end, a DFU file.
fn bundle() -> Vec<u8> {
    let last = suffixed(b"firmware", FOR);
    let head = [2, 0, 18, 0, 0, 0, 3, 0, 0, 0, 21, 0, 0, 0, 24, 0, 0, 0];
    [&head[..], b"abc", &last].concat()
}

#[test]
fn a_bundle_is_not_programmed_for_an_image() {
    let folder = Folder::new("bundle");
    let unpack = "unpack it first (mullirim bundle unpack FILE -o DIR)";
    let why = format!("the file is a bundle of 2 images; {unpack}");
    refused(&folder, &bundle(), &format!("{why}; {PLAIN}"));
    let inside = format!("the image inside is a bundle of 1 image; {unpack}");
    let one = [&[1, 0, 10, 0, 0, 0, 3, 0, 0, 0][..], b"abc"].concat();
    let around = suffixed(&one, FOR);
    refused(&folder, &around, &format!("{inside}; {OUTER_TOO}"));
    refused(&folder, &headed(3, &one), &format!("{inside}; {PLAIN}"));
    // In place of a flash it is told too.
    folder.put("f", bundle());
    for (words, who) in [
        (&["sums", "f"][..], "mullirim sums"),
        (&["visit", "--flash", "f"], "mullirim visit"),
    ] {
        folder.refused(words, 1, &format!("{who}: f: {why}"));
    }
    // A byte more, and nobody can tell what it is.
    let longer = [&one[..], &[0]].concat();
    visited(&folder, &longer, &longer, &[UNVOUCHED]);
}

#[test]
fn with_plain_a_bundle_is_taken_as_it_stands() {
    let folder = Folder::new("plain-bundle");
    let flash = site(&folder);
    folder.put("i", bundle());
    let said = folder.run(&[&VISIT[..], &["--plain"]].concat());
    let told = [
        "taken as it stands (--plain), whatever is around it",
        "nothing vouches for these bytes",
    ];
    landed(&folder, &flash, &said, &bundle(), &told);
}
