//! `mullirim bundle`: what it says of a site bundle, what it writes, and all
//! that it refuses.

mod list;
mod pack;
mod unpack;

use crate::folder::Folder;
use mullirim_host::dice::Dice;
use std::fs;

const HOW: &str = "(--help shows how)";

/// The paper's image and its bundle.
const NINE: &[u8] = b"123456789";
const PAPERS: [u8; 19] = [
    1, 0, 10, 0, 0, 0, 9, 0, 0, 0, 0x31, 0x32, 0x33, 0x34, 0x35, 0x36, 0x37, 0x38, 0x39,
];

/// The images `abc` and `de`.
const PAIR: [u8; 23] = [
    2, 0, 18, 0, 0, 0, 3, 0, 0, 0, 21, 0, 0, 0, 2, 0, 0, 0, 0x61, 0x62, 0x63, 0x64, 0x65,
];

/// The pair with other bytes from this place on.
fn pair_with(place: usize, bytes: &[u8]) -> Vec<u8> {
    let mut file = PAIR.to_vec();
    file[place..][..bytes.len()].copy_from_slice(bytes);
    file
}

/// As the paper has it: the count, where each image begins and how long it is,
/// and the images end to end.
fn bundled(images: &[Vec<u8>]) -> Vec<u8> {
    let mut file = (images.len() as u16).to_le_bytes().to_vec();
    let mut place = 2 + 8 * images.len() as u32;
    for image in images {
        let length = image.len() as u32;
        file.extend(place.to_le_bytes());
        file.extend(length.to_le_bytes());
        place += length;
    }
    file.extend(images.concat());
    file
}

#[test]
fn bundles_are_those_by_hand() {
    assert_eq!(bundled(&[NINE.to_vec()]), PAPERS);
    assert_eq!(bundled(&[b"abc".to_vec(), b"de".to_vec()]), PAIR);
}

/// So many images of 1 to 300 bytes, from a seed.
fn some_images(seed: u64, count: u32) -> Vec<Vec<u8>> {
    let mut dice = Dice::new(seed);
    let image = |_| {
        let length = 1 + dice.below(300);
        dice.bytes(length)
    };
    (0..count).map(image).collect()
}

fn image_name(number: usize) -> String {
    format!("image-{number:02}.bin")
}

/// The names below the folder, as far as there is one.
fn names_in(folder: &Folder, below: &str) -> Option<Vec<String>> {
    let found = fs::read_dir(folder.path().join(below)).ok()?;
    let mut names: Vec<String> = found
        .map(|entry| entry.unwrap().file_name().into_string().unwrap())
        .collect();
    names.sort();
    Some(names)
}

/// Words that end with 2, and write nothing.
fn wrong_use(folder: &Folder, words: &[&str], message: &str) {
    let before = folder.names();
    let words = [&["bundle"], words].concat();
    folder.refused(&words, 2, &format!("mullirim bundle: {message} {HOW}"));
    assert_eq!(folder.names(), before);
}

#[test]
fn wrong_use_ends_with_2() {
    let folder = Folder::new("bundle-use");
    folder.put("f", PAPERS);
    let refused = |words: &[&str], message: &str| wrong_use(&folder, words, message);
    refused(&[], "say what to do: list, pack or unpack");
    let escaped = "a bundle can be listed, packed or unpacked, not '\\u{1b}[2J'";
    refused(&["\x1b[2J"], escaped);
    refused(&["list"], "list needs the name of a file");
    refused(&["list", ""], "the name of a file is empty");
    refused(&["list", "f", "f"], "list takes one file, and 2 are given");
    refused(&["list", "f", "-j"], "list has no flag that is called -j");
    let twice = ["list", "f", "--json", "--json"];
    refused(&twice, "--json is given twice");
    let none = "pack needs the name of the file to write, then the images";
    refused(&["pack"], none);
    let none = "pack has no flag that is called -o";
    refused(&["pack", "f", "-o", "out"], none);
    refused(&["unpack", "f"], "unpack needs -o DIR as well");
    let needs = "-o needs the name of a folder";
    refused(&["unpack", "f", "-o"], needs);
    refused(&["unpack", "f", "-o", "--overwrite"], needs);
    let none = "unpack has no flag that is called --json";
    refused(&["unpack", "f", "-o", "d", "--json"], none);
}

/// There and back, for each count of images.
#[test]
fn what_is_packed_is_unpacked_and_packed_again_the_same() {
    let folder = Folder::new("round");
    for count in 1..=32 {
        let images = some_images(u64::from(count), count);
        let names: Vec<String> = (0..images.len()).map(|k| format!("i{k}")).collect();
        let names: Vec<&str> = names.iter().map(String::as_str).collect();
        for (name, image) in names.iter().zip(&images) {
            folder.put(name, image);
        }
        let words = ["bundle", "pack", "--overwrite", "f"];
        folder.done(&[&words, &names[..]].concat());
        assert_eq!(folder.get("f"), bundled(&images));
        folder.done(&["bundle", "unpack", "f", "-o", "d", "--overwrite"]);
        let paths = (0..images.len()).map(|k| format!("d/{}", image_name(k)));
        let paths: Vec<String> = paths.collect();
        let unpacked: Vec<Vec<u8>> = paths.iter().map(|path| folder.get(path)).collect();
        assert_eq!(unpacked, images);
        let paths: Vec<&str> = paths.iter().map(String::as_str).collect();
        let words = ["bundle", "pack", "--overwrite", "g"];
        folder.done(&[&words, &paths[..]].concat());
        assert_eq!(folder.get("g"), folder.get("f"));
    }
}
