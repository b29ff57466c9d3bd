//! What `mullirim sums` prints, against sums worked out bit by bit.

use crate::folder::{some_flash, Folder};
use crate::json::{self, Json};
use mullirim_host::second::{answer, start, sum, MOST_BLOCKS};

const SPLITS: [(usize, usize); 10] = [
    (1, 2),
    (2, 4),
    (1, 17),
    (16, 64),
    (63, 64),
    (1, 64),
    (64, 65),
    (1, MOST_BLOCKS),
    (16, MOST_BLOCKS),
    (MOST_BLOCKS - 1, MOST_BLOCKS),
];

fn split(first: usize, blocks: usize) -> String {
    format!("{first}:{blocks}")
}

/// The table of a flash, from the bits.
fn table(flash: &[u8], first: usize) -> String {
    let mut lines = String::from("block   sum\n");
    for (block, bytes) in flash.chunks(1_024).enumerate().skip(first) {
        lines += &format!("{block:>5}   {:08X}\n", sum(bytes));
    }
    lines + &format!("whole   {:08X}\n", sum(&flash[first * 1_024..]))
}

/// An application as it is after an erase and a download.
fn loaded(image: &[u8], first: usize, blocks: usize) -> Vec<u8> {
    let mut flash = vec![0; first * 1_024];
    flash.extend(image);
    flash.resize(blocks * 1_024, 0xFF);
    flash
}

#[test]
fn a_flash_has_the_sums_that_its_bits_have() {
    let folder = Folder::new("flash");
    for (first, blocks) in SPLITS {
        let flash = some_flash(first as u64, blocks as u32);
        folder.put("f", &flash);
        let head = format!(
            "f: a flash of {blocks} blocks\nthe application from block {first} to {}\n\n",
            blocks - 1
        );
        let said = folder.done(&["sums", "f", "--split", &split(first, blocks)]);
        assert_eq!(said, head + &table(&flash, first));
    }
    assert_eq!(folder.names(), ["f"]);
}

/// Of the most blocks there are, three differ, and all blocks before them.
#[test]
fn the_most_blocks_are_compared() {
    let folder = Folder::new("most");
    let (first, most) = (16, MOST_BLOCKS);
    let old = some_flash(7, most as u32);
    let mut new = old.clone();
    new[..first * 1_024].fill(0);
    let changed = [first, most / 2, most - 1];
    for number in changed {
        new[number * 1_024 + 500] ^= 1;
    }
    folder.put("old", &old);
    folder.put("new", &new);
    let [before, after] = [&old, &new].map(|flash| start(flash, 16, most as u32, 0, 0).1);
    let mut table = format!("3 blocks differ, {} do not\n\n", most - first - 3);
    table += "block   old sum    new sum\n";
    for number in changed {
        let (old, new) = (before.sums[number], after.sums[number]);
        table += &format!("{number:>5}   {old:08X}   {new:08X}\n");
    }
    table += &format!("whole   {:08X}   {:08X}\n", before.whole, after.whole);
    let remark = "\nother bytes before the application, of which no sum is kept: blocks 0 to 15\n";
    let split = split(first, most);
    let said = folder.done(&["sums", "--compare", "old", "new", "--split", &split]);
    assert!(said.ends_with(&(table + remark)), "{said}");
}

#[test]
fn without_a_split_it_is_16_of_64() {
    let folder = Folder::new("usual");
    folder.put("f", some_flash(1, 64));
    let said = folder.done(&["sums", "f"]);
    assert_eq!(said, folder.done(&["sums", "--split", "16:64", "f"]));
    folder.put("i", [7; 5]);
    let said = folder.done(&["sums", "--image", "i"]);
    let named = ["sums", "--image", "i", "--split", "16:64"];
    assert_eq!(said, folder.done(&named));
}

#[test]
fn an_image_has_the_sums_that_it_will_have_in_flash() {
    let folder = Folder::new("image");
    for (first, blocks) in SPLITS {
        let room = (blocks - first) * 1_024;
        for length in [1, 1_023, 1_024, 1_025, room - 1, room] {
            if length > room {
                continue;
            }
            let image = some_flash(length as u64, blocks as u32)[..length].to_vec();
            folder.put("i", &image);
            let split = split(first, blocks);
            let said = folder.done(&["sums", "--image", "i", "--split", &split]);
            let awaited = table(&loaded(&image, first, blocks), first);
            assert!(said.ends_with(&format!("\n\n{awaited}")), "{said}");
            assert!(said.contains(&format!(" to {}\n", blocks - 1)));
        }
    }
}

#[test]
fn an_image_is_named_with_its_bytes() {
    let folder = Folder::new("head");
    folder.put("i", [7; 1_500]);
    let said = folder.done(&["sums", "--image", "i", "--split", "2:4"]);
    let head = "i: an image of 1,500 bytes, as it would stand in a flash of 4 blocks\n\
                the application from block 2 to 3\n\nblock   sum\n";
    assert!(said.starts_with(head), "{said}");
}

/// The foretold sums are those that the board keeps once the image is in, by
/// the loader that shares no code with the first.
#[test]
fn what_is_foretold_is_what_a_visit_leaves() {
    let folder = Folder::new("foretold");
    folder.put("f", some_flash(3, 20));
    folder.put("i", &some_flash(4, 20)[..5_000]);
    let words = ["visit", "--flash", "f", "--image", "i", "--split", "12"];
    folder.done(&[&words[..], &["--after", "a"]].concat());
    let left = folder.get("a");
    let (answer, session) = start(&left, 12, 20, 0, 0);
    assert_eq!(answer, answer::TAKEN);
    let words = ["sums", "--image", "i", "--split", "12:20", "--json"];
    let foretold = json::read(&folder.done(&words));
    assert_eq!(*foretold.at("whole"), json::sum(session.whole));
    let Json::List(rows) = foretold.at("sums") else {
        panic!("no list")
    };
    assert_eq!(rows.len(), 8);
    for (block, row) in (12..).zip(rows) {
        assert_eq!(*row.at("block"), Json::Number(block));
        assert_eq!(*row.at("sum"), json::sum(session.sums[block as usize]));
    }
}

#[test]
fn json_says_the_same() {
    let folder = Folder::new("json");
    let flash = some_flash(5, 6);
    folder.put("f", &flash);
    let value = json::read(&folder.done(&["sums", "--json", "f", "--split", "4:6"]));
    let names = ["file", "kind", "bytes", "first", "blocks", "sums", "whole"];
    assert_eq!(value.names(), names);
    assert_eq!(*value.at("file"), json::text("f"));
    assert_eq!(*value.at("kind"), json::text("flash"));
    assert_eq!(*value.at("bytes"), Json::Number(6_144));
    assert_eq!(*value.at("first"), Json::Number(4));
    assert_eq!(*value.at("blocks"), Json::Number(6));
    let row = |block: usize| {
        let sum = json::sum(sum(&flash[block * 1_024..][..1_024]));
        let block = Json::Number(block as u64);
        Json::Object(vec![("block".to_string(), block), ("sum".to_string(), sum)])
    };
    assert_eq!(*value.at("sums"), Json::List(vec![row(4), row(5)]));
    assert_eq!(*value.at("whole"), json::sum(sum(&flash[4_096..])));
}

#[test]
fn json_takes_any_name() {
    let folder = Folder::new("strange");
    for name in ["a\"b\\c", "line\nbreak\x1b", "größe \u{1F50C}"] {
        folder.put(name, [7; 5]);
        let words = ["sums", "--json", "--split", "1:2", "--image", name];
        let value = json::read(&folder.done(&words));
        assert_eq!(*value.at("file"), json::text(name));
        assert_eq!(*value.at("kind"), json::text("image"));
        assert_eq!(*value.at("bytes"), Json::Number(5));
    }
}

/// Two flashes of eight blocks, the application from block 3 on: blocks 4 and 7
/// of it differ.
fn two(folder: &Folder) -> (Vec<u8>, Vec<u8>) {
    let old = some_flash(6, 8);
    let mut new = old.clone();
    new[4 * 1_024] ^= 1;
    new[7 * 1_024 + 1_023] ^= 0x80;
    folder.put("old", &old);
    folder.put("new", &new);
    (old, new)
}

fn row(name: &str, old: &[u8], new: &[u8]) -> String {
    format!("{name:>5}   {:08X}   {:08X}\n", sum(old), sum(new))
}

fn block(flash: &[u8], number: usize) -> &[u8] {
    &flash[number * 1_024..][..1_024]
}

#[test]
fn a_comparison_shows_the_blocks_that_differ() {
    let folder = Folder::new("compare");
    let (old, new) = two(&folder);
    let words = ["sums", "--compare", "old", "new", "--split", "3:8"];
    let awaited = [
        "old: old, a flash of 8 blocks\nnew: new, a flash of 8 blocks\n",
        "the application from block 3 to 7\n2 blocks differ, 3 do not\n\n",
        "block   old sum    new sum\n",
        &row("4", block(&old, 4), block(&new, 4)),
        &row("7", block(&old, 7), block(&new, 7)),
        &row("whole", &old[3_072..], &new[3_072..]),
    ];
    assert_eq!(folder.done(&words), awaited.concat());
    let words = [&words[..], &["--json"]].concat();
    let value = json::read(&folder.done(&words));
    assert_eq!(*value.at("old").at("file"), json::text("old"));
    assert_eq!(*value.at("new").at("file"), json::text("new"));
    let pair = |old: &[u8], new: &[u8]| {
        let (old, new) = (json::sum(sum(old)), json::sum(sum(new)));
        vec![("old".to_string(), old), ("new".to_string(), new)]
    };
    let changed = [4, 7].map(|number| {
        let mut members = vec![("block".to_string(), Json::Number(number as u64))];
        members.extend(pair(block(&old, number), block(&new, number)));
        Json::Object(members)
    });
    assert_eq!(*value.at("changed"), Json::List(changed.into()));
    let whole = pair(&old[3_072..], &new[3_072..]);
    assert_eq!(*value.at("whole"), Json::Object(whole));
    assert_eq!(*value.at("boot_changed"), json::numbers(&[]));
    assert_eq!(*value.at("same_sum_other_bytes"), json::numbers(&[]));
    assert_eq!(*value.at("first"), Json::Number(3));
    assert_eq!(*value.at("blocks"), Json::Number(8));
}

#[test]
fn equal_files_differ_in_nothing() {
    let folder = Folder::new("equal");
    let (old, _) = two(&folder);
    folder.put("same", &old);
    let said = folder.done(&["sums", "--compare", "old", "same", "--split", "7:8"]);
    let awaited = [
        "the application from block 7 to 7\n0 blocks differ, 1 does not\n\n",
        "block   old sum    new sum\n",
        &row("whole", &old[7_168..], &old[7_168..]),
    ];
    assert!(said.ends_with(&awaited.concat()), "{said}");
}

#[test]
fn an_image_is_compared_as_it_would_stand() {
    let folder = Folder::new("mixed");
    let (old, new) = two(&folder);
    folder.put("image", &new[3_072..]);
    let words = ["sums", "--compare", "old", "--image", "image"];
    let said = folder.done(&[&words[..], &["--split", "3:8"]].concat());
    assert!(said.contains("2 blocks differ, 3 do not\n"));
    assert!(said.contains(&row("7", block(&old, 7), block(&new, 7))));
    // The other way round, and with an image that is cut short.
    folder.put("image", &new[3_072..4_096]);
    let words = ["sums", "--compare", "--image", "image", "new"];
    let said = folder.done(&[&words[..], &["--split", "3:8"]].concat());
    let erased = [0xFF; 1_024];
    assert!(said.contains("4 blocks differ, 1 does not\n"), "{said}");
    assert!(said.contains(&row("5", &erased, block(&new, 5))));
    let words = ["sums", "--compare", "--image", "image", "new", "--json"];
    let value = json::read(&folder.done(&[&words[..], &["--split", "3:8"]].concat()));
    assert_eq!(*value.at("boot_changed"), Json::Null);
    assert_eq!(*value.at("old").at("kind"), json::text("image"));
    assert_eq!(*value.at("old").at("bytes"), Json::Number(1_024));
}

#[test]
fn a_boot_area_that_differs_is_told() {
    let folder = Folder::new("boot");
    let (_, mut new) = two(&folder);
    (new[0], new[2_047]) = (!new[0], !new[2_047]);
    folder.put("new", &new);
    let words = ["sums", "--compare", "old", "new", "--split", "3:8"];
    let said = folder.done(&words);
    let remark = "\n\nother bytes before the application, of which no sum is kept: blocks 0, 1\n";
    assert!(said.ends_with(remark), "{said}");
    assert!(said.contains("2 blocks differ, 3 do not\n"));
    let value = json::read(&folder.done(&[&words[..], &["--json"]].concat()));
    assert_eq!(*value.at("boot_changed"), json::numbers(&[0, 1]));
}

/// The polynomial itself, laid over a block anywhere, leaves its sum as it was.
#[test]
fn other_bytes_with_the_same_sum_are_told() {
    let folder = Folder::new("silent");
    let (old, _) = two(&folder);
    let mut new = old.clone();
    let silent = 1 | 0xEDB8_8320_u64 << 1;
    for (byte, bits) in new[5_300..].iter_mut().zip(&silent.to_le_bytes()[..5]) {
        *byte ^= bits;
    }
    assert_ne!(old, new);
    assert_eq!(sum(block(&old, 5)), sum(block(&new, 5)));
    folder.put("new", &new);
    let words = ["sums", "--compare", "old", "new", "--split", "3:8"];
    let said = folder.done(&words);
    assert!(said.contains("\n1 block differs, 4 do not\n"), "{said}");
    assert!(said.contains(&row("5", block(&old, 5), block(&old, 5))));
    let remark = "\n\nother bytes, but the same sum: block 5\n";
    assert!(said.ends_with(remark), "{said}");
    let value = json::read(&folder.done(&[&words[..], &["--json"]].concat()));
    assert_eq!(*value.at("same_sum_other_bytes"), json::numbers(&[5]));
}
