//! Where images are written, and where nothing ever is.

use super::{bundled, image_name, names_in, some_images, wrong_use, NINE, PAIR, PAPERS};
use crate::dfu::suffixed;
use crate::files::on_a_full_disk;
use crate::folder::{some_flash, Folder};
use std::fs;
use std::os::unix::fs::symlink;
use std::process::Command;

/// Nothing is written or lost, and the run says this.
fn refused(folder: &Folder, words: &[&str], message: &str) {
    let before = folder.names();
    let inside = names_in(folder, "d");
    let words = [&["bundle", "unpack"], words].concat();
    folder.refused(&words, 1, &format!("mullirim bundle: {message}"));
    assert_eq!(folder.names(), before);
    assert_eq!(names_in(folder, "d"), inside);
}

/// The pair in `f`, and the folder `d`.
fn site(name: &str) -> Folder {
    let folder = Folder::new(name);
    folder.put("f", PAIR);
    fs::create_dir(folder.path().join("d")).unwrap();
    folder
}

fn unpacked(folder: &Folder) -> [Vec<u8>; 2] {
    ["d/image-00.bin", "d/image-01.bin"].map(|name| folder.get(name))
}

#[test]
fn each_image_has_its_file() {
    let folder = Folder::new("unpacked");
    folder.put("f", PAIR);
    let said = folder.done(&["bundle", "unpack", "f", "-o", "d"]);
    let lines = "d/image-00.bin: 3 bytes\nd/image-01.bin: 2 bytes\n";
    assert_eq!(said, lines);
    assert_eq!(unpacked(&folder), [b"abc".to_vec(), b"de".to_vec()]);
    assert_eq!(names_in(&folder, "d").unwrap().len(), 2);
    assert_eq!(folder.names(), ["d", "f"]);
    assert_eq!(folder.get("f"), PAIR);
}

#[test]
fn the_most_images_have_two_digits_each() {
    let folder = Folder::new("digits");
    let images = some_images(5, 32);
    folder.put("f", bundled(&images));
    folder.done(&["bundle", "unpack", "f", "-o", "d/"]);
    let names: Vec<String> = (0..32).map(image_name).collect();
    assert_eq!(names_in(&folder, "d"), Some(names.clone()));
    assert_eq!([&*names[0], &*names[31]], ["image-00.bin", "image-31.bin"]);
    for (name, image) in names.iter().zip(&images) {
        assert_eq!(&folder.get(&format!("d/{name}")), image);
    }
}

#[test]
fn a_folder_that_is_there_keeps_what_it_holds() {
    let folder = site("keeps");
    folder.put("d/note", "mine");
    folder.done(&["bundle", "unpack", "f", "-o", "d"]);
    assert_eq!(folder.get("d/note"), b"mine");
    let names = ["image-00.bin", "image-01.bin", "note"];
    assert_eq!(names_in(&folder, "d").unwrap(), names);
    fs::create_dir(folder.path().join("d/below")).unwrap();
    let mut here = folder.command(crate::folder::TOOL);
    let here = here.current_dir(folder.path().join("d/below"));
    let said = here.args(["bundle", "unpack", "../../f", "-o", "."]);
    let said = crate::folder::Said::new(said.output().unwrap());
    let lines = "./image-00.bin: 3 bytes\n./image-01.bin: 2 bytes\n";
    assert_eq!((said.code, &*said.out, &*said.err), (Some(0), lines, ""));
    assert_eq!(folder.get("d/below/image-00.bin"), b"abc");
}

const STANDS: &str = "a file stands there already (--overwrite writes over it)";

/// All of the names are looked at before anything is written.
#[test]
fn a_file_that_stands_there_is_left_unless_told() {
    for taken in ["image-00.bin", "image-01.bin"] {
        let folder = site(&format!("left-{taken}"));
        let path = format!("d/{taken}");
        folder.put(&path, "mine");
        let why = format!("can't write {path}: {STANDS}");
        refused(&folder, &["f", "-o", "d"], &why);
        assert_eq!(folder.get(&path), b"mine");
        let said = folder.done(&["bundle", "unpack", "f", "--overwrite", "-o", "d"]);
        assert_eq!(said.lines().count(), 2, "{said}");
        assert_eq!(unpacked(&folder), [b"abc".to_vec(), b"de".to_vec()]);
        assert_eq!(names_in(&folder, "d").unwrap().len(), 2);
    }
}

/// Of an earlier bundle with more images, perhaps.
#[test]
fn what_may_be_taken_for_more_images_is_told() {
    let folder = site("more");
    for name in ["image-02.bin", "image-31.bin", "image-32.bin", "note"] {
        folder.put(format!("d/{name}"), "old");
    }
    let said = folder.done(&["bundle", "unpack", "f", "-o", "d"]);
    let lines = "d/image-00.bin: 3 bytes\nd/image-01.bin: 2 bytes\n\
                 there before, and not of this bundle: d/image-02.bin, d/image-31.bin\n";
    assert_eq!(said, lines);
    assert_eq!(folder.get("d/image-02.bin"), b"old");
}

#[test]
fn no_link_leads_out_of_the_folder() {
    let folder = site("out");
    folder.put("far", "mine");
    fs::create_dir(folder.path().join("else")).unwrap();
    let absolute = folder.path().join("far");
    let absolute = absolute.to_str().unwrap();
    for target in ["../far", absolute, "../none", "../else", "image-07.bin"] {
        for name in ["d/image-00.bin", "d/image-01.bin"] {
            let link = folder.path().join(name);
            symlink(target, &link).unwrap();
            let why = format!("can't write {name}: a link stands there already");
            refused(&folder, &["f", "-o", "d"], &why);
            refused(&folder, &["f", "-o", "d", "--overwrite"], &why);
            assert!(link.is_symlink());
            fs::remove_file(link).unwrap();
        }
    }
    assert_eq!(folder.get("far"), b"mine");
    assert_eq!(names_in(&folder, "else").unwrap(), [""; 0]);
    assert_eq!(folder.names(), ["d", "else", "f", "far"]);
}

/// The name in the folder is given to another file; the file that had it keeps
/// its other name, and its bytes.
#[test]
fn a_second_name_elsewhere_keeps_its_file() {
    let folder = site("second-name");
    folder.put("far", "mine");
    let name = folder.path().join("d/image-00.bin");
    fs::hard_link(folder.path().join("far"), name).unwrap();
    folder.done(&["bundle", "unpack", "f", "-o", "d", "--overwrite"]);
    assert_eq!(folder.get("far"), b"mine");
    assert_eq!(unpacked(&folder), [b"abc".to_vec(), b"de".to_vec()]);
}

#[test]
fn what_is_no_file_is_left_also_where_told() {
    let folder = site("no-file");
    let name = "d/image-01.bin";
    let path = folder.path().join(name);
    let why = format!("can't write {name}: what stands there is no file");
    let both = || {
        refused(&folder, &["f", "-o", "d"], &why);
        refused(&folder, &["f", "-o", "d", "--overwrite"], &why);
    };
    fs::create_dir(&path).unwrap();
    both();
    fs::remove_dir(&path).unwrap();
    let made = Command::new("mkfifo").arg(&path).status().unwrap();
    assert!(made.success());
    both();
}

/// Who names a link to a folder means the folder.
#[test]
fn a_link_to_a_folder_is_that_folder() {
    let folder = site("link-folder");
    symlink("d", folder.path().join("link")).unwrap();
    let said = folder.done(&["bundle", "unpack", "f", "-o", "link"]);
    let lines = "link/image-00.bin: 3 bytes\nlink/image-01.bin: 2 bytes\n";
    assert_eq!(said, lines);
    assert!(folder.path().join("link").is_symlink());
    assert_eq!(unpacked(&folder), [b"abc".to_vec(), b"de".to_vec()]);
    symlink("none", folder.path().join("loose")).unwrap();
    let words = ["unpack", "f", "-o", "loose"];
    wrong_use(&folder, &words, "-o names a link that leads nowhere");
    assert!(folder.path().join("loose").is_symlink());
}

#[test]
fn what_cannot_be_a_folder_is_named() {
    let folder = site("no-folder");
    folder.put("plain", "mine");
    for flags in [&[][..], &["--overwrite"]] {
        let words = |place| [&["f", "-o", place], flags].concat();
        refused(&folder, &words("plain"), "plain is no folder");
        refused(&folder, &words("f"), "f is no folder");
        refused(&folder, &words("/dev/null"), "/dev/null is no folder");
        let none = "No such file or directory (os error 2)";
        let why = format!("can't make the folder none/d: {none}");
        refused(&folder, &words("none/d"), &why);
        let why = "can't make the folder plain/d: Not a directory (os error 20)";
        refused(&folder, &words("plain/d"), why);
        let why = format!("can't write /proc/self/image-00.bin: {none}");
        refused(&folder, &words("/proc/self"), &why);
    }
    assert_eq!(folder.get("plain"), b"mine");
}

#[test]
fn a_refused_bundle_makes_no_folder() {
    let folder = Folder::new("no-bundle");
    folder.put("f", &PAIR[..22]);
    let why = "f: no bundle (refusal 6): an image ends behind the end of the file \
               (image 1 at byte 23, of 22); it was cut, or is of another kind; get it anew";
    refused(&folder, &["f", "-o", "d"], why);
    refused(&folder, &["f", "-o", "d", "--overwrite"], why);
    assert_eq!(folder.names(), ["f"]);
    // Nor is one that is there touched.
    fs::create_dir(folder.path().join("d")).unwrap();
    folder.put("d/image-00.bin", "mine");
    refused(&folder, &["f", "-o", "d", "--overwrite"], why);
    assert_eq!(folder.get("d/image-00.bin"), b"mine");
}

#[test]
fn the_bundle_itself_is_never_written_over() {
    let folder = site("itself");
    folder.put("d/image-01.bin", PAIR);
    let why = "d/image-01.bin is the file that is read, and stays";
    let path = folder.path().join("hard");
    fs::hard_link(folder.path().join("d/image-01.bin"), path).unwrap();
    symlink("d/image-01.bin", folder.path().join("soft")).unwrap();
    for file in ["d/image-01.bin", "hard", "soft"] {
        refused(&folder, &[file, "-o", "d"], why);
        refused(&folder, &[file, "-o", "d", "--overwrite"], why);
    }
    assert_eq!(folder.get("d/image-01.bin"), PAIR);
    // Beside the images it may stand under such a name.
    fs::rename(
        folder.path().join("d/image-01.bin"),
        folder.path().join("d/image-02.bin"),
    )
    .unwrap();
    folder.done(&["bundle", "unpack", "d/image-02.bin", "-o", "d"]);
    assert_eq!(unpacked(&folder), [b"abc".to_vec(), b"de".to_vec()]);
    assert_eq!(folder.get("d/image-02.bin"), PAIR);
}

/// The first image would have room, and still nothing is left of it.
#[test]
fn a_full_disk_leaves_no_part_of_a_bundle() {
    let folder = Folder::new("full-folder");
    folder.put("f", bundled(&[b"abc".to_vec(), vec![7; 5_000]]));
    let words = ["bundle", "unpack", "f", "-o", "d"];
    let why = "mullirim bundle: can't write d/image-01.bin: File too large (os error 27)\n";
    let said = on_a_full_disk(&folder, &words);
    assert_eq!((said.code, &*said.out, &*said.err), (Some(1), "", why));
    assert_eq!(folder.names(), ["f"]);
    fs::create_dir(folder.path().join("d")).unwrap();
    folder.put("d/image-00.bin", "mine");
    let said = on_a_full_disk(&folder, &[&words[..], &["--overwrite"]].concat());
    assert_eq!((said.code, &*said.out, &*said.err), (Some(1), "", why));
    assert_eq!(folder.get("d/image-00.bin"), b"mine");
    assert_eq!(names_in(&folder, "d").unwrap(), ["image-00.bin"]);
}

/// An image of a bundle is a file as any other: a DFU file is visited with.
#[test]
fn an_unpacked_image_is_loaded() {
    let folder = Folder::new("loaded");
    let image = &some_flash(6, 3)[..];
    let whole = suffixed(image, [0x0100, 1, 0x1209]);
    folder.put("f", bundled(&[NINE.to_vec(), whole.clone()]));
    folder.done(&["bundle", "unpack", "f", "-o", "d"]);
    assert_eq!(folder.get("d/image-01.bin"), whole);
    let words = ["visit", "--image", "d/image-01.bin", "--after", "after"];
    let said = folder.done(&words);
    assert!(said.contains("DFU suffix taken off: its sum is right"));
    assert!(folder.get("after")[16_384..].starts_with(image));
    assert_eq!(folder.get("d/image-00.bin"), PAPERS[10..]);
}
