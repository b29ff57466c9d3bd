//! What is packed, what is not, and what stays where nothing is.

use super::{bundled, some_images, wrong_use, NINE, PAIR, PAPERS};
use crate::files::on_a_full_disk;
use crate::folder::{Folder, Said, TOOL};
use std::fs::{self, File};
use std::os::unix::fs::{symlink, PermissionsExt};

fn refused(folder: &Folder, words: &[&str], message: &str) {
    let before = folder.names();
    let words = [&["bundle", "pack"], words].concat();
    folder.refused(&words, 1, &format!("mullirim bundle: {message}"));
    assert_eq!(folder.names(), before);
}

#[test]
fn the_papers_image_is_packed() {
    let folder = Folder::new("nine");
    folder.put("i", NINE);
    let said = folder.done(&["bundle", "pack", "out", "i"]);
    assert_eq!(said, "out: 1 image, 19 bytes\n");
    assert_eq!(folder.get("out"), PAPERS);
    assert_eq!(folder.get("i"), NINE);
    assert_eq!(folder.names(), ["i", "out"]);
}

#[test]
fn images_stand_in_the_order_of_their_names() {
    let folder = Folder::new("order-of");
    folder.put("a", "abc");
    folder.put("b", "de");
    let said = folder.done(&["bundle", "pack", "ab", "a", "b"]);
    assert_eq!(said, "ab: 2 images, 23 bytes\n");
    assert_eq!(folder.get("ab"), PAIR);
    folder.done(&["bundle", "pack", "ba", "b", "a"]);
    let images = [b"de".to_vec(), b"abc".to_vec()];
    assert_eq!(folder.get("ba"), bundled(&images));
    // One image may be for several boards.
    folder.done(&["bundle", "pack", "aa", "a", "./a"]);
    let images = [b"abc".to_vec(), b"abc".to_vec()];
    assert_eq!(folder.get("aa"), bundled(&images));
}

/// The most is packed, and one more is not, though no image is even looked for.
#[test]
fn one_to_32_images_are_packed() {
    let folder = Folder::new("count");
    let images = some_images(32, 32);
    let names: Vec<String> = (0..32).map(|k| format!("i{k}")).collect();
    for (name, image) in names.iter().zip(&images) {
        folder.put(name, image);
    }
    let names: Vec<&str> = names.iter().map(String::as_str).collect();
    folder.done(&[&["bundle", "pack", "out"], &names[..]].concat());
    assert_eq!(folder.get("out"), bundled(&images));
    fs::remove_file(folder.path().join("out")).unwrap();
    for (more, given) in [(&[""; 0][..], "none is"), (&["none"; 33], "33 are")] {
        let words = [&["pack", "out"], more].concat();
        let why = format!("a bundle has 1 to 32 images, and {given} given");
        wrong_use(&folder, &words, &why);
    }
    let words = [&["pack", "out", "i0"], &names[..]].concat();
    let why = "a bundle has 1 to 32 images, and 33 are given";
    wrong_use(&folder, &words, why);
}

#[test]
fn an_empty_image_is_not_packed() {
    let folder = Folder::new("empty");
    folder.put("a", "abc");
    folder.put("none", "");
    folder.put("nothing", "");
    for (images, name) in [
        (&["none"][..], "none"),
        (&["a", "nothing", "none"], "nothing"),
        (&["a", "a", "none"], "none"),
        (&["/dev/null", "a"], "/dev/null"),
    ] {
        let why = format!("{name}: the image is empty; in a bundle each has at least 1 byte");
        refused(&folder, &[&["out"], images].concat(), &why);
    }
}

#[test]
fn an_image_that_cannot_be_read_is_named_and_nothing_written() {
    let folder = Folder::new("unread-image");
    folder.put("a", "abc");
    for (image, error) in [
        ("none", "No such file or directory (os error 2)"),
        (".", "Is a directory (os error 21)"),
        ("a/b", "Not a directory (os error 20)"),
    ] {
        let why = format!("can't read {image}: {error}");
        refused(&folder, &["out", image, "a"], &why);
        refused(&folder, &["out", "a", image], &why);
    }
}

const STANDS: &str = "a file stands there already (--overwrite writes over it)";

#[test]
fn a_file_that_stands_there_is_left_unless_told() {
    let folder = Folder::new("stands");
    folder.put("i", NINE);
    folder.put("out", [7; 1_000]);
    fs::set_permissions(folder.path().join("out"), PermissionsExt::from_mode(0o640)).unwrap();
    refused(
        &folder,
        &["out", "i"],
        &format!("can't write out: {STANDS}"),
    );
    assert_eq!(folder.get("out"), [7; 1_000]);
    for words in [&["--overwrite", "out", "i"], &["out", "i", "--overwrite"]] {
        folder.put("out", [7; 1_000]);
        let said = folder.done(&[&["bundle", "pack"], &words[..]].concat());
        assert_eq!(said, "out: 1 image, 19 bytes\n");
        assert_eq!(folder.get("out"), PAPERS);
    }
    let mode = folder.path().join("out").metadata().unwrap().permissions();
    assert_eq!(mode.mode() & 0o777, 0o640);
    // With leave, nothing needs to stand there.
    folder.done(&["bundle", "pack", "new", "i", "--overwrite"]);
    assert_eq!(folder.get("new"), PAPERS);
    assert_eq!(folder.names(), ["i", "new", "out"]);
}

/// A link stays one, and the file behind it is written whole where that is told.
#[test]
fn a_link_to_a_file_is_that_file() {
    let folder = Folder::new("link-out");
    folder.put("i", NINE);
    folder.put("old", [7; 1_000]);
    symlink("old", folder.path().join("link")).unwrap();
    symlink("none", folder.path().join("loose")).unwrap();
    refused(
        &folder,
        &["link", "i"],
        &format!("can't write link: {STANDS}"),
    );
    assert_eq!(folder.get("old"), [7; 1_000]);
    folder.done(&["bundle", "pack", "link", "i", "--overwrite"]);
    assert!(folder.path().join("link").is_symlink());
    assert_eq!(folder.get("old"), PAPERS);
    for words in [
        &["pack", "loose", "i"][..],
        &["pack", "loose", "i", "--overwrite"],
    ] {
        wrong_use(&folder, words, "OUT names a link that leads nowhere");
    }
    assert_eq!(folder.names(), ["i", "link", "loose", "old"]);
}

#[test]
fn an_image_is_never_written_over() {
    let folder = Folder::new("over-image");
    folder.put("a", "abc");
    folder.put("f", NINE);
    fs::create_dir(folder.path().join("below")).unwrap();
    fs::hard_link(folder.path().join("f"), folder.path().join("hard")).unwrap();
    symlink("f", folder.path().join("soft")).unwrap();
    symlink(".", folder.path().join("here")).unwrap();
    let absolute = folder.path().join("f");
    let absolute = absolute.to_str().unwrap();
    let names = ["f", "./f", "below/../f", "here/f", "hard", "soft", absolute];
    for image in names {
        for out in names {
            let words = ["pack", "--overwrite", out, "a", image];
            wrong_use(
                &folder,
                &words,
                "OUT, which comes first, must not name an image",
            );
        }
    }
    assert_eq!(folder.get("f"), NINE);
}

#[test]
fn a_place_where_no_file_can_be_is_named() {
    let folder = Folder::new("no-place");
    folder.put("i", NINE);
    for (out, error) in [
        ("none/out", "No such file or directory (os error 2)"),
        ("new/", "Is a directory (os error 21)"),
        ("i/out", "Not a directory (os error 20)"),
        (".", "Is a directory (os error 21)"),
        ("/proc/self/out", "No such file or directory (os error 2)"),
    ] {
        let why = format!("can't write {out}: {error}");
        refused(&folder, &[out, "i"], &why);
    }
}

#[test]
fn a_full_disk_leaves_no_half_of_a_bundle() {
    let folder = Folder::new("full-bundle");
    folder.put("i", [7; 5_000]);
    let why = "mullirim bundle: can't write out: File too large (os error 27)\n";
    let words = ["bundle", "pack", "out", "i"];
    let said = on_a_full_disk(&folder, &words);
    assert_eq!((said.code, &*said.out, &*said.err), (Some(1), "", why));
    assert_eq!(folder.names(), ["i"]);
    folder.put("out", "the old one");
    let said = on_a_full_disk(&folder, &[&words[..], &["--overwrite"]].concat());
    assert_eq!((said.code, &*said.out, &*said.err), (Some(1), "", why));
    assert_eq!(folder.get("out"), b"the old one");
    assert_eq!(folder.names(), ["i", "out"]);
}

/// The head and the images together have at most 64 MiB.
#[test]
fn what_is_too_long_together_is_not_packed() {
    let folder = Folder::new("long");
    let most = 64 * 1_024 * 1_024;
    let sized = |name: &str, length: u64| {
        let file = File::create(folder.path().join(name)).unwrap();
        file.set_len(length).unwrap();
    };
    sized("a", 40 * 1_024 * 1_024);
    let rest = most - 18 - 40 * 1_024 * 1_024;
    sized("b", rest + 1);
    let why = |name: &str| {
        format!("{name}: with it the bundle has more than 64 MiB, and a longer one is not taken")
    };
    refused(&folder, &["out", "a", "b"], &why("b"));
    refused(&folder, &["out", "b", "a"], &why("a"));
    refused(&folder, &["out", "/dev/zero"], &why("/dev/zero"));
    sized("b", rest);
    let said = folder.done(&["bundle", "pack", "out", "a", "b"]);
    assert_eq!(said, "out: 2 images, 67,108,864 bytes\n");
    let said = folder.done(&["bundle", "list", "out", "--json"]);
    assert!(said.starts_with("{\"images\": [{\"length\": 41943040, "));
    // Sparse, so that no disk is filled.
    sized("huge", 5 << 30);
    refused(&folder, &["out2", "huge"], &why("huge"));
}

/// Where OUT is no plain file, or is where standard output goes, what is said
/// goes to standard error.
#[test]
fn what_is_said_is_kept_out_of_what_is_packed() {
    let folder = Folder::new("mixed-bundle");
    folder.put("i", NINE);
    for (out, flag, to) in [
        ("/dev/stdout", "", "| cat > out"),
        ("/proc/self/fd/1", "", "| cat > out"),
        ("/dev/stdout", "--overwrite", "> out"),
        ("out", "--overwrite", "> out"),
        ("./out", "--overwrite", ">> out"),
        ("/dev/fd/3", "", "3>&1 >/dev/null | cat > out"),
    ] {
        folder.put("out", "");
        let line = format!("{TOOL} bundle pack {out} i {flag} {to}");
        let mut shell = folder.command("sh");
        let said = Said::new(shell.args(["-c", &line]).output().unwrap());
        let told = format!("{out}: 1 image, 19 bytes\n");
        let awaited = (Some(0), "", &*told);
        assert_eq!((said.code, &*said.out, &*said.err), awaited, "{line}");
        assert_eq!(folder.get("out"), PAPERS, "{line}");
    }
    let said = folder.run(&["bundle", "pack", "/dev/null", "i"]);
    let told = "/dev/null: 1 image, 19 bytes\n";
    assert_eq!((said.code, &*said.out, &*said.err), (Some(0), "", told));
}

#[test]
fn an_image_comes_through_a_pipe_too() {
    let folder = Folder::new("image-pipe");
    folder.put("i", NINE);
    let line = format!("cat i | {TOOL} bundle pack out /dev/stdin");
    let mut shell = folder.command("sh");
    let said = Said::new(shell.args(["-c", &line]).output().unwrap());
    assert_eq!((said.code, &*said.err), (Some(0), ""));
    assert_eq!(folder.get("out"), PAPERS);
}
