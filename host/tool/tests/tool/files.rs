//! What is left of files where writing fails, and of runs whose output goes
//! nowhere.

use crate::dfu::suffixed;
use crate::folder::{Folder, Said, TOOL};
use std::fs::OpenOptions;
use std::io::Read;
use std::process::Stdio;

/// Runs the tool with room for half a kilobyte or one in every file, as on a
/// disk that is nearly full.
pub fn on_a_full_disk(folder: &Folder, words: &[&str]) -> Said {
    let limited = "trap '' XFSZ; ulimit -f 1; exec \"$0\" \"$@\"";
    let mut command = folder.command("sh");
    command.args(["-c", limited, TOOL]).args(words);
    Said::new(command.output().unwrap())
}

#[test]
fn a_full_disk_leaves_the_old_file() {
    let folder = Folder::new("full");
    folder.put("save", "the old one");
    let said = on_a_full_disk(&folder, &["visit", "--save", "save"]);
    let why = "mullirim visit: ended at step 2, read back: \
               can't write save: File too large (os error 27)\n";
    assert_eq!((said.code, &*said.err), (Some(1), why));
    assert!(!said.out.contains("3 Erase"));
    assert_eq!(folder.get("save"), b"the old one");
    assert_eq!(folder.names(), ["save"]);
}

#[test]
fn a_full_disk_leaves_no_half_of_a_new_file() {
    let folder = Folder::new("none");
    let said = on_a_full_disk(&folder, &["visit", "--save", "save", "--after", "after"]);
    let why = "mullirim visit: ended at step 2, read back: \
               can't write save: File too large (os error 27); \
               can't write after: File too large (os error 27)\n";
    assert_eq!((said.code, &*said.err), (Some(1), why));
    assert_eq!(folder.names(), [""; 0]);
    let said = on_a_full_disk(&folder, &["visit", "--after", "after"]);
    let why = "mullirim visit: can't write after: File too large (os error 27)\n";
    assert_eq!((said.code, &*said.err), (Some(1), why));
    assert!(said.out.contains("6 Check") && !said.out.contains("Done"));
    assert_eq!(folder.names(), [""; 0]);
}

#[test]
fn a_full_disk_leaves_no_half_of_a_file_with_a_suffix() {
    let folder = Folder::new("half");
    folder.put("f", [7; 5_000]);
    let numbers = ["--device", "1", "--product", "2", "--vendor", "3"];
    let words = [&["suffix", "add", "f", "-o", "out"], &numbers[..]].concat();
    let why = "mullirim suffix: can't write out: File too large (os error 27)\n";
    for before in [None, Some("the old one")] {
        if let Some(bytes) = before {
            folder.put("out", bytes);
        }
        let said = on_a_full_disk(&folder, &words);
        assert_eq!((said.code, &*said.out, &*said.err), (Some(1), "", why));
        assert_eq!(folder.get("f"), [7; 5_000]);
        match before {
            None => assert_eq!(folder.names(), ["f"]),
            Some(bytes) => assert_eq!(folder.get("out"), bytes.as_bytes()),
        }
    }
    assert_eq!(folder.names(), ["f", "out"]);
}

#[test]
fn a_folder_that_cannot_be_written_is_named() {
    let folder = Folder::new("closed");
    for target in ["none/save", "/proc/self/save"] {
        let said = folder.run(&["visit", "--save", target]);
        let why = format!(
            "mullirim visit: ended at step 2, read back: \
             can't write {target}: No such file or directory (os error 2)\n"
        );
        assert_eq!((said.code, said.err), (Some(1), why));
        assert!(!said.out.contains("3 Erase"));
    }
    let said = folder.run(&["visit", "--after", "."]);
    let why = "mullirim visit: can't write .: Is a directory (os error 21)\n";
    assert_eq!((said.code, &*said.err), (Some(1), why));
    assert_eq!(folder.names(), [""; 0]);
}

#[test]
fn files_are_written_over_whole_and_leave_nothing_beside() {
    let folder = Folder::new("over");
    folder.put("save", [1; 100_000]);
    folder.put("after", "x");
    folder.done(&["visit", "--save", "save", "--after", "after"]);
    let (save, after) = (folder.get("save"), folder.get("after"));
    assert_eq!((save.len(), after.len()), (49_152, 65_536));
    assert!(save.starts_with(b"TARIFF") && after[16_384..].starts_with(b"TARIFF"));
    assert_eq!(folder.names(), ["after", "save"]);
}

#[test]
fn output_that_cannot_be_written_ends_with_1() {
    let folder = Folder::new("output");
    folder.put("i", [7; 5]);
    folder.put("d", suffixed(&[7; 5], [1, 2, 3]));
    folder.put("b", [1, 0, 10, 0, 0, 0, 1, 0, 0, 0, 7]);
    for (words, who) in [
        (&["--help"][..], "mullirim"),
        (&["visit"], "mullirim visit"),
        (&["visit", "--help"], "mullirim visit"),
        (&["sums", "--image", "i"], "mullirim sums"),
        (&["sums", "--image", "i", "--json"], "mullirim sums"),
        (&["suffix", "--help"], "mullirim suffix"),
        (&["suffix", "show", "d"], "mullirim suffix"),
        (&["suffix", "show", "d", "--json"], "mullirim suffix"),
        (&["suffix", "check", "d"], "mullirim suffix"),
        (&["bundle", "--help"], "mullirim bundle"),
        (&["bundle", "list", "b"], "mullirim bundle"),
        (&["bundle", "list", "b", "--json"], "mullirim bundle"),
        (&["bundle", "pack", "new", "i"], "mullirim bundle"),
        (&["bundle", "unpack", "b", "-o", "to"], "mullirim bundle"),
    ] {
        let full = OpenOptions::new().write(true).open("/dev/full").unwrap();
        let mut command = folder.command(TOOL);
        let said = Said::new(command.args(words).stdout(full).output().unwrap());
        let why = "can't write to standard output: No space left on device (os error 28)";
        assert_eq!((said.code, said.err), (Some(1), format!("{who}: {why}\n")));
    }
}

/// Such as `head`: a visit goes on, and nobody is told of trouble.
#[test]
fn a_reader_that_leaves_early_is_no_trouble() {
    let folder = Folder::new("pipe");
    let mut command = folder.command(TOOL);
    let piped = command.args(["visit", "--after", "after"]);
    let piped = piped.stdout(Stdio::piped()).stderr(Stdio::piped());
    let mut child = piped.spawn().unwrap();
    let mut one = [0];
    child.stdout.take().unwrap().read_exact(&mut one).unwrap();
    let said = Said::new(child.wait_with_output().unwrap());
    assert_eq!((one, said.code, &*said.err), ([b'A'], Some(0), ""));
    assert_eq!(folder.get("after").len(), 65_536);
}
