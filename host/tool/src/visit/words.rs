//! The words of the command line.

use crate::files::Wanted;
use crate::names::shown;
use crate::place;
use crate::words::{asks_for_help, file, once, plain_alone, unknown, value_of};
use mullirim_host::second::MOST_BLOCKS;
use std::ffi::OsString;
use std::path::{Path, PathBuf};

const HELP: &str = "\
mullirim visit: a technician's visit on a simulated board

It starts the loader on a flash, reads the application back, erases it,
downloads the corrected image and shows which block sums changed.

  --flash FILE   the flash to start on: 2 to MOST blocks of 1,024 bytes
                 (without it: a built-in flash of 64 blocks, old tariff)
  --image FILE   the corrected image, at most as long as the application;
                 a DFU suffix and a PROG header are taken off, and a file
                 whose suffix is damaged or lost is refused
                 (without it: the built-in image, two prices corrected,
                 cut where the application is shorter)
  --plain        take the file of --image as it stands: nothing is looked
                 for around the image, and nothing is taken off
  --split A      the block at which the application starts (without it: 16)
  --no-erase     leave the erase out: where the image is to go and a byte is
                 not erased, the board refuses it and says at which address
  --save FILE    write the application as it was read back
  --after FILE   write the flash as the visit left it, done or not
  --help         this text

Without --save and --after no file is written. Files that stand there
already are written over. Exit: 0 done, 1 refused or failed, 2 wrong flags.";

pub fn help() -> String {
    HELP.replace("MOST", &MOST_BLOCKS.to_string())
}

/// What the command line asks for.
#[derive(Debug, PartialEq)]
pub enum Wish {
    Help,
    Visit(Words),
}

#[derive(Debug, Default, PartialEq)]
pub struct Words {
    pub flash: Option<PathBuf>,
    pub image: Option<PathBuf>,
    pub plain: Option<()>,
    pub split: Option<u16>,
    pub no_erase: Option<()>,
    pub save: Option<PathBuf>,
    pub after: Option<PathBuf>,
}

pub fn parse(words: &[OsString]) -> Result<Wish, String> {
    if asks_for_help(words) {
        return Ok(Wish::Help);
    }
    let mut found = Words::default();
    let mut rest = words.iter().cloned();
    while let Some(flag) = rest.next() {
        found.take(&flag.to_string_lossy(), &mut rest)?;
    }
    if found.plain.is_some() && found.image.is_none() {
        return Err(plain_alone());
    }
    found.files_of_their_own()?;
    Ok(Wish::Visit(found))
}

impl Words {
    fn take(
        &mut self,
        flag: &str,
        rest: &mut impl Iterator<Item = OsString>,
    ) -> Result<(), String> {
        match flag {
            "--flash" => once(&mut self.flash, flag, file(flag, rest.next())?),
            "--image" => once(&mut self.image, flag, file(flag, rest.next())?),
            "--plain" => once(&mut self.plain, flag, ()),
            "--split" => once(&mut self.split, flag, block(flag, rest.next())?),
            "--no-erase" => once(&mut self.no_erase, flag, ()),
            "--save" => once(&mut self.save, flag, file(flag, rest.next())?),
            "--after" => once(&mut self.after, flag, file(flag, rest.next())?),
            _ => Err(unknown(flag)),
        }
    }

    /// The file for the image, where one is named.
    pub fn wanted(&self) -> Option<Wanted<'_>> {
        let path = self.image.as_deref()?;
        let plain = self.plain.is_some();
        Some(Wanted { path, plain })
    }

    /// What is written must not fall on what is read or written elsewhere: the
    /// only copy of a flash could be lost that way.
    fn files_of_their_own(&self) -> Result<(), String> {
        let pairs = [
            ("--save", &self.save, "--flash", &self.flash),
            ("--save", &self.save, "--image", &self.image),
            ("--save", &self.save, "--after", &self.after),
            ("--after", &self.after, "--flash", &self.flash),
            ("--after", &self.after, "--image", &self.image),
        ];
        for (flag, path, other, taken) in pairs {
            let (path, taken) = (path.as_deref(), taken.as_deref());
            if let (Some(path), Some(taken)) = (path, taken) {
                apart(flag, path, other, taken)?;
            }
        }
        Ok(())
    }
}

fn apart(flag: &str, path: &Path, other: &str, taken: &Path) -> Result<(), String> {
    for (flag, path) in [(flag, path), (other, taken)] {
        if place::leads_nowhere(path) {
            return Err(format!("{flag} names a link that leads nowhere"));
        }
    }
    match place::same(path, taken) {
        true => Err(format!("{flag} must not name the file of {other}")),
        false => Ok(()),
    }
}

fn block(flag: &str, value: Option<OsString>) -> Result<u16, String> {
    let word = value_of(value).ok_or_else(|| format!("{flag} needs a block number"))?;
    let (text, last) = (shown(&word), MOST_BLOCKS - 1);
    text.parse()
        .map_err(|_| format!("{flag} takes a block number from 1 to {last}, and '{text}' is none"))
}

#[cfg(test)]
mod tests {
    use super::*;

    fn parsed(words: &[&str]) -> Result<Wish, String> {
        let words: Vec<OsString> = words.iter().map(OsString::from).collect();
        parse(&words)
    }

    fn refused(words: &[&str], message: &str) {
        assert_eq!(parsed(words), Err(message.to_string()));
    }

    #[test]
    fn no_word_is_a_plain_visit() {
        assert_eq!(parsed(&[]), Ok(Wish::Visit(Words::default())));
    }

    #[test]
    fn each_flag_has_its_place() {
        let words = ["--flash", "f", "--plain", "--image", "i", "--split", "7"];
        let more = ["--save", "s", "--no-erase", "--after", "a"];
        let found = Words {
            flash: Some("f".into()),
            image: Some("i".into()),
            plain: Some(()),
            split: Some(7),
            no_erase: Some(()),
            save: Some("s".into()),
            after: Some("a".into()),
        };
        let all = [&words[..], &more[..]].concat();
        assert_eq!(parsed(&all), Ok(Wish::Visit(found)));
    }

    #[test]
    fn help_goes_before_all_else() {
        assert_eq!(parsed(&["--help"]), Ok(Wish::Help));
        assert_eq!(parsed(&["--fast", "--split", "--help"]), Ok(Wish::Help));
    }

    #[test]
    fn unknown_words_are_named() {
        refused(&["--fast"], "no flag is called --fast");
        refused(&["flash.bin"], "no flag is called flash.bin");
        refused(&["--split=16"], "no flag is called --split=16");
        refused(&["--\u{1b}c"], "no flag is called --\\u{1b}c");
    }

    #[test]
    fn a_value_may_not_be_missing() {
        refused(&["--flash"], "--flash needs the name of a file");
        refused(&["--image", ""], "--image needs the name of a file");
        refused(
            &["--save", "--after", "x"],
            "--save needs the name of a file",
        );
        refused(&["--after"], "--after needs the name of a file");
        refused(&["--split"], "--split needs a block number");
    }

    #[test]
    fn a_split_is_a_number() {
        for word in ["two", "1.5", "-1", "0x10", "65536", "99999999999999999999"] {
            let last = MOST_BLOCKS - 1;
            let message = format!("--split takes a block number from 1 to {last}, and");
            refused(&["--split", word], &format!("{message} '{word}' is none"));
        }
    }

    #[test]
    fn a_flag_comes_once() {
        refused(&["--split", "1", "--split", "1"], "--split is given twice");
        refused(&["--save", "a", "--save", "b"], "--save is given twice");
        let plain = ["--image", "i", "--plain", "--plain"];
        refused(&plain, "--plain is given twice");
        let erase = ["--no-erase", "--no-erase"];
        refused(&erase, "--no-erase is given twice");
    }

    #[test]
    fn plain_is_for_an_image_that_is_named() {
        let why = "--plain is for an image that is named by --image";
        refused(&["--plain"], why);
        refused(&["--flash", "f", "--plain"], why);
        for words in [["--image", "i", "--plain"], ["--plain", "--image", "i"]] {
            let found = Words {
                image: Some("i".into()),
                plain: Some(()),
                ..Words::default()
            };
            assert_eq!(parsed(&words), Ok(Wish::Visit(found)));
        }
    }

    fn over(flag: &str, other: &str) -> String {
        format!("{flag} must not name the file of {other}")
    }

    #[test]
    fn no_file_is_written_over_another() {
        refused(
            &["--save", "x", "--flash", "./x"],
            &over("--save", "--flash"),
        );
        refused(
            &["--save", "x", "--image", "./x"],
            &over("--save", "--image"),
        );
        refused(
            &["--after", "x", "--flash", "x"],
            &over("--after", "--flash"),
        );
        refused(
            &["--after", "x", "--image", "x"],
            &over("--after", "--image"),
        );
        refused(&["--after", "x", "--save", "x"], &over("--save", "--after"));
        assert!(parsed(&["--after", "x", "--save", "y"]).is_ok());
    }

    #[test]
    fn a_file_is_known_under_other_names_too() {
        let folder = std::env::temp_dir().join(format!("visit-names-{}", std::process::id()));
        std::fs::create_dir_all(folder.join("below")).unwrap();
        let name = |file: &str| folder.join(file).to_str().unwrap().to_string();
        std::fs::write(name("flash"), "f").unwrap();
        std::fs::hard_link(name("flash"), name("hard")).unwrap();
        std::os::unix::fs::symlink(name("nowhere"), name("link")).unwrap();
        let words = ["--save", &name("hard"), "--flash", &name("flash")];
        refused(&words, &over("--save", "--flash"));
        let words = ["--save", &name("below/../new"), "--after", &name("new")];
        refused(&words, &over("--save", "--after"));
        let words = ["--save", &name("nowhere"), "--after", &name("link")];
        refused(&words, "--after names a link that leads nowhere");
        std::fs::remove_dir_all(folder).unwrap();
    }
}
