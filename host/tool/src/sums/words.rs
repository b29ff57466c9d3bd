//! The words of the command line.

use crate::names::shown;
use crate::place;
use crate::visit::{USUAL_BLOCKS, USUAL_SPLIT};
use crate::words::{asks_for_help, file, once, plain_alone, unknown, value_of};
use mullirim_host::second::MOST_BLOCKS;
use std::ffi::{OsStr, OsString};
use std::path::PathBuf;

const HELP: &str = "\
mullirim sums: the sums that the dashboard reads of a board

  mullirim sums FILE                  the sum of every block of the
                                      application and of the whole, in a
                                      flash file of 2 to MOST blocks
  mullirim sums --image FILE          the same for an image, as it would
                                      stand in an erased application,
                                      without DFU suffix and PROG header
  mullirim sums --compare OLD NEW     the blocks that differ; either may be
                                      an image: --image FILE in its place

  --split A:B   the application starts at block A, and the flash has B blocks
                (without it: 16:64)
  --plain       take the files of --image as they stand: nothing is looked
                for around the image, and nothing is taken off
  --json        the same as one JSON object
  --help        this text

Sums are CRC-32 as in a DFU file suffix. No file is written.
Exit: 0 done, also where blocks differ; 1 a file that can't be used; 2 wrong
use.";

pub fn help() -> String {
    HELP.replace("MOST", &MOST_BLOCKS.to_string())
}

/// What the command line asks for.
#[derive(Debug, PartialEq)]
pub enum Wish {
    Help,
    One { source: Source, how: How },
    Two { old: Source, new: Source, how: How },
}

#[derive(Debug, PartialEq)]
pub struct How {
    pub split: Split,
    pub json: bool,
    /// Holds for images, and not for flash files.
    pub plain: bool,
}

#[derive(Clone, Copy, Debug, PartialEq)]
pub struct Split {
    pub first: u16,
    pub blocks: u16,
}

/// A visit's own, where it is told nothing else.
const USUAL: Split = Split {
    first: USUAL_SPLIT,
    blocks: USUAL_BLOCKS,
};

#[derive(Clone, Debug, PartialEq)]
pub struct Source {
    pub kind: Kind,
    pub path: PathBuf,
}

#[derive(Clone, Copy, Debug, PartialEq)]
pub enum Kind {
    Flash,
    Image,
}

#[derive(Default)]
struct Words {
    sources: Vec<Source>,
    split: Option<Split>,
    compare: Option<()>,
    json: Option<()>,
    plain: Option<()>,
}

pub fn parse(words: &[OsString]) -> Result<Wish, String> {
    if asks_for_help(words) {
        return Ok(Wish::Help);
    }
    let mut found = Words::default();
    let mut rest = words.iter().cloned();
    while let Some(word) = rest.next() {
        found.take(&word, &mut rest)?;
    }
    found.wish()
}

impl Words {
    fn take(
        &mut self,
        word: &OsStr,
        rest: &mut impl Iterator<Item = OsString>,
    ) -> Result<(), String> {
        match &*word.to_string_lossy() {
            flag @ "--image" => {
                let path = file(flag, rest.next())?;
                self.source(Kind::Image, path);
            }
            flag @ "--split" => once(&mut self.split, flag, split(flag, rest.next())?)?,
            flag @ "--compare" => once(&mut self.compare, flag, ())?,
            flag @ "--json" => once(&mut self.json, flag, ())?,
            flag @ "--plain" => once(&mut self.plain, flag, ())?,
            flag if flag.starts_with('-') => return Err(unknown(flag)),
            "" => return Err("the name of a file is empty".to_string()),
            _ => self.source(Kind::Flash, PathBuf::from(word)),
        }
        Ok(())
    }

    fn source(&mut self, kind: Kind, path: PathBuf) {
        self.sources.push(Source { kind, path });
    }

    fn wish(self) -> Result<Wish, String> {
        let how = How {
            split: self.split.unwrap_or(USUAL),
            json: self.json.is_some(),
            plain: self.plain.is_some(),
        };
        let image = |source: &Source| source.kind == Kind::Image;
        if how.plain && !self.sources.iter().any(image) {
            return Err(plain_alone());
        }
        Ok(match (self.compare, &self.sources[..]) {
            (None, [source]) => Wish::One {
                source: source.clone(),
                how,
            },
            (Some(()), [old, new]) => {
                apart(old, new)?;
                Wish::Two {
                    old: old.clone(),
                    new: new.clone(),
                    how,
                }
            }
            (None, []) => return Err("name a flash file, or an image by --image".to_string()),
            (None, more) => {
                let given = more.len();
                return Err(format!("{given} files are given; --compare takes two"));
            }
            (Some(()), other) => {
                let given = match other.len() {
                    1 => "1 is".to_string(),
                    more => format!("{more} are"),
                };
                return Err(format!("--compare takes two files, and {given} given"));
            }
        })
    }
}

/// A file is the same as itself, which nobody needs to be told: one of the two
/// names is a slip.
fn apart(old: &Source, new: &Source) -> Result<(), String> {
    match place::same(&old.path, &new.path) {
        true => Err("both names of --compare lead to the same file".to_string()),
        false => Ok(()),
    }
}

fn split(flag: &str, value: Option<OsString>) -> Result<Split, String> {
    let word = value_of(value).ok_or_else(|| format!("{flag} needs two block numbers, A:B"))?;
    let text = shown(word);
    let numbers = text.split_once(':').and_then(|(first, blocks)| {
        let (first, blocks) = (number(first)?, number(blocks)?);
        (1 <= first && first < blocks && usize::from(blocks) <= MOST_BLOCKS)
            .then_some(Split { first, blocks })
    });
    numbers.ok_or_else(|| {
        format!(
            "{flag} takes A:B with A from 1 and B over A and up to {MOST_BLOCKS}, as 16:64, \
             and '{text}' is not that"
        )
    })
}

/// Digits alone; a sign would be a slip too.
fn number(text: &str) -> Option<u16> {
    let digits = text.bytes().all(|byte| byte.is_ascii_digit());
    text.parse().ok().filter(|_| digits)
}

#[cfg(test)]
mod tests {
    use super::*;

    fn parsed(words: &[&str]) -> Result<Wish, String> {
        let words: Vec<OsString> = words.iter().map(OsString::from).collect();
        parse(&words)
    }

    fn refused(words: &[&str], message: &str) {
        assert_eq!(parsed(words), Err(message.to_string()));
    }

    fn source(kind: Kind, path: &str) -> Source {
        let path = path.into();
        Source { kind, path }
    }

    const SPLIT: Split = Split {
        first: 7,
        blocks: 9,
    };

    #[test]
    fn one_flash_file_is_enough() {
        assert_eq!((USUAL.first, USUAL.blocks), (16, 64));
        assert!(help().contains("(without it: 16:64)"));
        let (split, json, plain) = (USUAL, false, false);
        let wish = Wish::One {
            source: source(Kind::Flash, "f"),
            how: How { split, json, plain },
        };
        assert_eq!(parsed(&["f"]), Ok(wish));
    }

    #[test]
    fn flags_may_stand_anywhere() {
        let (split, json, plain) = (SPLIT, true, false);
        for words in [
            ["--image", "i", "--split", "7:9", "--json"],
            ["--json", "--split", "7:9", "--image", "i"],
        ] {
            let wish = Wish::One {
                source: source(Kind::Image, "i"),
                how: How { split, json, plain },
            };
            assert_eq!(parsed(&words), Ok(wish));
        }
    }

    #[test]
    fn a_comparison_keeps_the_order_of_its_files() {
        let (split, json, plain) = (SPLIT, false, false);
        let wish = Wish::Two {
            old: source(Kind::Image, "z"),
            new: source(Kind::Flash, "a"),
            how: How { split, json, plain },
        };
        let words = ["--image", "z", "--compare", "a", "--split", "7:9"];
        assert_eq!(parsed(&words), Ok(wish));
    }

    #[test]
    fn plain_is_for_images_that_are_named() {
        let why = "--plain is for an image that is named by --image";
        refused(&["--plain"], why);
        refused(&["f", "--plain"], why);
        refused(&["--compare", "a", "b", "--plain"], why);
        refused(
            &["--image", "i", "--plain", "--plain"],
            "--plain is given twice",
        );
        let (split, json, plain) = (USUAL, false, true);
        let how = || How { split, json, plain };
        for words in [["--image", "i", "--plain"], ["--plain", "--image", "i"]] {
            let source = source(Kind::Image, "i");
            assert_eq!(parsed(&words), Ok(Wish::One { source, how: how() }));
        }
        let wish = Wish::Two {
            old: source(Kind::Flash, "a"),
            new: source(Kind::Image, "b"),
            how: how(),
        };
        let words = ["--compare", "a", "--image", "b", "--plain"];
        assert_eq!(parsed(&words), Ok(wish));
    }

    #[test]
    fn help_goes_before_all_else() {
        assert_eq!(parsed(&["--help"]), Ok(Wish::Help));
        assert_eq!(parsed(&["--fast", "--split", "--help"]), Ok(Wish::Help));
    }

    #[test]
    fn wrong_words_are_named() {
        refused(&[], "name a flash file, or an image by --image");
        refused(&[""], "the name of a file is empty");
        refused(&["--fast"], "no flag is called --fast");
        refused(&["-j"], "no flag is called -j");
        refused(&["-\u{7}"], "no flag is called -\\u{7}");
        refused(&["a", "b"], "2 files are given; --compare takes two");
        refused(
            &["a", "--image", "b"],
            "2 files are given; --compare takes two",
        );
        refused(&["--compare"], "--compare takes two files, and 0 are given");
        refused(
            &["--compare", "a"],
            "--compare takes two files, and 1 is given",
        );
        refused(
            &["--compare", "a", "b", "c"],
            "--compare takes two files, and 3 are given",
        );
        refused(&["--image"], "--image needs the name of a file");
        refused(&["--image", "--json"], "--image needs the name of a file");
    }

    #[test]
    fn a_flag_comes_once() {
        let split = ["--split", "1:2"];
        refused(&[split, split].concat(), "--split is given twice");
        refused(&["--json", "--json"], "--json is given twice");
        refused(&["--compare", "a", "--compare"], "--compare is given twice");
    }

    #[test]
    fn a_split_leaves_a_block_on_both_sides_and_is_no_more_than_the_most() {
        let most = MOST_BLOCKS as u16;
        let last = format!("{}:{most}", most - 1);
        for (text, first, blocks) in [
            ("1:2", 1, 2),
            ("63:64", 63, 64),
            ("016:64", 16, 64),
            (&last, most - 1, most),
        ] {
            let value = Some(OsString::from(text));
            assert_eq!(split("--split", value), Ok(Split { first, blocks }));
        }
        refused(&["--split"], "--split needs two block numbers, A:B");
        refused(
            &["--split", "--json"],
            "--split needs two block numbers, A:B",
        );
        for word in [
            "0:64",
            "64:64",
            "17:16",
            &format!("16:{}", MOST_BLOCKS + 1),
            "16",
            "16:",
            ":64",
            ":",
            "a:b",
            "+1:2",
            "-1:2",
            "1:2:3",
            "1 :2",
            "65537:65538",
            "0x10:0x40",
        ] {
            let rule = format!("A from 1 and B over A and up to {MOST_BLOCKS}, as 16:64,");
            let why = format!("--split takes A:B with {rule} and '{word}' is not that");
            refused(&["--split", word], &why);
        }
    }

    #[test]
    fn one_file_is_not_compared_with_itself() {
        let folder = std::env::temp_dir().join(format!("mullirim-names-{}", std::process::id()));
        std::fs::create_dir_all(folder.join("below")).unwrap();
        let name = |file: &str| folder.join(file).to_str().unwrap().to_string();
        std::fs::write(name("flash"), "f").unwrap();
        std::fs::write(name("other"), "f").unwrap();
        std::fs::hard_link(name("flash"), name("hard")).unwrap();
        std::os::unix::fs::symlink(name("flash"), name("soft")).unwrap();
        let why = "both names of --compare lead to the same file";
        for other in ["flash", "hard", "soft", "below/../flash"] {
            refused(&["--compare", &name("flash"), &name(other)], why);
        }
        let (split, json, plain) = (USUAL, false, false);
        let wish = Wish::Two {
            old: source(Kind::Flash, &name("flash")),
            new: source(Kind::Flash, &name("other")),
            how: How { split, json, plain },
        };
        assert_eq!(
            parsed(&["--compare", &name("flash"), &name("other")]),
            Ok(wish)
        );
        std::fs::remove_dir_all(folder).unwrap();
    }
}
