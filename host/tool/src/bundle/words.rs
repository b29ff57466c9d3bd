//! The words of the command line.

use crate::names::shown;
use crate::place;
use crate::words::{asks_for_help, folder, once};
use std::ffi::{OsStr, OsString};
use std::path::{Path, PathBuf};

pub const HELP: &str = "\
mullirim bundle: the images of a site, packed into one file

  mullirim bundle list FILE      how many images the file holds, and of each
                                 its number from 0, its length and its sum;
                                 of a DFU file also for whom it is
  mullirim bundle pack OUT IMAGE...
                                 write 1 to 32 images, in this order, to OUT,
                                 another file
  mullirim bundle unpack FILE -o DIR
                                 write the images into the folder DIR, as
                                 image-00.bin and so on up to image-31.bin;
                                 DIR is made where it is not there

  --json        for list: one JSON object, also where the file is refused
  --overwrite   for pack and unpack: write over files that stand there already;
                without it these are left, and nothing is written
  --help        this text

Sums are CRC-32 as in a DFU file suffix. A bundle has at most 64 MiB. In DIR no
link is followed or written over.
Exit: 0 done, 1 a file that is refused or can't be used, 2 wrong use.";

/// What the command line asks for.
#[derive(Debug, PartialEq)]
pub enum Wish {
    Help,
    List { file: PathBuf, json: bool },
    Pack(Pack),
    Unpack(Unpack),
}

#[derive(Debug, PartialEq)]
pub struct Pack {
    pub out: PathBuf,
    pub images: Vec<PathBuf>,
    pub overwrite: bool,
}

#[derive(Debug, PartialEq)]
pub struct Unpack {
    pub file: PathBuf,
    pub folder: PathBuf,
    pub overwrite: bool,
}

#[derive(Default)]
struct Words {
    files: Vec<PathBuf>,
    folder: Option<PathBuf>,
    json: Option<()>,
    overwrite: Option<()>,
}

/// What can be done, and the flags that go with it.
const DEEDS: [(&str, &[&str]); 3] = [
    ("list", &["--json"]),
    ("pack", &["--overwrite"]),
    ("unpack", &["-o", "--overwrite"]),
];

pub fn parse(words: &[OsString]) -> Result<Wish, String> {
    if asks_for_help(words) {
        return Ok(Wish::Help);
    }
    let Some((deed, rest)) = words.split_first() else {
        return Err("say what to do: list, pack or unpack".to_string());
    };
    let Some((deed, flags)) = DEEDS.iter().find(|(name, _)| deed == name) else {
        let deed = shown(deed);
        return Err(format!(
            "a bundle can be listed, packed or unpacked, not '{deed}'"
        ));
    };
    let mut found = Words::default();
    let mut rest = rest.iter().cloned();
    while let Some(word) = rest.next() {
        found.take(deed, flags, &word, &mut rest)?;
    }
    match *deed {
        "list" => found.list(),
        "pack" => found.pack(),
        _ => found.unpack(),
    }
}

impl Words {
    fn take(
        &mut self,
        deed: &str,
        flags: &[&str],
        word: &OsStr,
        rest: &mut impl Iterator<Item = OsString>,
    ) -> Result<(), String> {
        match &*word.to_string_lossy() {
            flag if flag.starts_with('-') && !flags.contains(&flag) => {
                return Err(format!("{deed} has no flag that is called {}", shown(flag)));
            }
            flag @ "--json" => once(&mut self.json, flag, ())?,
            flag @ "--overwrite" => once(&mut self.overwrite, flag, ())?,
            flag @ "-o" => once(&mut self.folder, flag, folder(flag, rest.next())?)?,
            "" => return Err("the name of a file is empty".to_string()),
            _ => self.files.push(PathBuf::from(word)),
        }
        Ok(())
    }

    fn list(self) -> Result<Wish, String> {
        Ok(Wish::List {
            file: self.one("list")?,
            json: self.json.is_some(),
        })
    }

    fn unpack(self) -> Result<Wish, String> {
        let file = self.one("unpack")?;
        let folder = self.folder.ok_or("unpack needs -o DIR as well")?;
        if place::leads_nowhere(&folder) {
            return Err("-o names a link that leads nowhere".to_string());
        }
        Ok(Wish::Unpack(Unpack {
            file,
            folder,
            overwrite: self.overwrite.is_some(),
        }))
    }

    /// How many images there may be is the writer's to say.
    fn pack(self) -> Result<Wish, String> {
        let Some((out, images)) = self.files.split_first() else {
            return Err("pack needs the name of the file to write, then the images".to_string());
        };
        apart(out, images)?;
        Ok(Wish::Pack(Pack {
            out: out.clone(),
            images: images.to_vec(),
            overwrite: self.overwrite.is_some(),
        }))
    }

    fn one(&self, deed: &str) -> Result<PathBuf, String> {
        match &self.files[..] {
            [file] => Ok(file.clone()),
            [] => Err(format!("{deed} needs the name of a file")),
            more => {
                let given = more.len();
                Err(format!("{deed} takes one file, and {given} are given"))
            }
        }
    }
}

/// The images may be the only copies there are.
fn apart(out: &Path, images: &[PathBuf]) -> Result<(), String> {
    if place::leads_nowhere(out) {
        return Err("OUT names a link that leads nowhere".to_string());
    }
    match images.iter().any(|image| place::same(image, out)) {
        true => Err("OUT, which comes first, must not name an image".to_string()),
        false => Ok(()),
    }
}

#[cfg(test)]
mod tests {
    use super::*;

    fn parsed(words: &[&str]) -> Result<Wish, String> {
        let words: Vec<OsString> = words.iter().map(OsString::from).collect();
        parse(&words)
    }

    fn refused(words: &[&str], message: &str) {
        assert_eq!(parsed(words), Err(message.to_string()));
    }

    fn pack(images: &[&str], overwrite: bool) -> Wish {
        Wish::Pack(Pack {
            out: "o".into(),
            images: images.iter().map(PathBuf::from).collect(),
            overwrite,
        })
    }

    #[test]
    fn each_deed_has_its_words() {
        for (words, json) in [
            (&["list", "f"][..], false),
            (&["list", "f", "--json"], true),
            (&["list", "--json", "f"], true),
        ] {
            let file = PathBuf::from("f");
            assert_eq!(parsed(words), Ok(Wish::List { file, json }));
        }
        for (words, overwrite) in [
            (&["unpack", "f", "-o", "d"][..], false),
            (&["unpack", "-o", "d", "f"], false),
            (&["unpack", "--overwrite", "-o", "d", "f"], true),
            (&["unpack", "f", "-o", "d", "--overwrite"], true),
        ] {
            let (file, folder) = ("f".into(), "d".into());
            let wish = Unpack {
                file,
                folder,
                overwrite,
            };
            assert_eq!(parsed(words), Ok(Wish::Unpack(wish)));
        }
    }

    #[test]
    fn the_first_name_is_packed_to_and_the_others_in_their_order() {
        for (words, images, overwrite) in [
            (&["pack", "o", "b", "a"][..], &["b", "a"][..], false),
            (&["pack", "--overwrite", "o", "a", "a"], &["a", "a"], true),
            (&["pack", "o", "a", "--overwrite"], &["a"], true),
            // Told by the writer.
            (&["pack", "o"], &[], false),
        ] {
            assert_eq!(parsed(words), Ok(pack(images, overwrite)));
        }
        let many = ["a"; 33];
        let words = [&["pack", "o"], &many[..]].concat();
        assert_eq!(parsed(&words), Ok(pack(&many, false)));
    }

    #[test]
    fn help_goes_before_all_else() {
        for words in [
            &["--help"][..],
            &["fly", "--help"],
            &["unpack", "-o", "--help"],
        ] {
            assert_eq!(parsed(words), Ok(Wish::Help));
        }
    }

    #[test]
    fn wrong_words_are_named() {
        refused(&[], "say what to do: list, pack or unpack");
        refused(
            &["fly\u{7}", "f"],
            "a bundle can be listed, packed or unpacked, not 'fly\\u{7}'",
        );
        for deed in ["list", "unpack"] {
            refused(&[deed], &format!("{deed} needs the name of a file"));
            let two = format!("{deed} takes one file, and 2 are given");
            refused(&[deed, "a", "b"], &two);
        }
        let none = "pack needs the name of the file to write, then the images";
        refused(&["pack", "--overwrite"], none);
        for (deed, flag) in [
            ("list", "-o"),
            ("list", "--overwrite"),
            ("pack", "--json"),
            ("pack", "-o"),
            ("unpack", "--json"),
            ("unpack", "--fast"),
        ] {
            let none = format!("{deed} has no flag that is called {flag}");
            refused(&[deed, "f", flag], &none);
            refused(&[deed, ""], "the name of a file is empty");
        }
        refused(&["list", "--json", "--json"], "--json is given twice");
        let twice = ["pack", "--overwrite", "o", "--overwrite"];
        refused(&twice, "--overwrite is given twice");
    }

    #[test]
    fn a_folder_is_asked_for() {
        refused(&["unpack", "f"], "unpack needs -o DIR as well");
        let needs = "-o needs the name of a folder";
        refused(&["unpack", "f", "-o"], needs);
        refused(&["unpack", "f", "-o", ""], needs);
        refused(&["unpack", "f", "-o", "--overwrite"], needs);
        let twice = ["unpack", "f", "-o", "a", "-o", "a"];
        refused(&twice, "-o is given twice");
    }

    #[test]
    fn an_image_is_known_under_other_names_too() {
        let folder = std::env::temp_dir().join(format!("bundle-names-{}", std::process::id()));
        std::fs::create_dir_all(folder.join("below")).unwrap();
        let name = |file: &str| folder.join(file).to_str().unwrap().to_string();
        std::fs::write(name("f"), "f").unwrap();
        std::fs::hard_link(name("f"), name("hard")).unwrap();
        std::os::unix::fs::symlink(name("f"), name("soft")).unwrap();
        std::os::unix::fs::symlink(name("nowhere"), name("link")).unwrap();
        let packing = |out: &str| parsed(&["pack", &name(out), "i", &name("f")]);
        let why = "OUT, which comes first, must not name an image";
        for out in ["f", "below/../f", "hard", "soft"] {
            assert_eq!(packing(out), Err(why.to_string()));
        }
        let why = "OUT names a link that leads nowhere";
        assert_eq!(packing("link"), Err(why.to_string()));
        assert!(packing("g").is_ok());
        let why = "-o names a link that leads nowhere";
        refused(&["unpack", &name("f"), "-o", &name("link")], why);
        std::fs::remove_dir_all(folder).unwrap();
    }
}
