//! The words of the command line.

use crate::names::shown;
use crate::place;
use crate::words::{asks_for_help, file, once, value_of};
use mullirim_files::suffix::Parts;
use std::ffi::{OsStr, OsString};
use std::path::{Path, PathBuf};

pub const HELP: &str = "\
mullirim suffix: the last 16 bytes of DFU files, which say for whom a file is
and hold the sum of all before them

  mullirim suffix show FILE     for which device, product and vendor the file
                                is, and the length of its image
  mullirim suffix check FILE    whether the file is whole, and for whom
  mullirim suffix add FILE --device N --product N --vendor N -o OUT
                                write the file with a suffix behind it to OUT,
                                another file; what stands there is written over

  --json   for show: one JSON object, also where the file is refused
  --help   this text

Numbers are decimal, or hex after 0x (dfu-suffix takes hex without it), from 0
to 65535. A file has at most 64 MiB with its suffix.
Exit: 0 done, 1 a file that is refused or can't be used, 2 wrong use.";

/// What the command line asks for.
#[derive(Debug, PartialEq)]
pub enum Wish {
    Help,
    Show { file: PathBuf, json: bool },
    Check { file: PathBuf },
    Add(Add),
}

#[derive(Debug, PartialEq)]
pub struct Add {
    pub file: PathBuf,
    pub parts: Parts,
    pub out: PathBuf,
}

#[derive(Default)]
struct Words {
    files: Vec<PathBuf>,
    json: Option<()>,
    device: Option<u16>,
    product: Option<u16>,
    vendor: Option<u16>,
    out: Option<PathBuf>,
}

/// What can be done, and the flags that go with it.
const DEEDS: [(&str, &[&str]); 3] = [
    ("show", &["--json"]),
    ("check", &[]),
    ("add", &["--device", "--product", "--vendor", "-o"]),
];

pub fn parse(words: &[OsString]) -> Result<Wish, String> {
    if asks_for_help(words) {
        return Ok(Wish::Help);
    }
    let Some((deed, rest)) = words.split_first() else {
        return Err("say what to do: show, check or add".to_string());
    };
    let Some((deed, flags)) = DEEDS.iter().find(|(name, _)| deed == name) else {
        let deed = shown(deed);
        return Err(format!(
            "a suffix can be shown, checked or added, not '{deed}'"
        ));
    };
    let mut found = Words::default();
    let mut rest = rest.iter().cloned();
    while let Some(word) = rest.next() {
        found.take(deed, flags, &word, &mut rest)?;
    }
    found.wish(deed)
}

impl Words {
    fn take(
        &mut self,
        deed: &str,
        flags: &[&str],
        word: &OsStr,
        rest: &mut impl Iterator<Item = OsString>,
    ) -> Result<(), String> {
        match &*word.to_string_lossy() {
            flag if flag.starts_with('-') && !flags.contains(&flag) => {
                return Err(format!("{deed} has no flag that is called {}", shown(flag)));
            }
            flag @ "--json" => once(&mut self.json, flag, ())?,
            flag @ "--device" => once(&mut self.device, flag, number(flag, rest.next())?)?,
            flag @ "--product" => once(&mut self.product, flag, number(flag, rest.next())?)?,
            flag @ "--vendor" => once(&mut self.vendor, flag, number(flag, rest.next())?)?,
            flag @ "-o" => once(&mut self.out, flag, file(flag, rest.next())?)?,
            "" => return Err("the name of a file is empty".to_string()),
            _ => self.files.push(PathBuf::from(word)),
        }
        Ok(())
    }

    fn wish(self, deed: &str) -> Result<Wish, String> {
        let file = match &self.files[..] {
            [file] => file.clone(),
            [] => return Err(format!("{deed} needs the name of a file")),
            more => {
                let given = more.len();
                return Err(format!("{deed} takes one file, and {given} are given"));
            }
        };
        Ok(match deed {
            "show" => Wish::Show {
                file,
                json: self.json.is_some(),
            },
            "check" => Wish::Check { file },
            _ => Wish::Add(self.add(file)?),
        })
    }

    fn add(self, file: PathBuf) -> Result<Add, String> {
        let parts = Parts {
            device: given(self.device, "--device N")?,
            product: given(self.product, "--product N")?,
            vendor: given(self.vendor, "--vendor N")?,
        };
        let out = given(self.out, "-o OUT")?;
        apart(&file, &out)?;
        Ok(Add { file, parts, out })
    }
}

/// No number is guessed: a suffix for any board is a choice to be made aloud.
fn given<T>(value: Option<T>, flag: &str) -> Result<T, String> {
    value.ok_or_else(|| format!("add needs {flag} as well"))
}

/// The input may be the only copy there is.
fn apart(input: &Path, out: &Path) -> Result<(), String> {
    if place::leads_nowhere(out) {
        return Err("-o names a link that leads nowhere".to_string());
    }
    match place::same(input, out) {
        true => Err("-o must not name the file that is read".to_string()),
        false => Ok(()),
    }
}

fn number(flag: &str, value: Option<OsString>) -> Result<u16, String> {
    let word = value_of(value).ok_or_else(|| format!("{flag} needs a number"))?;
    let text = shown(word);
    numeral(&text).ok_or_else(|| {
        format!(
            "{flag} takes a number from 0 to 65535, decimal or in hex after 0x, \
             and '{text}' is none"
        )
    })
}

/// Digits alone, behind the 0x; a sign would be a slip too.
fn numeral(text: &str) -> Option<u16> {
    let (digits, base) = match text.strip_prefix("0x") {
        Some(digits) => (digits, 16),
        None => (text, 10),
    };
    let digits_alone = digits.chars().all(|digit| digit.is_digit(base));
    u16::from_str_radix(digits, base)
        .ok()
        .filter(|_| digits_alone)
}

#[cfg(test)]
mod tests {
    use super::*;

    fn parsed(words: &[&str]) -> Result<Wish, String> {
        let words: Vec<OsString> = words.iter().map(OsString::from).collect();
        parse(&words)
    }

    fn refused(words: &[&str], message: &str) {
        assert_eq!(parsed(words), Err(message.to_string()));
    }

    const NUMBERS: [&str; 6] = ["--device", "1", "--product", "0x2", "--vendor", "0xFFff"];

    fn added() -> Wish {
        let (device, product, vendor) = (1, 2, 65_535);
        Wish::Add(Add {
            file: "f".into(),
            parts: Parts {
                device,
                product,
                vendor,
            },
            out: "o".into(),
        })
    }

    #[test]
    fn each_deed_has_its_words() {
        let file = || PathBuf::from("f");
        for (words, json) in [
            (&["show", "f"][..], false),
            (&["show", "f", "--json"], true),
            (&["show", "--json", "f"], true),
        ] {
            assert_eq!(parsed(words), Ok(Wish::Show { file: file(), json }));
        }
        let check = Wish::Check { file: file() };
        assert_eq!(parsed(&["check", "f"]), Ok(check));
        let words = [&["add", "f"], &NUMBERS[..], &["-o", "o"]].concat();
        assert_eq!(parsed(&words), Ok(added()));
        let words = [&["add", "-o", "o"], &NUMBERS[..], &["f"]].concat();
        assert_eq!(parsed(&words), Ok(added()));
    }

    #[test]
    fn help_goes_before_all_else() {
        for words in [
            &["--help"][..],
            &["fly", "--help"],
            &["add", "-o", "--help"],
        ] {
            assert_eq!(parsed(words), Ok(Wish::Help));
        }
    }

    #[test]
    fn wrong_words_are_named() {
        refused(&[], "say what to do: show, check or add");
        refused(
            &["fly\u{7}", "f"],
            "a suffix can be shown, checked or added, not 'fly\\u{7}'",
        );
        for deed in ["show", "check", "add"] {
            refused(&[deed], &format!("{deed} needs the name of a file"));
            refused(&[deed, ""], "the name of a file is empty");
            let two = format!("{deed} takes one file, and 2 are given");
            refused(&[deed, "a", "b"], &two);
            let fast = format!("{deed} has no flag that is called --fast");
            refused(&[deed, "f", "--fast"], &fast);
        }
        for (deed, flag) in [("check", "--json"), ("show", "-o"), ("add", "--json")] {
            let none = format!("{deed} has no flag that is called {flag}");
            refused(&[deed, "f", flag], &none);
        }
        refused(&["show", "--json", "--json"], "--json is given twice");
    }

    #[test]
    fn all_that_is_added_is_asked_for() {
        let all = [&NUMBERS[..], &["-o", "o"]].concat();
        for (left_out, value) in [
            ("--device", "N"),
            ("--product", "N"),
            ("--vendor", "N"),
            ("-o", "OUT"),
        ] {
            let pairs = all.chunks(2).filter(|pair| pair[0] != left_out);
            let words: Vec<&str> = pairs.flatten().copied().collect();
            let words = [&["add", "f"], &words[..]].concat();
            refused(&words, &format!("add needs {left_out} {value} as well"));
        }
        for (flag, value) in [("--device", "1"), ("--vendor", "1"), ("-o", "o")] {
            let twice = ["add", "f", flag, value, flag, value];
            refused(&twice, &format!("{flag} is given twice"));
        }
        refused(&["add", "f", "-o"], "-o needs the name of a file");
        refused(
            &["add", "f", "--device", "--product", "1"],
            "--device needs a number",
        );
    }

    #[test]
    fn numbers_are_decimal_or_hex() {
        let taken = [
            ("0", 0),
            ("9", 9),
            ("65535", 65_535),
            ("0065535", 65_535),
            ("0x0", 0),
            ("0x1209", 0x1209),
            ("0xabCD", 0xABCD),
            ("0xFFFF", 65_535),
            ("0x0ffff", 65_535),
        ];
        for (word, value) in taken {
            assert_eq!(numeral(word), Some(value), "{word}");
        }
    }

    #[test]
    fn nothing_else_is_a_number() {
        let words = "65536 99999999999999999999 0x10000 -1 +1 0x+1 0x-1 1209h abc 0x x1 0X12 0xG \
                     1_0 1.5 0b1 0x0x1 ١";
        for word in words.split(' ').chain(["1 ", " 1", "\t"]) {
            assert_eq!(numeral(word), None, "{word}");
        }
        for flag in ["--device", "--product", "--vendor"] {
            let why = "takes a number from 0 to 65535, decimal or in hex after 0x, and";
            let why = format!("{flag} {why} '\\u{{1b}}' is none");
            refused(&["add", "f", flag, "\x1b"], &why);
        }
    }

    #[test]
    fn the_input_is_known_under_other_names_too() {
        let folder = std::env::temp_dir().join(format!("suffix-names-{}", std::process::id()));
        std::fs::create_dir_all(folder.join("below")).unwrap();
        let name = |file: &str| folder.join(file).to_str().unwrap().to_string();
        std::fs::write(name("f"), "f").unwrap();
        std::fs::hard_link(name("f"), name("hard")).unwrap();
        std::os::unix::fs::symlink(name("f"), name("soft")).unwrap();
        std::os::unix::fs::symlink(name("nowhere"), name("link")).unwrap();
        let adding = |out: &str| {
            let (file, out) = (name("f"), name(out));
            parsed(&[&["add", &file, "-o", &out], &NUMBERS[..]].concat())
        };
        let why = "-o must not name the file that is read";
        for out in ["f", "below/../f", "hard", "soft"] {
            assert_eq!(adding(out), Err(why.to_string()));
        }
        let why = "-o names a link that leads nowhere";
        assert_eq!(adding("link"), Err(why.to_string()));
        assert!(adding("g").is_ok());
        std::fs::remove_dir_all(folder).unwrap();
    }
}
