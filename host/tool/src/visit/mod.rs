//! A technician's visit on a simulated board: the old tariff is read back, the
//! corrected one is put in its place, and the sums are shown before and after.
//! Every transfer goes through the proved calls.

mod plan;
mod steps;
mod sums;
mod tariff;
mod unerased;
mod words;

pub use plan::USUAL_SPLIT;
pub use sums::row;
pub use tariff::BLOCKS as USUAL_BLOCKS;

use crate::screen::Screen;
use crate::End;
use std::ffi::OsString;
use std::io::Write;
use words::Wish;

pub fn run<W: Write>(words: &[OsString], screen: &mut Screen<W>) -> Result<(), End> {
    match words::parse(words).map_err(End::Usage)? {
        Wish::Help => {
            screen.line(&words::help());
            Ok(())
        }
        Wish::Visit(words) => {
            let plan = plan::judge(words).map_err(End::Trouble)?;
            steps::visit(&plan, screen).map_err(End::Trouble)
        }
    }
}

#[cfg(test)]
mod tests {
    use super::*;
    use std::fs;
    use std::path::PathBuf;

    fn shown(words: &[&str]) -> (Result<(), End>, String) {
        let mut out = Vec::new();
        let words: Vec<OsString> = words.iter().map(OsString::from).collect();
        let went = run(&words, &mut Screen::new(&mut out, None));
        (went, String::from_utf8(out).unwrap())
    }

    /// A folder of this test's own.
    fn folder(name: &str) -> PathBuf {
        let path = std::env::temp_dir().join(format!("visit-{name}-{}", std::process::id()));
        fs::create_dir_all(&path).unwrap();
        path
    }

    #[test]
    fn a_visit_without_flags_is_short_and_always_the_same() {
        let (went, text) = shown(&[]);
        assert_eq!(went, Ok(()));
        assert!((20..=35).contains(&text.lines().count()));
        assert!(text.lines().all(|line| line.len() < 80));
        assert_eq!(shown(&[]).1, text);
    }

    #[test]
    fn help_names_every_flag() {
        let (went, text) = shown(&["--help"]);
        assert_eq!(went, Ok(()));
        for flag in "--flash --image --plain --split --no-erase --save --after".split(' ') {
            assert!(text.contains(flag));
        }
    }

    #[test]
    fn wrong_words_and_wrong_inputs_end_differently() {
        let (went, text) = shown(&["--fast"]);
        assert_eq!(went, Err(End::Usage("no flag is called --fast".into())));
        assert_eq!(text, "");
        let (went, text) = shown(&["--split", "64"]);
        assert!(matches!(went, Err(End::Trouble(_))));
        assert_eq!(text, "");
    }

    #[test]
    fn a_refused_input_writes_no_file() {
        let place = folder("refused");
        let (save, after) = (place.join("save"), place.join("after"));
        let words = ["--split", "0", "--save", save.to_str().unwrap()];
        let more = ["--after", after.to_str().unwrap()];
        let (went, _) = shown(&[&words[..], &more[..]].concat());
        assert!(matches!(went, Err(End::Trouble(_))));
        assert!(!save.exists() && !after.exists());
        fs::remove_dir_all(place).unwrap();
    }

    #[test]
    fn a_second_visit_with_the_read_back_restores_the_flash() {
        let place = folder("restore");
        let name = |file: &str| place.join(file).to_str().unwrap().to_string();
        let first: Vec<u8> = (0..6 * 1_024_u32).map(|i| (i % 253) as u8).collect();
        fs::write(name("flash"), &first).unwrap();
        fs::write(name("image"), [0x42; 1_500]).unwrap();
        let split = ["--split", "2"];
        let inputs = ["--flash", &name("flash"), "--image", &name("image")];
        let outputs = ["--save", &name("save"), "--after", &name("after")];
        assert_eq!(shown(&[&split[..], &inputs, &outputs].concat()).0, Ok(()));
        assert_eq!(fs::read(name("save")).unwrap(), first[2_048..]);
        let left = [&first[..2_048], &[0x42; 1_500], &[0xFF; 2_596]].concat();
        assert_eq!(fs::read(name("after")).unwrap(), left);
        let inputs = ["--flash", &name("after"), "--image", &name("save")];
        let outputs = ["--after", &name("again")];
        assert_eq!(shown(&[&split[..], &inputs, &outputs].concat()).0, Ok(()));
        assert_eq!(fs::read(name("again")).unwrap(), first);
        fs::remove_dir_all(place).unwrap();
    }
}
