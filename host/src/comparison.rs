//! What the programs that compare share: how their words are read, how two sides
//! are held to each other, and how a run without a difference ends.

pub mod files;

use std::borrow::Borrow;
use std::fmt::{Debug, Display};
use std::process::ExitCode;

/// Nothing, or what one side left and what the other awaits.
pub type Same = Result<(), String>;

/// What a flag sets.
pub enum Place<'a> {
    Number(&'a mut u64),
    Switch(&'a mut bool),
}

/// Does what the program's words ask for, or says what is wrong with them.
pub fn begin<A>(
    program: &str,
    help: &str,
    asked_in: fn(&[String]) -> Result<A, String>,
    run: impl FnOnce(&A) -> ExitCode,
) -> ExitCode {
    let words: Vec<String> = std::env::args().skip(1).collect();
    if words.iter().any(|word| word == "--help") {
        println!("{help}");
        return ExitCode::SUCCESS;
    }
    match asked_in(&words) {
        Ok(asked) => run(&asked),
        Err(why) => {
            eprintln!("{program}: {why}\n{help}");
            ExitCode::from(2)
        }
    }
}

/// Reads words into the places of their flags.
pub fn read(words: &[String], mut flags: Vec<(&str, Place)>) -> Result<(), String> {
    let mut words = words.iter();
    while let Some(word) = words.next() {
        let flag = flags.iter_mut().find(|(name, _)| name == word);
        match flag {
            None => return Err(format!("{word} is not known")),
            Some((_, Place::Switch(place))) => **place = true,
            Some((_, Place::Number(place))) => {
                let number = words.next().and_then(|number| number.parse().ok());
                **place = number.ok_or(format!("{word} wants a number"))?;
            }
        }
    }
    Ok(())
}

pub fn same<T: PartialEq + Debug>(what: &str, left: T, awaited: T) -> Same {
    match left == awaited {
        true => Ok(()),
        false => Err(format!("{what} is {left:?}, awaited {awaited:?}")),
    }
}

/// The same for bytes, which are told by their first difference.
pub fn same_bytes(what: &str, left: &[u8], awaited: &[u8]) -> Same {
    if left == awaited {
        return Ok(());
    }
    same(&format!("length of the {what}"), left.len(), awaited.len())?;
    let place = (0..left.len()).find(|place| left[*place] != awaited[*place]);
    place.map_or(Ok(()), |place| {
        let what = format!("byte {place} of the {what}");
        same(&what, left[place], awaited[place])
    })
}

/// A run that never met some row of the paper has compared too little.
pub fn finish(tally: &impl Display, missed: &[impl Borrow<str>]) -> ExitCode {
    if missed.is_empty() {
        println!("{tally}");
        return ExitCode::SUCCESS;
    }
    println!("no difference, but never met: {}", missed.join("; "));
    ExitCode::FAILURE
}

#[cfg(test)]
mod tests {
    use super::*;

    fn reading(words: &[&str]) -> Result<(u64, u64, bool), String> {
        let words: Vec<String> = words.iter().map(|word| word.to_string()).collect();
        let (mut one, mut two, mut on) = (1, 2, false);
        let flags = vec![
            ("--one", Place::Number(&mut one)),
            ("--two", Place::Number(&mut two)),
            ("--on", Place::Switch(&mut on)),
        ];
        read(&words, flags)?;
        Ok((one, two, on))
    }

    #[test]
    fn flags_set_their_places() {
        assert_eq!(reading(&[]), Ok((1, 2, false)));
        assert_eq!(reading(&["--on", "--two", "7"]), Ok((1, 7, true)));
        assert_eq!(reading(&["--one", "3", "--one", "4"]), Ok((4, 2, false)));
    }

    #[test]
    fn other_words_are_refused() {
        let wants = Err("--two wants a number".to_string());
        assert_eq!(reading(&["--two"]), wants);
        assert_eq!(reading(&["--two", "x"]), wants);
        assert_eq!(reading(&["--two", "-1"]), wants);
        for word in ["--tow", "7", "one", ""] {
            let unknown = Err(format!("{word} is not known"));
            assert_eq!(reading(&["--on", word]), unknown);
        }
    }

    #[test]
    fn a_difference_is_told_by_its_place() {
        assert_eq!(same_bytes("flash", &[1, 2], &[1, 2]), Ok(()));
        let second = "byte 1 of the flash is 2, awaited 3".to_string();
        assert_eq!(same_bytes("flash", &[1, 2, 4], &[1, 3, 5]), Err(second));
        let longer = "length of the flash is 2, awaited 1".to_string();
        assert_eq!(same_bytes("flash", &[1, 2], &[1]), Err(longer));
    }

    #[test]
    fn a_missed_row_is_a_failure() {
        let code = |code| format!("{code:?}");
        let none: [&str; 0] = [];
        assert_eq!(code(finish(&"all", &none)), code(ExitCode::SUCCESS));
        assert_eq!(code(finish(&"all", &["a row"])), code(ExitCode::FAILURE));
    }
}
