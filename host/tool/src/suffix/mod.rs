//! The suffix of DFU files: shown, checked and added. It is read and written by
//! the proved calls alone.

mod said;
mod words;

pub use said::{for_whom, why, wrong};

use crate::ending::ending;
use crate::files::{at_most, MOST_FILE_BYTES};
use crate::names::shown;
use crate::place;
use crate::screen::Screen;
use crate::store;
use crate::End;
use mullirim_files::suffix::{read, write, Refusal, SIZE};
use std::ffi::OsString;
use std::io::Write;
use std::path::Path;
use words::{Add, Wish};

pub fn run<W: Write>(words: &[OsString], screen: &mut Screen<W>) -> Result<(), End> {
    let went = match words::parse(words).map_err(End::Usage)? {
        Wish::Help => {
            screen.line(words::HELP);
            Ok(())
        }
        Wish::Show { file, json: true } => show_json(&file, screen),
        Wish::Show { file, json: false } => show(&file, screen),
        Wish::Check { file } => check(&file, screen),
        Wish::Add(wanted) => add(&wanted, screen),
    };
    went.map_err(End::Trouble)
}

fn show<W: Write>(path: &Path, screen: &mut Screen<W>) -> Result<(), String> {
    let (parts, length) = read(&whole(path)?).map_err(|refusal| refused(path, refusal))?;
    screen.line(&said::shown(path, parts, length));
    Ok(())
}

/// A program reads the object also of a file that is refused.
fn show_json<W: Write>(path: &Path, screen: &mut Screen<W>) -> Result<(), String> {
    let found = read(&whole(path)?);
    screen.line(&said::json(found));
    match found {
        Ok(_) => Ok(()),
        Err(refusal) => Err(refused(path, refusal)),
    }
}

fn check<W: Write>(path: &Path, screen: &mut Screen<W>) -> Result<(), String> {
    let (parts, length) = read(&whole(path)?).map_err(|refusal| refused(path, refusal))?;
    screen.line(&said::checked(path, parts, length));
    Ok(())
}

fn add<W: Write>(wanted: &Add, screen: &mut Screen<W>) -> Result<(), String> {
    let long = "with its suffix the file has more than";
    let file = at_most(&wanted.file, MOST_FILE_BYTES - SIZE, long, "DFU file")?;
    let mut made = vec![0; file.len() + SIZE];
    let count = write(&file, wanted.parts, &mut made).expect("there is room for both");
    // Asked before another file takes the name.
    let aside = place::would_mix(&wanted.out);
    store::write(&wanted.out, &made[..count])?;
    let mut lines = vec![said::added(&wanted.file, &wanted.out, wanted.parts, count)];
    lines.extend(said::second(&wanted.file, ending(&file)));
    screen.line_aside(aside, &lines.join("\n"));
    Ok(())
}

fn refused(path: &Path, refusal: Refusal) -> String {
    format!("{}: {}", shown(path), why(refusal))
}

fn whole(path: &Path) -> Result<Vec<u8>, String> {
    at_most(path, MOST_FILE_BYTES, "the file has more than", "DFU file")
}
