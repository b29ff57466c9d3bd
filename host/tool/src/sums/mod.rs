//! The sums of a flash, or of an image as it would stand in one, and what
//! differs between two of them. Every sum shown is one that a start of the
//! proved loader filled in.

mod difference;
mod held;
mod json;
mod text;
mod words;

use crate::screen::Screen;
use crate::End;
use difference::difference;
use held::hold;
use std::ffi::OsString;
use std::io::Write;
use words::{How, Source, Wish};

pub fn run<W: Write>(words: &[OsString], screen: &mut Screen<W>) -> Result<(), End> {
    let said = match words::parse(words).map_err(End::Usage)? {
        Wish::Help => Ok(words::help()),
        Wish::One { source, how } => one(source, &how),
        Wish::Two { old, new, how } => two(old, new, &how),
    };
    screen.line(&said.map_err(End::Trouble)?);
    Ok(())
}

fn one(source: Source, how: &How) -> Result<String, String> {
    let held = hold(source, how)?;
    Ok(match how.json {
        true => json::one(&held),
        false => text::one(&held),
    })
}

fn two(old: Source, new: Source, how: &How) -> Result<String, String> {
    let (old, new) = (hold(old, how)?, hold(new, how)?);
    let difference = difference(&old, &new);
    Ok(match how.json {
        true => json::two(&old, &new, &difference),
        false => text::two(&old, &new, &difference),
    })
}
