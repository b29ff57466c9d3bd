//! What the command lines of all commands have in common.

use crate::names::shown;
use std::ffi::OsString;
use std::path::PathBuf;

/// Help goes before all else.
pub fn asks_for_help(words: &[OsString]) -> bool {
    words.iter().any(|word| word == "--help")
}

pub fn unknown(flag: &str) -> String {
    format!("no flag is called {}", shown(flag))
}

/// A flash file, and what is built in, are taken as they stand anyway.
pub fn plain_alone() -> String {
    "--plain is for an image that is named by --image".to_string()
}

pub fn once<T>(slot: &mut Option<T>, flag: &str, value: T) -> Result<(), String> {
    match slot.replace(value) {
        None => Ok(()),
        Some(_) => Err(format!("{flag} is given twice")),
    }
}

/// A flag is no value: `--save --after` is a name left out.
pub fn value_of(value: Option<OsString>) -> Option<OsString> {
    value.filter(|word| !word.is_empty() && !word.to_string_lossy().starts_with("--"))
}

pub fn file(flag: &str, value: Option<OsString>) -> Result<PathBuf, String> {
    named(flag, value, "file")
}

pub fn folder(flag: &str, value: Option<OsString>) -> Result<PathBuf, String> {
    named(flag, value, "folder")
}

fn named(flag: &str, value: Option<OsString>, what: &str) -> Result<PathBuf, String> {
    match value_of(value) {
        Some(word) => Ok(PathBuf::from(word)),
        None => Err(format!("{flag} needs the name of a {what}")),
    }
}
