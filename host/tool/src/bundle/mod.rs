//! Site bundles: listed, packed and unpacked. They are read and written by the
//! proved calls alone, and the sums are the proved one's.

mod fault;
mod said;
mod words;

use crate::files::{at_most, MOST_FILE_BYTES};
use crate::names::shown;
use crate::place;
use crate::screen::Screen;
use crate::store;
use crate::End;
use mullirim_files::bundle::{head, image, read, write, Refusal, Unwritten, MOST};
use std::ffi::OsString;
use std::fs;
use std::io::Write;
use std::path::{Path, PathBuf};
use words::{Pack, Unpack, Wish};

pub fn run<W: Write>(words: &[OsString], screen: &mut Screen<W>) -> Result<(), End> {
    let went = match words::parse(words).map_err(End::Usage)? {
        Wish::Help => {
            screen.line(words::HELP);
            Ok(())
        }
        Wish::List { file, json: true } => list_json(&file, screen),
        Wish::List { file, json: false } => list(&file, screen),
        Wish::Pack(wanted) => {
            let count = fit_count(&wanted.images);
            count.map_err(End::Usage)?;
            pack(&wanted, screen)
        }
        Wish::Unpack(wanted) => unpack(&wanted, screen),
    };
    went.map_err(End::Trouble)
}

fn list<W: Write>(path: &Path, screen: &mut Screen<W>) -> Result<(), String> {
    let file = whole(path)?;
    let images = images(&file).map_err(|refusal| said::refused(path, &file, refusal))?;
    screen.line(&said::listed(&images));
    Ok(())
}

/// A program reads the object also of a file that is refused.
fn list_json<W: Write>(path: &Path, screen: &mut Screen<W>) -> Result<(), String> {
    let file = whole(path)?;
    let found = images(&file);
    screen.line(&said::json(&found));
    match found {
        Ok(_) => Ok(()),
        Err(refusal) => Err(said::refused(path, &file, refusal)),
    }
}

fn whole(path: &Path) -> Result<Vec<u8>, String> {
    at_most(path, MOST_FILE_BYTES, "the file has more than", "bundle")
}

fn images(file: &[u8]) -> Result<Vec<&[u8]>, Refusal> {
    let count = read(file)?;
    Ok((0..count).map(|number| image(file, number)).collect())
}

/// How many there may be is the writer's to say, and it looks at that before all
/// else; so it is asked before a file is read, with lengths that pass.
fn fit_count(images: &[PathBuf]) -> Result<(), String> {
    let lengths = vec![1; images.len()];
    match write(&lengths, &[], &mut []) {
        Err(Unwritten::Count) => Err(said::unwritten(Unwritten::Count, images, &lengths)),
        _ => Ok(()),
    }
}

fn pack<W: Write>(wanted: &Pack, screen: &mut Screen<W>) -> Result<(), String> {
    let made = packed(&wanted.images)?;
    // Asked before another file takes the name.
    let aside = place::would_mix(&wanted.out);
    put(wanted, &made)?;
    let back = match aside {
        // Nothing can be read from there.
        true => made,
        false => read_back(&wanted.out, made)?,
    };
    let count = read(&back).map_err(|refusal| said::refused(&wanted.out, &back, refusal))?;
    screen.line_aside(aside, &said::packed(&wanted.out, count, back.len()));
    Ok(())
}

fn packed(images: &[PathBuf]) -> Result<Vec<u8>, String> {
    let head = head(images.len());
    let mut lengths = Vec::new();
    let mut bytes = Vec::new();
    for path in images {
        let room = MOST_FILE_BYTES - head - bytes.len();
        let image = at_most(path, room, "with it the bundle has more than", "one")?;
        lengths.push(image.len() as u64);
        bytes.extend(image);
    }
    let mut made = vec![0; head + bytes.len()];
    let count =
        write(&lengths, &bytes, &mut made).map_err(|why| said::unwritten(why, images, &lengths))?;
    made.truncate(count);
    Ok(made)
}

/// A device or a pipe holds nothing that could be lost.
fn put(wanted: &Pack, made: &[u8]) -> Result<(), String> {
    let out = &wanted.out;
    match (wanted.overwrite, out.metadata()) {
        (false, Ok(found)) if found.is_file() => Err(store::taken(out)),
        (false, Err(_)) => store::write_all(&[(out.clone(), made)], false),
        _ => store::write(out, made),
    }
}

/// What stands there now, which must be what was written.
fn read_back(out: &Path, written: Vec<u8>) -> Result<Vec<u8>, String> {
    let back = whole(out)?;
    match back == written {
        true => Ok(back),
        false => Err(format!(
            "{}: what is read from there is not what was written",
            shown(out)
        )),
    }
}

fn unpack<W: Write>(wanted: &Unpack, screen: &mut Screen<W>) -> Result<(), String> {
    let Unpack {
        file: path,
        folder,
        overwrite,
    } = wanted;
    let file = whole(path)?;
    let images = images(&file).map_err(|refusal| said::refused(path, &file, refusal))?;
    let names = (0..).map(|number| folder.join(name(number)));
    let files: Vec<store::Wanted> = names.zip(images).collect();
    if let Some((target, _)) = files.iter().find(|(target, _)| place::same(path, target)) {
        let target = shown(target);
        return Err(format!("{target} is the file that is read, and stays"));
    }
    in_folder(folder, || store::write_all(&files, *overwrite))?;
    screen.line(&said::unpacked(&files, &others(folder, files.len())));
    Ok(())
}

/// The name of an image's file. None of it comes from the bundle.
fn name(number: usize) -> String {
    format!("image-{number:02}.bin")
}

/// Does this with a folder that is there, or is made and goes again where it
/// can't be done.
fn in_folder(folder: &Path, act: impl FnOnce() -> Result<(), String>) -> Result<(), String> {
    let made = make(folder)?;
    let went = act();
    if made && went.is_err() {
        // It stays where something is in it; the first error is the one to tell.
        let _ = fs::remove_dir(folder);
    }
    went
}

/// Whether the folder had to be made.
fn make(folder: &Path) -> Result<bool, String> {
    match folder.metadata() {
        Ok(found) if found.is_dir() => Ok(false),
        Ok(_) => Err(format!("{} is no folder", shown(folder))),
        Err(_) => match fs::create_dir(folder) {
            Ok(()) => Ok(true),
            Err(error) => Err(format!("can't make the folder {}: {error}", shown(folder))),
        },
    }
}

/// Files that stand in the folder as if they were further images of a bundle of
/// so many.
fn others(folder: &Path, count: usize) -> Vec<PathBuf> {
    let names = (count..MOST).map(|number| folder.join(name(number)));
    names
        .filter(|path| path.symlink_metadata().is_ok())
        .collect()
}

#[cfg(test)]
mod tests {
    use super::*;

    #[test]
    fn names_have_two_digits() {
        let names = [0, 9, 10, MOST - 1].map(name);
        let awaited = [
            "image-00.bin",
            "image-09.bin",
            "image-10.bin",
            "image-31.bin",
        ];
        assert_eq!(names, awaited);
    }

    #[test]
    fn what_is_read_back_must_be_what_was_written() {
        let out = std::env::temp_dir().join(format!("mullirim-back-{}", std::process::id()));
        fs::write(&out, b"written").unwrap();
        let same = read_back(&out, b"written".to_vec());
        let other = read_back(&out, b"writtem".to_vec());
        fs::remove_file(&out).unwrap();
        assert_eq!(same, Ok(b"written".to_vec()));
        let why = "what is read from there is not what was written";
        assert_eq!(other, Err(format!("{}: {why}", out.display())));
    }
}
