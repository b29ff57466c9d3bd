//! What a visit is to do. All inputs are judged here, before anything starts
//! and before any file is written.

use super::tariff;
use super::words::Words;
use crate::files::{read_flash, read_image, Image, BLOCK_BYTES};
use crate::names::shown;
use crate::screen::counted;
use std::path::PathBuf;

/// Where the application starts, unless another block is named.
pub const USUAL_SPLIT: u16 = 16;

#[derive(Debug)]
pub struct Plan {
    pub flash: Vec<u8>,
    pub flash_name: String,
    pub first: u16,
    /// Whether the application is erased before the download.
    pub erase: bool,
    pub image: Vec<u8>,
    pub image_name: String,
    /// What a technician should know of the image before anything is done with
    /// it; nothing of the built-in one.
    pub found: Vec<String>,
    /// What the image corrects, where that is known.
    pub notes: Vec<String>,
    pub save: Option<PathBuf>,
    pub after: Option<PathBuf>,
}

pub fn judge(words: Words) -> Result<Plan, String> {
    let given = words.flash.as_deref().map(read_flash).transpose()?;
    let blocks = given
        .as_ref()
        .map_or(tariff::BLOCKS, |flash| blocks_of(flash));
    let first = fit_split(words.split.unwrap_or(USUAL_SPLIT), blocks)?;
    let room = usize::from(blocks - first) * BLOCK_BYTES;
    let image_name = name(&words.image, "the built-in corrected image");
    let (image, found) = match words.wanted() {
        Some(wanted) => {
            let image = read_image(wanted, first, room)?;
            let found = found(&image_name, &image);
            (image.bytes, found)
        }
        None => (tariff::corrected(room), Vec::new()),
    };
    let notes = match (&words.flash, &words.image) {
        (None, None) => tariff::notes(room),
        _ => Vec::new(),
    };
    Ok(Plan {
        flash_name: name(&words.flash, "the built-in flash with the old tariff"),
        flash: given.unwrap_or_else(|| tariff::flash(first)),
        first,
        erase: words.no_erase.is_none(),
        image_name,
        image,
        found,
        notes,
        save: words.save,
        after: words.after,
    })
}

fn found(name: &str, image: &Image) -> Vec<String> {
    let Image { bytes, wrapping } = image;
    let mut lines = vec![format!("image {name}, {}", counted(bytes.len(), "byte"))];
    lines.extend(wrapping.told());
    lines.extend(wrapping.vouched().map(str::to_string));
    lines
}

fn name(path: &Option<PathBuf>, built_in: &str) -> String {
    match path {
        Some(path) => shown(path),
        None => built_in.to_string(),
    }
}

fn blocks_of(flash: &[u8]) -> u16 {
    (flash.len() / BLOCK_BYTES) as u16
}

fn fit_split(first: u16, blocks: u16) -> Result<u16, String> {
    if 1 <= first && first < blocks {
        return Ok(first);
    }
    let fitting = match blocks {
        2 => "1".to_string(),
        _ => format!("1 to {}", blocks - 1),
    };
    Err(format!(
        "with {blocks} blocks of flash the application can't start at block {first}; \
         --split {fitting} would fit"
    ))
}

#[cfg(test)]
mod tests {
    use super::*;

    fn refused(words: Words) -> String {
        judge(words).unwrap_err()
    }

    #[test]
    fn without_files_all_is_built_in() {
        let plan = judge(Words::default()).unwrap();
        assert_eq!((plan.flash.len(), plan.first), (65_536, 16));
        assert!(plan.erase);
        assert_eq!(plan.image.len(), 24_576);
        assert_eq!(plan.notes.len(), 2);
    }

    #[test]
    fn a_built_in_flash_follows_the_split() {
        let split = Some(63);
        let plan = judge(Words {
            split,
            ..Words::default()
        })
        .unwrap();
        assert_eq!((plan.flash.len(), plan.image.len()), (65_536, 1_024));
        assert!(plan.flash[64_512..].starts_with(b"TARIFF"));
    }

    #[test]
    fn a_split_leaves_a_block_on_both_sides() {
        assert_eq!(fit_split(1, 2), Ok(1));
        assert_eq!(fit_split(63, 64), Ok(63));
        for (first, blocks, fitting) in [(0, 64, "1 to 63"), (64, 64, "1 to 63"), (16, 2, "1")] {
            let why = format!(
                "with {blocks} blocks of flash the application can't start at block {first}; \
                 --split {fitting} would fit"
            );
            assert_eq!(fit_split(first, blocks), Err(why));
        }
        let split = Some(64);
        let why = refused(Words {
            split,
            ..Words::default()
        });
        assert!(why.ends_with("--split 1 to 63 would fit"));
    }

    #[test]
    fn a_file_that_is_not_there_is_named() {
        let path = Some(PathBuf::from("no-such-folder/no-such-file"));
        let begin = "can't read no-such-folder/no-such-file: ";
        let flash = path.clone();
        assert!(refused(Words {
            flash,
            ..Words::default()
        })
        .starts_with(begin));
        let image = path;
        assert!(refused(Words {
            image,
            ..Words::default()
        })
        .starts_with(begin));
    }
}
