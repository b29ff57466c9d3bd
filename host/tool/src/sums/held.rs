//! A file with the loader started on it.

use super::words::{How, Kind, Source, Split};
use crate::files::{read_flash, read_image, Image, Wanted, BLOCK_BYTES};
use crate::names::shown;
use crate::screen::counted;
use crate::wire::Wire;
use crate::wrapping::Wrapping;
use mullirim_host::second::ERASED;

pub struct Held {
    pub source: Source,
    /// The bytes of the flash, or of the image without its wrapping.
    pub bytes: usize,
    /// Nothing for a flash, which has none.
    pub wrapping: Option<Wrapping>,
    pub split: Split,
    pub wire: Wire,
}

pub fn hold(source: Source, how: &How) -> Result<Held, String> {
    let split = how.split;
    let (bytes, wrapping, flash) = match source.kind {
        Kind::Image => {
            let image = image(&source, how)?;
            let flash = stand(&image.bytes, split);
            (image.bytes.len(), Some(image.wrapping), flash)
        }
        Kind::Flash => {
            let flash = read_flash(&source.path)?;
            fit_split(split, (flash.len() / BLOCK_BYTES) as u16)
                .map_err(|why| format!("{}: {why}", shown(&source.path)))?;
            (flash.len(), None, flash)
        }
    };
    Ok(Held {
        wire: Wire::start(flash, split.first)?,
        source,
        bytes,
        wrapping,
        split,
    })
}

fn image(source: &Source, how: &How) -> Result<Image, String> {
    let Split { first, blocks } = how.split;
    let room = usize::from(blocks - first) * BLOCK_BYTES;
    let wanted = Wanted {
        path: &source.path,
        plain: how.plain,
    };
    read_image(wanted, first, room)
}

/// The image as a visit leaves it: after it the application is erased. What is
/// in the boot area has no part in the sums.
fn stand(image: &[u8], split: Split) -> Vec<u8> {
    let [first, all] = [split.first, split.blocks].map(|block| usize::from(block) * BLOCK_BYTES);
    let mut flash = vec![ERASED; all];
    flash[first..first + image.len()].copy_from_slice(image);
    flash
}

/// An application saved by itself often has whole blocks too, and would pass for
/// a smaller flash; so the split says how many blocks there must be.
fn fit_split(split: Split, blocks: u16) -> Result<(), String> {
    if split.blocks == blocks {
        return Ok(());
    }
    let Split { first, blocks: all } = split;
    let hint = match blocks <= all - first {
        true => "; an application by itself is an image, for --image",
        false => "",
    };
    let has = counted(usize::from(blocks), "block");
    Err(format!(
        "the flash has {has}, and the split {first}:{all} speaks of {all}{hint}"
    ))
}

impl Held {
    /// The application's blocks, by their numbers.
    pub fn blocks(&self) -> std::ops::Range<usize> {
        usize::from(self.split.first)..usize::from(self.split.blocks)
    }

    pub fn sum(&self, block: usize) -> u32 {
        self.wire.session.sums.block[block]
    }

    pub fn whole(&self) -> u32 {
        self.wire.session.sums.whole
    }

    pub fn block(&self, block: usize) -> &[u8] {
        &self.wire.flash[block * BLOCK_BYTES..][..BLOCK_BYTES]
    }
}

#[cfg(test)]
mod tests {
    use super::*;

    #[test]
    fn a_split_speaks_of_as_many_blocks_as_there_are() {
        let split = |first, blocks| Split { first, blocks };
        assert_eq!(fit_split(split(3, 8), 8), Ok(()));
        let why = "the flash has 49 blocks, and the split 16:64 speaks of 64";
        assert_eq!(fit_split(split(16, 64), 49), Err(why.to_string()));
        let why = "the flash has 48 blocks, and the split 16:64 speaks of 64; \
                   an application by itself is an image, for --image";
        assert_eq!(fit_split(split(16, 64), 48), Err(why.to_string()));
    }
}
