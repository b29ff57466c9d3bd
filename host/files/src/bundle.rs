//! A site bundle: images packed end to end behind a count and an entry for each.

use crate::raw;
use mullirim_host::layout::{BundleFound, Part, Written};

/// The most images of a bundle.
pub const MOST: usize = 32;

/// The bytes before the images of a bundle of so many.
pub const fn head(count: usize) -> usize {
    2 + 8 * count
}

/// Why a file is refused: the first of these that holds, the entries taken one
/// by one.
#[derive(Clone, Copy, Debug, PartialEq, Eq)]
pub enum Refusal {
    Short = 1,
    Count,
    Table,
    Offset,
    Empty,
    Past,
    LeftOver,
}

impl Refusal {
    pub fn number(self) -> u32 {
        self as u32
    }

    fn of(number: u32) -> Refusal {
        use Refusal::*;
        [Short, Count, Table, Offset, Empty, Past, LeftOver]
            .into_iter()
            .find(|refusal| refusal.number() == number)
            .expect("a refusal is numbered 1 to 7")
    }
}

/// Why no bundle is written: the first of these that holds.
#[derive(Clone, Copy, Debug, PartialEq, Eq)]
pub enum Unwritten {
    Count = 1,
    Empty,
    NoRoom,
    Lengths,
}

impl Unwritten {
    pub fn number(self) -> u32 {
        self as u32
    }

    fn of(number: u32) -> Unwritten {
        use Unwritten::*;
        [Count, Empty, NoRoom, Lengths]
            .into_iter()
            .find(|unwritten| unwritten.number() == number)
            .expect("why nothing was written is numbered 1 to 4")
    }
}

/// How many images there are.
pub fn read(file: &[u8]) -> Result<usize, Refusal> {
    let read = read_as_c(file);
    match read.refused {
        0 => Ok(read.count),
        number => Err(Refusal::of(number)),
    }
}

/// Image k of a bundle, from 0; nothing where the file is no bundle or has no
/// such image.
pub fn image(file: &[u8], k: usize) -> &[u8] {
    let part = image_as_c(file, k);
    &file[part.from..part.from + part.length]
}

/// Writes the bundle of these images to the buffer's front and says how many
/// bytes that are. They come as their lengths, and as their bytes end to end.
pub fn write(lengths: &[u64], images: &[u8], buffer: &mut [u8]) -> Result<usize, Unwritten> {
    let written = write_as_c(lengths, images, buffer);
    match written.refused {
        0 => Ok(written.count),
        number => Err(Unwritten::of(number)),
    }
}

/// All that the call for C hands back, also on a refusal.
pub fn read_as_c(file: &[u8]) -> BundleFound {
    // SAFETY: the slice lends its bytes for the call, which only reads them; a
    // pointer from a slice is not null, also where it is empty.
    unsafe { raw::mullirim_bundle_read(file.as_ptr(), file.len()) }
}

/// All that the call for C hands back, also where there is no such image.
pub fn image_as_c(file: &[u8], k: usize) -> Part {
    // SAFETY: as in `read_as_c`.
    unsafe { raw::mullirim_bundle_image(file.as_ptr(), file.len(), k) }
}

/// All that the call for C hands back, also on a refusal.
pub fn write_as_c(lengths: &[u64], images: &[u8], buffer: &mut [u8]) -> Written {
    // SAFETY: each pointer comes with its slice's own length, and the buffer is
    // borrowed for this call alone.
    unsafe {
        raw::mullirim_bundle_write(
            lengths.as_ptr(),
            lengths.len(),
            images.as_ptr(),
            images.len(),
            buffer.as_mut_ptr(),
            buffer.len(),
        )
    }
}
