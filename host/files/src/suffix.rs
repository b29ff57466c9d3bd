//! The suffix of a DFU file.

use crate::raw;
use mullirim_host::layout::{SuffixFound, Written};

pub use mullirim_host::layout::Parts;

/// The bytes of a suffix.
pub const SIZE: usize = 16;

/// Why a file is refused: the first of these that holds.
#[derive(Clone, Copy, Debug, PartialEq, Eq)]
pub enum Refusal {
    Short = 1,
    Signature,
    Length,
    Version,
    Sum,
}

impl Refusal {
    pub fn number(self) -> u16 {
        self as u16
    }

    fn of(number: u16) -> Refusal {
        use Refusal::*;
        [Short, Signature, Length, Version, Sum]
            .into_iter()
            .find(|refusal| refusal.number() == number)
            .expect("a refusal is numbered 1 to 5")
    }
}

/// The parts, and how many bytes stand before the suffix.
pub fn read(file: &[u8]) -> Result<(Parts, usize), Refusal> {
    let read = read_as_c(file);
    match read.refused {
        0 => Ok((read.parts, read.length)),
        number => Err(Refusal::of(number)),
    }
}

/// Writes the file and its suffix to the buffer's front and says how many bytes
/// that are; or nothing, where there is too little room.
pub fn write(file: &[u8], parts: Parts, buffer: &mut [u8]) -> Option<usize> {
    let written = write_as_c(file, parts, buffer);
    (written.refused == 0).then_some(written.count)
}

/// All that the call for C hands back, also on a refusal.
pub fn read_as_c(file: &[u8]) -> SuffixFound {
    // SAFETY: the slice lends its bytes for the call, which only reads them; a
    // pointer from a slice is not null, also where it is empty.
    unsafe { raw::mullirim_suffix_read(file.as_ptr(), file.len()) }
}

/// All that the call for C hands back, also on a refusal.
pub fn write_as_c(file: &[u8], parts: Parts, buffer: &mut [u8]) -> Written {
    // SAFETY: each pointer comes with its slice's own length, and the buffer is
    // borrowed for this call alone.
    unsafe {
        raw::mullirim_suffix_write(
            file.as_ptr(),
            file.len(),
            parts,
            buffer.as_mut_ptr(),
            buffer.len(),
        )
    }
}
