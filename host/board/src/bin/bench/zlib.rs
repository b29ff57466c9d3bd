//! zlib's CRC-32 and its join of two, where the machine has them. They are looked
//! for when the program runs, so that building needs no zlib.

use std::ffi::{c_char, c_int, c_long, c_uint, c_ulong, c_void, CStr};
use std::mem::transmute;

type Crc32 = unsafe extern "C" fn(c_ulong, *const u8, c_uint) -> c_ulong;
type Crc32Combine = unsafe extern "C" fn(c_ulong, c_ulong, c_long) -> c_ulong;

extern "C" {
    fn dlopen(name: *const c_char, mode: c_int) -> *mut c_void;
    fn dlsym(library: *mut c_void, name: *const c_char) -> *mut c_void;
}

const LIBRARY: &CStr = c"libz.so.1";
/// Every name is found at once or the library isn't taken.
const NOW: c_int = 2;

/// Where zlib has the function of this name.
fn found(name: &CStr) -> Option<*mut c_void> {
    // SAFETY: both names end in a zero byte and live as long as the call. The
    // library is never closed, so what it lends stays.
    let found = unsafe {
        let library = dlopen(LIBRARY.as_ptr(), NOW);
        match library.is_null() {
            true => library,
            false => dlsym(library, name.as_ptr()),
        }
    };
    (!found.is_null()).then_some(found)
}

pub struct Zlib {
    crc32: Crc32,
}

impl Zlib {
    pub fn find() -> Option<Zlib> {
        // SAFETY: what is found is zlib's `crc32`, and `Crc32` is its type in
        // zlib.h: long, pointer, int, giving a long.
        found(c"crc32").map(|found| Zlib {
            crc32: unsafe { transmute::<*mut c_void, Crc32>(found) },
        })
    }

    /// The sum without zlib's last complement, as the paper's is.
    pub fn sum(&self, bytes: &[u8]) -> u32 {
        let length = c_uint::try_from(bytes.len()).expect("a length of 32 bits");
        // SAFETY: the slice lends `length` bytes for the call.
        let sum = unsafe { (self.crc32)(0, bytes.as_ptr(), length) };
        !(sum as u32)
    }
}

pub struct Combine {
    combine: Crc32Combine,
}

impl Combine {
    pub fn find() -> Option<Combine> {
        // SAFETY: what is found is zlib's `crc32_combine`, and `Crc32Combine` is
        // its type in zlib.h: two longs and an offset, which is a long where a
        // pointer has 64 bits, giving a long.
        found(c"crc32_combine").map(|found| Combine {
            combine: unsafe { transmute::<*mut c_void, Crc32Combine>(found) },
        })
    }

    /// The join of two of the paper's sums, the second over so many bytes. zlib's
    /// have the last complement.
    pub fn join(&self, before: u32, behind: u32, length: usize) -> u32 {
        let [before, behind] = [before, behind].map(|sum| c_ulong::from(!sum));
        // SAFETY: only numbers are handed over.
        let sum = unsafe { (self.combine)(before, behind, length as c_long) };
        !(sum as u32)
    }
}

#[cfg(test)]
mod tests {
    use super::*;
    use crate::noise;
    use mullirim_host::second;

    /// Without zlib this fails: the compiler and git can't do without it either,
    /// so a machine that builds the library has it.
    #[test]
    fn sums_and_joins_are_the_papers() {
        let zlib = Zlib::find().expect("libz.so.1");
        let combine = Combine::find().expect("crc32_combine in libz.so.1");
        let bytes = noise(3_000);
        assert_eq!(zlib.sum(&bytes), second::sum(&bytes));
        for length in [0, 1, 1_024, 3_000] {
            let (before, behind) = bytes.split_at(3_000 - length);
            let [before, behind] = [before, behind].map(second::sum);
            assert_eq!(combine.join(before, behind, length), second::sum(&bytes));
        }
    }
}
