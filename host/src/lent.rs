//! Bytes that a call is lent: a few, or over 4 GiB, to see a length that is cut
//! to 32 bits. Of so many only the front is kept; the system shows one page of
//! zeros for all the others, and lets nobody write to them.

use std::ffi::{c_int, c_void};
use std::ops::{Deref, DerefMut};
use std::ptr::null_mut;
use std::slice::{from_raw_parts, from_raw_parts_mut};

pub enum Lent {
    Few(Vec<u8>),
    Vast(Vast),
}

impl Lent {
    /// The bytes that can differ from zero.
    pub fn told(&self) -> &[u8] {
        match self {
            Lent::Few(bytes) => bytes,
            Lent::Vast(bytes) => &bytes[..FRONT],
        }
    }

    pub fn is_vast(&self) -> bool {
        matches!(self, Lent::Vast(_))
    }
}

impl Deref for Lent {
    type Target = [u8];

    fn deref(&self) -> &[u8] {
        match self {
            Lent::Few(bytes) => bytes,
            Lent::Vast(bytes) => bytes,
        }
    }
}

impl DerefMut for Lent {
    fn deref_mut(&mut self) -> &mut [u8] {
        match self {
            Lent::Few(bytes) => bytes,
            Lent::Vast(bytes) => bytes,
        }
    }
}

impl Clone for Lent {
    fn clone(&self) -> Lent {
        match self {
            Lent::Few(bytes) => Lent::Few(bytes.clone()),
            Lent::Vast(bytes) => Lent::Vast(Vast::new(self.told(), bytes.len())),
        }
    }
}

impl From<Vec<u8>> for Lent {
    fn from(bytes: Vec<u8>) -> Lent {
        Lent::Few(bytes)
    }
}

/// The bytes of a vast loan that can be written: whole pages on any machine.
pub const FRONT: usize = 65_536;

pub struct Vast {
    at: *mut u8,
    length: usize,
}

impl Vast {
    /// So many bytes, more than the front, that begin with these.
    pub fn new(first: &[u8], length: usize) -> Vast {
        assert!(first.len() <= FRONT && FRONT < length);
        // SAFETY: a new place for pages is asked for, which touches no other.
        let at = unsafe { mmap(null_mut(), length, READ, PRIVATE | ANONYMOUS, -1, 0) };
        assert!(at != FAILED, "no addresses for {length} bytes");
        let mut vast = Vast {
            at: at.cast(),
            length,
        };
        // SAFETY: these are the first pages of the new place.
        let went = unsafe { mprotect(at, FRONT, READ | WRITE) };
        assert!(went == 0, "no memory for {FRONT} bytes");
        vast[..first.len()].copy_from_slice(first);
        vast
    }
}

impl Drop for Vast {
    fn drop(&mut self) {
        // SAFETY: the pages are this value's own.
        unsafe { munmap(self.at.cast(), self.length) };
    }
}

impl Deref for Vast {
    type Target = [u8];

    fn deref(&self) -> &[u8] {
        // SAFETY: so many bytes can be read there, as long as the value lives.
        unsafe { from_raw_parts(self.at, self.length) }
    }
}

impl DerefMut for Vast {
    fn deref_mut(&mut self) -> &mut [u8] {
        // SAFETY: as in `deref`, and nobody else has them. A write behind the
        // front ends the program.
        unsafe { from_raw_parts_mut(self.at, self.length) }
    }
}

const READ: c_int = 1;
const WRITE: c_int = 2;
const PRIVATE: c_int = 2;
const ANONYMOUS: c_int = 32;
const FAILED: *mut c_void = usize::MAX as *mut c_void;

extern "C" {
    fn mmap(
        at: *mut c_void,
        length: usize,
        access: c_int,
        kind: c_int,
        file: c_int,
        offset: i64,
    ) -> *mut c_void;
    fn mprotect(at: *mut c_void, length: usize, access: c_int) -> c_int;
    fn munmap(at: *mut c_void, length: usize) -> c_int;
}

#[cfg(test)]
mod tests {
    use super::*;

    #[test]
    fn a_vast_loan_has_all_its_bytes() {
        let mut vast = Lent::Vast(Vast::new(&[7, 8], (1 << 32) + 5));
        assert_eq!((vast.len(), vast.told().len()), (4_294_967_301, FRONT));
        assert_eq!((&vast[..3], vast[vast.len() - 1]), (&[7, 8, 0][..], 0));
        vast[FRONT - 1] = 9;
        let copy = vast.clone();
        vast[0] = 1;
        assert_eq!((copy.len(), copy[0], copy[FRONT - 1]), (vast.len(), 7, 9));
        assert!(vast.is_vast() && !Lent::from(vec![1]).is_vast());
    }

    #[test]
    fn a_few_bytes_are_all_told() {
        let mut few = Lent::from(vec![1, 2, 3]);
        few[1] = 5;
        assert_eq!((few.told(), few.clone().told()), (&[1, 5, 3][..], &few[..]));
    }
}
