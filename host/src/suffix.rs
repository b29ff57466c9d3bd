//! A second reader and writer of the DFU file suffix, written from the paper of
//! further requests (Wish 1) alone. They are kept as plain as can be, because
//! their only use is to disagree with the proved ones wherever one of the two
//! misreads the paper. Below them: the files to try both with, and the rows of
//! the paper that these must meet.

pub mod cases;
mod files;
mod reading;
pub mod rows;
pub mod seen;
mod writing;

use crate::layout::{Parts, SuffixFound, Written};
use crate::second::sum;

/// The bytes of a suffix.
pub const SIZE: usize = 16;

const SIGNATURE: [u8; 3] = [0x55, 0x46, 0x44];
const LENGTH: u8 = 0x10;
const VERSION: u16 = 0x0100;

/// Why a file is refused: the first of these that holds.
pub mod refusal {
    pub const SHORT: u16 = 1;
    pub const SIGNATURE: u16 = 2;
    pub const LENGTH: u16 = 3;
    pub const VERSION: u16 = 4;
    pub const SUM: u16 = 5;
}

/// The parts, and how many bytes stand before the suffix; or the refusal.
pub fn read(file: &[u8]) -> Result<(Parts, usize), u16> {
    if file.len() < SIZE {
        return Err(refusal::SHORT);
    }
    let length = file.len() - SIZE;
    let suffix = &file[length..];
    if suffix[8..11] != SIGNATURE {
        return Err(refusal::SIGNATURE);
    }
    if suffix[11] != LENGTH {
        return Err(refusal::LENGTH);
    }
    if number(&suffix[6..8]) != VERSION {
        return Err(refusal::VERSION);
    }
    if suffix[12..16] != sum(&file[..length + 12]).to_le_bytes() {
        return Err(refusal::SUM);
    }
    let parts = Parts {
        device: number(&suffix[0..2]),
        product: number(&suffix[2..4]),
        vendor: number(&suffix[4..6]),
    };
    Ok((parts, length))
}

/// The file and its suffix at the buffer's front, and how many bytes that are;
/// or nothing at all, where the buffer has no room for both.
pub fn write(file: &[u8], parts: Parts, buffer: &mut [u8]) -> Option<usize> {
    let count = file.len() + SIZE;
    if count > buffer.len() {
        return None;
    }
    let mut all = file.to_vec();
    for number in [parts.device, parts.product, parts.vendor, VERSION] {
        all.extend(number.to_le_bytes());
    }
    all.extend(SIGNATURE);
    all.push(LENGTH);
    all.extend(sum(&all).to_le_bytes());
    buffer[..count].copy_from_slice(&all);
    Some(count)
}

/// As the call for C must hand it back.
impl From<Result<(Parts, usize), u16>> for SuffixFound {
    fn from(read: Result<(Parts, usize), u16>) -> SuffixFound {
        let nothing = Parts {
            device: 0,
            product: 0,
            vendor: 0,
        };
        let (parts, length) = read.unwrap_or((nothing, 0));
        SuffixFound {
            parts,
            refused: read.err().unwrap_or(0),
            length,
        }
    }
}

/// Why a writer refuses: its one reason.
pub const NO_ROOM: u32 = 1;

/// The same for writing.
impl From<Option<usize>> for Written {
    fn from(written: Option<usize>) -> Written {
        match written {
            Some(count) => Written { refused: 0, count },
            None => Written {
                refused: NO_ROOM,
                count: 0,
            },
        }
    }
}

fn number(bytes: &[u8]) -> u16 {
    u16::from(bytes[0]) | u16::from(bytes[1]) << 8
}

#[cfg(test)]
mod tests {
    use super::*;

    const PARTS: Parts = Parts {
        device: 0x0203,
        product: 0xA1B2,
        vendor: 0x1CBE,
    };

    /// The suffix of 123456789 with these parts, as `dfu-suffix -a` (dfu-util
    /// 0.11) writes it; Python's zlib.crc32, complemented, gives the same sum.
    const FIRST: [u8; SIZE] = [
        0x03, 0x02, 0xB2, 0xA1, 0xBE, 0x1C, 0x00, 0x01, 0x55, 0x46, 0x44, 0x10, 0xE5, 0xAA, 0x1E,
        0x0A,
    ];
    /// The one that both get together. `dfu-suffix` adds no second one, so the
    /// sum is Python's alone.
    const SECOND: [u8; SIZE] = [
        0x03, 0x02, 0xB2, 0xA1, 0xBE, 0x1C, 0x00, 0x01, 0x55, 0x46, 0x44, 0x10, 0x82, 0x29, 0x2A,
        0x09,
    ];

    fn file() -> Vec<u8> {
        [&b"123456789"[..], &FIRST].concat()
    }

    #[test]
    fn a_file_is_read() {
        assert_eq!(read(&file()), Ok((PARTS, 9)));
        assert_eq!(read(&[&file()[..], &SECOND].concat()), Ok((PARTS, 25)));
    }

    /// The bytes are those of `dfu-suffix -a` and of Python again.
    #[test]
    fn an_empty_image_is_read() {
        let suffix = [
            0xFF, 0xFF, 0x00, 0x00, 0x01, 0x00, 0x00, 0x01, 0x55, 0x46, 0x44, 0x10, 0xF6, 0x66,
            0xA4, 0x58,
        ];
        let parts = Parts {
            device: 0xFFFF,
            product: 0,
            vendor: 1,
        };
        assert_eq!(read(&suffix), Ok((parts, 0)));
        let mut buffer = [0xEE; SIZE];
        assert_eq!(write(&[], parts, &mut buffer), Some(SIZE));
        assert_eq!(buffer, suffix);
    }

    #[test]
    fn a_changed_byte_is_refused_by_its_rule() {
        let awaited = [5, 5, 5, 5, 5, 5, 4, 4, 2, 2, 2, 3, 5, 5, 5, 5];
        for (place, refused) in (0..).zip([[5; 9].as_slice(), &awaited].concat()) {
            let mut file = file();
            file[place] ^= 0x20;
            assert_eq!(read(&file), Err(refused));
        }
    }

    #[test]
    fn the_first_broken_rule_refuses() {
        let mut file = file();
        for (place, refused) in [(0, 5), (15, 4), (20, 3), (17, 2)] {
            file[place] ^= 0x20;
            assert_eq!(read(&file), Err(refused));
        }
        for length in 0..SIZE {
            assert_eq!(read(&FIRST[SIZE - length..]), Err(1));
        }
    }

    #[test]
    fn what_lies_behind_a_written_file_stays() {
        let mut buffer = [0xEE; 27];
        assert_eq!(write(b"123456789", PARTS, &mut buffer), Some(25));
        assert_eq!(buffer[..25], file());
        assert_eq!(buffer[25..], [0xEE; 2]);
    }

    #[test]
    fn a_second_suffix_is_written_behind_the_first() {
        let mut buffer = [0xEE; 41];
        assert_eq!(write(&file(), PARTS, &mut buffer), Some(41));
        assert_eq!(buffer[..25], file());
        assert_eq!(buffer[25..], SECOND);
    }

    #[test]
    fn too_little_room_changes_nothing() {
        let mut buffer = [0xEE; 24];
        for room in 0..25 {
            assert_eq!(write(b"123456789", PARTS, &mut buffer[..room]), None);
            assert_eq!(buffer, [0xEE; 24]);
        }
    }
}
