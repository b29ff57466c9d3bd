//! The script both players read: a head of ten bytes, then one record for each
//! call. Also the flash that every run begins with. A head names A and B by a byte
//! each, so that no script is for a flash of more than 255 blocks.

use crate::second::{BLOCK, ERASED};

pub struct Head {
    pub a: u8,
    pub b: u8,
    pub part0: u32,
    pub part1: u32,
}

/// Splits the head off a script.
pub fn read_head(script: &[u8]) -> Option<(Head, &[u8])> {
    let (head, rest) = script.split_first_chunk::<10>()?;
    let [a, b, p0, p1, p2, p3, q0, q1, q2, q3] = *head;
    let head = Head {
        a,
        b,
        part0: u32::from_le_bytes([p0, p1, p2, p3]),
        part1: u32::from_le_bytes([q0, q1, q2, q3]),
    };
    Some((head, rest))
}

/// Splits the next record off: its setup, its data and what follows. Nothing
/// at the end, nor where a record is cut short.
pub fn read_record(script: &[u8]) -> Option<(&[u8], &[u8], &[u8])> {
    let (length, rest) = script.split_first()?;
    let (setup, rest) = rest.split_at_checked(usize::from(*length))?;
    let (length, rest) = rest.split_first_chunk::<2>()?;
    let (data, rest) = rest.split_at_checked(usize::from(u16::from_le_bytes(*length)))?;
    Some((setup, data, rest))
}

/// The flash at the start of a run: a pattern, with every even-numbered block
/// of the application erased.
pub fn first_flash(a: u8, b: u8) -> Vec<u8> {
    let byte = |i: u32| {
        let block = i / BLOCK;
        match block >= u32::from(a) && block % 2 == 0 {
            true => ERASED,
            false => ((i * 7 + i / 256) % 251) as u8,
        }
    };
    (0..u32::from(b) * BLOCK).map(byte).collect()
}

/// A script being written, with one word for each request.
pub struct Tape {
    pub bytes: Vec<u8>,
}

impl Tape {
    pub fn new(head: &Head) -> Tape {
        let mut bytes = vec![head.a, head.b];
        bytes.extend(head.part0.to_le_bytes());
        bytes.extend(head.part1.to_le_bytes());
        Tape { bytes }
    }

    /// Any call at all.
    pub fn call(&mut self, setup: &[u8], data: &[u8]) {
        self.bytes.push(setup.len() as u8);
        self.bytes.extend(setup);
        self.bytes.extend((data.len() as u16).to_le_bytes());
        self.bytes.extend(data);
    }

    pub fn dnload(&mut self, data: &[u8]) {
        self.call(&setup(0x21, 1, data.len() as u16), data);
    }

    /// A command with a block and a number of 32 bits, and what follows it.
    pub fn command(&mut self, number: u8, block: u16, length: u32, first: &[u8]) {
        self.dnload(&[&header(number, block, length), first].concat());
    }

    pub fn upload(&mut self, length: u16) {
        self.call(&setup(0xA1, 2, length), &[]);
    }

    pub fn get_status(&mut self) {
        self.call(&setup(0xA1, 3, 6), &[]);
    }

    pub fn clr_status(&mut self) {
        self.call(&setup(0x21, 4, 0), &[]);
    }

    pub fn get_state(&mut self) {
        self.call(&setup(0xA1, 5, 1), &[]);
    }

    pub fn abort(&mut self) {
        self.call(&setup(0x21, 6, 0), &[]);
    }

    pub fn query(&mut self) {
        self.call(&QUERY, &[]);
    }
}

/// The query, the one request that has a wValue of its own.
pub const QUERY: [u8; 8] = [0xA1, 0x42, 0x23, 0, 0, 0, 4, 0];

/// A setup with wValue and wIndex zero.
pub fn setup(kind: u8, number: u8, length: u16) -> [u8; 8] {
    let [low, high] = length.to_le_bytes();
    [kind, number, 0, 0, 0, 0, low, high]
}

/// The eight bytes of a command with byte 1 zero.
pub fn header(number: u8, block: u16, length: u32) -> [u8; 8] {
    let [b0, b1] = block.to_le_bytes();
    let [n0, n1, n2, n3] = length.to_le_bytes();
    [number, 0, b0, b1, n0, n1, n2, n3]
}

#[cfg(test)]
mod tests {
    use super::*;

    const HEAD: Head = Head {
        a: 16,
        b: 64,
        part0: 0x0403_0201,
        part1: 0x0807_0605,
    };

    #[test]
    fn what_is_written_is_read_back() {
        let mut tape = Tape::new(&HEAD);
        tape.dnload(&[9, 8, 7]);
        tape.abort();
        assert_eq!(tape.bytes[..10], [16, 64, 1, 2, 3, 4, 5, 6, 7, 8]);
        let (head, rest) = read_head(&tape.bytes).unwrap();
        assert_eq!((head.part0, head.part1), (HEAD.part0, HEAD.part1));
        let (first, data, rest) = read_record(rest).unwrap();
        assert_eq!(
            (first, data),
            (&[0x21, 1, 0, 0, 0, 0, 3, 0][..], &[9, 8, 7][..])
        );
        let (second, data, rest) = read_record(rest).unwrap();
        assert_eq!((second, data), (&[0x21, 6, 0, 0, 0, 0, 0, 0][..], &[][..]));
        assert!(read_record(rest).is_none());
    }

    #[test]
    fn a_record_cut_short_is_none() {
        let mut tape = Tape::new(&HEAD);
        tape.dnload(&[9, 8, 7]);
        for end in 10..tape.bytes.len() {
            assert!(read_record(&tape.bytes[10..end]).is_none());
        }
    }

    #[test]
    fn even_application_blocks_begin_erased() {
        let flash = first_flash(16, 64);
        assert_eq!(flash.len(), 65_536);
        assert_eq!(flash[14 * 1_024 + 300], ((14_636 * 7 + 57) % 251) as u8);
        assert!(flash[16 * 1_024..17 * 1_024].iter().all(|b| *b == 0xFF));
        assert_eq!(flash[17 * 1_024], ((17_408 * 7 + 68) % 251) as u8);
    }
}
