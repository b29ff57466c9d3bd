//! The structs of `include/mullirim.h` and `include/mullirim_files.h`, the one
//! place in Rust that says how they lie. The wrappers lend them, the recorder
//! writes them, and `make layout` holds the headers to the table that each
//! carries: a field added here is in all three.

use crate::second::{self, MOST_BLOCKS};
use std::mem::{offset_of, size_of};

/// A struct as C must have it.
pub struct Struct {
    pub name: &'static str,
    pub size: usize,
    pub fields: &'static [Field],
}

pub struct Field {
    pub name: &'static str,
    pub offset: usize,
    pub size: usize,
    pub kind: &'static str,
}

/// What lies in memory by C's rules, its numbers little-endian.
pub trait Laid {
    /// Puts the value where `to` begins, and leaves padding as it is.
    fn put(&self, to: &mut [u8]);
}

impl Laid for u8 {
    fn put(&self, to: &mut [u8]) {
        to[0] = *self;
    }
}

impl Laid for u16 {
    fn put(&self, to: &mut [u8]) {
        to[..2].copy_from_slice(&self.to_le_bytes());
    }
}

impl Laid for u32 {
    fn put(&self, to: &mut [u8]) {
        to[..4].copy_from_slice(&self.to_le_bytes());
    }
}

impl Laid for usize {
    fn put(&self, to: &mut [u8]) {
        to[..size_of::<usize>()].copy_from_slice(&self.to_le_bytes());
    }
}

impl<const N: usize> Laid for [u32; N] {
    fn put(&self, to: &mut [u8]) {
        for (number, place) in self.iter().zip(to.chunks_mut(4)) {
            number.put(place);
        }
    }
}

macro_rules! laid {
    ($(#[$said:meta])* pub struct $name:ident { $(pub $field:ident: $kind:ty,)* }) => {
        $(#[$said])*
        #[repr(C)]
        #[derive(Clone, Copy, Debug, PartialEq, Eq)]
        pub struct $name {
            $(pub $field: $kind,)*
        }

        impl $name {
            const TABLE: Struct = Struct {
                name: stringify!($name),
                size: size_of::<$name>(),
                fields: &[$(Field {
                    name: stringify!($field),
                    offset: offset_of!($name, $field),
                    size: size_of::<$kind>(),
                    kind: stringify!($kind),
                },)*],
            };
        }

        impl Laid for $name {
            fn put(&self, to: &mut [u8]) {
                $(self.$field.put(&mut to[offset_of!($name, $field)..]);)*
            }
        }
    };
}

laid! {
    /// What the start was told.
    pub struct Board {
        pub first: u32,
        pub blocks: u32,
        pub part: u32,
        pub klass: u32,
    }
}

laid! {
    /// Where the conversation with the host stands.
    pub struct Phase {
        pub state: u8,
        pub status: u8,
        pub after: u8,
    }
}

laid! {
    /// The running download; zeros where none runs.
    pub struct Download {
        pub place: u32,
        pub left: u32,
    }
}

laid! {
    /// What an upload reads.
    pub struct Upload {
        pub choice: u8,
        pub prefix: u8,
        pub first: u32,
        pub len: u32,
        pub place: u32,
    }
}

laid! {
    /// The kept sums, by block number, and the one over the application.
    pub struct Sums {
        pub block: [u32; MOST_BLOCKS],
        pub whole: u32,
    }
}

laid! {
    /// A session. Its numbers are open, so that broken sessions can be tried.
    pub struct Session {
        pub board: Board,
        pub phase: Phase,
        pub download: Download,
        pub upload: Upload,
        pub unerased: u32,
        pub sums: Sums,
    }
}

laid! {
    /// What a start hands back.
    pub struct Started {
        pub code: u32,
        pub session: Session,
    }
}

laid! {
    /// What a request hands back: the answer's number, and how many bytes of
    /// the reply are meant.
    pub struct Answer {
        pub code: u32,
        pub count: u32,
    }
}

laid! {
    /// What a suffix says of its file: bcdDevice, idProduct and idVendor.
    pub struct Parts {
        pub device: u16,
        pub product: u16,
        pub vendor: u16,
    }
}

laid! {
    /// What reading a suffix hands back: where it was refused, zeros and the
    /// refusal's number.
    pub struct SuffixFound {
        pub parts: Parts,
        pub refused: u16,
        pub length: usize,
    }
}

laid! {
    /// What writing a file hands back: a refusal's number or zero, and how many
    /// bytes were written.
    pub struct Written {
        pub refused: u32,
        pub count: usize,
    }
}

laid! {
    /// What reading a bundle hands back: a refusal's number or zero, and how
    /// many images there are; none where it was refused.
    pub struct BundleFound {
        pub refused: u32,
        pub count: usize,
    }
}

laid! {
    /// A part of a file.
    pub struct Part {
        pub from: usize,
        pub length: usize,
    }
}

pub const STRUCTS: [Struct; 13] = [
    Board::TABLE,
    Phase::TABLE,
    Download::TABLE,
    Upload::TABLE,
    Sums::TABLE,
    Session::TABLE,
    Started::TABLE,
    Answer::TABLE,
    Parts::TABLE,
    SuffixFound::TABLE,
    Written::TABLE,
    BundleFound::TABLE,
    Part::TABLE,
];

impl Session {
    /// The session's bytes, with zeros for its padding.
    pub fn bytes(&self) -> Vec<u8> {
        let mut bytes = vec![0; size_of::<Session>()];
        self.put(&mut bytes);
        bytes
    }
}

/// The second loader's session, field for field.
impl From<&Session> for second::Session {
    fn from(from: &Session) -> second::Session {
        second::Session {
            a: from.board.first,
            b: from.board.blocks,
            part0: from.board.part,
            part1: from.board.klass,
            state: from.phase.state,
            status: from.phase.status,
            after: from.phase.after,
            down_place: from.download.place,
            down_left: from.download.left,
            up_choice: from.upload.choice,
            up_prefix: from.upload.prefix,
            up_first: from.upload.first,
            up_len: from.upload.len,
            up_place: from.upload.place,
            unerased: from.unerased,
            sums: from.sums.block,
            whole: from.sums.whole,
        }
    }
}

/// And back.
impl From<&second::Session> for Session {
    fn from(from: &second::Session) -> Session {
        Session {
            board: Board {
                first: from.a,
                blocks: from.b,
                part: from.part0,
                klass: from.part1,
            },
            phase: Phase {
                state: from.state,
                status: from.status,
                after: from.after,
            },
            download: Download {
                place: from.down_place,
                left: from.down_left,
            },
            upload: Upload {
                choice: from.up_choice,
                prefix: from.up_prefix,
                first: from.up_first,
                len: from.up_len,
                place: from.up_place,
            },
            unerased: from.unerased,
            sums: Sums {
                block: from.sums,
                whole: from.whole,
            },
        }
    }
}

#[cfg(test)]
mod tests {
    use super::*;
    use crate::dice::Dice;
    use crate::sessions;

    #[test]
    fn a_session_is_the_same_there_and_back() {
        let mut dice = Dice::new(4);
        for b in [9; 100].into_iter().chain([MOST_BLOCKS as u32; 100]) {
            let second = sessions::fit(&mut dice, b);
            let session = Session::from(&second);
            assert_eq!(second::Session::from(&session), second);
        }
    }

    /// What is written is what lies in memory, each field in its place.
    #[test]
    fn bytes_are_those_in_memory() {
        let second = sessions::fit(&mut Dice::new(8), 9);
        let session = Session::from(&second);
        let bytes = session.bytes();
        let long = |at: usize| u32::from_le_bytes(bytes[at..at + 4].try_into().unwrap());
        let (upload, sums) = (offset_of!(Session, upload), offset_of!(Session, sums));
        assert_eq!(long(offset_of!(Session, board)), second.a);
        assert_eq!(bytes[offset_of!(Session, phase)], second.state);
        assert_eq!(bytes[upload + 1], second.up_prefix);
        assert_eq!(long(upload + offset_of!(Upload, len)), second.up_len);
        assert_eq!(long(sums - 4), second.unerased);
        for block in [0, 7, MOST_BLOCKS - 1] {
            assert_eq!(long(sums + 4 * block), second.sums[block]);
        }
        assert_eq!(long(bytes.len() - 4), second.whole);
    }
}
