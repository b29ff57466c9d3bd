//! Flash files and images, read and judged.

use crate::names::shown;
use crate::screen::{counted, grouped};
use crate::wrapping::{self, Wrapping};
use mullirim_host::second::{BLOCK, MOST_BLOCKS};
use std::fs::File;
use std::io::Read;
use std::path::Path;

pub const BLOCK_BYTES: usize = BLOCK as usize;
const MOST_BYTES: usize = MOST_BLOCKS * BLOCK_BYTES;
/// No flash is longer with all that may be wrapped around it.
const MOST_WRAPPED: usize = MOST_BYTES + wrapping::MOST_BYTES;

/// The most bytes of a DFU file or a bundle that is read or made here, in the
/// unit of the message about it.
const MOST_MIB: usize = 64;
pub const MOST_FILE_BYTES: usize = MOST_MIB << 20;

/// The bytes for an application, and what stood around them in their file.
#[derive(Debug, PartialEq)]
pub struct Image {
    pub bytes: Vec<u8>,
    pub wrapping: Wrapping,
}

/// A file for an image, and whether it is to be taken as it stands.
#[derive(Clone, Copy)]
pub struct Wanted<'a> {
    pub path: &'a Path,
    pub plain: bool,
}

pub fn read_flash(path: &Path) -> Result<Vec<u8>, String> {
    let file = read_up_to(path, MOST_WRAPPED + 1)?;
    flash_of(&file).map_err(|why| format!("{}: {why}", shown(path)))?;
    Ok(file)
}

/// An image for an application of `room` bytes from block `first` on.
pub fn read_image(wanted: Wanted, first: u16, room: usize) -> Result<Image, String> {
    let Wanted { path, plain } = wanted;
    let file = read_up_to(path, MOST_WRAPPED + 1)?;
    let image = match plain {
        true => plain_image_of(file, room),
        false => image_of(&file, first, room),
    };
    image.map_err(|why| format!("{}: {why}", shown(path)))
}

/// At most so many bytes of a file, so that one without an end is not awaited.
fn read_up_to(path: &Path, most: usize) -> Result<Vec<u8>, String> {
    let mut bytes = Vec::new();
    File::open(path)
        .and_then(|file| file.take(most as u64).read_to_end(&mut bytes))
        .map_err(|error| format!("can't read {}: {error}", shown(path)))?;
    Ok(bytes)
}

/// A file of at most so many bytes, or what is said of a longer one, which
/// would be too long a thing of this kind; so that one without an end is refused
/// and not awaited.
pub fn at_most(path: &Path, most: usize, long: &str, kind: &str) -> Result<Vec<u8>, String> {
    match read_up_to(path, most + 1)? {
        bytes if bytes.len() <= most => Ok(bytes),
        _ => Err(format!(
            "{}: {long} {MOST_MIB} MiB, and a longer {kind} is not taken",
            shown(path)
        )),
    }
}

/// Whole blocks are a flash, whatever they begin with or end in. What is around
/// other bytes may be why they are none; where a file was read to its end.
fn flash_of(file: &[u8]) -> Result<(), String> {
    let fits = fit_flash(file.len());
    if fits.is_err() && file.len() <= MOST_WRAPPED {
        wrapping::none_around(file)?;
    }
    fits
}

fn plain_image_of(bytes: Vec<u8>, room: usize) -> Result<Image, String> {
    fit_image(bytes.len(), room)?;
    let wrapping = wrapping::left_on();
    Ok(Image { bytes, wrapping })
}

fn image_of(file: &[u8], first: u16, room: usize) -> Result<Image, String> {
    // Such a file may not have been read to its end, where a suffix would be;
    // and its image is too long, whatever is around it.
    if file.len() > MOST_WRAPPED {
        fit_image(file.len(), room)?;
    }
    let (image, wrapping) = wrapping::taken_off(file, first)?;
    fit_image(image.len(), room)?;
    Ok(Image {
        bytes: image.to_vec(),
        wrapping,
    })
}

/// A file's length as far as it was read.
fn length(bytes: usize) -> String {
    match bytes > MOST_BYTES {
        true => format!("more than {} bytes", grouped(MOST_BYTES)),
        false => counted(bytes, "byte"),
    }
}

/// The fewest blocks are two, one before the split and one after it.
fn fit_flash(bytes: usize) -> Result<(), String> {
    if bytes % BLOCK_BYTES == 0 && (2 * BLOCK_BYTES..=MOST_BYTES).contains(&bytes) {
        return Ok(());
    }
    Err(format!(
        "no flash has {}; it has 2 to {MOST_BLOCKS} whole blocks of {} bytes",
        length(bytes),
        grouped(BLOCK_BYTES)
    ))
}

fn fit_image(bytes: usize, room: usize) -> Result<(), String> {
    if bytes == 0 {
        return Err("the image is empty; a download has at least 1 byte".to_string());
    }
    if bytes > room {
        let (bytes, room) = (length(bytes), counted(room, "byte"));
        return Err(format!(
            "the image has {bytes}, and the application holds {room}"
        ));
    }
    Ok(())
}

#[cfg(test)]
mod tests {
    use super::*;
    use mullirim_host::second::sum;
    use mullirim_host::tape::header;
    use std::path::PathBuf;

    #[test]
    fn a_flash_is_two_to_the_most_whole_blocks() {
        for bytes in [2_048, 3_072, MOST_BYTES] {
            assert_eq!(fit_flash(bytes), Ok(()));
        }
        let rule = format!("it has 2 to {MOST_BLOCKS} whole blocks of 1,024 bytes");
        let short = format!("{} bytes", grouped(MOST_BYTES - 1));
        let over = format!("more than {} bytes", grouped(MOST_BYTES));
        for (bytes, said) in [
            (0, "0 bytes"),
            (1, "1 byte"),
            (1_000, "1,000 bytes"),
            (1_024, "1,024 bytes"),
            (MOST_BYTES - 1, &short),
            (MOST_BYTES + 1, &over),
        ] {
            assert_eq!(
                fit_flash(bytes),
                Err(format!("no flash has {said}; {rule}"))
            );
        }
    }

    #[test]
    fn an_image_fits_the_application() {
        assert_eq!(fit_image(1, 2_048), Ok(()));
        assert_eq!(fit_image(2_048, 2_048), Ok(()));
        let empty = "the image is empty; a download has at least 1 byte";
        assert_eq!(fit_image(0, 2_048), Err(empty.to_string()));
        let over = format!("more than {} bytes", grouped(MOST_BYTES));
        for (bytes, said) in [(2_049, "2,049 bytes"), (MOST_BYTES + 1, &over)] {
            let why = format!("the image has {said}, and the application holds 2,048 bytes");
            assert_eq!(fit_image(bytes, 2_048), Err(why));
        }
    }

    /// As dfu-suffix writes it, with its sum over all before it.
    fn suffixed(firmware: &[u8]) -> Vec<u8> {
        let numbers = [0xFF, 0xFF, 0xFF, 0xFF, 0x51, 0x04, 0x00, 0x01];
        let mut file = [firmware, &numbers, b"UFD", &[16]].concat();
        let sum = sum(&file);
        file.extend(sum.to_le_bytes());
        file
    }

    fn headed(block: u16, image: &[u8]) -> Vec<u8> {
        [&header(1, block, image.len() as u32)[..], image].concat()
    }

    /// A file that is there while it is looked at.
    fn laid<T>(name: &str, bytes: &[u8], look: impl Fn(&Path) -> T) -> T {
        let name = format!("mullirim-{name}-{}", std::process::id());
        let path: PathBuf = std::env::temp_dir().join(name);
        std::fs::write(&path, bytes).unwrap();
        let seen = look(&path);
        std::fs::remove_file(path).unwrap();
        seen
    }

    #[test]
    fn a_whole_flash_with_both_is_still_read_to_its_end() {
        let firmware = headed(0, &[0x42; MOST_BYTES]);
        let refused = laid("both", &suffixed(&firmware), read_flash);
        assert!(refused.unwrap_err().contains("DFU suffix"));
        let refused = laid("header", &firmware, read_flash);
        assert!(refused.unwrap_err().contains("PROG header"));
    }

    #[test]
    fn whole_blocks_are_a_flash_whatever_is_around_them() {
        let firmware = [0x42; MOST_BYTES];
        for blocks in [2, 3, MOST_BYTES / BLOCK_BYTES] {
            let length = blocks * BLOCK_BYTES;
            let ends = suffixed(&firmware[..length - 16]);
            let begins = headed(0, &firmware[..length - 8]);
            for flash in [ends, begins] {
                assert_eq!(flash.len(), length);
                assert_eq!(flash_of(&flash), Ok(()));
            }
        }
        let one = suffixed(&firmware[..BLOCK_BYTES - 16]);
        assert!(flash_of(&one).unwrap_err().contains("DFU suffix"));
        let one = headed(0, &firmware[..BLOCK_BYTES - 8]);
        assert!(flash_of(&one).unwrap_err().contains("PROG header"));
    }

    /// A file that goes on behind what was read of it has its end elsewhere.
    #[test]
    fn a_file_that_was_not_read_to_its_end_is_only_too_long() {
        let firmware = [0x42; MOST_WRAPPED];
        let why = format!("no flash has more than {} bytes; ", grouped(MOST_BYTES));
        for file in [
            suffixed(&firmware[..MOST_WRAPPED + 1 - 16]),
            headed(0, &firmware[..MOST_WRAPPED + 1 - 8]),
        ] {
            assert_eq!(file.len(), MOST_WRAPPED + 1);
            assert!(flash_of(&file).unwrap_err().starts_with(&why));
        }
    }

    #[test]
    fn a_plain_image_is_all_of_its_file() {
        let firmware = [0x42; 2_000];
        let both = suffixed(&headed(7, &firmware));
        let [two, mut bad] = [suffixed(&both), both.clone()];
        bad[2_020] ^= 1;
        for file in [both, two, bad, headed(7, &headed(9, &firmware))] {
            let image = plain_image_of(file.clone(), 2_048).unwrap();
            assert_eq!(image.bytes, file);
            assert_eq!(image.wrapping, wrapping::left_on());
        }
        let why = "the image has 2,049 bytes, and the application holds 2,048 bytes";
        let long = plain_image_of(vec![0x42; 2_049], 2_048);
        assert_eq!(long, Err(why.to_string()));
        let why = "the image is empty; a download has at least 1 byte";
        assert_eq!(plain_image_of(Vec::new(), 2_048), Err(why.to_string()));
    }

    #[test]
    fn an_image_is_judged_without_its_wrapping() {
        let room = 2_048;
        for length in [1, room] {
            let image = vec![0x42; length];
            let headed = headed(7, &image);
            for file in [&image, &suffixed(&image), &headed, &suffixed(&headed)] {
                assert_eq!(image_of(file, 7, room).unwrap().bytes, image);
            }
        }
        for (length, why) in [
            (0, "the image is empty; a download has at least 1 byte"),
            (
                room + 1,
                "the image has 2,049 bytes, and the application holds 2,048 bytes",
            ),
        ] {
            let image = vec![0x42; length];
            let headed = headed(7, &image);
            for file in [&image, &suffixed(&image), &headed, &suffixed(&headed)] {
                assert_eq!(image_of(file, 7, room), Err(why.to_string()));
            }
        }
    }

    /// What was not read to its end has no suffix there, whatever its last bytes
    /// look like.
    #[test]
    fn a_file_that_is_longer_than_all_is_too_long_and_not_damaged() {
        let most = grouped(MOST_BYTES);
        let why = |has: &str| {
            format!("the image has {has}{most} bytes, and the application holds 1,024 bytes")
        };
        let mut file = suffixed(&headed(1, &[0x42; MOST_BYTES]));
        assert_eq!(image_of(&file, 1, 1_024), Err(why("")));
        file[9] ^= 1;
        assert!(image_of(&file, 1, 1_024).unwrap_err().contains("the sum"));
        file.insert(0, 0);
        assert_eq!(image_of(&file, 1, 1_024), Err(why("more than ")));
    }

    #[test]
    fn the_most_is_taken_and_a_byte_more_is_not() {
        let tried = |most| {
            laid("most", &[7; 100], |path| {
                let why = format!("{}: ", path.display());
                let tried = at_most(path, most, "it has more than", "DFU file");
                tried.map_err(|message| message.replace(&why, ""))
            })
        };
        let why = "it has more than 64 MiB, and a longer DFU file is not taken";
        assert_eq!(tried(99), Err(why.to_string()));
        assert_eq!(tried(100), Ok(vec![7; 100]));
        assert_eq!(tried(101), Ok(vec![7; 100]));
    }

    #[test]
    fn a_file_without_an_end_is_refused() {
        let long = format!("more than {} bytes", grouped(MOST_BYTES));
        let why = format!("/dev/zero: no flash has {long}; ");
        let endless = Path::new("/dev/zero");
        assert!(read_flash(endless).unwrap_err().starts_with(&why));
        let why = format!("/dev/zero: the image has {long}, ");
        for plain in [false, true] {
            let path = endless;
            let wanted = Wanted { path, plain };
            assert!(read_image(wanted, 1, 1_024).unwrap_err().starts_with(&why));
        }
    }
}
