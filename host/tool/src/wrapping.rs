//! What stands around an image in a file: a DFU suffix behind it, and before it
//! the PROG header that would load it, as other tools and uploads write it. What
//! can be recognised as either, and does not come off, is refused; so is a bundle,
//! which holds images and is none.

use crate::ending::{ending, Ending};
use crate::screen::{counted, grouped};
use crate::suffix::{for_whom, why};
use mullirim_files::bundle;
use mullirim_files::suffix::{Parts, SIZE};
use mullirim_host::second::command;

/// The most bytes that stand around an image.
pub const MOST_BYTES: usize = command::LENGTH + SIZE;

/// What was taken off an image, and what was not though it looks like it.
#[derive(Clone, Copy, Debug, Default, PartialEq)]
pub struct Wrapping {
    pub suffix: Option<Parts>,
    /// The block for which a PROG header was.
    pub header: Option<u16>,
    pub misfit: Option<Misfit>,
    /// Nothing was looked for, by the technician's wish.
    pub plain: bool,
}

/// The beginning of an image that would be a PROG header for its place, if as
/// many bytes stood behind it as it tells of.
#[derive(Clone, Copy, Debug, PartialEq)]
pub struct Misfit {
    block: u16,
    told: usize,
    behind: usize,
}

impl Wrapping {
    pub fn told(&self) -> Vec<String> {
        let mut lines = Vec::new();
        if let Some(parts) = self.suffix {
            lines.push("DFU suffix taken off: its sum is right".to_string());
            lines.push(format!("it is for {}", for_whom(parts)));
        }
        if let Some(block) = self.header {
            lines.push(format!("PROG header taken off: it is for block {block}"));
        }
        lines.extend(self.misfit.iter().flat_map(Misfit::told));
        if self.plain {
            lines.push("taken as it stands (--plain), whatever is around it".to_string());
        }
        lines
    }

    /// What a technician should know before trusting the image.
    pub fn vouched(&self) -> Option<&'static str> {
        match self {
            Wrapping { plain: true, .. } => Some("nothing vouches for these bytes"),
            Wrapping { suffix: None, .. } => Some("no DFU suffix: nothing vouches for these bytes"),
            _ => None,
        }
    }
}

impl Misfit {
    /// Two lines, since one would be too long for a narrow screen.
    fn told(&self) -> [String; 2] {
        let Misfit {
            block,
            told,
            behind,
        } = self;
        let (told, behind) = (counted(*told, "byte"), grouped(*behind));
        [
            format!("begins like a PROG header for block {block}: taken as part of the image"),
            format!("it tells of {told}, but has {behind} behind it"),
        ]
    }
}

/// The image of a file for an application from block `first` on, and what was
/// around it.
pub fn taken_off(file: &[u8], first: u16) -> Result<(&[u8], Wrapping), String> {
    // Before all else, since a bundle may end in the suffix of its last image.
    no_bundle(file, "the file", way_out(None))?;
    let (inside, suffix) = without_suffix(file)?;
    let (image, header) = without_header(inside, first, way_out(suffix))?;
    no_bundle(image, "the image inside", way_out(suffix))?;
    let wrapping = Wrapping {
        suffix,
        header,
        misfit: misfit(image, first),
        plain: false,
    };
    Ok((image, wrapping))
}

/// A file that stands for itself.
pub fn left_on() -> Wrapping {
    Wrapping {
        plain: true,
        ..Wrapping::default()
    }
}

/// What may be the reason why a file's length is no flash's: a flash file holds
/// what stands in flash, and nothing is taken off it.
pub fn none_around(flash: &[u8]) -> Result<(), String> {
    if let Some(bundle) = bundle_told(flash) {
        return Err(format!("the file {bundle}"));
    }
    let found = match ending(flash) {
        Ending::Whole(..) | Ending::Damaged(_) => {
            "ends in a DFU suffix, whose 16 bytes would be taken for firmware"
        }
        _ if fitting(flash).is_some() => {
            "begins with a PROG header, whose 8 bytes would shift the firmware"
        }
        _ => return Ok(()),
    };
    Err(format!(
        "the file {found}; take them off first, or name it by --image if it is an image"
    ))
}

/// What a technician can do who knows that the file is right as it is.
fn way_out(suffix: Option<Parts>) -> &'static str {
    match suffix {
        None => "--plain takes the file as it stands",
        Some(_) => "--plain takes the file as it stands, its suffix too",
    }
}

/// What is said of a bundle. It has no signature, but its numbers have to fit
/// each other and its length to the byte, as no firmware's do by chance.
fn bundle_told(bytes: &[u8]) -> Option<String> {
    let images = counted(bundle::read(bytes).ok()?, "image");
    Some(format!(
        "is a bundle of {images}; unpack it first (mullirim bundle unpack FILE -o DIR)"
    ))
}

fn no_bundle(bytes: &[u8], what: &str, way_out: &str) -> Result<(), String> {
    match bundle_told(bytes) {
        Some(bundle) => Err(format!("{what} {bundle}; {way_out}")),
        None => Ok(()),
    }
}

fn without_suffix(file: &[u8]) -> Result<(&[u8], Option<Parts>), String> {
    match ending(file) {
        Ending::Plain => Ok((file, None)),
        Ending::Whole(parts, length) => {
            let (inside, suffix) = (&file[..length], Some(parts));
            no_suffix_inside(inside, way_out(suffix))?;
            Ok((inside, suffix))
        }
        Ending::Damaged(refusal) => Err(why(refusal).to_string()),
        Ending::Lost(lost) => Err(format!(
            "the file {}; get it anew; {}",
            lost.told(),
            way_out(None)
        )),
    }
}

/// What is around an image vouches for its end too, but nobody means to program
/// a suffix, in whatever state it is.
fn no_suffix_inside(image: &[u8], way_out: &str) -> Result<(), String> {
    Err(match ending(image) {
        Ending::Plain => return Ok(()),
        Ending::Whole(..) => {
            "the file ends in two DFU suffixes, of which the first would be taken \
                              for firmware; take one off first (dfu-suffix -D FILE)"
                .to_string()
        }
        Ending::Damaged(refusal) => format!(
            "the image inside ends in a DFU suffix too, which would be taken for firmware; and \
             that one is not right: {}",
            why(refusal)
        ),
        Ending::Lost(lost) => format!(
            "the image inside {}; get the file anew; {way_out}",
            lost.told()
        ),
    })
}

fn without_header<'a>(
    bytes: &'a [u8],
    first: u16,
    way_out: &str,
) -> Result<(&'a [u8], Option<u16>), String> {
    let Some(Header { block, behind, .. }) = fitting(bytes) else {
        return Ok((bytes, None));
    };
    if block != first {
        return Err(format!(
            "its PROG header is for block {block}, and the application starts at block {first}; \
             the file was made for another place; {way_out}"
        ));
    }
    no_suffix_inside(behind, way_out)?;
    no_header_behind(behind, way_out)?;
    Ok((behind, Some(first)))
}

fn no_header_behind(image: &[u8], way_out: &str) -> Result<(), String> {
    match fitting(image) {
        None => Ok(()),
        Some(Header { block, .. }) => Err(format!(
            "behind its PROG header stands another, for block {block}, which would be taken for \
             firmware; get the file anew; {way_out}"
        )),
    }
}

fn misfit(bytes: &[u8], first: u16) -> Option<Misfit> {
    let header = header(bytes).filter(|header| header.block == first && !header.fits())?;
    Some(Misfit {
        block: first,
        told: header.told,
        behind: header.behind.len(),
    })
}

/// What reads as a PROG header: its block, how many bytes it tells of, and those
/// that stand behind it.
struct Header<'a> {
    block: u16,
    told: usize,
    behind: &'a [u8],
}

impl Header<'_> {
    /// Without this, any bytes that begin with a 1 would be a header.
    fn fits(&self) -> bool {
        self.told == self.behind.len()
    }
}

fn fitting(bytes: &[u8]) -> Option<Header<'_>> {
    header(bytes).filter(Header::fits)
}

fn header(bytes: &[u8]) -> Option<Header<'_>> {
    let ([command, _, low, high, length @ ..], behind) =
        bytes.split_first_chunk::<{ command::LENGTH }>()?;
    (*command == command::PROG).then_some(Header {
        block: u16::from_le_bytes([*low, *high]),
        told: u32::from_le_bytes(*length) as usize,
        behind,
    })
}

#[cfg(test)]
mod tests {
    use super::*;
    use mullirim_files::suffix::Refusal;
    use mullirim_host::second::sum;
    use mullirim_host::tape;

    const FIRMWARE: [u8; 100] = [0x42; 100];
    const PARTS: Parts = Parts {
        device: 0xFFFF,
        product: 0x0002,
        vendor: 0x0451,
    };

    /// As dfu-suffix writes it, with its sum over all before it.
    fn suffixed(firmware: &[u8]) -> Vec<u8> {
        let numbers = [0xFF, 0xFF, 0x02, 0x00, 0x51, 0x04, 0x00, 0x01];
        summed([firmware, &numbers, b"UFD", &[16]].concat())
    }

    fn summed(mut file: Vec<u8>) -> Vec<u8> {
        let sum = sum(&file);
        file.extend(sum.to_le_bytes());
        file
    }

    fn headed(block: u16, length: u32, image: &[u8]) -> Vec<u8> {
        [&tape::header(1, block, length)[..], image].concat()
    }

    fn wrapping(suffix: Option<Parts>, header: Option<u16>) -> Wrapping {
        Wrapping {
            suffix,
            header,
            ..Wrapping::default()
        }
    }

    fn taken(file: &[u8]) -> (Vec<u8>, Wrapping) {
        let (image, wrapping) = taken_off(file, 16).unwrap();
        (image.to_vec(), wrapping)
    }

    fn refused(file: &[u8]) -> String {
        taken_off(file, 16).unwrap_err()
    }

    const PLAIN: &str = "--plain takes the file as it stands";
    const OUTER_TOO: &str = "--plain takes the file as it stands, its suffix too";
    const ALTERED: &str = "ends in a DFU suffix whose fixed bytes, 00 01 55 46 44 10, were altered";
    const SHIFTED: &str =
        "has a part of a DFU suffix near its end: bytes were cut off there, or added";
    const ADDED: &str =
        "begins with a whole DFU file of 116 bytes, behind which 24 bytes were added";

    /// A DFU file that lost its suffix, in each way, and what is said of it.
    fn lost() -> [(Vec<u8>, &'static str); 3] {
        let whole = suffixed(&FIRMWARE);
        let mut altered = whole.clone();
        altered[110] ^= 1;
        let added = [&whole[..], &[0; 24]].concat();
        [
            (altered, ALTERED),
            (whole[..110].to_vec(), SHIFTED),
            (added, ADDED),
        ]
    }

    #[test]
    fn a_right_suffix_comes_off() {
        let (suffix, header) = (Some(PARTS), None);
        let wrapping = wrapping(suffix, header);
        for firmware in [&FIRMWARE[..], &[], b"UFD", &[0xFF; 16]] {
            let file = suffixed(firmware);
            assert_eq!(taken(&file), (firmware.to_vec(), wrapping));
        }
        let lines = [
            "DFU suffix taken off: its sum is right",
            "it is for device 0xFFFF, product 0x0002, vendor 0x0451",
        ];
        assert_eq!(wrapping.told(), lines);
    }

    #[test]
    fn plain_bytes_stay_as_they_are() {
        let (suffix, header) = (None, None);
        let wrapping = wrapping(suffix, header);
        let ends: [&[u8]; 5] = [&[], &[7; 15], &[0; 16], &[0xFF; 40], b"0123456701UF89ab"];
        for end in ends {
            let file = [&FIRMWARE[..], end].concat();
            assert_eq!(taken(&file), (file, wrapping));
            assert_eq!(taken(end), (end.to_vec(), wrapping));
        }
        assert!(wrapping.told().is_empty());
    }

    #[test]
    fn a_suffix_with_its_signature_but_something_else_wrong_is_refused() {
        let file = suffixed(&FIRMWARE);
        for (at, refusal) in [
            (111, Refusal::Length),
            (106, Refusal::Version),
            (107, Refusal::Version),
            (0, Refusal::Sum),
            (100, Refusal::Sum),
            (115, Refusal::Sum),
        ] {
            let mut other = file.clone();
            other[at] ^= 1;
            assert_eq!(refused(&other), why(refusal), "{at}");
            // Also where the sum is right again.
            if at < 112 && refusal != Refusal::Sum {
                let other = summed(other[..112].to_vec());
                assert_eq!(refused(&other), why(refusal), "{at}");
            }
        }
    }

    #[test]
    fn a_lost_suffix_is_refused_with_a_way_out() {
        for (file, told) in lost() {
            let why = format!("the file {told}; get it anew; {PLAIN}");
            assert_eq!(refused(&file), why);
        }
    }

    /// A suffix added to such a file vouches for it, and changes nothing.
    #[test]
    fn a_lost_suffix_inside_is_refused_too() {
        for (file, told) in lost() {
            let why = format!("the image inside {told}; get the file anew; {OUTER_TOO}");
            assert_eq!(refused(&suffixed(&file)), why);
        }
    }

    #[test]
    fn a_damaged_suffix_inside_is_refused_too() {
        let file = suffixed(&FIRMWARE);
        for (at, refusal) in [
            (111, Refusal::Length),
            (106, Refusal::Version),
            (0, Refusal::Sum),
        ] {
            let mut other = file.clone();
            other[at] ^= 1;
            let message = format!(
                "the image inside ends in a DFU suffix too, which would be taken for firmware; \
                 and that one is not right: {}",
                why(refusal)
            );
            assert_eq!(refused(&suffixed(&other)), message, "{at}");
        }
    }

    /// With a header before it a suffix's sum is another, so it counts as
    /// damaged there, and what hangs on the sum alone is seen behind the header.
    #[test]
    fn a_suffix_behind_a_header_is_refused_too() {
        let inner = suffixed(&FIRMWARE);
        let message = format!(
            "the image inside ends in a DFU suffix too, which would be taken for firmware; \
             and that one is not right: {}",
            why(Refusal::Sum)
        );
        assert_eq!(refused(&suffixed(&headed(16, 116, &inner))), message);
        let [_, _, (added, told)] = lost();
        let mut unsigned = inner;
        unsigned[108..111].fill(0);
        for (image, told) in [(added, told), (unsigned, ALTERED)] {
            let file = headed(16, image.len() as u32, &image);
            let why = format!("the image inside {told}; get the file anew; {PLAIN}");
            assert_eq!(refused(&file), why);
            let why = format!("the image inside {told}; get the file anew; {OUTER_TOO}");
            assert_eq!(refused(&suffixed(&file)), why);
        }
    }

    #[test]
    fn two_suffixes_are_refused() {
        let why = "the file ends in two DFU suffixes, of which the first would be taken for \
                   firmware; take one off first (dfu-suffix -D FILE)";
        assert_eq!(refused(&suffixed(&suffixed(&FIRMWARE))), why);
        assert_eq!(refused(&suffixed(&suffixed(&[]))), why);
        assert_eq!(
            refused(&suffixed(&suffixed(&headed(16, 100, &FIRMWARE)))),
            why
        );
    }

    #[test]
    fn what_is_plain_has_nothing_off_and_nothing_vouches_for_it() {
        let plain = left_on();
        assert_eq!(
            (plain.suffix, plain.header, plain.misfit),
            (None, None, None)
        );
        let line = "taken as it stands (--plain), whatever is around it";
        assert_eq!(plain.told(), [line]);
        assert_eq!(plain.vouched(), Some("nothing vouches for these bytes"));
        let none = Some("no DFU suffix: nothing vouches for these bytes");
        assert_eq!(wrapping(None, None).vouched(), none);
        assert_eq!(wrapping(None, Some(16)).vouched(), none);
        assert_eq!(wrapping(Some(PARTS), None).vouched(), None);
        assert_eq!(wrapping(Some(PARTS), Some(16)).vouched(), None);
    }

    #[test]
    fn a_header_for_this_place_comes_off() {
        let (suffix, header) = (None, Some(16));
        let wrapping = wrapping(suffix, header);
        let mut file = headed(16, 100, &FIRMWARE);
        assert_eq!(taken(&file), (FIRMWARE.to_vec(), wrapping));
        file[1] = 0xEE;
        assert_eq!(taken(&file), (FIRMWARE.to_vec(), wrapping));
        assert_eq!(taken(&headed(16, 0, &[])), (Vec::new(), wrapping));
        let lines = ["PROG header taken off: it is for block 16"];
        assert_eq!(wrapping.told(), lines);
    }

    #[test]
    fn two_headers_are_refused_for_whatever_block_the_second_is() {
        for block in [0, 15, 16, 0xFFFF] {
            let file = headed(16, 108, &headed(block, 100, &FIRMWARE));
            let why = format!(
                "behind its PROG header stands another, for block {block}, which would be taken \
                 for firmware; get the file anew; {PLAIN}"
            );
            assert_eq!(refused(&file), why);
            assert_eq!(refused(&suffixed(&file)), why.replace(PLAIN, OUTER_TOO));
            let inner = headed(block, 99, &FIRMWARE);
            assert_eq!(taken(&headed(16, 108, &inner)).0, inner);
        }
        // One that does not fit is told as elsewhere.
        let (_, wrapping) = taken(&headed(16, 108, &headed(16, 99, &FIRMWARE)));
        let lines = [
            "PROG header taken off: it is for block 16",
            "begins like a PROG header for block 16: taken as part of the image",
            "it tells of 99 bytes, but has 100 behind it",
        ];
        assert_eq!(wrapping.told(), lines);
    }

    #[test]
    fn a_header_for_another_place_is_refused() {
        for block in [0, 15, 17, 16 << 8, 0xFFFF] {
            let why = format!(
                "its PROG header is for block {block}, and the application starts at block 16; \
                 the file was made for another place; {PLAIN}"
            );
            let file = headed(block, 100, &FIRMWARE);
            assert_eq!(refused(&file), why);
            assert_eq!(refused(&suffixed(&file)), why.replace(PLAIN, OUTER_TOO));
            assert!(taken_off(&file, block).is_ok());
        }
    }

    #[test]
    fn what_only_begins_like_a_header_is_plain_and_told() {
        let begins = "begins like a PROG header for block 16: taken as part of the image";
        for (length, lengths) in [
            (0, "0 bytes, but has 100"),
            (1, "1 byte, but has 100"),
            (99, "99 bytes, but has 100"),
            (101, "101 bytes, but has 100"),
            (108, "108 bytes, but has 100"),
            (25_600, "25,600 bytes, but has 100"),
            (u32::MAX, "4,294,967,295 bytes, but has 100"),
        ] {
            let lines = [begins, &format!("it tells of {lengths} behind it")];
            let mut file = headed(16, length, &FIRMWARE);
            file[1] = length as u8;
            let (image, wrapping) = taken(&file);
            assert_eq!((&image, wrapping.header), (&file, None));
            assert_eq!(wrapping.told(), lines);
            let (image, wrapping) = taken(&suffixed(&file));
            assert_eq!(image, file);
            assert_eq!(wrapping.told()[2..], lines);
        }
        // The suffix is not among the bytes behind it.
        let (_, wrapping) = taken(&suffixed(&headed(16, 116, &FIRMWARE)));
        let lengths = "it tells of 116 bytes, but has 100 behind it";
        assert_eq!(wrapping.told()[3], lengths);
        let (_, wrapping) = taken(&headed(16, 9, &[]));
        let lengths = "it tells of 9 bytes, but has 0 behind it";
        assert_eq!(wrapping.told(), [begins, lengths]);
    }

    #[test]
    fn what_begins_like_none_for_this_place_is_plain() {
        for block in [0, 15, 17, 16 << 8, 0xFFFF] {
            let file = headed(block, 99, &FIRMWARE);
            assert_eq!(taken(&file), (file, wrapping(None, None)));
        }
        for length in [99, 100] {
            let mut file = headed(16, length, &FIRMWARE);
            for command in [0, 2, 0x81] {
                file[0] = command;
                assert_eq!(taken(&file), (file.clone(), wrapping(None, None)));
            }
        }
        let short = [1, 0, 16, 0, 0, 0, 0];
        assert_eq!(taken(&short), (short.to_vec(), wrapping(None, None)));
    }

    #[test]
    fn both_come_off_with_the_suffix_first() {
        let (suffix, header) = (Some(PARTS), Some(16));
        let wrapping = wrapping(suffix, header);
        let file = suffixed(&headed(16, 100, &FIRMWARE));
        assert_eq!(taken(&file), (FIRMWARE.to_vec(), wrapping));
        assert_eq!(wrapping.told().len(), 3);
        // The other way round the suffix is inside, and the header before it.
        let inside = headed(16, 116, &suffixed(&FIRMWARE));
        assert_eq!(refused(&inside), why(Refusal::Sum));
    }

    /// The images `abc` and a DFU file.
    fn bundle() -> Vec<u8> {
        let (head, last) = ([2, 0, 18, 0, 0, 0, 3, 0, 0, 0], suffixed(&FIRMWARE));
        [&head[..], &[21, 0, 0, 0, 116, 0, 0, 0], b"abc", &last].concat()
    }

    const UNPACK: &str = "unpack it first (mullirim bundle unpack FILE -o DIR)";

    #[test]
    fn a_bundle_is_no_image() {
        let bundle = bundle();
        let why = format!("the file is a bundle of 2 images; {UNPACK}; {PLAIN}");
        assert_eq!(refused(&bundle), why);
        let one = [&[1, 0, 10, 0, 0, 0, 100, 0, 0, 0], &FIRMWARE[..]].concat();
        let why = format!("the file is a bundle of 1 image; {UNPACK}; {PLAIN}");
        assert_eq!(refused(&one), why);
        let inside = format!("the image inside is a bundle of 1 image; {UNPACK}");
        assert_eq!(refused(&suffixed(&one)), format!("{inside}; {OUTER_TOO}"));
        let headed = headed(16, one.len() as u32, &one);
        assert_eq!(refused(&headed), format!("{inside}; {PLAIN}"));
        // What no reader takes for one is none.
        let more = [&one[..], &[0]].concat();
        for file in [&one[1..], &one[..109], &more] {
            assert_eq!(taken(file).0, file);
        }
    }

    #[test]
    fn a_bundle_is_no_flash() {
        let why = format!("the file is a bundle of 2 images; {UNPACK}");
        assert_eq!(none_around(&bundle()), Err(why));
    }

    fn flash_refused(flash: &[u8], what: &str) {
        let why = format!(
            "the file {what}; take them off first, or name it by --image if it is an image"
        );
        assert_eq!(none_around(flash), Err(why));
    }

    #[test]
    fn a_flash_has_no_suffix() {
        let file = suffixed(&FIRMWARE);
        let what = "ends in a DFU suffix, whose 16 bytes would be taken for firmware";
        flash_refused(&file, what);
        flash_refused(&file[100..], what);
        assert_eq!(none_around(&file[..115]), Ok(()));
        assert_eq!(none_around(&file[101..]), Ok(()));
        for (byte, said) in (100..116).zip([true; 8].iter().chain([&false; 3]).chain([&true; 5])) {
            let mut other = file.clone();
            other[byte] ^= 1;
            match said {
                true => flash_refused(&other, what),
                false => assert_eq!(none_around(&other), Ok(()), "{byte}"),
            }
        }
        let both = suffixed(&headed(16, 100, &FIRMWARE));
        flash_refused(&both, what);
    }

    #[test]
    fn a_flash_has_no_header() {
        let what = "begins with a PROG header, whose 8 bytes would shift the firmware";
        for block in [0, 16, 0xFFFF] {
            flash_refused(&headed(block, 100, &FIRMWARE), what);
            assert_eq!(none_around(&headed(block, 99, &FIRMWARE)), Ok(()));
        }
        flash_refused(&[1, 0, 16, 0, 0, 0, 0, 0], what);
        assert_eq!(none_around(&[1, 0, 16, 0, 0, 0, 0]), Ok(()));
        assert_eq!(none_around(&[]), Ok(()));
    }
}
