//! What is said of a suffix, or of a file that has none that is right.

use crate::ending::Ending;
use crate::names;
use crate::screen::counted;
use mullirim_files::suffix::{Parts, Refusal};
use std::path::Path;

/// Why a file is refused and what a technician can do about it.
pub fn why(refusal: Refusal) -> &'static str {
    match refusal {
        Refusal::Short => {
            "the file has under 16 bytes, and a DFU suffix alone has 16: it has none, or the file \
             was cut; get it anew"
        }
        Refusal::Signature => {
            "the file has no DFU suffix: 55 46 44 does not stand where its signature would; it is \
             of another kind, or its end was cut or altered; get it anew, or add a suffix to it \
             if you know that it is right"
        }
        Refusal::Length => {
            "the DFU suffix does not give its own length as 16 bytes: the file was altered, or is \
             of a kind that is not known here; get it anew"
        }
        Refusal::Version => {
            "the DFU suffix does not give 0x0100 as its version of DFU: the file was altered, or \
             was made for boards of another kind; get it anew, with a suffix of that version"
        }
        Refusal::Sum => {
            "the sum in the DFU suffix is not that of the bytes before it: the file was altered \
             or cut; get it anew"
        }
    }
}

pub fn for_whom(parts: Parts) -> String {
    let Parts {
        device,
        product,
        vendor,
    } = parts;
    format!("device 0x{device:04X}, product 0x{product:04X}, vendor 0x{vendor:04X}")
}

pub fn shown(path: &Path, parts: Parts, length: usize) -> String {
    let Parts {
        device,
        product,
        vendor,
    } = parts;
    [
        format!("{}: a DFU file, whose sum is right", names::shown(path)),
        format!("device    0x{device:04X}"),
        format!("product   0x{product:04X}"),
        format!("vendor    0x{vendor:04X}"),
        format!("image     {}", counted(length, "byte")),
    ]
    .join("\n")
}

pub fn json(found: Result<(Parts, usize), Refusal>) -> String {
    match found {
        Ok((parts, length)) => {
            let Parts {
                device,
                product,
                vendor,
            } = parts;
            format!(
                "{{\"device\": {device}, \"product\": {product}, \"vendor\": {vendor}, \
                 \"length\": {length}}}"
            )
        }
        Err(refusal) => format!("{{\"refused\": {}}}", refusal.number()),
    }
}

pub fn checked(path: &Path, parts: Parts, length: usize) -> String {
    let image = counted(length, "byte");
    format!(
        "{}: whole, an image of {image} for {}",
        names::shown(path),
        for_whom(parts)
    )
}

pub fn added(file: &Path, out: &Path, parts: Parts, bytes: usize) -> String {
    format!(
        "{}: {}, which are {} and a suffix for {}",
        names::shown(out),
        counted(bytes, "byte"),
        names::shown(file),
        for_whom(parts)
    )
}

/// Told apart, since most who add a suffix to a suffix do not mean to; nothing
/// of a file that has none.
pub fn second(file: &Path, ending: Ending) -> Option<String> {
    let already = match ending {
        Ending::Plain => return None,
        Ending::Whole(..) => "has a suffix already".to_string(),
        Ending::Damaged(refusal) => format!("has a suffix already, {}", wrong(refusal)),
        Ending::Lost(lost) => lost.told(),
    };
    Some(format!(
        "{} {already}: it stays, and the new one is the second; a visit refuses such an image",
        names::shown(file)
    ))
}

/// What is not right in a suffix that has its signature.
pub fn wrong(refusal: Refusal) -> &'static str {
    match refusal {
        Refusal::Length => "whose length is not given as 16 bytes",
        Refusal::Version => "whose version of DFU is not 0x0100",
        _ => "whose sum is not that of the bytes before it",
    }
}

#[cfg(test)]
mod tests {
    use super::*;
    use Refusal::*;

    const PARTS: Parts = Parts {
        device: 0x0A,
        product: 0xFFFF,
        vendor: 0x1209,
    };

    #[test]
    fn numbers_have_four_digits() {
        assert_eq!(
            for_whom(PARTS),
            "device 0x000A, product 0xFFFF, vendor 0x1209"
        );
        let lines = "f: a DFU file, whose sum is right\n\
                     device    0x000A\n\
                     product   0xFFFF\n\
                     vendor    0x1209\n\
                     image     24,576 bytes";
        assert_eq!(shown(Path::new("f"), PARTS, 24_576), lines);
    }

    #[test]
    fn json_has_decimal_numbers_and_these_spaces() {
        let [device, product, vendor] = [1, 2, 3];
        let parts = Parts {
            device,
            product,
            vendor,
        };
        assert_eq!(
            json(Ok((parts, 24_576))),
            r#"{"device": 1, "product": 2, "vendor": 3, "length": 24576}"#
        );
        assert_eq!(
            json(Ok((PARTS, 0))),
            r#"{"device": 10, "product": 65535, "vendor": 4617, "length": 0}"#
        );
    }

    #[test]
    fn each_refusal_has_its_number_and_words_of_its_own() {
        let all = [Short, Signature, Length, Version, Sum];
        for (number, refusal) in (1..).zip(all) {
            let object = format!("{{\"refused\": {number}}}");
            assert_eq!(json(Err(refusal)), object);
            assert!(why(refusal).contains("; get it anew"));
            let same = all.iter().filter(|other| why(**other) == why(refusal));
            assert_eq!(same.count(), 1);
        }
    }
}
