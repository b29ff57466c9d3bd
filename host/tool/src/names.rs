//! File names and words as they may be shown.

use std::ffi::OsStr;
use std::os::unix::ffi::OsStrExt;

/// A name without anything that a terminal would obey, or that would hide what
/// the name is: control characters, and bytes that are no text, become escapes.
pub fn shown(name: impl AsRef<OsStr>) -> String {
    let mut text = String::new();
    for chunk in name.as_ref().as_bytes().utf8_chunks() {
        let valid = chunk.valid().escape_debug().to_string();
        // Quotes harm nobody.
        text += &valid.replace("\\'", "'").replace("\\\"", "\"");
        for byte in chunk.invalid() {
            text += &format!("\\x{byte:02X}");
        }
    }
    text
}

#[cfg(test)]
mod tests {
    use super::*;

    #[test]
    fn plain_names_stay() {
        for name in ["flash.bin", "a b/c'd\"e", "größe", "बिजली", "./-x", ""] {
            assert_eq!(shown(name), name);
        }
    }

    #[test]
    fn what_a_terminal_obeys_is_escaped() {
        let seen = [
            ("a\nb", "a\\nb"),
            ("\x1b[2Jx", "\\u{1b}[2Jx"),
            ("\r\u{7f}\u{9b}", "\\r\\u{7f}\\u{9b}"),
            ("gpj\u{202e}.bin", "gpj\\u{202e}.bin"),
            ("back\\slash", "back\\\\slash"),
            ("back\\'", "back\\\\'"),
        ];
        for (name, said) in seen {
            assert_eq!(shown(name), said);
        }
    }

    #[test]
    fn bytes_that_are_no_text_are_shown_by_number() {
        assert_eq!(
            shown(OsStr::from_bytes(b"a\xFF\xFEb\xC3")),
            "a\\xFF\\xFEb\\xC3"
        );
    }
}
