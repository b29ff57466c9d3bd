//! How wide the technician's screen is.

use std::ffi::{c_int, c_ulong, c_ushort};
use std::io::IsTerminal;
use std::os::fd::AsRawFd;

/// Where a terminal doesn't say.
const USUAL: usize = 80;
/// Linux's number for the question, on x86-64 and on Arm.
const TIOCGWINSZ: c_ulong = 0x5413;

#[derive(Default)]
#[repr(C)]
struct Size {
    rows: c_ushort,
    columns: c_ushort,
    width: c_ushort,
    height: c_ushort,
}

extern "C" {
    fn ioctl(file: c_int, request: c_ulong, ...) -> c_int;
}

/// The columns of a terminal; nothing where the text goes elsewhere.
pub fn columns(out: &(impl IsTerminal + AsRawFd)) -> Option<usize> {
    if !out.is_terminal() {
        return None;
    }
    let mut size = Size::default();
    // SAFETY: the kernel fills the struct that the request names, which lives
    // until the call returns.
    let went = unsafe { ioctl(out.as_raw_fd(), TIOCGWINSZ, &mut size as *mut Size) };
    match (went, usize::from(size.columns)) {
        (0, columns) if columns > 0 => Some(columns),
        _ => Some(USUAL),
    }
}

#[cfg(test)]
mod tests {
    use super::*;
    use std::fs::File;

    const TIOCSWINSZ: c_ulong = 0x5414;

    /// A terminal of this test's own.
    fn terminal(columns: c_ushort) -> File {
        let terminal = File::open("/dev/ptmx").unwrap();
        let size = Size {
            columns,
            ..Size::default()
        };
        // SAFETY: the kernel reads the struct that the request names.
        let went = unsafe { ioctl(terminal.as_raw_fd(), TIOCSWINSZ, &size as *const Size) };
        assert_eq!(went, 0);
        terminal
    }

    #[test]
    fn a_terminal_says_how_wide_it_is() {
        for wide in [1, 57, 80, 1_000] {
            assert_eq!(columns(&terminal(wide)), Some(usize::from(wide)));
        }
    }

    #[test]
    fn one_that_does_not_say_has_80_columns_and_what_is_none_has_nothing() {
        assert_eq!(columns(&terminal(0)), Some(80));
        assert_eq!(columns(&File::open("/dev/null").unwrap()), None);
    }
}
