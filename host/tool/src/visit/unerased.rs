//! Where the flash was not erased. A board that refuses a CHECK or PROG for that
//! keeps the address of the first such byte, and tells it at the end of its info
//! bytes. What is said here comes from these, and not from a look at the flash.

use crate::screen::grouped;
use crate::wire::Wire;
use mullirim_host::second::{command, state, status, NONE};
use mullirim_host::tape::header;

/// What is made of a command that failed for this reason: where the board found a
/// byte, if that was it. Nothing was programmed then. `erased` says whether the
/// visit had erased the application before.
pub fn explained(wire: &mut Wire, erased: bool, why: String) -> String {
    if wire.fault() != Some(status::NOT_ERASED) {
        return why;
    }
    from_info(info(wire), erased)
}

/// By the info bytes, or by why there are none.
fn from_info(info: Result<Vec<u8>, String>, erased: bool) -> String {
    match info.and_then(|info| place(&info)) {
        Ok(place) => told(&format!("the byte at {place},"), erased),
        Err(why) => {
            let told = told("a byte", erased);
            format!("{told}; where it is, the board doesn't tell: {why}")
        }
    }
}

/// The cause and the next step. The erase that went before took away what stood
/// there, though it left this byte.
fn told(byte: &str, erased: bool) -> String {
    match erased {
        true => format!(
            "the erase was done, and what stood there is gone, but {byte} is not FF; nothing was \
             programmed; erase once more, and if that does not help, the flash may be worn out"
        ),
        false => format!(
            "the application was not all erased, and nothing was programmed: {byte} is not FF; a \
             visit without --no-erase erases first"
        ),
    }
}

/// The info bytes of a board that stands in its error state.
fn info(wire: &mut Wire) -> Result<Vec<u8>, String> {
    wire.clear()?;
    wire.dnload(&header(command::INFO, 0, 0), state::IDLE)?;
    let info = wire.upload()?.to_vec();
    wire.abort()?;
    Ok(info)
}

/// The info bytes begin with the size of a block, and the last four of them are the
/// address. A loader from before it told has fewer.
fn place(info: &[u8]) -> Result<String, String> {
    let Some(info) = info.first_chunk::<24>() else {
        return Err(format!("it has {} info bytes", info.len()));
    };
    let [low, high, .., a, b, c, d] = *info;
    let size = u32::from(u16::from_le_bytes([low, high]));
    let address = u32::from_le_bytes([a, b, c, d]);
    match address.checked_div(size) {
        Some(block) if address != NONE => Ok(format!(
            "address 0x{address:X} ({}), in block {block}",
            grouped(address)
        )),
        _ => Err("its info bytes tell of none".to_string()),
    }
}

#[cfg(test)]
mod tests {
    use super::*;

    /// A board of four blocks, the application from block 2 on, erased but for
    /// these bytes, that was told this.
    fn refused(places: &[usize], data: &[u8]) -> Wire {
        let mut flash = vec![0xFF; 4_096];
        places.iter().for_each(|place| flash[*place] = 0xFE);
        let mut wire = Wire::start(flash, 2).unwrap();
        assert!(wire.dnload(data, state::IDLE).is_err());
        wire
    }

    fn explained_from(wire: &mut Wire, erased: bool) -> String {
        explained(wire, erased, "it failed".to_string())
    }

    #[test]
    fn a_refusal_is_told_by_its_place() {
        let byte = "the byte at address 0xBB8 (3,000), in block 2,";
        for data in [&[3, 0, 2, 0, 0, 8, 0, 0][..], &[1, 0, 2, 0, 0, 8, 0, 0, 7]] {
            let mut wire = refused(&[3_000, 3_001, 4_095], data);
            let flash = wire.flash.clone();
            assert_eq!(explained_from(&mut wire, false), told(byte, false));
            assert_eq!(wire.flash, flash);
            assert_eq!(wire.status(state::IDLE), Ok(()));
        }
        let mut wire = refused(&[4_095], &[3, 0, 3, 0, 0, 4, 0, 0]);
        let byte = "the byte at address 0xFFF (4,095), in block 3,";
        assert_eq!(explained_from(&mut wire, true), told(byte, true));
    }

    /// What it is and what to do comes first also where the place isn't known.
    #[test]
    fn a_board_that_does_not_tell_the_place_is_explained_too() {
        let plain = "the application was not all erased, and nothing was programmed: a byte is \
                     not FF; a visit without --no-erase erases first; where it is, the board \
                     doesn't tell: ";
        let mut wire = refused(&[3_000], &[3, 0, 2, 0, 0, 8, 0, 0]);
        wire.session.unerased = NONE;
        let none = format!("{plain}its info bytes tell of none");
        assert_eq!(explained_from(&mut wire, false), none);
        let short = format!("{plain}it has 20 info bytes");
        assert_eq!(from_info(Ok(vec![4; 20]), false), short);
        let stalled = wire.clear().unwrap_err();
        let refused = from_info(Err(stalled.clone()), true);
        let gone =
            "the erase was done, and what stood there is gone, but a byte is not FF; nothing \
                    was programmed; erase once more, and if that does not help, the flash may be \
                    worn out; where it is, the board doesn't tell: CLRSTATUS was answered 1";
        assert!(
            refused.starts_with(gone) && refused.ends_with(&stalled),
            "{refused}"
        );
    }

    /// Another fault, a stall, and no fault at all.
    #[test]
    fn another_trouble_stays_as_it_is() {
        for data in [&[3, 0, 1, 0, 1, 0, 0, 0][..], &[3, 0, 2], &[]] {
            let mut wire = refused(&[3_000], data);
            assert_eq!(explained_from(&mut wire, true), "it failed");
        }
        let mut wire = Wire::start(vec![0xFF; 4_096], 2).unwrap();
        assert_eq!(explained_from(&mut wire, true), "it failed");
    }

    #[test]
    fn info_bytes_that_do_not_tell_are_no_place() {
        let info = |address: u32| [&[0, 4][..], &[0; 18], &address.to_le_bytes()].concat();
        assert!(place(&info(0x3_FFFF)).unwrap().ends_with("in block 255"));
        assert!(place(&info(0))
            .unwrap()
            .contains("address 0x0 (0), in block 0"));
        let why = Err("its info bytes tell of none".to_string());
        assert_eq!(place(&info(NONE)), why);
        assert_eq!(place(&[0; 24]), why);
        for length in [0, 5, 20, 23] {
            let short = vec![4; length];
            assert_eq!(place(&short), Err(format!("it has {length} info bytes")));
        }
    }
}
