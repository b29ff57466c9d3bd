//! The host's end of the wire, with the simulated board at the other. An answer
//! that is not the awaited one becomes a message.

use mullirim_board::{request, start, Session};
use mullirim_host::second::{answer, state, BLOCK, TRANSFER};
use mullirim_host::tape::setup;

pub struct Wire {
    pub session: Session,
    pub flash: Vec<u8>,
    reply: [u8; TRANSFER],
}

impl Wire {
    /// Starts the board on a flash whose application begins at block `first`.
    pub fn start(flash: Vec<u8>, first: u16) -> Result<Wire, String> {
        // A flash of too many blocks is the start's to refuse.
        let blocks = u32::try_from(flash.len() / BLOCK as usize).unwrap_or(u32::MAX);
        let started = start(&flash, first.into(), blocks, 0, 0);
        if started.code != u32::from(answer::TAKEN) {
            return Err(format!("the start was {}", answered(started.code)));
        }
        Ok(Wire {
            session: started.session,
            flash,
            reply: [0; TRANSFER],
        })
    }

    /// One DNLOAD, then GETSTATUS, with which the board is to enter `state`.
    pub fn dnload(&mut self, data: &[u8], state: u8) -> Result<(), String> {
        let length = data.len() as u16;
        self.transfer("DNLOAD", &setup(0x21, 1, length), data)?;
        self.status(state)
    }

    /// One UPLOAD of 1,024 bytes.
    pub fn upload(&mut self) -> Result<&[u8], String> {
        self.transfer("UPLOAD", &setup(0xA1, 2, TRANSFER as u16), &[])
    }

    /// ABORT, which leads to state 2 from wherever the board was.
    pub fn abort(&mut self) -> Result<(), String> {
        self.transfer("ABORT", &setup(0x21, 6, 0), &[])?;
        self.status(state::IDLE)
    }

    /// CLRSTATUS, which leads to state 2 from the error state.
    pub fn clear(&mut self) -> Result<(), String> {
        self.transfer("CLRSTATUS", &setup(0x21, 4, 0), &[])?;
        self.status(state::IDLE)
    }

    /// The status for which the board stands in the error state, where it does.
    pub fn fault(&mut self) -> Option<u8> {
        match self.transfer("GETSTATUS", &setup(0xA1, 3, 6), &[]) {
            Ok([status, _, _, _, state::ERROR, _]) => Some(*status),
            _ => None,
        }
    }

    /// GETSTATUS must say that all is well and that the board is in `state`.
    pub fn status(&mut self, state: u8) -> Result<(), String> {
        let awaited = [0, 0, 0, 0, state, 0];
        let came = self.transfer("GETSTATUS", &setup(0xA1, 3, 6), &[])?;
        if came == awaited {
            return Ok(());
        }
        let (awaited, came) = (hex(&awaited), hex(came));
        Err(format!(
            "GETSTATUS said {came} and not {awaited}; {}",
            self.stands()
        ))
    }

    fn transfer(&mut self, name: &str, setup: &[u8], data: &[u8]) -> Result<&[u8], String> {
        let (session, flash) = (&mut self.session, &mut self.flash);
        let answer = request(session, flash, setup, data, &mut self.reply);
        if answer.code != u32::from(answer::TAKEN) {
            let said = answered(answer.code);
            return Err(format!("{name} was {said}; {}", self.stands()));
        }
        self.reply
            .get(..answer.count as usize)
            .ok_or_else(|| format!("{name} gave {} bytes, more than asked", answer.count))
    }

    fn stands(&self) -> String {
        let phase = self.session.phase;
        format!(
            "the board is in state {}, status {:02X}",
            phase.state, phase.status
        )
    }

    /// The first byte of the application.
    fn split(&self) -> usize {
        (self.session.board.first * BLOCK) as usize
    }

    pub fn boot_area(&self) -> &[u8] {
        &self.flash[..self.split()]
    }

    pub fn application(&self) -> &[u8] {
        &self.flash[self.split()..]
    }
}

fn answered(code: u32) -> String {
    let word = match u8::try_from(code) {
        Ok(answer::TAKEN) => "taken",
        Ok(answer::STALLED) => "stalled",
        Ok(answer::UNFIT) => "unfit",
        Ok(answer::FAULTED) => "faulted",
        Ok(answer::RESET_ASKED) => "reset asked",
        _ => "no answer of the paper",
    };
    format!("answered {code} ({word}) and not 0 (taken)")
}

fn hex(bytes: &[u8]) -> String {
    let bytes: Vec<String> = bytes.iter().map(|byte| format!("{byte:02X}")).collect();
    bytes.join(" ")
}

#[cfg(test)]
mod tests {
    use super::*;
    use mullirim_host::second::MOST_BLOCKS;

    fn wire() -> Wire {
        Wire::start(vec![0x5A; 4_096], 2).unwrap()
    }

    #[test]
    fn an_erase_is_polled_to_state_2() {
        let mut wire = wire();
        assert_eq!(wire.dnload(&[4, 0, 2, 0, 2, 0, 0, 0], 2), Ok(()));
        assert_eq!(wire.boot_area(), [0x5A; 2_048]);
        assert_eq!(wire.application(), [0xFF; 2_048]);
    }

    #[test]
    fn an_upload_gives_the_stream() {
        let mut wire = wire();
        assert_eq!(wire.upload().unwrap()[..9], [1, 0, 2, 0, 0, 8, 0, 0, 0x5A]);
        assert_eq!(wire.status(9), Ok(()));
        assert_eq!(wire.abort(), Ok(()));
    }

    #[test]
    fn a_start_that_does_not_fit_is_named() {
        let why = "the start was answered 2 (unfit) and not 0 (taken)";
        let over = (MOST_BLOCKS + 1) * BLOCK as usize;
        for (flash, first) in [(4_096, 4), (4_096, 0), (1_000, 1), (over, 1)] {
            let started = Wire::start(vec![0; flash], first);
            assert_eq!(started.err(), Some(why.to_string()));
        }
    }

    #[test]
    fn a_fault_is_named() {
        let why = "DNLOAD was answered 3 (faulted) and not 0 (taken); \
                   the board is in state 10, status 08";
        let outside = [4, 0, 1, 0, 1, 0, 0, 0];
        assert_eq!(wire().dnload(&outside, 2), Err(why.to_string()));
    }

    #[test]
    fn a_fault_is_told_until_it_is_cleared() {
        let mut wire = wire();
        assert_eq!(wire.fault(), None);
        assert!(wire.dnload(&[3, 0, 2, 0, 1, 0, 0, 0], 2).is_err());
        assert_eq!((wire.fault(), wire.fault()), (Some(5), Some(5)));
        assert_eq!((wire.clear(), wire.fault()), (Ok(()), None));
        let why = "CLRSTATUS was answered 1 (stalled) and not 0 (taken); \
                   the board is in state 10, status 0F";
        assert_eq!(wire.clear(), Err(why.to_string()));
    }

    #[test]
    fn a_stall_is_named() {
        let mut wire = wire();
        wire.session.phase.state = 10;
        wire.session.phase.status = 0x0F;
        let why = "UPLOAD was answered 1 (stalled) and not 0 (taken); \
                   the board is in state 10, status 0F";
        assert_eq!(wire.upload().err(), Some(why.to_string()));
    }

    #[test]
    fn another_state_or_status_is_named() {
        let mut wire = wire();
        let why = "GETSTATUS said 00 00 00 00 02 00 and not 00 00 00 00 05 00; \
                   the board is in state 2, status 00";
        assert_eq!(wire.status(5), Err(why.to_string()));
        wire.session.phase.state = 10;
        wire.session.phase.status = 0x0B;
        let why = "GETSTATUS said 0B 00 00 00 0A 00 and not 00 00 00 00 0A 00; \
                   the board is in state 10, status 0B";
        assert_eq!(wire.status(10), Err(why.to_string()));
    }

    #[test]
    fn every_answer_has_its_word() {
        assert_eq!(answered(4), "answered 4 (reset asked) and not 0 (taken)");
        assert!(answered(256).contains("256 (no answer of the paper)"));
    }
}
