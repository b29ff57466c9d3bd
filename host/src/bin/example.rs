//! The three transfers of `examples/board.c` through the second loader: what
//! the board written in C must print.

use mullirim_host::second::{command, start, step, Session, BLOCK, TRANSFER};
use mullirim_host::tape::{header, setup, QUERY};

const FIRST: u32 = 16;
const BLOCKS: u32 = 64;

struct Board {
    session: Session,
    flash: Vec<u8>,
}

impl Board {
    fn transfer(&mut self, name: &str, setup: &[u8], data: &[u8]) {
        let mut reply = [0; TRANSFER];
        let outcome = step(&self.session, &mut self.flash, setup, data, &mut reply);
        self.session = outcome.session;
        print!("{name}: answer {}, reply", outcome.answer);
        for byte in &reply[..outcome.count as usize] {
            print!(" {byte:02X}");
        }
        let byte = self.flash[(FIRST * BLOCK) as usize];
        println!(", state {}, byte {byte:02X}", self.session.state);
    }
}

fn main() {
    let flash = vec![0x5A; (BLOCKS * BLOCK) as usize];
    let (_, session) = start(&flash, FIRST, BLOCKS, 0, 0);
    let mut board = Board { session, flash };
    board.transfer("query", &QUERY, &[]);
    let erase = header(command::ERASE, FIRST as u16, 1);
    board.transfer("erase", &setup(0x21, 1, 8), &erase);
    board.transfer("status", &setup(0xA1, 3, 6), &[]);
}
