//! The desk examples, A = 16 and B = 64. The three that read come first, while
//! the flash still holds its pattern.

use mullirim_host::tape::{first_flash, Head, Tape};

const HEAD: Head = Head {
    a: 16,
    b: 64,
    part0: 0,
    part1: 0,
};

pub fn script() -> Vec<u8> {
    let examples = [
        upload_lengths,
        read_back,
        info,
        state,
        query,
        erase_all,
        erase_below,
        prog_to_the_end,
        prog_of_nothing_and_of_too_much,
        seven_bytes,
        no_bytes,
        one_byte_missing,
        prog_over_a_zero_byte,
        clearing,
    ];
    let mut tape = Tape::new(&HEAD);
    for example in examples {
        fresh(&mut tape);
        example(&mut tape);
    }
    tape.bytes
}

/// RESET is taken in state 2 only. An upload of no bytes is stalled in every
/// state, so after it CLRSTATUS leads there from wherever an example ended.
fn fresh(tape: &mut Tape) {
    tape.upload(0);
    tape.clr_status();
    tape.dnload(&[7, 0, 0, 0, 0, 0, 0, 0]);
}

fn upload_lengths(tape: &mut Tape) {
    tape.upload(1_025);
    tape.clr_status();
    tape.upload(1_024);
}

/// What the two uploads answer is then sent back as a download.
fn read_back(tape: &mut Tape) {
    let prefix = [0x01, 0x00, 0x10, 0x00, 0xD0, 0x07, 0x00, 0x00];
    let image = &first_flash(HEAD.a, HEAD.b)[16_384..18_384];
    tape.dnload(&[2, 0, 0x10, 0x00, 0xD0, 0x07, 0x00, 0x00]);
    tape.get_status();
    tape.upload(1_024);
    tape.upload(1_024);
    tape.abort();
    tape.dnload(&[4, 0, 16, 0, 2, 0, 0, 0]);
    tape.get_status();
    tape.dnload(&[&prefix, &image[..1_016]].concat());
    tape.get_status();
    tape.dnload(&image[1_016..]);
    tape.get_status();
    tape.dnload(&[]);
    tape.get_status();
}

fn info(tape: &mut Tape) {
    tape.dnload(&[5, 0, 0, 0, 0, 0, 0, 0]);
    tape.get_status();
    tape.upload(1_024);
}

fn state(tape: &mut Tape) {
    tape.get_state();
}

fn query(tape: &mut Tape) {
    tape.query();
}

fn erase_all(tape: &mut Tape) {
    tape.dnload(&[0x04, 0x00, 0x10, 0x00, 0x31, 0x00, 0x00, 0x00]);
    tape.clr_status();
    tape.dnload(&[0x04, 0x00, 0x10, 0x00, 0x30, 0x00, 0x00, 0x00]);
}

fn erase_below(tape: &mut Tape) {
    tape.dnload(&[4, 0, 15, 0, 1, 0, 0, 0]);
}

fn prog_to_the_end(tape: &mut Tape) {
    tape.dnload(&[1, 0, 63, 0, 0x00, 0x04, 0, 0]);
    tape.abort();
    tape.dnload(&[1, 0, 63, 0, 0x01, 0x04, 0, 0]);
}

fn prog_of_nothing_and_of_too_much(tape: &mut Tape) {
    tape.dnload(&[1, 0, 16, 0, 0, 0, 0, 0]);
    tape.clr_status();
    tape.dnload(&[1, 0, 16, 0, 0xFF, 0xFF, 0xFF, 0xFF]);
}

fn seven_bytes(tape: &mut Tape) {
    tape.dnload(&[4, 0, 16, 0, 1, 0, 0]);
    tape.get_status();
}

fn no_bytes(tape: &mut Tape) {
    tape.dnload(&[]);
    tape.get_status();
}

fn one_byte_missing(tape: &mut Tape) {
    tape.dnload(&[1, 0, 16, 0, 3, 0, 0, 0, 0xAA, 0xBB]);
    tape.get_status();
    tape.dnload(&[]);
}

/// The zero byte is put there first, last of its block.
fn prog_over_a_zero_byte(tape: &mut Tape) {
    let mut block = vec![0xFF; 1_024];
    block[1_023] = 0;
    tape.dnload(&[1, 0, 40, 0, 0x00, 0x04, 0, 0]);
    tape.get_status();
    tape.dnload(&block);
    tape.abort();
    tape.dnload(&[1, 0, 40, 0, 0x00, 0x04, 0, 0]);
}

fn clearing(tape: &mut Tape) {
    tape.clr_status();
    tape.clr_status();
    tape.get_state();
}
