//! A long session with one of everything, for A = 16 and B = 64.

use mullirim_host::second::command;
use mullirim_host::tape::{setup, Head, Tape};

const HEAD: Head = Head {
    a: 16,
    b: 64,
    part0: 0x1234_5678,
    part1: 0x9ABC_DEF0,
};

pub fn script() -> Vec<u8> {
    let mut tape = Tape::new(&HEAD);
    erase_and_program(&mut tape);
    read_back(&mut tape);
    drop_a_download(&mut tape);
    fault_and_clear(&mut tape);
    choose_uploads(&mut tape);
    tell_where(&mut tape);
    stall(&mut tape);
    unfit(&mut tape);
    tape.bytes
}

/// An image in which neighbouring bytes and neighbouring blocks differ.
fn image(length: usize) -> Vec<u8> {
    (0..length).map(|i| (i * 13 + i / 199 + 5) as u8).collect()
}

fn erase(tape: &mut Tape, block: u16, count: u32) {
    tape.command(command::ERASE, block, count, &[]);
    tape.get_status();
}

fn erase_and_program(tape: &mut Tape) {
    tape.query();
    tape.get_state();
    erase(tape, 20, 4);
    tape.get_status();
    let image = image(2_500);
    tape.command(command::PROG, 20, 2_500, &image[..1_000]);
    tape.get_status();
    tape.dnload(&image[1_000..2_000]);
    tape.get_status();
    tape.dnload(&image[2_000..]);
    tape.get_status();
    tape.dnload(&[]);
    tape.get_state();
    tape.get_status();
}

/// Reads on past the end, where the answers are empty but state 9 stays.
fn read_back(tape: &mut Tape) {
    tape.command(command::READ, 20, 2_500, &[]);
    tape.get_status();
    for _ in 0..4 {
        tape.upload(1_024);
    }
    tape.get_status();
    tape.abort();
    tape.upload(1_024);
    tape.upload(700);
    tape.get_state();
}

fn drop_a_download(tape: &mut Tape) {
    // ERASE must not read the high half of its count.
    erase(tape, 30, 0xFFFF_0002);
    tape.command(command::PROG, 30, 2_048, &[]);
    tape.get_status();
    tape.dnload(&image(1_024));
    tape.get_status();
    tape.dnload(&image(3));
    tape.abort();
    tape.get_status();
    tape.command(command::CHECK, 31, 1_024, &[]);
    tape.clr_status();
    tape.command(command::CHECK, 32, 1_024, &[]);
    tape.abort();
}

fn fault_and_clear(tape: &mut Tape) {
    // Some are wrong twice over, and tell the order of the checks.
    let faults: [(u8, u16, u32, usize); 10] = [
        (command::PROG, 20, 100, 1),
        (command::PROG, 20, 1, 2),
        (command::ERASE, 15, 1, 1),
        (command::PROG, 40, u32::MAX, 0),
        (command::PROG, 40, 4, 5),
        (command::READ, 64, 1, 0),
        (command::ERASE, 63, 2, 0),
        (command::CHECK, 17, 1, 0),
        (command::INFO, 0, 0, 1),
        (8, 40, 4, 0),
    ];
    for (number, block, length, extra) in faults {
        tape.command(number, block, length, &image(extra));
        tape.get_status();
        tape.clr_status();
    }
    closings_refused(tape);
}

fn closings_refused(tape: &mut Tape) {
    erase(tape, 41, 1);
    for last in [&[][..], &[1, 2, 3][..]] {
        tape.command(command::PROG, 41, 2, &[]);
        tape.get_status();
        tape.dnload(last);
        tape.get_status();
        tape.clr_status();
    }
}

fn choose_uploads(tape: &mut Tape) {
    tape.command(command::INFO, 0, 0, &[]);
    tape.get_status();
    tape.upload(12);
    tape.upload(1_024);
    tape.upload(1_024);
    tape.abort();
    tape.command(command::READ, 21, 1_500, &[]);
    tape.get_status();
    tape.dnload(&[command::BIN, 1, 0, 0, 0, 0, 0, 0]);
    tape.get_status();
    tape.upload(1_024);
    tape.upload(100);
    tape.dnload(&[command::BIN, 2, 0, 0, 0, 0, 0, 0]);
    tape.get_status();
    tape.upload(1_023);
    tape.dnload(&[command::BIN, 0, 0, 0, 0, 0, 0, 0]);
    tape.get_status();
    tape.upload(9);
    tape.dnload(&[command::BIN, 1, 0, 0, 0, 0, 0, 0]);
    tape.get_status();
    tape.command(command::INFO, 0, 0, &[]);
    tape.get_status();
    tape.command(command::RESET, 0, 0, &[]);
    tape.get_state();
    tape.upload(1_024);
    tape.abort();
}

/// The address that the last search left, which a line shows by the sum of the
/// info bytes alone. Blocks 17 and 19 have never been erased, and 16, 18 and 32
/// are.
fn tell_where(tape: &mut Tape) {
    told(tape);
    let found: [(u8, u16, u32, usize); 7] = [
        (command::CHECK, 17, 1_024, 0),
        (command::CHECK, 18, 1_025, 0),
        (command::CHECK, 16, 1_025, 0),
        (command::CHECK, 16, 4_096, 0),
        (command::PROG, 19, 1, 0),
        (command::PROG, 16, 2_000, 0),
        (command::PROG, 18, 1_025, 9),
    ];
    for (number, block, length, data) in found {
        tape.command(number, block, length, &image(data));
        told(tape);
    }
    kept(tape);
    let clean: [(u8, u32, usize); 3] = [
        (command::CHECK, 1_024, 0),
        (command::PROG, 1_024, 0),
        (command::PROG, 1, 1),
    ];
    for (number, length, data) in clean {
        tape.command(command::CHECK, 17, 1, &[]);
        told(tape);
        tape.command(number, 32, length, &image(data));
        told(tape);
    }
    tape.command(command::CHECK, 19, 1, &[]);
    tape.clr_status();
    tape.command(command::RESET, 0, 0, &[]);
    told(tape);
    tape.command(command::RESET, 0, 0, &[]);
}

/// Asked from whatever state the last request led to: up to the middle of the
/// address, then all, and what is behind the end.
fn told(tape: &mut Tape) {
    tape.upload(0);
    tape.clr_status();
    tape.command(command::INFO, 0, 0, &[]);
    tape.get_status();
    tape.upload(22);
    tape.upload(1_024);
    tape.upload(1_024);
    tape.abort();
}

/// Commands that are refused before they search, or that never do.
fn kept(tape: &mut Tape) {
    let all: [(u8, u16, u32, usize); 9] = [
        (command::CHECK, 15, 1, 0),
        (command::CHECK, 16, 0, 0),
        (command::CHECK, 16, 1, 1),
        (command::PROG, 63, 1_025, 0),
        (command::PROG, 16, 1, 2),
        (command::PROG, 17, 1, 2),
        (command::ERASE, 33, 1, 0),
        (command::READ, 16, 1, 0),
        (8, 16, 1, 0),
    ];
    for (number, block, length, data) in all {
        tape.command(number, block, length, &image(data));
        told(tape);
    }
    tape.dnload(&[command::CHECK, 0, 16, 0, 1, 0, 0]);
    told(tape);
    tape.dnload(&[]);
    told(tape);
}

fn stall(tape: &mut Tape) {
    let setups = [
        setup(0xA1, 2, 0),
        setup(0xA1, 2, 1_025),
        setup(0xA1, 3, 5),
        setup(0xA1, 5, 2),
        setup(0x21, 4, 0),
        setup(0x21, 4, 1),
        setup(0x21, 0, 0),
        setup(0xA1, 1, 8),
        [0xA1, 0x42, 0x24, 0, 0, 0, 4, 0],
        [0xA1, 0x42, 0x23, 1, 0, 0, 4, 0],
        [0xA1, 5, 0, 0, 1, 0, 1, 0],
    ];
    for setup in setups {
        tape.call(&setup, &[]);
        tape.abort();
        tape.get_status();
        tape.clr_status();
    }
    tape.dnload(&[]);
    tape.clr_status();
    tape.dnload(&image(1_025));
    tape.clr_status();
    out_of_turn(tape);
}

/// Good requests in states that don't take them.
fn out_of_turn(tape: &mut Tape) {
    erase(tape, 50, 1);
    tape.command(command::PROG, 50, 10, &[7]);
    tape.dnload(&[8]);
    tape.clr_status();
    tape.upload(1_024);
    tape.command(command::INFO, 0, 0, &[]);
    tape.get_state();
    tape.clr_status();
    erase(tape, 50, 1);
    tape.command(command::PROG, 50, 1, &[7]);
    tape.get_status();
    tape.upload(8);
    tape.clr_status();
}

fn unfit(tape: &mut Tape) {
    let erase = [command::ERASE, 0, 20, 0, 1, 0, 0, 0];
    tape.call(&setup(0xA1, 5, 1)[..7], &[]);
    tape.call(&[&setup(0xA1, 5, 1)[..], &[0]].concat(), &[]);
    tape.call(&[], &[]);
    tape.call(&setup(0x21, 1, 9), &erase);
    tape.call(&setup(0x21, 1, 7), &erase);
    tape.call(&setup(0x21, 1, 8), &[]);
    tape.call(&setup(0xA1, 5, 1), &[0]);
    tape.call(&setup(0xA1, 1, 8), &erase);
    tape.call(&[0x21, 1, 0, 0, 1, 0, 8, 0], &erase[..7]);
    tape.get_status();
}
