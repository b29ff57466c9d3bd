//! Plays the script on standard input through the second loader, one line of
//! standard output for each call.

use mullirim_host::second::{start, step, sum, Outcome, TRANSFER};
use mullirim_host::tape::{first_flash, read_head, read_record};
use std::io::{self, Read, Write};

fn main() -> io::Result<()> {
    let mut script = Vec::new();
    io::stdin().read_to_end(&mut script)?;
    let mut out = io::BufWriter::new(io::stdout().lock());
    play(&script, &mut out)?;
    out.flush()
}

fn play(script: &[u8], out: &mut impl Write) -> io::Result<()> {
    let Some((head, mut rest)) = read_head(script) else {
        return Ok(());
    };
    let mut flash = first_flash(head.a, head.b);
    let (a, b) = (u32::from(head.a), u32::from(head.b));
    let (answer, mut session) = start(&flash, a, b, head.part0, head.part1);
    writeln!(out, "start {answer} {:08X}", session.whole)?;
    while let Some((setup, data, further)) = read_record(rest) {
        let mut reply = [0xEE; TRANSFER];
        let outcome = step(&session, &mut flash, setup, data, &mut reply);
        writeln!(out, "{}", line(&outcome, &reply, &flash))?;
        session = outcome.session;
        rest = further;
    }
    Ok(())
}

fn line(outcome: &Outcome, reply: &[u8], flash: &[u8]) -> String {
    let session = &outcome.session;
    let sums: Vec<u8> = session.sums.iter().flat_map(|s| s.to_le_bytes()).collect();
    format!(
        "{} {} {} {} {:08X} {:08X} {:08X} {:08X}",
        outcome.answer,
        outcome.count,
        session.state,
        session.status,
        session.whole,
        sum(&sums),
        sum(reply),
        sum(flash)
    )
}
