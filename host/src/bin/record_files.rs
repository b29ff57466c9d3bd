//! Writes a recording of files to standard output, with all that the second
//! readers and writers make of them: `record_files SEED FILES`, first so many
//! for the suffix and then so many for bundles. `tests/replay_files.c` reads
//! it, and says how it is laid out. A recording that would leave a row of the
//! paper out is not brought to its end.

#[path = "record_files/bundles.rs"]
mod bundles;
#[path = "record_files/suffixes.rs"]
mod suffixes;

use mullirim_host::rows::Rows;
use std::io::{self, Write};
use std::process::ExitCode;

fn main() -> ExitCode {
    let words: Vec<u64> = std::env::args()
        .skip(1)
        .filter_map(|word| word.parse().ok())
        .collect();
    let [seed, files] = words[..] else {
        eprintln!("record_files SEED FILES");
        return ExitCode::from(2);
    };
    match record(seed, files, &mut io::stdout().lock()) {
        Ok(()) => ExitCode::SUCCESS,
        Err(error) => {
            eprintln!("record_files: {error}");
            ExitCode::FAILURE
        }
    }
}

fn record(seed: u64, files: u64, out: &mut impl Write) -> io::Result<()> {
    suffixes::record(seed, files, out)?;
    bundles::record(seed, files, out)?;
    out.write_all(b"E")?;
    out.write_all(&numbers([2 * files as usize]))?;
    out.flush()
}

fn all_met<Holds: ?Sized>(rows: &Rows<Holds>) -> io::Result<()> {
    match rows.missed().first() {
        None => Ok(()),
        Some(missed) => Err(io::Error::other(format!("never met: {missed}"))),
    }
}

/// Each in 32 bits.
fn numbers<const N: usize>(numbers: [usize; N]) -> Vec<u8> {
    let bytes = |number| (number as u32).to_le_bytes();
    numbers.map(bytes).concat()
}
