//! Stock `dfu-util` against the proved loader: `stock FOLDER PAGE TOOL`. The folder
//! holds a stand-in for libusb that is a board (`tests/stock/libusb.c`) and a
//! client for single commands (`tests/stock/command.c`). After each run of a
//! client, its exit status and words, the board's flash, its session and every
//! transfer are held to what was worked out here, and to the second loader.
//! The page tells technicians what the words mean; it may quote none that were
//! not said. The technician's tool is held to `dfu-suffix` and `dfu-prefix`.

#[path = "stock/bench.rs"]
mod bench;
#[path = "stock/downloads.rs"]
mod downloads;
#[path = "stock/edges.rs"]
mod edges;
#[path = "stock/files.rs"]
mod files;
#[path = "stock/refusals.rs"]
mod refusals;
#[path = "stock/suffixes.rs"]
mod suffixes;
#[path = "stock/uploads.rs"]
mod uploads;

use bench::Bench;
use std::fs;
use std::path::Path;
use std::process::ExitCode;

/// A case tries something on the bench, and says what was not as it should be.
type Case = fn(&mut Bench) -> Result<(), String>;

const CASES: [(&str, Case); 33] = [
    ("list", uploads::list),
    ("upload whole", uploads::whole),
    ("upload what a command chose", uploads::chosen),
    ("upload from a board of the most blocks", uploads::far),
    ("upload where it was not erased", uploads::where_not_erased),
    ("upload in small requests", uploads::small),
    ("upload onto a file that is there", uploads::onto_a_file),
    ("download odd lengths", downloads::odd_lengths),
    ("download the whole application", downloads::whole),
    ("download without a suffix", downloads::no_suffix),
    ("read out, erase, send back", downloads::there_and_back),
    (
        "download onto flash that is not erased",
        refusals::not_erased,
    ),
    ("download outside the application", refusals::outside),
    ("download without a prefix", refusals::no_prefix),
    ("download of less than was told", refusals::too_little),
    ("download of more than was told", refusals::too_much),
    ("download with a damaged suffix", refusals::damaged_suffix),
    ("download that ends like a suffix", refusals::looks_suffixed),
    ("download for another board", refusals::another_board),
    ("download to any board", refusals::any_board),
    ("download of nothing", refusals::nothing),
    ("transfers over 1,024 bytes", refusals::too_large),
    ("what an earlier run left behind", edges::left_behind),
    ("commands that are refused", edges::refused_commands),
    ("a command as a download", edges::command_as_download),
    ("detach and restart", edges::restarts),
    ("suffixes that dfu-suffix writes", suffixes::read),
    ("suffixes that mullirim writes", suffixes::write),
    ("suffixes taken off again", suffixes::take_off),
    ("suffixes that are damaged", suffixes::damaged),
    ("files without a suffix", suffixes::without),
    ("suffixes on which the tools differ", suffixes::otherwise),
    ("a visit with a stock tool's file", suffixes::visit),
];

fn main() -> ExitCode {
    let words: Vec<String> = std::env::args().skip(1).collect();
    let [folder, page, tool] = &words[..] else {
        eprintln!("stock FOLDER PAGE TOOL");
        return ExitCode::from(2);
    };
    let mut bench = match Bench::new(Path::new(folder), Path::new(tool)) {
        Ok(bench) => bench,
        Err(error) => return failed("the bench", &error),
    };
    for (name, case) in CASES {
        if let Err(error) = case(&mut bench) {
            return failed(name, &error);
        }
    }
    if let Err(error) = page_is_true(&bench, page) {
        return failed(page, &error);
    }
    println!("{}", bench.tally());
    ExitCode::SUCCESS
}

/// What the page quotes, in the first column of its table of messages, was said.
fn page_is_true(bench: &Bench, page: &str) -> Result<(), String> {
    let text = fs::read_to_string(page).map_err(|error| error.to_string())?;
    let quoted: Vec<&str> = text
        .lines()
        .filter_map(|line| line.strip_prefix("| `")?.split('`').next())
        .collect();
    match quoted.iter().find(|words| !bench.was_said(words)) {
        Some(words) => Err(format!("no client said \"{words}\"")),
        None if quoted.is_empty() => Err("it quotes nothing".to_string()),
        None => Ok(()),
    }
}

fn failed(name: &str, error: &str) -> ExitCode {
    println!("{name}: {error}");
    ExitCode::FAILURE
}
