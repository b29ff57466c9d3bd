//! mullirim, the technician's tool. What it does to a flash, and the sums that
//! it tells of one, go through the proved calls; so do DFU files and site bundles.

mod bundle;
mod ending;
mod files;
mod names;
mod place;
mod screen;
mod store;
mod suffix;
mod sums;
mod terminal;
mod visit;
mod wire;
mod words;
mod wrapping;

use names::shown;
use screen::Screen;
use std::ffi::OsString;
use std::io::{self, Write};
use std::process::ExitCode;

const HELP: &str = "\
mullirim: the technician's tool for boards that run the loader Mullirim

  mullirim visit [FLAGS]      a visit on a simulated board: read back, erase,
                              download, and which block sums changed
  mullirim sums [FLAGS] FILE  the block sums of a flash file, or of an image
                              as it would stand in one; or which blocks of
                              two files differ
  mullirim suffix show FILE   the suffix of a DFU file; with check or add in
                              place of show, whether the file is whole, or a
                              file with a suffix behind it
  mullirim bundle list FILE   the images of a site bundle, with their sums;
                              with pack or unpack in place of list, a bundle
                              of images, or the images of a bundle

  With --help behind it, each of them shows its flags.

Exit: 0 done, 1 a file that can't be used or a visit that failed, 2 wrong use.";

/// Why the program ends without having done what was asked.
#[derive(Debug, PartialEq)]
enum End {
    /// The words of the command line.
    Usage(String),
    /// An input, an answer of the board, or a file that can't be written.
    Trouble(String),
}

/// What the first word asks for.
#[derive(Clone, Copy)]
enum Command {
    Overview,
    Visit,
    Sums,
    Suffix,
    Bundle,
}

impl Command {
    /// Who speaks in a message.
    fn name(self) -> &'static str {
        match self {
            Command::Overview => "mullirim",
            Command::Visit => "mullirim visit",
            Command::Sums => "mullirim sums",
            Command::Suffix => "mullirim suffix",
            Command::Bundle => "mullirim bundle",
        }
    }
}

fn main() -> ExitCode {
    let words: Vec<OsString> = std::env::args_os().skip(1).collect();
    let columns = terminal::columns(&io::stdout());
    let (command, went) = run(&words, io::stdout(), columns);
    let (message, code) = match went {
        Ok(()) => return ExitCode::SUCCESS,
        Err(End::Usage(message)) => (format!("{message} (--help shows how)"), 2),
        Err(End::Trouble(message)) => (message, 1),
    };
    // Where stderr is gone too, the exit code is all that is left to say it.
    let _ = writeln!(io::stderr(), "{}: {message}", command.name());
    ExitCode::from(code)
}

fn run(words: &[OsString], out: impl Write, columns: Option<usize>) -> (Command, Result<(), End>) {
    let mut screen = Screen::new(out, columns);
    let (first, rest) = match words.split_first() {
        Some((first, rest)) => (first.to_str(), rest),
        None => (None, words),
    };
    let (command, went) = match first {
        Some("visit") => (Command::Visit, visit::run(rest, &mut screen)),
        Some("sums") => (Command::Sums, sums::run(rest, &mut screen)),
        Some("suffix") => (Command::Suffix, suffix::run(rest, &mut screen)),
        Some("bundle") => (Command::Bundle, bundle::run(rest, &mut screen)),
        _ => (Command::Overview, overview(words, &mut screen)),
    };
    // The screen is closed also where the command failed, so that the message
    // doesn't follow a bar on its line.
    let closed = screen.finish();
    let closed =
        closed.map_err(|error| End::Trouble(format!("can't write to standard output: {error}")));
    (command, went.and(closed))
}

/// No command at all, or none that there is.
fn overview<W: Write>(words: &[OsString], screen: &mut Screen<W>) -> Result<(), End> {
    if words::asks_for_help(words) {
        screen.line(HELP);
        return Ok(());
    }
    Err(End::Usage(match words.first() {
        None => "say what to do: visit, sums, suffix or bundle".to_string(),
        Some(word) => format!("no command is called {}", shown(word)),
    }))
}
