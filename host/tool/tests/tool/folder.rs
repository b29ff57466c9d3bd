//! A folder of a test's own, and the tool run in it.

use mullirim_host::second::MOST_BLOCKS;
use std::ffi::OsStr;
use std::fs;
use std::path::{Path, PathBuf};
use std::process::{Command, Output};
use std::sync::atomic::{AtomicUsize, Ordering};

pub const TOOL: &str = env!("CARGO_BIN_EXE_mullirim");

pub struct Folder(PathBuf);

/// How a run ended.
#[derive(Debug, PartialEq)]
pub struct Said {
    pub code: Option<i32>,
    pub out: String,
    pub err: String,
}

impl Said {
    pub fn new(output: Output) -> Said {
        Said {
            code: output.status.code(),
            out: String::from_utf8(output.stdout).unwrap(),
            err: String::from_utf8(output.stderr).unwrap(),
        }
    }
}

impl Folder {
    /// Tests run side by side, and two may choose one name.
    pub fn new(name: &str) -> Folder {
        static MADE: AtomicUsize = AtomicUsize::new(0);
        let number = MADE.fetch_add(1, Ordering::Relaxed);
        let name = format!("mullirim-test-{name}-{}-{number}", std::process::id());
        let path = std::env::temp_dir().join(name);
        fs::create_dir_all(&path).unwrap();
        Folder(path)
    }

    pub fn path(&self) -> &Path {
        &self.0
    }

    pub fn put(&self, name: impl AsRef<Path>, bytes: impl AsRef<[u8]>) {
        fs::write(self.0.join(name), bytes).unwrap();
    }

    pub fn get(&self, name: &str) -> Vec<u8> {
        fs::read(self.0.join(name)).unwrap()
    }

    pub fn names(&self) -> Vec<String> {
        let name = |entry: std::io::Result<fs::DirEntry>| entry.unwrap().file_name();
        let mut names: Vec<_> = fs::read_dir(&self.0).unwrap().map(name).collect();
        names.sort();
        let text = |name: std::ffi::OsString| name.into_string().unwrap();
        names.into_iter().map(text).collect()
    }

    pub fn command(&self, program: &str) -> Command {
        let mut command = Command::new(program);
        command.current_dir(&self.0);
        command
    }

    pub fn run<S: AsRef<OsStr>>(&self, words: &[S]) -> Said {
        Said::new(self.command(TOOL).args(words).output().unwrap())
    }

    /// A run that is done, and what it printed.
    pub fn done<S: AsRef<OsStr>>(&self, words: &[S]) -> String {
        let said = self.run(words);
        assert_eq!((said.code, &*said.err), (Some(0), ""), "{}", said.out);
        said.out
    }

    /// A run that is refused with this code and message, and prints nothing
    /// else.
    pub fn refused<S: AsRef<OsStr>>(&self, words: &[S], code: i32, message: &str) {
        let awaited = Said {
            code: Some(code),
            out: String::new(),
            err: format!("{message}\n"),
        };
        assert_eq!(self.run(words), awaited);
    }
}

impl Drop for Folder {
    fn drop(&mut self) {
        let _ = fs::remove_dir_all(&self.0);
    }
}

/// The most bytes of a flash, as a message has them.
pub fn most_bytes() -> String {
    let bytes = MOST_BLOCKS * 1_024;
    format!("{},{:03} bytes", bytes / 1_000, bytes % 1_000)
}

/// A flash of so many blocks that looks like one, from a seed.
pub fn some_flash(seed: u64, blocks: u32) -> Vec<u8> {
    let mut flash = mullirim_host::dice::Dice::new(seed).bytes(blocks * 1_024);
    // An erased end, as most have.
    let end = flash.len() - 300;
    flash[end..].fill(0xFF);
    flash
}
