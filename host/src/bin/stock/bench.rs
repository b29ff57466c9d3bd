//! The board on the bench: its files, the clients that are run against it, and
//! what is held to what after each run.

use mullirim_host::layout::{self, Laid};
use mullirim_host::second::{answer, start, state, status, step, Session};
use mullirim_host::second::{BLOCK, ERASED, MOST_BLOCKS, TRANSFER};
use std::fs::{self, File};
use std::path::{Path, PathBuf};
use std::process::{Child, Command, Stdio};
use std::thread::sleep;
use std::time::{Duration, Instant};

/// The vendor and product of the stand-in, as a client is told them.
pub const BOARD: &str = "1209:0001";
/// The same for dfu-util: a board that is in DFU mode already.
pub const IN_DFU_MODE: &str = ",1209:0001";
pub const VENDOR: u16 = 0x1209;
pub const PRODUCT: u16 = 0x0001;

/// The most blocks that a board's flash may have.
pub const MOST: u32 = MOST_BLOCKS as u32;

/// The part numbers that the stand-in starts the loader with.
const PARTS: (u32, u32) = (0x4D4C_0001, 0x4D4C_0002);
/// No run takes so long, nor so many bytes of trace.
const PATIENCE: Duration = Duration::from_secs(60);
const ENOUGH: u64 = 1_000_000;

pub struct Bench {
    folder: PathBuf,
    mullirim: PathBuf,
    pub first: u32,
    /// What the board must hold: the flash by each case's own reckoning, the
    /// session by the second loader.
    pub flash: Vec<u8>,
    pub session: Session,
    runs: usize,
    transfers: usize,
    file_runs: usize,
    all_said: String,
}

/// What a client said. It has no exit status where it was stopped.
pub struct Run {
    pub exit: Option<i32>,
    pub words: String,
}

/// What a run must leave.
pub struct Left<'a> {
    pub exit: Option<i32>,
    pub says: &'a [&'a str],
    /// The board's state and status.
    pub phase: (u8, u8),
    /// Whether it restarted at the end, for a reason that no transfer tells.
    pub restarts: bool,
    pub flash: Vec<u8>,
}

impl Left<'_> {
    /// A run that went well, on a flash that is now this one.
    pub fn done(flash: Vec<u8>) -> Left<'static> {
        Left {
            exit: Some(0),
            says: &[],
            phase: (state::IDLE, status::OK),
            restarts: false,
            flash,
        }
    }
}

impl Bench {
    pub fn new(folder: &Path, mullirim: &Path) -> Result<Bench, String> {
        let found = |path: &Path| {
            fs::canonicalize(path).map_err(|error| format!("{}: {error}", path.display()))
        };
        let (folder, mullirim) = (found(folder)?, found(mullirim)?);
        for name in ["libusb-1.0.so.0", "command"] {
            if !folder.join(name).is_file() {
                return Err(format!("no {name} in {}", folder.display()));
            }
        }
        Ok(Bench {
            folder,
            mullirim,
            first: 0,
            flash: Vec::new(),
            session: Session::zeros(),
            runs: 0,
            transfers: 0,
            file_runs: 0,
            all_said: String::new(),
        })
    }

    pub fn file(&self, name: &str) -> PathBuf {
        self.folder.join(name)
    }

    /// A file for a client to send.
    pub fn lay(&self, name: &str, bytes: &[u8]) -> Result<(), String> {
        fs::write(self.file(name), bytes).map_err(|error| format!("{name}: {error}"))
    }

    pub fn read(&self, name: &str) -> Result<Vec<u8>, String> {
        fs::read(self.file(name)).map_err(|error| format!("{name}: {error}"))
    }

    pub fn remove(&self, name: &str) {
        // That it was not there is as good.
        let _ = fs::remove_file(self.file(name));
    }

    /// A board that has just been given power.
    pub fn power_on(&mut self, first: u32, flash: Vec<u8>) -> Result<(), String> {
        self.lay("flash", &flash)?;
        self.remove("session");
        (self.first, self.flash) = (first, flash);
        self.restarted();
        Ok(())
    }

    /// The board restarted by itself, and finds its flash as it was.
    pub fn restarted(&mut self) {
        let blocks = self.flash.len() as u32 / BLOCK;
        self.session = start(&self.flash, self.first, blocks, PARTS.0, PARTS.1).1;
    }

    /// A board that somebody left in the middle of something.
    pub fn leave(&mut self, session: Session, flash: Vec<u8>) -> Result<(), String> {
        self.lay("session", &layout::Session::from(&session).bytes())?;
        self.lay("flash", &flash)?;
        (self.session, self.flash) = (session, flash);
        Ok(())
    }

    pub fn dfu_util(&mut self, words: &[&str]) -> Result<Run, String> {
        self.run("dfu-util", &[&["-d", IN_DFU_MODE], words].concat(), None)
    }

    /// dfu-util, stopped once so many bytes of trace are there.
    pub fn dfu_util_until(&mut self, trace: u64, words: &[&str]) -> Result<Run, String> {
        let words = [&["-d", IN_DFU_MODE], words].concat();
        self.run("dfu-util", &words, Some(trace))
    }

    /// One of the loader's commands, from our own client.
    pub fn command(&mut self, words: &[&str]) -> Result<Run, String> {
        let program = self.file("command");
        self.run(
            &program.to_string_lossy(),
            &[&[BOARD], words].concat(),
            None,
        )
    }

    /// A program that only works on files.
    pub fn tool(&self, program: &str, words: &[&str]) -> Result<(), String> {
        let mut tool = Command::new(program);
        let ended = tool.args(words).current_dir(&self.folder).output();
        match ended {
            Ok(output) if output.status.success() => Ok(()),
            Ok(output) => Err(format!("{program}: {:?}", output)),
            Err(error) => Err(format!("{program}: {error}")),
        }
    }

    /// A program that only works on files, which may end in any way.
    pub fn on_files(&mut self, program: &str, words: &[&str]) -> Result<Run, String> {
        self.file_runs += 1;
        self.ended(program, words, None)
    }

    /// The technician's tool.
    pub fn mullirim(&mut self, words: &[&str]) -> Result<Run, String> {
        let program = self.mullirim.to_string_lossy().into_owned();
        self.on_files(&program, words)
    }

    /// A client of the board.
    pub fn run(
        &mut self,
        program: &str,
        words: &[&str],
        until: Option<u64>,
    ) -> Result<Run, String> {
        self.runs += 1;
        let run = self.ended(program, words, until)?;
        self.all_said.push_str(&run.words);
        Ok(run)
    }

    fn ended(&self, program: &str, words: &[&str], until: Option<u64>) -> Result<Run, String> {
        self.remove("trace");
        let said = File::create(self.file("said")).map_err(|error| error.to_string())?;
        let also = said.try_clone().map_err(|error| error.to_string())?;
        let child = Command::new(program)
            .args(words)
            .current_dir(&self.folder)
            .env("LD_LIBRARY_PATH", &self.folder)
            .env("LC_ALL", "C")
            .env("MULLIRIM_FLASH", self.file("flash"))
            .env("MULLIRIM_SESSION", self.file("session"))
            .env("MULLIRIM_TRACE", self.file("trace"))
            .env("MULLIRIM_FIRST", self.first.to_string())
            .stdin(Stdio::null())
            .stdout(said)
            .stderr(also)
            .spawn()
            .map_err(|error| format!("{program}: {error}"))?;
        let exit = self.wait(child, until)?;
        let words = String::from_utf8_lossy(&self.read("said")?).into_owned();
        Ok(Run { exit, words })
    }

    fn wait(&self, mut child: Child, until: Option<u64>) -> Result<Option<i32>, String> {
        let begun = Instant::now();
        loop {
            if let Some(status) = child.try_wait().map_err(|error| error.to_string())? {
                return Ok(Some(status.code().unwrap_or(-1)));
            }
            let traced = fs::metadata(self.file("trace")).map_or(0, |seen| seen.len());
            if begun.elapsed() > PATIENCE || traced > until.unwrap_or(ENOUGH) {
                let _ = child.kill();
                let _ = child.wait();
                return match until {
                    Some(bytes) if traced > bytes => Ok(None),
                    _ => Err("the client does not end".to_string()),
                };
            }
            sleep(Duration::from_millis(1));
        }
    }

    /// What a run left, held to all that is known.
    pub fn hold(&mut self, run: &Run, left: &Left) -> Result<(), String> {
        if run.exit != left.exit {
            let (seen, wanted) = (run.exit, left.exit);
            return Err(format!("exit {seen:?}, not {wanted:?}\n{}", run.words));
        }
        let silent = |words: &&&str| !run.words.contains(**words);
        if let Some(words) = left.says.iter().find(silent) {
            return Err(format!("it does not say \"{words}\"\n{}", run.words));
        }
        self.replay(run.exit.is_none())?;
        if left.restarts {
            self.restarted();
        }
        same_bytes("the second loader's flash", &self.flash, &left.flash)?;
        same_bytes("the board's flash", &self.read("flash")?, &left.flash)?;
        self.same_session()?;
        let phase = (self.session.state, self.session.status);
        if phase != left.phase {
            return Err(format!("state and status {phase:?}, not {:?}", left.phase));
        }
        self.sums_are_right()
    }

    /// The run's transfers, played through the second loader. Where the client
    /// was stopped, the last one may be cut short.
    fn replay(&mut self, stopped: bool) -> Result<(), String> {
        let trace = self.read("trace").unwrap_or_default();
        let mut rest = &trace[..];
        while let Some((transfer, behind)) = Transfer::split(rest) {
            let mut reply = [0; TRANSFER];
            let (setup, data) = (transfer.setup, transfer.data);
            let outcome = step(&self.session, &mut self.flash, setup, data, &mut reply);
            let told = (transfer.answer, transfer.reply);
            if told != (outcome.answer, &reply[..outcome.count as usize]) {
                return Err(format!("setup {setup:02X?} was answered {told:02X?}"));
            }
            self.session = outcome.session;
            if outcome.answer == answer::RESET_ASKED {
                self.restarted();
            }
            // How far a client came that was stopped is not the same each time.
            self.transfers += usize::from(!stopped);
            rest = behind;
        }
        match rest {
            [] => Ok(()),
            _ if stopped => Ok(()),
            _ => Err("the trace is cut short".to_string()),
        }
    }

    /// The session that the board keeps is the second loader's, field by field:
    /// put over it, ours changes nothing.
    fn same_session(&self) -> Result<(), String> {
        let kept = self.read("session")?;
        let mut over = kept.clone();
        layout::Session::from(&self.session).put(&mut over);
        match kept == over {
            true => Ok(()),
            false => Err("the session is not the second loader's".to_string()),
        }
    }

    /// The kept sums are those that the flash has, worked out bit by bit.
    fn sums_are_right(&self) -> Result<(), String> {
        let blocks = self.flash.len() as u32 / BLOCK;
        let (_, fresh) = start(&self.flash, self.first, blocks, 0, 0);
        match (fresh.sums, fresh.whole) == (self.session.sums, self.session.whole) {
            true => Ok(()),
            false => Err("the sums are not those of the flash".to_string()),
        }
    }

    /// Whether a client said all of this, in whatever run.
    pub fn was_said(&self, words: &str) -> bool {
        self.all_said.contains(words)
    }

    pub fn tally(&self) -> String {
        let (runs, transfers, file_runs) = (self.runs, self.transfers, self.file_runs);
        format!(
            "{runs} runs of stock clients, {transfers} transfers: flash, sums, sessions and exits \
             as they must be; {file_runs} runs of dfu-suffix, dfu-prefix and mullirim on files: \
             bytes, numbers and refusals as they must be"
        )
    }
}

/// One transfer of the trace, which `tests/stock/libusb.c` tells how to read.
struct Transfer<'a> {
    setup: &'a [u8],
    data: &'a [u8],
    answer: u8,
    reply: &'a [u8],
}

impl Transfer<'_> {
    fn split(trace: &[u8]) -> Option<(Transfer<'_>, &[u8])> {
        let (setup, rest) = trace.split_at_checked(8)?;
        let length = match (setup[0], setup[1]) {
            (0x21, 1) => usize::from(u16::from_le_bytes([setup[6], setup[7]])),
            _ => 0,
        };
        let (data, rest) = rest.split_at_checked(length)?;
        let (answer, rest) = rest.split_first()?;
        let (count, rest) = rest.split_first_chunk::<4>()?;
        let (reply, rest) = rest.split_at_checked(u32::from_le_bytes(*count) as usize)?;
        let transfer = Transfer {
            setup,
            data,
            answer: *answer,
            reply,
        };
        Some((transfer, rest))
    }
}

pub fn same_bytes(what: &str, seen: &[u8], wanted: &[u8]) -> Result<(), String> {
    if seen.len() != wanted.len() {
        return Err(format!(
            "{what}: {} bytes, not {}",
            seen.len(),
            wanted.len()
        ));
    }
    match seen
        .iter()
        .zip(wanted)
        .position(|(seen, wanted)| seen != wanted)
    {
        Some(at) => Err(format!(
            "{what}: byte {at} is {:02X}, not {:02X}",
            seen[at], wanted[at]
        )),
        None => Ok(()),
    }
}

/// A flash that is written everywhere, with no byte as its neighbours.
pub fn written(blocks: u32) -> Vec<u8> {
    let byte = |i: u32| ((i * 7 + i / 256) % 251) as u8;
    (0..blocks * BLOCK).map(byte).collect()
}

/// The same with an application that is erased.
pub fn erased(first: u32, blocks: u32) -> Vec<u8> {
    let mut flash = written(blocks);
    flash[(first * BLOCK) as usize..].fill(ERASED);
    flash
}
