//! The rows of the eight-byte commands.

use crate::rows::Rows;
use crate::seen::{Command, Seen, FORMS};
use mullirim_host::second::{answer, command, status};
use std::ops::Range;

impl Rows {
    pub fn commands(&mut self) {
        self.no_command();
        for (number, name) in NAMED {
            self.ranges(number, name);
        }
        self.too_much();
        for (number, name) in [(command::PROG, "PROG"), (command::CHECK, "CHECK")] {
            self.erased(number, name);
            self.eights(number, name);
        }
        self.done();
        self.done_by_commands();
    }

    pub fn command(
        &mut self,
        name: impl Into<String>,
        holds: impl Fn(&Seen, &Command) -> bool + 'static,
    ) {
        self.add(name, move |seen| {
            seen.command
                .as_ref()
                .is_some_and(|command| holds(seen, command))
        });
    }

    /// Status 0B.
    fn no_command(&mut self) {
        self.add("DNLOAD of 0 bytes in state 2", |seen| {
            let (lent, none) = (seen.lent(), seen.call.data.is_empty());
            seen.answered(answer::STALLED) && seen.formed(&FORMS[0]) && lent.state == 2 && none
        });
        for length in 1..8 {
            self.command(format!("0B: {length} bytes"), move |seen, command| {
                seen.faulted(status::COMMAND) && command.bytes.len() == length
            });
        }
        for number in [0, 8, 255] {
            self.command(format!("0B: command {number}"), move |seen, command| {
                seen.faulted(status::COMMAND) && command.is(number) && command.extra() == 0
            });
        }
        for number in 2..8 {
            let name = format!("0B: a byte after command {number}");
            self.command(name, move |seen, command| {
                seen.faulted(status::COMMAND) && command.is(number) && command.extra() == 1
            });
        }
        self.command("0B: extra bytes, and a range outside", |seen, command| {
            let outside = command.whole() && command.range().end > seen.application().end;
            let named = (2..5).any(|number| command.is(number));
            seen.faulted(status::COMMAND) && named && outside && command.extra() > 0
        });
    }

    /// Status 08 by the range, for a command that names one.
    fn ranges(&mut self, number: u8, name: &str) {
        for (what, holds) in OUTSIDE {
            self.command(format!("08: {name}, {what}"), move |seen, command| {
                seen.faulted(status::ADDRESS) && command.is(number) && holds(seen, command)
            });
        }
        // A count of blocks has 16 bits, which are too few for that.
        if number != command::ERASE {
            let name = format!("08: {name}, an end over 32 bits");
            self.command(name, move |seen, command| {
                seen.faulted(status::ADDRESS) && command.is(number) && command.range().end >> 32 > 0
            });
        }
    }

    /// Status 08 by the first data of a PROG.
    fn too_much(&mut self) {
        self.command("08: PROG, a byte more than its length", |seen, command| {
            let more = command.extra() as u64 == u64::from(command.long()) + 1;
            seen.faulted(status::ADDRESS) && command.is(command::PROG) && more
        });
        self.command("08: PROG, more data, not erased", |seen, command| {
            let inside = command.is(command::PROG) && command.range().end <= seen.application().end;
            let more = command.extra() as u64 > u64::from(command.long());
            seen.faulted(status::ADDRESS) && inside && more && seen.dirty(command.range()) > 0
        });
        self.command("05: PROG with data", |seen, command| {
            seen.faulted(status::NOT_ERASED) && command.extra() > 0
        });
    }

    /// Status 05. How near to it a range may come, `eights` has.
    fn erased(&mut self, number: u8, name: &str) {
        let faulted = move |seen: &Seen, command: &Command| {
            seen.faulted(status::NOT_ERASED) && command.is(number)
        };
        self.command(format!("05: {name}"), faulted);
        let first = format!("05: {name}, the first byte alone");
        self.command(first, move |seen, command| {
            let rest = command.range().start + 1..command.range().end;
            faulted(seen, command) && seen.dirty(rest) == 0
        });
        let last = format!("05: {name}, the last byte alone");
        self.command(last, move |seen, command| {
            let rest = command.range().start..command.range().end - 1;
            faulted(seen, command) && seen.dirty(rest) == 0
        });
    }

    /// Each command carried out, with its ignored bytes set, and over the
    /// borders of the application.
    fn done(&mut self) {
        for number in 1..8 {
            let done = move |seen: &Seen, command: &Command| {
                let answer = [answer::TAKEN, answer::RESET_ASKED][usize::from(number == 7)];
                seen.answered(answer) && command.is(number)
            };
            self.command(format!("command {number}"), done);
            let ignored = format!("command {number}, byte 1 set");
            self.command(ignored, move |seen, command| {
                done(seen, command) && command.bytes[1] > 0
            });
            if number < 5 {
                self.borders(number, done);
                continue;
            }
            let ignored = format!("command {number}, bytes 2 to 7 set");
            self.command(ignored, move |seen, command| {
                done(seen, command) && command.bytes[2..8].iter().any(|byte| *byte > 0)
            });
        }
    }

    fn borders(&mut self, number: u8, done: impl Fn(&Seen, &Command) -> bool + Copy + 'static) {
        let rows: [(&str, Where); 3] = [
            ("to the end", |seen, command| {
                command.range().end == seen.application().end
            }),
            ("all of it", |seen, command| {
                command.range() == seen.application()
            }),
            ("one block", |_, command| {
                command.range().end - command.range().start == 1_024
            }),
        ];
        for (what, holds) in rows {
            self.command(format!("command {number}, {what}"), move |seen, command| {
                done(seen, command) && holds(seen, command)
            });
        }
    }

    fn done_by_commands(&mut self) {
        let taken = |seen: &Seen, command: &Command, number: u8| {
            seen.answered(answer::TAKEN) && command.is(number)
        };
        self.command("ERASE, bytes 6 and 7 set", move |seen, command| {
            taken(seen, command, 4) && command.bytes[6..8].iter().any(|byte| *byte > 0)
        });
        self.command("ERASE of several blocks", move |seen, command| {
            taken(seen, command, 4) && command.long() % 65_536 > 1
        });
        self.command("PROG with no data", move |seen, command| {
            taken(seen, command, 1) && command.extra() == 0
        });
        self.command("PROG with some data", move |seen, command| {
            taken(seen, command, 1) && command.extra() > 0 && seen.next().down_left > 0
        });
        self.command("PROG with all its data", move |seen, command| {
            taken(seen, command, 1) && seen.next().down_left == 0
        });
        self.command("PROG of 1,024 bytes", move |seen, command| {
            taken(seen, command, 1) && command.extra() == 1_016
        });
        self.command("READ, the choice was info", move |seen, command| {
            taken(seen, command, 2) && seen.lent().up_choice == 1
        });
        self.command("RESET, all of the upload changed", |seen, _| {
            let lent = seen.lent();
            let reset = seen.answered(answer::RESET_ASKED) && lent.up_choice == 1;
            reset && lent.up_prefix == 0 && lent.up_first != lent.a
        });
    }
}

pub const NAMED: [(u8, &str); 4] = [
    (command::PROG, "PROG"),
    (command::READ, "READ"),
    (command::CHECK, "CHECK"),
    (command::ERASE, "ERASE"),
];

pub type Where = fn(&Seen, &Command) -> bool;

/// How a range can fail to lie in the application.
const OUTSIDE: [(&str, Where); 7] = [
    ("empty", |_, command| command.range().is_empty()),
    ("at the block before", |seen, command| {
        command.block() + 1 == seen.lent().a && !command.range().is_empty()
    }),
    ("from block 0 on", |_, command| command.block() == 0),
    ("at the block behind", |seen, command| {
        command.block() == seen.lent().b && !command.range().is_empty()
    }),
    ("just past the end", |seen, command| {
        let unit = if command.is(command::ERASE) { 1_024 } else { 1 };
        command.block() < seen.lent().b && command.range().end == seen.application().end + unit
    }),
    ("a block that fits in 8 bits", |seen, command| {
        let cut = command.block() % 256;
        command.block() > 255 && (seen.lent().a..seen.lent().b).contains(&cut)
    }),
    ("a length that fits in 16 bits", |seen, command| {
        let Range { start, end } = command.range();
        let cut = start + (end - start) % 65_536;
        end - start > 65_535 && start < cut && cut <= seen.application().end
    }),
];
