//! What the technician sees.

use std::io::{self, ErrorKind, Write};

/// A bar's marks, where the screen has room for them, and the fewest that are
/// worth showing.
const WIDTH: usize = 40;
const NARROW: usize = 4;
/// How long a line may be where no terminal tells.
const PAGE: usize = 79;
/// Lines that belong to a step stand under its words.
pub const INDENT: &str = "             ";

/// Lines and one bar at a time. A write that fails is kept for the end and
/// stops no visit: a board must not stay erased because a window was closed.
pub struct Screen<W: Write> {
    out: W,
    columns: Option<usize>,
    open: bool,
    lost: Option<io::Error>,
}

impl<W: Write> Screen<W> {
    /// On a terminal, which has columns, the bar is drawn again in place.
    pub fn new(out: W, columns: Option<usize>) -> Screen<W> {
        Screen {
            out,
            columns,
            open: false,
            lost: None,
        }
    }

    pub fn line(&mut self, text: &str) {
        self.close_bar();
        self.put(&format!("{text}\n"));
    }

    /// A line that goes to standard error where standard output takes bytes that
    /// are written. These are written by then, so that a line less is no failure.
    pub fn line_aside(&mut self, aside: bool, text: &str) {
        match aside {
            true => drop(writeln!(io::stderr(), "{text}")),
            false => self.line(text),
        }
    }

    /// The first line of a step.
    pub fn step(&mut self, number: u8, name: &str, text: &str) {
        self.line(&format!("{number} {name:<11}{text}"));
    }

    /// A further line of a step.
    pub fn under(&mut self, text: &str) {
        self.line(format!("{INDENT}{text}").trim_end());
    }

    /// A line that a terminal would have to break can't be drawn again in
    /// place; so the bar is as short as it must be, and where not even its
    /// numbers have room it is shown once, at the end.
    pub fn progress(&mut self, done: usize, all: usize) {
        let numbers = INDENT.len() + numbers(all, all).len();
        match self.columns {
            Some(columns) if columns >= numbers => {
                let bar = bar(done, all, marks(columns - numbers));
                self.put(&format!("\r{INDENT}{bar}"));
                self.open = true;
            }
            _ if done < all => (),
            Some(_) => self.under(&bar(done, all, 0)),
            None => self.under(&bar(done, all, marks(PAGE - numbers))),
        }
    }

    /// Says whether all was shown. A reader that left early, such as `head`,
    /// has seen what it wanted.
    pub fn finish(mut self) -> io::Result<()> {
        self.close_bar();
        match self.lost {
            Some(error) if error.kind() != ErrorKind::BrokenPipe => Err(error),
            _ => Ok(()),
        }
    }

    fn close_bar(&mut self) {
        if self.open {
            self.open = false;
            self.put("\n");
        }
    }

    fn put(&mut self, text: &str) {
        if self.lost.is_none() {
            let put = self.out.write_all(text.as_bytes());
            self.lost = put.and_then(|()| self.out.flush()).err();
        }
    }
}

/// How many marks of a bar fit into so many columns, with what stands around
/// them.
fn marks(columns: usize) -> usize {
    match columns.saturating_sub("[] ".len()).min(WIDTH) {
        0..NARROW => 0,
        marks => marks,
    }
}

/// A bar of so many marks that is full only at the end.
fn bar(done: usize, all: usize, marks: usize) -> String {
    if marks == 0 {
        return numbers(done, all);
    }
    let full = done * marks / all;
    let (full, rest) = ("#".repeat(full), ".".repeat(marks - full));
    format!("[{full}{rest}] {}", numbers(done, all))
}

fn numbers(done: usize, all: usize) -> String {
    format!("{} of {}", grouped(done), counted(all, "byte"))
}

/// A number with a comma before every three digits.
pub fn grouped(number: impl ToString) -> String {
    let digits = number.to_string();
    let mut text = String::new();
    for (i, digit) in digits.chars().enumerate() {
        if i > 0 && (digits.len() - i) % 3 == 0 {
            text.push(',');
        }
        text.push(digit);
    }
    text
}

/// A number of things, one or more.
pub fn counted(number: usize, thing: &str) -> String {
    let end = if number == 1 { "" } else { "s" };
    format!("{} {thing}{end}", grouped(number))
}

#[cfg(test)]
mod tests {
    use super::*;

    /// A pipe whose reader took `room` bytes and left, or a full disk.
    struct Narrow {
        room: usize,
        then: ErrorKind,
    }

    impl Write for Narrow {
        fn write(&mut self, bytes: &[u8]) -> io::Result<usize> {
            if self.room == 0 {
                return Err(io::Error::from(self.then));
            }
            let taken = bytes.len().min(self.room);
            self.room -= taken;
            Ok(taken)
        }

        fn flush(&mut self) -> io::Result<()> {
            Ok(())
        }
    }

    fn drawn(columns: Option<usize>) -> String {
        let mut out = Vec::new();
        let mut screen = Screen::new(&mut out, columns);
        screen.progress(512, 1_024);
        screen.progress(1_024, 1_024);
        screen.line("next");
        screen.finish().unwrap();
        String::from_utf8(out).unwrap()
    }

    #[test]
    fn the_bar_fills() {
        let empty = format!("[{}] 0 of 49,152 bytes", ".".repeat(40));
        assert_eq!(bar(0, 49_152, 40), empty);
        let half = format!("[{}{}] 512 of 1,024 bytes", "#".repeat(20), ".".repeat(20));
        assert_eq!(bar(512, 1_024, 40), half);
        assert!(bar(49_151, 49_152, 40).contains("#.]"));
        let full = format!("[{}] 7 of 7 bytes", "#".repeat(40));
        assert_eq!(bar(7, 7, 40), full);
        assert_eq!(bar(1, 2, 5), "[##...] 1 of 2 bytes");
        assert_eq!(bar(1, 2, 0), "1 of 2 bytes");
    }

    #[test]
    fn a_live_bar_is_drawn_in_place() {
        let (half, full) = (bar(512, 1_024, 40), bar(1_024, 1_024, 40));
        for columns in [76, 78, 80, 200] {
            assert_eq!(
                drawn(Some(columns)),
                format!("\r{INDENT}{half}\r{INDENT}{full}\nnext\n")
            );
        }
    }

    /// A terminal goes back to the start of its line only while no line is
    /// longer than it is wide.
    #[test]
    fn on_a_narrow_terminal_no_drawn_line_is_too_long() {
        for columns in 33..78 {
            let text = drawn(Some(columns));
            let lines: Vec<&str> = text.lines().next().unwrap().split('\r').collect();
            assert_eq!(lines.len(), 3, "{columns}: {text}");
            assert!(
                lines.iter().all(|line| line.len() <= columns),
                "{columns}: {text}"
            );
            assert!(lines[2].ends_with("1,024 of 1,024 bytes"));
            // What is drawn later covers what was drawn before.
            assert!(lines[1].len() <= lines[2].len());
        }
        let shortest = format!("\r{INDENT}[##..] 512 of 1,024 bytes\r");
        assert!(drawn(Some(40)).starts_with(&shortest));
        let bare = format!("\r{INDENT}512 of 1,024 bytes\r");
        assert!(drawn(Some(39)).starts_with(&bare));
    }

    #[test]
    fn where_nothing_fits_the_numbers_are_one_line() {
        for columns in [1, 32] {
            let line = format!("{INDENT}1,024 of 1,024 bytes\nnext\n");
            assert_eq!(drawn(Some(columns)), line);
        }
    }

    #[test]
    fn elsewhere_the_full_bar_is_one_line() {
        let full = bar(1_024, 1_024, 40);
        assert_eq!(drawn(None), format!("{INDENT}{full}\nnext\n"));
    }

    #[test]
    fn elsewhere_no_line_is_too_long_for_a_page() {
        for all in [1, 49_152, 261_120, 1_000_000] {
            let mut out = Vec::new();
            Screen::new(&mut out, None).progress(all, all);
            let line = String::from_utf8(out).unwrap();
            assert!(
                line.trim_end().len() <= PAGE && line.contains("[####"),
                "{line}"
            );
        }
    }

    #[test]
    fn a_bar_left_half_way_ends_its_line() {
        let mut out = Vec::new();
        let mut screen = Screen::new(&mut out, Some(80));
        screen.progress(1, 4);
        screen.finish().unwrap();
        assert_eq!(out.last(), Some(&b'\n'));
    }

    #[test]
    fn a_closed_pipe_is_no_fault_and_a_full_disk_is() {
        for (then, fine) in [
            (ErrorKind::BrokenPipe, true),
            (ErrorKind::StorageFull, false),
        ] {
            let mut screen = Screen::new(Narrow { room: 3, then }, None);
            screen.line("first");
            screen.line("second");
            assert_eq!(screen.finish().is_ok(), fine);
        }
    }

    #[test]
    fn numbers_are_grouped_and_counted() {
        let seen = [0, 999, 1_000, 49_152, 1_234_567].map(grouped);
        assert_eq!(seen, ["0", "999", "1,000", "49,152", "1,234,567"]);
        assert_eq!(counted(1, "block"), "1 block");
        assert_eq!(counted(1_024, "byte"), "1,024 bytes");
    }
}
