//! The steps of a visit, in order. Each ends the visit where an answer is not
//! the awaited one.

use super::plan::Plan;
use super::sums;
use super::unerased::explained;
use crate::names::shown;
use crate::screen::{counted, grouped, Screen};
use crate::store::write;
use crate::wire::Wire;
use mullirim_host::second::{command, state, BLOCK, ERASED, TRANSFER};
use mullirim_host::tape::header;
use std::io::Write;
use std::path::Path;

/// The whole visit. What it left of the flash is written also where it failed:
/// that flash is what the technician would stand before.
pub fn visit<W: Write>(plan: &Plan, screen: &mut Screen<W>) -> Result<(), String> {
    screen.line("A technician's visit, on a simulated board");
    screen.line("");
    let mut wire = at(1, "start", Wire::start(plan.flash.clone(), plan.first))?;
    show_start(&wire, plan, screen);
    let went = serve(&mut wire, plan, screen);
    let left = match &plan.after {
        Some(path) => leave(&wire, path, screen),
        None => Ok(()),
    };
    match (went, left) {
        (Err(first), Err(second)) => return Err(format!("{first}; {second}")),
        (went, left) => went.and(left)?,
    }
    screen.line("");
    screen.line("Done: the image is in place and every sum is right.");
    Ok(())
}

fn serve<W: Write>(wire: &mut Wire, plan: &Plan, screen: &mut Screen<W>) -> Result<(), String> {
    let old = wire.session.sums;
    at(2, "read back", read_back(wire, plan, screen))?;
    match plan.erase {
        true => at(3, "erase", erase(wire, plan, screen))?,
        false => screen.step(3, "Erase", "left out (--no-erase)"),
    }
    at(4, "download", download(wire, plan, screen))?;
    sums::show(wire, &old, screen);
    at(6, "check", sums::check(wire))?;
    let found = "a fresh start on this flash finds the same sums";
    screen.step(6, "Check", found);
    screen.under("worked out bit by bit, they are the same again");
    Ok(())
}

/// Puts the step's name before its trouble.
fn at<T>(number: u8, name: &str, went: Result<T, String>) -> Result<T, String> {
    went.map_err(|why| format!("ended at step {number}, {name}: {why}"))
}

fn show_start<W: Write>(wire: &Wire, plan: &Plan, screen: &mut Screen<W>) {
    let board = wire.session.board;
    let (first, last) = (board.first, board.blocks - 1);
    screen.step(1, "Start", &plan.flash_name);
    screen.under(&format!(
        "{} blocks of {} bytes, the application from block {first} to {last}",
        board.blocks,
        grouped(BLOCK as usize)
    ));
    screen.under(&format!("whole sum {:08X}", wire.session.sums.whole));
    for line in &plan.found {
        screen.under(line);
    }
}

/// The application is read and saved before anything is erased.
fn read_back<W: Write>(wire: &mut Wire, plan: &Plan, screen: &mut Screen<W>) -> Result<(), String> {
    let room = wire.application().len();
    let read = header(command::READ, plan.first, room as u32);
    wire.dnload(&read, state::IDLE)?;
    let (stream, uploads) = read_stream(wire, command::LENGTH + room)?;
    let application = unwrap(&stream, plan.first, wire.application())?;
    let read = counted(application.len(), "byte");
    let uploads = counted(uploads, "upload");
    screen.step(
        2,
        "Read back",
        &format!("{read} in {uploads}, the same as in the flash"),
    );
    match &plan.save {
        Some(path) => {
            write(path, application)?;
            screen.under(&format!("saved to {}", shown(path)));
        }
        None => screen.under("kept in memory (--save FILE writes them)"),
    }
    Ok(())
}

/// Uploads until an answer is short; more than `most` bytes aren't awaited.
fn read_stream(wire: &mut Wire, most: usize) -> Result<(Vec<u8>, usize), String> {
    let mut stream = Vec::new();
    let mut uploads = 0;
    let mut short = false;
    while !short && stream.len() <= most {
        let piece = wire.upload()?;
        short = piece.len() < TRANSFER;
        stream.extend(piece);
        uploads += 1;
    }
    wire.status(state::UP_IDLE)?;
    wire.abort()?;
    Ok((stream, uploads))
}

/// The application out of its stream, which begins with the PROG header that
/// would load it again.
fn unwrap<'a>(stream: &'a [u8], first: u16, held: &[u8]) -> Result<&'a [u8], String> {
    let prefix = header(command::PROG, first, held.len() as u32);
    match stream.strip_prefix(&prefix[..]) {
        None => Err("the bytes read do not begin with the header of the range".to_string()),
        Some(read) if read != held => Err("the bytes read are not the flash's".to_string()),
        Some(read) => Ok(read),
    }
}

fn erase<W: Write>(wire: &mut Wire, plan: &Plan, screen: &mut Screen<W>) -> Result<(), String> {
    let blocks = wire.application().len() / BLOCK as usize;
    let erase = header(command::ERASE, plan.first, blocks as u32);
    wire.dnload(&erase, state::IDLE)?;
    let text = format!("{}, state 2, status 00", counted(blocks, "block"));
    screen.step(3, "Erase", &text);
    Ok(())
}

fn download<W: Write>(wire: &mut Wire, plan: &Plan, screen: &mut Screen<W>) -> Result<(), String> {
    screen.step(4, "Download", &plan.image_name);
    for note in &plan.notes {
        screen.under(note);
    }
    let sent = send(wire, plan, screen);
    let pieces = sent.map_err(|why| explained(wire, plan.erase, why))?;
    wire.dnload(&[], state::IDLE)?;
    screen.under(&format!(
        "{}, closed in state 2, status 00",
        counted(pieces, "piece")
    ));
    arrived(wire, plan)?;
    screen.under("the flash holds the image; its boot area is untouched");
    if let Some(lines) = left_behind(wire, plan) {
        lines.iter().for_each(|line| screen.under(line));
    }
    Ok(())
}

/// The header and the image go as one stream of pieces.
fn send<W: Write>(wire: &mut Wire, plan: &Plan, screen: &mut Screen<W>) -> Result<usize, String> {
    let all = plan.image.len();
    let prog = header(command::PROG, plan.first, all as u32);
    let stream = [&prog[..], &plan.image].concat();
    let mut sent = 0;
    for piece in stream.chunks(TRANSFER) {
        wire.dnload(piece, state::DOWN_IDLE)?;
        sent += piece.len();
        screen.progress(sent - command::LENGTH, all);
    }
    Ok(stream.chunks(TRANSFER).len())
}

fn arrived(wire: &Wire, plan: &Plan) -> Result<(), String> {
    let (image, rest) = wire.application().split_at(plan.image.len());
    let kept = &plan.flash[plan.flash.len() - rest.len()..];
    let (whole, after) = match plan.erase {
        true => (rest.iter().all(|byte| *byte == ERASED), "erased bytes"),
        false => (rest == kept, "what stood there"),
    };
    if image != plan.image || !whole {
        return Err(format!(
            "the application is not the image with {after} after it"
        ));
    }
    if !plan.flash.starts_with(wire.boot_area()) {
        return Err("the boot area is not as it was".to_string());
    }
    Ok(())
}

/// What is told of bytes behind the image that are not erased; only a visit without
/// an erase leaves any. The sums of `mullirim sums --image` know of none.
fn left_behind(wire: &Wire, plan: &Plan) -> Option<[String; 2]> {
    let rest = &wire.application()[plan.image.len()..];
    let first = rest.iter().position(|byte| *byte != ERASED)?;
    let count = rest.iter().filter(|byte| **byte != ERASED).count();
    let address = wire.flash.len() - rest.len() + first;
    Some([
        format!(
            "left behind the image, not FF: {}, from 0x{address:X} on",
            counted(count, "byte")
        ),
        "block sums and whole sum count that, those of sums --image do not".to_string(),
    ])
}

fn leave<W: Write>(wire: &Wire, path: &Path, screen: &mut Screen<W>) -> Result<(), String> {
    write(path, &wire.flash)?;
    screen.under(&format!("flash written to {}", shown(path)));
    Ok(())
}

#[cfg(test)]
mod tests {
    use super::*;
    use mullirim_host::second::sum;
    use std::fs;

    /// Four blocks, the application from block 2 on.
    fn plan(image: Vec<u8>) -> Plan {
        Plan {
            flash: (0..4_096).map(|i| (i % 249) as u8).collect(),
            flash_name: "a small flash".to_string(),
            first: 2,
            erase: true,
            image,
            image_name: "a small image".to_string(),
            found: vec!["what was found around it".to_string()],
            notes: vec!["one price put right".to_string()],
            save: None,
            after: None,
        }
    }

    fn wire(plan: &Plan) -> Wire {
        Wire::start(plan.flash.clone(), plan.first).unwrap()
    }

    fn visited(plan: &Plan) -> (Result<(), String>, Wire, String) {
        let (mut wire, mut out) = (wire(plan), Vec::new());
        let went = serve(&mut wire, plan, &mut Screen::new(&mut out, None));
        (went, wire, String::from_utf8(out).unwrap())
    }

    #[test]
    fn the_flash_holds_the_image_and_then_erased_bytes() {
        for length in [1, 1_016, 1_017, 1_024, 1_500, 2_040, 2_048] {
            let plan = plan(vec![0x42; length]);
            let (went, wire, _) = visited(&plan);
            let mut left = plan.flash[..2_048].to_vec();
            left.resize(2_048 + length, 0x42);
            left.resize(4_096, 0xFF);
            assert_eq!((went, wire.flash == left), (Ok(()), true));
            assert_eq!(
                (wire.session.phase.state, wire.session.phase.status),
                (2, 0)
            );
            let sums = wire.session.sums;
            let blocks = [sum(&left[2_048..3_072]), sum(&left[3_072..])];
            assert_eq!(sums.block[..4], [0, 0, blocks[0], blocks[1]]);
            assert_eq!(sums.whole, sum(&left[2_048..]));
        }
    }

    #[test]
    fn only_a_block_with_other_bytes_changes_its_sum() {
        let mut image = plan(Vec::new()).flash[2_048..].to_vec();
        image[1_030] ^= 1;
        let plan = plan(image);
        let (_, wire, text) = visited(&plan);
        let (old, new) = (sum(&plan.flash[3_072..]), sum(&wire.flash[3_072..]));
        assert!(text.contains("5 Sums       1 block changed, 1 did not\n"));
        assert!(text.contains(&format!("    3   {old:08X}   {new:08X}\n")));
        assert!(!text.contains("    2   "));
    }

    #[test]
    fn each_step_has_its_line() {
        let text = visited(&plan(vec![0x42; 1_500])).2;
        for line in [
            "2 Read back  2,048 bytes in 3 uploads, the same as in the flash",
            "             kept in memory (--save FILE writes them)",
            "3 Erase      2 blocks, state 2, status 00",
            "4 Download   a small image",
            "             one price put right",
            "             [########################################] 1,500 of 1,500 bytes",
            "             2 pieces, closed in state 2, status 00",
            "6 Check      a fresh start on this flash finds the same sums",
        ] {
            assert!(text.lines().any(|shown| shown == line), "{line}");
        }
    }

    #[test]
    fn the_same_image_changes_no_sum() {
        let same = plan(Vec::new()).flash[2_048..].to_vec();
        let text = visited(&plan(same)).2;
        assert!(text.contains("5 Sums       0 blocks changed, 2 did not\n"));
    }

    #[test]
    fn a_board_in_error_ends_the_visit_at_its_first_request() {
        let plan = plan(vec![1]);
        let mut wire = wire(&plan);
        (wire.session.phase.state, wire.session.phase.status) = (10, 0x0F);
        let went = serve(&mut wire, &plan, &mut Screen::new(Vec::new(), None));
        let why = "ended at step 2, read back: DNLOAD was answered 1 (stalled) \
                   and not 0 (taken); the board is in state 10, status 0F";
        assert_eq!(went, Err(why.to_string()));
        assert_eq!(wire.flash, plan.flash);
    }

    #[test]
    fn a_stream_without_its_header_ends_the_visit_before_the_erase() {
        let plan = plan(vec![1]);
        let mut wire = wire(&plan);
        wire.session.upload.prefix = 0;
        let went = serve(&mut wire, &plan, &mut Screen::new(Vec::new(), None));
        let why = "ended at step 2, read back: \
                   the bytes read do not begin with the header of the range";
        assert_eq!(went, Err(why.to_string()));
        assert_eq!(wire.flash, plan.flash);
    }

    /// No request touches the sum kept for a block outside the application.
    #[test]
    fn a_wrong_sum_ends_the_visit_at_the_check() {
        let plan = plan(vec![1]);
        let mut wire = wire(&plan);
        wire.session.sums.block[1] = 7;
        let went = serve(&mut wire, &plan, &mut Screen::new(Vec::new(), None));
        let why = "ended at step 6, check: the sums do not agree: \
                   that of block 1 is kept as 00000007, a fresh start finds 00000000";
        assert_eq!(went, Err(why.to_string()));
    }

    #[test]
    fn a_flash_that_is_not_erased_takes_no_download() {
        let plan = plan(vec![1]);
        let went = download(&mut wire(&plan), &plan, &mut Screen::new(Vec::new(), None));
        let why = "the erase was done, and what stood there is gone, but the byte at address \
                   0x800 (2,048), in block 2, is not FF; nothing was programmed; erase once \
                   more, and if that does not help, the flash may be worn out";
        assert_eq!(went, Err(why.to_string()));
    }

    /// A visit without an erase of an application that is erased but for this byte.
    fn not_erased(image: Vec<u8>, byte: usize) -> (Result<(), String>, Plan, Vec<u8>, String) {
        let mut plan = plan(image);
        plan.erase = false;
        plan.flash[2_048..].fill(0xFF);
        plan.flash[byte] = 0;
        let (went, wire, text) = visited(&plan);
        (went, plan, wire.flash, text)
    }

    #[test]
    fn without_an_erase_the_board_says_where_it_was_needed() {
        for (byte, place) in [
            (2_048, "0x800 (2,048), in block 2"),
            (3_071, "0xBFF (3,071), in block 2"),
            (3_547, "0xDDB (3,547), in block 3"),
        ] {
            let (went, plan, flash, text) = not_erased(vec![0x42; 1_500], byte);
            let why = format!(
                "ended at step 4, download: the application was not all erased, and nothing was \
                 programmed: the byte at address {place}, is not FF; a visit without --no-erase \
                 erases first"
            );
            assert_eq!(went, Err(why));
            assert_eq!(flash, plan.flash);
            assert!(text.contains("3 Erase      left out (--no-erase)\n4 Download"));
        }
    }

    /// What lies behind the image is neither searched nor changed, but told.
    #[test]
    fn without_an_erase_an_image_goes_where_it_is_erased() {
        for (byte, address) in [
            (2_047, None),
            (3_548, Some("0xDDC")),
            (4_095, Some("0xFFF")),
        ] {
            let (went, plan, flash, text) = not_erased(vec![0x42; 1_500], byte);
            let before = &plan.flash;
            let left = [&before[..2_048], &plan.image, &before[3_548..]].concat();
            assert_eq!((went, flash == left), (Ok(()), true));
            let told = address.map(|address| format!("not FF: 1 byte, from {address} on"));
            let line = text
                .lines()
                .find(|line| line.contains("left behind the image"));
            assert_eq!(line.is_some(), told.is_some(), "{text}");
            assert!(
                line.unwrap_or_default()
                    .ends_with(&told.unwrap_or_default()),
                "{text}"
            );
        }
    }

    /// All of them, and the first by its address, below the lines of the download.
    #[test]
    fn what_an_image_leaves_behind_it_is_counted() {
        let mut plan = plan(vec![0x42; 1_500]);
        plan.erase = false;
        plan.flash[2_048..].fill(0xFF);
        plan.flash[4_000..4_003].copy_from_slice(&[0, 0xFF, 0xFE]);
        let lines =
            "             the flash holds the image; its boot area is untouched\n             \
                     left behind the image, not FF: 2 bytes, from 0xFA0 on\n             block \
                     sums and whole sum count that, those of sums --image do not\n5 Sums ";
        let (went, wire, text) = visited(&plan);
        assert_eq!(went, Ok(()));
        assert!(text.contains(lines), "{text}");
        assert_eq!(wire.session.sums.whole, sum(&wire.flash[2_048..]));
    }

    #[test]
    fn a_read_back_is_held_against_the_flash() {
        let stream = [1, 0, 2, 0, 3, 0, 0, 0, 7, 8, 9];
        assert_eq!(unwrap(&stream, 2, &[7, 8, 9]), Ok(&[7, 8, 9][..]));
        let why = "the bytes read are not the flash's";
        assert_eq!(unwrap(&stream, 2, &[7, 8, 8]), Err(why.to_string()));
        let why = "the bytes read do not begin with the header of the range";
        assert_eq!(unwrap(&stream, 2, &[7, 8]), Err(why.to_string()));
        assert!(unwrap(&stream[..10], 2, &[7, 8, 9]).is_err());
    }

    #[test]
    fn what_arrived_is_held_against_the_image() {
        let plan = plan(vec![0x42; 1_500]);
        let (_, mut wire, _) = visited(&plan);
        for (byte, part) in [(2_047, "boot area"), (3_547, "image"), (3_548, "image")] {
            wire.flash[byte] ^= 1;
            assert!(arrived(&wire, &plan).unwrap_err().contains(part));
            wire.flash[byte] ^= 1;
        }
        assert_eq!(arrived(&wire, &plan), Ok(()));
        let kept = Plan {
            erase: false,
            ..plan
        };
        let why = "the application is not the image with what stood there after it";
        assert_eq!(arrived(&wire, &kept), Err(why.to_string()));
    }

    #[test]
    fn a_download_ends_with_that_comparison() {
        let mut plan = plan(vec![0x42; 1_500]);
        let (mut wire, mut screen) = (wire(&plan), Screen::new(Vec::new(), None));
        erase(&mut wire, &plan, &mut screen).unwrap();
        plan.flash[0] ^= 1;
        let why = "the boot area is not as it was".to_string();
        assert_eq!(download(&mut wire, &plan, &mut screen), Err(why));
    }

    #[test]
    fn a_read_back_that_cannot_be_saved_stops_before_the_erase() {
        let mut plan = plan(vec![1]);
        plan.save = Some("no-such-folder/save".into());
        let (went, wire, _) = visited(&plan);
        let why = "ended at step 2, read back: can't write no-such-folder/save: ";
        assert!(went.unwrap_err().starts_with(why));
        assert_eq!(wire.flash, plan.flash);
    }

    #[test]
    fn a_visit_that_failed_leaves_its_flash_too() {
        let name = format!("visit-failed-{}", std::process::id());
        let path = std::env::temp_dir().join(name);
        let mut plan = plan(vec![1]);
        plan.save = Some("no-such-folder/save".into());
        plan.after = Some(path.clone());
        let went = visit(&plan, &mut Screen::new(Vec::new(), None));
        let left = fs::read(&path).unwrap();
        fs::remove_file(path).unwrap();
        assert!(went.is_err());
        assert_eq!(left, plan.flash);
    }

    #[test]
    fn a_start_that_does_not_fit_ends_the_visit() {
        let mut plan = plan(vec![1]);
        plan.first = 4;
        let why = "ended at step 1, start: the start was answered 2 (unfit) and not 0 (taken)";
        let went = visit(&plan, &mut Screen::new(Vec::new(), None));
        assert_eq!(went, Err(why.to_string()));
    }
}
