//! The proved calls and the second ones side by side over one case.

use mullirim_files::suffix::{self, Parts, Refusal, SIZE};
use mullirim_host::comparison::{files, same, same_bytes, Same};
use mullirim_host::layout::{SuffixFound, Written};
use mullirim_host::suffix as second;
use mullirim_host::suffix::cases::Case;
use mullirim_host::suffix::seen::Seen;

pub type Tally = files::Tally<dyn Fn(&Seen) -> bool>;

pub fn both(case: &Case, tally: &mut Tally) -> Same {
    let agreed = read(case, tally).and_then(|read| Ok((read, write(case, tally)?)));
    let (read, written) =
        agreed.map_err(|difference| format!("{difference}\n{}", described(case)))?;
    let seen = Seen::new(case, read, written);
    tally.agreed(seen.accepted(), seen.was_written());
    tally.rows.see(&seen);
    Ok(())
}

fn read(case: &Case, tally: &mut Tally) -> Result<SuffixFound, String> {
    let awaited = second::read(&case.file);
    let as_c = SuffixFound::from(awaited);
    tally.calls += 2;
    same("what reading gives", suffix::read_as_c(&case.file), as_c)?;
    let read = suffix::read(&case.file).map_err(Refusal::number);
    same("what the wrapper reads", read, awaited)?;
    if let Ok((parts, length)) = read {
        same_again(case, parts, length, tally)?;
    }
    Ok(as_c)
}

/// Writing what was read gives the same bytes.
fn same_again(case: &Case, parts: Parts, length: usize, tally: &mut Tally) -> Same {
    let mut again = vec![0xEE; case.file.len()];
    let count = suffix::write(&case.file[..length], parts, &mut again);
    tally.calls += 1;
    same("writing what was read", count, Some(case.file.len()))?;
    same_bytes("file written again", &again, &case.file)
}

fn write(case: &Case, tally: &mut Tally) -> Result<Written, String> {
    let Case { file, parts, .. } = case;
    let mut frame = case.frame.clone();
    let awaited = second::write(file, *parts, &mut frame[case.lent()]);
    let as_c = Written::from(awaited);
    let mut left = case.frame.clone();
    let written = suffix::write_as_c(file, *parts, &mut left[case.lent()]);
    same("what writing gives", written, as_c)?;
    same_bytes("buffer and its guards", &left, &frame)?;
    let mut left = case.frame.clone();
    let count = suffix::write(file, *parts, &mut left[case.lent()]);
    same("what the wrapper writes", count, awaited)?;
    same_bytes("buffer by the wrapper", &left, &frame)?;
    tally.calls += 2;
    if let Some(count) = count {
        read_again(case, &left[case.lent()][..count], tally)?;
    }
    Ok(as_c)
}

/// Reading what was written gives the parts back.
fn read_again(case: &Case, written: &[u8], tally: &mut Tally) -> Same {
    tally.calls += 1;
    let awaited = Ok((case.parts, written.len() - SIZE));
    same("reading what was written", suffix::read(written), awaited)
}

fn described(case: &Case) -> String {
    let last = &case.file[case.file.len().saturating_sub(SIZE)..];
    format!(
        "{} bytes of file up to {last:02X?}, {:04X?}, {} bytes of buffer",
        case.file.len(),
        case.parts,
        case.lent().len()
    )
}
