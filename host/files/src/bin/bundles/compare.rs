//! The proved calls and the second ones side by side over one case.

use mullirim_files::bundle::{self, Refusal, Unwritten};
use mullirim_host::bundle as second;
use mullirim_host::bundle::cases::Case;
use mullirim_host::bundle::seen::Seen;
use mullirim_host::comparison::{files, same, same_bytes, Same};
use mullirim_host::layout::{BundleFound, Part, Written};

pub type Tally = files::Tally<dyn Fn(&Seen) -> bool>;

pub fn both(case: &Case, tally: &mut Tally) -> Same {
    let (read, parts, written) =
        agreed(case, tally).map_err(|difference| format!("{difference}\n{}", described(case)))?;
    let seen = Seen::new(case, read, &parts, written);
    tally.agreed(seen.accepted(), seen.was_written());
    tally.rows.see(&seen);
    Ok(())
}

/// What each call came to.
type Agreed = Result<(BundleFound, Vec<Part>, Written), String>;

fn agreed(case: &Case, tally: &mut Tally) -> Agreed {
    let read = read(case, tally)?;
    let asked = case.asked.iter();
    let parts: Result<_, _> = asked.map(|k| image(case, *k, tally)).collect();
    Ok((read, parts?, write(case, tally)?))
}

fn read(case: &Case, tally: &mut Tally) -> Result<BundleFound, String> {
    let awaited = second::read(&case.file);
    let as_c = BundleFound::from(&awaited);
    tally.calls += 2;
    same("what reading gives", bundle::read_as_c(&case.file), as_c)?;
    let read = bundle::read(&case.file).map_err(Refusal::number);
    same(
        "what the wrapper reads",
        read,
        awaited.map(|images| images.len()),
    )?;
    if read.is_ok() && !case.file.is_vast() {
        same_again(case, as_c.count, tally)?;
    }
    Ok(as_c)
}

fn image(case: &Case, k: usize, tally: &mut Tally) -> Result<Part, String> {
    let place = second::image(&case.file, k);
    let as_c = Part::from(place.clone());
    tally.calls += 2;
    same(
        &format!("image {k}"),
        bundle::image_as_c(&case.file, k),
        as_c,
    )?;
    let (image, awaited) = (bundle::image(&case.file, k), &case.file[place]);
    let lies = (image.as_ptr(), image.len());
    let what = format!("place of image {k} by the wrapper");
    same(&what, lies, (awaited.as_ptr(), awaited.len()))?;
    Ok(as_c)
}

/// Writing the images that were read gives the same bytes.
fn same_again(case: &Case, count: usize, tally: &mut Tally) -> Same {
    let images: Vec<&[u8]> = (0..count).map(|k| bundle::image(&case.file, k)).collect();
    let lengths: Vec<u64> = images.iter().map(|image| image.len() as u64).collect();
    let mut again = vec![0xEE; case.file.len()];
    let written = bundle::write(&lengths, &images.concat(), &mut again);
    tally.calls += 1 + count as u64;
    same("writing what was read", written, Ok(case.file.len()))?;
    same_bytes("file written again", &again, &case.file)
}

fn write(case: &Case, tally: &mut Tally) -> Result<Written, String> {
    let (lengths, images) = (&case.lengths, &case.images);
    let mut frame = case.frame.clone();
    let awaited = second::write(lengths, images, &mut frame[case.lent()]);
    let as_c = Written::from(awaited);
    let mut left = case.frame.clone();
    let written = bundle::write_as_c(lengths, images, &mut left[case.lent()]);
    same("what writing gives", written, as_c)?;
    same_bytes("buffer and its guards", left.told(), frame.told())?;
    let mut left = case.frame.clone();
    let written = bundle::write(lengths, images, &mut left[case.lent()]);
    let count = written.map_err(Unwritten::number);
    same("what the wrapper writes", count, awaited)?;
    same_bytes("buffer by the wrapper", left.told(), frame.told())?;
    tally.calls += 2;
    if let Ok(count) = count {
        read_again(case, &left[case.lent()][..count], tally)?;
    }
    Ok(as_c)
}

/// Reading what was written gives the images back.
fn read_again(case: &Case, written: &[u8], tally: &mut Tally) -> Same {
    let count = case.lengths.len();
    tally.calls += 1 + count as u64;
    same("reading what was written", bundle::read(written), Ok(count))?;
    let images: Vec<&[u8]> = (0..count).map(|k| bundle::image(written, k)).collect();
    let lengths: Vec<u64> = images.iter().map(|image| image.len() as u64).collect();
    same("lengths of what was written", &lengths, &case.lengths)?;
    same_bytes("images read again", &images.concat(), &case.images)
}

fn described(case: &Case) -> String {
    let first = &case.file[..case.file.len().min(26)];
    let lengths = &case.lengths[..case.lengths.len().min(33)];
    format!(
        "{} bytes of file from {first:02X?}, images {:?}; \
         {} lengths from {lengths:?}, {} bytes of images, {} bytes of buffer",
        case.file.len(),
        case.asked,
        case.lengths.len(),
        case.images.len(),
        case.lent().len()
    )
}
