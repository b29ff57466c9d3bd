//! A site bundle of as many images as there may be: read, asked for its last
//! image, and written. What dominates stands beside by itself: the reading that
//! is done anew for an image, and the copy of the images.

use super::clock::{race, Row, Side};
use super::plain::{self, read_bundle, trusted_image, write_bundle};
use super::{agree, noise, Compared};
use mullirim_files::bundle::{head, image, read, write, MOST};
use std::hint::black_box;

/// All images together are as long as the application of the desk examples.
const IMAGES: usize = 49_152;
const SIZE: usize = head(MOST) + IMAGES;
const LAST: usize = MOST - 1;

pub fn compare() -> Compared {
    let images = noise(IMAGES);
    let file = written(&lengths(), &images)?;
    read_alike(&file, &images)?;
    let mut rows = reading(&file);
    rows.extend(asking(&file));
    rows.extend(writing(&lengths(), &images));
    Ok(rows)
}

/// No two are the same, so that no image passes for another.
fn lengths() -> Vec<u64> {
    (0..MOST as u64).map(|k| 1_505 + 2 * k).collect()
}

/// The bundle, if both sides write the same.
fn written(lengths: &[u64], images: &[u8]) -> Result<Vec<u8>, String> {
    let [mut ours, mut theirs] = [vec![0; SIZE], vec![0; SIZE]];
    let counts = [
        write(lengths, images, &mut ours),
        write_bundle(lengths, images, &mut theirs),
    ];
    agree("bundle write", counts == [Ok(SIZE); 2] && ours == theirs)?;
    Ok(ours)
}

/// Goes on where all sides find as many images as there may be, and these as
/// the last one.
fn read_alike(file: &[u8], images: &[u8]) -> Result<(), String> {
    agree(
        "bundle read",
        [read(file), read_bundle(file)] == [Ok(MOST); 2],
    )?;
    let last = &images[IMAGES - lengths()[LAST] as usize..];
    let found = [
        image(file, LAST),
        plain::image(file, LAST),
        trusted_image(file, LAST),
    ];
    agree("bundle image", found == [last; 3])
}

const BESIDE: &str = "Rust: same work";

fn reading(file: &[u8]) -> Vec<Row> {
    let sides = vec![
        Side::steady("ours", || read(black_box(file))),
        Side::steady(BESIDE, || read_bundle(black_box(file))),
    ];
    race(&format!("bundle read, {MOST} images"), sides)
}

fn asking(file: &[u8]) -> Vec<Row> {
    let sides = vec![
        Side::steady("ours", || image(black_box(file), black_box(LAST))),
        Side::steady(BESIDE, || plain::image(black_box(file), black_box(LAST))),
        Side::steady("Rust, trusts a reading before", || {
            trusted_image(black_box(file), black_box(LAST))
        }),
        Side::steady("ours, the reading alone", || read(black_box(file))),
    ];
    race(&format!("bundle image {LAST} of {MOST}"), sides)
}

fn writing(lengths: &[u64], images: &[u8]) -> Vec<Row> {
    let [mut ours, mut theirs, mut copied] = [vec![0; SIZE], vec![0; SIZE], vec![0; SIZE]];
    let sides = vec![
        Side::steady("ours", || {
            write(black_box(lengths), black_box(images), black_box(&mut ours))
        }),
        Side::steady(BESIDE, || {
            write_bundle(
                black_box(lengths),
                black_box(images),
                black_box(&mut theirs),
            )
        }),
        Side::steady("Rust, the copy alone", || {
            black_box(&mut copied)[head(MOST)..].copy_from_slice(black_box(images))
        }),
    ];
    race(&format!("bundle write, {IMAGES} bytes"), sides)
}

#[cfg(test)]
mod tests {
    use super::*;

    #[test]
    fn the_sides_agree() {
        let images = noise(IMAGES);
        let file = written(&lengths(), &images).expect("the same bytes");
        assert_eq!(file.len(), SIZE);
        assert_eq!(file[head(MOST)..], images);
        assert!(read_alike(&file, &images).is_ok());
    }

    #[test]
    fn another_file_is_seen() {
        let images = noise(IMAGES);
        assert!(written(&[1; MOST], &images).is_err());
        assert!(written(&lengths(), &images[1..]).is_err());
        let file = written(&lengths(), &images).expect("the same bytes");
        assert!(read_alike(&file[1..], &images).is_err());
        let mut changed = file.clone();
        changed[SIZE - 1] ^= 1;
        assert!(read_alike(&changed, &images).is_err());
    }
}
