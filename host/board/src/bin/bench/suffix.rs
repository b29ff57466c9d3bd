//! A suffix, written behind an image and read again. The sum over the same bytes
//! by itself stands beside it, to show what the rest takes.

use super::clock::{race, Row, Side};
use super::plain::{read_suffix, write_suffix};
use super::{agree, noise, Compared};
use mullirim_board::sum;
use mullirim_files::suffix::{read, write, Parts, SIZE};
use std::hint::black_box;

/// The application of the desk examples.
const IMAGE: usize = 49_152;
const PARTS: Parts = Parts {
    device: 0x0100,
    product: 0x0001,
    vendor: 0x1209,
};

pub fn compare() -> Compared {
    let image = noise(IMAGE);
    let [mut file, mut theirs] = [vec![0; IMAGE + SIZE], vec![0; IMAGE + SIZE]];
    let counts = (
        write(&image, PARTS, &mut file),
        write_suffix(&image, PARTS, &mut theirs),
    );
    let both = (Some(IMAGE + SIZE), Some(IMAGE + SIZE));
    agree("suffix write", counts == both && file == theirs)?;
    let readings = (read(&file).ok(), read_suffix(&file));
    let both = (Some((PARTS, IMAGE)), Some((PARTS, IMAGE)));
    agree("suffix read", readings == both)?;
    let mut rows = reading(&file);
    rows.extend(writing(&image));
    Ok(rows)
}

const BESIDE: &str = "Rust, byte table: same work";
const ALONE: &str = "ours, the sum alone";

fn reading(file: &[u8]) -> Vec<Row> {
    let summed = &file[..file.len() - 4];
    let sides = vec![
        Side::steady("ours", || read(black_box(file))),
        Side::steady(BESIDE, || read_suffix(black_box(file))),
        Side::steady(ALONE, || sum(black_box(summed))),
    ];
    race(&format!("suffix read, {IMAGE} bytes"), sides)
}

fn writing(image: &[u8]) -> Vec<Row> {
    let [mut ours, mut theirs] = [vec![0; IMAGE + SIZE], vec![0; IMAGE + SIZE]];
    let summed = noise(IMAGE + SIZE - 4);
    let sides = vec![
        Side::steady("ours", || {
            write(black_box(image), PARTS, black_box(&mut ours))
        }),
        Side::steady(BESIDE, || {
            write_suffix(black_box(image), PARTS, black_box(&mut theirs))
        }),
        Side::steady(ALONE, || sum(black_box(&summed))),
    ];
    race(&format!("suffix write, {IMAGE} bytes"), sides)
}
