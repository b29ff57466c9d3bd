//! The same work as one writes it in Rust at first: a table, a byte at a step,
//! slices copied whole.

use mullirim_files::bundle::{head, Refusal, Unwritten, MOST};
use mullirim_host::layout::Parts;

static REMAINDERS: [u32; 256] = remainders();

const fn remainders() -> [u32; 256] {
    let mut table = [0; 256];
    let mut index = 0;
    while index < 256 {
        table[index] = remainder(index as u32);
        index += 1;
    }
    table
}

/// What is left of eight bits that are taken in.
const fn remainder(byte: u32) -> u32 {
    let mut rest = byte;
    let mut bit = 0;
    while bit < 8 {
        rest = (rest >> 1) ^ (0xEDB8_8320 * (rest & 1));
        bit += 1;
    }
    rest
}

/// What so many zero bytes make of a sum, by each of its parts: as many as there are
/// tables, each with an entry for whatever a part may be. The entries of one bit are
/// those without it, and what becomes of that bit.
pub const fn past<const ENTRIES: usize, const PARTS: usize>(
    zeros: usize,
) -> [[u32; ENTRIES]; PARTS] {
    let mut tables = [[0; ENTRIES]; PARTS];
    let mut bit = 0;
    while bit < 32 {
        let moved = past_zeros(1 << bit, zeros);
        let (part, first) = (bit / (32 / PARTS), 1 << (bit % (32 / PARTS)));
        let mut index = 0;
        while index < first {
            tables[part][first + index] = tables[part][index] ^ moved;
            index += 1;
        }
        bit += 1;
    }
    tables
}

const fn past_zeros(sum: u32, zeros: usize) -> u32 {
    let mut running = sum;
    let mut taken = 0;
    while taken < zeros {
        running = (running >> 8) ^ remainder(running & 0xFF);
        taken += 1;
    }
    running
}

pub const NOTHING_SUMMED: u32 = 0xFFFF_FFFF;

/// The paper's sum by the table.
pub fn sum(bytes: &[u8]) -> u32 {
    let each = bytes.iter();
    each.fold(NOTHING_SUMMED, |running, byte| taken_in(running, *byte))
}

/// A sum with one more byte.
pub fn taken_in(running: u32, byte: u8) -> u32 {
    let low = (running ^ u32::from(byte)) & 0xFF;
    (running >> 8) ^ REMAINDERS[low as usize]
}

/// What is the same in every suffix: bcdDFU, signature and length.
const FIXED: [u8; 6] = *b"\x00\x01UFD\x10";

/// The parts, and how many bytes stand before the suffix.
pub fn read_suffix(file: &[u8]) -> Option<(Parts, usize)> {
    let (summed, last) = file.split_last_chunk::<4>()?;
    let (image, [d0, d1, p0, p1, v0, v1, fixed @ ..]) = summed.split_last_chunk::<12>()?;
    let parts = Parts {
        device: u16::from_le_bytes([*d0, *d1]),
        product: u16::from_le_bytes([*p0, *p1]),
        vendor: u16::from_le_bytes([*v0, *v1]),
    };
    let right = *fixed == FIXED && u32::from_le_bytes(*last) == sum(summed);
    right.then_some((parts, image.len()))
}

/// The file and its suffix at the buffer's front, if there is room.
pub fn write_suffix(file: &[u8], parts: Parts, buffer: &mut [u8]) -> Option<usize> {
    let count = file.len() + 16;
    let (summed, last) = buffer.get_mut(..count)?.split_at_mut(count - 4);
    let (image, front) = summed.split_at_mut(file.len());
    image.copy_from_slice(file);
    front[..2].copy_from_slice(&parts.device.to_le_bytes());
    front[2..4].copy_from_slice(&parts.product.to_le_bytes());
    front[4..6].copy_from_slice(&parts.vendor.to_le_bytes());
    front[6..].copy_from_slice(&FIXED);
    last.copy_from_slice(&sum(summed).to_le_bytes());
    Some(count)
}

/// The bytes of an entry of a bundle.
const ENTRY: usize = 8;

/// Offset and length, as an entry has them.
fn entry(bytes: &[u8]) -> (u32, u32) {
    let number = |four: &[u8]| u32::from_le_bytes(four.try_into().expect("four bytes"));
    (number(&bytes[..4]), number(&bytes[4..ENTRY]))
}

/// How many images a bundle has.
pub fn read_bundle(file: &[u8]) -> Result<usize, Refusal> {
    let (count, behind) = file.split_first_chunk::<2>().ok_or(Refusal::Short)?;
    let count = usize::from(u16::from_le_bytes(*count));
    if !(1..=MOST).contains(&count) {
        return Err(Refusal::Count);
    }
    let table = behind.get(..ENTRY * count).ok_or(Refusal::Table)?;
    let size = file.len() as u64;
    let mut end = head(count) as u64;
    for (offset, length) in table.chunks_exact(ENTRY).map(entry) {
        if u64::from(offset) != end {
            return Err(Refusal::Offset);
        }
        if length == 0 {
            return Err(Refusal::Empty);
        }
        end += u64::from(length);
        if end > size {
            return Err(Refusal::Past);
        }
    }
    match end < size {
        true => Err(Refusal::LeftOver),
        false => Ok(count),
    }
}

/// Image k of a bundle, the whole file judged first.
pub fn image(file: &[u8], k: usize) -> &[u8] {
    match read_bundle(file) {
        Ok(count) if k < count => trusted_image(file, k),
        _ => &[],
    }
}

/// The same of a file that was read before and has such an image. What was
/// read stays the caller's word: another file gives another part, or a panic.
pub fn trusted_image(file: &[u8], k: usize) -> &[u8] {
    let (offset, length) = entry(&file[head(k)..head(k + 1)]);
    &file[offset as usize..][..length as usize]
}

/// Where the last of these images ends, if all numbers of its table have 32
/// bits.
fn end(lengths: &[u64]) -> Option<u64> {
    let mut at = head(lengths.len()) as u64;
    for length in lengths {
        u32::try_from(at.max(*length)).ok()?;
        at += length;
    }
    Some(at)
}

/// The bundle at the buffer's front.
pub fn write_bundle(lengths: &[u64], images: &[u8], buffer: &mut [u8]) -> Result<usize, Unwritten> {
    if !(1..=MOST).contains(&lengths.len()) {
        return Err(Unwritten::Count);
    }
    if lengths.contains(&0) {
        return Err(Unwritten::Empty);
    }
    if !end(lengths).is_some_and(|end| end <= buffer.len() as u64) {
        return Err(Unwritten::NoRoom);
    }
    if lengths.iter().sum::<u64>() != images.len() as u64 {
        return Err(Unwritten::Lengths);
    }
    let (front, behind) = buffer.split_at_mut(head(lengths.len()));
    write_head(lengths, front);
    behind[..images.len()].copy_from_slice(images);
    Ok(front.len() + images.len())
}

/// Count and table, which fill the bytes before the images.
fn write_head(lengths: &[u64], front: &mut [u8]) {
    let mut offset = front.len() as u64;
    let (count, table) = front.split_at_mut(2);
    count.copy_from_slice(&(lengths.len() as u16).to_le_bytes());
    for (entry, length) in table.chunks_exact_mut(ENTRY).zip(lengths) {
        entry[..4].copy_from_slice(&(offset as u32).to_le_bytes());
        entry[4..].copy_from_slice(&(*length as u32).to_le_bytes());
        offset += length;
    }
}

#[cfg(test)]
mod tests {
    use super::*;
    use crate::noise;
    use mullirim_files::bundle;
    use mullirim_host::dice::Dice;
    use mullirim_host::second;
    use mullirim_host::suffix::{self, cases::Case};

    #[test]
    fn the_table_agrees_with_the_second_loader() {
        assert_eq!(sum(b"123456789"), 0x340B_C6D9);
        let bytes = noise(2_049);
        for length in [0, 1, 3, 256, 1_024, 2_049] {
            assert_eq!(sum(&bytes[..length]), second::sum(&bytes[..length]));
        }
    }

    #[test]
    fn suffixes_are_those_of_the_second_reader_and_writer() {
        for number in 0..500 {
            let case = Case::new(5, number);
            let Case { file, parts, .. } = &case;
            assert_eq!(read_suffix(file), suffix::read(file).ok());
            let [mut ours, mut awaited] = [case.frame.clone(), case.frame.clone()];
            let count = write_suffix(file, *parts, &mut ours[case.lent()]);
            let second = suffix::write(file, *parts, &mut awaited[case.lent()]);
            assert_eq!((count, ours), (second, awaited));
        }
    }

    /// Two images, three bytes and one byte long.
    const BUNDLE: &[u8; 22] = b"\x02\0\x12\0\0\0\x03\0\0\0\x15\0\0\0\x01\0\0\0abcd";

    #[test]
    fn a_bundle_is_as_by_hand() {
        assert_eq!(read_bundle(BUNDLE), Ok(2));
        let images = [0, 1, 2].map(|k| image(BUNDLE, k));
        assert_eq!(images, [&b"abc"[..], b"d", b""]);
        assert_eq!([0, 1].map(|k| trusted_image(BUNDLE, k)), images[..2]);
        let mut buffer = [0xEE; 24];
        assert_eq!(write_bundle(&[3, 1], b"abcd", &mut buffer), Ok(22));
        assert_eq!(buffer[..22], *BUNDLE);
        assert_eq!(buffer[22..], [0xEE; 2]);
    }

    #[test]
    fn files_are_refused_as_by_hand() {
        use Refusal::*;
        let changed = |at: usize, byte| {
            let mut file = BUNDLE.to_vec();
            file[at] = byte;
            read_bundle(&file)
        };
        let lengths = [1, 17, 21].map(|length| read_bundle(&BUNDLE[..length]));
        assert_eq!(lengths, [Err(Short), Err(Table), Err(Past)]);
        assert_eq!([changed(0, 0), changed(0, 33)], [Err(Count); 2]);
        assert_eq!(changed(1, 1), Err(Count));
        assert_eq!([changed(2, 0x11), changed(13, 1)], [Err(Offset); 2]);
        assert_eq!([changed(6, 0), changed(14, 0)], [Err(Empty); 2]);
        assert_eq!([changed(6, 5), changed(17, 0xFF)], [Err(Past); 2]);
        assert_eq!(changed(6, 2), Err(Offset));
        let longer = [&BUNDLE[..], b"e"].concat();
        assert_eq!(read_bundle(&longer), Err(LeftOver));
    }

    #[test]
    fn nothing_is_written_as_by_hand() {
        use Unwritten::*;
        let refused = |lengths: &[u64], room: usize| {
            let mut buffer = vec![0xEE; room];
            let refused = write_bundle(lengths, b"abcd", &mut buffer).expect_err("nothing written");
            assert_eq!(buffer, vec![0xEE; room]);
            refused
        };
        assert_eq!(refused(&[], 40), Count);
        assert_eq!(refused(&[1; 33], 400), Count);
        assert_eq!(refused(&[4, 0], 0), Empty);
        assert_eq!(refused(&[3, 1], 21), NoRoom);
        // What would come to 22 bytes if a sum could wrap.
        assert_eq!(refused(&[5, u64::MAX], 40), NoRoom);
        assert_eq!(refused(&[5, u64::from(u32::MAX)], 40), NoRoom);
        assert_eq!(refused(&[1, 2], 40), Lengths);
        assert_eq!(refused(&[1, 4], 40), Lengths);
    }

    /// Lengths, most of them fit for a bundle.
    fn lengths(dice: &mut Dice) -> Vec<u64> {
        let count = dice.below(36);
        let mut lengths: Vec<u64> = (0..count).map(|_| 1 + u64::from(dice.below(40))).collect();
        if let (Some(last), 0) = (lengths.last_mut(), dice.below(8)) {
            *last = [0, 1 << 32, u64::MAX][dice.below(3) as usize];
        }
        lengths
    }

    #[test]
    fn bundles_are_written_as_by_the_proved_call() {
        let mut dice = Dice::new(6);
        let mut seen = [0; 5];
        for _ in 0..2_000 {
            let lengths = lengths(&mut dice);
            let total = lengths.iter().filter(|length| **length <= 40).sum::<u64>() as u32;
            // One byte too many or too few now and then.
            let lent = (total + dice.below(8) / 7).saturating_sub(dice.below(8) / 7);
            let images = dice.bytes(lent);
            let room = (head(lengths.len()) as u32 + total + dice.below(3)).saturating_sub(1);
            let mut ours = dice.bytes(room);
            let mut awaited = ours.clone();
            let written = write_bundle(&lengths, &images, &mut ours);
            let proved = bundle::write(&lengths, &images, &mut awaited);
            assert_eq!((written, ours), (proved, awaited));
            seen[written.map_or_else(|why| why.number() as usize, |_| 0)] += 1;
        }
        assert!(seen.iter().all(|times| *times > 20), "{seen:?}");
    }

    /// A bundle, or what a byte that was changed, put in or cut off made of it.
    fn some_file(dice: &mut Dice) -> Vec<u8> {
        let lengths: Vec<u64> = (0..=dice.below(32))
            .map(|_| 1 + u64::from(dice.below(9)))
            .collect();
        let images = dice.bytes(lengths.iter().sum::<u64>() as u32);
        let mut file = vec![0; head(lengths.len()) + images.len()];
        bundle::write(&lengths, &images, &mut file).expect("room");
        match dice.below(8) {
            0 => file.truncate(dice.below(file.len() as u32) as usize),
            1 => file.truncate(dice.below(4) as usize),
            2 => file.push(0),
            3 => file[dice.below(2) as usize] = dice.below(36) as u8,
            4 => file[6 + 8 * dice.below(lengths.len() as u32) as usize] = dice.below(3) as u8,
            5 => file[dice.below(head(lengths.len()) as u32) as usize] = dice.below(256) as u8,
            _ => {}
        }
        file
    }

    #[test]
    fn bundles_are_read_as_by_the_proved_call() {
        let mut dice = Dice::new(7);
        let mut seen = [0; 8];
        for _ in 0..4_000 {
            let file = some_file(&mut dice);
            let read = read_bundle(&file);
            assert_eq!(read, bundle::read(&file));
            for k in [0, 1, dice.below(32) as usize, 31, 32, usize::MAX] {
                assert_eq!(image(&file, k), bundle::image(&file, k));
            }
            for k in 0..read.unwrap_or(0) {
                assert_eq!(trusted_image(&file, k), bundle::image(&file, k));
            }
            seen[read.map_or_else(|why| why.number() as usize, |_| 0)] += 1;
        }
        assert!(seen.iter().all(|times| *times > 20), "{seen:?}");
    }
}
