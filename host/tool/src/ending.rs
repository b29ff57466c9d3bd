//! How a file ends: in a DFU suffix that is whole, that is damaged or that the
//! reader no longer sees as one, or in none. Whether it is whole the proved
//! reader says.

use crate::screen::counted;
use mullirim_files::suffix::{read, Parts, Refusal, SIZE};
use mullirim_host::second::{taken_in, NOTHING_SUMMED};

/// What is the same in every suffix: bcdDFU, signature and length. Behind it
/// stands only the sum.
const FIXED: [u8; 6] = [0x00, 0x01, 0x55, 0x46, 0x44, 0x10];
const SUM_BYTES: usize = 4;
/// As many of the fixed bytes as no image ends in by chance.
const TELLING: usize = 4;

#[derive(Clone, Copy, Debug, PartialEq)]
pub enum Ending {
    /// Without a suffix that could be recognised.
    Plain,
    /// With so many bytes before the suffix.
    Whole(Parts, usize),
    /// The signature is there, and something else is wrong.
    Damaged(Refusal),
    Lost(Lost),
}

/// What became of a suffix that the reader no longer sees.
#[derive(Clone, Copy, Debug, PartialEq)]
pub enum Lost {
    Altered,
    /// Bytes were put behind a whole DFU file.
    Added {
        whole: usize,
        behind: usize,
    },
    /// Bytes were cut off or put in, so that the rest has another place.
    Shifted,
}

impl Lost {
    /// What is to be said of the file, behind its name.
    pub fn told(self) -> String {
        match self {
            Lost::Altered => {
                "ends in a DFU suffix whose fixed bytes, 00 01 55 46 44 10, were altered"
                    .to_string()
            }
            Lost::Added { whole, behind } => format!(
                "begins with a whole DFU file of {}, behind which {} added",
                counted(whole, "byte"),
                match behind {
                    1 => "1 byte was".to_string(),
                    more => format!("{} were", counted(more, "byte")),
                }
            ),
            Lost::Shifted => {
                "has a part of a DFU suffix near its end: bytes were cut off there, or added"
                    .to_string()
            }
        }
    }
}

pub fn ending(file: &[u8]) -> Ending {
    match read(file) {
        Ok((parts, length)) => Ending::Whole(parts, length),
        Err(Refusal::Short | Refusal::Signature) => lost(file).map_or(Ending::Plain, Ending::Lost),
        Err(refusal) => Ending::Damaged(refusal),
    }
}

fn lost(file: &[u8]) -> Option<Lost> {
    let place = last(file, FIXED.len() + SUM_BYTES);
    if place.get(..FIXED.len()).is_some_and(is_altered) || needs_its_signature_alone(file) {
        return Some(Lost::Altered);
    }
    if let Some(whole) = whole_file_within(file) {
        let behind = file.len() - whole;
        return Some(Lost::Added { whole, behind });
    }
    let near = has_fixed_bytes(last(file, 2 * SIZE)) || file.ends_with(&FIXED[..TELLING]);
    near.then_some(Lost::Shifted)
}

/// At most so many bytes from a file's end.
fn last(file: &[u8], most: usize) -> &[u8] {
    &file[file.len().saturating_sub(most)..]
}

fn needs_its_signature_alone(file: &[u8]) -> bool {
    let mut mended = file.to_vec();
    match mended.last_chunk_mut::<SIZE>() {
        Some(suffix) => suffix[8..11].copy_from_slice(&FIXED[2..5]),
        None => return false,
    }
    read(&mended).is_ok()
}

/// The fixed bytes with one of them changed, or two neighbours swapped.
fn is_altered(bytes: &[u8]) -> bool {
    let other = |at: &usize| bytes[*at] != FIXED[*at];
    let others: Vec<usize> = (0..FIXED.len()).filter(other).collect();
    match others[..] {
        [_] => true,
        [one, two] => [bytes[two], bytes[one]] == FIXED[one..=two],
        _ => false,
    }
}

/// As they are, or with one changed, left out or put in, or two swapped. The
/// bytes as they are have all but their first among them.
fn has_fixed_bytes(end: &[u8]) -> bool {
    let [short, long] = [FIXED.len() - 1, FIXED.len() + 1];
    end.windows(FIXED.len()).any(is_altered)
        || end.windows(short).any(|bytes| lacks_one(bytes, &FIXED))
        || end.windows(long).any(|bytes| lacks_one(&FIXED, bytes))
}

fn lacks_one(short: &[u8], long: &[u8]) -> bool {
    let without = |at: usize| [&long[..at], &long[at + 1..]].concat();
    (0..long.len()).any(|at| short == without(at))
}

/// The length of a whole DFU file at a longer one's beginning. With its own sum
/// behind it such a file has the sum 0, so one pass finds where to ask the
/// reader, also where a file is full of what is fixed.
fn whole_file_within(file: &[u8]) -> Option<usize> {
    if !file.windows(FIXED.len()).any(|bytes| bytes == FIXED) {
        return None;
    }
    let mut sum = NOTHING_SUMMED;
    for (length, byte) in (1..).zip(file) {
        sum = taken_in(sum, *byte);
        if sum == 0 && read(&file[..length]).is_ok() {
            return Some(length);
        }
    }
    None
}

#[cfg(test)]
mod tests {
    use super::*;
    use mullirim_host::dice::Dice;
    use mullirim_host::second::sum;

    const FIRMWARE: [u8; 100] = [0x42; 100];

    /// As dfu-suffix writes it, with its sum over all before it.
    fn suffixed(firmware: &[u8]) -> Vec<u8> {
        let numbers = [0xFF, 0xFF, 0x02, 0x00, 0x51, 0x04, 0x00, 0x01];
        let mut file = [firmware, &numbers, b"UFD", &[16]].concat();
        let sum = sum(&file);
        file.extend(sum.to_le_bytes());
        file
    }

    /// A DFU file that was altered before its suffix, so that no sum helps.
    fn damaged() -> Vec<u8> {
        let mut file = suffixed(&FIRMWARE);
        file[3] ^= 1;
        file
    }

    fn changed(file: &[u8], place: usize, bytes: &[u8]) -> Vec<u8> {
        let mut file = file.to_vec();
        file[place..][..bytes.len()].copy_from_slice(bytes);
        file
    }

    const ALTERED: Ending = Ending::Lost(Lost::Altered);
    const SHIFTED: Ending = Ending::Lost(Lost::Shifted);

    fn added(whole: usize, behind: usize) -> Ending {
        Ending::Lost(Lost::Added { whole, behind })
    }

    #[test]
    fn what_the_reader_sees_is_what_it_says() {
        let (device, product, vendor) = (0xFFFF, 0x0002, 0x0451);
        let parts = Parts {
            device,
            product,
            vendor,
        };
        for firmware in [&FIRMWARE[..], &[], b"UFD"] {
            let whole = Ending::Whole(parts, firmware.len());
            assert_eq!(ending(&suffixed(firmware)), whole);
        }
        for (at, refusal) in [
            (111, Refusal::Length),
            (106, Refusal::Version),
            (107, Refusal::Version),
            (0, Refusal::Sum),
            (115, Refusal::Sum),
        ] {
            let file = changed(&suffixed(&FIRMWARE), at, &[0xEE]);
            assert_eq!(ending(&file), Ending::Damaged(refusal), "{at}");
        }
    }

    #[test]
    fn bytes_without_a_suffix_are_plain() {
        let ends: [&[u8]; 6] = [
            &[],
            &[7; 15],
            &[0; 16],
            &[0xFF; 40],
            b"0123456701UF89ab",
            &FIXED[..3],
        ];
        for end in ends {
            assert_eq!(ending(end), Ending::Plain);
            assert_eq!(ending(&[&FIRMWARE[..], end].concat()), Ending::Plain);
        }
    }

    #[test]
    fn an_altered_signature_is_known_by_the_sum() {
        let file = suffixed(&FIRMWARE);
        for signature in [*b"UFd", *b"uFD", *b"U\0D", [0; 3], *b"DFU"] {
            assert_eq!(ending(&changed(&file, 108, &signature)), ALTERED);
        }
        // Of no more than that.
        let file = changed(&file, 108, &[0, 0, 0, 0]);
        assert_eq!(ending(&file), Ending::Plain);
        assert_eq!(ending(&changed(&damaged(), 108, &[0; 3])), Ending::Plain);
        let bare = changed(&suffixed(&[]), 8, &[0; 3]);
        assert_eq!(ending(&bare), ALTERED);
        assert_eq!(ending(&bare[1..]), Ending::Plain);
    }

    #[test]
    fn an_altered_signature_is_known_by_what_is_fixed() {
        for signature in [*b"UFd", *b"uFD", *b"U\0D", *b"FUD", *b"UDF"] {
            let file = changed(&damaged(), 108, &signature);
            assert_eq!(ending(&file), ALTERED);
            assert_eq!(ending(&file[106..]), ALTERED);
            // With bytes behind it, it is that and not in its place.
            assert_eq!(ending(&[&file[..], &[9; 22]].concat()), SHIFTED);
            let far = [&file[..], &[9; 24]].concat();
            assert_eq!(ending(&far), Ending::Plain);
        }
        let swapped = [[0x55, 0x01, 0x46, 0x44], [0x01, 0x55, 0x44, 0x46]];
        for bytes in swapped {
            assert_eq!(ending(&changed(&damaged(), 107, &bytes)), ALTERED);
        }
        let file = changed(&damaged(), 108, &[0x55, 0x46, 0x10, 0x44]);
        assert_eq!(ending(&file), ALTERED);
        // Two that are no neighbours.
        let file = changed(&damaged(), 108, b"DFU");
        assert_eq!(ending(&file), Ending::Plain);
    }

    #[test]
    fn of_two_altered_bytes_nothing_is_known() {
        let file = damaged();
        for signature in [*b"U\0\0", *b"\0F\0", *b"D\x46U", *b"FV\x44"] {
            let file = changed(&file, 108, &signature);
            assert_eq!(ending(&file), Ending::Plain);
        }
        for fixed in [106, 107, 111] {
            let file = changed(&file, 108, b"UF\0");
            assert_eq!(ending(&changed(&file, fixed, &[0xEE])), Ending::Plain);
        }
    }

    #[test]
    fn a_cut_suffix_is_known_up_to_six_bytes() {
        for file in [suffixed(&FIRMWARE), damaged()] {
            for cut in 1..=6 {
                assert_eq!(ending(&file[..116 - cut]), SHIFTED, "{cut}");
            }
            assert_eq!(ending(&file[..109]), Ending::Plain);
        }
        assert_eq!(ending(&FIXED), SHIFTED);
        assert_eq!(ending(&FIXED[..4]), SHIFTED);
    }

    #[test]
    fn what_was_added_behind_a_whole_file_is_counted() {
        for firmware in [&FIRMWARE[..], &[], &FIXED] {
            let file = suffixed(firmware);
            for behind in [1, 15, 22, 23, 24, 128, 1_024] {
                for byte in [0x00, 0xFF, 0x1A, 0x0A] {
                    let longer = [&file[..], &vec![byte; behind]].concat();
                    assert_eq!(ending(&longer), added(file.len(), behind));
                }
            }
        }
        let file = suffixed(&FIRMWARE);
        let other = [&file[..], &[7; 300]].concat();
        assert_eq!(ending(&other), added(116, 300));
        let twice = [&suffixed(&file)[..], &[7; 300]].concat();
        assert_eq!(ending(&twice), added(116, 316));
        // The sum alone makes no DFU file.
        let short = [&FIXED[..], &sum(&FIXED).to_le_bytes(), &[7; 300]].concat();
        assert_eq!(ending(&short), Ending::Plain);
    }

    /// Where the sum does not help, the fixed bytes do as long as they are near.
    #[test]
    fn what_was_added_behind_a_damaged_file_is_known_as_far_as_it_is_short() {
        let file = damaged();
        for behind in 1..=23 {
            let longer = [&file[..], &vec![b'\n'; behind]].concat();
            assert_eq!(ending(&longer), SHIFTED, "{behind}");
        }
        let longer = [&file[..], &[b'\n'; 24]].concat();
        assert_eq!(ending(&longer), Ending::Plain);
    }

    #[test]
    fn a_byte_more_or_less_among_the_fixed_ones_is_known() {
        let file = damaged();
        for at in 106..112 {
            let less = [&file[..at], &file[at + 1..]].concat();
            assert!(!matches!(ending(&less), Ending::Plain), "{at}");
            let less = [&less[..], &[9; 18]].concat();
            assert_eq!(ending(&less), SHIFTED, "{at}");
        }
        for at in 107..112 {
            let (before, behind) = file.split_at(at);
            let more = [before, &[9], behind, &[9; 9]].concat();
            assert_eq!(ending(&more), SHIFTED, "{at}");
            // All but the first or the last of them tell of two more too.
            let more = [before, &[9, 9], behind, &[9; 9]].concat();
            let known = at == 107 || at == 111;
            assert_eq!(ending(&more) == SHIFTED, known, "{at}");
        }
    }

    /// A pass for each of the fixed bytes would take hours here.
    #[test]
    fn a_file_full_of_fixed_bytes_takes_one_pass() {
        let mut file = FIXED.repeat(200_000);
        file.extend([0; 40]);
        assert_eq!(ending(&file), Ending::Plain);
        let whole = suffixed(&file);
        let longer = [&whole[..], &[0; 40]].concat();
        assert_eq!(ending(&longer), added(whole.len(), 40));
    }

    /// All that one slip can do to a suffix: a byte changed, left out or put in,
    /// and neighbours swapped.
    fn slips(file: &[u8]) -> Vec<Vec<u8>> {
        let begin = file.len() - SIZE;
        let mut slips = Vec::new();
        for at in begin..file.len() {
            let (before, behind) = file.split_at(at);
            slips.push([before, &behind[1..]].concat());
            for byte in 0..=255 {
                slips.push([before, &[byte], &behind[1..]].concat());
                slips.push([before, &[byte], behind].concat());
            }
            if let [one, other, rest @ ..] = behind {
                slips.push([before, &[*other, *one], rest].concat());
            }
        }
        slips.retain(|slip| slip != file);
        slips
    }

    #[test]
    fn no_slip_makes_plain_bytes_of_a_dfu_file() {
        let mut dice = Dice::new(1);
        let mut met = [0; 3];
        for length in [0, 1, 15, 16, 40, 2_000] {
            let file = suffixed(&dice.bytes(length));
            let mut all = slips(&file);
            all.extend((1..=6).map(|cut| file[..file.len() - cut].to_vec()));
            for byte in [0x00, 0xFF, 0x1A, 0x0A] {
                let behind = [1, 22, 23, 128, 1_024].map(|behind| vec![byte; behind]);
                all.extend(behind.map(|behind| [&file[..], &behind].concat()));
            }
            for slip in all {
                match ending(&slip) {
                    Ending::Damaged(_) => met[0] += 1,
                    Ending::Lost(_) => met[1] += 1,
                    Ending::Plain | Ending::Whole(..) => met[2] += 1,
                }
            }
        }
        assert_eq!(met[2], 0, "{met:?}");
        assert_eq!(met[0] + met[1], 6 * (4_080 + 4_096 + 16 + 15 - 1 + 6 + 20));
    }

    #[test]
    fn random_bytes_are_plain() {
        let mut dice = Dice::new(2);
        for _ in 0..5_000 {
            let length = 16 + dice.below(1_985);
            assert_eq!(ending(&dice.bytes(length)), Ending::Plain);
        }
    }

    #[test]
    fn each_loss_has_its_words() {
        let told = |whole, behind| Lost::Added { whole, behind }.told();
        let why = "begins with a whole DFU file of 1,016 bytes, behind which 1 byte was added";
        assert_eq!(told(1_016, 1), why);
        let why = "begins with a whole DFU file of 16 bytes, behind which 1,024 bytes were added";
        assert_eq!(told(16, 1_024), why);
        let why = "ends in a DFU suffix whose fixed bytes, 00 01 55 46 44 10, were altered";
        assert_eq!(Lost::Altered.told(), why);
        let why = "has a part of a DFU suffix near its end: bytes were cut off there, or added";
        assert_eq!(Lost::Shifted.told(), why);
    }
}
