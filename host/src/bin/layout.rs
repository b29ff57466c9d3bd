//! Prints the structs of `layout.rs` and the numbers of the papers as C's test
//! reads them (`tests/layout.c`), a line for each.

use mullirim_host::bundle::{self, unwritten};
use mullirim_host::layout::{Struct, STRUCTS};
use mullirim_host::second::{answer, BLOCK, MOST_BLOCKS, NONE, TRANSFER};
use mullirim_host::suffix::{self, refusal};

fn main() {
    print_numbers(&[
        ("MULLIRIM_BLOCK", BLOCK as usize),
        ("MULLIRIM_MOST_BLOCKS", MOST_BLOCKS),
        ("MULLIRIM_REPLY_ROOM", TRANSFER),
        ("MULLIRIM_NONE", NONE as usize),
        ("MULLIRIM_TAKEN", answer::TAKEN.into()),
        ("MULLIRIM_STALLED", answer::STALLED.into()),
        ("MULLIRIM_UNFIT", answer::UNFIT.into()),
        ("MULLIRIM_FAULTED", answer::FAULTED.into()),
        ("MULLIRIM_RESET_ASKED", answer::RESET_ASKED.into()),
    ]);
    print_numbers(&[
        ("MULLIRIM_SUFFIX_SIZE", suffix::SIZE),
        ("MULLIRIM_SUFFIX_ACCEPTED", 0),
        ("MULLIRIM_SUFFIX_SHORT", refusal::SHORT.into()),
        ("MULLIRIM_SUFFIX_SIGNATURE", refusal::SIGNATURE.into()),
        ("MULLIRIM_SUFFIX_LENGTH", refusal::LENGTH.into()),
        ("MULLIRIM_SUFFIX_VERSION", refusal::VERSION.into()),
        ("MULLIRIM_SUFFIX_SUM", refusal::SUM.into()),
        ("MULLIRIM_SUFFIX_NO_ROOM", suffix::NO_ROOM as usize),
    ]);
    print_bundle_numbers();
    STRUCTS.iter().for_each(print);
}

fn print_bundle_numbers() {
    print_numbers(&[
        ("MULLIRIM_BUNDLE_MOST", bundle::MOST),
        ("MULLIRIM_BUNDLE_HEAD(0)", bundle::head(0)),
        ("MULLIRIM_BUNDLE_HEAD(31 + 1)", bundle::head(32)),
    ]);
    let refusals = [
        ("ACCEPTED", 0),
        ("SHORT", bundle::refusal::SHORT),
        ("COUNT", bundle::refusal::COUNT),
        ("TABLE", bundle::refusal::TABLE),
        ("OFFSET", bundle::refusal::OFFSET),
        ("EMPTY", bundle::refusal::EMPTY),
        ("PAST", bundle::refusal::PAST),
        ("LEFT_OVER", bundle::refusal::LEFT_OVER),
        ("WRITTEN", 0),
        ("WRONG_COUNT", unwritten::COUNT),
        ("EMPTY_IMAGE", unwritten::EMPTY),
        ("NO_ROOM", unwritten::NO_ROOM),
        ("WRONG_LENGTHS", unwritten::LENGTHS),
    ];
    for (name, number) in refusals {
        print_numbers(&[(&format!("MULLIRIM_BUNDLE_{name}"), number as usize)]);
    }
}

fn print_numbers(numbers: &[(&str, usize)]) {
    for (name, number) in numbers {
        println!("NUMBER({name}, {number});");
    }
}

fn print(table: &Struct) {
    let name = in_c(table.name);
    println!("BYTES({name}, {});", table.size);
    for field in table.fields {
        println!(
            "AT({name}, {}, {}, {});",
            field.name, field.offset, field.size
        );
    }
    println!("ALL({name}, {});", zeros(table));
}

/// `SuffixFound` is `mullirim_suffix_found` in C.
fn in_c(name: &str) -> String {
    let mut in_c = "mullirim".to_string();
    for letter in name.chars() {
        if letter.is_ascii_uppercase() {
            in_c.push('_');
        }
        in_c.push(letter.to_ascii_lowercase());
    }
    in_c
}

/// As many zeros as there are fields, with braces around what has its own.
fn zeros(table: &Struct) -> String {
    let zero = |kind: &str| match STRUCTS.iter().find(|table| table.name == kind) {
        Some(table) => format!("{{{}}}", zeros(table)),
        None if kind.starts_with('[') => "{0}".to_string(),
        None => "0".to_string(),
    };
    let all: Vec<String> = table.fields.iter().map(|field| zero(field.kind)).collect();
    all.join(", ")
}
