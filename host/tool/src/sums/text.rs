//! The sums as lines.

use super::difference::Difference;
use super::held::Held;
use super::words::Kind;
use crate::names::shown;
use crate::screen::counted;
use crate::visit::row;

pub fn one(held: &Held) -> String {
    let mut lines = vec![format!("{}: {}", shown(&held.source.path), what(held))];
    lines.extend(taken_off(held));
    lines.extend([application(held), String::new(), "block   sum".to_string()]);
    for block in held.blocks() {
        lines.push(format!("{block:>5}   {:08X}", held.sum(block)));
    }
    lines.push(format!("whole   {:08X}", held.whole()));
    lines.join("\n")
}

pub fn two(old: &Held, new: &Held, difference: &Difference) -> String {
    let changed = &difference.changed;
    let same = old.blocks().len() - changed.len();
    let differ = if changed.len() == 1 {
        "differs"
    } else {
        "differ"
    };
    let do_not = if same == 1 { "does" } else { "do" };
    let mut lines = Vec::new();
    for (which, held) in [("old", old), ("new", new)] {
        let path = shown(&held.source.path);
        lines.push(format!("{which}: {path}, {}", what(held)));
        lines.extend(taken_off(held));
    }
    lines.extend([
        application(old),
        format!(
            "{} {differ}, {same} {do_not} not",
            counted(changed.len(), "block")
        ),
        String::new(),
        "block   old sum    new sum".to_string(),
    ]);
    for block in changed {
        let (old, new) = (old.sum(*block), new.sum(*block));
        lines.push(row(&block.to_string(), old, new));
    }
    lines.push(row("whole", old.whole(), new.whole()));
    lines.extend(remarks(difference));
    lines.join("\n")
}

fn what(held: &Held) -> String {
    match held.source.kind {
        Kind::Flash => format!("a flash of {}", counted(held.split.blocks.into(), "block")),
        Kind::Image => format!(
            "an image of {}, as it would stand in a flash of {}",
            counted(held.bytes, "byte"),
            counted(held.split.blocks.into(), "block")
        ),
    }
}

/// What stood around an image in its file, set in under the file's name.
fn taken_off(held: &Held) -> Vec<String> {
    let told = held.wrapping.map_or(Vec::new(), |wrapping| wrapping.told());
    told.iter().map(|line| format!("     {line}")).collect()
}

fn application(held: &Held) -> String {
    let (first, last) = (held.split.first, held.split.blocks - 1);
    format!("the application from block {first} to {last}")
}

/// What no sum tells.
fn remarks(difference: &Difference) -> Vec<String> {
    let mut remarks = Vec::new();
    let mut remark = |what: &str, blocks: &[usize]| {
        if !blocks.is_empty() {
            remarks.push(String::new());
            remarks.push(format!("{what}: {}", listed(blocks)));
        }
    };
    remark("other bytes, but the same sum", &difference.silent);
    let boot = difference.boot.as_deref().unwrap_or(&[]);
    let before = "other bytes before the application, of which no sum is kept";
    remark(before, boot);
    remarks
}

/// Three or more in a row are told by the first and the last of them: there may be
/// hundreds.
fn listed(blocks: &[usize]) -> String {
    let rows = blocks.chunk_by(|block, next| block + 1 == *next);
    let told = rows.flat_map(|row| match row {
        [first, _, .., last] => vec![format!("{first} to {last}")],
        few => few.iter().map(usize::to_string).collect(),
    });
    let s = if blocks.len() == 1 { "" } else { "s" };
    format!("block{s} {}", told.collect::<Vec<_>>().join(", "))
}

#[cfg(test)]
mod tests {
    use super::*;

    #[test]
    fn blocks_in_a_row_are_told_by_their_ends() {
        assert_eq!(listed(&[7]), "block 7");
        assert_eq!(listed(&[0, 1]), "blocks 0, 1");
        assert_eq!(listed(&[0, 1, 2]), "blocks 0 to 2");
        let some: Vec<usize> = (3..200).chain([202, 203, 255]).collect();
        assert_eq!(listed(&some), "blocks 3 to 199, 202, 203, 255");
    }
}
