//! The sums before and after, and whether they are right.

use crate::screen::{counted, Screen};
use crate::wire::Wire;
use mullirim_board::Sums;
use mullirim_host::second::{sum, BLOCK, MOST_BLOCKS};
use std::io::Write;

/// Shows the blocks whose sums changed, and the whole sum.
pub fn show<W: Write>(wire: &Wire, old: &Sums, screen: &mut Screen<W>) {
    let new = &wire.session.sums;
    let board = wire.session.board;
    let all = (board.blocks - board.first) as usize;
    let changed = changed(old, new);
    let same = all - changed.len();
    let counts = format!(
        "{} changed, {same} did not",
        counted(changed.len(), "block")
    );
    screen.step(5, "Sums", &counts);
    screen.line("");
    screen.under("block   old sum    new sum");
    for block in changed {
        screen.under(&row(&block.to_string(), old.block[block], new.block[block]));
    }
    screen.under(&row("whole", old.whole, new.whole));
    screen.line("");
}

pub fn row(name: &str, old: u32, new: u32) -> String {
    format!("{name:>5}   {old:08X}   {new:08X}")
}

fn changed(old: &Sums, new: &Sums) -> Vec<usize> {
    (0..MOST_BLOCKS)
        .filter(|block| old.block[*block] != new.block[*block])
        .collect()
}

/// A fresh start must find the kept sums, and so must the sums worked out bit
/// by bit, which share no code with the loader.
pub fn check(wire: &Wire) -> Result<(), String> {
    let first = wire.session.board.first as u16;
    let fresh = Wire::start(wire.flash.clone(), first)?;
    let (kept, fresh) = (&wire.session.sums, &fresh.session.sums);
    all_agree(kept, fresh, &bit_by_bit(wire))
}

fn all_agree(kept: &Sums, fresh: &Sums, worked_out: &Sums) -> Result<(), String> {
    agree(kept, fresh, "a fresh start finds")?;
    agree(kept, worked_out, "bit by bit it is")
}

fn bit_by_bit(wire: &Wire) -> Sums {
    let mut sums = Sums {
        block: [0; MOST_BLOCKS],
        whole: sum(wire.application()),
    };
    let blocks = wire.application().chunks(BLOCK as usize);
    for (block, bytes) in (wire.session.board.first as usize..).zip(blocks) {
        sums.block[block] = sum(bytes);
    }
    sums
}

fn agree(kept: &Sums, other: &Sums, found: &str) -> Result<(), String> {
    let differ = |name: &str, kept, other| {
        Err(format!(
            "the sums do not agree: {name} is kept as {kept:08X}, {found} {other:08X}"
        ))
    };
    if let Some(block) = changed(kept, other).first() {
        let name = format!("that of block {block}");
        return differ(&name, kept.block[*block], other.block[*block]);
    }
    if kept.whole != other.whole {
        return differ("the whole sum", kept.whole, other.whole);
    }
    Ok(())
}

#[cfg(test)]
mod tests {
    use super::*;

    fn wire() -> Wire {
        Wire::start((0..4_096).map(|i| (i % 247) as u8).collect(), 2).unwrap()
    }

    #[test]
    fn fresh_sums_agree() {
        assert_eq!(check(&wire()), Ok(()));
    }

    #[test]
    fn a_stale_sum_is_named() {
        let mut wire = wire();
        let right = wire.session.sums.block[3];
        wire.session.sums.block[3] = 0x1234;
        let why = format!(
            "the sums do not agree: that of block 3 is kept as 00001234, \
             a fresh start finds {right:08X}"
        );
        assert_eq!(check(&wire), Err(why));
    }

    #[test]
    fn a_sum_of_a_block_outside_must_be_zero() {
        let mut wire = wire();
        wire.session.sums.block[1] = 1;
        assert!(check(&wire)
            .unwrap_err()
            .contains("block 1 is kept as 00000001"));
    }

    #[test]
    fn a_stale_whole_sum_is_named() {
        let mut wire = wire();
        wire.session.sums.whole ^= 1;
        assert!(check(&wire)
            .unwrap_err()
            .contains("the whole sum is kept as"));
    }

    #[test]
    fn what_is_worked_out_bit_by_bit_is_compared_too() {
        let wire = wire();
        let kept = &wire.session.sums;
        let mut other = bit_by_bit(&wire);
        assert_eq!(all_agree(kept, kept, &other), Ok(()));
        other.block[2] = 0x56;
        let why = all_agree(kept, kept, &other).unwrap_err();
        assert!(why.contains("that of block 2 is kept as"));
        assert!(why.ends_with("bit by bit it is 00000056"));
    }

    #[test]
    fn the_table_shows_changed_blocks_only() {
        let wire = wire();
        let mut old = wire.session.sums;
        (old.block[3], old.whole) = (0xA, 0xB);
        let mut out = Vec::new();
        show(&wire, &old, &mut Screen::new(&mut out, None));
        let text = String::from_utf8(out).unwrap();
        let (block, whole) = (sum(&wire.flash[3_072..]), sum(&wire.flash[2_048..]));
        assert!(text.starts_with("5 Sums       1 block changed, 1 did not\n"));
        assert!(text.contains(&format!("    3   0000000A   {block:08X}\n")));
        assert!(text.contains(&format!("whole   0000000B   {whole:08X}\n")));
        assert!(!text.contains("    2   "));
    }
}
