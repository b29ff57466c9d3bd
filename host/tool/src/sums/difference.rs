//! What differs between two flashes.

use super::held::Held;
use super::words::Kind;

#[derive(Debug, PartialEq)]
pub struct Difference {
    /// The blocks of the application that hold other bytes.
    pub changed: Vec<usize>,
    /// Of these, the blocks whose sums don't tell.
    pub silent: Vec<usize>,
    /// The blocks before the application that hold other bytes; nothing where
    /// one of the two is an image, which has none.
    pub boot: Option<Vec<usize>>,
}

/// Bytes are compared and not sums alone: what a technician looks for is what
/// another flash holds. Both are held to one split.
pub fn difference(old: &Held, new: &Held) -> Difference {
    let other = |block: &usize| old.block(*block) != new.block(*block);
    let changed: Vec<usize> = old.blocks().filter(other).collect();
    let silent = |block: &usize| old.sum(*block) == new.sum(*block);
    let flashes = [old, new]
        .iter()
        .all(|held| held.source.kind == Kind::Flash);
    Difference {
        silent: changed.iter().copied().filter(silent).collect(),
        changed,
        boot: flashes.then(|| (0..old.blocks().start).filter(other).collect()),
    }
}
