//! Whether two names lead to one file, and where a name leads.

use std::os::unix::fs::MetadataExt;
use std::path::{absolute, Path, PathBuf};

/// A name that Linux has for it.
const STANDARD_OUTPUT: &str = "/dev/stdout";

/// What tells one file from another.
#[derive(PartialEq)]
enum Place {
    /// Its device and its number there, whatever names lead to it.
    Here(u64, u64),
    /// Where it will stand once it is written.
    ToCome(PathBuf),
}

pub fn same(one: &Path, other: &Path) -> bool {
    match (place(one), place(other)) {
        (Some(one), Some(other)) => one == other,
        _ => false,
    }
}

/// A file would come to stand where such a link points, unseen here.
pub fn leads_nowhere(path: &Path) -> bool {
    path.is_symlink() && !path.exists()
}

/// Whether what is said on standard output could land among the bytes that are
/// written to this place, or get lost with a file that stood there.
pub fn would_mix(out: &Path) -> bool {
    let device = out.metadata().is_ok_and(|found| !found.is_file());
    device || same(out, Path::new(STANDARD_OUTPUT))
}

/// Nothing where no file can be, which using it will find out.
fn place(path: &Path) -> Option<Place> {
    if let Ok(file) = path.metadata() {
        return Some(Place::Here(file.dev(), file.ino()));
    }
    let folder = absolute(path).ok()?.parent()?.canonicalize().ok()?;
    Some(Place::ToCome(folder.join(path.file_name()?)))
}
