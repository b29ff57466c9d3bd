//! The proved readers and writers of file formats for Rust, made safe. What the
//! C header (`include/mullirim_files.h`) asks of a caller the borrows here
//! grant by themselves.

pub mod bundle;
mod raw;
pub mod suffix;
