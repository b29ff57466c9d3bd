//! The second loader, and the calls to try both loaders with; the second readers
//! and writers of a file's suffix and of a site bundle, and the files to try
//! them with; what the comparisons share; and the structs of the C headers.

pub mod bundle;
pub mod comparison;
pub mod dice;
pub mod histories;
pub mod layout;
pub mod lent;
pub mod lone;
pub mod requests;
pub mod rows;
pub mod second;
pub mod sessions;
pub mod suffix;
pub mod tape;
