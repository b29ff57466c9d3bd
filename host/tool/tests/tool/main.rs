//! The tool as a technician runs it: what it prints, what it writes and how it
//! ends. Sums are held to the second loader's, which go bit by bit.

mod bundle;
mod dfu;
mod files;
mod folder;
mod json;
mod quoted;
mod refused;
mod suffix;
mod sums;
mod visits;
mod wrapped;
