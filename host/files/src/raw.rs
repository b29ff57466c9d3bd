//! The library's calls as `include/mullirim_files.h` declares them.

use mullirim_host::layout::{BundleFound, Part, Parts, SuffixFound, Written};

extern "C" {
    pub fn mullirim_suffix_read(file: *const u8, file_len: usize) -> SuffixFound;

    pub fn mullirim_suffix_write(
        file: *const u8,
        file_len: usize,
        parts: Parts,
        buffer: *mut u8,
        buffer_len: usize,
    ) -> Written;

    pub fn mullirim_bundle_read(file: *const u8, file_len: usize) -> BundleFound;

    pub fn mullirim_bundle_image(file: *const u8, file_len: usize, k: usize) -> Part;

    pub fn mullirim_bundle_write(
        lengths: *const u64,
        lengths_len: usize,
        images: *const u8,
        images_len: usize,
        buffer: *mut u8,
        buffer_len: usize,
    ) -> Written;
}
