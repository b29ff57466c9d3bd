//! The library's calls as `include/mullirim.h` declares them, and the sum and the
//! join of two sums by themselves, which are exported for measuring alone.

use mullirim_host::layout::{Answer, Session, Started};

extern "C" {
    pub fn mullirim_start(
        flash: *const u8,
        flash_len: usize,
        first: u32,
        blocks: u32,
        part: u32,
        klass: u32,
    ) -> Started;

    pub fn mullirim_request(
        session: *mut Session,
        flash: *mut u8,
        flash_len: usize,
        setup: *const u8,
        setup_len: usize,
        data: *const u8,
        data_len: usize,
        reply: *mut u8,
        reply_len: usize,
    ) -> Answer;

    pub fn mullirim_sum(bytes: *const u8, bytes_len: usize) -> u32;

    pub fn mullirim_join(before: u32, block: u32) -> u32;
}
