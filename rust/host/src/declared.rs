//! The functions of `libdamsonpouch.a`, as the archive has them. No other file of
//! Rust declares them: whoever links them takes this one, and brings the types
//! that they hand back, `Reply` of 12 bytes and `Counts` of 8.
//!
//! Nothing compares these lines with the source that was proved; the tests give
//! every call, every answer and every refusal through them.

use super::{Counts, Reply};

extern "C" {
    pub(crate) fn damsonpouch_open(
        block: *mut u8,
        length: usize,
        shares: *const u8,
        shares_length: usize,
    ) -> Reply;
    pub(crate) fn damsonpouch_grant(
        block: *mut u8,
        length: usize,
        tenant: u8,
        amount: u32,
    ) -> Reply;
    pub(crate) fn damsonpouch_begin(
        block: *mut u8,
        length: usize,
        tenant: u8,
        awaited: u8,
        reads: *const u8,
        reads_length: usize,
        writes: *const u8,
        writes_length: usize,
    ) -> Reply;
    pub(crate) fn damsonpouch_finish(
        block: *mut u8,
        length: usize,
        tenant: u8,
        serial: u16,
    ) -> Reply;
    pub(crate) fn damsonpouch_recheck(
        block: *mut u8,
        length: usize,
        tenant: u8,
        serial: u16,
    ) -> Reply;
    pub(crate) fn damsonpouch_scan(block: *mut u8, length: usize, tenant: u8) -> Reply;
    pub(crate) fn damsonpouch_pick(block: *mut u8, length: usize) -> Reply;
    pub(crate) fn damsonpouch_deliver(
        block: *mut u8,
        length: usize,
        tenant: u8,
        serial: u16,
    ) -> Reply;
    pub(crate) fn damsonpouch_evict(
        block: *mut u8,
        length: usize,
        tenant: u8,
        serial: u16,
    ) -> Reply;
    pub(crate) fn damsonpouch_cancel(
        block: *mut u8,
        length: usize,
        tenant: u8,
        serial: u16,
    ) -> Reply;
    pub(crate) fn damsonpouch_sound(block: *const u8, length: usize) -> bool;
    pub(crate) fn damsonpouch_held(block: *const u8, length: usize) -> Counts;
}
