//! Safe functions over those of `libdamsonpouch.a`. `unsafe` stands in this file
//! and in no other of the crate: `declared.rs` declares those functions, and to
//! call them is what it takes.

#[path = "declared.rs"]
mod declared;
use declared::*;

/// What a call hands back. `include/damsonpouch.h` has the same for C.
#[repr(C)]
#[derive(Clone, Copy, Debug)]
pub(crate) struct Reply {
    pub kind: u8,
    pub number: u8,
    pub state: u8,
    pub tenant: u8,
    pub serial: u16,
    pub clashed: u8,
    pub lowest: u8,
    pub burnt: u32,
}

/// As the C side has it: four bytes, a number in two, two bytes, a number in four.
const _: () = assert!(std::mem::size_of::<Reply>() == 12 && std::mem::align_of::<Reply>() == 4);

/// What `held` hands back.
#[repr(C)]
#[derive(Clone, Copy, Debug)]
pub(crate) struct Counts {
    pub number: u8,
    pub written: u16,
    pub read: u16,
    pub either: u16,
}

/// As the C side has it: a byte, one that is not used, and three numbers in two
/// each.
const _: () = assert!(std::mem::size_of::<Counts>() == 8 && std::mem::align_of::<Counts>() == 2);

// What every call below rests on: it asks for a block that is valid to read and
// write for `length` bytes and that nobody else uses while the call runs, and
// for lists that are valid to read and lie outside the block. It keeps no
// pointer. It takes any bytes, any length, 0 among them, and any numbers: its
// contract has no other premise, and it is proved to end.

pub(crate) fn open(block: &mut [u8], shares: &[u8]) -> Reply {
    // SAFETY: both pointers come from slices with these lengths; the block's is
    // exclusive, so the shares lie outside it.
    unsafe {
        damsonpouch_open(
            block.as_mut_ptr(),
            block.len(),
            shares.as_ptr(),
            shares.len(),
        )
    }
}

pub(crate) fn grant(block: &mut [u8], tenant: u8, amount: u32) -> Reply {
    // SAFETY: pointer and length come from one exclusive slice.
    unsafe { damsonpouch_grant(block.as_mut_ptr(), block.len(), tenant, amount) }
}

pub(crate) fn begin(
    block: &mut [u8],
    tenant: u8,
    awaited: u8,
    reads: &[u8],
    writes: &[u8],
) -> Reply {
    // SAFETY: the pointers come from slices with these lengths; the block's is
    // exclusive, so both lists lie outside it. The lists are only read, so they
    // may overlap each other in memory.
    unsafe {
        damsonpouch_begin(
            block.as_mut_ptr(),
            block.len(),
            tenant,
            awaited,
            reads.as_ptr(),
            reads.len(),
            writes.as_ptr(),
            writes.len(),
        )
    }
}

pub(crate) fn finish(block: &mut [u8], tenant: u8, serial: u16) -> Reply {
    // SAFETY: pointer and length come from one exclusive slice.
    unsafe { damsonpouch_finish(block.as_mut_ptr(), block.len(), tenant, serial) }
}

pub(crate) fn recheck(block: &mut [u8], tenant: u8, serial: u16) -> Reply {
    // SAFETY: pointer and length come from one exclusive slice.
    unsafe { damsonpouch_recheck(block.as_mut_ptr(), block.len(), tenant, serial) }
}

pub(crate) fn scan(block: &mut [u8], tenant: u8) -> Reply {
    // SAFETY: pointer and length come from one exclusive slice.
    unsafe { damsonpouch_scan(block.as_mut_ptr(), block.len(), tenant) }
}

pub(crate) fn pick(block: &mut [u8]) -> Reply {
    // SAFETY: pointer and length come from one exclusive slice.
    unsafe { damsonpouch_pick(block.as_mut_ptr(), block.len()) }
}

pub(crate) fn deliver(block: &mut [u8], tenant: u8, serial: u16) -> Reply {
    // SAFETY: pointer and length come from one exclusive slice.
    unsafe { damsonpouch_deliver(block.as_mut_ptr(), block.len(), tenant, serial) }
}

pub(crate) fn evict(block: &mut [u8], tenant: u8, serial: u16) -> Reply {
    // SAFETY: pointer and length come from one exclusive slice.
    unsafe { damsonpouch_evict(block.as_mut_ptr(), block.len(), tenant, serial) }
}

pub(crate) fn cancel(block: &mut [u8], tenant: u8, serial: u16) -> Reply {
    // SAFETY: pointer and length come from one exclusive slice.
    unsafe { damsonpouch_cancel(block.as_mut_ptr(), block.len(), tenant, serial) }
}

pub(crate) fn sound(block: &[u8]) -> bool {
    // SAFETY: pointer and length come from one slice, which is only read. The
    // function gives 0 or 1.
    unsafe { damsonpouch_sound(block.as_ptr(), block.len()) }
}

pub(crate) fn held(block: &[u8]) -> Counts {
    // SAFETY: pointer and length come from one slice, which is only read.
    unsafe { damsonpouch_held(block.as_ptr(), block.len()) }
}
