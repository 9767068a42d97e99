//! The price list. Every number of fuel that a call burns comes from here.

use crate::answer::Refusal;

/// "The price is 2 + 2n: 1 + n now and 1 + n for the release."
pub fn begin(n: u32) -> u32 {
    now(n) + release(n)
}

pub fn now(n: u32) -> u32 {
    1 + n
}

pub fn release(n: u32) -> u32 {
    1 + n
}

pub fn recheck(n: u32) -> u32 {
    1 + n
}

/// What a scan burns before it looks at any entry.
pub const SCAN: u32 = 1;

/// What a scan burns for each entry it looks at.
pub fn look(n: u32) -> u32 {
    1 + n
}

/// Item 7: a tenant's "cancel" for its own Blocked entry, "burning 1".
pub const CANCEL: u32 = 1;

/// What a refused tenant call burns. A scan cut short is no case of this: it
/// burns what its walk had burnt.
pub fn refused(refusal: Refusal) -> u32 {
    match refusal {
        Refusal::NoSuchTenant | Refusal::Dry | Refusal::BlockNotSound => 0,
        _ => 1,
    }
}
