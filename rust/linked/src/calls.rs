//! The ten calls, the check and the count of what is held, linked and by hand,
//! behind the same types: both are reached through a C function that the compiler
//! does not look into.

use inblock::{Counts, Reply};
use std::slice;

#[path = "../../host/src/declared.rs"]
mod declared;
use declared::*;

type Named = unsafe extern "C" fn(*mut u8, usize, u8, u16) -> Reply;

pub struct Calls {
    pub open: unsafe extern "C" fn(*mut u8, usize, *const u8, usize) -> Reply,
    pub grant: unsafe extern "C" fn(*mut u8, usize, u8, u32) -> Reply,
    pub begin:
        unsafe extern "C" fn(*mut u8, usize, u8, u8, *const u8, usize, *const u8, usize) -> Reply,
    pub finish: Named,
    pub recheck: Named,
    pub scan: unsafe extern "C" fn(*mut u8, usize, u8) -> Reply,
    pub pick: unsafe extern "C" fn(*mut u8, usize) -> Reply,
    pub deliver: Named,
    pub evict: Named,
    pub cancel: Named,
    pub sound: unsafe extern "C" fn(*const u8, usize) -> bool,
    pub held: unsafe extern "C" fn(*const u8, usize) -> Counts,
}

/// The proved library.
pub const LINKED: Calls = Calls {
    open: damsonpouch_open,
    grant: damsonpouch_grant,
    begin: damsonpouch_begin,
    finish: damsonpouch_finish,
    recheck: damsonpouch_recheck,
    scan: damsonpouch_scan,
    pick: damsonpouch_pick,
    deliver: damsonpouch_deliver,
    evict: damsonpouch_evict,
    cancel: damsonpouch_cancel,
    sound: damsonpouch_sound,
    held: damsonpouch_held,
};

/// Plain Rust, `rust/inblock`.
pub const BY_HAND: Calls = Calls {
    open,
    grant,
    begin,
    finish,
    recheck,
    scan,
    pick,
    deliver,
    evict,
    cancel,
    sound,
    held,
};

/// # Safety
/// As of the linked calls: `length` bytes that are the callee's alone.
unsafe fn lent<'a>(block: *mut u8, length: usize) -> &'a mut [u8] {
    slice::from_raw_parts_mut(block, length)
}

unsafe extern "C" fn open(block: *mut u8, length: usize, shares: *const u8, n: usize) -> Reply {
    inblock::open(lent(block, length), slice::from_raw_parts(shares, n))
}

unsafe extern "C" fn grant(block: *mut u8, length: usize, tenant: u8, amount: u32) -> Reply {
    inblock::grant(lent(block, length), tenant, amount)
}

unsafe extern "C" fn begin(
    block: *mut u8,
    length: usize,
    tenant: u8,
    awaited: u8,
    reads: *const u8,
    nr: usize,
    writes: *const u8,
    nw: usize,
) -> Reply {
    let reads = slice::from_raw_parts(reads, nr);
    let writes = slice::from_raw_parts(writes, nw);
    inblock::begin(lent(block, length), tenant, awaited, reads, writes)
}

unsafe extern "C" fn finish(block: *mut u8, length: usize, tenant: u8, serial: u16) -> Reply {
    inblock::finish(lent(block, length), tenant, serial)
}

unsafe extern "C" fn recheck(block: *mut u8, length: usize, tenant: u8, serial: u16) -> Reply {
    inblock::recheck(lent(block, length), tenant, serial)
}

unsafe extern "C" fn scan(block: *mut u8, length: usize, tenant: u8) -> Reply {
    inblock::scan(lent(block, length), tenant)
}

unsafe extern "C" fn pick(block: *mut u8, length: usize) -> Reply {
    inblock::pick(lent(block, length))
}

unsafe extern "C" fn deliver(block: *mut u8, length: usize, tenant: u8, serial: u16) -> Reply {
    inblock::deliver(lent(block, length), tenant, serial)
}

unsafe extern "C" fn evict(block: *mut u8, length: usize, tenant: u8, serial: u16) -> Reply {
    inblock::evict(lent(block, length), tenant, serial)
}

unsafe extern "C" fn cancel(block: *mut u8, length: usize, tenant: u8, serial: u16) -> Reply {
    inblock::cancel(lent(block, length), tenant, serial)
}

unsafe extern "C" fn sound(block: *const u8, length: usize) -> bool {
    inblock::sound(slice::from_raw_parts(block, length))
}

unsafe extern "C" fn held(block: *const u8, length: usize) -> Counts {
    inblock::held(slice::from_raw_parts(block, length))
}

/// A call with its arguments.
#[derive(Clone, Debug)]
pub enum Call {
    Open(Vec<u8>),
    Grant(u8, u32),
    Begin(u8, u8, Vec<u8>, Vec<u8>),
    Finish(u8, u16),
    Recheck(u8, u16),
    Scan(u8),
    Pick,
    Deliver(u8, u16),
    Evict(u8, u16),
    Cancel(u8, u16),
    Sound,
    Held,
}

/// What came of a call.
#[derive(Clone, Copy, Debug, PartialEq, Eq)]
pub enum Said {
    Reply(Reply),
    Sound(bool),
    Held(Counts),
}

pub const NAMES: [&str; 12] = [
    "open", "grant", "begin", "finish", "recheck", "scan", "pick", "deliver", "evict", "cancel",
    "sound", "held",
];

impl Call {
    /// Its place among the names.
    pub fn kind(&self) -> usize {
        match self {
            Call::Open(_) => 0,
            Call::Grant(..) => 1,
            Call::Begin(..) => 2,
            Call::Finish(..) => 3,
            Call::Recheck(..) => 4,
            Call::Scan(_) => 5,
            Call::Pick => 6,
            Call::Deliver(..) => 7,
            Call::Evict(..) => 8,
            Call::Cancel(..) => 9,
            Call::Sound => 10,
            Call::Held => 11,
        }
    }

    /// The function that it calls, as an address.
    pub fn function(&self, calls: &Calls) -> usize {
        match self {
            Call::Open(_) => calls.open as usize,
            Call::Grant(..) => calls.grant as usize,
            Call::Begin(..) => calls.begin as usize,
            Call::Finish(..) => calls.finish as usize,
            Call::Recheck(..) => calls.recheck as usize,
            Call::Scan(_) => calls.scan as usize,
            Call::Pick => calls.pick as usize,
            Call::Deliver(..) => calls.deliver as usize,
            Call::Evict(..) => calls.evict as usize,
            Call::Cancel(..) => calls.cancel as usize,
            Call::Sound => calls.sound as usize,
            Call::Held => calls.held as usize,
        }
    }

    /// The arguments behind block and length, as the processor takes them.
    pub fn arguments(&self) -> [usize; 6] {
        let mut words = [0; 6];
        match self {
            Call::Open(shares) => {
                words[..2].copy_from_slice(&[shares.as_ptr() as usize, shares.len()])
            }
            Call::Grant(tenant, amount) => {
                words[..2].copy_from_slice(&[usize::from(*tenant), *amount as usize])
            }
            Call::Begin(tenant, awaited, reads, writes) => words.copy_from_slice(&[
                usize::from(*tenant),
                usize::from(*awaited),
                reads.as_ptr() as usize,
                reads.len(),
                writes.as_ptr() as usize,
                writes.len(),
            ]),
            Call::Finish(tenant, serial)
            | Call::Recheck(tenant, serial)
            | Call::Deliver(tenant, serial)
            | Call::Evict(tenant, serial)
            | Call::Cancel(tenant, serial) => {
                words[..2].copy_from_slice(&[usize::from(*tenant), usize::from(*serial)])
            }
            Call::Scan(tenant) => words[0] = usize::from(*tenant),
            Call::Pick | Call::Sound | Call::Held => (),
        }
        words
    }
}

impl Calls {
    /// Makes a call.
    #[inline]
    pub fn make(&self, call: &Call, block: &mut [u8]) -> Said {
        Said::Reply(match call {
            Call::Open(shares) => self.open(block, shares),
            Call::Grant(tenant, amount) => self.grant(block, *tenant, *amount),
            Call::Begin(tenant, awaited, reads, writes) => {
                self.begin(block, *tenant, *awaited, reads, writes)
            }
            Call::Finish(tenant, serial) => self.finish(block, *tenant, *serial),
            Call::Recheck(tenant, serial) => self.recheck(block, *tenant, *serial),
            Call::Scan(tenant) => self.scan(block, *tenant),
            Call::Pick => self.pick(block),
            Call::Deliver(tenant, serial) => self.deliver(block, *tenant, *serial),
            Call::Evict(tenant, serial) => self.evict(block, *tenant, *serial),
            Call::Cancel(tenant, serial) => self.cancel(block, *tenant, *serial),
            Call::Sound => return Said::Sound(self.sound(block)),
            Call::Held => return Said::Held(self.held(block)),
        })
    }

    pub fn open(&self, block: &mut [u8], shares: &[u8]) -> Reply {
        // SAFETY: here and below the pointers and lengths are those of slices
        unsafe {
            (self.open)(
                block.as_mut_ptr(),
                block.len(),
                shares.as_ptr(),
                shares.len(),
            )
        }
    }

    pub fn grant(&self, block: &mut [u8], tenant: u8, amount: u32) -> Reply {
        unsafe { (self.grant)(block.as_mut_ptr(), block.len(), tenant, amount) }
    }

    pub fn begin(
        &self,
        block: &mut [u8],
        tenant: u8,
        awaited: u8,
        reads: &[u8],
        writes: &[u8],
    ) -> Reply {
        unsafe {
            (self.begin)(
                block.as_mut_ptr(),
                block.len(),
                tenant,
                awaited,
                reads.as_ptr(),
                reads.len(),
                writes.as_ptr(),
                writes.len(),
            )
        }
    }

    pub fn finish(&self, block: &mut [u8], tenant: u8, serial: u16) -> Reply {
        unsafe { (self.finish)(block.as_mut_ptr(), block.len(), tenant, serial) }
    }

    pub fn recheck(&self, block: &mut [u8], tenant: u8, serial: u16) -> Reply {
        unsafe { (self.recheck)(block.as_mut_ptr(), block.len(), tenant, serial) }
    }

    pub fn scan(&self, block: &mut [u8], tenant: u8) -> Reply {
        unsafe { (self.scan)(block.as_mut_ptr(), block.len(), tenant) }
    }

    pub fn pick(&self, block: &mut [u8]) -> Reply {
        unsafe { (self.pick)(block.as_mut_ptr(), block.len()) }
    }

    pub fn deliver(&self, block: &mut [u8], tenant: u8, serial: u16) -> Reply {
        unsafe { (self.deliver)(block.as_mut_ptr(), block.len(), tenant, serial) }
    }

    pub fn evict(&self, block: &mut [u8], tenant: u8, serial: u16) -> Reply {
        unsafe { (self.evict)(block.as_mut_ptr(), block.len(), tenant, serial) }
    }

    pub fn cancel(&self, block: &mut [u8], tenant: u8, serial: u16) -> Reply {
        unsafe { (self.cancel)(block.as_mut_ptr(), block.len(), tenant, serial) }
    }

    pub fn sound(&self, block: &[u8]) -> bool {
        unsafe { (self.sound)(block.as_ptr(), block.len()) }
    }

    pub fn held(&self, block: &[u8]) -> Counts {
        unsafe { (self.held)(block.as_ptr(), block.len()) }
    }
}
