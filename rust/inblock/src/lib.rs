//! The calls on the host's block of 2,176 bytes as plain Rust would have them:
//! the bytes are changed where they stand. As in the linked library, each call
//! first checks the whole block (`check`), takes any bytes and any numbers, and
//! answers with a [`Reply`].
//!
//! "Document 01" is the page of scope and precise rules; the block is that of
//! Item 1 of the change requests, with Item 2's rule of promotion, Item 4's
//! reduced lists, Item 5's report and Item 7's two calls.

mod check;
mod layout;

pub use layout::BLOCK_BYTES;

use check::{rises, Map};
use layout::{
    add, count, entry, find, lists, number_of, queue, records_of, Block, Entry, Meter, AWAITED,
    BLOCKED, COUNT, CS, CX, DUE, ENTRIES, ENTRY_BYTES, FREE, LISTS, MOST_AWAITED, MOST_FUEL,
    MOST_PLACES, MOST_RECORDS, MOST_SERIALS, NR, NW, RECORDS, SERIAL, SHARES, STATE, TENANT,
    TENANTS, WAITING,
};

/// What a call answers and burns, as the linked calls give it back.
#[repr(C)]
#[derive(Clone, Copy, Debug, Default, PartialEq, Eq)]
pub struct Reply {
    /// One of the kinds below.
    pub kind: u8,
    /// Of a refusal, and else 0.
    pub number: u8,
    /// Of an entry, and else 0: 0 Free, 1 Waiting, 2 Blocked.
    pub state: u8,
    /// Of an entry, and else 0.
    pub tenant: u8,
    /// Of an entry, and else 0.
    pub serial: u16,
    /// 1 of a Begin whose entry is Blocked, and else 0.
    pub clashed: u8,
    /// The lowest record that such a Begin clashed on, and else 0.
    pub lowest: u8,
    pub burnt: u32,
}

/// How many records are held, as the linked call gives it back.
#[repr(C)]
#[derive(Clone, Copy, Debug, Default, PartialEq, Eq)]
pub struct Counts {
    /// 15 of a block that is not sound, and else 0. The counts are 0 then.
    pub number: u8,
    /// Records with Cx above 0.
    pub written: u16,
    /// Records with Cs above 0.
    pub read: u16,
    /// Records with one of them above 0.
    pub either: u16,
}

pub const OK: u8 = 0;
pub const DONE: u8 = 1;
pub const STILL: u8 = 2;
pub const NOTHING: u8 = 3;
pub const REFUSED: u8 = 4;
pub const NAMED: u8 = 5;

impl Reply {
    fn plain(kind: u8, burnt: u32) -> Reply {
        Reply {
            kind,
            burnt,
            ..Reply::default()
        }
    }

    fn refused(number: u8, burnt: u32) -> Reply {
        Reply {
            kind: REFUSED,
            number,
            burnt,
            ..Reply::default()
        }
    }

    fn named(entry: &Entry, burnt: u32) -> Reply {
        Reply {
            kind: NAMED,
            state: entry[STATE],
            tenant: entry[TENANT],
            serial: number_of(entry[SERIAL], entry[SERIAL + 1]),
            burnt,
            ..Reply::default()
        }
    }

    /// Of a Begin that was admitted.
    fn begun(entry: &Entry, clash: Option<u8>, burnt: u32) -> Reply {
        Reply {
            clashed: u8::from(clash.is_some()),
            lowest: clash.unwrap_or(0),
            ..Reply::named(entry, burnt)
        }
    }
}

/// Whether these bytes are a sound block.
pub fn sound(block: &[u8]) -> bool {
    <&Block>::try_from(block).map_or(false, check::is_sound)
}

/// The block, if it is sound.
fn checked(block: &mut [u8]) -> Option<&mut Block> {
    let block = <&mut Block>::try_from(block).ok()?;
    if check::is_sound(block) {
        Some(block)
    } else {
        None
    }
}

/// Does a call to a sound block, and refuses any other.
fn with(block: &mut [u8], call: impl FnOnce(&mut Block) -> Reply) -> Reply {
    checked(block).map_or(Reply::refused(15, 0), call)
}

pub fn open(block: &mut [u8], shares: &[u8]) -> Reply {
    let block = match <&mut Block>::try_from(block) {
        Ok(block) => block,
        Err(_) => return Reply::refused(15, 0),
    };
    layout::clear(block);
    let places: u32 = shares.iter().map(|&share| u32::from(share)).sum();
    if shares.len() != TENANTS || places > MOST_PLACES {
        return Reply::refused(14, 0);
    }
    block[SHARES..][..TENANTS].copy_from_slice(shares);
    Reply::plain(OK, 0)
}

pub fn grant(block: &mut [u8], tenant: u8, amount: u32) -> Reply {
    with(block, |block| {
        let mut meter = match Meter::of(block, tenant) {
            Some(meter) => meter,
            None => return Reply::refused(1, 0),
        };
        if amount > MOST_FUEL - meter.fuel {
            return Reply::refused(13, 0);
        }
        meter.fuel += amount;
        meter.put(block, tenant);
        Reply::plain(OK, 0)
    })
}

pub fn begin(block: &mut [u8], tenant: u8, awaited: u8, reads: &[u8], writes: &[u8]) -> Reply {
    with(block, |block| {
        charged(block, tenant, |block, meter| {
            // "The limits of 8 apply to the lists as given."
            if reads.len() > MOST_RECORDS || writes.len() > MOST_RECORDS {
                return Err(3);
            }
            let mut kept = [0; MOST_RECORDS];
            let reads = only_read(&mut kept, reads, writes);
            let price = admissible(block, tenant, *meter, awaited, reads, writes)?;
            let clash = lowest_clash(block, reads, writes);
            meter.fuel -= price;
            meter.serials += 1;
            add(block, CS, reads, 1);
            add(block, CX, writes, 1);
            let at = count(block);
            block[COUNT] += 1;
            let entry = entry(block, at);
            entry[TENANT] = tenant;
            entry[SERIAL..][..2].copy_from_slice(&meter.serials.to_be_bytes());
            entry[STATE] = clash.map_or(running(awaited), |_| BLOCKED);
            entry[AWAITED] = awaited;
            entry[DUE] = awaited;
            entry[NR] = reads.len() as u8;
            entry[NW] = writes.len() as u8;
            entry[LISTS..][..reads.len()].copy_from_slice(reads);
            entry[LISTS + reads.len()..][..writes.len()].copy_from_slice(writes);
            Ok(Reply::begun(entry, clash, price))
        })
    })
}

pub fn finish(block: &mut [u8], tenant: u8, serial: u16) -> Reply {
    with(block, |block| {
        if Meter::of(block, tenant).is_none() {
            return Reply::refused(1, 0);
        }
        let found = find(block, tenant, serial);
        match found {
            Some(at) if entry(block, at)[STATE] == FREE => {
                leave(block, at);
                Reply::plain(DONE, 0)
            }
            _ => charged(block, tenant, |_, _| {
                Err(if found.is_none() { 10 } else { 11 })
            }),
        }
    })
}

pub fn recheck(block: &mut [u8], tenant: u8, serial: u16) -> Reply {
    with(block, |block| {
        charged(block, tenant, |block, meter| {
            let at = find(block, tenant, serial).ok_or(10)?;
            let entry = *entry(block, at);
            if entry[STATE] != BLOCKED {
                return Err(11);
            }
            let price = look_price(&entry);
            if meter.fuel < price {
                return Err(9);
            }
            meter.fuel -= price;
            let (reads, writes) = lists(&entry);
            let alone = reads.iter().all(|&record| counter(block, CX, record) == 0)
                && writes.iter().all(|&record| {
                    counter(block, CX, record) == 1 && counter(block, CS, record) == 0
                });
            Ok(if alone {
                promote(block, at, price)
            } else {
                Reply::plain(STILL, price)
            })
        })
    })
}

pub fn scan(block: &mut [u8], tenant: u8) -> Reply {
    with(block, |block| {
        charged(block, tenant, |block, meter| {
            let (found, burnt) = search(block, tenant, meter.fuel);
            meter.fuel -= burnt;
            Ok(match found {
                Found::At(at) => promote(block, at, burnt),
                Found::Nothing => Reply::plain(NOTHING, burnt),
                Found::CutShort => Reply::refused(9, burnt),
            })
        })
    })
}

pub fn pick(block: &mut [u8]) -> Reply {
    with(block, |block| {
        if count(block) > 0 && entry(block, 0)[STATE] == BLOCKED {
            promote(block, 0, 0)
        } else {
            Reply::plain(NOTHING, 0)
        }
    })
}

pub fn deliver(block: &mut [u8], tenant: u8, serial: u16) -> Reply {
    with(block, |block| {
        if Meter::of(block, tenant).is_none() {
            return Reply::refused(1, 0);
        }
        let entry = match find(block, tenant, serial) {
            Some(at) => entry(block, at),
            None => return Reply::refused(10, 0),
        };
        if entry[DUE] == 0 {
            return Reply::refused(12, 0);
        }
        entry[DUE] -= 1;
        if entry[STATE] == WAITING && entry[DUE] == 0 {
            entry[STATE] = FREE;
        }
        Reply::named(entry, 0)
    })
}

pub fn evict(block: &mut [u8], tenant: u8, serial: u16) -> Reply {
    with(block, |block| {
        if Meter::of(block, tenant).is_none() {
            return Reply::refused(1, 0);
        }
        match find(block, tenant, serial) {
            Some(at) => {
                leave(block, at);
                Reply::plain(DONE, 0)
            }
            None => Reply::refused(10, 0),
        }
    })
}

pub fn cancel(block: &mut [u8], tenant: u8, serial: u16) -> Reply {
    with(block, |block| {
        charged(block, tenant, |block, meter| {
            let at = find(block, tenant, serial).ok_or(10)?;
            if entry(block, at)[STATE] != BLOCKED {
                return Err(11);
            }
            meter.fuel -= 1;
            leave(block, at);
            Ok(Reply::plain(DONE, 1))
        })
    })
}

/// How many records are held, by the counters of a sound block.
pub fn held(block: &[u8]) -> Counts {
    let block = match <&Block>::try_from(block) {
        Ok(block) if check::is_sound(block) => block,
        _ => {
            return Counts {
                number: 15,
                ..Counts::default()
            }
        }
    };
    let mut counts = Counts::default();
    for (cx, cs) in block[CX..][..RECORDS].iter().zip(&block[CS..][..RECORDS]) {
        counts.written += u16::from(*cx > 0);
        counts.read += u16::from(*cs > 0);
        counts.either += u16::from(*cx > 0 || *cs > 0);
    }
    counts
}

/// A call of a tenant with fuel: refusals 1 and 2, then the call, whose refusal
/// burns 1. The meter that it changes is stored.
fn charged(
    block: &mut Block,
    tenant: u8,
    call: impl FnOnce(&mut Block, &mut Meter) -> Result<Reply, u8>,
) -> Reply {
    let mut meter = match Meter::of(block, tenant) {
        Some(meter) => meter,
        None => return Reply::refused(1, 0),
    };
    if meter.fuel == 0 {
        return Reply::refused(2, 0);
    }
    let reply = call(block, &mut meter).unwrap_or_else(|number| {
        meter.fuel -= 1;
        Reply::refused(number, 1)
    });
    meter.put(block, tenant);
    reply
}

/// The reads that are not written, in their order, put at the front of `kept`: "A
/// record in both lists shall count as written only" (Item 4).
fn only_read<'a>(kept: &'a mut [u8; MOST_RECORDS], reads: &[u8], writes: &[u8]) -> &'a [u8] {
    let mut count = 0;
    for record in reads {
        if !writes.contains(record) {
            kept[count] = *record;
            count += 1;
        }
    }
    &kept[..count]
}

/// Refusals 4 to 9 of a Begin with the reduced lists in number order, or the
/// price. "5 is no longer given; its number stays unused" (Item 4).
fn admissible(
    block: &Block,
    tenant: u8,
    meter: Meter,
    awaited: u8,
    reads: &[u8],
    writes: &[u8],
) -> Result<u32, u8> {
    if !rises(reads) || !rises(writes) {
        return Err(4);
    }
    if awaited > MOST_AWAITED {
        return Err(6);
    }
    let own = queue(block).filter(|entry| entry[TENANT] == tenant);
    if own.count() >= usize::from(meter.share) {
        return Err(7);
    }
    if meter.serials == MOST_SERIALS {
        return Err(8);
    }
    let price = 2 + 2 * (reads.len() + writes.len()) as u32;
    if meter.fuel < price {
        return Err(9);
    }
    Ok(price)
}

fn counter(block: &Block, kind: usize, record: u8) -> u8 {
    block[kind + usize::from(record)]
}

/// The lowest record of a clash of figure 2, by the counters before the request's
/// own. Both lists rise, so that the first of each that clashes is its lowest.
fn lowest_clash(block: &Block, reads: &[u8], writes: &[u8]) -> Option<u8> {
    let written = |record| counter(block, CX, record) > 0;
    let held = |record| written(record) || counter(block, CS, record) > 0;
    let read = reads.iter().find(|&&record| written(record));
    let write = writes.iter().find(|&&record| held(record));
    read.into_iter().chain(write).min().copied()
}

/// The state of an entry that nothing blocks, by the answers still due. Of a new
/// one these are all that it awaits.
fn running(due: u8) -> u8 {
    if due > 0 {
        WAITING
    } else {
        FREE
    }
}

fn promote(block: &mut Block, at: usize, burnt: u32) -> Reply {
    let entry = entry(block, at);
    entry[STATE] = running(entry[DUE]);
    Reply::named(entry, burnt)
}

/// The entry's counters fall, and those behind it move up.
fn leave(block: &mut Block, at: usize) {
    let entry = *entry(block, at);
    let (reads, writes) = lists(&entry);
    add(block, CS, reads, u8::MAX);
    add(block, CX, writes, u8::MAX);
    let (from, end) = (
        ENTRIES + at * ENTRY_BYTES,
        ENTRIES + count(block) * ENTRY_BYTES,
    );
    block.copy_within(from + ENTRY_BYTES..end, from);
    block[end - ENTRY_BYTES..end].fill(0);
    block[COUNT] -= 1;
}

fn look_price(entry: &Entry) -> u32 {
    1 + records_of(entry).len() as u32
}

enum Found {
    At(usize),
    Nothing,
    CutShort,
}

/// The search from the front, and what it burns. Each entry is paid for before
/// it is looked at.
fn search(block: &Block, tenant: u8, fuel: u32) -> (Found, u32) {
    let mut read = Map::default();
    let mut written = Map::default();
    let mut burnt = 1;
    for (at, entry) in queue(block).enumerate() {
        let price = look_price(entry);
        if fuel - burnt < price {
            return (Found::CutShort, burnt);
        }
        burnt += price;
        let (reads, writes) = lists(entry);
        if entry[TENANT] == tenant
            && entry[STATE] == BLOCKED
            && !written.hits(reads)
            && !written.hits(writes)
            && !read.hits(writes)
        {
            return (Found::At(at), burnt);
        }
        read.insert(reads);
        written.insert(writes);
    }
    (Found::Nothing, burnt)
}

#[cfg(test)]
mod tests;
