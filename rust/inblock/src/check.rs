//! Whether a block is sound: one pass over the queue.

use crate::layout::{
    number_of, Block, Entry, BLOCKED, COUNT, CS, CX, ENTRIES, ENTRY_BYTES, FREE, HEADS, METERS,
    METER_BYTES, MOST_AWAITED, MOST_FUEL, MOST_PLACES, MOST_RECORDS, PLACES, RECORDS, SHARES,
    TENANTS, WAITING,
};

/// A set of records, one bit each.
#[derive(Clone, Copy, Default)]
pub struct Map {
    words: [u64; RECORDS / 64],
}

impl Map {
    fn put(&mut self, record: u8) {
        self.words[usize::from(record) / 64] |= 1 << (record % 64);
    }

    fn has(&self, record: u8) -> bool {
        self.words[usize::from(record) / 64] >> (record % 64) & 1 == 1
    }

    pub fn insert(&mut self, records: &[u8]) {
        records.iter().for_each(|&record| self.put(record));
    }

    pub fn hits(&self, records: &[u8]) -> bool {
        records.iter().any(|&record| self.has(record))
    }
}

pub fn is_sound(block: &Block) -> bool {
    let count = usize::from(block[COUNT]);
    if count > PLACES || !heads_are_right(block) || !meters_are_right(block) {
        return false;
    }
    let (used, unused) = block[ENTRIES..].split_at(count * ENTRY_BYTES);
    let mut ahead = Ahead::new(block);
    used.chunks_exact(ENTRY_BYTES)
        .all(|entry| ahead.admits(entry.try_into().expect("the bytes of an entry")))
        && ahead.cx[..] == block[CX..CX + RECORDS]
        && ahead.cs[..] == block[CS..CS + RECORDS]
        && unused == &[0; PLACES * ENTRY_BYTES][..unused.len()]
}

fn heads_are_right(block: &Block) -> bool {
    HEADS
        .iter()
        .all(|(body, head)| block[body - 3..*body] == head[..])
}

fn meters_are_right(block: &Block) -> bool {
    let shares = &block[SHARES..SHARES + TENANTS];
    let places: u32 = shares.iter().map(|&share| u32::from(share)).sum();
    let mut meters = block[METERS..METERS + TENANTS * METER_BYTES].chunks_exact(METER_BYTES);
    places <= MOST_PLACES
        && meters
            .all(|meter| u32::from_be_bytes([meter[0], meter[1], meter[2], meter[3]]) <= MOST_FUEL)
}

/// What the entries from the front up to some place come to.
struct Ahead {
    /// The places that each tenant may still take.
    left: [u8; TENANTS],
    /// Each tenant's last serial.
    last: [u16; TENANTS],
    /// Each tenant's serials given.
    given: [u16; TENANTS],
    cx: [u8; RECORDS],
    cs: [u8; RECORDS],
    read: Map,
    written: Map,
}

impl Ahead {
    fn new(block: &Block) -> Ahead {
        let mut ahead = Ahead {
            left: [0; TENANTS],
            last: [0; TENANTS],
            given: [0; TENANTS],
            cx: [0; RECORDS],
            cs: [0; RECORDS],
            read: Map::default(),
            written: Map::default(),
        };
        ahead.left.copy_from_slice(&block[SHARES..SHARES + TENANTS]);
        let meters = block[METERS..].chunks_exact(METER_BYTES);
        for (given, meter) in ahead.given.iter_mut().zip(meters) {
            *given = number_of(meter[4], meter[5]);
        }
        ahead
    }

    /// Whether an entry may stand behind those; if so it is one of them.
    fn admits(&mut self, entry: &Entry) -> bool {
        let &[tenant, high, low, state, awaited, due, nr, nw, ref records @ ..] = entry;
        let seat = usize::from(tenant).wrapping_sub(1);
        if seat >= TENANTS || self.left[seat] == 0 {
            return false;
        }
        self.left[seat] -= 1;
        let serial = number_of(high, low);
        if serial <= self.last[seat] || serial > self.given[seat] {
            return false;
        }
        self.last[seat] = serial;
        let fits = match state {
            FREE => due == 0,
            WAITING => due > 0,
            BLOCKED => nr > 0 || nw > 0,
            _ => false,
        };
        let (nr, nw) = (usize::from(nr), usize::from(nw));
        if !fits
            || awaited > MOST_AWAITED
            || due > awaited
            || nr > MOST_RECORDS
            || nw > MOST_RECORDS
        {
            return false;
        }
        let (reads, rest) = records.split_at(nr);
        let (writes, unused) = rest.split_at(nw);
        if !rises(reads) || !rises(writes) || unused.iter().any(|&byte| byte != 0) {
            return false;
        }
        // a stored entry writes nothing that it reads, so its own reads may join the map at once
        let mut own = Map::default();
        let mut clash = false;
        for &record in reads {
            clash |= self.written.has(record);
            own.put(record);
            self.read.put(record);
            self.cs[usize::from(record)] += 1;
        }
        for &record in writes {
            if own.has(record) {
                return false;
            }
            clash |= self.written.has(record) || self.read.has(record);
            self.written.put(record);
            self.cx[usize::from(record)] += 1;
        }
        state == BLOCKED || !clash
    }
}

pub fn rises(records: &[u8]) -> bool {
    records.windows(2).all(|pair| pair[0] < pair[1])
}
