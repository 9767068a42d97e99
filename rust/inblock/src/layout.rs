//! Where things stand in the block.

pub const BLOCK_BYTES: usize = 2_176;
pub type Block = [u8; BLOCK_BYTES];

pub const TENANTS: usize = 16;
pub const RECORDS: usize = 256;
pub const PLACES: usize = 64;
pub const MOST_PLACES: u32 = 64;
pub const MOST_FUEL: u32 = 1_000_000_000;
pub const MOST_SERIALS: u16 = 65_535;
/// The most records in each of an entry's two lists.
pub const MOST_RECORDS: usize = 8;
pub const MOST_AWAITED: u8 = 15;

pub const FREE: u8 = 0;
pub const WAITING: u8 = 1;
pub const BLOCKED: u8 = 2;

// The fields' bodies; a head of three bytes stands before each.
pub const SHARES: usize = 3;
pub const METERS: usize = 22;
pub const CX: usize = 121;
pub const CS: usize = 380;
pub const COUNT: usize = 639;
pub const ENTRIES: usize = 640;

/// Tag and length of each field, and where its body stands.
pub const HEADS: [(usize, [u8; 3]); 5] = [
    (SHARES, [0x11, 0, 16]),
    (METERS, [0x12, 0, 96]),
    (CX, [0x13, 1, 0]),
    (CS, [0x14, 1, 0]),
    (COUNT, [0x15, 6, 1]),
];

pub const METER_BYTES: usize = 6;
pub const ENTRY_BYTES: usize = 24;
pub type Entry = [u8; ENTRY_BYTES];

// An entry's parts.
pub const TENANT: usize = 0;
pub const SERIAL: usize = 1;
pub const STATE: usize = 3;
pub const AWAITED: usize = 4;
pub const DUE: usize = 5;
pub const NR: usize = 6;
pub const NW: usize = 7;
pub const LISTS: usize = 8;

pub fn number_of(high: u8, low: u8) -> u16 {
    u16::from_be_bytes([high, low])
}

/// An empty block in which every share is 0.
pub fn clear(block: &mut Block) {
    block.fill(0);
    for (body, head) in HEADS {
        block[body - 3..body].copy_from_slice(&head);
    }
}

/// What a tenant has.
#[derive(Clone, Copy)]
pub struct Meter {
    pub share: u8,
    pub fuel: u32,
    pub serials: u16,
}

impl Meter {
    /// The meter of a tenant, or nothing if the number is not 1 to 16.
    pub fn of(block: &Block, tenant: u8) -> Option<Meter> {
        let seat = usize::from(tenant).wrapping_sub(1);
        if seat >= TENANTS {
            return None;
        }
        let at = METERS + seat * METER_BYTES;
        let (fuel, serials) = (&block[at..at + 4], &block[at + 4..at + 6]);
        Some(Meter {
            share: block[SHARES + seat],
            fuel: u32::from_be_bytes([fuel[0], fuel[1], fuel[2], fuel[3]]),
            serials: number_of(serials[0], serials[1]),
        })
    }

    /// Stores the fuel and the serials.
    pub fn put(self, block: &mut Block, tenant: u8) {
        let at = METERS + (usize::from(tenant) - 1) * METER_BYTES;
        block[at..at + 4].copy_from_slice(&self.fuel.to_be_bytes());
        block[at + 4..at + 6].copy_from_slice(&self.serials.to_be_bytes());
    }
}

/// How many entries are queued.
pub fn count(block: &Block) -> usize {
    usize::from(block[COUNT])
}

/// The entries, front first.
pub fn queue(block: &Block) -> impl Iterator<Item = &Entry> {
    block[ENTRIES..ENTRIES + count(block) * ENTRY_BYTES]
        .chunks_exact(ENTRY_BYTES)
        .map(|bytes| bytes.try_into().expect("the bytes of an entry"))
}

pub fn entry(block: &mut Block, at: usize) -> &mut Entry {
    let at = ENTRIES + at * ENTRY_BYTES;
    (&mut block[at..at + ENTRY_BYTES])
        .try_into()
        .expect("the bytes of an entry")
}

pub fn find(block: &Block, tenant: u8, serial: u16) -> Option<usize> {
    let [high, low] = serial.to_be_bytes();
    queue(block).position(|entry| entry[..STATE] == [tenant, high, low])
}

/// The records of an entry: its reads, then its writes.
pub fn records_of(entry: &Entry) -> &[u8] {
    &entry[LISTS..LISTS + usize::from(entry[NR]) + usize::from(entry[NW])]
}

/// An entry's reads and its writes.
pub fn lists(entry: &Entry) -> (&[u8], &[u8]) {
    records_of(entry).split_at(usize::from(entry[NR]))
}

/// Adds to the counters of some records, `u8::MAX` to take 1 off.
pub fn add(block: &mut Block, kind: usize, records: &[u8], change: u8) {
    for &record in records {
        let counter = &mut block[kind + usize::from(record)];
        *counter = counter.wrapping_add(change);
    }
}
