//! Blocks composed by hand, byte by byte, from the layout in document 02's Item
//! 1. Nothing here calls the library, but `gives`.
#![allow(dead_code)]

use damsonpouch::{Locks, Outcome, BLOCK_LENGTH};

/// A call with its arguments, for tables of calls.
pub type Call = fn(&mut Locks<'_>) -> Outcome;

pub const FREE: u8 = 0;
pub const WAITING: u8 = 1;
pub const BLOCKED: u8 = 2;

/// Where things stand in a block.
pub const SHARES: usize = 3;
pub const METERS: usize = 22;
pub const CX: usize = 121;
pub const CS: usize = 380;
pub const COUNT: usize = 639;
pub const ENTRIES: usize = 640;
pub const ENTRY_BYTES: usize = 24;

#[derive(Clone, Debug)]
pub struct Entry {
    pub tenant: u8,
    pub serial: u16,
    pub state: u8,
    pub awaited: u8,
    pub due: u8,
    pub reads: Vec<u8>,
    pub writes: Vec<u8>,
}

/// A state as a person would write it down.
#[derive(Clone, Debug, Default)]
pub struct Picture {
    pub shares: [u8; 16],
    pub fuel: [u32; 16],
    pub serials: [u16; 16],
    pub queue: Vec<Entry>,
}

pub fn entry(tenant: u8, serial: u16, state: u8, reads: &[u8], writes: &[u8]) -> Entry {
    Entry {
        tenant,
        serial,
        state,
        awaited: 0,
        due: 0,
        reads: reads.to_vec(),
        writes: writes.to_vec(),
    }
}

impl Entry {
    pub fn awaits(mut self, awaited: u8, due: u8) -> Entry {
        self.awaited = awaited;
        self.due = due;
        self
    }
}

impl Picture {
    /// A fresh state with these shares for the first tenants.
    pub fn fresh(shares: &[u8]) -> Picture {
        let mut picture = Picture::default();
        picture.shares[..shares.len()].copy_from_slice(shares);
        picture
    }

    pub fn fuel(mut self, tenant: usize, fuel: u32) -> Picture {
        self.fuel[tenant - 1] = fuel;
        self
    }

    pub fn serials(mut self, tenant: usize, serials: u16) -> Picture {
        self.serials[tenant - 1] = serials;
        self
    }

    pub fn with(mut self, entry: Entry) -> Picture {
        self.queue.push(entry);
        self
    }

    pub fn without(mut self, at: usize) -> Picture {
        self.queue.remove(at);
        self
    }

    pub fn bytes(&self) -> Vec<u8> {
        let mut block = vec![0; BLOCK_LENGTH];
        for (at, head) in [
            (0, [0x11, 0, 16]),
            (19, [0x12, 0, 96]),
            (118, [0x13, 1, 0]),
            (377, [0x14, 1, 0]),
            (636, [0x15, 6, 1]),
        ] {
            block[at..at + 3].copy_from_slice(&head);
        }
        block[SHARES..SHARES + 16].copy_from_slice(&self.shares);
        for tenant in 0..16 {
            let meter = METERS + 6 * tenant;
            block[meter..meter + 4].copy_from_slice(&self.fuel[tenant].to_be_bytes());
            block[meter + 4..meter + 6].copy_from_slice(&self.serials[tenant].to_be_bytes());
        }
        block[COUNT] = self.queue.len() as u8;
        for (at, entry) in self.queue.iter().enumerate() {
            let records = [&entry.reads[..], &entry.writes[..]].concat();
            let place = ENTRIES + ENTRY_BYTES * at;
            block[place] = entry.tenant;
            block[place + 1..place + 3].copy_from_slice(&entry.serial.to_be_bytes());
            block[place + 3] = entry.state;
            block[place + 4] = entry.awaited;
            block[place + 5] = entry.due;
            block[place + 6] = entry.reads.len() as u8;
            block[place + 7] = entry.writes.len() as u8;
            block[place + 8..place + 8 + records.len()].copy_from_slice(&records);
            for &record in &entry.reads {
                block[CS + usize::from(record)] += 1;
            }
            for &record in &entry.writes {
                block[CX + usize::from(record)] += 1;
            }
        }
        block
    }
}

/// What most tests begin with: 1.1 runs, 1.2 waits for the second of two
/// answers, 2.1 is blocked behind 1.1. Tenant 2 holds all its places; tenant 3
/// has places and no fuel.
pub fn base() -> Picture {
    Picture::fresh(&[3, 1, 2])
        .fuel(1, 40)
        .fuel(2, 30)
        .serials(1, 2)
        .serials(2, 1)
        .with(entry(1, 1, FREE, &[], &[10]))
        .with(entry(1, 2, WAITING, &[20], &[]).awaits(2, 1))
        .with(entry(2, 1, BLOCKED, &[5], &[10, 12]))
}

/// A call on a block says this, and leaves these bytes.
#[track_caller]
pub fn gives(block: &[u8], call: impl FnOnce(&mut Locks<'_>) -> Outcome, said: &str, after: &[u8]) {
    let mut bytes = block.to_vec();
    let outcome = call(&mut Locks::over(&mut bytes));
    assert_eq!(outcome.to_string(), said);
    if let Some(at) = (0..bytes.len()).find(|&at| bytes[at] != after[at]) {
        panic!(
            "{}: byte {} is {} where {} is due",
            said, at, bytes[at], after[at]
        );
    }
    assert_eq!(bytes.len(), after.len());
}
