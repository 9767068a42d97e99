//! The work that is measured, on either of the two.

use crate::calls::Calls;
use inblock::{Reply, BLOCK_BYTES, NAMED, NOTHING, STILL};

pub type Block = [u8; BLOCK_BYTES];

const MOST_FUEL: u32 = 1_000_000_000;
const BLOCKED: u8 = 2;
/// 1 for the search, and 1 + 16 for each of 64 entries.
const FULL_SCAN: u32 = 1_089;

#[derive(Clone, Copy, Debug, PartialEq, Eq)]
pub enum Work {
    /// A Begin and a Finish of 2 reads and 2 writes while so many entries of
    /// another tenant are held, each of 2 reads and 2 writes of its own.
    Round(u8),
    /// A Recheck of the last of so many entries and one, which stays Blocked.
    Recheck(u8),
    /// A scan of 64 entries of 16 records that promotes none.
    Scan,
    /// The check alone, on the block of a round or of a scan.
    Check(On),
    /// A Grant to tenant 0: refused once the block is found sound, so that it
    /// does what every call does and nothing else.
    Refused(On),
    /// The count of the records held, on such a block.
    Held(On),
    /// An Open: it makes a state and stores it, and looks at nothing of the block.
    Open,
}

/// A block with entries.
#[derive(Clone, Copy, Debug, PartialEq, Eq)]
pub enum On {
    Held(u8),
    Full,
}

impl On {
    fn block(self, calls: &Calls) -> Block {
        match self {
            On::Held(held) => holding(calls, held),
            On::Full => full(calls),
        }
    }
}

impl Work {
    pub fn name(self) -> String {
        let on = |on| match on {
            On::Held(held) => format!("{} entries held", held),
            On::Full => "64 entries of 16 records".to_string(),
        };
        match self {
            Work::Round(held) => format!("a call of a round (Begin, Finish), {} others held", held),
            Work::Recheck(held) => {
                format!("a Recheck that answers \"still\", {} others held", held)
            }
            Work::Scan => "a scan of 64 entries of 16 records, at 1,089 units".to_string(),
            Work::Check(block) => format!("the check alone, {}", on(block)),
            Work::Refused(block) => format!("a Grant to tenant 0 (refused), {}", on(block)),
            Work::Held(block) => format!("how many records are held, {}", on(block)),
            Work::Open => "an Open".to_string(),
        }
    }

    /// How many calls one turn of it makes.
    pub fn calls(self) -> usize {
        match self {
            Work::Round(_) => 2,
            _ => 1,
        }
    }

    /// The block that it starts from.
    pub fn block(self, calls: &Calls) -> Block {
        match self {
            Work::Round(held) => holding(calls, held),
            Work::Recheck(held) => {
                let mut block = holding(calls, held);
                let reply = calls.begin(&mut block, 1, 0, &[252, 253], &[3, 254]);
                assert_eq!((reply.kind, reply.state), (NAMED, BLOCKED));
                assert_eq!((reply.clashed, reply.lowest), (1, 3));
                block
            }
            Work::Scan => full(calls),
            Work::Check(on) | Work::Refused(on) | Work::Held(on) => on.block(calls),
            Work::Open => [0; BLOCK_BYTES],
        }
    }

    /// Does it so many times; the sum of what the replies say has to be used, and
    /// tells that both did the same.
    pub fn repeat(self, calls: &Calls, block: &mut Block, times: u16) -> u64 {
        let mut sum = 0;
        let mut note = |reply: Reply| sum += u64::from(reply.burnt) + u64::from(reply.kind);
        match self {
            Work::Round(_) => {
                for serial in 1..=times {
                    note(calls.begin(block, 1, 0, &[252, 253], &[254, 255]));
                    note(calls.finish(block, 1, serial));
                }
            }
            Work::Recheck(_) => (0..times).for_each(|_| {
                let reply = calls.recheck(block, 1, 1);
                assert_eq!(reply.kind, STILL);
                note(reply);
            }),
            Work::Scan => (0..times).for_each(|_| {
                let reply = calls.scan(block, 1);
                assert_eq!((reply.kind, reply.burnt), (NOTHING, FULL_SCAN));
                note(reply);
            }),
            Work::Check(_) => (0..times).for_each(|_| sum += u64::from(calls.sound(block))),
            Work::Refused(_) => (0..times).for_each(|_| note(calls.grant(block, 0, 1))),
            Work::Held(_) => (0..times).for_each(|_| sum += u64::from(calls.held(block).either)),
            Work::Open => (0..times).for_each(|_| note(calls.open(block, &[4; 16]))),
        }
        sum
    }
}

/// Tenant 2 holds so many entries; tenant 1 has a place of its own.
fn holding(calls: &Calls, held: u8) -> Block {
    let mut block = [0; BLOCK_BYTES];
    let mut shares = [0; 16];
    shares[..2].copy_from_slice(&[1, 63]);
    calls.open(&mut block, &shares);
    for tenant in [1, 2] {
        calls.grant(&mut block, tenant, MOST_FUEL);
    }
    for k in 0..held {
        let first = 4 * k;
        calls.begin(
            &mut block,
            2,
            0,
            &[first, first + 1],
            &[first + 2, first + 3],
        );
    }
    block
}

/// Tenant 1 holds 64 entries of 8 reads and 8 writes, spread over all records.
/// Each but the first conflicts with one ahead.
fn full(calls: &Calls) -> Block {
    let mut block = [0; BLOCK_BYTES];
    let mut shares = [0; 16];
    shares[0] = 64;
    calls.open(&mut block, &shares);
    calls.grant(&mut block, 1, MOST_FUEL);
    for k in 0..64u8 {
        let reads: Vec<u8> = (0..8).map(|j| 32 * j + k % 16).collect();
        let writes: Vec<u8> = (0..8).map(|j| 32 * j + 16 + k / 2 % 16).collect();
        let reply = calls.begin(&mut block, 1, 0, &reads, &writes);
        assert_eq!(reply.kind, NAMED);
    }
    block
}
