//! Calls and blocks from a seed: what a call comes upon in a host, and damaged
//! blocks.

use crate::calls::Call;
use events::random::Random;

const CX: usize = 121;
const CS: usize = 380;
const COUNT: usize = 639;
const ENTRIES: usize = 640;
const ENTRY_BYTES: usize = 24;

/// Shares of 64 places at most, but now and then of more.
pub fn shares(random: &mut Random) -> Vec<u8> {
    match random.below(20) {
        0 => random.bytes(16),
        1 => vec![4; random.between(0, 20)],
        2..=9 => vec![4; 16],
        _ => (0..16).map(|k| if k < 3 { 20 } else { 0 }).collect(),
    }
}

fn list(random: &mut Random, most: usize, top: u8) -> Vec<u8> {
    let count = random.between(0, most);
    let mut list: Vec<u8> = (0..count).map(|_| random.byte_between(0, top)).collect();
    if random.chance(97) {
        list.sort_unstable();
        list.dedup();
    }
    list
}

fn begin(random: &mut Random, tenant: u8, top: u8) -> Call {
    // few, so that all of them come at times before the entry is promoted
    let awaited = match random.below(10) {
        0..=5 => 0,
        6..=8 => random.byte_between(1, 2),
        _ => random.byte_between(0, 16),
    };
    let most = random.one_of(&[2, 4, 8, 8, 8, 9]);
    let mut reads = list(random, most, top);
    let writes = list(random, most, top);
    // a record in both lists counts as written only, wherever it stands in the reads
    if random.chance(50) {
        reads.retain(|record| !writes.contains(record));
    } else {
        let more = random.between(0, 3);
        random.strew(&mut reads, &writes, more);
    }
    Call::Begin(tenant, awaited, reads, writes)
}

/// The tenant and the serial of some entry of the block, or any.
fn name(random: &mut Random, block: &[u8]) -> (u8, u16) {
    let count = block.get(COUNT).map_or(0, |&count| usize::from(count));
    if count > 0 && random.chance(90) {
        let at = ENTRIES + random.below(count) * ENTRY_BYTES;
        if let Some(&[tenant, high, low]) = block.get(at..at + 3) {
            return (tenant, u16::from_be_bytes([high, low]));
        }
    }
    (random.byte_between(0, 17), random.between(0, 9) as u16)
}

/// A call that suits the block, or nearly. The records are 0 to `top`: the fewer,
/// the more conflicts.
pub fn call(random: &mut Random, block: &[u8], top: u8) -> Call {
    let (owner, serial) = name(random, block);
    let tenant = if random.chance(60) {
        owner
    } else {
        random.byte_between(0, 17)
    };
    match random.below(24) {
        0..=6 => begin(random, tenant, top),
        7..=9 => Call::Finish(tenant, serial),
        10 | 11 => Call::Recheck(tenant, serial),
        12 | 13 => Call::Scan(tenant),
        14 => Call::Pick,
        15 | 16 => Call::Deliver(tenant, serial),
        17 => Call::Sound,
        18 => Call::Held,
        19 => Call::Evict(owner, serial),
        20 | 21 => Call::Cancel(tenant, serial),
        _ => {
            let amount = random.one_of(&[0, 1, 5, 40, 400, 3_000, 1_000_000_000, u32::MAX]);
            Call::Grant(tenant, amount)
        }
    }
}

/// Changes some bytes; half of the time the counters are made the queue's again,
/// so that what is wrong is not told by them.
pub fn damage(random: &mut Random, block: &mut Vec<u8>) {
    let count = usize::from(block[COUNT]).min(64);
    let used = count * ENTRY_BYTES;
    for _ in 0..random.between(1, 2) {
        match random.below(8) {
            0 => {
                let at = random.below(block.len());
                block[at] = random.byte();
            }
            1 => block[COUNT] = block[COUNT].wrapping_add(random.one_of(&[1, 255, 64])),
            2 | 3 if count > 1 => {
                // two entries change places
                let (one, other) = (random.below(count), random.below(count));
                for k in 0..ENTRY_BYTES {
                    block.swap(
                        ENTRIES + one * ENTRY_BYTES + k,
                        ENTRIES + other * ENTRY_BYTES + k,
                    );
                }
            }
            4 | 5 if count > 0 => {
                // tenant, serial, state, awaited, due and the lists' lengths
                let at = ENTRIES + random.below(count) * ENTRY_BYTES + random.below(8);
                block[at] = random.byte_between(0, 17);
            }
            6 if count > 0 => {
                let at = ENTRIES + random.below(used);
                block[at] = block[at].wrapping_add(random.one_of(&[1, 255]));
            }
            _ => {
                let at = random.below(COUNT);
                block[at] = block[at].wrapping_add(random.one_of(&[1, 255, 16]));
            }
        }
    }
    if random.chance(50) {
        recount(block);
    }
    if random.chance(3) {
        let length = random.one_of(&[0, 1, 639, 2_175, 2_177, 4_096]);
        block.resize(length, 0);
    }
}

/// Makes the counters those of the entries.
fn recount(block: &mut [u8]) {
    block[CX..CX + 256].fill(0);
    block[CS..CS + 256].fill(0);
    for place in 0..usize::from(block[COUNT]).min(64) {
        let at = ENTRIES + place * ENTRY_BYTES;
        let nr = usize::from(block[at + 6]).min(16);
        let nw = usize::from(block[at + 7]).min(16 - nr);
        for k in 0..nr + nw {
            let record = usize::from(block[at + 8 + k]);
            let counters = if k < nr { CS } else { CX };
            block[counters + record] = block[counters + record].wrapping_add(1);
        }
    }
}
