//! A call that has something to do with a state: it mostly names tenants that
//! hold places and entries that are there, and is sometimes far off.

use crate::random::Random;
use crate::sheet::Lists;
use crate::text::Call;
use second::table::{MOST_FUEL, TENANTS};
use second::{Event, State, Table};

/// Numbers that are no tenant's.
pub const NO_TENANTS: [u8; 4] = [0, 17, 18, 255];

pub fn aimed(random: &mut Random, table: &Table) -> Call {
    match random.below(26) {
        0..=5 => begin(random, table),
        6..=8 => {
            let (tenant, serial) = name(random, table, State::Free);
            Call::Plain(Event::Finish { tenant, serial })
        }
        9..=11 => {
            let (tenant, serial) = name(random, table, State::Blocked);
            Call::Plain(Event::Recheck { tenant, serial })
        }
        12..=14 => {
            let (tenant, _) = name(random, table, State::Blocked);
            Call::Plain(Event::Scan { tenant })
        }
        15 | 16 => Call::Plain(Event::Pick),
        17 | 18 => {
            let (tenant, serial) = name(random, table, State::Waiting);
            Call::Plain(Event::Deliver { tenant, serial })
        }
        19 | 20 => grant(random, table),
        21 | 22 => {
            let state = random.one_of(&[State::Free, State::Waiting, State::Blocked]);
            let (tenant, serial) = name(random, table, state);
            Call::Plain(Event::Evict { tenant, serial })
        }
        23 | 24 => {
            let (tenant, serial) = name(random, table, State::Blocked);
            Call::Plain(Event::Cancel { tenant, serial })
        }
        _ => open(random),
    }
}

/// Mostly an entry in this state, now and then any entry or any name.
fn name(random: &mut Random, table: &Table, state: State) -> (u8, u16) {
    let queue = || table.queue.iter();
    let name = |entry: &second::Entry| (entry.tenant, entry.serial);
    let wanted: Vec<_> = queue().filter(|e| e.state == state).map(name).collect();
    let any: Vec<_> = queue().map(name).collect();
    match random.below(10) {
        0 => (any_tenant(random), random.below(12) as u16),
        1 => (any_tenant(random), random.draw() as u16),
        2 | 3 => random.any_of(&any).unwrap_or((1, 1)),
        _ => random.any_of(&wanted).unwrap_or((any_tenant(random), 1)),
    }
}

fn any_tenant(random: &mut Random) -> u8 {
    if random.chance(8) {
        return random.one_of(&NO_TENANTS);
    }
    random.byte_between(1, TENANTS as u8)
}

fn begin(random: &mut Random, table: &Table) -> Call {
    let places = tenants_with_a_place(table);
    let tenant = match random.any_of(&places) {
        Some(tenant) if random.chance(75) => tenant,
        _ => any_tenant(random),
    };
    let mut lists = near_lists(random, table);
    if random.chance(15) {
        spoil(random, &mut lists);
    } else if random.chance(25) {
        let reads = random.between(0, 8);
        lists.read_written(random, reads);
    }
    let awaited = random.one_of(&[0, 0, 0, 0, 1, 2, 15, 15, 16, 255]);
    begin_of(tenant, awaited, lists)
}

pub fn begin_of(tenant: u8, awaited: u8, lists: Lists) -> Call {
    Call::Begin {
        tenant,
        awaited,
        reads: lists.reads,
        writes: lists.writes,
    }
}

pub fn tenants_with_a_place(table: &Table) -> Vec<u8> {
    let places = |&tenant: &u8| {
        let share = table.meters[usize::from(tenant) - 1].share;
        crate::compose::held(table, tenant) < usize::from(share)
    };
    (1..=TENANTS as u8).filter(places).collect()
}

/// Lists that keep refusals 3 and 4 and have no record in common, often on
/// records that the queue has.
pub fn near_lists(random: &mut Random, table: &Table) -> Lists {
    let requests = table.queue.iter().map(|entry| &entry.request);
    let mut pool: Vec<u8> = requests
        .flat_map(|request| request.reads.iter().chain(&request.writes))
        .copied()
        .collect();
    pool.sort_unstable();
    pool.dedup();
    if pool.len() < 8 || random.chance(30) {
        pool = (0..=255).collect();
    }
    let most = random.one_of(&[0, 1, 2, 2, 8]);
    let (reads, writes) = (random.between(0, most), random.between(0, most));
    Lists::drawn(random, &pool, reads, writes)
}

/// Makes lists that refusals 3 and 4 forbid, mostly, or one list twice.
pub fn spoil(random: &mut Random, lists: &mut Lists) {
    let list = if random.chance(50) {
        &mut lists.reads
    } else {
        &mut lists.writes
    };
    match random.below(4) {
        0 => *list = (0..random.byte_between(9, 20)).collect(),
        1 => *list = (0..400).map(|record| record as u8).collect(),
        2 => list.extend_from_slice(&[9, 9]),
        _ => lists.reads.clone_from(&lists.writes),
    }
}

fn grant(random: &mut Random, table: &Table) -> Call {
    let tenant = any_tenant(random);
    let room = MOST_FUEL - table.fuel(tenant).unwrap_or(0);
    let amount = match random.below(6) {
        0 => 0,
        1 => room,
        2 => room + 1,
        3 => random.one_of(&[u32::MAX, MOST_FUEL, MOST_FUEL + 1]),
        4 => random.draw() as u32,
        _ => random.below(1_000) as u32,
    };
    Call::Plain(Event::Grant { tenant, amount })
}

/// Shares of every kind: that fit, that just fit, that are one too many, or far
/// too many, and not 16 of them.
pub fn open(random: &mut Random) -> Call {
    let mut shares: Vec<u8> = vec![0; TENANTS];
    let sum = random.one_of(&[0, 5, 30, 63, 64, 64, 65, 66, 300]);
    for _ in 0..sum {
        shares[random.below(TENANTS)] += 1;
    }
    match random.below(8) {
        0 => shares = random.bytes(TENANTS),
        // Sums of 64, and of 256 to 4,080; in eight bits 0, 64, 0 and 240.
        1 => shares = vec![random.one_of(&[4, 16, 20, 128, 255]); TENANTS],
        2 => shares.truncate(random.below(TENANTS)),
        3 => {
            let more = random.one_of(&[1, 1, 16, 240]);
            shares.resize(TENANTS + more, 0);
        }
        _ => {}
    }
    Call::Open { shares }
}
