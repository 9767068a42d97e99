//! Loads: files in which tenants begin, finish and promote in some mixture.
//! The kinds `mixed`, `deep`, `scarce` and `remote` are loads with different
//! numbers.

use crate::random::Random;
use crate::sheet::{any_places, deal_shares, Lists, Name, Sheet};
use second::table::TENANTS;
use second::State;

#[derive(Clone, Copy)]
enum Call {
    Begin,
    Finish,
    Recheck,
    Scan,
    Pick,
    Deliver,
    Grant,
    Evict,
    Cancel,
}

/// Calls with how often they come, relative to each other. Those that are not
/// there never come.
type Weights = &'static [(Call, usize)];

struct Load {
    tenants: u8,
    /// The records that requests draw from. Few records make much contention.
    pool: Vec<u8>,
    most_reads: usize,
    most_writes: usize,
    /// How many requests in a hundred await remote answers.
    distributed: usize,
    least_grant: usize,
    most_grant: usize,
    /// How many calls in a hundred name a tenant or an entry at random.
    astray: usize,
    weights: Weights,
}

impl Load {
    fn steps(&self, random: &mut Random, sheet: &mut Sheet, steps: usize) {
        for _ in 0..steps {
            self.step(random, sheet);
        }
    }

    fn step(&self, random: &mut Random, sheet: &mut Sheet) {
        match self.weighted_call(random) {
            Call::Begin => self.begin(random, sheet),
            Call::Grant => self.grant(random, sheet),
            Call::Pick => {
                sheet.pick();
            }
            Call::Scan => {
                let blocked = sheet.names_in(State::Blocked);
                let (tenant, _) = self.aim(random, &blocked);
                sheet.scan(tenant);
            }
            Call::Finish => {
                let free = sheet.names_in(State::Free);
                sheet.finish(self.aim(random, &free));
            }
            Call::Recheck => {
                let blocked = sheet.names_in(State::Blocked);
                sheet.recheck(self.aim(random, &blocked));
            }
            Call::Deliver => {
                let due = sheet.names(|entry| entry.due > 0);
                sheet.deliver(self.aim(random, &due));
            }
            Call::Evict => {
                let any = sheet.names(|_| true);
                sheet.evict(self.aim(random, &any));
            }
            Call::Cancel => {
                let blocked = sheet.names_in(State::Blocked);
                sheet.cancel(self.aim(random, &blocked));
            }
        }
    }

    fn weighted_call(&self, random: &mut Random) -> Call {
        let total = self.weights.iter().map(|(_, weight)| weight).sum();
        let mut drawn = random.below(total);
        for &(call, weight) in self.weights {
            if drawn < weight {
                return call;
            }
            drawn -= weight;
        }
        unreachable!("the number drawn is below the sum of the weights")
    }

    /// Mostly one of the live entries; sometimes any name.
    fn aim(&self, random: &mut Random, live: &[Name]) -> Name {
        match random.any_of(live) {
            Some(name) if !random.chance(self.astray) => name,
            _ => (self.tenant(random), random.below(12) as u16),
        }
    }

    /// Mostly one of this load's tenants; sometimes any number up to 17.
    fn tenant(&self, random: &mut Random) -> u8 {
        if random.chance(self.astray) {
            random.byte_between(0, TENANTS as u8 + 1)
        } else {
            random.byte_between(1, self.tenants)
        }
    }

    fn begin(&self, random: &mut Random, sheet: &mut Sheet) {
        let mut tenant = self.tenant(random);
        // A tenant with its share in use gives way, mostly, to one with places.
        if (1..=self.tenants).contains(&tenant) && !sheet.has_place(tenant) {
            tenant = random.byte_between(1, self.tenants);
        }
        let awaited = if random.chance(self.distributed) {
            random.one_of(&[1, 1, 1, 2, 2, 3, 15])
        } else {
            0
        };
        sheet.begin(tenant, awaited, &self.lists(random));
    }

    fn lists(&self, random: &mut Random) -> Lists {
        let reads = random.between(0, self.most_reads);
        let writes = random.between(0, self.most_writes);
        Lists::drawn(random, &self.pool, reads, writes)
    }

    fn grant(&self, random: &mut Random, sheet: &mut Sheet) {
        let amount = random.between(self.least_grant, self.most_grant);
        sheet.grant(self.tenant(random), amount as u32);
    }

    fn grant_all(&self, random: &mut Random, sheet: &mut Sheet) {
        for tenant in 1..=self.tenants {
            let amount = random.between(self.least_grant, self.most_grant);
            sheet.grant(tenant, amount as u32);
        }
    }
}

/// `size` records in a row, somewhere from 0 to 255.
fn pool(random: &mut Random, size: usize) -> Vec<u8> {
    let first = random.between(0, 256 - size);
    (first..first + size).map(|record| record as u8).collect()
}

fn mixed_load(random: &mut Random) -> Load {
    let size = random.one_of(&[4, 8, 16, 40, 100, 256]);
    Load {
        tenants: random.byte_between(2, 16),
        pool: pool(random, size),
        most_reads: random.between(0, 4),
        most_writes: random.between(1, 4),
        distributed: 20,
        least_grant: 20,
        most_grant: 400,
        astray: 5,
        weights: &[
            (Call::Begin, 34),
            (Call::Finish, 20),
            (Call::Recheck, 12),
            (Call::Scan, 10),
            (Call::Pick, 6),
            (Call::Deliver, 12),
            (Call::Grant, 6),
            (Call::Evict, 3),
            (Call::Cancel, 3),
        ],
    }
}

/// Mixed load.
pub fn mixed(random: &mut Random) -> Vec<u8> {
    let steps = random.between(20, 300);
    mixed_sheet(random, steps, usize::MAX).into_bytes()
}

/// A mixed load that ends after `steps` steps, or sooner once it is
/// `most_bytes` long. It may pass that length by one record, of at most 22
/// bytes.
pub fn mixed_sheet(random: &mut Random, steps: usize, most_bytes: usize) -> Sheet {
    let load = mixed_load(random);
    let places = any_places(random, load.tenants);
    let mut sheet = Sheet::open(deal_shares(random, load.tenants, places));
    load.grant_all(random, &mut sheet);
    for _ in 0..steps {
        if sheet.len() >= most_bytes {
            break;
        }
        load.step(random, &mut sheet);
    }
    sheet
}

/// Deep queues of many tenants on hot records: a rush of begins, then the
/// queue is worked off.
pub fn deep(random: &mut Random) -> Vec<u8> {
    let hot = random.between(1, 6);
    let mut load = Load {
        tenants: random.byte_between(12, 16),
        pool: pool(random, hot),
        most_reads: random.between(0, 3),
        most_writes: random.between(1, 3),
        distributed: random.one_of(&[0, 10, 40]),
        least_grant: 500,
        most_grant: 5_000,
        astray: 1,
        weights: &[
            (Call::Begin, 90),
            (Call::Finish, 2),
            (Call::Recheck, 2),
            (Call::Scan, 2),
            (Call::Pick, 1),
            (Call::Deliver, 2),
            (Call::Grant, 1),
        ],
    };
    let mut sheet = Sheet::open(deal_shares(random, load.tenants, 64));
    load.grant_all(random, &mut sheet);
    let rush = random.between(60, 140);
    load.steps(random, &mut sheet, rush);
    load.weights = &[
        (Call::Begin, 8),
        (Call::Finish, 34),
        (Call::Recheck, 8),
        (Call::Scan, 20),
        (Call::Pick, 20),
        (Call::Deliver, 8),
        (Call::Grant, 2),
    ];
    let work = random.between(60, 250);
    load.steps(random, &mut sheet, work);
    sheet.into_bytes()
}

/// Scarce fuel: tiny grants, so that calls meet a dry tank, a price just out
/// of reach, or a scan cut short.
pub fn scarce(random: &mut Random) -> Vec<u8> {
    let size = random.one_of(&[2, 4, 8, 30]);
    let load = Load {
        tenants: random.byte_between(2, 8),
        pool: pool(random, size),
        most_reads: 2,
        most_writes: 2,
        distributed: 10,
        least_grant: 0,
        most_grant: random.between(3, 16),
        astray: 4,
        weights: &[
            (Call::Begin, 28),
            (Call::Finish, 12),
            (Call::Recheck, 14),
            (Call::Scan, 14),
            (Call::Pick, 4),
            (Call::Deliver, 4),
            (Call::Grant, 24),
        ],
    };
    let places = any_places(random, load.tenants);
    let mut sheet = Sheet::open(deal_shares(random, load.tenants, places));
    for _ in 0..random.between(4, 20) {
        let steps = random.between(5, 20);
        load.steps(random, &mut sheet, steps);
        begin_at_the_price(random, &mut sheet, &load);
    }
    sheet.into_bytes()
}

/// Brings a tenant that has less than the price to one unit below the price,
/// at it or above it; then begins, and finishes on what is left.
fn begin_at_the_price(random: &mut Random, sheet: &mut Sheet, load: &Load) {
    let tenant = random.byte_between(1, load.tenants);
    let lists = load.lists(random);
    let n = lists.n() as usize;
    let wanted = random.between(1 + 2 * n, 3 + 2 * n) as u32;
    sheet.fuel_up(tenant, wanted);
    sheet.begin(tenant, 0, &lists);
    let own_free = sheet.names(|entry| entry.tenant == tenant && entry.state == State::Free);
    if let Some(name) = random.any_of(&own_free) {
        sheet.finish(name);
    }
}

/// Remote answers: most requests await some, answers come early and late, and
/// one too many.
pub fn remote(random: &mut Random) -> Vec<u8> {
    let size = random.one_of(&[3, 6, 12, 30]);
    let load = Load {
        tenants: random.byte_between(2, 10),
        pool: pool(random, size),
        most_reads: 2,
        most_writes: 3,
        distributed: 75,
        least_grant: 200,
        most_grant: 2_000,
        astray: 4,
        weights: &[
            (Call::Begin, 26),
            (Call::Finish, 14),
            (Call::Recheck, 12),
            (Call::Scan, 8),
            (Call::Pick, 8),
            (Call::Deliver, 24),
            (Call::Grant, 2),
        ],
    };
    let places = any_places(random, load.tenants);
    let mut sheet = Sheet::open(deal_shares(random, load.tenants, places));
    load.grant_all(random, &mut sheet);
    for _ in 0..random.between(4, 14) {
        let steps = random.between(8, 20);
        load.steps(random, &mut sheet, steps);
        call_on_waiting(random, &mut sheet);
    }
    sheet.into_bytes()
}

/// A Finish, a Recheck or a Deliver on an entry that waits.
fn call_on_waiting(random: &mut Random, sheet: &mut Sheet) {
    let waiting = sheet.names_in(State::Waiting);
    if let Some(name) = random.any_of(&waiting) {
        match random.below(3) {
            0 => sheet.finish(name),
            1 => sheet.recheck(name),
            _ => sheet.deliver(name),
        };
    }
}
