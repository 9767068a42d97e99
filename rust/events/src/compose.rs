//! Sound states for blocks: some that calls lead to, and some put together
//! entry by entry. Item 1 takes more for sound than calls lead to: any holes in
//! the serials, any fuel, a Blocked entry that never met a conflict.

use crate::kinds::{generate, Kind};
use crate::random::Random;
use crate::sheet::Lists;
use second::table::{MOST_FUEL, MOST_SERIALS, TENANTS};
use second::{apply, Entry, Reader, Request, State, Table};

/// The most places, and so the most entries.
pub const PLACES: usize = 64;

/// A state some way into a generated event file.
pub fn reached(random: &mut Random) -> Table {
    let kinds = [
        Kind::Mixed,
        Kind::Deep,
        Kind::Scarce,
        Kind::Remote,
        Kind::Early,
        Kind::Overlap,
    ];
    let kind = random.one_of(&kinds);
    let file = generate(random.draw() >> 16, kind);
    let calls = Reader::new(&file).count();
    let mut table = Table::default();
    for event in Reader::new(&file).take(random.between(1, calls)).flatten() {
        apply(&mut table, event);
    }
    table
}

/// A state put together, with a queue of any length.
pub fn composed(random: &mut Random) -> Table {
    let entries = random.one_of(&[0, 1, 2, 3, 4, 6, 9, 16, 33, 48, 63, PLACES]);
    composed_of(random, entries)
}

/// A state put together, with so many entries.
pub fn composed_of(random: &mut Random, entries: usize) -> Table {
    let tenants = some_tenants(random);
    let style = Style::drawn(random);
    let mut table = Table::default();
    for _ in 0..entries {
        let tenant = random.one_of(&tenants);
        table.queue.push(style.entry(random, tenant));
    }
    settle(&mut table);
    deal_places(random, &mut table);
    give_serials(random, &mut table);
    for meter in &mut table.meters {
        meter.fuel = some_fuel(random);
    }
    table
}

/// From one tenant to all of them, not always the first ones.
fn some_tenants(random: &mut Random) -> Vec<u8> {
    let mut tenants: Vec<u8> = (1..=TENANTS as u8).collect();
    random.shuffle(&mut tenants);
    tenants.truncate(random.one_of(&[1, 2, 3, 5, 9, TENANTS]));
    tenants
}

/// What the entries of one queue are like.
struct Style {
    /// The records that they draw from.
    pool: Vec<u8>,
    most_reads: usize,
    most_writes: usize,
    /// How many entries in a hundred take 8 reads and 8 writes.
    whole: usize,
    states: [State; 3],
}

impl Style {
    fn drawn(random: &mut Random) -> Style {
        use State::{Blocked, Free, Waiting};
        let size = random.one_of(&[1, 2, 5, 16, 60, 256, 256]);
        let first = random.between(0, 256 - size);
        Style {
            pool: (first..first + size).map(|record| record as u8).collect(),
            most_reads: random.one_of(&[0, 1, 2, 8]),
            // Often none: readers pile up on a record and all stay free.
            most_writes: random.one_of(&[0, 0, 1, 2, 8]),
            whole: random.one_of(&[0, 0, 10, 100]),
            states: random.one_of(&[
                [Free, Waiting, Blocked],
                [Free, Free, Free],
                [Waiting, Waiting, Free],
                [Blocked, Blocked, Free],
            ]),
        }
    }

    /// An entry whose serial and conflicts are yet to be seen to.
    fn entry(&self, random: &mut Random, tenant: u8) -> Entry {
        let lists = self.lists(random);
        let empty = lists.reads.is_empty() && lists.writes.is_empty();
        let mut state = random.one_of(&self.states);
        if state == State::Blocked && empty {
            state = State::Free;
        }
        let (awaited, due) = answers(random, state);
        Entry {
            tenant,
            serial: 0,
            state,
            due,
            request: Request {
                awaited,
                reads: lists.reads,
                writes: lists.writes,
            },
        }
    }

    fn lists(&self, random: &mut Random) -> Lists {
        if random.chance(self.whole) {
            return Lists::drawn(random, &self.pool, 8, 8);
        }
        let mut reads = random.between(0, self.most_reads);
        let writes = random.between(0, self.most_writes);
        // Entries without records are few.
        if reads + writes == 0 && random.chance(75) {
            reads = 1;
        }
        Lists::drawn(random, &self.pool, reads, writes)
    }
}

/// Awaited and still due, as suits the state.
fn answers(random: &mut Random, state: State) -> (u8, u8) {
    let awaited = random.one_of(&[0, 0, 1, 2, 14, 15]);
    match state {
        State::Free => (awaited, 0),
        State::Waiting => {
            let awaited = awaited.max(1);
            (awaited, random.byte_between(1, awaited))
        }
        State::Blocked => (awaited, random.byte_between(0, awaited)),
    }
}

/// Makes Blocked whatever is Free or Waiting and conflicts with an entry ahead.
pub fn settle(table: &mut Table) {
    for at in 0..table.queue.len() {
        let (ahead, rest) = table.queue.split_at_mut(at);
        if ahead.iter().any(|other| rest[0].conflicts_with(other)) {
            rest[0].state = State::Blocked;
        }
    }
}

/// How many entries a tenant has in the queue.
pub fn held(table: &Table, tenant: u8) -> usize {
    let queue = table.queue.iter();
    queue.filter(|entry| entry.tenant == tenant).count()
}

/// Each tenant's share is what it holds; none, some or all of the places left
/// go to anyone.
fn deal_places(random: &mut Random, table: &mut Table) {
    for tenant in 1..=TENANTS as u8 {
        let share = held(table, tenant) as u8;
        table.meters[usize::from(tenant) - 1].share = share;
    }
    let left = PLACES - table.queue.len();
    let some = random.between(0, left);
    for _ in 0..random.one_of(&[0, some, some, left]) {
        table.meters[random.below(TENANTS)].share += 1;
    }
}

/// Serials that rise from front to back, with holes or without.
fn give_serials(random: &mut Random, table: &mut Table) {
    for tenant in 1..=TENANTS as u8 {
        let entries = held(table, tenant);
        let given = serials_given(random, entries);
        let mut serials = rising(random, entries, given).into_iter();
        table.meters[usize::from(tenant) - 1].serials = given;
        for entry in &mut table.queue {
            if entry.tenant == tenant {
                entry.serial = serials.next().expect("as many as it holds");
            }
        }
    }
}

fn serials_given(random: &mut Random, entries: usize) -> u16 {
    match random.below(5) {
        0 => entries as u16,
        1 | 2 => (entries + random.between(0, 12)) as u16,
        3 => MOST_SERIALS,
        _ => random.between(entries, usize::from(MOST_SERIALS)) as u16,
    }
}

/// So many serials from 1 to those given, often the last of them too.
fn rising(random: &mut Random, entries: usize, given: u16) -> Vec<u16> {
    let mut serials = Vec::new();
    if entries > 0 && random.chance(50) {
        serials.push(given);
    }
    while serials.len() < entries {
        let serial = random.between(1, usize::from(given)) as u16;
        if !serials.contains(&serial) {
            serials.push(serial);
        }
    }
    serials.sort_unstable();
    serials
}

fn some_fuel(random: &mut Random) -> u32 {
    match random.below(8) {
        0 => 0,
        1 => 1,
        2 | 3 => random.between(2, 60) as u32,
        4 | 5 => random.between(61, 2_000) as u32,
        6 => MOST_FUEL - random.below(3) as u32,
        _ => random.between(0, MOST_FUEL as usize) as u32,
    }
}
