//! Scenes of clashes on a sound state: a Begin that is Blocked, by what is told
//! of it, and a Finish that leaves a record held or lets it go.

use crate::aim::begin_of;
use crate::clash::BORDERS;
use crate::random::Random;
use crate::scenes::{able, meter, Scene};
use crate::sheet::Lists;
use crate::text::Call;
use second::{price, Entry, Event, State, Table};

pub const CLASHES: [(&str, Scene); 7] = [
    ("a clash at a border", at_a_border),
    ("a clash on the highest of many", highest_of_many),
    ("clashes on several records", several),
    ("a lower record that both read", lower_that_both_read),
    ("a clash with a Blocked entry alone", with_a_blocked),
    ("finish of one of several holders", one_of_several),
    ("finish of the last holder", last_holder),
];

/// How many entries have the record in their reads, and in their writes.
fn holders(table: &Table, record: u8) -> (usize, usize) {
    let requests = || table.queue.iter().map(|entry| &entry.request);
    let reading = requests().filter(|request| request.reads.contains(&record));
    let writing = requests().filter(|request| request.writes.contains(&record));
    (reading.count(), writing.count())
}

/// Rising.
fn held(table: &Table) -> Vec<u8> {
    let held = |record: &u8| holders(table, *record) != (0, 0);
    (0..=u8::MAX).filter(held).collect()
}

fn unheld(table: &Table) -> Vec<u8> {
    let held = held(table);
    (0..=u8::MAX).filter(|r| !held.contains(r)).collect()
}

/// Whether a request that clashes on this held record writes it: as it likes
/// where another writes it.
fn asked(random: &mut Random, table: &Table, record: u8) -> bool {
    let (_, writing) = holders(table, record);
    writing == 0 || random.chance(50)
}

/// A Begin of that tenant, which has the price.
fn begin(random: &mut Random, table: &mut Table, tenant: u8, lists: Lists) -> Option<Call> {
    meter(table, tenant).fuel = price::begin(lists.n()) + random.one_of(&[0, 0, 1]);
    Some(begin_of(tenant, random.one_of(&[0, 0, 1, 15]), lists))
}

/// Every entry has the one record where it had the other. The lists are sorted
/// again, so that the state stays sound.
fn exchange(table: &mut Table, one: u8, other: u8) {
    let exchanged = |record: u8| match record {
        _ if record == one => other,
        _ if record == other => one,
        _ => record,
    };
    for entry in &mut table.queue {
        for list in [&mut entry.request.reads, &mut entry.request.writes] {
            list.iter_mut().for_each(|r| *r = exchanged(*r));
            list.sort_unstable();
        }
    }
}

fn at_a_border(random: &mut Random, table: &mut Table) -> Option<Call> {
    let tenant = able(random, table)?;
    let record = random.any_of(&held(table))?;
    let border = random.one_of(&BORDERS);
    exchange(table, record, border);
    let mut lists = Lists::drawn(random, &unheld(table), 2, 2);
    lists.add(border, asked(random, table, border));
    begin(random, table, tenant, lists)
}

fn highest_of_many(random: &mut Random, table: &mut Table) -> Option<Call> {
    let tenant = able(random, table)?;
    let record = random.any_of(&held(table))?;
    let mut lower = unheld(table);
    lower.retain(|other| *other < record);
    if lower.len() < 4 {
        return None;
    }
    let mut lists = Lists::drawn(random, &lower, 7, 7);
    lists.add(record, asked(random, table, record));
    begin(random, table, tenant, lists)
}

fn several(random: &mut Random, table: &mut Table) -> Option<Call> {
    let tenant = able(random, table)?;
    let mut held = held(table);
    random.shuffle(&mut held);
    if held.len() < 2 {
        return None;
    }
    let most = held.len().min(8);
    let mut lists = Lists::default();
    for &record in &held[..random.between(2, most)] {
        lists.add(record, asked(random, table, record));
    }
    begin(random, table, tenant, lists)
}

fn lower_that_both_read(random: &mut Random, table: &mut Table) -> Option<Call> {
    let tenant = able(random, table)?;
    let held = held(table);
    let mut read = held.clone();
    read.retain(|record| holders(table, *record).1 == 0);
    let lower = random.any_of(&read)?;
    let mut above = held;
    above.retain(|record| *record > lower);
    let record = random.any_of(&above)?;
    let mut lists = Lists::of_one(lower, false);
    lists.add(record, asked(random, table, record));
    begin(random, table, tenant, lists)
}

/// Whether some entry has the record, and none but Blocked ones do.
fn of_blocked_alone(table: &Table, record: u8) -> bool {
    let mut having = table.queue.iter().filter(|entry| has(entry, record));
    holders(table, record) != (0, 0) && having.all(|entry| entry.state == State::Blocked)
}

fn has(entry: &Entry, record: u8) -> bool {
    let request = &entry.request;
    request.reads.contains(&record) || request.writes.contains(&record)
}

fn with_a_blocked(random: &mut Random, table: &mut Table) -> Option<Call> {
    let tenant = able(random, table)?;
    let mut records = held(table);
    records.retain(|record| of_blocked_alone(table, *record));
    let record = random.any_of(&records)?;
    let writes = asked(random, table, record);
    begin(random, table, tenant, Lists::of_one(record, writes))
}

/// A Finish of a Free entry of whose records one, or all, are held by others too,
/// or by none.
fn finish(random: &mut Random, table: &Table, shared: bool) -> Option<Call> {
    let several = |record: &u8| {
        let (reading, writing) = holders(table, *record);
        reading + writing > 1
    };
    let wanted = |entry: &&Entry| {
        let request = &entry.request;
        let mut records = request.reads.iter().chain(&request.writes);
        entry.state == State::Free && records.any(|record| several(record) == shared)
    };
    let found = table.queue.iter().filter(wanted);
    let found: Vec<_> = found.map(|entry| (entry.tenant, entry.serial)).collect();
    let (tenant, serial) = random.any_of(&found)?;
    Some(Call::Plain(Event::Finish { tenant, serial }))
}

fn one_of_several(random: &mut Random, table: &mut Table) -> Option<Call> {
    finish(random, table, true)
}

fn last_holder(random: &mut Random, table: &mut Table) -> Option<Call> {
    finish(random, table, false)
}
