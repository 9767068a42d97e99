//! Ways to break one clause of a sound block, with everything else right: the
//! counters are counted again where a list changes, and what then conflicts is
//! made Blocked. The places of the bytes are worked out here by hand.

use crate::compose::{held, settle, PLACES};
use crate::random::Random;
use second::table::{MOST_FUEL, TENANTS};
use second::{block, Entry, State, Table};

/// Where the heads of the five fields stand: after 0, 3 + 16, 3 + 96, 3 + 256
/// and 3 + 256 bytes.
const HEADS: [usize; 5] = [0, 19, 118, 377, 636];
const CX: usize = 118 + 3;
const CS: usize = 377 + 3;
const COUNT: usize = 636 + 3;
const FIRST_ENTRY: usize = COUNT + 1;
const ENTRY: usize = 24;
const STATE: usize = 3;
const READS: usize = 6;
const WRITES: usize = 7;
const RECORDS: usize = 8;

/// Changes a sound state to a block that breaks one clause, or gives nothing
/// where the state has no place for it.
pub type Break = fn(&mut Random, &mut Table) -> Option<Vec<u8>>;

/// The clause's number in `second::block::CLAUSES`, what is wrong, and how.
pub const BREAKS: [(usize, &str, Break); 41] = [
    (1, "a byte of a head", head),
    (1, "a head's tag written in decimal", decimal_tag),
    (1, "an unused byte", unused),
    (1, "the byte behind an entry's records", behind_the_records),
    (1, "a count one too low", count_too_low),
    (2, "shares of 65", shares_of_65),
    (2, "shares far too high", shares_too_high),
    (3, "too much fuel", fuel),
    (3, "awaited above 15", awaited),
    (3, "a count above 64", count),
    (3, "a count of 65 on a full queue", count_of_65),
    (4, "more due than awaited", due),
    (5, "no such tenant", tenant),
    (5, "a count with an empty entry", count_too_high),
    (5, "a tenant above its share", above_share),
    (6, "serial 0", serial_0),
    (6, "a serial twice", serial_twice),
    (6, "a serial that falls", serial_falls),
    (6, "a serial never given", serial_never_given),
    (7, "no such state", state),
    (8, "Free with answers due", free_with_due),
    (8, "Waiting and nothing due", waiting_for_nothing),
    (8, "Blocked without records", blocked_on_nothing),
    (9, "nine reads", nine_reads),
    (9, "nine writes", nine_writes),
    (9, "a number of reads past the entry", reads_past_the_entry),
    (
        9,
        "a number of writes past the entry",
        writes_past_the_entry,
    ),
    (9, "reads that fall", reads_fall),
    (9, "writes that fall", writes_fall),
    (9, "a read twice", read_twice),
    (9, "a written record twice", write_twice),
    (9, "a record in both lists", in_both_lists),
    (10, "a counter off by one", counter_off_by_one),
    (10, "any other counter", counter),
    (10, "Cx and Cs changed about", counters_changed_about),
    (10, "no counters", no_counters),
    (11, "Free in conflict", free_in_conflict),
    (11, "a reader behind a writer", reader_behind_a_writer),
    (11, "a writer behind a reader", writer_behind_a_reader),
    (11, "a writer behind a writer", writer_behind_a_writer),
    (11, "Waiting in conflict", waiting_in_conflict),
];

/// An entry of the queue that `wanted` holds for: often the first or the last.
fn entry(random: &mut Random, table: &Table, wanted: impl Fn(&Entry) -> bool) -> Option<usize> {
    let queue = table.queue.iter().enumerate();
    let found: Vec<usize> = queue
        .filter(|(_, entry)| wanted(entry))
        .map(|(at, _)| at)
        .collect();
    outermost(random, &found)
}

/// The first or the last in one draw of four each, else any.
fn outermost(random: &mut Random, from: &[usize]) -> Option<usize> {
    match random.below(4) {
        0 => from.first().copied(),
        1 => from.last().copied(),
        _ => random.any_of(from),
    }
}

/// Where a tenant's meter stands: often that of 1 or of 16.
fn any_seat(random: &mut Random) -> usize {
    let any = random.below(TENANTS);
    random.one_of(&[0, TENANTS - 1, any, any])
}

fn any_entry(random: &mut Random, table: &Table) -> Option<usize> {
    entry(random, table, |_| true)
}

fn n(entry: &Entry) -> usize {
    entry.request.n() as usize
}

/// Another byte than that one: near it, far from it, or any.
pub fn another(random: &mut Random, byte: u8) -> u8 {
    let other = match random.below(6) {
        0 => byte.wrapping_add(1),
        1 => byte.wrapping_sub(1),
        2 => byte ^ (1 << random.below(8)),
        3 => random.one_of(&[0, 255]),
        _ => random.byte(),
    };
    if other == byte {
        byte ^ 1
    } else {
        other
    }
}

/// The block of a state with one byte changed to any other.
fn changed(random: &mut Random, table: &Table, at: usize) -> Option<Vec<u8>> {
    let mut block = block::write(table);
    block[at] = another(random, block[at]);
    Some(block)
}

fn head(random: &mut Random, table: &mut Table) -> Option<Vec<u8>> {
    let at = random.one_of(&HEADS) + random.below(3);
    changed(random, table, at)
}

/// Tags are hexadecimal: 11 is 17, not 11.
fn decimal_tag(random: &mut Random, table: &mut Table) -> Option<Vec<u8>> {
    let mut block = block::write(table);
    let field = random.below(HEADS.len());
    block[HEADS[field]] = 11 + field as u8;
    Some(block)
}

fn unused(random: &mut Random, table: &mut Table) -> Option<Vec<u8>> {
    let at = random.any_of(&unused_bytes(table))?;
    changed(random, table, at)
}

/// The first unused byte of an entry in the queue.
fn behind_the_records(random: &mut Random, table: &mut Table) -> Option<Vec<u8>> {
    let at = entry(random, table, |entry| n(entry) < 16)?;
    let first = RECORDS + n(&table.queue[at]);
    changed(random, table, FIRST_ENTRY + at * ENTRY + first)
}

/// Where the unused bytes of a state's block are.
pub fn unused_bytes(table: &Table) -> Vec<usize> {
    let mut places = Vec::new();
    for at in 0..PLACES {
        let start = FIRST_ENTRY + at * ENTRY;
        let first = table.queue.get(at).map_or(0, |entry| RECORDS + n(entry));
        places.extend(start + first..start + ENTRY);
    }
    places
}

fn count_too_low(_: &mut Random, table: &mut Table) -> Option<Vec<u8>> {
    let mut block = block::write(table);
    block[COUNT] = block[COUNT].checked_sub(1)?;
    Some(block)
}

fn share_sum(table: &Table) -> usize {
    let shares = table.meters.iter().map(|meter| usize::from(meter.share));
    shares.sum()
}

fn shares_of_65(random: &mut Random, table: &mut Table) -> Option<Vec<u8>> {
    let more = 65 - share_sum(table);
    table.meters[any_seat(random)].share += more as u8;
    Some(block::write(table))
}

/// Some of them have a sum of at most 64 in eight bits.
fn shares_too_high(random: &mut Random, table: &mut Table) -> Option<Vec<u8>> {
    let meter = &mut table.meters[any_seat(random)];
    meter.share = random.byte_between(65, 255).max(meter.share);
    Some(block::write(table))
}

fn fuel(random: &mut Random, table: &mut Table) -> Option<Vec<u8>> {
    let any = random.between(MOST_FUEL as usize + 1, u32::MAX as usize) as u32;
    let fuel = random.one_of(&[MOST_FUEL + 1, u32::MAX, 0x8000_0000, any]);
    table.meters[any_seat(random)].fuel = fuel;
    Some(block::write(table))
}

fn awaited(random: &mut Random, table: &mut Table) -> Option<Vec<u8>> {
    let at = any_entry(random, table)?;
    let any = random.byte_between(16, 255);
    table.queue[at].request.awaited = random.one_of(&[16, 16, any, 255]);
    Some(block::write(table))
}

/// On a full queue nothing else is wrong; on another, the entries behind the
/// last are counted in.
fn count(random: &mut Random, table: &mut Table) -> Option<Vec<u8>> {
    let mut block = block::write(table);
    let any = random.byte_between(65, 255);
    block[COUNT] = random.one_of(&[65, any, 128, 255]);
    Some(block)
}

fn count_of_65(_: &mut Random, table: &mut Table) -> Option<Vec<u8>> {
    if table.queue.len() < PLACES {
        return None;
    }
    let mut block = block::write(table);
    block[COUNT] = 65;
    Some(block)
}

fn due(random: &mut Random, table: &mut Table) -> Option<Vec<u8>> {
    let at = entry(random, table, |entry| entry.state != State::Free)?;
    let awaited = table.queue[at].request.awaited;
    let any = random.byte_between(awaited + 1, 255);
    table.queue[at].due = random.one_of(&[awaited + 1, any, 255]);
    Some(block::write(table))
}

fn tenant(random: &mut Random, table: &mut Table) -> Option<Vec<u8>> {
    let at = any_entry(random, table)?;
    let any = random.byte_between(17, 255);
    table.queue[at].tenant = random.one_of(&[0, 17, any, 255]);
    Some(block::write(table))
}

/// The entry behind the last is all zero, so it is of tenant 0.
fn count_too_high(_: &mut Random, table: &mut Table) -> Option<Vec<u8>> {
    if table.queue.len() == PLACES {
        return None;
    }
    let mut block = block::write(table);
    block[COUNT] += 1;
    Some(block)
}

fn above_share(random: &mut Random, table: &mut Table) -> Option<Vec<u8>> {
    let holding = |seat: &usize| held(table, *seat as u8 + 1) > 0;
    let holding: Vec<usize> = (0..TENANTS).filter(holding).collect();
    let seat = outermost(random, &holding)?;
    let places = held(table, seat as u8 + 1);
    let any = random.below(places);
    table.meters[seat].share = random.one_of(&[any, places - 1]) as u8;
    Some(block::write(table))
}

/// The first entry of its tenant.
fn serial_0(random: &mut Random, table: &mut Table) -> Option<Vec<u8>> {
    let tenant = table.queue[any_entry(random, table)?].tenant;
    let first = table.queue.iter_mut().find(|entry| entry.tenant == tenant);
    first?.serial = 0;
    Some(block::write(table))
}

/// Two neighbours among the entries of one tenant.
fn neighbours(random: &mut Random, table: &Table) -> Option<(usize, usize)> {
    let later = entry(random, table, |entry| held(table, entry.tenant) > 1)?;
    let tenant = table.queue[later].tenant;
    let own = table.queue.iter().enumerate();
    let own: Vec<usize> = own
        .filter(|(_, entry)| entry.tenant == tenant)
        .map(|(at, _)| at)
        .collect();
    let first = random.below(own.len() - 1);
    Some((own[first], own[first + 1]))
}

fn serial_twice(random: &mut Random, table: &mut Table) -> Option<Vec<u8>> {
    let (one, next) = neighbours(random, table)?;
    table.queue[next].serial = table.queue[one].serial;
    Some(block::write(table))
}

fn serial_falls(random: &mut Random, table: &mut Table) -> Option<Vec<u8>> {
    let (one, next) = neighbours(random, table)?;
    let serial = table.queue[one].serial;
    table.queue[one].serial = table.queue[next].serial;
    table.queue[next].serial = serial;
    Some(block::write(table))
}

/// One more than those given, or those given are made fewer.
fn serial_never_given(random: &mut Random, table: &mut Table) -> Option<Vec<u8>> {
    let tenant = table.queue[any_entry(random, table)?].tenant;
    let meter = &mut table.meters[usize::from(tenant) - 1];
    let mut own = table.queue.iter_mut();
    let last = own.rfind(|entry| entry.tenant == tenant)?;
    if meter.serials < u16::MAX && random.chance(50) {
        last.serial = meter.serials + 1;
    } else {
        meter.serials = last.serial - 1;
    }
    Some(block::write(table))
}

fn state(random: &mut Random, table: &mut Table) -> Option<Vec<u8>> {
    let at = any_entry(random, table)?;
    let mut block = block::write(table);
    let any = random.byte_between(3, 255);
    block[FIRST_ENTRY + at * ENTRY + STATE] = random.one_of(&[3, any, 255]);
    Some(block)
}

fn free_with_due(random: &mut Random, table: &mut Table) -> Option<Vec<u8>> {
    let at = entry(random, table, |entry| entry.state == State::Free)?;
    let entry = &mut table.queue[at];
    entry.request.awaited = entry.request.awaited.max(random.byte_between(1, 15));
    entry.due = random.byte_between(1, entry.request.awaited);
    Some(block::write(table))
}

/// Be it that no answer was awaited or that all have come.
fn waiting_for_nothing(random: &mut Random, table: &mut Table) -> Option<Vec<u8>> {
    let at = entry(random, table, |entry| entry.state != State::Blocked)?;
    let entry = &mut table.queue[at];
    entry.state = State::Waiting;
    entry.request.awaited = random.one_of(&[0, 1, 2, 15]);
    entry.due = 0;
    Some(block::write(table))
}

/// An entry loses its records; nothing conflicts that did not before.
fn blocked_on_nothing(random: &mut Random, table: &mut Table) -> Option<Vec<u8>> {
    let at = any_entry(random, table)?;
    let entry = &mut table.queue[at];
    entry.state = State::Blocked;
    entry.request.reads.clear();
    entry.request.writes.clear();
    Some(block::write(table))
}

/// Nine to sixteen rising records, no more than the entry has bytes for.
fn too_many(random: &mut Random) -> Vec<u8> {
    let count = random.one_of(&[9, 9, 10, 16]);
    let first = random.byte_between(0, 255 - count);
    (first..first + count).collect()
}

fn nine_reads(random: &mut Random, table: &mut Table) -> Option<Vec<u8>> {
    let at = any_entry(random, table)?;
    table.queue[at].request.reads = too_many(random);
    table.queue[at].request.writes.clear();
    settle(table);
    Some(block::write(table))
}

fn nine_writes(random: &mut Random, table: &mut Table) -> Option<Vec<u8>> {
    let at = any_entry(random, table)?;
    table.queue[at].request.writes = too_many(random);
    table.queue[at].request.reads.clear();
    settle(table);
    Some(block::write(table))
}

fn reads_past_the_entry(random: &mut Random, table: &mut Table) -> Option<Vec<u8>> {
    past_the_entry(random, table, READS)
}

fn writes_past_the_entry(random: &mut Random, table: &mut Table) -> Option<Vec<u8>> {
    past_the_entry(random, table, WRITES)
}

/// More records than a list may have, often more than an entry has bytes for.
/// The last entry of the queue, behind which the block may end, or any.
fn past_the_entry(random: &mut Random, table: &mut Table, number: usize) -> Option<Vec<u8>> {
    let any = any_entry(random, table)?;
    let at = random.one_of(&[any, table.queue.len() - 1]);
    let mut block = block::write(table);
    let few = random.byte_between(9, 17);
    block[FIRST_ENTRY + at * ENTRY + number] = random.one_of(&[few, 17, 24, 128, 248, 255]);
    Some(block)
}

/// Two neighbours of a list change places.
fn fall(random: &mut Random, list: &mut [u8]) {
    let first = random.below(list.len() - 1);
    list.swap(first, first + 1);
}

fn reads_fall(random: &mut Random, table: &mut Table) -> Option<Vec<u8>> {
    let at = entry(random, table, |entry| entry.request.reads.len() > 1)?;
    fall(random, &mut table.queue[at].request.reads);
    Some(block::write(table))
}

fn writes_fall(random: &mut Random, table: &mut Table) -> Option<Vec<u8>> {
    let at = entry(random, table, |entry| entry.request.writes.len() > 1)?;
    fall(random, &mut table.queue[at].request.writes);
    Some(block::write(table))
}

/// A record of the list takes the place of its neighbour.
fn twice(random: &mut Random, list: &mut [u8]) {
    let first = random.below(list.len() - 1);
    list[first + 1] = list[first];
}

fn read_twice(random: &mut Random, table: &mut Table) -> Option<Vec<u8>> {
    let at = entry(random, table, |entry| entry.request.reads.len() > 1)?;
    twice(random, &mut table.queue[at].request.reads);
    Some(block::write(table))
}

fn write_twice(random: &mut Random, table: &mut Table) -> Option<Vec<u8>> {
    let at = entry(random, table, |entry| entry.request.writes.len() > 1)?;
    twice(random, &mut table.queue[at].request.writes);
    Some(block::write(table))
}

/// A written record is read too.
fn in_both_lists(random: &mut Random, table: &mut Table) -> Option<Vec<u8>> {
    let both = |entry: &Entry| !entry.request.writes.is_empty() && entry.request.reads.len() < 8;
    let at = entry(random, table, both)?;
    let request = &mut table.queue[at].request;
    let record = random.one_of(&request.writes);
    request.reads.push(record);
    request.reads.sort_unstable();
    settle(table);
    Some(block::write(table))
}

fn counter_off_by_one(random: &mut Random, table: &mut Table) -> Option<Vec<u8>> {
    let mut block = block::write(table);
    let list = random.one_of(&[CX, CS]);
    // Rather one of the counters above 0.
    let raised: Vec<usize> = (list..list + 256).filter(|&at| block[at] > 0).collect();
    let any = list + random.below(256);
    let at = random.any_of(&raised).unwrap_or(any);
    let at = random.one_of(&[at, at, any]);
    block[at] = if block[at] > 0 && random.chance(50) {
        block[at] - 1
    } else {
        block[at] + 1
    };
    Some(block)
}

fn counter(random: &mut Random, table: &mut Table) -> Option<Vec<u8>> {
    let list = random.one_of(&[CX, CS]);
    let last = list + 255;
    let any = list + random.below(256);
    let at = random.one_of(&[list, last, any, any]);
    changed(random, table, at)
}

fn counters_changed_about(_: &mut Random, table: &mut Table) -> Option<Vec<u8>> {
    let mut block = block::write(table);
    let (cx, cs) = (block[CX..CX + 256].to_vec(), block[CS..CS + 256].to_vec());
    if cx == cs {
        return None;
    }
    block[CX..CX + 256].copy_from_slice(&cs);
    block[CS..CS + 256].copy_from_slice(&cx);
    Some(block)
}

fn no_counters(_: &mut Random, table: &mut Table) -> Option<Vec<u8>> {
    if table.queue.iter().all(|entry| n(entry) == 0) {
        return None;
    }
    let mut block = block::write(table);
    block[CX..CX + 256].fill(0);
    block[CS..CS + 256].fill(0);
    Some(block)
}

/// An entry that conflicts with some ahead of it, and with none but such that
/// `so` holds for the two.
fn in_conflict(
    random: &mut Random,
    table: &Table,
    so: fn(&Entry, &Entry) -> bool,
) -> Option<usize> {
    let mut found = Vec::new();
    for (at, entry) in table.queue.iter().enumerate() {
        let ahead = table.queue[..at].iter();
        let mut clashes = ahead.filter(|other| entry.conflicts_with(other)).peekable();
        if clashes.peek().is_some() && clashes.all(|other| so(entry, other)) {
            found.push(at);
        }
    }
    outermost(random, &found)
}

fn freed(table: &mut Table, at: usize) -> Option<Vec<u8>> {
    table.queue[at].state = State::Free;
    table.queue[at].due = 0;
    Some(block::write(table))
}

fn free_in_conflict(random: &mut Random, table: &mut Table) -> Option<Vec<u8>> {
    let at = in_conflict(random, table, |_, _| true)?;
    freed(table, at)
}

/// It writes nothing itself.
fn reader_behind_a_writer(random: &mut Random, table: &mut Table) -> Option<Vec<u8>> {
    let at = in_conflict(random, table, |entry, _| entry.request.writes.is_empty())?;
    freed(table, at)
}

/// What is ahead of it writes nothing.
fn writer_behind_a_reader(random: &mut Random, table: &mut Table) -> Option<Vec<u8>> {
    let at = in_conflict(random, table, |_, ahead| ahead.request.writes.is_empty())?;
    freed(table, at)
}

/// Neither reads anything.
fn writer_behind_a_writer(random: &mut Random, table: &mut Table) -> Option<Vec<u8>> {
    let only_write = |entry: &Entry, ahead: &Entry| {
        entry.request.reads.is_empty() && ahead.request.reads.is_empty()
    };
    let at = in_conflict(random, table, only_write)?;
    freed(table, at)
}

fn waiting_in_conflict(random: &mut Random, table: &mut Table) -> Option<Vec<u8>> {
    let at = in_conflict(random, table, |_, _| true)?;
    let entry = &mut table.queue[at];
    entry.state = State::Waiting;
    entry.request.awaited = entry.request.awaited.max(1);
    entry.due = entry.due.max(1);
    Some(block::write(table))
}
