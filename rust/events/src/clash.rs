//! Clashes: a Blocked Begin reports the lowest record that it clashed on. Here it
//! clashes at the borders of 64 records, on the highest of many, on several at
//! once, on what one of several holders has left, and on what a Blocked entry
//! has. Lower records that do not clash stand beside.

use crate::aim::tenants_with_a_place;
use crate::overlap::work;
use crate::random::Random;
use crate::sheet::{Lists, Name, Sheet};
use second::price;
use second::table::TENANTS;

type Turn = fn(&mut Random, &mut Sheet);

const TURNS: [Turn; 6] = [
    beside_others,
    highest_of_many,
    lowest_of_several,
    one_holder_leaves,
    behind_a_blocked,
    none_holds_it,
];

/// The first and the last record, and those beside the borders of 64.
pub const BORDERS: [u8; 8] = [0, 63, 64, 127, 128, 191, 192, 255];

/// The ways to clash on a record: whether the holder writes it, and whether the
/// request does. The second comes twice, so that as many read it as write it.
const WAYS: [(bool, bool); 4] = [(true, true), (true, false), (true, false), (false, true)];

/// Of each of the 16 tenants.
const SHARE: u8 = 4;
const MOST_READS: usize = 8;
/// The most entries that a turn finds, so that most records are nobody's.
const MOST_FOUND: usize = 6;

pub fn clash(random: &mut Random) -> Vec<u8> {
    let mut sheet = Sheet::open([SHARE; TENANTS]);
    for _ in 0..random.between(1, 2) {
        let mut turns = TURNS;
        random.shuffle(&mut turns);
        for turn in turns {
            while sheet.table.queue.len() > MOST_FOUND {
                sheet.front_leaves(random);
            }
            turn(random, &mut sheet);
            for _ in 0..random.between(0, 2) {
                work(random, &mut sheet);
            }
        }
    }
    sheet.into_bytes()
}

/// A clash on one record, beside some that nobody has.
fn beside_others(random: &mut Random, sheet: &mut Sheet) {
    let record = border(random, sheet);
    let (held, asked) = random.one_of(&WAYS);
    hold(random, sheet, &Lists::of_one(record, held));
    let mut lists = quiet(random, sheet, 3);
    lists.add(record, asked);
    ask(random, sheet, lists);
}

/// Of up to 15 records only the highest clashes. Some of the lower ones are read
/// by another too.
fn highest_of_many(random: &mut Random, sheet: &mut Sheet) {
    let mut free = unheld(sheet);
    let high = free.split_off(free.len() - 10);
    let record = random.one_of(&high);
    let (held, asked) = random.one_of(&WAYS);
    hold(random, sheet, &Lists::of_one(record, held));
    let mut lists = Lists::drawn(random, &free, 7, 7);
    let shared = random.between(1, lists.reads.len());
    hold(random, sheet, &Lists::reading(&lists.reads[..shared]));
    lists.add(record, asked);
    ask(random, sheet, lists);
}

/// Several records clash, each held by an entry of its own, in any order.
fn lowest_of_several(random: &mut Random, sheet: &mut Sheet) {
    let mut free = unheld(sheet);
    random.shuffle(&mut free);
    let mut lists = quiet(random, sheet, 1);
    free.retain(|record| !lists.has(*record));
    for &record in &free[..random.between(2, 6)] {
        let (held, asked) = random.one_of(&WAYS);
        hold(random, sheet, &Lists::of_one(record, held));
        lists.add(record, asked);
    }
    ask(random, sheet, lists);
}

/// Two or three read a record and one of them leaves: it is held still. Then the
/// others leave too, and the request that came for it is what holds it.
fn one_holder_leaves(random: &mut Random, sheet: &mut Sheet) {
    let record = border(random, sheet);
    let mut holders = Vec::new();
    for _ in 0..random.between(2, 3) {
        let mut lists = quiet(random, sheet, 1);
        lists.add(record, false);
        holders.push(hold(random, sheet, &lists));
    }
    random.shuffle(&mut holders);
    for (left, holder) in holders.into_iter().enumerate() {
        sheet.finish(holder);
        if left == 0 {
            ask(random, sheet, Lists::of_one(record, true));
        }
    }
    let writes = random.chance(50);
    ask(random, sheet, Lists::of_one(record, writes));
}

/// A Blocked entry has a record that no other has. It gets an answer, and the one
/// that it waits for may have left, when another clashes with it alone.
fn behind_a_blocked(random: &mut Random, sheet: &mut Sheet) {
    let mut free = unheld(sheet);
    random.shuffle(&mut free);
    let (first, second) = (free[0], free[1]);
    let running = hold(random, sheet, &Lists::of_one(first, true));
    let mut lists = Lists::of_one(first, true);
    lists.add(second, true);
    let blocked = begin(random, sheet, 2, &lists);
    sheet.deliver(blocked);
    if random.chance(50) {
        sheet.finish(running);
    }
    let writes = random.chance(50);
    ask(random, sheet, Lists::of_one(second, writes));
}

/// A record that its one holder has let go blocks nobody.
fn none_holds_it(random: &mut Random, sheet: &mut Sheet) {
    let record = border(random, sheet);
    let writes = random.chance(50);
    let holder = hold(random, sheet, &Lists::of_one(record, writes));
    sheet.finish(holder);
    ask(random, sheet, Lists::of_one(record, true));
}

/// The records that no entry has, rising.
pub(crate) fn unheld(sheet: &Sheet) -> Vec<u8> {
    let held = |record: &u8| {
        let mut queue = sheet.table.queue.iter().map(|entry| &entry.request);
        queue.any(|request| request.reads.contains(record) || request.writes.contains(record))
    };
    (0..=u8::MAX).filter(|record| !held(record)).collect()
}

/// A record that no entry has, at a border more often than not.
fn border(random: &mut Random, sheet: &Sheet) -> u8 {
    let free = unheld(sheet);
    let mut borders = BORDERS.to_vec();
    borders.retain(|record| free.contains(record));
    match random.any_of(&borders) {
        Some(record) if random.chance(75) => record,
        _ => random.one_of(&free),
    }
}

/// Up to so many reads and writes that no entry has. They are not at the borders,
/// where the clashes are.
fn quiet(random: &mut Random, sheet: &Sheet, most: usize) -> Lists {
    let mut free = unheld(sheet);
    free.retain(|record| !BORDERS.contains(record));
    let (reads, writes) = (random.between(0, most), random.between(0, most));
    Lists::drawn(random, &free, reads, writes)
}

/// A request that awaits nothing, and so is Free where it does not clash.
fn hold(random: &mut Random, sheet: &mut Sheet, lists: &Lists) -> Name {
    begin(random, sheet, 0, lists)
}

/// A request that is expected to clash. At times it reads what it writes.
fn ask(random: &mut Random, sheet: &mut Sheet, mut lists: Lists) {
    if random.chance(30) {
        let count = random.between(lists.reads.len(), MOST_READS);
        lists.read_written(random, count);
    }
    let awaited = random.one_of(&[0, 0, 0, 1, 2]);
    begin(random, sheet, awaited, &lists);
}

/// A request of a tenant with a place, at its price.
fn begin(random: &mut Random, sheet: &mut Sheet, awaited: u8, lists: &Lists) -> Name {
    let tenant = random.one_of(&tenants_with_a_place(&sheet.table));
    sheet.fuel_up(tenant, price::begin(lists.n()));
    sheet.begin(tenant, awaited, lists);
    let serial = sheet.table.meters[usize::from(tenant) - 1].serials;
    (tenant, serial)
}
