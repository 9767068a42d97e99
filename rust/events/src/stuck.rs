//! Stuck requests: a plugin hangs with its locks held and others pile up behind
//! it, until the host takes it out with Evict, or they give up with Cancel (Item
//! 7). Both are made on entries of every state and at every place, on dry tanks
//! and on the last unit, and on names that are not there. What is taken out is
//! named again, and its place serves again.

use crate::aim::{tenants_with_a_place, NO_TENANTS};
use crate::clash::unheld;
use crate::overlap::work;
use crate::random::Random;
use crate::scenes::scan_price;
use crate::sheet::{Lists, Name, Sheet};
use second::table::TENANTS;
use second::{price, State};

/// Gives nothing where no tenant has a place for it.
type Turn = fn(&mut Random, &mut Sheet) -> Option<()>;

const TURNS: [Turn; 6] = [
    hung,
    given_up,
    not_blocked,
    every_place,
    freed_place,
    strangers,
];

/// Of each of the 16 tenants.
const SHARE: u8 = 4;
const PLACES: usize = 64;
/// The most entries that a turn finds, so that most records are nobody's.
const MOST_FOUND: usize = 8;

pub fn stuck(random: &mut Random) -> Vec<u8> {
    let mut sheet = Sheet::open([SHARE; TENANTS]);
    for _ in 0..random.between(1, 2) {
        let mut turns = TURNS;
        random.shuffle(&mut turns);
        for turn in turns {
            let most = random.one_of(&[0, 3, MOST_FOUND]);
            thin_out(random, &mut sheet, most);
            turn(random, &mut sheet);
            for _ in 0..random.between(0, 2) {
                work(random, &mut sheet);
            }
        }
    }
    if random.chance(30) {
        thin_out(random, &mut sheet, 0);
    }
    sheet.into_bytes()
}

/// Entries leave until there are at most so many: any of them by the host, or
/// the front of its own.
fn thin_out(random: &mut Random, sheet: &mut Sheet, most: usize) {
    for _ in 0..PLACES {
        let names = sheet.names(|_| true);
        if names.len() <= most {
            return;
        }
        if random.chance(50) {
            sheet.front_leaves(random);
        } else {
            sheet.evict(random.one_of(&names));
        }
    }
}

/// A plugin holds its records and is never heard of again, or waits for answers
/// that do not come. One of those behind it searches in vain. The host takes it
/// out, and their searches find them, one after the other.
fn hung(random: &mut Random, sheet: &mut Sheet) -> Option<()> {
    let held = some_records(random, sheet);
    let awaited = random.one_of(&[0, 0, 1, 2]);
    let hung = begin(random, sheet, awaited, &held)?;
    let mut crowd = pile_up(random, sheet, &held)?;
    scan(sheet, random.one_of(&crowd).0);
    sheet.evict(hung);
    if random.chance(50) {
        name_again(random, sheet, hung);
    }
    if random.chance(30) {
        random.shuffle(&mut crowd);
    }
    for name in crowd {
        scan(sheet, name.0);
        if random.chance(20) {
            // Promoted, it has come too far for that.
            cancel(random, sheet, name);
        }
        if random.chance(60) {
            sheet.deliver_down_to(name, 0);
            sheet.finish(name);
        }
    }
    Some(())
}

/// Those behind a holder give up, and who is left searches. The holder may have
/// left before: a Blocked entry is Blocked until it is promoted.
fn given_up(random: &mut Random, sheet: &mut Sheet) -> Option<()> {
    let held = some_records(random, sheet);
    let holder = begin(random, sheet, 0, &held)?;
    let mut crowd = pile_up(random, sheet, &held)?;
    if random.chance(50) {
        sheet.deliver(random.one_of(&crowd));
    }
    match random.below(4) {
        0 => sheet.finish(holder),
        1 => sheet.evict(holder),
        _ => sheet.pick(),
    };
    random.shuffle(&mut crowd);
    let last = crowd.pop()?;
    for name in crowd {
        cancel(random, sheet, name);
        if random.chance(50) {
            name_again(random, sheet, name);
        }
    }
    scan(sheet, last.0);
    Some(())
}

/// A Cancel of what is Free or Waiting: then its tenant finishes it, or the host
/// takes it out.
fn not_blocked(random: &mut Random, sheet: &mut Sheet) -> Option<()> {
    for awaited in [0, 2] {
        let lists = some_records(random, sheet);
        let name = begin(random, sheet, awaited, &lists)?;
        cancel(random, sheet, name);
        if random.chance(50) {
            sheet.evict(name);
        } else {
            sheet.deliver_down_to(name, 0);
            sheet.finish(name);
        }
    }
    Some(())
}

/// Of a queue on few records the front, the last and one in between are taken
/// out, in any order.
fn every_place(random: &mut Random, sheet: &mut Sheet) -> Option<()> {
    let mut hot = unheld(sheet);
    random.shuffle(&mut hot);
    hot.truncate(random.between(2, 6));
    for _ in 0..random.between(4, 7) {
        let reads = random.between(0, 1);
        let lists = Lists::drawn(random, &hot, reads, 1);
        let awaited = random.one_of(&[0, 0, 1, 2]);
        begin(random, sheet, awaited, &lists)?;
    }
    let mut places = [0, 1, 2];
    random.shuffle(&mut places);
    for place in places {
        let names = sheet.names(|_| true);
        let at = match place {
            0 => 0,
            1 => names.len() / 2,
            _ => names.len().saturating_sub(1),
        };
        let name = *names.get(at)?;
        sheet.evict(name);
        if random.chance(30) {
            name_again(random, sheet, name);
        }
    }
    Some(())
}

/// A tenant holds as many places as its share, and is refused one more. One of
/// its requests is taken out, and the next one is admitted.
fn freed_place(random: &mut Random, sheet: &mut Sheet) -> Option<()> {
    let tenant = random.any_of(&tenants_with_a_place(&sheet.table))?;
    let lists = some_records(random, sheet);
    for _ in 0..=SHARE {
        begin_of(sheet, tenant, 0, &lists);
    }
    let own = sheet.names(|entry| entry.tenant == tenant);
    let blocked = sheet.names(|entry| entry.tenant == tenant && entry.state == State::Blocked);
    match random.any_of(&blocked) {
        Some(name) if random.chance(50) => cancel(random, sheet, name),
        _ => {
            sheet.evict(random.any_of(&own)?);
        }
    }
    begin_of(sheet, tenant, random.one_of(&[0, 1]), &lists);
    Some(())
}

/// Names that are not there: of no tenant, of serials that were never given, and
/// the serial of another's entry.
fn strangers(random: &mut Random, sheet: &mut Sheet) -> Option<()> {
    for tenant in NO_TENANTS {
        let serial = random.one_of(&[0, 1]);
        match random.below(2) {
            0 => sheet.evict((tenant, serial)),
            _ => sheet.cancel((tenant, serial)),
        };
    }
    let tenant = random.byte_between(1, TENANTS as u8);
    let next = sheet.table.meters[usize::from(tenant) - 1].serials + 1;
    for serial in [0, next, u16::MAX] {
        sheet.evict((tenant, serial));
        cancel(random, sheet, (tenant, serial));
    }
    let held = some_records(random, sheet);
    begin(random, sheet, 0, &held)?;
    let (_, serial) = begin(random, sheet, 0, &held)?;
    let others = (1..=TENANTS as u8).filter(|&other| sheet.place((other, serial)).is_none());
    let other = random.any_of(&others.collect::<Vec<u8>>())?;
    sheet.evict((other, serial));
    cancel(random, sheet, (other, serial));
    Some(())
}

/// A few records that no entry has, of which at least one is written.
fn some_records(random: &mut Random, sheet: &Sheet) -> Lists {
    let (reads, writes) = (random.between(0, 2), random.between(1, 3));
    Lists::drawn(random, &unheld(sheet), reads, writes)
}

/// Requests that clash with one of these records, beside a record that nobody
/// has. The first of them conflicts with nobody else.
fn pile_up(random: &mut Random, sheet: &mut Sheet, held: &Lists) -> Option<Vec<Name>> {
    let mut crowd = Vec::new();
    for _ in 0..random.between(2, 4) {
        let reads = held.reads.iter().map(|&record| (record, true));
        let writes = held
            .writes
            .iter()
            .map(|&record| (record, random.chance(50)));
        let clashes: Vec<(u8, bool)> = reads.chain(writes).collect();
        let (record, writes) = random.one_of(&clashes);
        let mut lists = Lists::of_one(record, writes);
        let other = random.one_of(&unheld(sheet));
        lists.add(other, random.chance(50));
        let awaited = random.one_of(&[0, 0, 0, 1, 2]);
        crowd.push(begin(random, sheet, awaited, &lists)?);
    }
    Some(crowd)
}

/// A request of a tenant with a place. What is granted is what it lacks of the
/// price, so that most tanks are dry afterwards.
fn begin(random: &mut Random, sheet: &mut Sheet, awaited: u8, lists: &Lists) -> Option<Name> {
    let tenant = random.any_of(&tenants_with_a_place(&sheet.table))?;
    begin_of(sheet, tenant, awaited, lists);
    let serial = sheet.table.meters[usize::from(tenant) - 1].serials;
    Some((tenant, serial))
}

fn begin_of(sheet: &mut Sheet, tenant: u8, awaited: u8, lists: &Lists) {
    sheet.fuel_up(tenant, price::begin(lists.n()));
    sheet.begin(tenant, awaited, lists);
}

/// A Scan that has the fuel to finish, and no more if it had less.
fn scan(sheet: &mut Sheet, tenant: u8) {
    let price = scan_price(&sheet.table, tenant);
    sheet.fuel_up(tenant, price);
    sheet.scan(tenant);
}

/// A Cancel with a unit in the tank, mostly the last one. At times it is made
/// before that, which is on a dry tank, mostly.
fn cancel(random: &mut Random, sheet: &mut Sheet, name: Name) {
    if random.chance(30) {
        sheet.cancel(name);
    }
    sheet.fuel_up(name.0, random.one_of(&[1, 1, 1, 6]));
    sheet.cancel(name);
}

/// Calls on a name that has left: 10, or 2 on a dry tank.
fn name_again(random: &mut Random, sheet: &mut Sheet, name: Name) {
    for _ in 0..random.between(1, 3) {
        if random.chance(70) {
            sheet.fuel_up(name.0, 1);
        }
        match random.below(5) {
            0 => sheet.finish(name),
            1 => sheet.recheck(name),
            2 => sheet.deliver(name),
            3 => sheet.evict(name),
            _ => sheet.cancel(name),
        };
    }
}
