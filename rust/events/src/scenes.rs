//! Scenes on a sound state: it is changed a little, and so that it stays sound,
//! and a call is made that must be refused with one number (5 is no longer given),
//! must just succeed where a unit, a place or a serial less would not do, must
//! promote an entry that got answers while it was Blocked, or must take one out.

use crate::aim::{begin_of, near_lists, open, tenants_with_a_place, NO_TENANTS};
use crate::compose::held;
use crate::random::Random;
use crate::sheet::Lists;
use crate::text::Call;
use second::table::{Meter, MOST_FUEL, MOST_SERIALS, TENANTS};
use second::{apply, price, Answer, Entry, Event, State, Table};

/// Gives nothing where the state has no place for the scene.
pub type Scene = fn(&mut Random, &mut Table) -> Option<Call>;

/// The refusal that must come, 0 for none, and what the scene is.
pub const SCENES: [(u8, &str, Scene); 47] = [
    (1, "no such tenant", no_such_tenant),
    (2, "begin on a dry tank", dry_begin),
    (2, "recheck on a dry tank", dry_recheck),
    (2, "scan on a dry tank", dry_scan),
    (2, "finish on a dry tank, not Free", dry_finish),
    (2, "cancel on a dry tank", dry_cancel),
    (3, "too many records", too_many_records),
    (
        3,
        "too many reads, of which most are written",
        too_many_as_given,
    ),
    (4, "not rising", not_rising),
    (
        4,
        "reads that do not rise, with written ones among them",
        not_rising_when_reduced,
    ),
    (6, "awaited above 15", awaited_too_high),
    (7, "the share is held", share_held),
    (8, "all serials given", serials_given),
    (9, "fuel below a begin's price", begin_below_price),
    (
        9,
        "fuel below the price of the reduced lists",
        overlap_below_price,
    ),
    (9, "fuel below a recheck's price", recheck_below_price),
    (9, "a scan cut short", scan_cut_short),
    (10, "finish of no entry", finish_of_none),
    (10, "recheck of no entry", recheck_of_none),
    (10, "deliver to no entry", deliver_to_none),
    (10, "evict of no entry", evict_of_none),
    (10, "cancel of no entry", cancel_of_none),
    (10, "cancel of another's entry", cancel_of_anothers),
    (11, "finish of an entry not Free", finish_not_free),
    (11, "recheck of an entry not Blocked", recheck_not_blocked),
    (11, "cancel of an entry not Blocked", cancel_not_blocked),
    (12, "deliver with none due", none_due),
    (13, "a grant too big", grant_too_big),
    (14, "shares too high or not 16", bad_shares),
    (0, "begin at its price", begin_at_price),
    (0, "a record in both lists, at its price", overlap_at_price),
    (0, "begin with the last serial", last_serial),
    (0, "recheck at its price", recheck_at_price),
    (0, "scan at its price", scan_at_price),
    (0, "finish on a dry tank", free_on_dry),
    (0, "deliver of any answer", deliver_any),
    (0, "grant to the brim", grant_to_the_brim),
    (0, "pick of a Blocked front", pick_blocked),
    (0, "begin in the last place", last_place),
    (0, "recheck with answers in", recheck_answered),
    (0, "scan with answers in", scan_answered),
    (0, "pick with answers in", pick_answered),
    (0, "evict of a Free entry", evict_free),
    (0, "evict of a Waiting entry", evict_waiting),
    (0, "evict of a Blocked entry", evict_blocked),
    (0, "evict on a dry tank", evict_on_dry),
    (0, "cancel at its price", cancel_at_price),
];

pub(crate) fn meter(table: &mut Table, tenant: u8) -> &mut Meter {
    &mut table.meters[usize::from(tenant) - 1]
}

fn any_tenant(random: &mut Random) -> u8 {
    random.byte_between(1, TENANTS as u8)
}

/// A tenant that has fuel, which it is given if need be.
fn fuelled(random: &mut Random, table: &mut Table) -> u8 {
    let tenant = any_tenant(random);
    let meter = meter(table, tenant);
    meter.fuel = meter.fuel.max(random.one_of(&[1, 1, 5, 100]));
    tenant
}

/// The name of an entry that `wanted` holds for, whose tenant has fuel.
fn entry(
    random: &mut Random,
    table: &mut Table,
    wanted: impl Fn(&Entry) -> bool,
) -> Option<(u8, u16)> {
    let queue = table.queue.iter().filter(|entry| wanted(entry));
    let found: Vec<_> = queue.map(|entry| (entry.tenant, entry.serial)).collect();
    let (tenant, serial) = random.any_of(&found)?;
    let meter = meter(table, tenant);
    meter.fuel = meter.fuel.max(random.one_of(&[1, 1, 50]));
    Some((tenant, serial))
}

/// A tenant with a place left. A full queue loses its last entry, and where
/// shares are held a tenant's share grows.
fn with_a_place(random: &mut Random, table: &mut Table) -> u8 {
    if table.queue.len() == 64 {
        table.queue.pop();
    }
    if let Some(tenant) = random.any_of(&tenants_with_a_place(table)) {
        return tenant;
    }
    let tenant = any_tenant(random);
    meter(table, tenant).share += 1;
    tenant
}

fn no_such_tenant(random: &mut Random, table: &mut Table) -> Option<Call> {
    let tenant = random.one_of(&NO_TENANTS);
    let serial = random.one_of(&[0, 1, 2, u16::MAX]);
    Some(match random.below(8) {
        0 => begin_of(tenant, 0, near_lists(random, table)),
        1 => Call::Plain(Event::Finish { tenant, serial }),
        2 => Call::Plain(Event::Recheck { tenant, serial }),
        3 => Call::Plain(Event::Scan { tenant }),
        4 => Call::Plain(Event::Deliver { tenant, serial }),
        5 => Call::Plain(Event::Evict { tenant, serial }),
        6 => Call::Plain(Event::Cancel { tenant, serial }),
        _ => Call::Plain(Event::Grant { tenant, amount: 7 }),
    })
}

fn dry_begin(random: &mut Random, table: &mut Table) -> Option<Call> {
    let tenant = any_tenant(random);
    meter(table, tenant).fuel = 0;
    let mut lists = near_lists(random, table);
    if random.chance(30) {
        crate::aim::spoil(random, &mut lists);
    }
    Some(begin_of(tenant, random.one_of(&[0, 3, 99]), lists))
}

fn dry_recheck(random: &mut Random, table: &mut Table) -> Option<Call> {
    let tenant = any_tenant(random);
    let (tenant, serial) = entry(random, table, |_| true).unwrap_or((tenant, 1));
    meter(table, tenant).fuel = 0;
    Some(Call::Plain(Event::Recheck { tenant, serial }))
}

fn dry_scan(random: &mut Random, table: &mut Table) -> Option<Call> {
    let tenant = any_tenant(random);
    meter(table, tenant).fuel = 0;
    Some(Call::Plain(Event::Scan { tenant }))
}

/// Of an entry that is not Free, or of none.
fn dry_finish(random: &mut Random, table: &mut Table) -> Option<Call> {
    let not_free = entry(random, table, |entry| entry.state != State::Free);
    let (tenant, serial) = not_free.unwrap_or((any_tenant(random), 0));
    meter(table, tenant).fuel = 0;
    Some(Call::Plain(Event::Finish { tenant, serial }))
}

/// Of a Blocked entry, of any other, or of none.
fn dry_cancel(random: &mut Random, table: &mut Table) -> Option<Call> {
    let any = random.chance(30);
    let found = entry(random, table, |entry| any || entry.state == State::Blocked);
    let (tenant, serial) = found.unwrap_or((any_tenant(random), 1));
    meter(table, tenant).fuel = 0;
    Some(Call::Plain(Event::Cancel { tenant, serial }))
}

/// Nine or more in a list; whether they rise comes later.
fn too_many_records(random: &mut Random, table: &mut Table) -> Option<Call> {
    let tenant = fuelled(random, table);
    let mut lists = near_lists(random, table);
    let count = random.one_of(&[9, 9, 16, 17, 255, 300]);
    let many: Vec<u8> = (0..count).map(|record| record as u8).collect();
    if random.chance(50) {
        lists.reads = many;
    } else {
        lists.writes = many;
    }
    Some(begin_of(tenant, random.one_of(&[0, 16]), lists))
}

/// "The limits of 8 apply to the lists as given": without the written ones there
/// are at most 8 reads.
fn too_many_as_given(random: &mut Random, table: &mut Table) -> Option<Call> {
    let tenant = fuelled(random, table);
    let mut lists = near_lists(random, table);
    let count = random.one_of(&[9, 9, 9, 16, 300]);
    lists.read_written(random, count);
    if lists.reads.len() < count {
        return None;
    }
    Some(begin_of(tenant, random.one_of(&[0, 16]), lists))
}

/// Two records that do not rise, of which a read one is not written.
fn not_rising(random: &mut Random, table: &mut Table) -> Option<Call> {
    let tenant = fuelled(random, table);
    let lists = wrong_lists(random, table);
    Some(begin_of(tenant, random.one_of(&[0, 16]), lists))
}

fn wrong_lists(random: &mut Random, table: &Table) -> Lists {
    let mut lists = near_lists(random, table);
    let record = random.byte_between(1, 255);
    let wrong = random.one_of(&[[record, record], [record, record - 1]]);
    if random.chance(50) {
        lists.writes.retain(|written| !wrong.contains(written));
        lists.reads = wrong.to_vec();
    } else {
        lists.writes = wrong.to_vec();
    }
    lists
}

/// The same with written records among the reads, up to 8.
fn not_rising_when_reduced(random: &mut Random, table: &mut Table) -> Option<Call> {
    let tenant = fuelled(random, table);
    let mut lists = wrong_lists(random, table);
    let before = lists.reads.len();
    let count = random.between(before, 8);
    lists.read_written(random, count);
    if lists.reads.len() == before {
        return None;
    }
    Some(begin_of(tenant, random.one_of(&[0, 16]), lists))
}

fn awaited_too_high(random: &mut Random, table: &mut Table) -> Option<Call> {
    let tenant = fuelled(random, table);
    let awaited = random.one_of(&[16, 17, 128, 255]);
    Some(begin_of(tenant, awaited, near_lists(random, table)))
}

fn share_held(random: &mut Random, table: &mut Table) -> Option<Call> {
    let tenant = fuelled(random, table);
    let places = held(table, tenant) as u8;
    let serials = meter(table, tenant).serials;
    meter(table, tenant).share = places;
    meter(table, tenant).serials = random.one_of(&[serials, MOST_SERIALS]);
    Some(begin_of(tenant, 15, near_lists(random, table)))
}

fn serials_given(random: &mut Random, table: &mut Table) -> Option<Call> {
    let tenant = with_a_place(random, table);
    meter(table, tenant).serials = MOST_SERIALS;
    meter(table, tenant).fuel = random.one_of(&[1, 100, MOST_FUEL]);
    Some(begin_of(tenant, 0, near_lists(random, table)))
}

/// A tenant with a place and a serial left.
pub(crate) fn able(random: &mut Random, table: &mut Table) -> Option<u8> {
    let tenant = with_a_place(random, table);
    if meter(table, tenant).serials == MOST_SERIALS {
        return None;
    }
    Some(tenant)
}

/// A begin of such a tenant, and its price.
fn good_begin(random: &mut Random, table: &mut Table) -> Option<(u8, Lists, u32)> {
    let tenant = able(random, table)?;
    let lists = near_lists(random, table);
    let price = price::begin(lists.n());
    Some((tenant, lists, price))
}

fn begin_below_price(random: &mut Random, table: &mut Table) -> Option<Call> {
    let (tenant, lists, price) = good_begin(random, table)?;
    let any = random.between(1, price as usize - 1) as u32;
    meter(table, tenant).fuel = random.one_of(&[price - 1, any, 1]);
    Some(begin_of(tenant, 0, lists))
}

fn begin_at_price(random: &mut Random, table: &mut Table) -> Option<Call> {
    let (tenant, lists, price) = good_begin(random, table)?;
    meter(table, tenant).fuel = price + random.one_of(&[0, 0, 1]);
    Some(begin_of(tenant, random.one_of(&[0, 0, 1, 15]), lists))
}

/// A begin of such a tenant with written records among its reads, and the price
/// of its reduced lists.
fn good_overlap(random: &mut Random, table: &mut Table) -> Option<(u8, Lists, u32)> {
    let (tenant, mut lists, price) = good_begin(random, table)?;
    let before = lists.reads.len();
    let count = random.between(before, 8);
    lists.read_written(random, count);
    if lists.reads.len() == before {
        return None;
    }
    Some((tenant, lists, price))
}

fn overlap_below_price(random: &mut Random, table: &mut Table) -> Option<Call> {
    let (tenant, lists, price) = good_overlap(random, table)?;
    meter(table, tenant).fuel = random.one_of(&[price - 1, price - 1, 1]);
    Some(begin_of(tenant, 0, lists))
}

fn overlap_at_price(random: &mut Random, table: &mut Table) -> Option<Call> {
    let (tenant, lists, price) = good_overlap(random, table)?;
    meter(table, tenant).fuel = price + random.one_of(&[0, 0, 1]);
    Some(begin_of(tenant, random.one_of(&[0, 0, 1, 15]), lists))
}

fn last_serial(random: &mut Random, table: &mut Table) -> Option<Call> {
    let (tenant, lists, price) = good_begin(random, table)?;
    let last = table.queue.iter().rfind(|entry| entry.tenant == tenant);
    if last.map_or(0, |entry| entry.serial) == MOST_SERIALS {
        return None;
    }
    meter(table, tenant).serials = MOST_SERIALS - 1;
    meter(table, tenant).fuel = price;
    Some(begin_of(tenant, random.one_of(&[0, 0, 1, 15]), lists))
}

/// A Blocked entry, and the price of its recheck.
fn blocked(random: &mut Random, table: &mut Table) -> Option<(u8, u16, u32)> {
    let (tenant, serial) = entry(random, table, |entry| entry.state == State::Blocked)?;
    let mut queue = table.queue.iter();
    let found = queue.find(|entry| (entry.tenant, entry.serial) == (tenant, serial))?;
    Some((tenant, serial, price::recheck(found.request.n())))
}

fn recheck_below_price(random: &mut Random, table: &mut Table) -> Option<Call> {
    let (tenant, serial, price) = blocked(random, table)?;
    let any = random.between(1, price as usize - 1) as u32;
    meter(table, tenant).fuel = random.one_of(&[price - 1, any, 1]);
    Some(Call::Plain(Event::Recheck { tenant, serial }))
}

fn recheck_at_price(random: &mut Random, table: &mut Table) -> Option<Call> {
    let (tenant, serial, price) = blocked(random, table)?;
    meter(table, tenant).fuel = price + random.one_of(&[0, 0, 1]);
    Some(Call::Plain(Event::Recheck { tenant, serial }))
}

/// What a tenant's scan burns if it has all the fuel it wants.
pub(crate) fn scan_price(table: &Table, tenant: u8) -> u32 {
    let mut rich = table.clone();
    meter(&mut rich, tenant).fuel = MOST_FUEL;
    rich.scan(tenant).burnt
}

fn scan_cut_short(random: &mut Random, table: &mut Table) -> Option<Call> {
    let tenant = any_tenant(random);
    let price = scan_price(table, tenant);
    if price == price::SCAN {
        return None;
    }
    let any = random.between(1, price as usize - 1) as u32;
    meter(table, tenant).fuel = random.one_of(&[price - 1, any, 1]);
    Some(Call::Plain(Event::Scan { tenant }))
}

fn scan_at_price(random: &mut Random, table: &mut Table) -> Option<Call> {
    let blocked = entry(random, table, |entry| entry.state == State::Blocked);
    let tenant = blocked.map_or(any_tenant(random), |(tenant, _)| tenant);
    let price = scan_price(table, tenant);
    meter(table, tenant).fuel = price + random.one_of(&[0, 0, 1]);
    Some(Call::Plain(Event::Scan { tenant }))
}

/// A serial that no entry of that tenant has, often one that another has.
fn no_entry(random: &mut Random, table: &mut Table) -> Option<(u8, u16)> {
    let tenant = fuelled(random, table);
    let queue = table.queue.iter();
    let others: Vec<u16> = queue.map(|entry| entry.serial).collect();
    let given = meter(table, tenant).serials;
    let other = random.any_of(&others).unwrap_or(1);
    let serial = random.one_of(&[0, 1, other, given, u16::MAX]);
    let mut queue = table.queue.iter();
    if queue.any(|entry| (entry.tenant, entry.serial) == (tenant, serial)) {
        return None;
    }
    Some((tenant, serial))
}

fn finish_of_none(random: &mut Random, table: &mut Table) -> Option<Call> {
    let (tenant, serial) = no_entry(random, table)?;
    Some(Call::Plain(Event::Finish { tenant, serial }))
}

fn recheck_of_none(random: &mut Random, table: &mut Table) -> Option<Call> {
    let (tenant, serial) = no_entry(random, table)?;
    Some(Call::Plain(Event::Recheck { tenant, serial }))
}

fn deliver_to_none(random: &mut Random, table: &mut Table) -> Option<Call> {
    let (tenant, serial) = no_entry(random, table)?;
    Some(Call::Plain(Event::Deliver { tenant, serial }))
}

/// At times on a dry tank, which a host call does not ask about.
fn evict_of_none(random: &mut Random, table: &mut Table) -> Option<Call> {
    let (tenant, serial) = no_entry(random, table)?;
    if random.chance(30) {
        meter(table, tenant).fuel = 0;
    }
    Some(Call::Plain(Event::Evict { tenant, serial }))
}

fn cancel_of_none(random: &mut Random, table: &mut Table) -> Option<Call> {
    let (tenant, serial) = no_entry(random, table)?;
    Some(Call::Plain(Event::Cancel { tenant, serial }))
}

/// The serial of a Blocked entry, by a tenant that has none of that serial.
fn cancel_of_anothers(random: &mut Random, table: &mut Table) -> Option<Call> {
    let (_, serial) = entry(random, table, |entry| entry.state == State::Blocked)?;
    let tenant = fuelled(random, table);
    let mut queue = table.queue.iter();
    if queue.any(|entry| (entry.tenant, entry.serial) == (tenant, serial)) {
        return None;
    }
    Some(Call::Plain(Event::Cancel { tenant, serial }))
}

fn cancel_not_blocked(random: &mut Random, table: &mut Table) -> Option<Call> {
    let (tenant, serial) = entry(random, table, |entry| entry.state != State::Blocked)?;
    Some(Call::Plain(Event::Cancel { tenant, serial }))
}

/// The last unit of the tank, or one of two.
fn cancel_at_price(random: &mut Random, table: &mut Table) -> Option<Call> {
    let (tenant, serial) = entry(random, table, |entry| entry.state == State::Blocked)?;
    meter(table, tenant).fuel = price::CANCEL + random.one_of(&[0, 0, 1]);
    Some(Call::Plain(Event::Cancel { tenant, serial }))
}

fn evict_in(random: &mut Random, table: &mut Table, state: State) -> Option<Call> {
    let (tenant, serial) = entry(random, table, |entry| entry.state == state)?;
    Some(Call::Plain(Event::Evict { tenant, serial }))
}

fn evict_free(random: &mut Random, table: &mut Table) -> Option<Call> {
    evict_in(random, table, State::Free)
}

fn evict_waiting(random: &mut Random, table: &mut Table) -> Option<Call> {
    evict_in(random, table, State::Waiting)
}

fn evict_blocked(random: &mut Random, table: &mut Table) -> Option<Call> {
    evict_in(random, table, State::Blocked)
}

fn evict_on_dry(random: &mut Random, table: &mut Table) -> Option<Call> {
    let (tenant, serial) = entry(random, table, |_| true)?;
    meter(table, tenant).fuel = 0;
    Some(Call::Plain(Event::Evict { tenant, serial }))
}

fn finish_not_free(random: &mut Random, table: &mut Table) -> Option<Call> {
    let (tenant, serial) = entry(random, table, |entry| entry.state != State::Free)?;
    Some(Call::Plain(Event::Finish { tenant, serial }))
}

fn recheck_not_blocked(random: &mut Random, table: &mut Table) -> Option<Call> {
    let (tenant, serial) = entry(random, table, |entry| entry.state != State::Blocked)?;
    Some(Call::Plain(Event::Recheck { tenant, serial }))
}

fn none_due(random: &mut Random, table: &mut Table) -> Option<Call> {
    let (tenant, serial) = entry(random, table, |entry| entry.due == 0)?;
    Some(Call::Plain(Event::Deliver { tenant, serial }))
}

fn deliver_any(random: &mut Random, table: &mut Table) -> Option<Call> {
    let last = random.chance(50);
    let due = |entry: &Entry| entry.due == 1 || entry.due > 1 && !last;
    let (tenant, serial) = entry(random, table, due)?;
    meter(table, tenant).fuel = random.one_of(&[0, 5]);
    Some(Call::Plain(Event::Deliver { tenant, serial }))
}

fn free_on_dry(random: &mut Random, table: &mut Table) -> Option<Call> {
    let (tenant, serial) = entry(random, table, |entry| entry.state == State::Free)?;
    meter(table, tenant).fuel = random.one_of(&[0, 0, 9]);
    Some(Call::Plain(Event::Finish { tenant, serial }))
}

fn grant_too_big(random: &mut Random, table: &mut Table) -> Option<Call> {
    let tenant = any_tenant(random);
    let room = MOST_FUEL - meter(table, tenant).fuel;
    let amount = random.one_of(&[room + 1, room + 1, MOST_FUEL + 1, u32::MAX]);
    Some(Call::Plain(Event::Grant { tenant, amount }))
}

fn grant_to_the_brim(random: &mut Random, table: &mut Table) -> Option<Call> {
    let tenant = any_tenant(random);
    let amount = MOST_FUEL - meter(table, tenant).fuel;
    Some(Call::Plain(Event::Grant { tenant, amount }))
}

fn bad_shares(random: &mut Random, _: &mut Table) -> Option<Call> {
    match open(random) {
        Call::Open { shares } if good(&shares) => None,
        call => Some(call),
    }
}

fn good(shares: &[u8]) -> bool {
    let sum: u32 = shares.iter().map(|&share| u32::from(share)).sum();
    shares.len() == TENANTS && sum <= 64
}

fn pick_blocked(_: &mut Random, table: &mut Table) -> Option<Call> {
    match table.queue.first() {
        Some(front) if front.state == State::Blocked => Some(Call::Plain(Event::Pick)),
        _ => None,
    }
}

/// All 64 places but one are taken.
fn last_place(random: &mut Random, table: &mut Table) -> Option<Call> {
    if table.queue.len() < 63 {
        return None;
    }
    let (tenant, lists, price) = good_begin(random, table)?;
    let meter = meter(table, tenant);
    meter.fuel = meter.fuel.max(price);
    Some(begin_of(tenant, random.one_of(&[0, 1]), lists))
}

/// A call that promotes at its price. All answers of the entry came while it was
/// Blocked, or all but some.
fn answered(random: &mut Random, table: &mut Table, event: Event<'static>) -> Option<Call> {
    let mut after = table.clone();
    for meter in &mut after.meters {
        meter.fuel = MOST_FUEL;
    }
    let outcome = apply(&mut after, event);
    let name = match outcome.answer {
        Answer::Entry { tenant, serial, .. } => (tenant, serial),
        _ => return None,
    };
    meter(table, name.0).fuel = outcome.burnt + random.one_of(&[0, 0, 1]);
    let mut queue = table.queue.iter_mut();
    let entry = queue.find(|entry| (entry.tenant, entry.serial) == name)?;
    let awaited = random.one_of(&[1, 2, 15]);
    let some = random.byte_between(0, awaited - 1);
    entry.request.awaited = awaited;
    entry.due = random.one_of(&[0, some]);
    Some(Call::Plain(event))
}

fn recheck_answered(random: &mut Random, table: &mut Table) -> Option<Call> {
    let (tenant, serial, _) = blocked(random, table)?;
    answered(random, table, Event::Recheck { tenant, serial })
}

fn scan_answered(random: &mut Random, table: &mut Table) -> Option<Call> {
    let (tenant, _, _) = blocked(random, table)?;
    answered(random, table, Event::Scan { tenant })
}

fn pick_answered(random: &mut Random, table: &mut Table) -> Option<Call> {
    answered(random, table, Event::Pick)
}
