//! Overlaps: requests that read what they write, all of it or some, in order or
//! not, among requests that do not. Tanks are filled to the price of the reduced
//! lists, or one unit short of it, so that a record that is counted twice shows
//! by the fuel. The queue is worked off by every call, so that one that is stored
//! twice shows by a state or by a price.

use crate::aim::tenants_with_a_place;
use crate::random::Random;
use crate::scenes::scan_price;
use crate::sheet::{Lists, Name, Sheet};
use second::table::TENANTS;
use second::{price, State};

/// What the lists of a Begin are like.
#[derive(Clone, Copy, PartialEq, Eq)]
enum Shape {
    /// What is written is read too, and nothing else is.
    Whole,
    /// A part of what is written is read too. Both lists rise as given.
    Part,
    /// The reads do not rise as given, but those that are not written do.
    Unordered,
    /// The reads that are not written do not rise either: refusal 4.
    Falling,
    /// More than 8 reads, but without the written ones at most 8: refusal 3.
    TooMany,
    /// No record is in both lists.
    Apart,
    /// Nothing is written.
    Reading,
}

const SHAPES: [Shape; 7] = [
    Shape::Whole,
    Shape::Part,
    Shape::Unordered,
    Shape::Falling,
    Shape::TooMany,
    Shape::Apart,
    Shape::Reading,
];

/// Of each of the 16 tenants.
const SHARE: u8 = 4;
const MOST_READS: usize = 8;

pub fn overlap(random: &mut Random) -> Vec<u8> {
    let mut sheet = Sheet::open([SHARE; TENANTS]);
    let first = random.byte_between(0, 247);
    let hot: Vec<u8> = (first..first + random.byte_between(4, 8)).collect();
    for _ in 0..random.between(2, 3) {
        begin_each(random, &mut sheet, &hot);
        begin_each(random, &mut sheet, &hot);
        scan_to_promote(random, &mut sheet);
        recheck_to_promote(random, &mut sheet);
    }
    if random.chance(70) {
        // Then every counter is 0, and nothing blocks what is begun first.
        while !sheet.table.queue.is_empty() {
            sheet.front_leaves(random);
        }
        begin(random, &mut sheet, &hot, Shape::Whole);
        begin(random, &mut sheet, &hot, Shape::Unordered);
    }
    sheet.into_bytes()
}

/// Requests of every shape, and calls on the queue in between.
fn begin_each(random: &mut Random, sheet: &mut Sheet, hot: &[u8]) {
    let mut shapes = SHAPES;
    random.shuffle(&mut shapes);
    for shape in shapes {
        begin(random, sheet, hot, shape);
        for _ in 0..random.between(0, 2) {
            work(random, sheet);
        }
    }
}

/// A request of a tenant with a place, at the price of its reduced lists.
fn begin(random: &mut Random, sheet: &mut Sheet, hot: &[u8], shape: Shape) {
    let tenant = match random.any_of(&tenants_with_a_place(&sheet.table)) {
        Some(tenant) => tenant,
        None => return,
    };
    let lists = lists(random, hot, shape);
    let awaited = random.one_of(&[0, 0, 0, 1, 2]);
    at_the_price(random, sheet, tenant, price::begin(lists.n()), |sheet| {
        sheet.begin(tenant, awaited, &lists);
    });
}

/// Makes a call on a tank that has its price, or a unit more. At times it is
/// made one unit short of that first. A tank that holds more stays as it is.
fn at_the_price(
    random: &mut Random,
    sheet: &mut Sheet,
    tenant: u8,
    price: u32,
    call: impl Fn(&mut Sheet),
) {
    if random.chance(30) {
        sheet.fuel_up(tenant, price - 1);
        call(sheet);
    }
    sheet.fuel_up(tenant, price + random.one_of(&[0, 0, 0, 1]));
    call(sheet);
}

fn lists(random: &mut Random, hot: &[u8], shape: Shape) -> Lists {
    let mut lists = apart(random, hot);
    match shape {
        Shape::Whole => lists.reads = lists.writes.clone(),
        Shape::Part => read_a_part(random, &mut lists),
        Shape::Unordered => lists = unordered(random, &lists),
        Shape::Falling => falling(random, &mut lists),
        Shape::TooMany => {
            if random.chance(30) {
                lists = Lists::drawn(random, &all_records(), MOST_READS, 3);
            }
            let count = random.one_of(&[9, 9, 9, 10, 16]);
            lists.read_written(random, count);
        }
        Shape::Apart => {}
        Shape::Reading => {
            let reads = random.between(1, 3);
            lists = Lists::drawn(random, hot, reads, 0);
        }
    }
    lists
}

fn all_records() -> Vec<u8> {
    (0..=255).collect()
}

/// Up to 3 reads and at least one write, with no record in common: mostly hot
/// ones, and now and then any.
fn apart(random: &mut Random, hot: &[u8]) -> Lists {
    let reads = random.between(0, 3);
    if random.chance(10) {
        let writes = random.between(1, 8);
        return Lists::drawn(random, &all_records(), reads, writes);
    }
    let writes = random.one_of(&[1, 2, 2, 3]);
    Lists::drawn(random, hot, reads, writes)
}

/// Written records are read too, each in its place: not all of them, but where
/// there is only one.
fn read_a_part(random: &mut Random, lists: &mut Lists) {
    let mut written = lists.writes.clone();
    random.shuffle(&mut written);
    let most = (written.len() - 1).clamp(1, MOST_READS - lists.reads.len());
    written.truncate(random.between(1, most));
    lists.reads.extend(written);
    lists.sort();
}

/// Written records stand among the reads, so that these do not rise.
fn unordered(random: &mut Random, lists: &Lists) -> Lists {
    loop {
        let mut mixed = lists.clone();
        let count = random.between(lists.reads.len() + 1, MOST_READS);
        mixed.read_written(random, count);
        if mixed.reads.windows(2).any(|pair| pair[0] >= pair[1]) {
            return mixed;
        }
    }
}

/// A read that is not written comes twice, and written records stand among the
/// reads.
fn falling(random: &mut Random, lists: &mut Lists) {
    if lists.reads.is_empty() {
        *lists = Lists::drawn(random, &all_records(), 1, 3);
    }
    lists.reads.push(random.one_of(&lists.reads));
    let count = random.between(lists.reads.len() + 1, MOST_READS);
    lists.read_written(random, count);
}

/// A call on the queue: an entry leaves, is promoted, or gets an answer.
pub(crate) fn work(random: &mut Random, sheet: &mut Sheet) {
    match random.below(8) {
        0 | 1 => {
            if let Some(name) = random.any_of(&sheet.names_in(State::Free)) {
                sheet.finish(name);
            }
        }
        2 => {
            if let Some(name) = random.any_of(&sheet.names_in(State::Blocked)) {
                recheck(random, sheet, name);
            }
        }
        3 | 4 => {
            if let Some((tenant, _)) = random.any_of(&sheet.names_in(State::Blocked)) {
                scan(random, sheet, tenant);
            }
        }
        5 | 6 => {
            sheet.pick();
        }
        _ => {
            if let Some(name) = random.any_of(&sheet.names(|entry| entry.due > 0)) {
                sheet.deliver(name);
            }
        }
    }
}

fn recheck(random: &mut Random, sheet: &mut Sheet, name: Name) {
    let at = sheet.place(name);
    let n = at.map_or(0, |at| sheet.table.queue[at].request.n());
    at_the_price(random, sheet, name.0, price::recheck(n), |sheet| {
        sheet.recheck(name);
    });
}

fn scan(random: &mut Random, sheet: &mut Sheet, tenant: u8) {
    let price = scan_price(&sheet.table, tenant);
    at_the_price(random, sheet, tenant, price, |sheet| {
        sheet.scan(tenant);
    });
}

/// A Blocked entry that none behind conflicts with: those ahead leave until none
/// of them does either, and a Recheck promotes it.
fn recheck_to_promote(random: &mut Random, sheet: &mut Sheet) {
    let queue = &sheet.table.queue;
    let alone = |at: usize| !queue[at + 1..].iter().any(|e| e.conflicts_with(&queue[at]));
    let blocked = (0..queue.len()).filter(|&at| queue[at].state == State::Blocked);
    let found: Vec<usize> = blocked.filter(|&at| alone(at)).collect();
    let mut at = match random.any_of(&found) {
        Some(at) => at,
        None => return,
    };
    let name = (queue[at].tenant, queue[at].serial);
    while in_the_way(sheet, at) {
        sheet.front_leaves(random);
        at -= 1;
    }
    recheck(random, sheet, name);
}

/// The front leaves until the next one is Blocked, and a Scan promotes that; this
/// comes to two of them.
fn scan_to_promote(random: &mut Random, sheet: &mut Sheet) {
    for _ in 0..2 {
        while let Some(front) = sheet.table.queue.first() {
            let tenant = front.tenant;
            if front.state == State::Blocked {
                scan(random, sheet, tenant);
                break;
            }
            sheet.front_leaves(random);
        }
    }
}

/// Whether an entry ahead of that place conflicts with the one there.
fn in_the_way(sheet: &Sheet, at: usize) -> bool {
    let (ahead, rest) = sheet.table.queue.split_at(at);
    ahead.iter().any(|other| rest[0].conflicts_with(other))
}
