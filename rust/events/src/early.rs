//! Early answers: they come while their entry is Blocked, all of them or all but
//! some, and then it is promoted, by each call that can promote it. It is
//! finished after that, or gets the rest first. Fuel is granted as it is needed,
//! so that most entries leave on a dry tank.

use crate::aim::tenants_with_a_place;
use crate::random::Random;
use crate::sheet::{Lists, Name, Sheet};
use second::table::TENANTS;
use second::{price, Entry, State};

#[derive(Clone, Copy, PartialEq, Eq)]
enum By {
    Recheck,
    Scan,
    Pick,
}

/// Which answers have come when the entry is promoted.
#[derive(Clone, Copy, PartialEq, Eq)]
enum Came {
    All,
    Some,
}

const TURNS: [(By, Came); 6] = [
    (By::Recheck, Came::All),
    (By::Recheck, Came::Some),
    (By::Scan, Came::All),
    (By::Scan, Came::Some),
    (By::Pick, Came::All),
    (By::Pick, Came::Some),
];

/// Of each of the 16 tenants.
const SHARE: u8 = 4;
const PLACES: usize = 64;

pub fn early(random: &mut Random) -> Vec<u8> {
    let mut sheet = Sheet::open([SHARE; TENANTS]);
    let first = random.byte_between(0, 252);
    let hot: Vec<u8> = (first..=first + random.byte_between(0, 3)).collect();
    for _ in 0..random.between(1, 3) {
        let mut turns = TURNS;
        random.shuffle(&mut turns);
        for (by, came) in turns {
            turn(random, &mut sheet, &hot, by, came);
        }
    }
    sheet.into_bytes()
}

/// A crowd on few records; answers for one of the Blocked; its promotion.
fn turn(random: &mut Random, sheet: &mut Sheet, hot: &[u8], by: By, came: Came) {
    for _ in 0..random.between(1, 5) {
        begin(random, sheet, hot);
    }
    let (name, due) = match held_up(random, sheet, hot, by, came) {
        Some(found) => found,
        None => return,
    };
    let left = match came {
        Came::All => 0,
        Came::Some => random.byte_between(1, due - 1),
    };
    sheet.deliver_down_to(name, left);
    if came == Came::All && random.chance(30) {
        sheet.deliver(name);
    }
    if random.chance(30) {
        sheet.finish(name);
    }
    clear_the_way(random, sheet, name, by);
    promote(sheet, name, by);
    bring_out(random, sheet, name);
}

/// A request of a tenant with a place, which is granted what it lacks of the
/// price, and at times a little more.
fn begin(random: &mut Random, sheet: &mut Sheet, hot: &[u8]) {
    let tenant = match random.any_of(&tenants_with_a_place(&sheet.table)) {
        Some(tenant) => tenant,
        None => return,
    };
    let (reads, writes) = (random.between(0, 1), random.between(1, 2));
    let lists = Lists::drawn(random, hot, reads, writes);
    let price = price::begin(lists.n()) + random.one_of(&[0, 0, 1, 5]);
    sheet.fuel_up(tenant, price);
    let awaited = random.one_of(&[0, 1, 1, 2, 2, 3, 3, 4, 15]);
    sheet.begin(tenant, awaited, &lists);
}

/// A Blocked entry with answers due, and how many. There are more begins until
/// there is one.
fn held_up(
    random: &mut Random,
    sheet: &mut Sheet,
    hot: &[u8],
    by: By,
    came: Came,
) -> Option<(Name, u8)> {
    for _ in 0..20 {
        let found = random.any_of(&candidates(sheet, by, came));
        if found.is_some() {
            return found;
        }
        begin(random, sheet, hot);
    }
    None
}

/// A Recheck minds the entries behind too, and those do not leave before it.
fn candidates(sheet: &Sheet, by: By, came: Came) -> Vec<(Name, u8)> {
    let queue = &sheet.table.queue;
    let least = if came == Came::All { 1 } else { 2 };
    let mut found = Vec::new();
    for (at, entry) in queue.iter().enumerate() {
        let mut behind = queue[at + 1..].iter();
        let hindered = by == By::Recheck && behind.any(|other| entry.conflicts_with(other));
        if entry.state == State::Blocked && entry.due >= least && !hindered {
            found.push(((entry.tenant, entry.serial), entry.due));
        }
    }
    found
}

/// Entries leave from the front until the call can promote this one.
fn clear_the_way(random: &mut Random, sheet: &mut Sheet, name: Name, by: By) {
    for _ in 0..PLACES {
        match sheet.place(name) {
            Some(at) if in_the_way(&sheet.table.queue, at, by) => sheet.front_leaves(random),
            _ => return,
        }
    }
}

/// A Pick takes the front alone; the others mind the conflicts ahead.
fn in_the_way(queue: &[Entry], at: usize, by: By) -> bool {
    let mut ahead = queue[..at].iter();
    ahead.any(|other| by == By::Pick || queue[at].conflicts_with(other))
}

/// A Scan may take entries of the same tenant first, one each.
fn promote(sheet: &mut Sheet, name: Name, by: By) {
    for _ in 0..SHARE {
        let at = match sheet.place(name) {
            Some(at) if sheet.table.queue[at].state == State::Blocked => at,
            _ => return,
        };
        let price = price_of(&sheet.table.queue, at, by);
        sheet.fuel_up(name.0, price);
        match by {
            By::Recheck => sheet.recheck(name),
            By::Scan => sheet.scan(name.0),
            By::Pick => sheet.pick(),
        };
    }
}

/// What the call burns if it promotes the entry at that place.
fn price_of(queue: &[Entry], at: usize, by: By) -> u32 {
    let n = |entry: &Entry| entry.request.n();
    match by {
        By::Recheck => price::recheck(n(&queue[at])),
        By::Scan => {
            let looks = queue[..=at].iter().map(|entry| price::look(n(entry)));
            price::SCAN + looks.sum::<u32>()
        }
        By::Pick => 0,
    }
}

/// Calls that may come too soon or too late; then it leaves, but for now and
/// then, when it stays for others to wait behind.
fn bring_out(random: &mut Random, sheet: &mut Sheet, name: Name) {
    for _ in 0..random.between(0, 2) {
        if random.chance(50) {
            sheet.fuel_up(name.0, 1);
        }
        match random.below(3) {
            0 => sheet.finish(name),
            1 => sheet.recheck(name),
            _ => sheet.deliver(name),
        };
    }
    if random.chance(85) {
        sheet.deliver_down_to(name, 0);
        sheet.finish(name);
    }
}
