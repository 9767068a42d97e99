//! The worst case: 64 entries of 16 records each, where a scan that promotes
//! nothing costs 1 + 64 x 17 = 1,089.

use crate::random::Random;
use crate::sheet::{Lists, Shares, Sheet};
use second::table::TENANTS;
use second::State;

/// Tenants without places in every layout below. What they are granted is
/// spent on scans alone, to the unit.
const BARE_TENANTS: [u8; 2] = [15, 16];
const FULL_SCAN: u32 = 1_089;

pub fn worst(random: &mut Random) -> Vec<u8> {
    let shares = layout(random);
    let mut sheet = Sheet::open(shares);
    for tenant in owners(&shares) {
        sheet.grant(tenant, random.between(20_000, 1_000_000) as u32);
    }
    let shape = random.one_of::<Shape>(&[hot, chained, scattered]);
    fill(random, &mut sheet, shape);
    for tenant in BARE_TENANTS {
        scan_to_the_unit(random, &mut sheet, tenant);
    }
    for _ in 0..random.between(2, 10) {
        work_off(random, &mut sheet);
        fill(random, &mut sheet, shape);
        scan_owner(random, &mut sheet);
    }
    sheet.into_bytes()
}

/// All 64 places, dealt to one tenant, to two, or to fourteen.
fn layout(random: &mut Random) -> Shares {
    let mut shares = [0; TENANTS];
    match random.below(3) {
        0 => shares[random.below(14)] = 64,
        1 => {
            let share = random.byte_between(1, 63);
            shares[random.below(7)] = share;
            shares[7 + random.below(7)] = 64 - share;
        }
        _ => {
            shares[..14].fill(4);
            shares[random.below(14)] += 8;
        }
    }
    shares
}

fn owners(shares: &Shares) -> Vec<u8> {
    (1..=TENANTS as u8)
        .filter(|&tenant| shares[usize::from(tenant) - 1] > 0)
        .collect()
}

/// Lists of 8 reads and 8 writes for the request at some place of the queue.
pub type Shape = fn(&mut Random, usize) -> Lists;

/// All write record 0, so that each conflicts with each.
pub fn hot(random: &mut Random, _place: usize) -> Lists {
    let pool: Vec<u8> = (1..=255).collect();
    let mut lists = Lists::drawn(random, &pool, 8, 7);
    lists.writes.push(0);
    lists.sort();
    lists
}

/// Each reads what the one before it wrote. The writes come round again after
/// 32 requests.
fn chained(_random: &mut Random, place: usize) -> Lists {
    let block = |place: usize| -> Vec<u8> {
        let first = place % 32 * 8;
        (first..first + 8).map(|record| record as u8).collect()
    };
    Lists {
        reads: block(place + 31),
        writes: block(place),
    }
}

pub fn scattered(random: &mut Random, _place: usize) -> Lists {
    let pool: Vec<u8> = (0..=255).collect();
    Lists::drawn(random, &pool, 8, 8)
}

/// Begins until all 64 places are held. There is fuel to spare, so every
/// begin is admitted.
fn fill(random: &mut Random, sheet: &mut Sheet, shape: Shape) {
    let tenants: Vec<u8> = (1..=14).collect();
    while sheet.table.queue.len() < 64 {
        let place = sheet.table.queue.len();
        let with_place: Vec<u8> = tenants
            .iter()
            .copied()
            .filter(|&tenant| sheet.has_place(tenant))
            .collect();
        let tenant = random.one_of(&with_place);
        let awaited = random.one_of(&[0, 0, 0, 1]);
        let lists = shape(random, place);
        sheet.begin(tenant, awaited, &lists);
    }
}

/// A scan over the full queue on exactly its price, then one on less.
fn scan_to_the_unit(random: &mut Random, sheet: &mut Sheet, tenant: u8) {
    sheet.grant(tenant, FULL_SCAN);
    sheet.scan(tenant);
    let short = random.between(1, 100) as u32;
    sheet.grant(tenant, FULL_SCAN - short);
    sheet.scan(tenant);
}

fn scan_owner(random: &mut Random, sheet: &mut Sheet) {
    let blocked = sheet.names_in(State::Blocked);
    if let Some((tenant, serial)) = random.any_of(&blocked) {
        sheet.scan(tenant);
        sheet.recheck((tenant, serial));
    }
}

/// Lets a few entries leave, and promotes by pick and scan in between.
fn work_off(random: &mut Random, sheet: &mut Sheet) {
    for _ in 0..random.between(1, 6) {
        sheet.pick();
        for name in sheet.names_in(State::Waiting) {
            sheet.deliver(name);
        }
        if let Some(name) = random.any_of(&sheet.names_in(State::Free)) {
            sheet.finish(name);
        }
        scan_owner(random, sheet);
    }
}
