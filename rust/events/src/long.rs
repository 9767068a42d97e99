//! Long files, each as near to 65,536 bytes as its records allow: what the
//! programs are measured on.

use crate::random::Random;
use crate::sheet::{Lists, Name, Sheet};
use crate::worst::{hot, scattered, Shape};
use second::reader::{HEAD_BYTES, MOST_BYTES};
use second::table::{MOST_FUEL, TENANTS};
use second::State;

type Make = fn(&mut Random) -> Vec<u8>;

pub const LONG: [(&str, Make); 4] = [
    ("long-scans", scans),
    ("long-queues", queues),
    ("long-picks", picks),
    ("long-hot", hot_scans),
];

/// The long file of that name and a seed, or nothing for another name.
pub fn long(name: &str, seed: u64) -> Option<Vec<u8>> {
    let found = LONG.iter().find(|(known, _)| *known == name);
    found.map(|(_, make)| make(&mut Random::new(seed)))
}

const PICK_BYTES: usize = HEAD_BYTES;
const SCAN_BYTES: usize = HEAD_BYTES + 1;

/// Scans over requests for any 16 records of all.
fn scans(random: &mut Random) -> Vec<u8> {
    scans_over(random, scattered)
}

/// Scans over requests that all write record 0: a program that compares pair
/// by pair is done with each at the first pair.
fn hot_scans(random: &mut Random) -> Vec<u8> {
    scans_over(random, hot)
}

/// Scans over 64 entries of 16 records, all of the scanning tenant. None is
/// promoted, so each scan burns 1,089.
fn scans_over(random: &mut Random, shape: Shape) -> Vec<u8> {
    let mut shares = [0; TENANTS];
    shares[0] = 64;
    let mut sheet = Sheet::open(shares);
    sheet.grant(1, MOST_FUEL);
    for place in 0..64 {
        let lists = shape(random, place);
        sheet.begin(1, 0, &lists);
    }
    while sheet.len() + SCAN_BYTES <= MOST_BYTES {
        sheet.scan(1);
    }
    sheet.into_bytes()
}

/// A full queue of 16 tenants on few records, at work: entries are promoted
/// and leave, and a place that gets free is taken at once.
fn queues(random: &mut Random) -> Vec<u8> {
    let mut sheet = Sheet::open([4; TENANTS]);
    for tenant in 1..=16 {
        sheet.grant(tenant, MOST_FUEL);
    }
    while sheet.len() + TURN_BYTES <= MOST_BYTES {
        if sheet.table.queue.len() == 64 {
            work(random, &mut sheet);
        }
        take_a_place(random, &mut sheet);
    }
    sheet.into_bytes()
}

/// The most bytes of a turn: a Pick, a Scan, a Recheck and a Finish, and a
/// Begin with three reads and three writes.
const TURN_BYTES: usize = 5 * HEAD_BYTES + 1 + 3 + 3 + 9;

fn work(random: &mut Random, sheet: &mut Sheet) {
    sheet.pick();
    if let Some((tenant, _)) = any(random, sheet, State::Blocked) {
        sheet.scan(tenant);
    }
    if let Some(name) = any(random, sheet, State::Blocked) {
        sheet.recheck(name);
    }
    if let Some(name) = any(random, sheet, State::Free) {
        sheet.finish(name);
    }
}

fn any(random: &mut Random, sheet: &Sheet, state: State) -> Option<Name> {
    random.any_of(&sheet.names_in(state))
}

fn take_a_place(random: &mut Random, sheet: &mut Sheet) {
    let tenants: Vec<u8> = (1..=16).filter(|&tenant| sheet.has_place(tenant)).collect();
    let records: Vec<u8> = (0..24).collect();
    let (reads, writes) = (random.between(0, 3), random.between(1, 3));
    let lists = Lists::drawn(random, &records, reads, writes);
    if let Some(tenant) = random.any_of(&tenants) {
        sheet.begin(tenant, 0, &lists);
    }
}

/// The smallest records there are, Picks, after the Open that must come first.
fn picks(_random: &mut Random) -> Vec<u8> {
    let mut sheet = Sheet::open([4; TENANTS]);
    while sheet.len() + PICK_BYTES <= MOST_BYTES {
        sheet.pick();
    }
    sheet.into_bytes()
}
