//! Damaged files: a good file after an accident, or no event file at all.

use crate::load::{mixed, remote, scarce};
use crate::random::Random;
use crate::refusals::refusals;
use second::reader::{read_record, tag, HEAD_BYTES};

pub fn damaged(random: &mut Random) -> Vec<u8> {
    let kind: fn(&mut Random) -> Vec<u8> = random.one_of(&[mixed, remote, scarce, refusals]);
    let mut file = kind(random);
    match random.below(9) {
        0 => file.truncate(random.between(0, file.len())),
        1 => flip_bytes(random, &mut file),
        2 => change_tag(random, &mut file),
        3 => change_length(random, &mut file),
        4 => drop_bytes(random, &mut file),
        5 => insert_bytes(random, &mut file),
        6 => random_records(random, &mut file),
        7 => random_end(random, &mut file),
        _ => {
            let count = random.between(0, 200);
            file = random.bytes(count);
        }
    }
    file
}

/// Where the records of a good file start.
fn record_starts(file: &[u8]) -> Vec<usize> {
    let mut starts = Vec::new();
    let mut rest = file;
    while let Ok((_, after)) = read_record(rest) {
        starts.push(file.len() - rest.len());
        rest = after;
    }
    starts
}

fn flip_bytes(random: &mut Random, file: &mut [u8]) {
    for _ in 0..random.between(1, 8) {
        let at = random.below(file.len());
        file[at] ^= random.byte_between(1, 255);
    }
}

/// A tag that is unknown, or another call's.
fn change_tag(random: &mut Random, file: &mut [u8]) {
    let at = random.one_of(&record_starts(file));
    let drawn = random.byte();
    let tags = [
        0x00,
        0x0A,
        0xFF,
        drawn,
        tag::OPEN,
        tag::PICK,
        tag::BEGIN,
        tag::EVICT,
        tag::CANCEL,
    ];
    file[at] = random.one_of(&tags);
}

fn change_length(random: &mut Random, file: &mut [u8]) {
    let at = random.one_of(&record_starts(file));
    if random.chance(30) {
        file[at + 1] = random.byte();
    } else {
        let by = random.one_of(&[1, 2, 254, 255]);
        file[at + 2] = file[at + 2].wrapping_add(by);
    }
}

fn drop_bytes(random: &mut Random, file: &mut Vec<u8>) {
    let from = random.below(file.len());
    let upto = (from + random.between(1, 20)).min(file.len());
    file.drain(from..upto);
}

fn insert_bytes(random: &mut Random, file: &mut Vec<u8>) {
    let at = random.between(0, file.len());
    let count = random.between(1, 20);
    let bytes = random.bytes(count);
    file.splice(at..at, bytes);
}

/// From some record on: known tags, bodies of random bytes, lengths that
/// mostly suit.
fn random_records(random: &mut Random, file: &mut Vec<u8>) {
    let starts = record_starts(file);
    if let Some(at) = random.any_of(&starts[1..]) {
        file.truncate(at);
    }
    for _ in 0..random.between(1, 40) {
        let tag = random.one_of(&tag::ALL[1..]);
        let mut length = match tag {
            tag::GRANT => 5,
            tag::BEGIN => random.between(3, 12),
            tag::SCAN => 1,
            tag::PICK => 0,
            _ => 3,
        };
        if random.chance(4) {
            length = random.between(0, 6);
        }
        file.extend_from_slice(&[tag, 0, length as u8]);
        let body = file.len();
        file.extend(random.bytes(length));
        suit_body(random, tag, &mut file[body..]);
    }
}

/// A random body would nearly always name no tenant, or too many reads.
fn suit_body(random: &mut Random, tag: u8, body: &mut [u8]) {
    if let Some(tenant) = body.first_mut() {
        *tenant %= 18;
    }
    if tag == tag::BEGIN && body.len() >= HEAD_BYTES {
        body[1] %= 18;
        body[2] = random.between(0, body.len() - 3) as u8;
        let r = usize::from(body[2]);
        body[3..3 + r].sort_unstable();
        body[3 + r..].sort_unstable();
    } else if tag != tag::GRANT && body.len() == 3 {
        body[1] = 0;
        body[2] %= 8;
    }
}

fn random_end(random: &mut Random, file: &mut Vec<u8>) {
    let at = random.one_of(&record_starts(file));
    file.truncate(at);
    let count = random.between(1, 60);
    file.extend(random.bytes(count));
}
