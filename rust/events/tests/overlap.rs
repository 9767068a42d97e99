//! The kind `overlap`: in most of its files each thing that it aims at happens.

mod common;

use common::{files, files_with, walk, Step};
use events::kinds::Kind;
use second::{Answer, Event, State};
use std::collections::{BTreeMap, BTreeSet};

const SEEDS: u64 = 96;

/// The lists of a Begin as given.
fn given<'a>(step: &Step<'a>) -> Option<(&'a [u8], &'a [u8])> {
    match step.event {
        Event::Begin { reads, writes, .. } => Some((reads, writes)),
        _ => None,
    }
}

/// How many of the reads are not written.
fn only_read(reads: &[u8], writes: &[u8]) -> usize {
    let only_read = reads.iter().filter(|record| !writes.contains(record));
    only_read.count()
}

/// What is true of a Begin with these reads and writes, which met that refusal.
type Aim = fn(&[u8], &[u8], Option<u8>) -> bool;

const AIMS: [(&str, Aim); 9] = [
    ("the same list twice", |reads, writes, refusal| {
        refusal.is_none() && !reads.is_empty() && reads == writes
    }),
    ("a part of the writes is read", |reads, writes, refusal| {
        let read = reads.len() - only_read(reads, writes);
        let rises = reads.windows(2).all(|pair| pair[0] < pair[1]);
        refusal.is_none() && rises && 0 < read && read < writes.len()
    }),
    ("reads beside the written ones", |reads, writes, refusal| {
        let kept = only_read(reads, writes);
        refusal.is_none() && 0 < kept && kept < reads.len()
    }),
    ("lists apart", |reads, writes, refusal| {
        let kept = only_read(reads, writes);
        refusal.is_none() && !writes.is_empty() && kept > 0 && kept == reads.len()
    }),
    ("reads that fall as given", |reads, _, refusal| {
        refusal.is_none() && reads.windows(2).any(|pair| pair[0] > pair[1])
    }),
    ("a read twice", |reads, _, refusal| {
        refusal.is_none() && reads.windows(2).any(|pair| pair[0] == pair[1])
    }),
    ("reads that fall all the same", |reads, writes, refusal| {
        refusal == Some(4) && only_read(reads, writes) < reads.len()
    }),
    ("more than 8 reads as given", |reads, writes, refusal| {
        refusal == Some(3) && only_read(reads, writes) < 8
    }),
    (
        "9 reads or more, 8 when reduced",
        |reads, writes, refusal| refusal == Some(3) && only_read(reads, writes) == 8,
    ),
];

#[test]
fn lists_have_every_shape() {
    for (what, aim) in AIMS {
        let with = files_with(Kind::Overlap, SEEDS, |step| {
            let begun = given(step);
            begun.map_or(false, |(reads, writes)| aim(reads, writes, step.refusal()))
        });
        assert!(with > SEEDS * 3 / 4, "{}: {} files", what, with);
    }
}

/// A tank with the price of the reduced lists, to the unit, or one unit short.
#[test]
fn tanks_are_filled_to_the_reduced_price() {
    for (short, refusal) in [(0, None), (1, Some(9))] {
        let with = files_with(Kind::Overlap, SEEDS, |step| {
            let (reads, writes) = match given(step) {
                Some(given) if step.overlaps() => given,
                _ => return false,
            };
            let price = 2 + 2 * (only_read(reads, writes) + writes.len()) as u32;
            let tenant = step.event.tenant();
            let fuel = tenant.and_then(|tenant| step.before.fuel(tenant));
            fuel == Some(price - short) && step.refusal() == refusal
        });
        assert!(with > SEEDS * 3 / 4, "{} short: {} files", short, with);
    }
}

/// The entries begun so far, by name, with their reads and writes as given.
type Begun = BTreeMap<(u8, u16), (Vec<u8>, Vec<u8>)>;

fn note_begun(step: &Step<'_>, begun: &mut Begun) {
    if let (Answer::Entry { tenant, serial, .. }, Some((reads, writes))) =
        (step.outcome.answer, given(step))
    {
        begun.insert((tenant, serial), (reads.to_vec(), writes.to_vec()));
    }
}

/// In how many files each of the things was noted that `note` gives of a call
/// and of what was begun before it.
fn noted<T: Ord>(note: impl Fn(&Step<'_>, &Begun) -> Vec<T>) -> BTreeMap<T, u64> {
    let mut files_by_thing = BTreeMap::new();
    for file in files(Kind::Overlap, SEEDS) {
        let (mut begun, mut things) = (Begun::new(), BTreeSet::new());
        walk(&file, |step| {
            things.extend(note(step, &begun));
            note_begun(step, &mut begun);
        });
        for thing in things {
            *files_by_thing.entry(thing).or_insert(0) += 1;
        }
    }
    files_by_thing
}

/// How a request has a record: in both lists as given, or in one.
#[derive(Clone, Copy, Debug, PartialEq, Eq, PartialOrd, Ord)]
enum Has {
    Both,
    Written,
    Read,
}

fn has(record: u8, reads: &[u8], writes: &[u8]) -> Option<Has> {
    match (reads.contains(&record), writes.contains(&record)) {
        (true, true) => Some(Has::Both),
        (false, true) => Some(Has::Written),
        (true, false) => Some(Has::Read),
        (false, false) => None,
    }
}

/// For each record that an admitted request has in common with an entry ahead
/// of it, how the one ahead has it and how this one does. It is Blocked exactly
/// if one of the two writes one of them.
fn shared(step: &Step<'_>, begun: &Begun) -> Vec<(Has, Has)> {
    let (reads, writes) = match given(step) {
        Some(given) if step.refusal().is_none() => given,
        _ => return Vec::new(),
    };
    let mut pairs = Vec::new();
    for entry in &step.before.queue {
        let ahead = &begun[&(entry.tenant, entry.serial)];
        for record in 0..=u8::MAX {
            if let (Some(ahead), Some(own)) =
                (has(record, &ahead.0, &ahead.1), has(record, reads, writes))
            {
                pairs.push((ahead, own));
            }
        }
    }
    let conflict = pairs.iter().any(|pair| *pair != (Has::Read, Has::Read));
    let blocked = step.answered_state() == Some(State::Blocked);
    assert_eq!(blocked, conflict);
    pairs
}

#[test]
fn records_are_shared_in_every_way() {
    let met = noted(shared);
    let ways = [Has::Both, Has::Written, Has::Read];
    for ahead in ways {
        for own in ways {
            let with = met.get(&(ahead, own)).copied().unwrap_or(0);
            let what = format!("{:?} behind {:?}", own, ahead);
            assert!(with > SEEDS * 3 / 4, "{}: {} files", what, with);
        }
    }
    // Some of what they share is only read, and nothing else is shared.
    let together = noted(|step, begun| {
        let shared = shared(step, begun);
        vec![!shared.is_empty() && step.answered_state() != Some(State::Blocked)]
    });
    assert!(together[&true] > SEEDS / 4, "{:?}", together);
}

/// What a call came to, if it came to an entry with a record in both lists.
fn told(step: &Step<'_>, begun: &Begun) -> Vec<String> {
    let entry = match step.entry_before() {
        Some(entry) => entry,
        None => return Vec::new(),
    };
    let (reads, writes) = &begun[&(entry.tenant, entry.serial)];
    if only_read(reads, writes) == reads.len() {
        return Vec::new();
    }
    let call = step.event.call();
    vec![match step.outcome.answer {
        Answer::Entry { state, .. } => format!("{} {}", call, state.word()),
        answer => format!("{} {}", call, answer),
    }]
}

#[test]
fn every_call_comes_to_what_overlaps() {
    let met = noted(told);
    for answer in [
        "finish done",
        "recheck still",
        "recheck free",
        "recheck refused:9",
        "scan free",
        "pick free",
        "pick waiting",
        "deliver free",
        "deliver blocked",
    ] {
        let with = met.get(answer).copied().unwrap_or(0);
        assert!(with > SEEDS / 2, "{}: {} files", answer, with);
    }
    let cut = files_with(Kind::Overlap, SEEDS, |step| {
        step.event.call() == "scan" && step.refusal() == Some(9)
    });
    assert!(cut > SEEDS / 2, "scans cut short: {} files", cut);
}
