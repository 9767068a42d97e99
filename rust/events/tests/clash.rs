//! The kind `clash`: in most of its files each thing that it aims at happens.

mod common;

use common::{files, walk, Step};
use events::kinds::Kind;
use second::{Answer, Entry, Event, Request, State};
use std::collections::{BTreeMap, BTreeSet};

const SEEDS: u64 = 96;

/// A Begin that was admitted, with its reduced lists and what it was told.
struct Begun<'a> {
    ahead: &'a [Entry],
    request: Request,
    given: (&'a [u8], &'a [u8]),
    clash: Option<u8>,
}

fn begun<'a>(step: &Step<'a>) -> Option<Begun<'a>> {
    match (step.event, step.outcome.answer) {
        (Event::Begin { reads, writes, .. }, Answer::Entry { clash, .. }) => Some(Begun {
            ahead: &step.before.queue,
            request: Request::reduced(0, reads, writes),
            given: (reads, writes),
            clash,
        }),
        _ => None,
    }
}

fn has(entry: &Entry, record: u8) -> bool {
    entry.request.reads.contains(&record) || entry.request.writes.contains(&record)
}

impl Begun<'_> {
    /// The entries ahead that have the record.
    fn holders(&self, record: u8) -> Vec<&Entry> {
        let ahead = self.ahead.iter();
        ahead.filter(|entry| has(entry, record)).collect()
    }

    /// Its records, rising.
    fn records(&self) -> BTreeSet<u8> {
        let (reads, writes) = (&self.request.reads, &self.request.writes);
        reads.iter().chain(writes).copied().collect()
    }

    fn clashes_on(&self, record: u8) -> bool {
        let holders = self.holders(record);
        let written = holders.iter().any(|e| e.request.writes.contains(&record));
        written || self.request.writes.contains(&record) && !holders.is_empty()
    }

    fn clashing(&self) -> Vec<u8> {
        let records = self.records().into_iter();
        records.filter(|&record| self.clashes_on(record)).collect()
    }
}

/// What is true of a Begin that clashes, with its lowest record.
type Aim = fn(&Begun<'_>, u8) -> bool;

const AIMS: [(&str, Aim); 12] = [
    ("a read of what is written", |begun, lowest| {
        begun.request.reads.contains(&lowest)
    }),
    ("a write of what is only read", |begun, lowest| {
        let holders = begun.holders(lowest);
        holders.iter().all(|e| e.request.reads.contains(&lowest))
    }),
    ("a write of what is written", |begun, lowest| {
        let mut holders = begun.holders(lowest).into_iter();
        begun.request.writes.contains(&lowest)
            && holders.any(|e| e.request.writes.contains(&lowest))
    }),
    ("a lower record that nobody has", |begun, lowest| {
        let records = begun.records();
        let mut lower = records.range(..lowest);
        lower.any(|&record| begun.holders(record).is_empty())
    }),
    ("a lower record that both read", |begun, lowest| {
        let records = begun.records();
        let mut lower = records.range(..lowest);
        lower.any(|&record| !begun.holders(record).is_empty())
    }),
    ("several, the lowest read", |begun, lowest| {
        begun.clashing().len() > 1 && begun.request.reads.contains(&lowest)
    }),
    ("several, the lowest written", |begun, lowest| {
        begun.clashing().len() > 1 && begun.request.writes.contains(&lowest)
    }),
    ("not with the first that clashes", |begun, lowest| {
        let mut ahead = begun.ahead.iter();
        let first = ahead.find(|entry| begun.request.conflicts_with(&entry.request));
        first.map_or(false, |entry| !has(entry, lowest))
    }),
    ("the highest of 15", |begun, lowest| {
        begun.request.n() == 15 && begun.records().range(lowest..).count() == 1
    }),
    ("one that is read and written as given", |begun, lowest| {
        begun.given.0.contains(&lowest) && begun.given.1.contains(&lowest)
    }),
    ("with a Blocked entry alone", |begun, _| {
        let ahead = begun.ahead.iter();
        let mut clashing = ahead.filter(|entry| begun.request.conflicts_with(&entry.request));
        clashing.all(|entry| entry.state == State::Blocked)
    }),
    ("with several holders", |begun, lowest| {
        begun.holders(lowest).len() > 1
    }),
];

/// In how many files each thing is noted that `note` gives of a call and of what
/// was noted of the file before.
fn noted(note: impl Fn(&Step<'_>, &BTreeSet<String>) -> Vec<String>) -> BTreeMap<String, u64> {
    let mut with = BTreeMap::new();
    for file in files(Kind::Clash, SEEDS) {
        let mut things = BTreeSet::new();
        walk(&file, |step| {
            let more = note(step, &things);
            things.extend(more);
        });
        for thing in things {
            *with.entry(thing).or_insert(0) += 1;
        }
    }
    with
}

fn files_with(noted: &BTreeMap<String, u64>, thing: &str) -> u64 {
    noted.get(thing).copied().unwrap_or(0)
}

#[test]
fn requests_clash_in_every_way() {
    let met = noted(|step, _| match begun(step) {
        Some(begun) => match begun.clash {
            Some(lowest) => {
                let true_ones = AIMS.iter().filter(|(_, aim)| aim(&begun, lowest));
                true_ones.map(|(what, _)| String::from(*what)).collect()
            }
            None => Vec::new(),
        },
        None => Vec::new(),
    });
    for (what, _) in AIMS {
        let with = files_with(&met, what);
        assert!(with > SEEDS / 2, "{}: {} files", what, with);
    }
}

/// The first and the last record, and those beside the borders of 64.
#[test]
fn requests_clash_at_the_borders() {
    let met = noted(|step, _| match step.outcome.answer {
        Answer::Entry {
            clash: Some(lowest),
            ..
        } => vec![lowest.to_string()],
        _ => Vec::new(),
    });
    for record in [0u8, 63, 64, 127, 128, 191, 192, 255] {
        let with = files_with(&met, &record.to_string());
        assert!(with > SEEDS / 12, "record {}: {} files", record, with);
    }
    assert!(met.len() > 200, "only {} records", met.len());
}

/// What becomes of a record whose holder leaves, by the next Begin that names it.
fn after_a_finish(step: &Step<'_>, noted: &BTreeSet<String>) -> Vec<String> {
    if let (Event::Finish { .. }, Answer::Done) = (step.event, step.outcome.answer) {
        let left = &step.entry_before().expect("it has left").request;
        let records = left.reads.iter().chain(&left.writes);
        let told = records.map(|&record| {
            let mut queue = step.after.queue.iter();
            match queue.any(|entry| has(entry, record)) {
                true => format!("{} is still held", record),
                false => format!("{} is let go", record),
            }
        });
        return told.collect();
    }
    let begun = match begun(step) {
        Some(begun) => begun,
        None => return Vec::new(),
    };
    let noted = |record: u8, what: &str| noted.contains(&format!("{} {}", record, what));
    let mut told = Vec::new();
    match begun.clash {
        Some(lowest) if noted(lowest, "is still held") => told.push("held by another"),
        None if begun.records().into_iter().any(|r| noted(r, "is let go")) => {
            told.push("nobody's any more");
        }
        _ => {}
    }
    told.into_iter().map(String::from).collect()
}

#[test]
fn holders_leave_one_after_the_other() {
    let met = noted(after_a_finish);
    for what in ["held by another", "nobody's any more"] {
        let with = files_with(&met, what);
        assert!(with > SEEDS * 9 / 10, "{}: {} files", what, with);
    }
}

/// A Deliver to a Blocked entry, which tells no record.
#[test]
fn blocked_entries_get_answers() {
    let with = common::files_with(Kind::Clash, SEEDS, |step| {
        step.event.call() == "deliver" && step.answered_state() == Some(State::Blocked)
    });
    assert!(with > SEEDS * 9 / 10, "{} files", with);
}
