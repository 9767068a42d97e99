//! Item 7, taking a stuck request out: what an Evict or a Cancel leaves, in every
//! generated file, and what the files of the kind `stuck` have.

mod common;

use common::{batch, files, walk, Step};
use events::kinds::Kind;
use second::{Answer, Entry, Event, State, Table};
use std::collections::{BTreeMap, BTreeSet};

const SEEDS: u64 = 96;

/// Tenant and serial.
type Name = (u8, u16);

/// The entry that the call has taken out, and whether it was an Evict.
fn taken_out<'a>(step: &'a Step<'_>) -> Option<(&'a Entry, bool)> {
    let evicts = match (step.event, step.outcome.answer) {
        (Event::Evict { .. }, Answer::Done) => true,
        (Event::Cancel { .. }, Answer::Done) => false,
        _ => return None,
    };
    Some((step.entry_before().expect("it was there"), evicts))
}

fn name(entry: &Entry) -> Name {
    (entry.tenant, entry.serial)
}

/// A queue without the entry of that name, and nothing else of it changed.
fn without(queue: &[Entry], gone: Name) -> Vec<Entry> {
    let others = queue.iter().filter(|entry| name(entry) != gone);
    others.cloned().collect()
}

/// "Both release counters and place, refund no fuel and answer "done"": the rest
/// of the queue is as it was and in its order, and so are the meters, but for the
/// unit of a Cancel.
#[test]
fn nothing_else_changes() {
    let (mut evicted, mut cancelled) = (0, 0);
    for (file_name, file) in batch(SEEDS) {
        walk(&file, |step| {
            let (entry, evicts) = match taken_out(step) {
                Some(found) => found,
                None => return,
            };
            let rest = without(&step.before.queue, name(entry));
            assert_eq!(rest.len() + 1, step.before.queue.len(), "{}", file_name);
            let mut meters = step.before.meters;
            if evicts {
                evicted += 1;
            } else {
                assert_eq!(entry.state, State::Blocked, "{}", file_name);
                meters[usize::from(entry.tenant) - 1].fuel -= 1;
                cancelled += 1;
            }
            assert_eq!(step.after.queue, rest, "{}", file_name);
            assert_eq!(step.after.meters, meters, "{}", file_name);
            assert_eq!(step.outcome.burnt, u32::from(!evicts), "{}", file_name);
        });
    }
    assert!(evicted > 1_000, "only {} evicted", evicted);
    assert!(cancelled > 500, "only {} cancelled", cancelled);
}

/// A Cancel is refused for what is not Blocked and for nothing else but no tenant,
/// a dry tank and no entry; an Evict for no tenant and no entry alone.
#[test]
fn refusals_are_given_exactly_then() {
    let mut met = BTreeMap::new();
    for (file_name, file) in batch(SEEDS) {
        walk(&file, |step| {
            let (tenant, evicts) = match step.event {
                Event::Evict { tenant, .. } => (tenant, true),
                Event::Cancel { tenant, .. } => (tenant, false),
                _ => return,
            };
            let entry = step.entry_before();
            let number = if !(1..=16).contains(&tenant) {
                Some(1)
            } else if !evicts && step.before.fuel(tenant) == Some(0) {
                Some(2)
            } else if entry.is_none() {
                Some(10)
            } else if !evicts && entry.map(|entry| entry.state) != Some(State::Blocked) {
                Some(11)
            } else {
                None
            };
            assert_eq!(step.refusal(), number, "{}", file_name);
            let burnt = u32::from(!evicts && ![Some(1), Some(2)].contains(&number));
            assert_eq!(step.outcome.burnt, burnt, "{}", file_name);
            *met.entry((evicts, number)).or_insert(0) += 1;
        });
    }
    for (case, count) in &met {
        assert!(*count > 100, "{:?}: only {}", case, count);
    }
    assert_eq!(met.len(), 3 + 5);
}

/// Where the entries stand that the one at `at` was the only one ahead in conflict
/// with, and that were Blocked by it.
fn waited_for_it_alone(queue: &[Entry], at: usize) -> Vec<usize> {
    let alone = |behind: &usize| {
        let entry = &queue[*behind];
        let mut ahead = (0..*behind).filter(|&other| entry.conflicts_with(&queue[other]));
        entry.state == State::Blocked && ahead.next() == Some(at) && ahead.next().is_none()
    };
    (at + 1..queue.len()).filter(alone).collect()
}

/// Whether the tenant of the entry at that place has an earlier one that its Scan
/// takes first.
fn own_one_first(queue: &[Entry], at: usize) -> bool {
    let first = |earlier: usize| {
        let entry = &queue[earlier];
        let mut ahead = queue[..earlier].iter();
        entry.tenant == queue[at].tenant
            && entry.state == State::Blocked
            && !ahead.any(|other| entry.conflicts_with(other))
    };
    (0..at).any(first)
}

/// What a Scan burns that looks at the entries up to that place.
fn price_up_to(queue: &[Entry], at: usize) -> u32 {
    let looks = queue[..=at].iter().map(|entry| 1 + entry.request.n());
    1 + looks.sum::<u32>()
}

/// Whoever conflicted with nothing ahead but the one taken out is promoted by its
/// next Scan with fuel to finish, provided that none of its own earlier Blocked
/// ones comes first; with a unit less it is not. Whoever conflicts with a further
/// one stays Blocked.
#[test]
fn who_waited_for_it_alone_is_found_by_its_scan() {
    let (mut promoted, mut later, mut hindered) = (0, 0, 0);
    for (file_name, file) in batch(SEEDS) {
        walk(&file, |step| {
            let at = match taken_out(step) {
                Some((entry, _)) => step.before.queue.iter().position(|other| other == entry),
                None => return,
            };
            let at = at.expect("it was there");
            let waited = waited_for_it_alone(&step.before.queue, at);
            for behind in at + 1..step.before.queue.len() {
                let entry = &step.before.queue[behind];
                if entry.state != State::Blocked {
                    continue;
                }
                let (queue, now) = (&step.after.queue, behind - 1);
                let clear = !queue[..now].iter().any(|other| entry.conflicts_with(other));
                let scanned = |fuel| scanned(step.after, entry, fuel);
                let price = price_up_to(queue, now);
                let found = clear && !own_one_first(queue, now);
                if waited.contains(&behind) {
                    assert!(clear, "{}", file_name);
                    promoted += u32::from(found);
                    later += u32::from(!found);
                }
                hindered += u32::from(!clear);
                assert_eq!(scanned(price) != State::Blocked, found, "{}", file_name);
                assert_eq!(scanned(price - 1), State::Blocked, "{}", file_name);
            }
        });
    }
    assert!(promoted > 500, "only {} promoted", promoted);
    assert!(later > 15, "only {} behind one of their own", later);
    assert!(hindered > 1_000, "only {} hindered", hindered);
}

/// The state of an entry after its tenant's Scan on so much fuel.
fn scanned(table: &Table, entry: &Entry, fuel: u32) -> State {
    let mut table = table.clone();
    table.meters[usize::from(entry.tenant) - 1].fuel = fuel;
    table.scan(entry.tenant);
    let mut queue = table.queue.iter();
    let found = queue.find(|other| name(other) == name(entry));
    found.expect("a scan takes nobody out").state
}

/// What has happened in a file so far.
#[derive(Default)]
struct Past {
    /// Those that were taken out, and whether by an Evict.
    gone: BTreeMap<Name, bool>,
    /// Those that waited for an evicted one alone.
    waited: BTreeSet<Name>,
    /// Tenants that were refused with 7, and those of them that then lost an entry.
    full: BTreeSet<u8>,
    freed: BTreeSet<u8>,
    /// What was noted.
    things: BTreeSet<String>,
}

impl Past {
    fn see(&mut self, step: &Step<'_>) {
        let call = step.event.call();
        let answer = step.outcome.answer.to_string();
        let tenant = step.event.tenant();
        let fuel = tenant.and_then(|tenant| step.before.fuel(tenant));
        if ["evict", "cancel"].contains(&call) {
            let state = step.entry_before().map_or("no", |entry| entry.state.word());
            self.note(format!("{} of {} entry {}", call, state, answer));
            if let (Some(fuel @ (0 | 1)), "cancel") = (fuel, call) {
                self.note(format!("cancel on {} of {} entry", fuel, state));
            }
            if fuel == Some(0) && call == "evict" {
                self.note(format!("evict on 0 {}", answer));
            }
        }
        if let Some(name) = named(step) {
            match self.gone.get(&name) {
                Some(true) => self.note(format!("{} after evict {}", call, answer)),
                Some(false) => self.note(format!("{} after cancel {}", call, answer)),
                None => {}
            }
        }
        if let Some((entry, evicts)) = taken_out(step) {
            self.leave(step, entry, evicts);
        }
        self.begin_again(step);
        if let (Event::Scan { .. }, Answer::Entry { tenant, serial, .. }) =
            (step.event, step.outcome.answer)
        {
            if self.waited.contains(&(tenant, serial)) {
                self.note(String::from("scan finds who waited"));
            }
        }
    }

    fn leave(&mut self, step: &Step<'_>, entry: &Entry, evicts: bool) {
        let queue = &step.before.queue;
        let at = queue.iter().position(|other| other == entry);
        let at = at.expect("it was there");
        let place = match at {
            0 => "front",
            _ if at + 1 == queue.len() => "last",
            _ => "middle",
        };
        let (call, state) = (step.event.call(), entry.state.word());
        self.note(format!("{} of {} {}", call, state, place));
        let waited = waited_for_it_alone(queue, at);
        if evicts && entry.state != State::Blocked && waited.len() > 1 {
            self.note(String::from("evict of what several wait for"));
        }
        self.waited
            .extend(waited.iter().map(|&at| name(&queue[at])));
        self.gone.insert(name(entry), evicts);
        if self.full.contains(&entry.tenant) {
            self.freed.insert(entry.tenant);
        }
    }

    /// A tenant at its share is refused, loses an entry, and is admitted.
    fn begin_again(&mut self, step: &Step<'_>) {
        let tenant = match step.event {
            Event::Begin { tenant, .. } => tenant,
            _ => return,
        };
        if step.refusal() == Some(7) {
            self.full.insert(tenant);
        } else if step.answered_state().is_some() && self.freed.remove(&tenant) {
            self.full.remove(&tenant);
            self.note(String::from("begin in the freed place"));
        }
    }

    fn note(&mut self, thing: String) {
        self.things.insert(thing);
    }
}

/// The name that a call names, there or not.
fn named(step: &Step<'_>) -> Option<Name> {
    match step.event {
        Event::Finish { tenant, serial }
        | Event::Recheck { tenant, serial }
        | Event::Deliver { tenant, serial }
        | Event::Evict { tenant, serial }
        | Event::Cancel { tenant, serial } => Some((tenant, serial)),
        _ => None,
    }
}

/// In how many of the files of the kind `stuck` each thing is met, at least, of 96.
const AIMS: [(&str, u64); 41] = [
    ("evict of what several wait for", 48),
    ("scan finds who waited", 86),
    ("begin in the freed place", 86),
    ("evict of free front", 48),
    ("evict of free middle", 48),
    ("evict of free last", 24),
    ("evict of waiting front", 48),
    ("evict of waiting middle", 24),
    ("evict of waiting last", 24),
    ("evict of blocked front", 48),
    ("evict of blocked middle", 48),
    ("evict of blocked last", 86),
    ("cancel of blocked front", 12),
    ("cancel of blocked middle", 48),
    ("cancel of blocked last", 48),
    ("evict of no entry refused:1", 86),
    ("evict of no entry refused:10", 86),
    ("cancel of no entry refused:1", 86),
    ("cancel of no entry refused:2", 48),
    ("cancel of no entry refused:10", 86),
    ("cancel of blocked entry refused:2", 48),
    ("cancel of blocked entry done", 86),
    ("cancel of free entry refused:2", 24),
    ("cancel of free entry refused:11", 86),
    ("cancel of waiting entry refused:2", 24),
    ("cancel of waiting entry refused:11", 86),
    ("cancel on 1 of blocked entry", 86),
    ("cancel on 1 of free entry", 48),
    ("cancel on 1 of waiting entry", 48),
    ("evict on 0 done", 86),
    ("evict on 0 refused:10", 86),
    ("finish after evict refused:10", 24),
    ("recheck after evict refused:10", 24),
    ("deliver after evict refused:10", 24),
    ("cancel after evict refused:10", 24),
    ("evict after evict refused:10", 48),
    ("finish after cancel refused:10", 12),
    ("recheck after cancel refused:10", 12),
    ("deliver after cancel refused:10", 12),
    ("cancel after cancel refused:10", 24),
    ("evict after cancel refused:10", 24),
];

#[test]
fn stuck_files_have_what_they_aim_at() {
    let mut with: BTreeMap<String, u64> = BTreeMap::new();
    for file in files(Kind::Stuck, SEEDS) {
        let mut past = Past::default();
        walk(&file, |step| past.see(step));
        for thing in past.things {
            *with.entry(thing).or_insert(0) += 1;
        }
    }
    for (thing, least) in AIMS {
        let count = with.get(thing).copied().unwrap_or(0);
        assert!(count >= least, "{}: {} files", thing, count);
    }
}
