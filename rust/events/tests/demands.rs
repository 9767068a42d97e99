//! What holds after every call of every generated file: the fuel adds up and is
//! burnt at its prices, nobody loses fuel or places by another's call but for
//! Item 7's eviction, the queue stays sound, refusals leave the state, the
//! verdicts of the plain list are those of document 01's counters and maps, a
//! promotion is Item 2's, a request is Item 4's, and a report is Item 5's.

mod common;

use common::{batch, walk, Step};
use events::encode::encode;
use second::{listing, Answer, Entry, Event, Held, State, Table};

const SEEDS: u64 = 120;
const RECORDS: usize = 256;

/// Shows every call of every file to `check`, and makes sure there were many.
fn for_each_step(mut check: impl FnMut(&str, &Step<'_>)) {
    let mut steps = 0;
    for (name, file) in batch(SEEDS) {
        walk(&file, |step| {
            check(&name, step);
            steps += 1;
        });
    }
    assert!(steps > 50_000, "only {} calls", steps);
}

/// What one tenant was granted, has burnt, and called.
#[derive(Clone, Copy, Default)]
struct Account {
    granted: u64,
    burnt: u64,
    /// Tenant calls not answered dry.
    calls: u64,
}

/// Demand 3: for each tenant granted = burnt + left after every call, and the
/// calls not answered dry are at most the fuel granted.
#[test]
fn fuel_adds_up() {
    let mut accounts = [Account::default(); 16];
    for_each_step(|name, step| {
        if step.event.is_open() {
            accounts = [Account::default(); 16];
        }
        let tenant = step
            .event
            .tenant()
            .filter(|tenant| (1..=16).contains(tenant));
        if let Some(tenant) = tenant {
            book(&mut accounts[usize::from(tenant) - 1], step);
        } else {
            assert_eq!(step.outcome.burnt, 0, "{}: nobody to burn for", name);
        }
        for (account, meter) in accounts.iter().zip(&step.after.meters) {
            let left = u64::from(meter.fuel);
            assert_eq!(account.granted, account.burnt + left, "{}", name);
            assert!(account.calls <= account.granted, "{}", name);
            assert!(left <= 1_000_000_000, "{}", name);
        }
    });
}

fn book(account: &mut Account, step: &Step<'_>) {
    account.burnt += u64::from(step.outcome.burnt);
    match step.event {
        Event::Grant { amount, .. } if step.refusal().is_none() => {
            account.granted += u64::from(amount);
        }
        Event::Grant { .. } | Event::Deliver { .. } | Event::Evict { .. } => {
            assert_eq!(step.outcome.burnt, 0);
        }
        _ if step.refusal() == Some(2) => assert_eq!(step.outcome.burnt, 0),
        _ => account.calls += 1,
    }
}

/// What a call burns, by document 01 and the items: host calls nothing, whatever
/// they answer; a tenant call its price, or the table's charge.
fn due_price(step: &Step<'_>) -> u32 {
    let n = || step.entry_before().map_or(0, |entry| entry.request.n());
    match (step.event, step.refusal()) {
        (
            Event::Open { .. }
            | Event::Grant { .. }
            | Event::Pick
            | Event::Deliver { .. }
            | Event::Evict { .. },
            _,
        ) => 0,
        (_, Some(1 | 2)) => 0,
        (Event::Scan { tenant }, _) => scan_by_maps(step.before, tenant).burnt,
        (_, Some(_)) => 1,
        (Event::Begin { .. }, None) => {
            let (reads, writes) = asked(step).expect("it was admitted");
            2 + 2 * (reads.len() + writes.len()) as u32
        }
        (Event::Finish { .. }, None) => 0,
        (Event::Recheck { .. }, None) => 1 + n(),
        (Event::Cancel { .. }, None) => 1,
    }
}

/// "report an invented burnt count": what is told is the price, and it is what
/// the tank lost.
#[test]
fn every_call_burns_its_price() {
    let (mut cancels, mut evictions) = (0, 0);
    for_each_step(|name, step| {
        assert_eq!(step.outcome.burnt, due_price(step), "{}", name);
        let done = step.outcome.answer == Answer::Done;
        cancels += u32::from(done && step.event.call() == "cancel");
        evictions += u32::from(done && step.event.call() == "evict");
        let tenant = match (step.event, step.event.tenant()) {
            (Event::Grant { .. }, _) => return,
            (_, Some(tenant)) if (1..=16).contains(&tenant) => tenant,
            _ => return,
        };
        let fuel = |table: &Table| table.fuel(tenant).expect("a tenant");
        let lost = fuel(step.before) - fuel(step.after);
        assert_eq!(lost, step.outcome.burnt, "{}", name);
    });
    assert!(cancels > 500, "only {} cancels", cancels);
    assert!(evictions > 1_000, "only {} evictions", evictions);
}

fn places(table: &Table, tenant: u8) -> usize {
    let queue = table.queue.iter();
    queue.filter(|entry| entry.tenant == tenant).count()
}

/// Demand 3 as Item 7 leaves it: "an eviction may lower a tenant's places, not its
/// fuel". No other call of the host or of a neighbour lowers either, and no call
/// takes more than one place.
#[test]
fn nobody_loses_by_anothers_call_but_by_an_eviction() {
    let (mut evicted, mut own) = (0, 0);
    for_each_step(|name, step| {
        if step.event.is_open() {
            return;
        }
        let host = matches!(
            step.event,
            Event::Grant { .. } | Event::Pick | Event::Deliver { .. } | Event::Evict { .. }
        );
        for tenant in 1..=16 {
            let meter = |table: &Table| table.meters[usize::from(tenant) - 1];
            let (before, after) = (meter(step.before), meter(step.after));
            assert_eq!(before.share, after.share, "{}", name);
            let calls = !host && step.event.tenant() == Some(tenant);
            assert!(calls || after.fuel >= before.fuel, "{}", name);
            assert!(calls || after.serials == before.serials, "{}", name);
            let (before, after) = (places(step.before, tenant), places(step.after, tenant));
            if after >= before {
                continue;
            }
            assert_eq!(after + 1, before, "{}", name);
            assert_eq!(step.outcome.answer, Answer::Done, "{}", name);
            assert_eq!(step.event.tenant(), Some(tenant), "{}", name);
            match step.event {
                Event::Evict { .. } => evicted += 1,
                Event::Finish { .. } | Event::Cancel { .. } => own += 1,
                event => panic!("{}: {:?}", name, event),
            }
        }
    });
    assert!(evicted > 1_000, "only {} evicted", evicted);
    assert!(own > 5_000, "only {} left by their own call", own);
}

/// A refusal leaves all but the fuel it burns. A call touches no other
/// tenant's meter. Refused opens hand out a fresh state instead.
#[test]
fn refusals_leave_the_state() {
    let mut refusals = 0;
    for_each_step(|name, step| {
        if step.event.is_open() || step.refusal().is_none() {
            return;
        }
        let mut expected = step.before.clone();
        if step.outcome.burnt > 0 {
            let tenant = step.event.tenant().expect("fuel is a tenant's");
            expected.meters[usize::from(tenant) - 1].fuel -= step.outcome.burnt;
        }
        assert_eq!(*step.after, expected, "{}", name);
        refusals += 1;
    });
    assert!(refusals > 5_000, "only {} refusals", refusals);
}

/// The queue after every call: 64 entries at most, no tenant above its share,
/// names in order, and states that fit what they await and conflict with.
#[test]
fn the_queue_stays_sound() {
    for_each_step(|name, step| {
        let table = step.after;
        assert!(table.queue.len() <= 64, "{}", name);
        for (before, meter) in table.meters.iter().enumerate() {
            let own = |entry: &&Entry| usize::from(entry.tenant) == before + 1;
            let serials: Vec<u16> = table.queue.iter().filter(own).map(|e| e.serial).collect();
            assert!(serials.len() <= usize::from(meter.share), "{}", name);
            assert!(serials.windows(2).all(|pair| pair[0] < pair[1]), "{}", name);
            assert!(
                serials.iter().all(|&s| 1 <= s && s <= meter.serials),
                "{}",
                name
            );
        }
        for (at, entry) in table.queue.iter().enumerate() {
            assert!(is_sound(entry, &table.queue[..at]), "{}: {:?}", name, entry);
        }
    });
}

fn is_sound(entry: &Entry, ahead: &[Entry]) -> bool {
    let request = &entry.request;
    let in_conflict = ahead
        .iter()
        .any(|other| request.conflicts_with(&other.request));
    let state_fits = match entry.state {
        State::Free => entry.due == 0 && !in_conflict,
        State::Waiting => entry.due > 0 && !in_conflict,
        State::Blocked => request.n() > 0,
    };
    state_fits && lists_fit(entry) && entry.due <= request.awaited && request.awaited <= 15
}

/// Up to 8 of each, strictly rising, and no record is in both.
fn lists_fit(entry: &Entry) -> bool {
    let (reads, writes) = (&entry.request.reads, &entry.request.writes);
    let fits = |list: &[u8]| list.len() <= 8 && list.windows(2).all(|pair| pair[0] < pair[1]);
    fits(reads) && fits(writes) && reads.iter().all(|record| !writes.contains(record))
}

/// Each record's count of writers (Cx) and readers (Cs) in the queue.
struct Counters {
    cx: [u32; RECORDS],
    cs: [u32; RECORDS],
}

impl Counters {
    fn of(queue: &[Entry]) -> Counters {
        let mut counters = Counters {
            cx: [0; RECORDS],
            cs: [0; RECORDS],
        };
        for entry in queue {
            counters.count(&entry.request.reads, &entry.request.writes);
        }
        counters
    }

    fn count(&mut self, reads: &[u8], writes: &[u8]) {
        for &record in reads {
            self.cs[usize::from(record)] += 1;
        }
        for &record in writes {
            self.cx[usize::from(record)] += 1;
        }
    }

    fn cx(&self, record: u8) -> u32 {
        self.cx[usize::from(record)]
    }

    fn cs(&self, record: u8) -> u32 {
        self.cs[usize::from(record)]
    }
}

/// The records that an admitted Begin only reads, and those that it writes, by
/// their numbers: Item 4 says no more of the two lists as given.
fn asked(step: &Step<'_>) -> Option<(Vec<u8>, Vec<u8>)> {
    let (reads, writes) = match step.event {
        Event::Begin { reads, writes, .. } if step.refusal().is_none() => (reads, writes),
        _ => return None,
    };
    let all = || 0..=u8::MAX;
    let written = all().filter(|record| writes.contains(record));
    let only_read = all().filter(|record| reads.contains(record) && !writes.contains(record));
    Some((only_read.collect(), written.collect()))
}

/// "A record in both lists ... is stored among the writes alone."
#[test]
fn begin_stores_what_item_4_says() {
    let mut overlapping = 0;
    for_each_step(|name, step| {
        if let Some(asked) = asked(step) {
            let last = step.after.queue.last().expect("it joined the back");
            let request = last.request.clone();
            assert_eq!((request.reads, request.writes), asked, "{}", name);
            overlapping += u32::from(step.overlaps());
        }
    });
    assert!(overlapping > 1_000, "only {} overlap", overlapping);
}

/// "All else uses the reduced lists": but for refusal 3, which goes by the lists
/// as given, a Begin that gives the reduced ones does the same.
#[test]
fn reduced_lists_give_the_same_listing() {
    let mut shorter = 0;
    for (name, file) in batch(SEEDS) {
        let mut reduced = Vec::new();
        let refusal = walk(&file, |step| match step.refusal() {
            Some(3) => encode(step.event, &mut reduced).expect("it came from a file"),
            _ => add_reduced(step.event, &mut reduced),
        });
        if refusal.is_none() {
            assert_eq!(listing(&reduced), listing(&file), "{}", name);
            shorter += u32::from(reduced.len() < file.len());
        }
    }
    assert!(shorter > 100, "only {} files with overlaps", shorter);
}

/// The record of a call, and of a Begin without the reads that are written.
fn add_reduced(event: Event<'_>, out: &mut Vec<u8>) {
    let mut only_read = Vec::new();
    let event = match event {
        Event::Begin {
            tenant,
            awaited,
            reads,
            writes,
        } => {
            only_read.extend(reads.iter().filter(|record| !writes.contains(record)));
            Event::Begin {
                tenant,
                awaited,
                reads: &only_read,
                writes,
            }
        }
        event => event,
    };
    encode(event, out).expect("it is no longer than it was");
}

/// "A read clashes if Cx is above 0, a write if after its own count Cx is
/// above 1 or Cs is above 0."
#[test]
fn begin_says_what_the_counters_say() {
    let mut blocked = 0;
    for_each_step(|name, step| {
        let (reads, writes) = match asked(step) {
            Some(asked) => asked,
            None => return,
        };
        let before = Counters::of(&step.before.queue);
        let mut after = Counters::of(&step.before.queue);
        after.count(&reads, &writes);
        let clash = reads.iter().any(|&record| before.cx(record) > 0)
            || writes
                .iter()
                .any(|&record| after.cx(record) > 1 || before.cs(record) > 0);
        let is_blocked = step.answered_state() == Some(State::Blocked);
        assert_eq!(is_blocked, clash, "{}", name);
        assert_eq!(
            step.outcome.burnt as usize,
            2 + 2 * (reads.len() + writes.len())
        );
        blocked += u32::from(is_blocked);
    });
    assert!(blocked > 1_000, "only {} blocked", blocked);
}

/// Item 5: "the lowest-numbered record that it clashed on, judged before its own
/// counts". A Begin is Blocked exactly if there is one, and no other call tells
/// any.
#[test]
fn a_blocked_begin_tells_its_lowest_clash() {
    let (mut told, mut silent) = (0, 0);
    for_each_step(|name, step| {
        let clash = match step.outcome.answer {
            Answer::Entry { clash, .. } => clash,
            _ => None,
        };
        let (reads, writes) = asked(step).unwrap_or_default();
        let before = Counters::of(&step.before.queue);
        let clashes = |&record: &u8| {
            let (cx, cs) = (before.cx(record), before.cs(record));
            reads.contains(&record) && cx > 0 || writes.contains(&record) && (cx > 0 || cs > 0)
        };
        assert_eq!(clash, (0..=u8::MAX).find(clashes), "{}", name);
        let blocked = step.answered_state() == Some(State::Blocked);
        let begun = step.event.call() == "begin";
        assert_eq!(clash.is_some(), blocked && begun, "{}", name);
        let answer = step.outcome.answer.to_string();
        assert_eq!(answer.contains('@'), clash.is_some(), "{}", name);
        told += u32::from(clash.is_some());
        silent += u32::from(blocked && !begun);
    });
    assert!(told > 1_000, "only {} told", told);
    assert!(silent > 500, "only {} answers to Blocked entries", silent);
}

/// Item 5's "held": the numbers of records with Cx above 0, Cs above 0, either,
/// after each call that takes an entry out.
#[test]
fn held_counts_what_the_counters_count() {
    let mut still_held = 0;
    for_each_step(|name, step| {
        if step.outcome.answer != Answer::Done {
            return;
        }
        let counters = Counters::of(&step.after.queue);
        let count = |counted: &dyn Fn(u8) -> bool| {
            let records = (0..=u8::MAX).filter(|&record| counted(record));
            records.count() as u16
        };
        let wanted = Held {
            written: count(&|record| counters.cx(record) > 0),
            read: count(&|record| counters.cs(record) > 0),
            either: count(&|record| counters.cx(record) + counters.cs(record) > 0),
        };
        assert_eq!(step.after.held(), wanted, "{}", name);
        let left = &step.entry_before().expect("it has left").request;
        let mut records = left.reads.iter().chain(&left.writes);
        let others = |&record: &u8| counters.cx(record) + counters.cs(record) > 0;
        still_held += u32::from(records.any(others));
    });
    assert!(still_held > 500, "only {} left a record held", still_held);
}

/// "If every written record has Cx = 1 and Cs = 0, and every read record has
/// Cx = 0, the entry is promoted."
#[test]
fn recheck_says_what_the_counters_say() {
    let (mut promoted, mut still) = (0, 0);
    for_each_step(|name, step| {
        let entry = match (step.event, step.refusal()) {
            (Event::Recheck { .. }, None) => step.entry_before().expect("it was rechecked"),
            _ => return,
        };
        let counters = Counters::of(&step.before.queue);
        let writes = &entry.request.writes;
        let reads = &entry.request.reads;
        let alone = writes
            .iter()
            .all(|&record| counters.cx(record) == 1 && counters.cs(record) == 0)
            && reads.iter().all(|&record| counters.cx(record) == 0);
        assert_eq!(step.answered_state().is_some(), alone, "{}", name);
        assert_eq!(step.outcome.burnt, 1 + entry.request.n(), "{}", name);
        promoted += u32::from(alone);
        still += u32::from(!alone);
    });
    assert!(promoted > 100, "only {} promoted", promoted);
    assert!(still > 100, "only {} still", still);
}

/// What a scan must come to, by two maps of the records written and read by
/// the entries already looked at.
#[derive(Debug, PartialEq, Eq)]
struct ScanEnd {
    promoted: Option<(u8, u16)>,
    cut_short: bool,
    burnt: u32,
}

fn scan_by_maps(table: &Table, tenant: u8) -> ScanEnd {
    let mut left = table.fuel(tenant).expect("a tenant scans") - 1;
    let mut end = ScanEnd {
        promoted: None,
        cut_short: false,
        burnt: 1,
    };
    let (mut written, mut read) = ([false; RECORDS], [false; RECORDS]);
    for entry in &table.queue {
        let price = 1 + entry.request.n();
        if left < price {
            end.cut_short = true;
            break;
        }
        left -= price;
        end.burnt += price;
        let mut reads = entry.request.reads.iter().map(|&r| usize::from(r));
        let mut writes = entry.request.writes.iter().map(|&r| usize::from(r));
        let clear = reads.all(|r| !written[r]) && writes.all(|r| !written[r] && !read[r]);
        if clear && entry.tenant == tenant && entry.state == State::Blocked {
            end.promoted = Some((entry.tenant, entry.serial));
            break;
        }
        for &record in &entry.request.reads {
            read[usize::from(record)] = true;
        }
        for &record in &entry.request.writes {
            written[usize::from(record)] = true;
        }
    }
    end
}

#[test]
fn scan_says_what_the_maps_say() {
    let (mut promoted, mut dearest) = (0, 0);
    for_each_step(|name, step| {
        let tenant = match (step.event, step.refusal()) {
            (Event::Scan { tenant }, None) | (Event::Scan { tenant }, Some(9)) => tenant,
            _ => return,
        };
        let answered = match step.outcome.answer {
            Answer::Entry { tenant, serial, .. } => Some((tenant, serial)),
            _ => None,
        };
        let end = ScanEnd {
            promoted: answered,
            cut_short: step.refusal() == Some(9),
            burnt: step.outcome.burnt,
        };
        assert_eq!(end, scan_by_maps(step.before, tenant), "{}", name);
        assert!(end.burnt <= 1_089, "{}", name);
        promoted += u32::from(answered.is_some());
        dearest = dearest.max(end.burnt);
    });
    assert!(promoted > 100, "only {} promoted", promoted);
    assert_eq!(dearest, 1_089);
}

/// Item 2: "A promoted entry becomes Waiting only if an answer is still due,
/// otherwise Free." Nothing else of it changes.
#[test]
fn a_promotion_says_what_is_due() {
    let (mut free, mut waiting) = (0, 0);
    for_each_step(|name, step| {
        let promotes = ["recheck", "scan", "pick"].contains(&step.event.call());
        let (entry, state) = match (step.entry_before(), step.answered_state()) {
            (Some(entry), Some(state)) if promotes => (entry, state),
            _ => return,
        };
        let due = entry.due > 0;
        assert_eq!(state == State::Waiting, due, "{}", name);
        assert_eq!(state == State::Free, !due, "{}", name);
        let mut expected = entry.clone();
        expected.state = state;
        assert!(step.after.queue.contains(&expected), "{}", name);
        let early = entry.due < entry.request.awaited;
        free += u32::from(early && !due);
        waiting += u32::from(early && due);
    });
    assert!(free > 500, "only {} freed by early answers", free);
    assert!(waiting > 500, "only {} with some answers in", waiting);
}

/// Requests that never leave: whatever the calls have led to, the host's Pick and
/// Deliver and a Finish bring out one front after the other, on dry tanks.
#[test]
fn every_request_can_leave() {
    for (name, file) in batch(SEEDS) {
        let mut last = Table::default();
        walk(&file, |step| last = step.after.clone());
        for meter in &mut last.meters {
            meter.fuel = 0;
        }
        while let Some(front) = last.queue.first().cloned() {
            last.pick();
            for _ in 0..front.due {
                last.deliver(front.tenant, front.serial);
            }
            let left = last.finish(front.tenant, front.serial);
            assert_eq!(left.answer.to_string(), "done", "{}: {:?}", name, front);
        }
    }
}

/// A plugin hung: whatever the calls have led to, the host's Evict alone takes out
/// each request, in any order, on dry tanks.
#[test]
fn every_request_can_be_evicted() {
    for (name, file) in batch(SEEDS) {
        let mut last = Table::default();
        walk(&file, |step| last = step.after.clone());
        for meter in &mut last.meters {
            meter.fuel = 0;
        }
        let meters = last.meters;
        for at in (0..last.queue.len()).rev() {
            // The middle of what is left.
            let entry = last.queue[at / 2].clone();
            let left = last.evict(entry.tenant, entry.serial);
            assert_eq!(left.answer, Answer::Done, "{}: {:?}", name, entry);
            assert!(!last.queue.contains(&entry), "{}: {:?}", name, entry);
        }
        assert!(last.queue.is_empty(), "{}", name);
        assert_eq!(last.meters, meters, "{}", name);
    }
}

/// A call changes the state of no entry but the one it answers with, and the
/// others keep their order.
#[test]
fn other_entries_stay_as_they_are() {
    for_each_step(|name, step| {
        if step.event.is_open() {
            return;
        }
        let touched = step
            .entry_before()
            .map(|entry| (entry.tenant, entry.serial));
        let others = |table: &Table| -> Vec<Entry> {
            let untouched = |entry: &&Entry| Some((entry.tenant, entry.serial)) != touched;
            table.queue.iter().filter(untouched).cloned().collect()
        };
        let (before, mut after) = (others(step.before), others(step.after));
        let admitted = matches!(step.event, Event::Begin { .. }) && step.refusal().is_none();
        if admitted {
            let last = after.pop().expect("it joined the back");
            let meter = step.after.meters[usize::from(last.tenant) - 1];
            assert_eq!(last.serial, meter.serials, "{}", name);
        }
        assert_eq!(before, after, "{}", name);
    });
}
