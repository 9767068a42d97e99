//! Item 6, order as the shops see it: "of two admitted requests that conflict,
//! the one admitted later does not become Free or Waiting before the earlier one
//! has left the queue." A book is kept of what a shop or the host can see of a
//! run: each call, its answer, and the queue after it. It finds the generated
//! files in order, and refuses histories in which the order is broken. What is
//! evicted or cancelled (Item 7) has left, as what is finished has.

mod common;

use common::{batch, walk, Step};
use events::text::to_bytes;
use second::reader::read_record;
use second::{Answer, Event, State};
use std::collections::BTreeMap;
use std::fmt;

const SEEDS: u64 = 120;

/// Tenant and serial.
#[derive(Clone, Copy, PartialEq, Eq)]
struct Name(u8, u16);

impl fmt::Display for Name {
    fn fmt(&self, out: &mut fmt::Formatter<'_>) -> fmt::Result {
        write!(out, "{}.{}", self.0, self.1)
    }
}

/// An entry, as an answer tells it and as it stands in the queue.
type Seen = (State, Name);

/// A request that was admitted, with its lists as given. Calls go by their number
/// in the run.
struct Admitted {
    name: Name,
    reads: Vec<u8>,
    writes: Vec<u8>,
    /// The call that admitted it.
    begun: u64,
    /// The call after which it was Free or Waiting for the first time.
    started: Option<u64>,
    /// The call after which it was no longer in the queue.
    left: Option<u64>,
    /// Whether that was an Evict.
    evicted: bool,
}

impl Admitted {
    /// "some record is written by one of them and read or written by the other"
    fn conflicts_with(&self, other: &Admitted) -> bool {
        self.writes_into(other) || other.writes_into(self)
    }

    /// Whether it writes a record that the other one reads or writes.
    fn writes_into(&self, other: &Admitted) -> bool {
        let mut written = self.writes.iter();
        written.any(|record| other.reads.contains(record) || other.writes.contains(record))
    }
}

/// An entry in the queue, by its place in the order of admission.
type Standing = (usize, State);

#[derive(Default)]
struct Book {
    /// How many calls the run has had.
    calls: u64,
    /// The run's requests in the order of admission.
    admitted: Vec<Admitted>,
    /// Of all runs: starts, by call, and pairs that conflict and both started.
    counts: BTreeMap<&'static str, u64>,
}

impl Book {
    /// Takes down a call, the entry that its answer names, and the queue after
    /// it; or tells what is wrong with them. An Open begins a new run.
    fn step(
        &mut self,
        event: Event<'_>,
        named: Option<Seen>,
        queue: &[Seen],
    ) -> Result<(), String> {
        if event.is_open() {
            self.calls = 0;
            self.admitted.clear();
        }
        self.calls += 1;
        if let (Event::Begin { reads, writes, .. }, Some((_, name))) = (event, named) {
            self.admit(name, reads, writes)?;
        }
        if let Some((state, name)) = named.filter(|seen| !queue.contains(seen)) {
            return Err(format!("{} is {} in the answer alone", name, state.word()));
        }
        let standing = self.standing(queue)?;
        let started = self.leave_or_start(event, &standing)?;
        self.nothing_earlier(&standing)?;
        for at in started {
            *self.counts.entry(event.call()).or_insert(0) += 1;
            self.in_turn(at)?;
        }
        Ok(())
    }

    /// No name is given twice.
    fn admit(&mut self, name: Name, reads: &[u8], writes: &[u8]) -> Result<(), String> {
        if self.admitted.iter().any(|known| known.name == name) {
            return Err(format!("{} is given twice", name));
        }
        self.admitted.push(Admitted {
            name,
            reads: reads.to_vec(),
            writes: writes.to_vec(),
            begun: self.calls,
            started: None,
            left: None,
            evicted: false,
        });
        Ok(())
    }

    /// The queue holds what was admitted and has not left, in the order of
    /// admission.
    fn standing(&self, queue: &[Seen]) -> Result<Vec<Standing>, String> {
        let mut standing: Vec<Standing> = Vec::new();
        for &(state, name) in queue {
            let place = self.admitted.iter().position(|known| known.name == name);
            let at = place.ok_or_else(|| format!("{} was not admitted", name))?;
            if self.admitted[at].left.is_some() {
                return Err(format!("{} comes back", name));
            }
            if let Some((ahead, _)) = standing.last().filter(|(ahead, _)| *ahead >= at) {
                let ahead = self.admitted[*ahead].name;
                return Err(format!("{} stands behind {}", name, ahead));
            }
            standing.push((at, state));
        }
        Ok(standing)
    }

    /// Who starts by this call. If anybody does, nobody leaves by it; and nobody
    /// leaves but by a call that says so of it.
    fn leave_or_start(
        &mut self,
        event: Event<'_>,
        standing: &[Standing],
    ) -> Result<Vec<usize>, String> {
        let (mut started, mut gone) = (Vec::new(), None);
        let leaver = match event {
            Event::Finish { tenant, serial }
            | Event::Evict { tenant, serial }
            | Event::Cancel { tenant, serial } => Some(Name(tenant, serial)),
            _ => None,
        };
        for (at, request) in self.admitted.iter_mut().enumerate() {
            let found = standing.iter().find(|(standing, _)| *standing == at);
            match found.map(|(_, state)| state) {
                None if request.left.is_none() => {
                    request.left = Some(self.calls);
                    request.evicted = event.call() == "evict";
                    gone = Some(request.name);
                    if gone != leaver {
                        return Err(format!("{} leaves by another's call", request.name));
                    }
                    *self.counts.entry(leaving(event)).or_insert(0) += 1;
                }
                Some(State::Free | State::Waiting) if request.started.is_none() => {
                    request.started = Some(self.calls);
                    started.push(at);
                }
                _ => {}
            }
        }
        match (started.first(), gone) {
            (Some(&at), Some(gone)) => {
                let name = self.admitted[at].name;
                Err(format!("{} starts as {} leaves", name, gone))
            }
            _ => Ok(started),
        }
    }

    /// Where a request is Free or Waiting, nothing in the queue was admitted
    /// earlier and conflicts with it.
    fn nothing_earlier(&self, standing: &[Standing]) -> Result<(), String> {
        let runs = |(_, state): &&Standing| *state != State::Blocked;
        for &(at, state) in standing.iter().filter(runs) {
            for &(other, _) in standing.iter().filter(|(other, _)| *other < at) {
                let (earlier, later) = (&self.admitted[other], &self.admitted[at]);
                if earlier.conflicts_with(later) {
                    let (later, state, earlier) = (later.name, state.word(), earlier.name);
                    return Err(format!("{} is {} before {} leaves", later, state, earlier));
                }
            }
        }
        Ok(())
    }

    /// One has started. Of it and each that conflicts with it and has started too,
    /// the earlier one started first, and had left before the later one started.
    /// An earlier one that has never started had left before, too.
    fn in_turn(&mut self, at: usize) -> Result<(), String> {
        for other in (0..self.admitted.len()).filter(|&other| other != at) {
            let earlier = &self.admitted[at.min(other)];
            let later = &self.admitted[at.max(other)];
            let second = match later.started {
                Some(second) if earlier.conflicts_with(later) => second,
                _ => continue,
            };
            let in_turn = earlier.started.map_or(true, |first| first < second);
            let left = earlier.left.map_or(false, |left| left < second);
            if !in_turn || !left {
                let (later, earlier) = (later.name, earlier.name);
                return Err(format!("{} started before {} had left", later, earlier));
            }
            // The earlier one was in the queue when the later one joined.
            let together = earlier.left > Some(later.begun);
            let one_tenant = earlier.name.0 == later.name.0;
            let (ran, evicted) = (earlier.started.is_some(), earlier.evicted);
            let waited = ran && earlier.started > Some(later.begun);
            for (what, holds) in [
                ("pairs", ran),
                (
                    "queued together, of one tenant",
                    ran && together && one_tenant,
                ),
                (
                    "queued together, of two tenants",
                    ran && together && !one_tenant,
                ),
                ("begun behind a Blocked one", waited),
                ("behind an evicted one that ran", ran && together && evicted),
                (
                    "behind an evicted one that never ran",
                    !ran && together && evicted,
                ),
                ("behind a cancelled one", !ran && together && !evicted),
            ] {
                *self.counts.entry(what).or_insert(0) += u64::from(holds);
            }
        }
        Ok(())
    }
}

/// How a request left, for the counts.
fn leaving(event: Event<'_>) -> &'static str {
    match event {
        Event::Evict { .. } => "left by evict",
        Event::Cancel { .. } => "left by cancel",
        _ => "left by finish",
    }
}

/// So many at least, of starts and leavings by each call and of pairs, and nothing
/// else: no other call starts a request or takes it out. What is behind an evicted
/// or a cancelled one was in the queue with it, and started when it had left.
const AT_LEAST: [(&str, u64); 14] = [
    ("begin", 7_000),
    ("recheck", 400),
    ("scan", 1_500),
    ("pick", 3_000),
    ("pairs", 70_000),
    ("queued together, of one tenant", 4_000),
    ("queued together, of two tenants", 15_000),
    ("begun behind a Blocked one", 15_000),
    ("left by finish", 10_000),
    ("left by evict", 1_000),
    ("left by cancel", 400),
    ("behind an evicted one that ran", 400),
    ("behind an evicted one that never ran", 100),
    ("behind a cancelled one", 100),
];

fn take_down(book: &mut Book, step: &Step<'_>) -> Result<(), String> {
    let named = match (step.answered_state(), step.outcome.answer) {
        (Some(state), Answer::Entry { tenant, serial, .. }) => Some((state, Name(tenant, serial))),
        _ => None,
    };
    let queue = step.after.queue.iter();
    let queue = queue.map(|entry| (entry.state, Name(entry.tenant, entry.serial)));
    book.step(step.event, named, &queue.collect::<Vec<Seen>>())
}

#[test]
fn generated_runs_are_in_order() {
    let mut book = Book::default();
    for (name, file) in batch(SEEDS) {
        walk(&file, |step| {
            let said = take_down(&mut book, step);
            assert_eq!(said, Ok(()), "{}, call {}", name, book.calls);
        });
    }
    for (what, least) in AT_LEAST {
        let count = book.counts.remove(what).unwrap_or(0);
        assert!(count >= least, "{}: only {}", what, count);
    }
    assert!(book.counts.is_empty(), "{:?}", book.counts);
}

/// Shows a history to a book. A line has a call, its answer, the queue after it,
/// and what the book says if something is wrong.
fn judge(history: &str) {
    let mut book = Book::default();
    for line in history.lines().filter(|line| line.contains('|')) {
        let fields: Vec<&str> = line.split('|').map(str::trim).collect();
        let bytes = to_bytes(fields[0].as_bytes()).expect("a call");
        let (event, _) = read_record(&bytes).expect("its record");
        let named = fields[1].contains('.').then(|| seen(fields[1]));
        let queue: Vec<Seen> = fields[2].split_whitespace().map(seen).collect();
        let wrong = fields.get(3).map_or(Ok(()), |what| Err(what.to_string()));
        assert_eq!(book.step(event, named, &queue), wrong, "{}", line);
    }
}

/// The entry of state`:`tenant`.`serial, the record behind an `@` aside.
fn seen(text: &str) -> Seen {
    let fields: Vec<&str> = text.split(&[':', '.', '@'][..]).collect();
    let mut states = [State::Free, State::Waiting, State::Blocked].into_iter();
    let state = states.find(|state| state.word() == fields[0]);
    let (tenant, serial) = (fields[1].parse(), fields[2].parse());
    let name = Name(tenant.expect("a tenant"), serial.expect("a serial"));
    (state.expect("a state"), name)
}

/// Names start anew in a new run, and an Open that is refused begins one too.
#[test]
fn histories_in_order_are_taken_down() {
    judge(
        "open 1 2 1         | ok            |
         begin 1 writes 7   | free:1.1      | free:1.1
         begin 2 writes 7 9 | blocked:2.1@7 | free:1.1 blocked:2.1
         begin 3 writes 9   | blocked:3.1@9 | free:1.1 blocked:2.1 blocked:3.1
         begin 2 reads 5    | free:2.2      | free:1.1 blocked:2.1 blocked:3.1 free:2.2
         finish 1 1         | done          | blocked:2.1 blocked:3.1 free:2.2
         scan 3             | nothing       | blocked:2.1 blocked:3.1 free:2.2
         pick               | free:2.1      | free:2.1 blocked:3.1 free:2.2
         finish 2 1         | done          | blocked:3.1 free:2.2
         recheck 3 1        | free:3.1      | free:3.1 free:2.2
         open 65            | refused:14    |
         open 1             | ok            |
         begin 1 writes 9   | free:1.1      | free:1.1",
    );
}

/// Item 7: what is evicted or cancelled has left, whatever its state was, and who
/// waited for it starts by a call of its own.
#[test]
fn histories_with_leavings_are_in_order() {
    judge(
        "open 2 2 1                 | ok            |
         begin 1 writes 7           | free:1.1      | free:1.1
         begin 2 awaited 1 writes 7 | blocked:2.1@7 | free:1.1 blocked:2.1
         begin 3 reads 7            | blocked:3.1@7 | free:1.1 blocked:2.1 blocked:3.1
         cancel 1 1                 | refused:11    | free:1.1 blocked:2.1 blocked:3.1
         evict 1 1                  | done          | blocked:2.1 blocked:3.1
         scan 3                     | nothing       | blocked:2.1 blocked:3.1
         cancel 2 1                 | done          | blocked:3.1
         scan 3                     | free:3.1      | free:3.1
         begin 1 writes 7           | blocked:1.2@7 | free:3.1 blocked:1.2
         begin 2 writes 7           | blocked:2.2@7 | free:3.1 blocked:1.2 blocked:2.2
         evict 1 2                  | done          | free:3.1 blocked:2.2
         evict 1 2                  | refused:10    | free:3.1 blocked:2.2
         finish 3 1                 | done          | blocked:2.2
         pick                       | free:2.2      | free:2.2",
    );
}

/// Lines without a `|` are titles.
const BROKEN: &str = "
    A scan compares with running entries only. In the end nothing is ahead of 2.1,
    but 3.1 has started before it.
    open 1 1 1         | ok            |
    begin 1 writes 7   | free:1.1      | free:1.1
    begin 2 writes 7 9 | blocked:2.1@7 | free:1.1 blocked:2.1
    begin 3 writes 9   | blocked:3.1@9 | free:1.1 blocked:2.1 blocked:3.1
    scan 3     | free:3.1 | free:1.1 blocked:2.1 free:3.1 | 3.1 is free before 2.1 leaves
    finish 1 1 | done     | blocked:2.1 free:3.1          | 3.1 is free before 2.1 leaves
    finish 3 1 | done     | blocked:2.1
    pick       | free:2.1 | free:2.1                    | 3.1 started before 2.1 had left

    A begin is blocked by Free entries only.
    open 1 1                   | ok          |
    begin 1 awaited 1 writes 7 | waiting:1.1 | waiting:1.1
    begin 2 writes 7 | free:2.1 | waiting:1.1 free:2.1 | 2.1 is free before 1.1 leaves

    A recheck compares with entries behind only.
    open 1 1                  | ok            |
    begin 1 writes 7          | free:1.1      | free:1.1
    begin 2 awaited 1 reads 7 | blocked:2.1@7 | free:1.1 blocked:2.1
    recheck 2 1 | waiting:2.1 | free:1.1 waiting:2.1 | 2.1 is waiting before 1.1 leaves

    A begin is blocked by other tenants only.
    open 2           | ok       |
    begin 1 reads 7  | free:1.1 | free:1.1
    begin 1 writes 7 | free:1.2 | free:1.1 free:1.2 | 1.2 is free before 1.1 leaves

    A request comes back, and a name.
    open 1           | ok       |
    begin 1 writes 7 | free:1.1 | free:1.1
    finish 1 1       | done     |
    pick             | nothing  | free:1.1 | 1.1 comes back
    begin 1 writes 8 | free:1.1 | free:1.1 | 1.1 is given twice

    Two entries swap places.
    open 1 1         | ok            |
    begin 1 writes 7 | free:1.1      | free:1.1
    begin 2 writes 7 | blocked:2.1@7 | free:1.1 blocked:2.1
    recheck 2 1      | still         | blocked:2.1 free:1.1 | 1.1 stands behind 2.1

    An entry outlives its run.
    open 1           | ok         |
    begin 1 writes 7 | free:1.1   | free:1.1
    open 65          | refused:14 | free:1.1 | 1.1 was not admitted

    A finish promotes.
    open 1 1         | ok            |
    begin 1 writes 7 | free:1.1      | free:1.1
    begin 2 writes 7 | blocked:2.1@7 | free:1.1 blocked:2.1
    finish 1 1       | done          | free:2.1 | 2.1 starts as 1.1 leaves

    An evict promotes.
    open 1 1         | ok            |
    begin 1 writes 7 | free:1.1      | free:1.1
    begin 2 writes 7 | blocked:2.1@7 | free:1.1 blocked:2.1
    evict 1 1        | done          | free:2.1 | 2.1 starts as 1.1 leaves

    A cancel takes out the front, and a pick the one behind it.
    open 1 1         | ok            |
    begin 1 writes 7 | free:1.1      | free:1.1
    begin 2 writes 7 | blocked:2.1@7 | free:1.1 blocked:2.1
    cancel 2 1       | done          | blocked:2.1 | 1.1 leaves by another's call
    pick             | free:2.1      |             | 2.1 is free in the answer alone

    An evict leaves the entry where it is, for the next to pass.
    open 1 1         | ok            |
    begin 1 writes 7 | free:1.1      | free:1.1
    begin 2 writes 7 | blocked:2.1@7 | free:1.1 blocked:2.1
    evict 1 1        | done          | free:1.1 blocked:2.1
    scan 2           | free:2.1      | free:1.1 free:2.1 | 2.1 is free before 1.1 leaves

    A cancelled one comes back in its turn.
    open 1 1 1       | ok            |
    begin 1 writes 7 | free:1.1      | free:1.1
    begin 2 writes 7 | blocked:2.1@7 | free:1.1 blocked:2.1
    cancel 2 1       | done          | free:1.1
    begin 3 writes 7 | blocked:3.1@7 | free:1.1 blocked:3.1
    finish 1 1       | done          | blocked:2.1 blocked:3.1 | 2.1 comes back

    A shop is told what is not so.
    open 1 1         | ok       |
    begin 1 writes 7 | free:1.1 | free:1.1
    begin 2 writes 7 | free:2.1 | free:1.1 blocked:2.1 | 2.1 is free in the answer alone";

#[test]
fn broken_histories_are_refused() {
    judge(BROKEN);
}

/// Both run, so the second is refused exactly if they conflict.
#[test]
fn conflicts_are_told_from_the_lists_as_given() {
    for (one, other, conflict) in [
        ("reads 7", "reads 7", false),
        ("reads 6 writes 8", "reads 6 writes 7 9", false),
        ("reads 7", "writes 7", true),
        ("writes 7", "reads 7", true),
        ("writes 6 9", "writes 7 8 9", true),
        ("reads 7 writes 7", "reads 7", true),
        ("reads 7", "reads 7 writes 7", true),
    ] {
        let first = format!("begin 1 {} | free:1.1 | free:1.1", one);
        let second = format!("begin 2 {} | free:2.1 | free:1.1 free:2.1", other);
        let reason = "| 2.1 is free before 1.1 leaves";
        let wrong = if conflict { reason } else { "" };
        judge(&format!("{}\n{} {}", first, second, wrong));
    }
}
