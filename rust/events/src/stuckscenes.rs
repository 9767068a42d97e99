//! Scenes of Item 7 on a sound state: an entry is taken out, by the place where
//! it stands, its state, and what becomes of its records and of those behind it.
//! What is refused is in `scenes`.

use crate::random::Random;
use crate::scenes::{meter, Scene};
use crate::text::Call;
use second::{price, Entry, Event, State, Table};

pub const LEAVINGS: [(&str, Scene); 12] = [
    ("evict of a front", evict_front),
    ("evict in the middle", evict_middle),
    ("evict of a last", evict_last),
    ("evict of an only entry", evict_only),
    ("evict out of a full queue", evict_of_64),
    ("evict that leaves a record held", evict_shared),
    ("evict that lets a record go", evict_unshared),
    ("evict of all that is in the way", evict_in_the_way),
    ("cancel of a front", cancel_front),
    ("cancel in the middle", cancel_middle),
    ("cancel of a last", cancel_last),
    ("cancel of one that has its answers", cancel_answered),
];

/// A place for which `wanted` holds, with a state that is drawn first, so that
/// those that are rare come too.
fn place(random: &mut Random, table: &Table, wanted: impl Fn(usize) -> bool) -> Option<usize> {
    let state = random.one_of(&[State::Free, State::Waiting, State::Blocked]);
    let places = 0..table.queue.len();
    let found = places.filter(|&at| table.queue[at].state == state && wanted(at));
    random.any_of(&found.collect::<Vec<usize>>())
}

fn evict(table: &Table, at: usize) -> Call {
    let Entry { tenant, serial, .. } = table.queue[at];
    Call::Plain(Event::Evict { tenant, serial })
}

fn evict_front(random: &mut Random, table: &mut Table) -> Option<Call> {
    let several = table.queue.len() > 1;
    let at = place(random, table, |at| several && at == 0)?;
    Some(evict(table, at))
}

fn evict_middle(random: &mut Random, table: &mut Table) -> Option<Call> {
    let last = table.queue.len().saturating_sub(1);
    let at = place(random, table, |at| 0 < at && at < last)?;
    Some(evict(table, at))
}

fn evict_last(random: &mut Random, table: &mut Table) -> Option<Call> {
    let last = table.queue.len().saturating_sub(1);
    let at = place(random, table, |at| 0 < at && at == last)?;
    Some(evict(table, at))
}

fn evict_only(random: &mut Random, table: &mut Table) -> Option<Call> {
    let only = table.queue.len() == 1;
    let at = place(random, table, |_| only)?;
    Some(evict(table, at))
}

fn evict_of_64(random: &mut Random, table: &mut Table) -> Option<Call> {
    let full = table.queue.len() == 64;
    let at = place(random, table, |_| full)?;
    Some(evict(table, at))
}

/// Whether another entry than the one at that place has the record.
fn shared(table: &Table, at: usize, record: u8) -> bool {
    let mut others = (0..table.queue.len()).filter(|&other| other != at);
    others.any(|other| {
        let request = &table.queue[other].request;
        request.reads.contains(&record) || request.writes.contains(&record)
    })
}

fn evict_with(random: &mut Random, table: &Table, held: bool) -> Option<Call> {
    let at = place(random, table, |at| {
        let request = &table.queue[at].request;
        let mut records = request.reads.iter().chain(&request.writes);
        records.any(|&record| shared(table, at, record) == held)
    })?;
    Some(evict(table, at))
}

fn evict_shared(random: &mut Random, table: &mut Table) -> Option<Call> {
    evict_with(random, table, true)
}

fn evict_unshared(random: &mut Random, table: &mut Table) -> Option<Call> {
    evict_with(random, table, false)
}

/// Some Blocked entry behind it conflicts with nothing else ahead.
fn evict_in_the_way(random: &mut Random, table: &mut Table) -> Option<Call> {
    let queue = &table.queue;
    let at = place(random, table, |at| {
        let waits = |behind: &usize| {
            let entry = &queue[*behind];
            let mut ahead = (0..*behind).filter(|&other| entry.conflicts_with(&queue[other]));
            entry.state == State::Blocked && ahead.next() == Some(at) && ahead.next().is_none()
        };
        (at + 1..queue.len()).any(|behind| waits(&behind))
    })?;
    Some(evict(table, at))
}

/// Of a Blocked entry at such a place, on the last unit or with more.
fn cancel(
    random: &mut Random,
    table: &mut Table,
    wanted: impl Fn(&Table, usize) -> bool,
) -> Option<Call> {
    let places = 0..table.queue.len();
    let blocked = |at: &usize| table.queue[*at].state == State::Blocked && wanted(table, *at);
    let at = random.any_of(&places.filter(blocked).collect::<Vec<usize>>())?;
    let Entry { tenant, serial, .. } = table.queue[at];
    meter(table, tenant).fuel = price::CANCEL + random.one_of(&[0, 1, 60]);
    Some(Call::Plain(Event::Cancel { tenant, serial }))
}

fn cancel_front(random: &mut Random, table: &mut Table) -> Option<Call> {
    cancel(random, table, |_, at| at == 0)
}

fn cancel_middle(random: &mut Random, table: &mut Table) -> Option<Call> {
    cancel(random, table, |table, at| {
        0 < at && at + 1 < table.queue.len()
    })
}

fn cancel_last(random: &mut Random, table: &mut Table) -> Option<Call> {
    cancel(random, table, |table, at| {
        0 < at && at + 1 == table.queue.len()
    })
}

/// Its answers came while it was Blocked.
fn cancel_answered(random: &mut Random, table: &mut Table) -> Option<Call> {
    cancel(random, table, |table, at| {
        let entry = &table.queue[at];
        entry.due == 0 && entry.request.awaited > 0
    })
}
