//! What a call's units were paid for. It is told from the call, its answer and
//! the queue before it, and not from the units that the call says it burnt:
//! that the parts sum up to those is a check.

use second::{price, Answer, Entry, Event, Refusal, Request, Table};

/// One thing that was paid for.
#[derive(Clone, Copy, Debug, PartialEq, Eq)]
pub enum Part {
    /// A Begin's work, and its release, which is paid with it.
    Now(u32),
    Release(u32),
    Recheck(u32),
    Cancel(u32),
    /// A Scan's own unit.
    Search(u32),
    /// Its looks at so many entries, from the front.
    Looks {
        entries: usize,
        units: u32,
    },
    /// The charge of a refusal, by the row of the table.
    Row(u32),
}

impl Part {
    pub fn units(self) -> u32 {
        match self {
            Part::Now(units)
            | Part::Release(units)
            | Part::Recheck(units)
            | Part::Cancel(units)
            | Part::Search(units)
            | Part::Looks { units, .. }
            | Part::Row(units) => units,
        }
    }
}

/// The parts of a call's price; none where a success burns nothing.
pub fn bill(before: &Table, event: Event<'_>, answer: Answer) -> Vec<Part> {
    match (event, answer) {
        (Event::Scan { tenant }, Answer::Refused(Refusal::FuelBelowPrice)) => {
            search(before, affordable(before, tenant))
        }
        (_, Answer::Refused(refusal)) => vec![Part::Row(charge(event, refusal))],
        (Event::Scan { .. }, Answer::Entry { tenant, serial, .. }) => {
            let up_to = place(before, tenant, serial).map_or(0, |at| at + 1);
            search(before, up_to)
        }
        (Event::Scan { .. }, _) => search(before, before.queue.len()),
        (Event::Begin { reads, writes, .. }, _) => {
            let n = Request::reduced(0, reads, writes).n();
            vec![Part::Now(price::now(n)), Part::Release(price::release(n))]
        }
        (Event::Recheck { tenant, serial }, _) => {
            let entry = place(before, tenant, serial).map(|at| &before.queue[at]);
            let n = entry.map_or(0, |entry| entry.request.n());
            vec![Part::Recheck(price::recheck(n))]
        }
        (Event::Cancel { .. }, _) => vec![Part::Cancel(price::CANCEL)],
        _ => Vec::new(),
    }
}

pub fn total(bill: &[Part]) -> u32 {
    bill.iter().map(|part| part.units()).sum()
}

/// The table's charge is for a tenant's calls; the host's burn nothing.
fn charge(event: Event<'_>, refusal: Refusal) -> u32 {
    match event {
        Event::Open { .. }
        | Event::Grant { .. }
        | Event::Pick
        | Event::Deliver { .. }
        | Event::Evict { .. } => 0,
        Event::Begin { .. }
        | Event::Finish { .. }
        | Event::Recheck { .. }
        | Event::Scan { .. }
        | Event::Cancel { .. } => price::refused(refusal),
    }
}

/// A search that looked at so many entries.
fn search(before: &Table, entries: usize) -> Vec<Part> {
    let units = before.queue[..entries].iter().map(look).sum();
    vec![Part::Search(price::SCAN), Part::Looks { entries, units }]
}

/// At how many entries the tenant's fuel lets a search look.
fn affordable(before: &Table, tenant: u8) -> usize {
    let fuel = before.fuel(tenant).unwrap_or(0);
    let mut spent = price::SCAN;
    let paid = before.queue.iter().take_while(|entry| {
        spent += look(entry);
        spent <= fuel
    });
    paid.count()
}

/// What a search pays for a look at an entry.
pub fn look(entry: &Entry) -> u32 {
    price::look(entry.request.n())
}

fn place(table: &Table, tenant: u8, serial: u16) -> Option<usize> {
    let mut queue = table.queue.iter();
    queue.position(|entry| (entry.tenant, entry.serial) == (tenant, serial))
}
