//! What several test files need. Expected numbers in the tests are worked out
//! by hand from the documents.
#![allow(dead_code)]

use second::table::{Held, TENANTS};
use second::{Answer, Outcome, State, Table};

/// A table with these shares for tenants 1, 2, ...; the rest 0.
pub fn opened(first_shares: &[u8]) -> Table {
    let mut shares = [0; TENANTS];
    shares[..first_shares.len()].copy_from_slice(first_shares);
    let (table, outcome) = Table::open(&shares);
    assert_eq!(outcome, burning(0, Answer::Ok));
    table
}

/// Tenants 1 to 3 with fuel and places to spare, tenant 4 with fuel but no
/// share, tenant 5 with a share but no fuel. The queue holds, front first:
///   1.1 Free, writes 10;
///   1.2 Waiting for two answers, writes 20;
///   2.1 Blocked by 1.1, awaits one answer, reads 11 and writes 10.
/// Begins cost 4, 4 and 6, so the fuel is 92, 94, 100, 100, 0.
pub fn busy() -> Table {
    let mut table = opened(&[3, 3, 2, 0, 2]);
    for tenant in 1..=4 {
        assert_eq!(table.grant(tenant, 100), burning(0, Answer::Ok));
    }
    let entry = |state, tenant, serial, clash| Answer::Entry {
        state,
        tenant,
        serial,
        clash,
    };
    let free = entry(State::Free, 1, 1, None);
    let waiting = entry(State::Waiting, 1, 2, None);
    let blocked = entry(State::Blocked, 2, 1, Some(10));
    assert_eq!(table.begin(1, 0, &[], &[10]), burning(4, free));
    assert_eq!(table.begin(1, 2, &[], &[20]), burning(4, waiting));
    assert_eq!(table.begin(2, 1, &[11], &[10]), burning(6, blocked));
    table
}

pub fn burning(burnt: u32, answer: Answer) -> Outcome {
    Outcome { answer, burnt }
}

/// The answer and the units burnt, as the listing writes them.
pub fn said(outcome: Outcome) -> String {
    format!("{} {}", outcome.answer, outcome.burnt)
}

/// Item 5's counts of records.
pub fn held(written: u16, read: u16, either: u16) -> Held {
    Held {
        written,
        read,
        either,
    }
}

/// Makes a call that must be refused with this number, burning this much of
/// the tenant's fuel and leaving everything else as it was: queue, states,
/// answers due, places, serials, and the fuel of all others.
pub fn assert_refused(
    table: &mut Table,
    tenant: u8,
    (number, burnt): (u8, u32),
    call: impl FnOnce(&mut Table) -> Outcome,
) {
    let mut expected = table.clone();
    let outcome = call(table);
    assert_eq!(said(outcome), format!("refused:{} {}", number, burnt));
    if burnt > 0 {
        expected.meters[usize::from(tenant) - 1].fuel -= burnt;
    }
    assert_eq!(*table, expected, "after refusal {}", number);
}

/// Cx of document 01, counted over the queue.
pub fn cx(table: &Table, record: u8) -> usize {
    let writers = |entry: &&second::Entry| entry.request.writes.contains(&record);
    table.queue.iter().filter(writers).count()
}

/// Cs of document 01, counted over the queue.
pub fn cs(table: &Table, record: u8) -> usize {
    let readers = |entry: &&second::Entry| entry.request.reads.contains(&record);
    table.queue.iter().filter(readers).count()
}
