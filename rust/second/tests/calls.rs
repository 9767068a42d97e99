//! What the calls do when they are not refused, the traps of document 01, and
//! what Item 2 says of answers that come while an entry is Blocked.

mod common;

use common::{busy, opened, said};
use second::{Outcome, State, Table};

/// Tenants 1 to 3 with places and fuel.
fn roomy() -> Table {
    let mut table = opened(&[10, 10, 10]);
    for tenant in 1..=3 {
        table.grant(tenant, 10_000);
    }
    table
}

fn state(table: &Table, tenant: u8, serial: u16) -> State {
    let mut named = table
        .queue
        .iter()
        .filter(|entry| (entry.tenant, entry.serial) == (tenant, serial));
    let entry = named.next().expect("the entry is in the queue");
    assert_eq!(named.next(), None, "a name stands once in the queue");
    entry.state
}

#[test]
fn which_pairs_conflict() {
    // Reads and writes of the first request, of the second, and whether the
    // second is Blocked.
    type Lists = (&'static [u8], &'static [u8]);
    let pairs: [(Lists, Lists, bool); 7] = [
        ((&[5], &[]), (&[5], &[]), false),
        ((&[5], &[]), (&[], &[5]), true),
        ((&[], &[5]), (&[5], &[]), true),
        ((&[], &[5]), (&[], &[5]), true),
        ((&[4, 9], &[6]), (&[5, 8], &[7]), false),
        ((&[4, 9], &[6]), (&[5, 9], &[7]), false),
        ((&[1, 2, 3], &[0, 255]), (&[], &[254, 255]), true),
    ];
    for ((reads, writes), (later_reads, later_writes), blocked) in pairs {
        let mut table = roomy();
        table.begin(1, 0, reads, writes);
        table.begin(2, 0, later_reads, later_writes);
        assert_eq!(state(&table, 1, 1), State::Free);
        assert_eq!(state(&table, 2, 1) == State::Blocked, blocked);
    }
}

#[test]
fn a_blocked_entry_ahead_blocks_too() {
    let mut table = roomy();
    assert_eq!(said(table.begin(1, 0, &[], &[1])), "free:1.1 4");
    assert_eq!(said(table.begin(2, 0, &[], &[1, 2])), "blocked:2.1@1 6");
    assert_eq!(said(table.begin(3, 0, &[2], &[])), "blocked:3.1@2 4");
    // 2.1 ahead is Blocked itself: a scan for tenant 3 must not pass it.
    assert_eq!(said(table.scan(3)), "nothing 8");
    assert_eq!(state(&table, 3, 1), State::Blocked);
}

#[test]
fn a_conflict_comes_before_awaited() {
    let mut table = roomy();
    assert_eq!(said(table.begin(1, 1, &[], &[1])), "waiting:1.1 4");
    assert_eq!(said(table.begin(2, 1, &[1], &[])), "blocked:2.1@1 4");
}

#[test]
fn finish_keeps_the_order_of_the_others() {
    let mut table = roomy();
    for record in 1..=4 {
        table.begin(1, 0, &[], &[record]);
    }
    let fuel = table.fuel(1);
    assert_eq!(said(table.finish(1, 2)), "done 0");
    let serials: Vec<u16> = table.queue.iter().map(|entry| entry.serial).collect();
    assert_eq!(serials, [1, 3, 4]);
    assert_eq!(table.fuel(1), fuel, "the release was paid for at Begin");
}

#[test]
fn recheck_counts_entries_behind_and_scan_does_not() {
    let mut table = roomy();
    table.begin(1, 0, &[], &[1]);
    table.begin(2, 0, &[], &[1, 2]);
    table.begin(3, 0, &[2], &[]);
    table.finish(1, 1);
    // Nothing stands ahead of 2.1, but 3.1 behind it reads 2.
    assert_eq!(said(table.recheck(2, 1)), "still 3");
    assert_eq!(said(table.scan(2)), "free:2.1 4");
    table.finish(2, 1);
    assert_eq!(said(table.recheck(3, 1)), "free:3.1 2");
}

#[test]
fn scan_takes_the_callers_first_and_one_alone() {
    let mut table = roomy();
    table.begin(1, 0, &[], &[1]);
    table.begin(2, 0, &[], &[1]);
    table.begin(3, 0, &[1], &[]);
    table.begin(3, 0, &[1], &[]);
    assert_eq!(said(table.finish(1, 1)), "done 0");
    // 2.1 could be promoted, but it is not tenant 3's; and it is in the way.
    assert_eq!(said(table.scan(3)), "nothing 7");
    assert_eq!(said(table.scan(2)), "free:2.1 3");
    assert_eq!(said(table.finish(2, 1)), "done 0");
    // Both readers qualify now: the first is taken, the second not looked at.
    assert_eq!(said(table.scan(3)), "free:3.1 3");
    assert_eq!(state(&table, 3, 2), State::Blocked);
    assert_eq!(said(table.scan(3)), "free:3.2 5");
}

#[test]
fn pick_looks_at_the_front_alone() {
    let mut table = roomy();
    assert_eq!(said(table.pick()), "nothing 0");
    table.begin(1, 0, &[], &[1]);
    table.begin(2, 3, &[], &[1]);
    assert_eq!(said(table.pick()), "nothing 0");
    table.finish(1, 1);
    assert_eq!(said(table.pick()), "waiting:2.1 0");
    assert_eq!(said(table.pick()), "nothing 0");
}

#[test]
fn answers_do_not_run_a_blocked_entry() {
    let mut table = busy();
    assert_eq!(said(table.deliver(2, 1)), "blocked:2.1 0");
    assert_eq!(state(&table, 2, 1), State::Blocked);
}

/// 2.1 awaits three answers, reads 11 and writes 10. It is Blocked behind 1.1,
/// which leaves once so many of the answers have come.
fn answered_while_blocked(answers: usize) -> Table {
    let mut table = roomy();
    assert_eq!(said(table.begin(1, 0, &[], &[10])), "free:1.1 4");
    assert_eq!(said(table.begin(2, 3, &[11], &[10])), "blocked:2.1@10 6");
    for _ in 0..answers {
        assert_eq!(said(table.deliver(2, 1)), "blocked:2.1 0");
    }
    assert_eq!(said(table.finish(1, 1)), "done 0");
    table
}

/// The calls that promote 2.1 where it is alone in the queue, and what they
/// burn: 1 + 2 for a Recheck, 1 and 1 + 2 for a Scan.
type Promote = fn(&mut Table) -> Outcome;
const PROMOTIONS: [(Promote, u32); 3] = [
    (|table| table.recheck(2, 1), 3),
    (|table| table.scan(2), 4),
    (|table| table.pick(), 0),
];

/// Item 2: "A promoted entry becomes Waiting only if an answer is still due,
/// otherwise Free." It can then leave, even on a dry tank.
#[test]
fn promoted_after_its_last_answer_it_is_free() {
    for (promote, burnt) in PROMOTIONS {
        let mut table = answered_while_blocked(3);
        let promoted = said(promote(&mut table));
        assert_eq!(promoted, format!("free:2.1 {}", burnt));
        assert_eq!(said(table.deliver(2, 1)), "refused:12 0");
        assert_eq!(said(table.recheck(2, 1)), "refused:11 1");
        table.meters[1].fuel = 0;
        assert_eq!(said(table.finish(2, 1)), "done 0");
        assert!(table.queue.is_empty());
    }
}

/// With none, one or two of the three answers in.
#[test]
fn promoted_with_an_answer_due_it_waits_for_it() {
    for (promote, burnt) in PROMOTIONS {
        for answers in 0..3 {
            let mut table = answered_while_blocked(answers);
            let promoted = said(promote(&mut table));
            assert_eq!(promoted, format!("waiting:2.1 {}", burnt));
            assert_eq!(said(table.finish(2, 1)), "refused:11 1");
            for _ in answers..2 {
                assert_eq!(said(table.deliver(2, 1)), "waiting:2.1 0");
            }
            assert_eq!(said(table.deliver(2, 1)), "free:2.1 0");
            assert_eq!(said(table.finish(2, 1)), "done 0");
        }
    }
}

/// "64 entries of 16 records": 1 + 64 x 17 = 1,089.
#[test]
fn the_dearest_scan() {
    let mut table = opened(&[32, 32]);
    for tenant in 1..=3 {
        table.grant(tenant, 10_000);
    }
    let reads: Vec<u8> = (0..8).collect();
    let writes: Vec<u8> = (8..16).collect();
    for place in 0..64 {
        table.begin(1 + place % 2, 0, &reads, &writes);
    }
    assert_eq!(table.queue.len(), 64);
    for tenant in 1..=3 {
        assert_eq!(said(table.scan(tenant)), "nothing 1089");
    }
}

#[test]
fn open_starts_afresh() {
    let table = opened(&[1, 2, 3]);
    assert!(table.queue.is_empty());
    let shares: Vec<u8> = table.meters.iter().map(|meter| meter.share).collect();
    assert_eq!(shares, [1, 2, 3, 0, 0, 0, 0, 0, 0, 0, 0, 0, 0, 0, 0, 0]);
    assert!(table.meters.iter().all(|meter| meter.fuel == 0));
    assert!(table.meters.iter().all(|meter| meter.serials == 0));
}
