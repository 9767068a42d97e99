//! Item 4: "A record in both lists shall count as written only: it raises Cx and
//! not Cs, is counted once in n, and is stored among the writes alone."

mod common;

use common::{cs, cx, opened, said};
use second::{State, Table};

/// Reads and writes of a Begin, as given or as stored.
type Lists = (&'static [u8], &'static [u8]);

/// Tenants 1 to 3 with places, and this much fuel each.
fn with_fuel(fuel: u32) -> Table {
    let mut table = opened(&[10, 10, 10]);
    for tenant in 1..=3 {
        table.grant(tenant, fuel);
    }
    table
}

fn stored(table: &Table, at: usize) -> (&[u8], &[u8]) {
    let request = &table.queue[at].request;
    (&request.reads, &request.writes)
}

/// As given, as stored, and the price: 2 + 2n over what is stored.
const REDUCED: [(Lists, Lists, u32); 11] = [
    ((&[7], &[7]), (&[], &[7]), 4),
    ((&[7, 7], &[7]), (&[], &[7]), 4),
    ((&[9, 3], &[9]), (&[3], &[9]), 6),
    ((&[7, 21], &[7]), (&[21], &[7]), 6),
    ((&[3, 7], &[5, 7]), (&[3], &[5, 7]), 8),
    ((&[1, 2, 3], &[1, 2, 3]), (&[], &[1, 2, 3]), 8),
    ((&[9, 1, 9, 2, 9, 3, 9], &[9]), (&[1, 2, 3], &[9]), 10),
    ((&[255, 0], &[255]), (&[0], &[255]), 6),
    ((&[0, 255, 0], &[0]), (&[255], &[0]), 6),
    // Nothing to take out.
    ((&[3], &[9]), (&[3], &[9]), 6),
    (
        (&[1, 2, 3, 4, 5, 6, 7, 8], &[1, 2, 3, 4, 5, 6, 7, 8]),
        (&[], &[1, 2, 3, 4, 5, 6, 7, 8]),
        18,
    ),
];

#[test]
fn what_is_stored_and_what_it_costs() {
    for ((reads, writes), reduced, price) in REDUCED {
        let mut table = with_fuel(100);
        let told = said(table.begin(1, 0, reads, writes));
        assert_eq!(
            told,
            format!("free:1.1 {}", price),
            "{:?} {:?}",
            reads,
            writes
        );
        assert_eq!(table.fuel(1), Some(100 - price));
        assert_eq!(stored(&table, 0), reduced);
    }
}

/// "A tank of exactly the reduced price is enough": the last unit goes, and one
/// unit less gives 9.
#[test]
fn the_price_is_that_of_the_reduced_lists() {
    for ((reads, writes), _, price) in REDUCED {
        let mut table = with_fuel(price);
        let told = said(table.begin(1, 0, reads, writes));
        assert_eq!(told, format!("free:1.1 {}", price));
        assert_eq!(table.fuel(1), Some(0));
        assert_eq!(said(table.finish(1, 1)), "done 0");

        let mut table = with_fuel(price - 1);
        assert_eq!(said(table.begin(1, 0, reads, writes)), "refused:9 1");
        assert_eq!(table.fuel(1), Some(price - 2));
        assert!(table.queue.is_empty());
    }
}

#[test]
fn it_raises_cx_and_not_cs() {
    let mut table = with_fuel(100);
    table.begin(1, 0, &[7, 21], &[7, 9]);
    let counters = |table: &Table| [7, 9, 21].map(|record| (cx(table, record), cs(table, record)));
    assert_eq!(counters(&table), [(1, 0), (1, 0), (0, 1)]);
    assert_eq!(said(table.finish(1, 1)), "done 0");
    assert_eq!(counters(&table), [(0, 0); 3]);
}

/// A Recheck, a Scan and its looks cost 1 + n, with the record counted once.
#[test]
fn it_is_counted_once_by_the_later_calls() {
    let mut table = with_fuel(100);
    assert_eq!(said(table.begin(1, 0, &[7], &[7])), "free:1.1 4");
    assert_eq!(said(table.begin(2, 0, &[7, 21], &[7])), "blocked:2.1@7 6");
    // 1 + 2; then 1, and 1 + 1 for 1.1, 1 + 2 for 2.1.
    assert_eq!(said(table.recheck(2, 1)), "still 3");
    assert_eq!(said(table.scan(2)), "nothing 6");
    assert_eq!(said(table.finish(1, 1)), "done 0");
    table.meters[1].fuel = 3;
    assert_eq!(said(table.scan(2)), "refused:9 1");
    table.meters[1].fuel = 4;
    assert_eq!(said(table.scan(2)), "free:2.1 4");

    let mut table = with_fuel(100);
    table.begin(1, 0, &[7], &[7]);
    table.begin(2, 0, &[7, 21], &[7]);
    table.finish(1, 1);
    table.meters[1].fuel = 2;
    assert_eq!(said(table.recheck(2, 1)), "refused:9 1");
    table.meters[1].fuel = 3;
    assert_eq!(said(table.recheck(2, 1)), "free:2.1 3");
}

/// The ways to ask for record 7: in both lists, in any order, or written only;
/// then those that only read it.
const WRITING: [Lists; 4] = [
    (&[7], &[7]),
    (&[7, 9, 7], &[7]),
    (&[7, 9], &[6, 7]),
    (&[], &[7]),
];
const READING: [Lists; 2] = [(&[7], &[]), (&[8, 7], &[8])];

fn second_is_blocked(first: Lists, second: Lists) -> bool {
    let mut table = with_fuel(100);
    table.begin(1, 0, first.0, first.1);
    table.begin(2, 0, second.0, second.1);
    assert_eq!(table.queue.len(), 2);
    assert_eq!(table.queue[0].state, State::Free);
    table.queue[1].state == State::Blocked
}

#[test]
fn two_that_want_the_same_record() {
    for first in WRITING {
        for second in WRITING {
            assert!(second_is_blocked(first, second), "{:?} {:?}", first, second);
        }
        for reader in READING {
            assert!(second_is_blocked(first, reader), "{:?} {:?}", first, reader);
            assert!(second_is_blocked(reader, first), "{:?} {:?}", reader, first);
        }
    }
    for first in READING {
        for second in READING {
            let both_write_8 = first.1 == [8] && second.1 == [8];
            assert_eq!(second_is_blocked(first, second), both_write_8);
        }
    }
}

/// What is only read stays shared: 9 is read by each of these, and 20 by the
/// last two.
#[test]
fn readers_of_the_other_records_go_on() {
    let first: Lists = (&[7, 9], &[7]);
    for reader in [
        (&[9][..], &[][..]),
        (&[9, 8], &[8]),
        (&[20], &[]),
        (&[6, 20], &[6]),
    ] {
        assert!(!second_is_blocked(first, reader), "{:?}", reader);
    }
    // All its reads are written: there is no reader of 7 in the way of 9.
    assert!(!second_is_blocked((&[7, 8], &[7, 8]), (&[9, 10], &[9, 10])));
}

/// Its own read must not be in the way of its own write.
#[test]
fn a_promotion_is_not_hindered_by_its_own_lists() {
    type Promote = fn(&mut Table) -> second::Outcome;
    let promotions: [(Promote, u32); 3] = [
        (|table| table.recheck(2, 1), 3),
        (|table| table.scan(2), 4),
        (|table| table.pick(), 0),
    ];
    for (promote, burnt) in promotions {
        let mut table = with_fuel(100);
        table.begin(1, 0, &[], &[7]);
        assert_eq!(
            said(table.begin(2, 1, &[9, 7, 9], &[7, 9])),
            "blocked:2.1@7 6"
        );
        table.finish(1, 1);
        assert_eq!(said(promote(&mut table)), format!("waiting:2.1 {}", burnt));
        assert_eq!(said(table.deliver(2, 1)), "free:2.1 0");
        assert_eq!(said(table.finish(2, 1)), "done 0");
        assert!(table.queue.is_empty());
    }
}

/// Every list of up to `most` records out of 0 to 2, in any order.
fn small_lists(most: usize) -> Vec<Vec<u8>> {
    let mut lists = vec![Vec::new()];
    let mut from = 0;
    for _ in 0..most {
        let shorter = lists[from..].to_vec();
        from = lists.len();
        for list in shorter {
            lists.extend((0..3).map(|record| [&list[..], &[record]].concat()));
        }
    }
    lists
}

/// Whether some record of the list is followed, at any distance, by one that is
/// not above it; those in `without` do not matter.
fn falls(list: &[u8], without: &[u8]) -> bool {
    (0..list.len()).any(|at| {
        (at + 1..list.len()).any(|later| {
            let (one, other) = (list[at], list[later]);
            !without.contains(&one) && !without.contains(&other) && one >= other
        })
    })
}

/// All pairs of small lists, record by record: written, only read, or neither.
#[test]
fn all_small_lists() {
    let (mut admitted, mut refused) = (0, 0);
    for reads in small_lists(4) {
        for writes in small_lists(3) {
            let mut table = with_fuel(100);
            let told = said(table.begin(1, 0, &reads, &writes));
            let what = format!("{:?} {:?}", reads, writes);
            if falls(&writes, &[]) || falls(&reads, &writes) {
                assert_eq!(told, "refused:4 1", "{}", what);
                refused += 1;
                continue;
            }
            let written: Vec<u8> = (0..3).filter(|record| writes.contains(record)).collect();
            let read = (0..3).filter(|record| reads.contains(record));
            let only_read: Vec<u8> = read.filter(|record| !written.contains(record)).collect();
            let price = 2 + 2 * (written.len() + only_read.len());
            assert_eq!(told, format!("free:1.1 {}", price), "{}", what);
            assert_eq!(
                stored(&table, 0),
                (&only_read[..], &written[..]),
                "{}",
                what
            );
            admitted += 1;
        }
    }
    // 121 lists of up to four, 40 of up to three.
    assert_eq!(admitted + refused, 121 * 40);
    assert!(admitted > 300, "only {} admitted", admitted);
}
