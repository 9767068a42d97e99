//! The bench examples E1 to E10 of document 01, the second half of E6 as Item 4
//! leaves it.

mod common;

use common::{cs, cx, opened, said};
use second::Table;

/// The calls of document 01's listing up to line 7.
fn after_line_7() -> Table {
    let mut table = opened(&[2, 2]);
    table.grant(1, 40);
    table.grant(2, 40);
    assert_eq!(said(table.begin(1, 0, &[], &[10])), "free:1.1 4");
    assert_eq!(said(table.begin(1, 0, &[], &[11])), "free:1.2 4");
    assert_eq!(said(table.begin(2, 0, &[], &[10, 12])), "blocked:2.1@10 6");
    assert_eq!(said(table.begin(2, 0, &[], &[12])), "blocked:2.2@12 4");
    table
}

/// An empty queue, with places and this much fuel for tenant 1.
fn with_fuel(fuel: u32) -> Table {
    let mut table = opened(&[8]);
    table.grant(1, fuel);
    table
}

#[test]
fn e1_counts_after_line_7() {
    let table = after_line_7();
    assert_eq!([10, 11, 12].map(|record| cx(&table, record)), [2, 1, 2]);
}

#[test]
fn e2_counts_after_line_8_and_the_scan() {
    let mut table = after_line_7();
    assert_eq!(said(table.finish(1, 1)), "done 0");
    assert_eq!(cx(&table, 10), 1);
    assert_eq!(said(table.recheck(2, 1)), "still 3");
    // 1 + 2 + 3: the start, 1.2 with one record, 2.1 with two.
    assert_eq!(said(table.scan(2)), "free:2.1 6");
}

#[test]
fn e3_two_readers() {
    let mut table = with_fuel(100);
    assert_eq!(said(table.begin(1, 0, &[5], &[])), "free:1.1 4");
    assert_eq!(said(table.begin(1, 0, &[5], &[])), "free:1.2 4");
    assert_eq!(cs(&table, 5), 2);
}

#[test]
fn e4_a_reader_then_a_writer() {
    let mut table = with_fuel(100);
    assert_eq!(said(table.begin(1, 0, &[5], &[])), "free:1.1 4");
    assert_eq!(said(table.begin(1, 0, &[], &[5])), "blocked:1.2@5 4");
}

#[test]
fn e5_both_lists_empty() {
    let mut table = with_fuel(100);
    assert_eq!(said(table.begin(1, 0, &[], &[])), "free:1.1 2");
    assert_eq!(table.fuel(1), Some(98));
}

#[test]
fn e6_a_record_twice() {
    let mut table = with_fuel(100);
    assert_eq!(said(table.begin(1, 0, &[], &[7, 7])), "refused:4 1");
    assert_eq!(said(table.begin(1, 0, &[7], &[7])), "free:1.1 4");
    assert_eq!(table.fuel(1), Some(100 - 1 - 4));
    assert_eq!((cx(&table, 7), cs(&table, 7)), (1, 0));
}

#[test]
fn e7_fuel_below_the_price_and_at_it() {
    let mut table = with_fuel(3);
    assert_eq!(said(table.begin(1, 0, &[], &[1])), "refused:9 1");
    assert_eq!(table.fuel(1), Some(2));

    let mut table = with_fuel(4);
    assert_eq!(said(table.begin(1, 0, &[], &[1])), "free:1.1 4");
    assert_eq!(table.fuel(1), Some(0));
    assert_eq!(said(table.finish(1, 1)), "done 0");
    assert!(table.queue.is_empty());
}

#[test]
fn e8_a_scan_on_fuel_1() {
    let mut table = with_fuel(1);
    assert_eq!(said(table.scan(1)), "nothing 1");
    assert_eq!(table.fuel(1), Some(0));

    // On any other queue: even an entry without records costs 1.
    for writes in [&[][..], &[1], &[1, 2]] {
        let mut table = opened(&[1, 1]);
        table.grant(2, 100);
        assert_eq!(
            table.begin(2, 0, &[], writes).burnt,
            2 + 2 * writes.len() as u32
        );
        table.grant(1, 1);
        assert_eq!(said(table.scan(1)), "refused:9 1");
        assert_eq!(table.fuel(1), Some(0));
    }
}

#[test]
fn e9_eight_reads_and_nine() {
    let mut table = with_fuel(100);
    let reads: Vec<u8> = (1..=9).collect();
    assert_eq!(said(table.begin(1, 0, &reads[..8], &[])), "free:1.1 18");
    assert_eq!(said(table.begin(1, 0, &reads, &[])), "refused:3 1");
}

#[test]
fn e10_shares_adding_to_64_and_65() {
    let mut shares = [4; 16];
    assert_eq!(said(Table::open(&shares).1), "ok 0");
    shares[3] = 5;
    assert_eq!(said(Table::open(&shares).1), "refused:14 0");
}
