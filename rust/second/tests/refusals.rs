//! The refusals 1 to 14 of document 01, without 5, which Item 4 gives no more:
//! when they are given, what they burn, what they leave, and which comes first.

mod common;

use common::{assert_refused, busy, opened, said};
use second::{Outcome, Table};

const NINE: [u8; 9] = [1, 2, 3, 4, 5, 6, 7, 8, 9];

#[test]
fn no_1_not_a_tenant() {
    let calls: [fn(&mut Table, u8) -> Outcome; 8] = [
        |table, tenant| table.grant(tenant, 5),
        |table, tenant| table.begin(tenant, 0, &[], &[1]),
        |table, tenant| table.finish(tenant, 1),
        |table, tenant| table.recheck(tenant, 1),
        |table, tenant| table.scan(tenant),
        |table, tenant| table.deliver(tenant, 1),
        |table, tenant| table.evict(tenant, 1),
        |table, tenant| table.cancel(tenant, 1),
    ];
    let mut table = busy();
    for call in calls {
        for tenant in [0, 17, 255] {
            assert_refused(&mut table, tenant, (1, 0), |table| call(table, tenant));
        }
    }
}

#[test]
fn no_2_dry() {
    let mut table = busy();
    assert_refused(&mut table, 5, (2, 0), |table| table.begin(5, 0, &[], &[1]));
    assert_refused(&mut table, 5, (2, 0), |table| table.finish(5, 1));
    assert_refused(&mut table, 5, (2, 0), |table| table.recheck(5, 1));
    assert_refused(&mut table, 5, (2, 0), |table| table.scan(5));
    assert_refused(&mut table, 5, (2, 0), |table| table.cancel(5, 1));
}

#[test]
fn no_3_too_many_records() {
    let mut table = busy();
    assert_refused(&mut table, 1, (3, 1), |table| table.begin(1, 0, &NINE, &[]));
    assert_refused(&mut table, 1, (3, 1), |table| table.begin(1, 0, &[], &NINE));
    let writes: Vec<u8> = (100..108).collect();
    assert_eq!(said(table.begin(1, 0, &NINE[..8], &writes)), "free:1.3 34");
}

#[test]
fn no_4_not_rising() {
    let mut table = busy();
    for bad in [[7, 7], [9, 3]] {
        assert_refused(&mut table, 1, (4, 1), |table| table.begin(1, 0, &bad, &[]));
        assert_refused(&mut table, 1, (4, 1), |table| table.begin(1, 0, &[], &bad));
    }
}

/// Item 4: "The limits of 8 apply to the lists as given."
#[test]
fn no_3_is_judged_on_the_lists_as_given() {
    let mut table = busy();
    // Without the written ones they would be 1, 8 and no reads.
    let first: Vec<u8> = (1..=8).collect();
    for (reads, writes) in [(&NINE[..], &first[..]), (&NINE, &[5]), (&[7; 9], &[7])] {
        assert_refused(&mut table, 1, (3, 1), |table| {
            table.begin(1, 0, reads, writes)
        });
    }
    assert_refused(&mut table, 1, (3, 1), |table| {
        table.begin(1, 0, &NINE, &NINE)
    });
    // Eight of each are 16 names of 8 records.
    assert_eq!(said(table.begin(1, 0, &first, &first)), "free:1.3 18");
}

/// Item 4: "All else uses the reduced lists." Writes stay as given.
#[test]
fn no_4_is_judged_on_the_reduced_lists() {
    let mut table = busy();
    let bad: [(&[u8], &[u8]); 7] = [
        (&[3, 9, 3], &[9]),
        (&[5, 9, 3], &[9]),
        (&[9, 3, 3], &[9]),
        (&[7, 7], &[8]),
        (&[7, 7], &[7, 7]),
        (&[7], &[7, 7]),
        (&[3, 9], &[9, 3]),
    ];
    for (reads, writes) in bad {
        assert_refused(&mut table, 1, (4, 1), |table| {
            table.begin(1, 0, reads, writes)
        });
    }
}

/// What was 5's own case is admitted, or meets a later number.
#[test]
fn no_5_is_no_longer_given() {
    let both: (&[u8], &[u8]) = (&[3, 7], &[5, 7]);
    let begin = |table: &mut Table, tenant, awaited| table.begin(tenant, awaited, both.0, both.1);
    let mut table = busy();
    assert_refused(&mut table, 1, (6, 1), |table| begin(table, 1, 16));
    assert_refused(&mut table, 4, (7, 1), |table| begin(table, 4, 0));
    table.meters[2].serials = 65_535;
    assert_refused(&mut table, 3, (8, 1), |table| begin(table, 3, 0));
    // Three records, so that the price is 8 and not 10.
    table.meters[0].fuel = 7;
    assert_refused(&mut table, 1, (9, 1), |table| begin(table, 1, 0));
    table.meters[0].fuel = 8;
    assert_eq!(said(begin(&mut table, 1, 0)), "free:1.3 8");
    assert_eq!(table.fuel(1), Some(0));
}

#[test]
fn no_6_awaited_above_15() {
    let mut table = busy();
    assert_refused(&mut table, 1, (6, 1), |table| table.begin(1, 16, &[], &[1]));
    assert_refused(&mut table, 1, (6, 1), |table| {
        table.begin(1, 255, &[], &[1])
    });
    assert_eq!(said(table.begin(1, 15, &[], &[1])), "waiting:1.3 4");
}

#[test]
fn no_7_share_in_use() {
    let mut table = busy();
    assert_refused(&mut table, 4, (7, 1), |table| table.begin(4, 0, &[], &[1]));
    assert_eq!(said(table.begin(1, 0, &[], &[1])), "free:1.3 4");
    assert_refused(&mut table, 1, (7, 1), |table| table.begin(1, 0, &[], &[2]));
    // "A freed place serves again", and a serial is never given twice.
    assert_eq!(said(table.finish(1, 3)), "done 0");
    assert_eq!(said(table.begin(1, 0, &[], &[2])), "free:1.4 4");
}

/// No event file holds 65,535 Begins, so the serials are set directly.
#[test]
fn no_8_all_serials_given() {
    let mut table = busy();
    table.meters[2].serials = 65_534;
    assert_eq!(said(table.begin(3, 0, &[], &[1])), "free:3.65535 4");
    assert_refused(&mut table, 3, (8, 1), |table| table.begin(3, 0, &[], &[2]));
    assert_eq!(table.meters[2].serials, 65_535);
}

#[test]
fn no_9_fuel_below_the_price() {
    let mut table = busy();
    // Begin with one record costs 4, recheck of 2.1 with two records 3.
    table.meters[1].fuel = 3;
    assert_refused(&mut table, 2, (9, 1), |table| table.begin(2, 0, &[], &[1]));
    assert_eq!(table.fuel(2), Some(2));
    assert_refused(&mut table, 2, (9, 1), |table| table.recheck(2, 1));
    table.meters[1].fuel = 3;
    assert_eq!(said(table.recheck(2, 1)), "still 3");
    assert_eq!(table.fuel(2), Some(0));
}

/// A scan costs 1 to start, then 2, 2 and 3 for the three entries.
#[test]
fn no_9_scan_cut_short() {
    let cut = [(1, 1), (2, 1), (3, 3), (4, 3), (5, 5), (6, 5), (7, 5)];
    for (fuel, burnt) in cut {
        let mut table = busy();
        table.meters[2].fuel = fuel;
        assert_refused(&mut table, 3, (9, burnt), |table| table.scan(3));
    }
    let mut table = busy();
    table.meters[2].fuel = 8;
    assert_eq!(said(table.scan(3)), "nothing 8");
}

#[test]
fn no_10_no_such_entry() {
    let mut table = busy();
    // Serial 0, one not given yet, and one that is another tenant's.
    for (tenant, serial) in [(1, 0), (1, 3), (2, 2)] {
        assert_refused(&mut table, tenant, (10, 1), |table| {
            table.finish(tenant, serial)
        });
        assert_refused(&mut table, tenant, (10, 1), |table| {
            table.recheck(tenant, serial)
        });
        assert_refused(&mut table, tenant, (10, 0), |table| {
            table.deliver(tenant, serial)
        });
        assert_refused(&mut table, tenant, (10, 0), |table| {
            table.evict(tenant, serial)
        });
        assert_refused(&mut table, tenant, (10, 1), |table| {
            table.cancel(tenant, serial)
        });
    }
    assert_eq!(said(table.finish(1, 1)), "done 0");
    assert_refused(&mut table, 1, (10, 1), |table| table.finish(1, 1));
}

#[test]
fn no_11_wrong_state() {
    let mut table = busy();
    assert_refused(&mut table, 1, (11, 1), |table| table.finish(1, 2));
    assert_refused(&mut table, 2, (11, 1), |table| table.finish(2, 1));
    assert_refused(&mut table, 1, (11, 1), |table| table.recheck(1, 1));
    assert_refused(&mut table, 1, (11, 1), |table| table.recheck(1, 2));
    assert_refused(&mut table, 1, (11, 1), |table| table.cancel(1, 1));
    assert_refused(&mut table, 1, (11, 1), |table| table.cancel(1, 2));
}

#[test]
fn no_12_nothing_due() {
    let mut table = busy();
    assert_refused(&mut table, 1, (12, 0), |table| table.deliver(1, 1));
    assert_eq!(said(table.deliver(1, 2)), "waiting:1.2 0");
    assert_eq!(said(table.deliver(1, 2)), "free:1.2 0");
    assert_refused(&mut table, 1, (12, 0), |table| table.deliver(1, 2));
    assert_eq!(said(table.deliver(2, 1)), "blocked:2.1 0");
    assert_refused(&mut table, 2, (12, 0), |table| table.deliver(2, 1));
}

#[test]
fn no_13_grant_past_the_limit() {
    let mut table = busy();
    // Tenant 3 has 100.
    assert_refused(&mut table, 3, (13, 0), |table| table.grant(3, 999_999_901));
    assert_refused(&mut table, 3, (13, 0), |table| table.grant(3, u32::MAX));
    assert_eq!(said(table.grant(3, 999_999_900)), "ok 0");
    assert_eq!(table.fuel(3), Some(1_000_000_000));
    assert_refused(&mut table, 3, (13, 0), |table| table.grant(3, 1));
    assert_eq!(said(table.grant(3, 0)), "ok 0");
}

#[test]
fn no_14_bad_shares() {
    let mut over = [4; 16];
    over[15] = 5;
    let bad: [&[u8]; 5] = [&[], &[1; 15], &[1; 17], &over, &[255; 16]];
    for shares in bad {
        let (mut table, outcome) = Table::open(shares);
        assert_eq!(said(outcome), "refused:14 0");
        // A fresh state with every share 0, on which calls run.
        assert_eq!(table, opened(&[]));
        assert_eq!(said(table.grant(1, 10)), "ok 0");
        assert_refused(&mut table, 1, (7, 1), |table| table.begin(1, 0, &[], &[1]));
    }
}

/// "Begin takes 1 to 9 in number order", without 5. Each call below meets its
/// number and the later ones too, as far as they can meet: an unsound tenant has
/// no tank, and a dry one, for whom every price is too high, is 2's own case.
#[test]
fn order_of_begin() {
    // Tenant 1: share used up, all serials given, one unit of fuel.
    let mut table = opened(&[1, 1]);
    table.grant(1, 100);
    assert_eq!(said(table.begin(1, 0, &[], &[1])), "free:1.1 4");
    table.meters[0].serials = 65_535;
    table.meters[1].serials = 65_535;
    let falling = [9, 8, 7, 6, 5, 4, 3, 2, 1];
    let mut begin = |(number, burnt), tenant, fuel, awaited, reads: &[u8], writes: &[u8]| {
        table.meters[0].fuel = fuel;
        table.meters[1].fuel = fuel;
        assert_refused(&mut table, tenant, (number, burnt), |table| {
            table.begin(tenant, awaited, reads, writes)
        });
    };
    begin((1, 0), 17, 0, 16, &falling, &falling);
    begin((2, 0), 1, 0, 16, &falling, &falling);
    begin((3, 1), 1, 1, 16, &falling, &[9, 9]);
    begin((4, 1), 1, 1, 16, &[7, 7], &[8]);
    begin((4, 1), 1, 1, 16, &[7], &[7, 7]);
    begin((6, 1), 1, 1, 16, &[7], &[7]);
    begin((6, 1), 1, 1, 16, &[], &[7]);
    begin((7, 1), 1, 1, 15, &[7, 7], &[7]);
    begin((7, 1), 1, 1, 15, &[], &[7]);
    // Tenant 2 has a place left.
    begin((8, 1), 2, 1, 15, &[], &[7]);
}

/// "Recheck: 1, 2, 10, 11, 9."
#[test]
fn order_of_recheck() {
    let mut table = busy();
    assert_refused(&mut table, 0, (1, 0), |table| table.recheck(0, 9));
    table.meters[0].fuel = 0;
    assert_refused(&mut table, 1, (2, 0), |table| table.recheck(1, 9));
    assert_refused(&mut table, 1, (2, 0), |table| table.recheck(1, 1));
    table.meters[0].fuel = 1;
    assert_refused(&mut table, 1, (10, 1), |table| table.recheck(1, 9));
    // 1.1 is Free and its recheck would cost 2.
    table.meters[0].fuel = 1;
    assert_refused(&mut table, 1, (11, 1), |table| table.recheck(1, 1));
}

/// "Finish: 1; then a Free entry of that name succeeds even on a dry tank;
/// then 2, 10, 11."
#[test]
fn order_of_finish() {
    let mut table = busy();
    assert_refused(&mut table, 0, (1, 0), |table| table.finish(0, 1));
    table.meters[0].fuel = 0;
    assert_refused(&mut table, 1, (2, 0), |table| table.finish(1, 9));
    assert_refused(&mut table, 1, (2, 0), |table| table.finish(1, 2));
    assert_eq!(said(table.finish(1, 1)), "done 0");
    assert_eq!(table.queue.len(), 2);
}

/// "Scan: 1, 2, then it walks." "Deliver: 1, 10, 12." "Grant: 1, 13."
#[test]
fn order_of_scan_deliver_and_grant() {
    let mut table = busy();
    assert_refused(&mut table, 17, (1, 0), |table| table.scan(17));
    assert_refused(&mut table, 5, (2, 0), |table| table.scan(5));
    assert_refused(&mut table, 17, (1, 0), |table| table.deliver(17, 9));
    assert_refused(&mut table, 1, (10, 0), |table| table.deliver(1, 9));
    assert_refused(&mut table, 17, (1, 0), |table| table.grant(17, u32::MAX));
    // Host calls know no dry tank.
    table.meters[0].fuel = 0;
    assert_eq!(said(table.deliver(1, 2)), "waiting:1.2 0");
    assert_refused(&mut table, 1, (12, 0), |table| table.deliver(1, 1));
}

/// "Refusals: evict 1, 10, burning 0; cancel 1, 2, 10, then 11 for an entry not
/// Blocked, with the table's charges." (Item 7)
#[test]
fn order_of_evict_and_cancel() {
    let mut table = busy();
    assert_refused(&mut table, 17, (1, 0), |table| table.evict(17, 9));
    assert_refused(&mut table, 17, (1, 0), |table| table.cancel(17, 9));
    // Of a dry tank a cancel says so first: no entry, one not Blocked, a Blocked one.
    table.meters[0].fuel = 0;
    table.meters[1].fuel = 0;
    for (tenant, serial) in [(1, 9), (1, 1), (1, 2), (2, 1)] {
        assert_refused(&mut table, tenant, (2, 0), |table| {
            table.cancel(tenant, serial)
        });
    }
    assert_refused(&mut table, 1, (10, 0), |table| table.evict(1, 9));
    // One unit is enough to be told more.
    for (serial, number) in [(9, 10), (1, 11), (2, 11)] {
        table.meters[0].fuel = 1;
        assert_refused(&mut table, 1, (number, 1), |table| table.cancel(1, serial));
    }
    table.meters[1].fuel = 1;
    assert_eq!(said(table.cancel(2, 1)), "done 1");
    assert_eq!(table.fuel(2), Some(0));
}
