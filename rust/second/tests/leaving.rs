//! Item 7, taking a stuck request out: the host's evict and a tenant's cancel,
//! worked out by hand. Their refusals by number and in order are in
//! `refusals.rs`, the bytes that they leave in a block in `block.rs`.

mod common;

use common::{assert_refused, busy, cs, cx, held, opened, said};
use second::{State, Table};

/// The names in the queue, front first, with their states.
fn queued(table: &Table) -> Vec<(u8, u16, State)> {
    let queue = table.queue.iter();
    queue.map(|e| (e.tenant, e.serial, e.state)).collect()
}

/// "for an entry in any state": 1.1 is Free and the front, 1.2 Waiting, 2.1
/// Blocked and the last. Nothing but that entry goes, no fuel comes back, and
/// nobody else starts.
#[test]
fn an_eviction_takes_out_an_entry_in_any_state() {
    for (at, (tenant, serial)) in [(1, 1), (1, 2), (2, 1)].into_iter().enumerate() {
        for fuel in [0, 1, 50] {
            let mut table = busy();
            table.meters[usize::from(tenant) - 1].fuel = fuel;
            let mut expected = table.clone();
            expected.queue.remove(at);
            assert_eq!(said(table.evict(tenant, serial)), "done 0");
            assert_eq!(table, expected);
        }
    }
}

/// "Both release counters and place": Cx of 10 and 20, and Cs of 11.
#[test]
fn an_eviction_releases_the_counters() {
    let counters = |table: &Table| [cx(table, 10), cx(table, 20), cs(table, 11)];
    assert_eq!(counters(&busy()), [2, 1, 1]);
    for (name, left, still) in [
        ((1, 1), [1, 1, 1], held(2, 1, 3)),
        ((1, 2), [2, 0, 1], held(1, 1, 2)),
        ((2, 1), [1, 1, 0], held(2, 0, 2)),
    ] {
        let mut table = busy();
        assert_eq!(said(table.evict(name.0, name.1)), "done 0");
        assert_eq!(counters(&table), left);
        assert_eq!(table.held(), still);
    }
}

/// All of them one after the other, from the back and from the front.
#[test]
fn evictions_empty_the_queue() {
    let names = [(1, 1), (1, 2), (2, 1)];
    for from_the_front in [true, false] {
        let mut table = busy();
        let meters = table.meters;
        for at in 0..3 {
            let (tenant, serial) = names[if from_the_front { at } else { 2 - at }];
            assert_eq!(said(table.evict(tenant, serial)), "done 0");
            assert_eq!(table.queue.len(), 2 - at);
        }
        assert_eq!(table.meters, meters);
        assert_eq!(table.held(), held(0, 0, 0));
    }
}

/// "A tenant needs "cancel" for its own Blocked entry, burning 1", also with its
/// answers in, and where nothing is in its way any more.
#[test]
fn a_cancel_takes_out_a_blocked_entry() {
    for (delivered, cleared, fuel) in [
        (false, false, 94),
        (true, false, 94),
        (false, true, 94),
        (true, true, 1),
    ] {
        let mut table = busy();
        if delivered {
            assert_eq!(said(table.deliver(2, 1)), "blocked:2.1 0");
        }
        if cleared {
            assert_eq!(said(table.finish(1, 1)), "done 0");
        }
        table.meters[1].fuel = fuel;
        let mut expected = table.clone();
        expected.queue.pop();
        expected.meters[1].fuel = fuel - 1;
        assert_eq!(said(table.cancel(2, 1)), "done 1");
        assert_eq!(table, expected);
        assert_eq!(cs(&table, 11), 0);
    }
}

/// A promoted entry is Blocked no more, be it Waiting or Free.
#[test]
fn a_cancel_comes_too_late_after_a_promotion() {
    let mut table = busy();
    assert_eq!(said(table.finish(1, 1)), "done 0");
    // 1, and 2 for 1.2, 3 for 2.1.
    assert_eq!(said(table.scan(2)), "waiting:2.1 6");
    assert_refused(&mut table, 2, (11, 1), |table| table.cancel(2, 1));
    assert_eq!(said(table.deliver(2, 1)), "free:2.1 0");
    assert_refused(&mut table, 2, (11, 1), |table| table.cancel(2, 1));
    assert_eq!(said(table.evict(2, 1)), "done 0");
}

/// The name stands for its own entry: serial 1 of tenant 1 is not serial 1 of
/// tenant 2, and a tenant cancels nobody else's.
#[test]
fn names_are_of_tenant_and_serial() {
    let mut table = busy();
    assert_refused(&mut table, 3, (10, 1), |table| table.cancel(3, 1));
    assert_refused(&mut table, 1, (11, 1), |table| table.cancel(1, 1));
    assert_refused(&mut table, 3, (10, 0), |table| table.evict(3, 1));
    assert_eq!(said(table.evict(2, 1)), "done 0");
    let left = [(1, 1, State::Free), (1, 2, State::Waiting)];
    assert_eq!(queued(&table), left);
}

/// Afterwards it is "no such entry", for every call that names one.
#[test]
fn what_was_taken_out_is_gone() {
    for evicted in [true, false] {
        let mut table = busy();
        if evicted {
            assert_eq!(said(table.evict(2, 1)), "done 0");
        } else {
            assert_eq!(said(table.cancel(2, 1)), "done 1");
        }
        assert_refused(&mut table, 2, (10, 1), |table| table.finish(2, 1));
        assert_refused(&mut table, 2, (10, 1), |table| table.recheck(2, 1));
        assert_refused(&mut table, 2, (10, 1), |table| table.cancel(2, 1));
        assert_refused(&mut table, 2, (10, 0), |table| table.deliver(2, 1));
        assert_refused(&mut table, 2, (10, 0), |table| table.evict(2, 1));
        // 1, and 2 for 1.1, 2 for 1.2: there is nothing of tenant 2 to find.
        assert_eq!(said(table.scan(2)), "nothing 5");
    }
}

/// "a freed place serves again", and a serial is "never given twice".
#[test]
fn the_place_serves_again_and_the_serial_does_not() {
    let mut table = opened(&[1, 1]);
    table.grant(1, 20);
    table.grant(2, 20);
    assert_eq!(said(table.begin(1, 0, &[], &[7])), "free:1.1 4");
    assert_refused(&mut table, 1, (7, 1), |table| table.begin(1, 0, &[], &[8]));
    assert_eq!(said(table.begin(2, 0, &[], &[7])), "blocked:2.1@7 4");
    assert_refused(&mut table, 2, (7, 1), |table| table.begin(2, 0, &[], &[8]));
    assert_eq!(said(table.evict(1, 1)), "done 0");
    // Behind 2.1, which is Blocked as it was.
    assert_eq!(said(table.begin(1, 0, &[], &[7])), "blocked:1.2@7 4");
    assert_eq!(said(table.cancel(2, 1)), "done 1");
    assert_eq!(said(table.begin(2, 0, &[], &[8])), "free:2.2 4");
    assert_eq!(said(table.cancel(1, 2)), "done 1");
    assert_eq!(said(table.begin(1, 0, &[], &[7])), "free:1.3 4");
    // 20 - 4 - 1 - 4 - 1 - 4, and 20 - 4 - 1 - 1 - 4.
    assert_eq!((table.fuel(1), table.fuel(2)), (Some(6), Some(10)));
}

/// The last serial has been given, and an eviction gives none back.
#[test]
fn all_serials_stay_given() {
    let mut table = busy();
    table.meters[2].serials = 65_534;
    assert_eq!(said(table.begin(3, 0, &[], &[1])), "free:3.65535 4");
    assert_eq!(said(table.evict(3, 65_535)), "done 0");
    assert_refused(&mut table, 3, (8, 1), |table| table.begin(3, 0, &[], &[1]));
}

/// 1.1 writes 7 and 8, 2.1 writes 9; 3.1 reads 7 and is Blocked by 1.1 alone, 4.1
/// writes 8 and 9 and is Blocked by both.
fn hung() -> Table {
    let mut table = opened(&[1, 1, 1, 1]);
    for tenant in 1..=4 {
        table.grant(tenant, 100);
    }
    assert_eq!(said(table.begin(1, 0, &[], &[7, 8])), "free:1.1 6");
    assert_eq!(said(table.begin(2, 0, &[], &[9])), "free:2.1 4");
    assert_eq!(said(table.begin(3, 0, &[7], &[])), "blocked:3.1@7 4");
    assert_eq!(said(table.begin(4, 0, &[], &[8, 9])), "blocked:4.1@8 6");
    // 1, and 3 for 1.1, 2 for 2.1, 2 for 3.1, 3 for 4.1.
    assert_eq!(said(table.scan(3)), "nothing 11");
    table
}

/// Who conflicted with nothing ahead but the one taken out is promoted by its
/// next Scan, if its fuel reaches that far; who conflicts with a further one is
/// not.
#[test]
fn who_waited_for_it_alone_is_found_by_its_scan() {
    let mut table = hung();
    assert_eq!(said(table.evict(1, 1)), "done 0");
    let waiting = [
        (2, 1, State::Free),
        (3, 1, State::Blocked),
        (4, 1, State::Blocked),
    ];
    assert_eq!(queued(&table), waiting);
    // 1, and 2 for 2.1, 2 for 3.1, 3 for 4.1.
    assert_eq!(said(table.scan(4)), "nothing 8");
    // 1, and 2 for 2.1; then 1 is left, and 3.1 costs 2.
    table.meters[2].fuel = 4;
    assert_refused(&mut table, 3, (9, 3), |table| table.scan(3));
    table.meters[2].fuel = 5;
    assert_eq!(said(table.scan(3)), "free:3.1 5");
    assert_eq!(table.fuel(3), Some(0));
    // The one that is left of the two in its way is taken out too.
    assert_eq!(said(table.evict(2, 1)), "done 0");
    assert_eq!(said(table.scan(4)), "free:4.1 6");
}

/// A Recheck finds it as well, and a Pick where it is the front.
#[test]
fn who_waited_for_it_alone_is_found_by_the_other_calls() {
    let mut table = hung();
    assert_eq!(said(table.evict(1, 1)), "done 0");
    assert_eq!(said(table.pick()), "nothing 0");
    assert_eq!(said(table.recheck(3, 1)), "free:3.1 2");
    assert_eq!(said(table.recheck(4, 1)), "still 3");
    assert_eq!(said(table.evict(2, 1)), "done 0");
    assert_eq!(said(table.evict(3, 1)), "done 0");
    assert_eq!(said(table.pick()), "free:4.1 0");
}

/// A Blocked entry that is cancelled stood in the way of those behind it, while
/// the one that it waited for stays.
#[test]
fn a_cancelled_entry_is_in_nobodys_way() {
    let mut table = opened(&[1, 1, 1]);
    for tenant in 1..=3 {
        table.grant(tenant, 40);
    }
    assert_eq!(said(table.begin(1, 0, &[], &[1])), "free:1.1 4");
    assert_eq!(said(table.begin(2, 1, &[], &[1, 2])), "blocked:2.1@1 6");
    assert_eq!(said(table.begin(3, 0, &[], &[2])), "blocked:3.1@2 4");
    // 1, and 2 for 1.1, 3 for 2.1, 2 for 3.1.
    assert_eq!(said(table.scan(3)), "nothing 8");
    assert_eq!(said(table.cancel(2, 1)), "done 1");
    assert_eq!((cx(&table, 1), cx(&table, 2)), (1, 1));
    // 1, and 2 for 1.1, 2 for 3.1.
    assert_eq!(said(table.scan(3)), "free:3.1 5");
    assert_eq!(queued(&table), [(1, 1, State::Free), (3, 1, State::Free)]);
}

/// A tenant's Scan takes the first of its own that nothing ahead conflicts with.
#[test]
fn an_earlier_one_of_the_same_tenant_comes_first() {
    let mut table = opened(&[1, 2]);
    table.grant(1, 20);
    table.grant(2, 40);
    assert_eq!(said(table.begin(1, 0, &[], &[1, 2])), "free:1.1 6");
    assert_eq!(said(table.begin(2, 0, &[], &[1])), "blocked:2.1@1 4");
    assert_eq!(said(table.begin(2, 0, &[], &[2])), "blocked:2.2@2 4");
    assert_eq!(said(table.evict(1, 1)), "done 0");
    assert_eq!(said(table.scan(2)), "free:2.1 3");
    assert_eq!(said(table.scan(2)), "free:2.2 5");
}

/// Front, middle and last of a full queue: "the others keep their order".
#[test]
fn out_of_a_full_queue() {
    let mut full = opened(&[32, 32]);
    for tenant in 1..=2 {
        full.grant(tenant, 10_000);
    }
    for place in 0..64u8 {
        // The records 0 to 7, so that all but the first 8 are Blocked.
        full.begin(1 + place % 2, place % 3, &[], &[place % 8]);
    }
    assert_eq!(full.queue.len(), 64);
    for at in [0, 1, 2, 31, 62, 63] {
        let entry = full.queue[at].clone();
        let mut expected = full.clone();
        expected.queue.remove(at);
        let mut table = full.clone();
        assert_eq!(said(table.evict(entry.tenant, entry.serial)), "done 0");
        assert_eq!(table, expected);
        let mut table = full.clone();
        if entry.state != State::Blocked {
            assert_refused(&mut table, entry.tenant, (11, 1), |table| {
                table.cancel(entry.tenant, entry.serial)
            });
            continue;
        }
        expected.meters[usize::from(entry.tenant) - 1].fuel -= 1;
        assert_eq!(said(table.cancel(entry.tenant, entry.serial)), "done 1");
        assert_eq!(table, expected);
    }
}

/// An entry without records holds nothing, and leaves all the same.
#[test]
fn an_entry_without_records() {
    let mut table = busy();
    assert_eq!(said(table.begin(3, 3, &[], &[])), "waiting:3.1 2");
    assert_refused(&mut table, 3, (11, 1), |table| table.cancel(3, 1));
    assert_eq!(said(table.evict(3, 1)), "done 0");
    assert_eq!(table.queue, busy().queue);
    assert_eq!(table.fuel(3), Some(97));
}
