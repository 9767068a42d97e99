//! Every refusal of every call that gives it, with the block's bytes after it:
//! the caller's fuel and nothing else has changed, where it burns; nothing at
//! all, where it does not.

mod common;

use common::{base, entry, gives, Call, Picture, BLOCKED, FREE};
use damsonpouch::Refusal;

const NINE: [u8; 9] = [50, 51, 52, 53, 54, 55, 56, 57, 58];

/// On the base block: these burn nothing and change nothing.
#[track_caller]
fn refused(number: u8, call: Call) {
    let before = base().bytes();
    gives(&before, call, &format!("refused:{} 0", number), &before);
}

/// On the base block: these burn one unit of tenant 1's 40, and change nothing
/// else.
#[track_caller]
fn charged(number: u8, call: Call) {
    let said = format!("refused:{} 1", number);
    gives(&base().bytes(), call, &said, &base().fuel(1, 39).bytes());
}

#[test]
fn numbers_and_meanings() {
    let numbers = [1, 2, 3, 4, 6, 7, 8, 9, 10, 11, 12, 13, 14, 15];
    assert_eq!(Refusal::ALL.map(Refusal::number), numbers);
    for refusal in &Refusal::ALL {
        assert_eq!(Refusal::from_number(refusal.number()), Some(*refusal));
        assert_eq!(refusal.to_string(), refusal.meaning());
        let error: Box<dyn std::error::Error> = Box::new(*refusal);
        assert!(!error.to_string().is_empty());
    }
    // 5 is no longer given; its number stays unused
    for number in [0, 5, 16, 255] {
        assert_eq!(Refusal::from_number(number), None);
    }
    assert_eq!(Refusal::NotSound.number(), 15);
}

#[test]
fn refusal_1_no_such_tenant() {
    refused(1, |locks| locks.grant(0, 1));
    refused(1, |locks| locks.grant(17, 1));
    refused(1, |locks| locks.grant(255, 4_294_967_295));
    refused(1, |locks| locks.begin(0, 16, &NINE, &NINE));
    refused(1, |locks| locks.begin(17, 0, &[], &[1]));
    refused(1, |locks| locks.finish(0, 1));
    refused(1, |locks| locks.finish(17, 65_535));
    refused(1, |locks| locks.recheck(0, 1));
    refused(1, |locks| locks.recheck(200, 0));
    refused(1, |locks| locks.scan(0));
    refused(1, |locks| locks.scan(17));
    refused(1, |locks| locks.deliver(0, 1));
    refused(1, |locks| locks.deliver(17, 1));
    refused(1, |locks| locks.evict(0, 1));
    refused(1, |locks| locks.evict(17, 65_535));
    refused(1, |locks| locks.cancel(0, 1));
    refused(1, |locks| locks.cancel(255, 0));
}

#[test]
fn refusal_2_dry() {
    refused(2, |locks| locks.begin(3, 16, &NINE, &NINE));
    refused(2, |locks| locks.finish(3, 1));
    refused(2, |locks| locks.recheck(3, 1));
    refused(2, |locks| locks.scan(3));
    refused(2, |locks| locks.cancel(3, 1));
    // Finish of an entry that is not Free
    let dry = base().fuel(2, 0).bytes();
    gives(&dry, |locks| locks.finish(2, 1), "refused:2 0", &dry);
    gives(&dry, |locks| locks.recheck(2, 1), "refused:2 0", &dry);
    gives(&dry, |locks| locks.cancel(2, 1), "refused:2 0", &dry);
    // before 11, and not of Evict, which is the host's
    let dry = base().fuel(1, 0).bytes();
    gives(&dry, |locks| locks.cancel(1, 1), "refused:2 0", &dry);
    refused(10, |locks| locks.evict(3, 1));
}

#[test]
fn refusals_3_4_and_6_of_the_lists() {
    charged(3, |locks| locks.begin(1, 0, &NINE, &[]));
    charged(3, |locks| locks.begin(1, 0, &[], &NINE));
    charged(3, |locks| locks.begin(1, 255, &NINE, &NINE));
    charged(3, |locks| locks.begin(1, 0, &[7; 300], &[]));
    charged(3, |locks| locks.begin(1, 0, &[], &[7; 300]));
    charged(3, |locks| locks.begin(1, 0, &[7; 256], &[7; 70_000]));
    charged(4, |locks| locks.begin(1, 0, &[], &[7, 7]));
    charged(4, |locks| locks.begin(1, 0, &[8, 7], &[]));
    charged(4, |locks| locks.begin(1, 16, &[8], &[9, 8]));
    charged(6, |locks| locks.begin(1, 16, &[], &[7]));
    charged(6, |locks| locks.begin(1, 255, &[], &[]));
}

/// Item 4 of document 02: 3 is judged on the lists as given, and all else on the
/// reduced ones. 5 is no longer given.
#[test]
fn refusals_of_lists_with_a_record_in_both() {
    // without the written ones there would be 8 reads, one, and none
    charged(3, |locks| locks.begin(1, 0, &NINE, &[54]));
    charged(3, |locks| locks.begin(1, 0, &NINE, &NINE[..8]));
    charged(3, |locks| locks.begin(1, 0, &[7; 9], &[7]));
    charged(4, |locks| locks.begin(1, 0, &[3, 9, 3], &[9]));
    charged(4, |locks| locks.begin(1, 0, &[9, 5, 9, 3], &[9]));
    charged(4, |locks| locks.begin(1, 0, &[7], &[7, 7]));
    charged(4, |locks| locks.begin(1, 0, &[7, 7], &[7, 7]));
    charged(4, |locks| locks.begin(1, 0, &[3, 9], &[9, 3]));
    charged(6, |locks| locks.begin(1, 16, &[7], &[7]));
    charged(6, |locks| locks.begin(1, 16, &[1, 255, 2], &[3, 255]));
    // the share is held, the serials are given, and the fuel is one unit short:
    // the price of 7 and 9 is 6
    gives(
        &base().bytes(),
        |locks| locks.begin(2, 0, &[7], &[7]),
        "refused:7 1",
        &base().fuel(2, 29).bytes(),
    );
    let all = base().serials(1, 65_535);
    gives(
        &all.bytes(),
        |locks| locks.begin(1, 0, &[7], &[7]),
        "refused:8 1",
        &all.clone().fuel(1, 39).bytes(),
    );
    gives(
        &base().fuel(1, 5).bytes(),
        |locks| locks.begin(1, 0, &[9, 7, 9], &[9]),
        "refused:9 1",
        &base().fuel(1, 4).bytes(),
    );
}

#[test]
fn refusal_7_share_held() {
    let after = base().fuel(2, 29).bytes();
    gives(
        &base().bytes(),
        |locks| locks.begin(2, 0, &[], &[]),
        "refused:7 1",
        &after,
    );
    // no share at all
    let none = Picture::fresh(&[]).fuel(9, 5);
    gives(
        &none.bytes(),
        |locks| locks.begin(9, 0, &[], &[1]),
        "refused:7 1",
        &none.clone().fuel(9, 4).bytes(),
    );
}

#[test]
fn refusal_8_serials_given() {
    let all = base().serials(1, 65_535);
    gives(
        &all.bytes(),
        |locks| locks.begin(1, 0, &[], &[1]),
        "refused:8 1",
        &all.clone().fuel(1, 39).bytes(),
    );
    // before 9, and behind 7
    let poor = all.clone().fuel(1, 1);
    gives(
        &poor.bytes(),
        |locks| locks.begin(1, 0, &[], &[1]),
        "refused:8 1",
        &poor.clone().fuel(1, 0).bytes(),
    );
}

#[test]
fn refusal_9_fuel_below_price() {
    let poor = base().fuel(1, 3);
    gives(
        &poor.bytes(),
        |locks| locks.begin(1, 0, &[], &[1]),
        "refused:9 1",
        &poor.clone().fuel(1, 2).bytes(),
    );
    // Recheck of three records costs 4
    let poor = base().fuel(2, 3);
    gives(
        &poor.bytes(),
        |locks| locks.recheck(2, 1),
        "refused:9 1",
        &poor.clone().fuel(2, 2).bytes(),
    );
    // a scan cut short before its first entry, its second, its third; with 9 it
    // is not
    for (fuel, said, left) in [
        (1, "refused:9 1", 0),
        (2, "refused:9 1", 1),
        (3, "refused:9 3", 0),
        (4, "refused:9 3", 1),
        (5, "refused:9 5", 0),
        (8, "refused:9 5", 3),
        (9, "nothing 9", 0),
    ] {
        gives(
            &base().fuel(2, fuel).bytes(),
            |locks| locks.scan(2),
            said,
            &base().fuel(2, left).bytes(),
        );
    }
}

#[test]
fn refusal_10_no_such_entry() {
    charged(10, |locks| locks.finish(1, 3));
    charged(10, |locks| locks.finish(1, 0));
    charged(10, |locks| locks.recheck(1, 65_535));
    // 2.1 is there, 1.257 is not: both bytes of a serial count
    charged(10, |locks| locks.finish(1, 257));
    refused(10, |locks| locks.deliver(1, 3));
    refused(10, |locks| locks.deliver(3, 1));
    charged(10, |locks| locks.cancel(1, 3));
    charged(10, |locks| locks.cancel(1, 0));
    charged(10, |locks| locks.cancel(1, 257));
    charged(10, |locks| locks.cancel(1, 65_535));
    refused(10, |locks| locks.evict(1, 3));
    refused(10, |locks| locks.evict(1, 0));
    refused(10, |locks| locks.evict(1, 257));
    refused(10, |locks| locks.evict(1, 65_535));
    // 1.2 is there, and no 2.2: a tenant cancels its own
    refused(10, |locks| locks.evict(2, 2));
    gives(
        &base().fuel(2, 1).bytes(),
        |locks| locks.cancel(2, 2),
        "refused:10 1",
        &base().fuel(2, 0).bytes(),
    );
}

#[test]
fn refusal_11_wrong_state() {
    charged(11, |locks| locks.finish(1, 2));
    charged(11, |locks| locks.recheck(1, 1));
    charged(11, |locks| locks.recheck(1, 2));
    charged(11, |locks| locks.cancel(1, 1));
    charged(11, |locks| locks.cancel(1, 2));
    gives(
        &base().bytes(),
        |locks| locks.finish(2, 1),
        "refused:11 1",
        &base().fuel(2, 29).bytes(),
    );
    // 11 before 9; of Cancel on its last unit
    let poor = base().fuel(1, 1);
    let calls: [Call; 2] = [|locks| locks.recheck(1, 1), |locks| locks.cancel(1, 1)];
    for call in calls {
        let after = poor.clone().fuel(1, 0).bytes();
        gives(&poor.bytes(), call, "refused:11 1", &after);
    }
}

#[test]
fn refusal_12_nothing_due() {
    refused(12, |locks| locks.deliver(1, 1));
    refused(12, |locks| locks.deliver(2, 1));
}

#[test]
fn refusal_13_too_much_fuel() {
    refused(13, |locks| locks.grant(1, 999_999_961));
    refused(13, |locks| locks.grant(1, 4_294_967_295));
    refused(13, |locks| locks.grant(3, 1_000_000_001));
    let full = base().fuel(1, 1_000_000_000).bytes();
    gives(&full, |locks| locks.grant(1, 1), "refused:13 0", &full);
    gives(&full, |locks| locks.grant(1, 0), "ok 0", &full);
}

/// The one refusal that writes.
#[test]
fn refusal_14_bad_shares() {
    let none = Picture::fresh(&[]).bytes();
    let one_more = [4, 4, 4, 4, 4, 4, 4, 4, 4, 4, 4, 4, 4, 4, 4, 5];
    let garbage = vec![0xff; 2176];
    for before in [base().bytes(), garbage] {
        for shares in [
            &[][..],
            &[1; 15],
            &[1; 17],
            &[0; 300],
            &[5; 16],
            &one_more,
            &[255; 16],
            &[16, 16, 16, 16],
        ] {
            gives(&before, |locks| locks.open(shares), "refused:14 0", &none);
        }
    }
}

#[test]
fn refusal_15_comes_first() {
    let mut broken = base().bytes();
    broken[0] = 0;
    let calls: [Call; 13] = [
        |locks| locks.grant(0, 1),
        |locks| locks.grant(1, 4_294_967_295),
        |locks| locks.begin(0, 16, &NINE, &NINE),
        |locks| locks.begin(1, 0, &[], &[1]),
        |locks| locks.finish(17, 1),
        |locks| locks.recheck(3, 1),
        |locks| locks.scan(17),
        |locks| locks.pick(),
        |locks| locks.deliver(1, 9),
        |locks| locks.evict(17, 1),
        |locks| locks.evict(1, 1),
        |locks| locks.cancel(0, 1),
        |locks| locks.cancel(2, 1),
    ];
    for call in calls {
        gives(&broken, call, "refused:15 0", &broken);
    }
    // of Open, for a wrong length alone, and before 14
    let short = vec![9; 2175];
    for shares in [&[4; 16][..], &[]] {
        gives(&short, |locks| locks.open(shares), "refused:15 0", &short);
    }
}

/// Refusal 1 comes before the state is looked at, and the last tenant is one.
#[test]
fn tenant_16() {
    let mut shares = [0; 16];
    shares[15] = 1;
    let before = Picture::fresh(&shares).fuel(16, 6);
    let after = Picture::fresh(&shares)
        .fuel(16, 2)
        .serials(16, 1)
        .with(entry(16, 1, FREE, &[0], &[]));
    gives(
        &before.bytes(),
        |locks| locks.begin(16, 0, &[0], &[]),
        "free:16.1 4",
        &after.bytes(),
    );
    let mut blocked = after.clone();
    blocked.queue[0].state = BLOCKED;
    gives(
        &blocked.bytes(),
        |locks| locks.recheck(16, 1),
        "free:16.1 2",
        &after.clone().fuel(16, 0).bytes(),
    );
    gives(
        &blocked.bytes(),
        |locks| locks.cancel(16, 1),
        "done 1",
        &after.clone().fuel(16, 1).without(0).bytes(),
    );
    gives(
        &after.bytes(),
        |locks| locks.evict(16, 1),
        "done 0",
        &after.clone().without(0).bytes(),
    );
}
