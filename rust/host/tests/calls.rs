//! Every call and every answer, with the block's bytes after it, worked out by
//! hand from documents 01 and 02.

mod common;

use common::{base, entry, gives, Call, Entry, Picture, BLOCKED, FREE, WAITING};
use damsonpouch::{is_sound, Answer, Locks, Name, Outcome, Refusal, State, BLOCK_LENGTH, TENANTS};

#[test]
fn open_makes_a_fresh_state_of_any_bytes() {
    let shares = [2, 2, 0, 0, 0, 0, 0, 0, 0, 0, 0, 0, 0, 0, 0, 0];
    let fresh = Picture::fresh(&[2, 2]).bytes();
    let noise: Vec<u8> = (0..BLOCK_LENGTH).map(|at| (at * 7 + 3) as u8).collect();
    for before in [
        vec![0; BLOCK_LENGTH],
        vec![0xff; BLOCK_LENGTH],
        noise,
        base().bytes(),
    ] {
        gives(&before, |locks| locks.open(&shares), "ok 0", &fresh);
    }
    // 64 places in all
    gives(
        &base().bytes(),
        |locks| locks.open(&[4; TENANTS]),
        "ok 0",
        &Picture::fresh(&[4; 16]).bytes(),
    );
}

#[test]
fn grant_adds_fuel() {
    let before = base().bytes();
    gives(
        &before,
        |locks| locks.grant(1, 5),
        "ok 0",
        &base().fuel(1, 45).bytes(),
    );
    gives(&before, |locks| locks.grant(1, 0), "ok 0", &before);
    gives(
        &before,
        |locks| locks.grant(16, 1_000_000_000),
        "ok 0",
        &base().fuel(16, 1_000_000_000).bytes(),
    );
    // up to the limit and not past it
    gives(
        &before,
        |locks| locks.grant(1, 999_999_960),
        "ok 0",
        &base().fuel(1, 1_000_000_000).bytes(),
    );
}

#[test]
fn begin_admits_free_waiting_or_blocked() {
    let before = base().bytes();
    // a second reader of 20 conflicts with nobody
    gives(
        &before,
        |locks| locks.begin(1, 0, &[20], &[30]),
        "free:1.3 6",
        &base()
            .fuel(1, 34)
            .serials(1, 3)
            .with(entry(1, 3, FREE, &[20], &[30]))
            .bytes(),
    );
    gives(
        &before,
        |locks| locks.begin(1, 15, &[], &[40]),
        "waiting:1.3 4",
        &base()
            .fuel(1, 36)
            .serials(1, 3)
            .with(entry(1, 3, WAITING, &[], &[40]).awaits(15, 15))
            .bytes(),
    );
    // 12 is written by 2.1, which is Blocked itself
    gives(
        &before,
        |locks| locks.begin(1, 2, &[12, 255], &[]),
        "blocked:1.3@12 6",
        &base()
            .fuel(1, 34)
            .serials(1, 3)
            .with(entry(1, 3, BLOCKED, &[12, 255], &[]).awaits(2, 2))
            .bytes(),
    );
    // both lists empty: price 2
    gives(
        &before,
        |locks| locks.begin(1, 0, &[], &[]),
        "free:1.3 2",
        &base()
            .fuel(1, 38)
            .serials(1, 3)
            .with(entry(1, 3, FREE, &[], &[]))
            .bytes(),
    );
    // eight of each: price 34
    let reads = [0, 1, 2, 3, 4, 6, 7, 8];
    let writes = [100, 101, 102, 103, 104, 105, 106, 255];
    gives(
        &before,
        |locks| locks.begin(1, 0, &reads, &writes),
        "free:1.3 34",
        &base()
            .fuel(1, 6)
            .serials(1, 3)
            .with(entry(1, 3, FREE, &reads, &writes))
            .bytes(),
    );
}

/// Item 4 of document 02: "it raises Cx and not Cs, is counted once in n, and is
/// stored among the writes alone." The lists as given, what is stored, and the
/// price.
#[test]
fn a_record_in_both_lists_counts_as_written_only() {
    type Lists = (&'static [u8], &'static [u8]);
    let eight: &[u8] = &[30, 31, 32, 33, 34, 35, 36, 37];
    let cases: [(Lists, Lists, u32); 7] = [
        ((&[7], &[7]), (&[], &[7]), 4),
        ((&[7, 7], &[7]), (&[], &[7]), 4),
        ((&[9, 3], &[9]), (&[3], &[9]), 6),
        ((&[7, 21], &[7]), (&[21], &[7]), 6),
        ((&[255, 1, 255, 2], &[0, 255]), (&[1, 2], &[0, 255]), 10),
        ((&[6, 7, 8], &[6, 7, 8]), (&[], &[6, 7, 8]), 8),
        ((eight, eight), (&[], eight), 18),
    ];
    for ((reads, writes), (only_read, written), price) in cases {
        let admitted = entry(1, 3, FREE, only_read, written);
        let said = format!("free:1.3 {}", price);
        // to the last unit, and with fuel to spare
        for fuel in [price, 40] {
            gives(
                &base().fuel(1, fuel).bytes(),
                |locks| locks.begin(1, 0, reads, writes),
                &said,
                &base()
                    .fuel(1, fuel - price)
                    .serials(1, 3)
                    .with(admitted.clone())
                    .bytes(),
            );
        }
    }
}

/// 7 in both lists or written only, behind another that has it so: in every mix
/// the second is Blocked.
#[test]
fn two_that_write_a_record_back() {
    let asks: [(&[u8], &[u8]); 3] = [(&[7], &[7]), (&[], &[7]), (&[7, 7], &[7])];
    let empty = Picture::fresh(&[2, 2]).fuel(1, 4).fuel(2, 4);
    let first = empty
        .clone()
        .fuel(1, 0)
        .serials(1, 1)
        .with(entry(1, 1, FREE, &[], &[7]));
    let second = first
        .clone()
        .fuel(2, 0)
        .serials(2, 1)
        .with(entry(2, 1, BLOCKED, &[], &[7]));
    for (reads, writes) in asks {
        gives(
            &empty.bytes(),
            |locks| locks.begin(1, 0, reads, writes),
            "free:1.1 4",
            &first.bytes(),
        );
        gives(
            &first.bytes(),
            |locks| locks.begin(2, 0, reads, writes),
            "blocked:2.1@7 4",
            &second.bytes(),
        );
    }
}

/// Who reads a record that another has in both lists waits; who reads what it
/// only reads does not. Then the calls on it count the record once.
#[test]
fn readers_behind_a_record_in_both_lists() {
    let mut block = Picture::fresh(&[1, 2]).fuel(1, 6).fuel(2, 20).bytes();
    let mut locks = Locks::over(&mut block);
    let calls: [(Call, &str); 8] = [
        (|locks| locks.begin(1, 0, &[7, 30], &[7]), "free:1.1 6"),
        (|locks| locks.begin(2, 1, &[7, 9], &[9]), "blocked:2.1@7 6"),
        (|locks| locks.begin(2, 0, &[30], &[]), "free:2.2 4"),
        // 1, and 3 for 1.1, 3 for 2.1, 2 for 2.2: one unit short
        (|locks| locks.grant(1, 8), "ok 0"),
        (|locks| locks.scan(1), "refused:9 7"),
        (|locks| locks.finish(1, 1), "done 0"),
        (|locks| locks.recheck(2, 1), "waiting:2.1 3"),
        (|locks| locks.finish(2, 2), "done 0"),
    ];
    for (line, (call, said)) in calls.iter().enumerate() {
        assert_eq!(call(&mut locks).to_string(), *said, "line {}", line + 1);
    }
    let after = Picture::fresh(&[1, 2])
        .fuel(1, 1)
        .fuel(2, 7)
        .serials(1, 1)
        .serials(2, 2)
        .with(entry(2, 1, WAITING, &[7], &[9]).awaits(1, 1));
    assert_eq!(locks.block(), after.bytes());
}

#[test]
fn begin_spends_the_last_unit_and_the_last_serial() {
    let before = Picture::fresh(&[1]).fuel(1, 4).serials(1, 65_534).bytes();
    let after = Picture::fresh(&[1])
        .fuel(1, 0)
        .serials(1, 65_535)
        .with(entry(1, 65_535, FREE, &[], &[7]));
    gives(
        &before,
        |locks| locks.begin(1, 0, &[], &[7]),
        "free:1.65535 4",
        &after.bytes(),
    );
    // a dry tank can let go
    gives(
        &after.bytes(),
        |locks| locks.finish(1, 65_535),
        "done 0",
        &after.clone().without(0).bytes(),
    );
}

#[test]
fn finish_shifts_the_others_down() {
    gives(
        &base().bytes(),
        |locks| locks.finish(1, 1),
        "done 0",
        &base().without(0).bytes(),
    );
}

#[test]
fn recheck_says_still_or_promotes() {
    gives(
        &base().bytes(),
        |locks| locks.recheck(2, 1),
        "still 4",
        &base().fuel(2, 26).bytes(),
    );
    let alone = base().without(0);
    let mut after = alone.clone().fuel(2, 26);
    after.queue[1].state = FREE;
    gives(
        &alone.bytes(),
        |locks| locks.recheck(2, 1),
        "free:2.1 4",
        &after.bytes(),
    );
    // an entry behind counts too, and one with an answer due waits
    let mut behind = Picture::fresh(&[2])
        .fuel(1, 9)
        .serials(1, 2)
        .with(entry(1, 1, BLOCKED, &[], &[3]).awaits(1, 1))
        .with(entry(1, 2, BLOCKED, &[3], &[]));
    gives(
        &behind.bytes(),
        |locks| locks.recheck(1, 1),
        "still 2",
        &behind.clone().fuel(1, 7).bytes(),
    );
    behind.queue.pop();
    let mut after = behind.clone().fuel(1, 7);
    after.queue[0].state = WAITING;
    gives(
        &behind.bytes(),
        |locks| locks.recheck(1, 1),
        "waiting:1.1 2",
        &after.bytes(),
    );
}

#[test]
fn scan_promotes_or_finds_nothing() {
    // 1, and 2 for 1.1, 2 for 1.2, 4 for 2.1
    gives(
        &base().bytes(),
        |locks| locks.scan(2),
        "nothing 9",
        &base().fuel(2, 21).bytes(),
    );
    // 1, and 2 for 1.2, 4 for 2.1
    let alone = base().without(0);
    let mut after = alone.clone().fuel(2, 23);
    after.queue[1].state = FREE;
    gives(
        &alone.bytes(),
        |locks| locks.scan(2),
        "free:2.1 7",
        &after.bytes(),
    );
    // another tenant's entry is not taken, and the whole queue is paid for
    gives(
        &alone.bytes(),
        |locks| locks.scan(1),
        "nothing 7",
        &alone.clone().fuel(1, 33).bytes(),
    );
    let empty = Picture::fresh(&[1]).fuel(1, 1);
    gives(
        &empty.bytes(),
        |locks| locks.scan(1),
        "nothing 1",
        &empty.clone().fuel(1, 0).bytes(),
    );
}

#[test]
fn pick_promotes_a_blocked_front() {
    let before = base().bytes();
    gives(&before, |locks| locks.pick(), "nothing 0", &before);
    let empty = Picture::fresh(&[]).bytes();
    gives(&empty, |locks| locks.pick(), "nothing 0", &empty);

    let front = base().without(0).without(0);
    let mut after = front.clone();
    after.queue[0].state = FREE;
    gives(
        &front.bytes(),
        |locks| locks.pick(),
        "free:2.1 0",
        &after.bytes(),
    );
}

/// Item 2 of document 02: a promoted entry is Waiting only if an answer is still
/// due, else Free, and can then be finished.
#[test]
fn a_promotion_goes_by_the_answers_due() {
    let alone = base().without(0).without(0);
    // 1 + 3; 1, and 4 for 2.1 itself
    let calls: [(Call, u32); 3] = [
        (|locks| locks.recheck(2, 1), 4),
        (|locks| locks.scan(2), 5),
        (|locks| locks.pick(), 0),
    ];
    for (due, state, word) in [
        (0, FREE, "free"),
        (1, WAITING, "waiting"),
        (2, WAITING, "waiting"),
    ] {
        for (call, burnt) in calls {
            let mut before = alone.clone();
            before.queue[0] = before.queue[0].clone().awaits(2, due);
            let mut after = before.clone().fuel(2, 30 - burnt);
            after.queue[0].state = state;
            let said = format!("{}:2.1 {}", word, burnt);
            gives(&before.bytes(), call, &said, &after.bytes());
            // on a dry tank, too
            let dry = after.fuel(2, 0);
            let (said, left) = match due {
                0 => ("done 0", dry.clone().without(0)),
                _ => ("refused:2 0", dry.clone()),
            };
            gives(
                &dry.bytes(),
                |locks| locks.finish(2, 1),
                said,
                &left.bytes(),
            );
        }
    }
}

#[test]
fn deliver_takes_an_answer() {
    let mut after = base();
    after.queue[1] = entry(1, 2, FREE, &[20], &[]).awaits(2, 0);
    gives(
        &base().bytes(),
        |locks| locks.deliver(1, 2),
        "free:1.2 0",
        &after.bytes(),
    );
    let mut before = base();
    before.queue[1] = before.queue[1].clone().awaits(2, 2);
    gives(
        &before.bytes(),
        |locks| locks.deliver(1, 2),
        "waiting:1.2 0",
        &base().bytes(),
    );
    // a Blocked one stays so, with its last answer too
    let mut before = base();
    before.queue[2] = before.queue[2].clone().awaits(1, 1);
    let mut after = base();
    after.queue[2] = after.queue[2].clone().awaits(1, 0);
    gives(
        &before.bytes(),
        |locks| locks.deliver(2, 1),
        "blocked:2.1 0",
        &after.bytes(),
    );
}

/// 1.1, 2.1 and 1.2 in these states; each reads 5 and a record of its own, and
/// writes one of its own. Both tenants hold all their places.
fn three(states: [u8; 3]) -> Picture {
    let mut picture = Picture::fresh(&[2, 1])
        .fuel(1, 9)
        .fuel(2, 7)
        .serials(1, 2)
        .serials(2, 1);
    for (at, (tenant, serial)) in (0..).zip([(1, 1), (2, 1), (1, 2)]) {
        let state = states[usize::from(at)];
        let asked = entry(tenant, serial, state, &[5, 100 + at], &[30 + at]);
        let due = u8::from(state != FREE);
        picture = picture.with(asked.awaits(2, due));
    }
    picture
}

/// Every state at every place, beside all others.
fn all_of_three() -> impl Iterator<Item = ([u8; 3], usize)> {
    (0..27u8)
        .map(|k| [k / 9, k / 3 % 3, k % 3])
        .flat_map(|states| (0..3).map(move |at| (states, at)))
}

/// Item 7 of document 02: "evict" takes out "an entry in any state", at the front,
/// in the middle and last. "Both release counters and place, refund no fuel".
#[test]
fn evict_takes_out_an_entry_in_any_state() {
    for at in 0..3 {
        let Entry { tenant, serial, .. } = base().queue[at];
        let after = base().without(at).bytes();
        let evict = |locks: &mut Locks<'_>| locks.evict(tenant, serial);
        gives(&base().bytes(), evict, "done 0", &after);
        assert!(is_sound(&after));
    }
    for (states, at) in all_of_three() {
        let Entry { tenant, serial, .. } = three(states).queue[at];
        // on a dry tank, too, and on one that holds no more
        for fuel in [0, 1, 1_000_000_000] {
            let before = three(states).fuel(1, fuel).fuel(2, fuel);
            gives(
                &before.bytes(),
                |locks| locks.evict(tenant, serial),
                "done 0",
                &before.clone().without(at).bytes(),
            );
        }
    }
}

/// "A tenant needs "cancel" for its own Blocked entry, burning 1": wherever it
/// stands, and "11 for an entry not Blocked".
#[test]
fn cancel_takes_out_a_blocked_entry() {
    let after = base().fuel(2, 29).without(2).bytes();
    gives(
        &base().bytes(),
        |locks| locks.cancel(2, 1),
        "done 1",
        &after,
    );
    assert!(is_sound(&after));
    for (states, at) in all_of_three() {
        let Entry { tenant, serial, .. } = three(states).queue[at];
        // to the last unit, and with fuel to spare
        for fuel in [1, 9] {
            let before = three(states).fuel(tenant.into(), fuel);
            let charged = before.clone().fuel(tenant.into(), fuel - 1);
            let (said, after) = match states[at] {
                BLOCKED => ("done 1", charged.without(at)),
                _ => ("refused:11 1", charged),
            };
            gives(
                &before.bytes(),
                |locks| locks.cancel(tenant, serial),
                said,
                &after.bytes(),
            );
        }
    }
    // none, some or all of its answers have come
    for due in 0..=3 {
        let mut before = base();
        before.queue[2] = before.queue[2].clone().awaits(3, due);
        gives(
            &before.bytes(),
            |locks| locks.cancel(2, 1),
            "done 1",
            &after,
        );
    }
}

/// The others close up, and the last place is zero again.
#[test]
fn a_full_queue_closes_up() {
    let mut full = Picture::fresh(&[64]).fuel(1, 9).serials(1, 900);
    full.queue = (0..64u8)
        .map(|k| entry(1, 700 + u16::from(k), BLOCKED, &[k, 64], &[128 + k]))
        .collect();
    for at in 0..64 {
        let serial = full.queue[at].serial;
        let left = full.clone().without(at);
        gives(
            &full.bytes(),
            |locks| locks.evict(1, serial),
            "done 0",
            &left.bytes(),
        );
        gives(
            &full.bytes(),
            |locks| locks.cancel(1, serial),
            "done 1",
            &left.fuel(1, 8).bytes(),
        );
    }
}

/// "Both release counters and place": who held all its places has one again, and
/// the next serial. What the entry has cost is not given back.
#[test]
fn what_is_taken_out_leaves_its_place() {
    let taken: [(Call, &str, u32); 2] = [
        (|locks| locks.evict(2, 1), "done 0", 30),
        (|locks| locks.cancel(2, 1), "done 1", 29),
    ];
    for (take_out, said, fuel) in taken {
        let mut block = base().bytes();
        let mut locks = Locks::over(&mut block);
        assert_eq!(take_out(&mut locks).to_string(), said);
        // 12 is let go, and 10 is still written by 1.1
        let begun = locks.begin(2, 0, &[], &[12]);
        assert_eq!(begun.to_string(), "free:2.2 4");
        let full = locks.begin(2, 0, &[], &[]);
        assert_eq!(full.to_string(), "refused:7 1");
        let after = base()
            .fuel(2, fuel - 5)
            .serials(2, 2)
            .without(2)
            .with(entry(2, 2, FREE, &[], &[12]));
        assert_eq!(locks.block(), after.bytes());
    }
}

/// Nobody is promoted by it: whoever waited for the entry is still Blocked, and
/// then promoted by any of the three calls that promote.
#[test]
fn an_eviction_promotes_nobody() {
    let alone = base().without(1);
    let after = alone.clone().without(0);
    let calls: [(Call, &str, u32); 3] = [
        (|locks| locks.recheck(2, 1), "free:2.1 4", 26),
        (|locks| locks.scan(2), "free:2.1 5", 25),
        (|locks| locks.pick(), "free:2.1 0", 30),
    ];
    for (call, said, left) in calls {
        let mut block = alone.bytes();
        let mut locks = Locks::over(&mut block);
        assert_eq!(locks.evict(1, 1).to_string(), "done 0");
        assert_eq!(locks.block(), after.bytes());
        assert_eq!(call(&mut locks).to_string(), said);
        let mut promoted = after.clone().fuel(2, left);
        promoted.queue[0].state = FREE;
        assert_eq!(locks.block(), promoted.bytes());
    }
}

/// A plugin hung with its lock held. Tenant 1's is taken out by the host, running
/// and on a dry tank; it wakes up, and its name is nobody's.
#[test]
fn a_plugin_that_hung() {
    let mut block = Picture::fresh(&[2, 1, 1])
        .fuel(1, 9)
        .fuel(2, 20)
        .fuel(3, 20)
        .bytes();
    let mut locks = Locks::over(&mut block);
    let calls: [(Call, &str); 15] = [
        (|locks| locks.begin(1, 0, &[], &[7]), "free:1.1 4"),
        (|locks| locks.begin(2, 0, &[7], &[7, 8]), "blocked:2.1@7 6"),
        (|locks| locks.begin(1, 0, &[8], &[]), "blocked:1.2@8 4"),
        (|locks| locks.begin(3, 1, &[], &[9]), "waiting:3.1 4"),
        (|locks| locks.cancel(1, 1), "refused:11 1"),
        (|locks| locks.cancel(1, 2), "refused:2 0"),
        (|locks| locks.grant(1, 1), "ok 0"),
        (|locks| locks.cancel(1, 2), "done 1"),
        (|locks| locks.evict(1, 1), "done 0"),
        (|locks| locks.finish(1, 1), "refused:2 0"),
        (|locks| locks.grant(1, 5), "ok 0"),
        (|locks| locks.finish(1, 1), "refused:10 1"),
        (|locks| locks.pick(), "free:2.1 0"),
        (|locks| locks.evict(3, 1), "done 0"),
        (|locks| locks.begin(1, 0, &[], &[9]), "free:1.3 4"),
    ];
    for (line, (call, said)) in calls.iter().enumerate() {
        assert_eq!(call(&mut locks).to_string(), *said, "line {}", line + 1);
        assert!(locks.is_sound(), "line {}", line + 1);
    }
    let after = Picture::fresh(&[2, 1, 1])
        .fuel(2, 14)
        .fuel(3, 16)
        .serials(1, 3)
        .serials(2, 1)
        .serials(3, 1)
        .with(entry(2, 1, FREE, &[], &[7, 8]))
        .with(entry(1, 3, FREE, &[], &[9]));
    assert_eq!(locks.block(), after.bytes());
}

#[test]
fn the_documents_listing() {
    let mut block = vec![0; BLOCK_LENGTH];
    let mut locks = Locks::over(&mut block);
    let calls: [(Call, &str); 12] = [
        (
            |locks| locks.open(&[2, 2, 0, 0, 0, 0, 0, 0, 0, 0, 0, 0, 0, 0, 0, 0]),
            "ok 0",
        ),
        (|locks| locks.grant(1, 40), "ok 0"),
        (|locks| locks.grant(2, 40), "ok 0"),
        (|locks| locks.begin(1, 0, &[], &[10]), "free:1.1 4"),
        (|locks| locks.begin(1, 0, &[], &[11]), "free:1.2 4"),
        (
            |locks| locks.begin(2, 0, &[], &[10, 12]),
            "blocked:2.1@10 6",
        ),
        (|locks| locks.begin(2, 0, &[], &[12]), "blocked:2.2@12 4"),
        (|locks| locks.finish(1, 1), "done 0"),
        (|locks| locks.recheck(2, 1), "still 3"),
        (|locks| locks.scan(2), "free:2.1 6"),
        (|locks| locks.pick(), "nothing 0"),
        (|locks| locks.finish(2, 2), "refused:11 1"),
    ];
    for (line, (call, said)) in calls.iter().enumerate() {
        assert_eq!(call(&mut locks).to_string(), *said, "line {}", line + 1);
        assert!(locks.is_sound(), "line {}", line + 1);
    }
    let after = Picture::fresh(&[2, 2])
        .fuel(1, 32)
        .fuel(2, 20)
        .serials(1, 2)
        .serials(2, 2)
        .with(entry(1, 2, FREE, &[], &[11]))
        .with(entry(2, 1, FREE, &[], &[10, 12]))
        .with(entry(2, 2, BLOCKED, &[], &[12]));
    assert_eq!(locks.block(), after.bytes());
}

#[test]
fn answers_are_what_they_say() {
    let mut block = base().bytes();
    let mut locks = Locks::over(&mut block);
    let told = |answer| Outcome { answer, burnt: 0 };
    assert_eq!(locks.grant(1, 0), told(Ok(Answer::Ok)));
    assert_eq!(locks.pick(), told(Ok(Answer::Nothing)));
    assert_eq!(locks.finish(1, 1), told(Ok(Answer::Done)));
    assert_eq!(locks.deliver(2, 1), told(Err(Refusal::NothingDue)));
    let delivered = Answer::Entry {
        state: State::Free,
        tenant: 1,
        serial: 2,
        clash: None,
    };
    assert_eq!(locks.deliver(1, 2), told(Ok(delivered)));
    assert_eq!(delivered.state(), Some(State::Free));
    assert_eq!(delivered.clash(), None);
    let name = Name {
        tenant: 1,
        serial: 2,
    };
    assert_eq!(delivered.name(), Some(name));
    assert_eq!(locks.evict(1, 2), told(Ok(Answer::Done)));
    assert_eq!(locks.evict(1, 2), told(Err(Refusal::NoSuchEntry)));
    let cancelled = Outcome {
        answer: Ok(Answer::Done),
        burnt: 1,
    };
    assert_eq!(locks.cancel(2, 1), cancelled);
    assert_eq!(name.to_string(), "1.2");
    assert_eq!((Answer::Still.state(), Answer::Still.name()), (None, None));
    assert_eq!(Answer::Still.clash(), None);
    assert_eq!(Answer::Still.to_string(), "still");
}

/// A Begin that is Blocked, a Recheck that leaves it so, and a refusal that
/// burns, in every part.
#[test]
fn outcomes_in_every_part() {
    let mut block = base().bytes();
    let mut locks = Locks::over(&mut block);
    let begun = locks.begin(1, 2, &[12, 255], &[]);
    let due = |state, tenant, serial, clash, burnt| Outcome {
        answer: Ok(Answer::Entry {
            state,
            tenant,
            serial,
            clash,
        }),
        burnt,
    };
    assert_eq!(begun, due(State::Blocked, 1, 3, Some(12), 6));
    // no other call tells a record
    let delivered = locks.deliver(1, 3);
    assert_eq!(delivered, due(State::Blocked, 1, 3, None, 0));
    let still = Outcome {
        answer: Ok(Answer::Still),
        burnt: 3,
    };
    assert_eq!(locks.recheck(1, 3), still);
    let refused = Outcome {
        answer: Err(Refusal::WrongState),
        burnt: 1,
    };
    assert_eq!(locks.finish(1, 3), refused);
}

/// A block is the whole state: a copy of it, lent from elsewhere, goes on where
/// the other stood.
#[test]
fn a_copy_goes_on() {
    let mut first = base().bytes();
    assert!(Locks::over(&mut first)
        .begin(1, 0, &[], &[99])
        .answer
        .is_ok());
    let mut copy = [vec![0xee; 5], first.clone(), vec![0xee; 5]].concat();
    let mut again = Locks::over(&mut first);
    let answers = (again.finish(1, 3), again.scan(2));
    let mut other = Locks::over(&mut copy[5..5 + BLOCK_LENGTH]);
    assert_eq!((other.finish(1, 3), other.scan(2)), answers);
    assert_eq!(copy[5..5 + BLOCK_LENGTH], first[..]);
    assert_eq!(copy[..5], [0xee; 5]);
    assert_eq!(copy[5 + BLOCK_LENGTH..], [0xee; 5]);
}

/// The calls share nothing: threads with a block each do not meet.
#[test]
fn threads_with_a_block_each() {
    let run = |tenant: u8| {
        let mut block = vec![0; BLOCK_LENGTH];
        let mut locks = Locks::over(&mut block);
        let mut told = vec![locks.open(&[4; TENANTS]), locks.grant(tenant, 1_000_000)];
        for turn in 1..=2_000 {
            let last = 4 * turn;
            told.push(locks.begin(tenant, 0, &[tenant], &[100, 200]));
            told.push(locks.begin(tenant, 1, &[200], &[]));
            told.push(locks.begin(tenant, 0, &[], &[200]));
            told.push(locks.begin(tenant, 1, &[tenant], &[]));
            told.push(locks.cancel(tenant, last - 1));
            told.push(locks.finish(tenant, last - 3));
            told.push(locks.scan(tenant));
            told.push(locks.deliver(tenant, last - 2));
            told.push(locks.finish(tenant, last - 2));
            told.push(locks.evict(tenant, last));
        }
        (told, block)
    };
    let threads: Vec<_> = (1..=4)
        .map(|tenant| std::thread::spawn(move || run(tenant)))
        .collect();
    for (tenant, thread) in (1..).zip(threads) {
        let (told, block) = thread.join().expect("a thread ended");
        assert!(told.iter().all(|outcome| outcome.answer.is_ok()));
        assert_eq!((told, block), run(tenant));
    }
}
