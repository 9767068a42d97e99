//! Item 5: "A Blocked Begin then reports the lowest-numbered record that it
//! clashed on, judged before its own counts", and the host call "held".

mod common;

use common::{busy, cs, cx, held, opened, said};
use second::block::{self, BYTES};
use second::{Answer, Event, Refusal, State, Table};

/// Reads and writes of a Begin as given.
type Lists = (&'static [u8], &'static [u8]);

/// Tenants 1 to 3 with places and fuel.
fn roomy() -> Table {
    let mut table = opened(&[20, 20, 20]);
    for tenant in 1..=3 {
        table.grant(tenant, 10_000);
    }
    table
}

/// A table in which tenant 1 has begun these, one after the other.
fn holding(holders: &[Lists]) -> Table {
    let mut table = roomy();
    for (reads, writes) in holders {
        table.begin(1, 0, reads, writes);
    }
    assert_eq!(table.queue.len(), holders.len());
    table
}

/// The record that tenant 2 is told of when it begins this, or nothing if it is
/// not Blocked.
fn told(table: &mut Table, (reads, writes): Lists) -> Option<u8> {
    match table.begin(2, 0, reads, writes).answer {
        Answer::Entry { state, clash, .. } => {
            assert_eq!(state == State::Blocked, clash.is_some());
            clash
        }
        answer => panic!("{}", answer),
    }
}

/// What is held, the request, and the record that it is told of.
const CLASHES: [(&[Lists], Lists, Option<u8>); 17] = [
    // By a read, by two writes, by a write over a read.
    (&[(&[], &[5])], (&[5], &[]), Some(5)),
    (&[(&[], &[5])], (&[], &[5]), Some(5)),
    (&[(&[5], &[])], (&[], &[5]), Some(5)),
    // Both read it.
    (&[(&[5], &[])], (&[5], &[]), None),
    // The lowest is not the first found: it stands with the second holder, in the
    // reads before the writes, and in the writes behind the reads.
    (&[(&[], &[90]), (&[], &[20])], (&[], &[20, 90]), Some(20)),
    (&[(&[], &[20, 90])], (&[90], &[20]), Some(20)),
    (&[(&[], &[20, 90])], (&[20], &[90]), Some(20)),
    (&[(&[40], &[30])], (&[30], &[40]), Some(30)),
    (&[(&[30], &[40])], (&[40], &[30]), Some(30)),
    // Lower records that it names and does not clash on: both read 3, nobody
    // has 4.
    (&[(&[3], &[9])], (&[3, 9], &[4]), Some(9)),
    (&[(&[3], &[9])], (&[3], &[4, 9]), Some(9)),
    // A record in both lists as given is written only, be it the clash or not.
    (&[(&[7], &[])], (&[7], &[7]), Some(7)),
    (&[(&[], &[8])], (&[8, 2, 8], &[8]), Some(8)),
    (&[(&[], &[8])], (&[2, 8], &[2]), Some(8)),
    (&[(&[6], &[8])], (&[2, 6, 8], &[2]), Some(8)),
    // Its own lists are none of its clashes.
    (&[(&[50], &[60])], (&[7], &[7]), None),
    (&[], (&[1, 2, 3], &[1, 2, 3]), None),
];

#[test]
fn the_lowest_record_of_a_clash() {
    for (holders, request, lowest) in CLASHES {
        let mut table = holding(holders);
        assert_eq!(told(&mut table, request), lowest, "{:?}", request);
    }
}

/// The first and the last record, and those beside the borders of 64.
#[test]
fn records_at_the_borders() {
    const RECORDS: [u8; 8] = [0, 63, 64, 127, 128, 191, 192, 255];
    for record in RECORDS {
        for (held, asked) in [(true, true), (true, false), (false, true)] {
            let mut table = roomy();
            begin_one(&mut table, 1, record, held);
            let outcome = begin_one(&mut table, 2, record, asked);
            assert_eq!(outcome, format!("blocked:2.1@{} 4", record));
        }
        // All of them are held: the lowest of those asked for is told.
        let mut table = roomy();
        table.begin(1, 0, &[], &RECORDS);
        let from = RECORDS.iter().position(|&other| other == record);
        let asked = &RECORDS[from.expect("it is one of them")..];
        let outcome = said(table.begin(2, 0, asked, &[]));
        assert!(
            outcome.starts_with(&format!("blocked:2.1@{} ", record)),
            "{}",
            outcome
        );
    }
}

/// A request of one record, which it writes or reads.
fn begin_one(table: &mut Table, tenant: u8, record: u8, writes: bool) -> String {
    let list = [record];
    said(if writes {
        table.begin(tenant, 0, &[], &list)
    } else {
        table.begin(tenant, 0, &list, &[])
    })
}

/// Sixteen records, of which only one clashes: the highest read, or the highest
/// written one.
#[test]
fn only_the_highest_of_many() {
    let reads = [1, 3, 5, 7, 9, 11, 13, 250];
    let writes = [0, 2, 4, 6, 8, 10, 12, 240];
    for highest in [250, 240] {
        let mut table = roomy();
        begin_one(&mut table, 1, highest, true);
        // Others that stand between and do not clash.
        table.begin(1, 0, &[1, 3, 245], &[]);
        let outcome = said(table.begin(2, 0, &reads, &writes));
        assert_eq!(outcome, format!("blocked:2.1@{} 34", highest));
    }
}

/// It clashes with an entry that is Blocked itself, and with nothing else.
#[test]
fn behind_a_blocked_entry() {
    let mut table = roomy();
    assert_eq!(said(table.begin(1, 0, &[], &[1])), "free:1.1 4");
    assert_eq!(said(table.begin(2, 0, &[], &[1, 2])), "blocked:2.1@1 6");
    assert_eq!(said(table.begin(3, 0, &[2], &[])), "blocked:3.1@2 4");
    assert_eq!(said(table.begin(3, 0, &[0], &[3])), "free:3.2 6");
}

/// A record with two holders is held until both have left.
#[test]
fn one_of_two_holders_leaves() {
    let mut table = roomy();
    table.begin(1, 0, &[5], &[]);
    table.begin(1, 0, &[5, 6], &[]);
    assert_eq!(said(table.finish(1, 1)), "done 0");
    assert_eq!(said(table.begin(2, 0, &[], &[5, 6])), "blocked:2.1@5 6");
    assert_eq!(said(table.finish(1, 2)), "done 0");
    // 2.1 is Blocked still, and writes both.
    assert_eq!(said(table.begin(3, 0, &[6], &[])), "blocked:3.1@6 4");
    assert_eq!(said(table.recheck(2, 1)), "still 3");
    assert_eq!(said(table.pick()), "free:2.1 0");
    assert_eq!(said(table.finish(2, 1)), "done 0");
    assert_eq!(said(table.begin(2, 0, &[], &[5])), "free:2.2 4");
}

/// "The listing's blocked answer at Begin": no other call tells a record.
#[test]
fn no_other_call_tells_it() {
    let mut table = busy();
    let deliver = table.deliver(2, 1);
    assert_eq!(said(deliver), "blocked:2.1 0");
    assert!(matches!(
        deliver.answer,
        Answer::Entry {
            state: State::Blocked,
            clash: None,
            ..
        }
    ));
    // One more writer of 10, to be in the way of a Recheck, which says "still".
    assert_eq!(said(table.begin(3, 1, &[], &[10])), "blocked:3.1@10 4");
    assert_eq!(said(table.finish(1, 1)), "done 0");
    assert_eq!(said(table.recheck(2, 1)), "still 3");
    assert_eq!(said(table.scan(2)), "free:2.1 6");
    assert_eq!(said(table.finish(2, 1)), "done 0");
    assert_eq!(said(table.recheck(3, 1)), "waiting:3.1 2");
    assert_eq!(said(table.deliver(3, 1)), "free:3.1 0");
}

/// What an entry waits for, as long as it does: the lowest record of now.
#[test]
fn what_an_entry_waits_for_changes() {
    let mut table = holding(&[(&[], &[10]), (&[], &[20]), (&[], &[30])]);
    assert_eq!(told(&mut table, (&[10, 20], &[30])), Some(10));
    for (leaves, waits_for) in [(2, Some(10)), (1, Some(30)), (3, None)] {
        assert_eq!(said(table.finish(1, leaves)), "done 0");
        let at = table.queue.len() - 1;
        assert_eq!(table.clash_ahead(at), waits_for);
        assert_eq!(table.queue[at].state, State::Blocked);
    }
}

/// Every pair of requests over records 0 to 2: the report is the lowest record
/// whose counters, before the second's own, say that it clashes.
#[test]
fn all_small_pairs() {
    let of = |how: [u8; 3], which: u8| -> Vec<u8> {
        (0..3).filter(|&r| how[usize::from(r)] == which).collect()
    };
    let ways: Vec<[u8; 3]> = (0..27).map(|k| [k % 3, k / 3 % 3, k / 9]).collect();
    let mut blocked = 0;
    for &held in &ways {
        for &asked in &ways {
            let mut table = roomy();
            table.begin(1, 0, &of(held, 1), &of(held, 2));
            let clashes = |&record: &u8| match asked[usize::from(record)] {
                1 => cx(&table, record) > 0,
                2 => cx(&table, record) > 0 || cs(&table, record) > 0,
                _ => false,
            };
            let lowest = (0..3).find(clashes);
            let outcome = table.begin(2, 0, &of(asked, 1), &of(asked, 2));
            match outcome.answer {
                Answer::Entry { state, clash, .. } => {
                    assert_eq!(clash, lowest, "{:?} {:?}", held, asked);
                    assert_eq!(state == State::Blocked, lowest.is_some());
                }
                answer => panic!("{}", answer),
            }
            blocked += usize::from(lowest.is_some());
        }
    }
    // A record of a pair clashes in 3 of 9 ways, so that 6 to the third do not.
    assert_eq!(blocked, 729 - 216);
}

#[test]
fn held_counts_records_and_not_entries() {
    let mut table = roomy();
    assert_eq!(table.held(), held(0, 0, 0));
    table.begin(1, 0, &[5, 6], &[]);
    assert_eq!(table.held(), held(0, 2, 2));
    table.begin(1, 0, &[5], &[7]);
    assert_eq!(table.held(), held(1, 2, 3));
    // Blocked, and counted all the same: 6 is in both then, and once in either.
    table.begin(2, 0, &[255], &[0, 6]);
    assert_eq!(table.held(), held(3, 3, 5));
    // A record in both lists as given is written only.
    table.begin(2, 0, &[100], &[100]);
    assert_eq!(table.held(), held(4, 3, 6));
}

/// A record stays held until its last holder has left.
#[test]
fn held_falls_with_the_last_holder() {
    let mut table = holding(&[(&[5, 8], &[]), (&[5], &[9])]);
    assert_eq!(table.held(), held(1, 2, 3));
    table.finish(1, 1);
    assert_eq!(table.held(), held(1, 1, 2));
    table.finish(1, 2);
    assert_eq!(table.held(), held(0, 0, 0));
}

/// All 256 records, each in one list and then in both kinds.
#[test]
fn held_counts_up_to_256() {
    let mut table = opened(&[64]);
    table.grant(1, 1_000_000);
    let records: Vec<u8> = (0..=255).collect();
    for eight in records.chunks(8) {
        table.begin(1, 0, eight, &[]);
    }
    assert_eq!(table.held(), held(0, 256, 256));
    for eight in records.chunks(8) {
        table.begin(1, 0, &[], eight);
    }
    assert_eq!(table.held(), held(256, 256, 256));
    assert_eq!(table.queue.len(), 64);
}

/// On a block: 15 where it is not sound, and nothing is written.
#[test]
fn held_on_a_block() {
    let sound = block::write(&busy());
    assert_eq!(block::held(&sound), Ok(held(2, 1, 3)));
    // Cx of a record that nobody has, a head, an unused byte, the length.
    let mut broken = vec![sound.clone(), sound.clone(), sound.clone()];
    broken[0][121 + 77] = 1;
    broken[1][0] = 0;
    broken[2][BYTES - 1] = 1;
    broken.extend([vec![], sound[1..].to_vec(), [&sound[..], &[0]].concat()]);
    for bytes in broken {
        assert_eq!(block::held(&bytes), Err(Refusal::BlockNotSound));
    }
}

/// The reply on a block is that of the state.
#[test]
fn a_begin_on_a_block_tells_the_record() {
    let mut block = block::write(&busy());
    let begin = |reads, writes| Event::Begin {
        tenant: 3,
        awaited: 0,
        reads,
        writes,
    };
    let first = block::call(&mut block, begin(&[11, 20], &[9]));
    assert_eq!(said(first), "blocked:3.1@20 8");
    let second = block::call(&mut block, begin(&[], &[9, 10, 11]));
    assert_eq!(said(second), "blocked:3.2@9 8");
    assert_eq!(block::held(&block), Ok(held(4, 2, 4)));
    let deliver = Event::Deliver {
        tenant: 2,
        serial: 1,
    };
    assert_eq!(said(block::call(&mut block, deliver)), "blocked:2.1 0");
}
