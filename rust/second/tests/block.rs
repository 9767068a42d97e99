//! The block of Item 1, byte by byte: each clause of a sound block kept, broken
//! and named (the eighth as Item 2 has it), the calls on blocks that are sound
//! or not, and what Item 4 stores.

mod common;

use common::{burning, busy, held, said};
use second::block::{self, call, read, write, Broken, ListFault, Place, BYTES, CLAUSES};
use second::{apply, Answer, Event, Held, State, Table};

/// The block of `busy`, put down by hand. The fields begin at 0, 19, 118, 377
/// and 636, their bodies 3 bytes later.
fn busy_block() -> Vec<u8> {
    let mut block = vec![0; BYTES];
    let mut put = |at: usize, bytes: &[u8]| block[at..at + bytes.len()].copy_from_slice(bytes);
    put(0, &[0x11, 0, 16, 3, 3, 2, 0, 2]);
    put(19, &[0x12, 0, 96]);
    put(22, &[0, 0, 0, 92, 0, 2]);
    put(28, &[0, 0, 0, 94, 0, 1]);
    put(34, &[0, 0, 0, 100, 0, 0]);
    put(40, &[0, 0, 0, 100, 0, 0]);
    put(118, &[0x13, 1, 0]);
    put(121 + 10, &[2]);
    put(121 + 20, &[1]);
    put(377, &[0x14, 1, 0]);
    put(380 + 11, &[1]);
    // 1 + 64 * 24 is 1,537, or 0601.
    put(636, &[0x15, 6, 1, 3]);
    put(640, &[1, 0, 1, 0, 0, 0, 0, 1, 10]);
    put(664, &[1, 0, 2, 1, 2, 2, 0, 1, 20]);
    put(688, &[2, 0, 1, 2, 1, 1, 1, 1, 11, 10]);
    block
}

fn entry(number: usize, tenant: u8, serial: u16) -> Place {
    Place {
        number,
        tenant,
        serial,
    }
}

const FIRST: usize = 640;
const SECOND: usize = 664;
const THIRD: usize = 688;

/// Bytes to be put at places of the busy block.
type Change<'a> = &'a [(usize, &'a [u8])];

fn changed(change: Change<'_>) -> Vec<u8> {
    let mut block = busy_block();
    for (at, bytes) in change {
        block[*at..at + bytes.len()].copy_from_slice(bytes);
    }
    block
}

#[track_caller]
fn assert_sound(change: Change<'_>) {
    let block = changed(change);
    match read(&block) {
        Ok(table) => assert_eq!(write(&table), block),
        Err(broken) => panic!("{}", broken),
    }
}

/// The block breaks this clause, is told in these words, and every call but
/// Open is refused on it.
#[track_caller]
fn assert_broken(change: Change<'_>, clause: usize, broken: Broken, words: &str) {
    let block = changed(change);
    assert_eq!(read(&block), Err(broken));
    assert_eq!(broken.clause(), clause);
    assert_eq!(broken.to_string(), words);
    assert_all_refused(&block);
}

/// Every call but Open is refused with 15, burns nothing and changes nothing;
/// for a tenant that there is none of, too: "before 1".
#[track_caller]
fn assert_all_refused(block: &[u8]) {
    for tenant in [0, 1, 2, 17] {
        let serial = 1;
        let calls = [
            Event::Grant { tenant, amount: 1 },
            Event::Begin {
                tenant,
                awaited: 0,
                reads: &[],
                writes: &[],
            },
            Event::Finish { tenant, serial },
            Event::Recheck { tenant, serial },
            Event::Scan { tenant },
            Event::Pick,
            Event::Deliver { tenant, serial },
            Event::Evict { tenant, serial },
            Event::Cancel { tenant, serial },
        ];
        for event in calls {
            let mut after = block.to_vec();
            assert_eq!(said(call(&mut after, event)), "refused:15 0", "{:?}", event);
            assert_eq!(after, block, "{:?}", event);
        }
    }
}

#[test]
fn a_state_is_written_as_the_item_lays_it_out() {
    assert_eq!(write(&busy()), busy_block());
    assert_eq!(read(&busy_block()), Ok(busy()));
    let empty = write(&Table::default());
    assert_eq!(empty.len(), 2_176);
    assert_eq!(read(&empty), Ok(Table::default()));
}

#[test]
fn numbers_have_the_high_byte_first() {
    let mut table = busy();
    table.meters[15].fuel = 0x0102_0304;
    table.meters[15].serials = 0x0506;
    table.meters[0].serials = 0x0708;
    table.queue[1].serial = 0x0708;
    let block = write(&table);
    assert_eq!(block[112..118], [1, 2, 3, 4, 5, 6]);
    assert_eq!(block[SECOND..SECOND + 3], [1, 7, 8]);
    assert_eq!(read(&block), Ok(table));
}

#[test]
fn a_wrong_length_is_not_sound() {
    for bytes in [0, 1, 2_175, 2_177, 4_352] {
        let mut block = busy_block();
        block.resize(bytes, 0);
        let broken = Broken::Length { bytes };
        assert_eq!(read(&block), Err(broken));
        assert_eq!(broken.clause(), 1);
        let words = format!("the block has {} bytes, not 2176", bytes);
        assert_eq!(broken.to_string(), words);
        assert_all_refused(&block);
    }
}

#[test]
fn clause_1_heads() {
    assert_broken(
        &[(0, &[11])],
        1,
        Broken::Head {
            field: 0x11,
            offset: 0,
            found: 11,
            wanted: 0x11,
        },
        "byte 0 is 0b, not 11: it is part of the head of field 11",
    );
    assert_broken(
        &[(637, &[1, 6])],
        1,
        Broken::Head {
            field: 0x15,
            offset: 637,
            found: 1,
            wanted: 6,
        },
        "byte 637 is 01, not 06: it is part of the head of field 15",
    );
    // The fields in another order: 14 before 13.
    assert_broken(
        &[(118, &[0x14]), (377, &[0x13])],
        1,
        Broken::Head {
            field: 0x13,
            offset: 118,
            found: 0x14,
            wanted: 0x13,
        },
        "byte 118 is 14, not 13: it is part of the head of field 13",
    );
    for at in [
        0, 1, 2, 19, 20, 21, 118, 119, 120, 377, 378, 379, 636, 637, 638,
    ] {
        let mut block = busy_block();
        block[at] ^= 0x80;
        assert_eq!(read(&block).map_err(|broken| broken.clause()), Err(1));
    }
}

#[test]
fn clause_1_unused_bytes() {
    // The first unused byte of each entry, and the first and last of all.
    for (entry, offset) in [(1, 649), (2, 673), (3, 698), (4, 712), (64, 2_175)] {
        let words = format!(
            "byte {} is 01, not 00: it is an unused byte of entry {}",
            offset, entry
        );
        let found = 1;
        assert_broken(
            &[(offset, &[1])],
            1,
            Broken::Unused {
                entry,
                offset,
                found,
            },
            &words,
        );
    }
    // A count that leaves the third entry out.
    assert_broken(
        &[(639, &[2])],
        1,
        Broken::Unused {
            entry: 3,
            offset: THIRD,
            found: 2,
        },
        "byte 688 is 02, not 00: it is an unused byte of entry 3",
    );
}

#[test]
fn clause_2_shares() {
    // The others have 10.
    assert_sound(&[(18, &[54])]);
    let broken = Broken::Shares { sum: 65 };
    assert_broken(&[(18, &[55])], 2, broken, "the shares sum to 65, above 64");
    // 10 and 246 are 256: nothing wraps.
    let broken = Broken::Shares { sum: 256 };
    let words = "the shares sum to 256, above 64";
    assert_broken(&[(18, &[246])], 2, broken, words);
}

#[test]
fn clause_3_limits() {
    // 1,000,000,000 is 3b9aca00.
    assert_sound(&[(112, &[0x3B, 0x9A, 0xCA, 0x00])]);
    assert_broken(
        &[(112, &[0x3B, 0x9A, 0xCA, 0x01])],
        3,
        Broken::Fuel {
            tenant: 16,
            fuel: 1_000_000_001,
        },
        "tenant 16 has fuel 1000000001, above 1000000000",
    );
    assert_sound(&[(SECOND + 4, &[15])]);
    assert_broken(
        &[(SECOND + 4, &[16])],
        3,
        Broken::Awaited {
            at: entry(2, 1, 2),
            awaited: 16,
        },
        "entry 2 (1.2) awaits 16, above 15",
    );
    let broken = Broken::Count { count: 65 };
    assert_broken(
        &[(639, &[65])],
        3,
        broken,
        "the count of entries is 65, above 64",
    );
}

#[test]
fn clause_4_due() {
    assert_sound(&[(THIRD + 5, &[0])]);
    assert_broken(
        &[(THIRD + 5, &[2])],
        4,
        Broken::Due {
            at: entry(3, 2, 1),
            due: 2,
            awaited: 1,
        },
        "entry 3 (2.1) has 2 answers due of 1 awaited",
    );
}

#[test]
fn clause_5_tenants() {
    for tenant in [0, 17, 255] {
        let words = format!("entry 1 ({0}.1) is of tenant {0}, not of 1 to 16", tenant);
        let at = entry(1, tenant, 1);
        assert_broken(&[(FIRST, &[tenant])], 5, Broken::Tenant { at }, &words);
    }
    // A count that takes in the fourth entry, which is all zero.
    assert_broken(
        &[(639, &[4])],
        5,
        Broken::Tenant { at: entry(4, 0, 0) },
        "entry 4 (0.0) is of tenant 0, not of 1 to 16",
    );
    assert_sound(&[(3, &[2])]);
    assert_broken(
        &[(3, &[1])],
        5,
        Broken::AboveShare {
            tenant: 1,
            held: 2,
            share: 1,
        },
        "tenant 1 holds 2 places, above its share of 1",
    );
}

#[test]
fn clause_6_serials() {
    // With holes, and up to the last: given 65,535, serials 7 and 65,535.
    assert_sound(&[
        (26, &[0xFF, 0xFF]),
        (FIRST + 1, &[0, 7]),
        (SECOND + 1, &[0xFF, 0xFF]),
    ]);
    let serial = |at, before, given| Broken::Serial { at, before, given };
    assert_broken(
        &[(FIRST + 1, &[0, 0])],
        6,
        serial(entry(1, 1, 0), 0, 2),
        "entry 1 (1.0) has serial 0, not above 0 (its tenant's entry before) \
         and at most 2 (those given)",
    );
    assert_broken(
        &[(FIRST + 1, &[0, 2])],
        6,
        serial(entry(2, 1, 2), 2, 2),
        "entry 2 (1.2) has serial 2, not above 2 (its tenant's entry before) \
         and at most 2 (those given)",
    );
    assert_broken(
        &[(FIRST + 1, &[0, 2]), (SECOND + 1, &[0, 1])],
        6,
        serial(entry(2, 1, 1), 2, 2),
        "entry 2 (1.1) has serial 1, not above 2 (its tenant's entry before) \
         and at most 2 (those given)",
    );
    assert_broken(
        &[(THIRD + 1, &[0, 2])],
        6,
        serial(entry(3, 2, 2), 0, 1),
        "entry 3 (2.2) has serial 2, not above 0 (its tenant's entry before) \
         and at most 1 (those given)",
    );
}

#[test]
fn clause_7_states() {
    for state in [3, 255] {
        let words = format!("entry 1 (1.1) has state {}, not 0 to 2", state);
        let at = entry(1, 1, 1);
        let broken = Broken::State { at, state };
        assert_broken(&[(FIRST + 3, &[state])], 7, broken, &words);
    }
}

#[test]
fn clause_8_states_and_what_is_due() {
    // Free after its one answer has come.
    assert_sound(&[(FIRST + 4, &[1, 0])]);
    assert_broken(
        &[(FIRST + 4, &[1, 1])],
        8,
        Broken::FreeWithDue {
            at: entry(1, 1, 1),
            due: 1,
        },
        "entry 1 (1.1) is Free with 1 answers due",
    );
    // Waiting for its last answer; then with none due, though it awaited two, or
    // awaited none at all.
    assert_sound(&[(SECOND + 4, &[2, 1])]);
    for awaited in [2, 0] {
        assert_broken(
            &[(SECOND + 4, &[awaited, 0])],
            8,
            Broken::WaitingForNothing { at: entry(2, 1, 2) },
            "entry 2 (1.2) is Waiting and has no answer due",
        );
    }
    // A request without records is Free or Waiting, and never Blocked.
    let bare: Change<'_> = &[(FIRST + 7, &[0, 0]), (131, &[1])];
    assert_sound(bare);
    assert_broken(
        &[bare[0], bare[1], (FIRST + 3, &[2])],
        8,
        Broken::BlockedOnNothing { at: entry(1, 1, 1) },
        "entry 1 (1.1) is Blocked and has no records",
    );
}

#[test]
fn clause_9_lists() {
    let lists = |fault| Broken::Lists {
        at: entry(3, 2, 1),
        fault,
    };
    // Eight reads and eight writes: reads 30 to 37, writes 10 and 40 to 46.
    assert_sound(&[
        (THIRD + 6, &[8, 8, 30, 31, 32, 33, 34, 35, 36, 37]),
        (THIRD + 16, &[10, 40, 41, 42, 43, 44, 45, 46]),
        (121 + 40, &[1; 7]),
        (380 + 11, &[0]),
        (380 + 30, &[1; 8]),
    ]);
    let words = "entry 3 (2.1) has more than 8 reads or more than 8 writes";
    // Nine reads, 30 to 38, and the write of 10.
    assert_broken(
        &[
            (THIRD + 6, &[9, 1, 30, 31, 32, 33, 34, 35, 36, 37, 38, 10]),
            (380 + 11, &[0]),
            (380 + 30, &[1; 9]),
        ],
        9,
        lists(ListFault::TooManyRecords),
        words,
    );
    // More than there are bytes for.
    assert_broken(
        &[(THIRD + 7, &[255])],
        9,
        lists(ListFault::TooManyRecords),
        words,
    );
    let words = "entry 3 (2.1) has reads or writes not strictly rising";
    // Reads 11 and 11; then reads 12 and 11.
    assert_broken(
        &[(THIRD + 6, &[2, 1, 11, 11, 10]), (380 + 11, &[2])],
        9,
        lists(ListFault::NotRising),
        words,
    );
    assert_broken(
        &[(THIRD + 6, &[2, 1, 12, 11, 10]), (380 + 11, &[1, 1])],
        9,
        lists(ListFault::NotRising),
        words,
    );
    // Stored lists are judged as they are: reads 10 and 10 would rise without
    // the written one.
    assert_broken(
        &[(THIRD + 6, &[2, 1, 10, 10, 10]), (380 + 10, &[2, 0])],
        9,
        lists(ListFault::NotRising),
        words,
    );
    let words = "entry 3 (2.1) has a record in both lists";
    // Reads 10 and 11, then 10 alone; then reads 11 and writes 10 and 11.
    let both: [Change<'_>; 3] = [
        &[(THIRD + 6, &[2, 1, 10, 11, 10]), (380 + 10, &[1, 1])],
        &[(THIRD + 6, &[1, 1, 10, 10]), (380 + 10, &[1, 0])],
        &[(THIRD + 6, &[1, 2, 11, 10, 11]), (121 + 11, &[1])],
    ];
    for change in both {
        assert_broken(change, 9, lists(ListFault::InBothLists), words);
    }
}

#[test]
fn clause_10_counters() {
    let counter = |field, record, found, counted| Broken::Counter {
        field,
        record,
        found,
        counted,
    };
    assert_broken(
        &[(121 + 10, &[1])],
        10,
        counter(0x13, 10, 1, 2),
        "Cx of record 10 is 1, but the queue has 2",
    );
    assert_broken(
        &[(380 + 255, &[1])],
        10,
        counter(0x14, 255, 1, 0),
        "Cs of record 255 is 1, but the queue has 0",
    );
    assert_broken(
        &[(121, &[255])],
        10,
        counter(0x13, 0, 255, 0),
        "Cx of record 0 is 255, but the queue has 0",
    );
}

#[test]
fn clause_11_conflicts() {
    let conflict = |state| Broken::Conflict {
        at: entry(3, 2, 1),
        state,
        ahead: entry(1, 1, 1),
        record: 10,
    };
    let free = "entry 3 (2.1) is free and conflicts on record 10 with entry 1 (1.1) ahead of it";
    assert_broken(&[(THIRD + 3, &[0, 1, 0])], 11, conflict(State::Free), free);
    assert_broken(
        &[(THIRD + 3, &[1])],
        11,
        conflict(State::Waiting),
        "entry 3 (2.1) is waiting and conflicts on record 10 with entry 1 (1.1) ahead of it",
    );
    // "Blocked ones ahead count too": the first entry is Blocked, for which it
    // needs no conflict of its own.
    assert_sound(&[(FIRST + 3, &[2])]);
    assert_broken(
        &[(FIRST + 3, &[2]), (THIRD + 3, &[0, 1, 0])],
        11,
        conflict(State::Free),
        free,
    );
    // Two readers of 10 do not conflict; a reader behind a writer does.
    let readers: Change<'_> = &[
        (FIRST + 6, &[1, 0]),
        (THIRD + 6, &[2, 0, 10, 11]),
        (131, &[0]),
        (380 + 10, &[2, 1]),
    ];
    assert_sound(&[readers, &[(THIRD + 3, &[1])]].concat());
    let reader: Change<'_> = &[
        (THIRD + 6, &[2, 0, 10, 11]),
        (131, &[1]),
        (380 + 10, &[1, 1]),
    ];
    assert_sound(reader);
    assert_broken(
        &[reader, &[(THIRD + 3, &[0, 1, 0])]].concat(),
        11,
        conflict(State::Free),
        free,
    );
}

/// Where several clauses are broken, the first in the item's order is named.
#[test]
fn the_first_clause_is_named() {
    let mut changes: Vec<(usize, Change<'_>)> = vec![
        (11, &[(THIRD + 3, &[1])]),
        (10, &[(121, &[1])]),
        (9, &[(THIRD + 8, &[10])]),
        (8, &[(SECOND + 4, &[0, 0])]),
        (7, &[(FIRST + 3, &[9])]),
        (6, &[(FIRST + 1, &[1, 1])]),
        (5, &[(FIRST, &[99])]),
        (4, &[(FIRST + 5, &[1])]),
        (3, &[(24, &[255]), (22, &[255])]),
        (2, &[(18, &[200])]),
        (1, &[(2_175, &[1])]),
    ];
    assert_eq!(changes.len(), CLAUSES.len());
    let mut all = Vec::new();
    for (clause, change) in changes.drain(..) {
        all.extend_from_slice(change);
        let broken = read(&changed(&all)).expect_err("it is broken");
        assert_eq!(broken.clause(), clause, "{}", broken);
    }
}

/// "A call does to the block what it does to the state": the listing of
/// document 01, on a table and on a block.
#[test]
fn the_documents_listing_on_a_block() {
    let shares = [2, 2, 0, 0, 0, 0, 0, 0, 0, 0, 0, 0, 0, 0, 0, 0];
    let begin = |tenant, writes| Event::Begin {
        tenant,
        awaited: 0,
        reads: &[],
        writes,
    };
    let calls: [(Event<'_>, &str); 12] = [
        (Event::Open { shares: &shares }, "ok 0"),
        (grant(1, 40), "ok 0"),
        (grant(2, 40), "ok 0"),
        (begin(1, &[10]), "free:1.1 4"),
        (begin(1, &[11]), "free:1.2 4"),
        (begin(2, &[10, 12]), "blocked:2.1@10 6"),
        (begin(2, &[12]), "blocked:2.2@12 4"),
        (finish(1, 1), "done 0"),
        (
            Event::Recheck {
                tenant: 2,
                serial: 1,
            },
            "still 3",
        ),
        (Event::Scan { tenant: 2 }, "free:2.1 6"),
        (Event::Pick, "nothing 0"),
        (finish(2, 2), "refused:11 1"),
    ];
    let mut table = Table::default();
    let mut block = vec![0; BYTES];
    for (event, answer) in calls {
        assert_eq!(said(call(&mut block, event)), answer);
        assert_eq!(said(apply(&mut table, event)), answer);
        assert_eq!(block, write(&table));
        assert_eq!(read(&block), Ok(table.clone()));
    }
    // No call after line 8 changes the counters: Cx of 10, 11 and 12.
    assert_eq!(block[131..134], [1, 1, 2]);
}

fn grant(tenant: u8, amount: u32) -> Event<'static> {
    Event::Grant { tenant, amount }
}

fn finish(tenant: u8, serial: u16) -> Event<'static> {
    Event::Finish { tenant, serial }
}

/// "Open overwrites any block of the right length, with refusal 14's state too."
#[test]
fn open_overwrites_anything() {
    let mut shares = [4; 16];
    let good = write(&Table::open(&shares).0);
    assert_eq!(good[3..19], [4; 16]);
    shares[7] = 5;
    let blocks = [vec![0; BYTES], vec![0xFF; BYTES], busy_block()];
    for block in blocks {
        let mut after = block.clone();
        let outcome = call(&mut after, Event::Open { shares: &[4; 16] });
        assert_eq!(outcome, burning(0, Answer::Ok));
        assert_eq!(after, good);
        for bad in [&shares[..], &[4; 15], &[0; 17], &[]] {
            let mut after = block.clone();
            let outcome = call(&mut after, Event::Open { shares: bad });
            assert_eq!(said(outcome), "refused:14 0");
            assert_eq!(after, write(&Table::default()));
        }
    }
}

/// "(Open: only for a wrong length)", and then before 14.
#[test]
fn open_on_a_wrong_length() {
    for bytes in [0, 1, 2_175, 2_177, 4_352] {
        for shares in [&[4; 16][..], &[5; 16], &[]] {
            let mut block = vec![0xAB; bytes];
            let outcome = call(&mut block, Event::Open { shares });
            assert_eq!(said(outcome), "refused:15 0");
            assert_eq!(block, vec![0xAB; bytes]);
        }
    }
}

/// A refused call that burns writes the fuel back and nothing else. Refusal 8
/// needs a tenant that has been given 65,535 serials.
#[test]
fn refusals_on_a_sound_block() {
    let begin = Event::Begin {
        tenant: 3,
        awaited: 0,
        reads: &[],
        writes: &[1],
    };
    // Tenant 3's serials stand at 38 and 39, its fuel ends at 37.
    let mut block = changed(&[(38, &[0xFF, 0xFF])]);
    assert_eq!(said(call(&mut block, begin)), "refused:8 1");
    assert_eq!(block, changed(&[(37, &[99, 0xFF, 0xFF])]));
    let mut block = changed(&[(38, &[0xFF, 0xFE])]);
    assert_eq!(said(call(&mut block, begin)), "free:3.65535 4");
    let mut block = busy_block();
    assert_eq!(said(call(&mut block, grant(0, 1))), "refused:1 0");
    assert_eq!(said(call(&mut block, finish(5, 1))), "refused:2 0");
    assert_eq!(block, busy_block());
}

/// A deliver, a finish and a pick, with the bytes that they leave.
#[test]
fn calls_change_the_bytes_they_should() {
    let deliver = Event::Deliver {
        tenant: 1,
        serial: 2,
    };
    let mut block = busy_block();
    assert_eq!(said(call(&mut block, deliver)), "waiting:1.2 0");
    assert_eq!(block, changed(&[(SECOND + 5, &[1])]));
    assert_eq!(said(call(&mut block, deliver)), "free:1.2 0");
    assert_eq!(block, changed(&[(SECOND + 3, &[0, 2, 0])]));
    // 1.1 leaves: the others move up, the last place is cleared, Cx of 10 falls.
    let mut block = busy_block();
    assert_eq!(said(call(&mut block, finish(1, 1))), "done 0");
    let second: &[u8] = &[1, 0, 2, 1, 2, 2, 0, 1, 20];
    let third: &[u8] = &[2, 0, 1, 2, 1, 1, 1, 1, 11, 10];
    let moved: Change<'_> = &[
        (131, &[1]),
        (639, &[2]),
        (FIRST, second),
        (SECOND, third),
        (THIRD, &[0; 24]),
    ];
    assert_eq!(block, changed(moved));
    // 1.2 leaves after its answers; 2.1 is at the front, Blocked, and picked.
    for _ in 0..2 {
        call(&mut block, deliver);
    }
    assert_eq!(said(call(&mut block, finish(1, 2))), "done 0");
    assert_eq!(said(call(&mut block, Event::Pick)), "waiting:2.1 0");
    assert_eq!(block[640..650], [2, 0, 1, 1, 1, 1, 1, 1, 11, 10]);
}

/// Item 7: "Both release counters and place, refund no fuel". Each entry of the
/// busy block, of each state and at each end, with the bytes that it leaves.
#[test]
fn what_is_taken_out_leaves_the_block() {
    let evict = |tenant, serial| Event::Evict { tenant, serial };
    let cancel = |tenant, serial| Event::Cancel { tenant, serial };
    let second: &[u8] = &[1, 0, 2, 1, 2, 2, 0, 1, 20];
    let third: &[u8] = &[2, 0, 1, 2, 1, 1, 1, 1, 11, 10];
    // One of the two that write 10 is left, and one of 20 is none.
    let front: Change<'_> = &[(131, &[1]), (FIRST, second), (SECOND, third)];
    let middle: Change<'_> = &[(141, &[0]), (SECOND, third)];
    let last: Change<'_> = &[(131, &[1]), (391, &[0])];
    let always: Change<'_> = &[(639, &[2]), (THIRD, &[0; 24])];
    // Tenant 2's fuel of 94 ends at 31.
    let paid: Change<'_> = &[(31, &[93])];
    let cases: [(Event<'_>, &str, Change<'_>, Change<'_>, Held); 4] = [
        (evict(1, 1), "done 0", front, &[], held(2, 1, 3)),
        (evict(1, 2), "done 0", middle, &[], held(1, 1, 2)),
        (evict(2, 1), "done 0", last, &[], held(2, 0, 2)),
        (cancel(2, 1), "done 1", last, paid, held(2, 0, 2)),
    ];
    for (event, answer, change, burnt, held) in cases {
        let mut block = busy_block();
        assert_eq!(said(call(&mut block, event)), answer);
        assert_eq!(block, changed(&[always, change, burnt].concat()));
        assert_eq!(block::held(&block), Ok(held));
        // It is sound, and has no such entry any more.
        assert_eq!(said(call(&mut block, finish(2, 9))), "refused:10 1");
        let name = (event.tenant(), event);
        if let (Some(tenant), Event::Evict { serial, .. } | Event::Cancel { serial, .. }) = name {
            let again = call(&mut block, evict(tenant, serial));
            assert_eq!(said(again), "refused:10 0");
        }
    }
    // What is refused burns the cancel's unit at most.
    let unit: Change<'_> = &[(25, &[91])];
    let refused: [(Event<'_>, &str, Change<'_>); 6] = [
        (evict(17, 1), "refused:1 0", &[]),
        (evict(2, 2), "refused:10 0", &[]),
        (cancel(0, 1), "refused:1 0", &[]),
        (cancel(5, 1), "refused:2 0", &[]),
        (cancel(1, 3), "refused:10 1", unit),
        (cancel(1, 2), "refused:11 1", unit),
    ];
    for (event, answer, change) in refused {
        let mut block = busy_block();
        assert_eq!(said(call(&mut block, event)), answer);
        assert_eq!(block, changed(change));
    }
}

/// Item 4: "it raises Cx and not Cs, is counted once in n, and is stored among
/// the writes alone." Tenant 3 has fuel 100 and asks for 30 to 33.
#[test]
fn a_begin_stores_the_reduced_lists() {
    let begin = |reads, writes| Event::Begin {
        tenant: 3,
        awaited: 0,
        reads,
        writes,
    };
    let fourth = 712;
    let (count, serial): (Change<'_>, Change<'_>) = (&[(639, &[4])], &[(39, &[1])]);
    let cases: [(Event<'_>, &str, Change<'_>); 4] = [
        (
            begin(&[30], &[30]),
            "free:3.1 4",
            &[
                (37, &[96]),
                (121 + 30, &[1]),
                (fourth, &[3, 0, 1, 0, 0, 0, 0, 1, 30]),
            ],
        ),
        (
            begin(&[30, 31, 32], &[30, 32]),
            "free:3.1 8",
            &[
                (37, &[92]),
                (121 + 30, &[1, 0, 1]),
                (380 + 31, &[1]),
                (fourth, &[3, 0, 1, 0, 0, 0, 1, 2, 31, 30, 32]),
            ],
        ),
        (
            begin(&[33, 33, 30, 33, 31], &[33]),
            "free:3.1 8",
            &[
                (37, &[92]),
                (121 + 33, &[1]),
                (380 + 30, &[1, 1]),
                (fourth, &[3, 0, 1, 0, 0, 0, 2, 1, 30, 31, 33]),
            ],
        ),
        // 10 is written by 1.1 and 2.1, so that this one is Blocked.
        (
            begin(&[10, 30], &[10]),
            "blocked:3.1@10 6",
            &[
                (37, &[94]),
                (121 + 10, &[3]),
                (380 + 30, &[1]),
                (fourth, &[3, 0, 1, 2, 0, 0, 1, 1, 30, 10]),
            ],
        ),
    ];
    for (event, answer, change) in cases {
        let mut block = busy_block();
        assert_eq!(said(call(&mut block, event)), answer);
        assert_eq!(block, changed(&[count, serial, change].concat()));
        assert!(read(&block).is_ok());
    }
}

/// Item 2: what is still due decides, and the other bytes of the entry stay.
#[test]
fn a_promotion_goes_by_what_is_due() {
    // 1.1 writes 12 in place of 10, so that nothing is in the way of 2.1.
    let apart: Change<'_> = &[(131, &[1]), (133, &[1]), (FIRST + 8, &[12])];
    let recheck = Event::Recheck {
        tenant: 2,
        serial: 1,
    };
    let scan = Event::Scan { tenant: 2 };
    for (due, state, word) in [(0, 0, "free"), (1, 1, "waiting"), (2, 1, "waiting")] {
        let blocked: &[u8] = &[2, 2, due];
        let promoted: &[u8] = &[state, 2, due];
        // 1 + 2; and 1, and 2 for 1.1, 2 for 1.2, 3 for 2.1. The fuel was 94.
        for (event, burnt) in [(recheck, 3), (scan, 8)] {
            let left: &[u8] = &[94 - burnt];
            let before = [apart, &[(THIRD + 3, blocked)]].concat();
            let after = [apart, &[(THIRD + 3, promoted), (31, left)]].concat();
            let mut block = changed(&before);
            let answer = format!("{}:2.1 {}", word, burnt);
            assert_eq!(said(call(&mut block, event)), answer);
            assert_eq!(block, changed(&after));
        }
        let mut block = changed(&[(FIRST + 3, blocked)]);
        assert_eq!(
            said(call(&mut block, Event::Pick)),
            format!("{}:1.1 0", word)
        );
        assert_eq!(block, changed(&[(FIRST + 3, promoted)]));
    }
}
