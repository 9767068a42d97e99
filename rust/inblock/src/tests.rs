use super::*;
use crate::layout::{Block, HEADS, METERS, METER_BYTES};
use events::random::Random;
use second::{Answer, Held, Outcome, State, Table};

fn state_byte(state: State) -> u8 {
    match state {
        State::Free => FREE,
        State::Waiting => WAITING,
        State::Blocked => BLOCKED,
    }
}

/// The second program's table as the block's bytes.
fn encoded(table: &Table) -> Block {
    let mut bytes = Vec::new();
    bytes.extend(HEADS[0].1);
    bytes.extend(table.meters.iter().map(|meter| meter.share));
    bytes.extend(HEADS[1].1);
    for meter in &table.meters {
        bytes.extend(meter.fuel.to_be_bytes());
        bytes.extend(meter.serials.to_be_bytes());
    }
    for (head, written) in [(HEADS[2].1, true), (HEADS[3].1, false)] {
        bytes.extend(head);
        bytes.extend((0..=255).map(|record| {
            let has = |entry: &&second::Entry| {
                let request = &entry.request;
                let list = if written {
                    &request.writes
                } else {
                    &request.reads
                };
                list.contains(&record)
            };
            table.queue.iter().filter(has).count() as u8
        }));
    }
    bytes.extend(HEADS[4].1);
    bytes.push(table.queue.len() as u8);
    for entry in &table.queue {
        let request = &entry.request;
        let start = bytes.len();
        bytes.push(entry.tenant);
        bytes.extend(entry.serial.to_be_bytes());
        bytes.extend([state_byte(entry.state), request.awaited, entry.due]);
        bytes.extend([request.reads.len() as u8, request.writes.len() as u8]);
        bytes.extend(&request.reads);
        bytes.extend(&request.writes);
        bytes.resize(start + ENTRY_BYTES, 0);
    }
    bytes.resize(BLOCK_BYTES, 0);
    bytes.try_into().unwrap()
}

fn reply_of(outcome: Outcome) -> Reply {
    let burnt = outcome.burnt;
    match outcome.answer {
        Answer::Ok => Reply::plain(OK, burnt),
        Answer::Done => Reply::plain(DONE, burnt),
        Answer::Still => Reply::plain(STILL, burnt),
        Answer::Nothing => Reply::plain(NOTHING, burnt),
        Answer::Refused(refusal) => Reply::refused(refusal.number(), burnt),
        Answer::Entry {
            state,
            tenant,
            serial,
            clash,
        } => Reply {
            kind: NAMED,
            number: 0,
            state: state_byte(state),
            tenant,
            serial,
            clashed: u8::from(clash.is_some()),
            lowest: clash.unwrap_or(0),
            burnt,
        },
    }
}

fn counts_of(held: Held) -> Counts {
    Counts {
        number: 0,
        written: held.written,
        read: held.read,
        either: held.either,
    }
}

fn some_list(random: &mut Random) -> Vec<u8> {
    let most = if random.chance(3) { 10 } else { 4 };
    let count = random.between(0, most);
    let mut list: Vec<u8> = (0..count).map(|_| random.byte_between(0, 30)).collect();
    if random.chance(95) {
        list.sort_unstable();
        list.dedup();
    }
    list
}

/// One call, made on both.
fn call_both(random: &mut Random, block: &mut Block, table: &mut Table) -> (Reply, Outcome) {
    let tenant = random.byte_between(0, 6);
    let serial = match random.any_of(&(0..table.queue.len()).collect::<Vec<_>>()) {
        Some(at) if random.chance(90) => table.queue[at].serial,
        _ => random.between(0, 20) as u16,
    };
    let owner = table.queue.iter().find(|entry| entry.serial == serial);
    let tenant = match owner {
        Some(entry) if random.chance(70) => entry.tenant,
        _ => tenant,
    };
    match random.below(14) {
        0..=4 => {
            let awaited = if random.chance(70) {
                0
            } else {
                random.byte_between(0, 16)
            };
            let (mut reads, writes) = (some_list(random), some_list(random));
            // Written records among the reads, now and then more than 8 in all.
            if random.chance(40) {
                let more = random.between(1, 6);
                random.strew(&mut reads, &writes, more);
            }
            (
                begin(block, tenant, awaited, &reads, &writes),
                table.begin(tenant, awaited, &reads, &writes),
            )
        }
        5 => (finish(block, tenant, serial), table.finish(tenant, serial)),
        6 => (
            recheck(block, tenant, serial),
            table.recheck(tenant, serial),
        ),
        7 => (scan(block, tenant), table.scan(tenant)),
        8 => (pick(block), table.pick()),
        9 | 10 => (
            deliver(block, tenant, serial),
            table.deliver(tenant, serial),
        ),
        11 => (evict(block, tenant, serial), table.evict(tenant, serial)),
        12 => (cancel(block, tenant, serial), table.cancel(tenant, serial)),
        _ => {
            let amount = random.between(0, 300) as u32;
            (grant(block, tenant, amount), table.grant(tenant, amount))
        }
    }
}

#[test]
fn every_call_does_what_the_second_program_does() {
    let mut random = Random::new(1);
    for _ in 0..40 {
        let shares: Vec<u8> = (0..16).map(|_| random.byte_between(0, 8)).collect();
        let mut block = [0xff; BLOCK_BYTES];
        let reply = open(&mut block, &shares);
        let (mut table, outcome) = Table::open(&shares);
        assert_eq!(reply, reply_of(outcome));
        for _ in 0..300 {
            assert_eq!(block, encoded(&table));
            assert_eq!(held(&block), counts_of(table.held()));
            let (reply, outcome) = call_both(&mut random, &mut block, &mut table);
            assert_eq!(reply, reply_of(outcome));
        }
    }
}

#[test]
fn open_takes_any_bytes_of_the_right_length() {
    let mut block = [0xff; BLOCK_BYTES];
    assert_eq!(open(&mut block, &[4; 15]), Reply::refused(14, 0));
    assert_eq!(block, encoded(&Table::default()));
    assert_eq!(open(&mut block[1..], &[4; 16]), Reply::refused(15, 0));
    assert_eq!(open(&mut block, &[4; 16]), Reply::plain(OK, 0));
    assert!(sound(&block));
    assert!(!sound(&block[1..]));
    assert_eq!(grant(&mut block[1..], 0, 0), Reply::refused(15, 0));
}

/// Entries 1.1 Free, 1.2 Blocked by it, 2.1 Waiting, and 2.2 Free with an
/// answer delivered.
fn queued() -> Block {
    let mut block = [0; BLOCK_BYTES];
    open(
        &mut block,
        &[2, 3, 0, 0, 0, 0, 0, 0, 0, 0, 0, 0, 0, 0, 0, 0],
    );
    grant(&mut block, 1, 100);
    grant(&mut block, 2, 100);
    begin(&mut block, 1, 0, &[1, 2], &[3]);
    begin(&mut block, 1, 0, &[3], &[4]);
    begin(&mut block, 2, 2, &[1], &[]);
    begin(&mut block, 2, 1, &[], &[9]);
    deliver(&mut block, 2, 2);
    block
}

const NOT_SOUND: Counts = Counts {
    number: 15,
    written: 0,
    read: 0,
    either: 0,
};

/// The records 1, 2 and 3 of `queued` are read, 3, 4 and 9 written; a Finish of
/// 1.1 leaves 1 and 3 to others.
#[test]
fn held_goes_by_the_last_holder() {
    let mut block = queued();
    let counts = |written, read, either| Counts {
        number: 0,
        written,
        read,
        either,
    };
    assert_eq!(held(&block), counts(3, 3, 5));
    let before = block;
    assert_eq!(held(&block), counts(3, 3, 5));
    assert_eq!(block, before);
    assert_eq!(finish(&mut block, 1, 1).kind, DONE);
    assert_eq!(held(&block), counts(2, 2, 4));
    assert_eq!(held(&block[1..]), NOT_SOUND);
    open(&mut block, &[4; 16]);
    assert_eq!(held(&block), counts(0, 0, 0));
}

/// Item 7, on each entry of `queued`: 1.1, 2.1 and 2.2 run, and 1.2 is Blocked.
/// Those behind move up, and the counters are those of what is left.
#[test]
fn entries_are_taken_out() {
    let name = |block: &Block, at: usize| block[ENTRIES + at * ENTRY_BYTES..][..3].to_vec();
    let counters =
        |block: &Block| [CX + 3, CX + 4, CX + 9, CS + 1, CS + 2, CS + 3].map(|at| block[at]);
    assert_eq!(counters(&queued()), [1, 1, 1, 2, 1, 1]);
    type Case = ((u8, u16), bool, [u8; 6]);
    let cases: [Case; 4] = [
        ((1, 1), false, [0, 1, 1, 1, 0, 1]),
        ((1, 2), true, [1, 0, 1, 2, 1, 0]),
        ((2, 1), false, [1, 1, 1, 1, 1, 1]),
        ((2, 2), false, [1, 1, 0, 2, 1, 1]),
    ];
    let names = [[1, 0, 1], [1, 0, 2], [2, 0, 1], [2, 0, 2]];
    for (at, ((tenant, serial), blocked, left)) in cases.into_iter().enumerate() {
        let fuel = METERS + usize::from(tenant - 1) * METER_BYTES + 3;
        for evicts in [true, false] {
            let mut block = queued();
            let mut expected = queued();
            if !evicts {
                expected[fuel] -= 1;
            }
            if !evicts && !blocked {
                let reply = cancel(&mut block, tenant, serial);
                assert_eq!(reply, Reply::refused(11, 1));
                assert_eq!(block, expected);
                continue;
            }
            if evicts {
                let reply = evict(&mut block, tenant, serial);
                assert_eq!(reply, Reply::plain(DONE, 0));
            } else {
                let reply = cancel(&mut block, tenant, serial);
                assert_eq!(reply, Reply::plain(DONE, 1));
            }
            assert_eq!(block[..CX], expected[..CX]);
            assert_eq!(counters(&block), left);
            assert_eq!(block[COUNT], 3);
            let rest: Vec<_> = names.iter().filter(|other| **other != names[at]).collect();
            for (place, other) in rest.into_iter().enumerate() {
                assert_eq!(name(&block, place), other);
            }
            assert!(sound(&block));
            // The name is gone, and only a tenant's call pays for that.
            let before = block;
            assert_eq!(evict(&mut block, tenant, serial), Reply::refused(10, 0));
            assert_eq!(block, before);
            assert_eq!(cancel(&mut block, tenant, serial), Reply::refused(10, 1));
        }
    }
}

/// 1 comes first, a dry tank is a cancel's alone, and its last unit is enough.
#[test]
fn what_is_taken_out_by_whom() {
    let mut block = queued();
    let before = block;
    for tenant in [0, 17, 255] {
        assert_eq!(evict(&mut block, tenant, 1), Reply::refused(1, 0));
        assert_eq!(cancel(&mut block, tenant, 1), Reply::refused(1, 0));
    }
    assert_eq!(cancel(&mut block, 3, 1), Reply::refused(2, 0));
    assert_eq!(evict(&mut block, 3, 1), Reply::refused(10, 0));
    assert_eq!(block, before);
    for fuel in [0, 1] {
        let mut block = queued();
        block[METERS + 3] = fuel;
        let reply = match fuel {
            0 => Reply::refused(2, 0),
            _ => Reply::plain(DONE, 1),
        };
        assert_eq!(cancel(&mut block, 1, 2), reply);
        assert_eq!(block[METERS + 3], 0);
        assert_eq!(evict(&mut block, 1, 1), Reply::plain(DONE, 0));
        assert_eq!(block[METERS + 3], 0);
    }
    assert_eq!(evict(&mut block[1..], 1, 1), Reply::refused(15, 0));
    assert_eq!(cancel(&mut block[1..], 17, 1), Reply::refused(15, 0));
}

/// A Begin of tenant 2 behind `queued`, and the record that it is told of.
#[test]
fn a_blocked_begin_tells_the_lowest_record() {
    type Lists = (&'static [u8], &'static [u8]);
    let cases: [(Lists, Option<u8>); 8] = [
        ((&[3], &[]), Some(3)),
        ((&[], &[3]), Some(3)),
        ((&[], &[2]), Some(2)),
        ((&[4, 9], &[3]), Some(3)),
        ((&[3, 4], &[9]), Some(3)),
        ((&[1, 2, 9], &[0]), Some(9)),
        ((&[7, 2, 7], &[7]), None),
        ((&[1, 2], &[255]), None),
    ];
    for ((reads, writes), lowest) in cases {
        let mut block = queued();
        let reply = begin(&mut block, 2, 0, reads, writes);
        let told = (reply.clashed, reply.lowest);
        assert_eq!(told, lowest.map_or((0, 0), |record| (1, record)));
        assert_eq!(reply.state == BLOCKED, lowest.is_some());
        assert!(sound(&block));
    }
    // A Deliver to a Blocked entry tells none.
    let mut block = queued();
    assert_eq!(begin(&mut block, 2, 1, &[3], &[]).clashed, 1);
    let reply = deliver(&mut block, 2, 3);
    assert_eq!((reply.kind, reply.state), (NAMED, BLOCKED));
    assert_eq!((reply.clashed, reply.lowest), (0, 0));
}

/// The clauses of a sound block, each broken by some bytes: where they stand,
/// and what is put there.
#[test]
fn each_clause_of_soundness_is_checked() {
    let at = |place: usize, part: usize| ENTRIES + place * ENTRY_BYTES + part;
    let meter = |tenant: usize| METERS + (tenant - 1) * METER_BYTES;
    let broken: &[(&str, &[(usize, u8)])] = &[
        ("a tag", &[(0, 0x12)]),
        ("a length", &[(638, 0)]),
        ("the sum of the shares", &[(SHARES + 2, 60)]),
        (
            "fuel",
            &[
                (meter(5), 0x3b),
                (meter(5) + 1, 0x9a),
                (meter(5) + 2, 0xca),
                (meter(5) + 3, 1),
            ],
        ),
        ("a share", &[(SHARES, 1)]),
        ("the count", &[(COUNT, 65)]),
        ("a count too low", &[(COUNT, 3)]),
        ("a count too high", &[(COUNT, 5)]),
        ("tenant 0", &[(at(0, TENANT), 0)]),
        ("tenant 17", &[(at(0, TENANT), 17)]),
        ("serial 0", &[(at(0, SERIAL + 1), 0)]),
        ("a serial twice", &[(at(0, SERIAL + 1), 2)]),
        ("a serial not given", &[(meter(2) + 5, 1)]),
        ("a state", &[(at(0, STATE), 3)]),
        ("awaited", &[(at(2, AWAITED), 16)]),
        ("due", &[(at(2, DUE), 3)]),
        ("Free with something due", &[(at(2, STATE), FREE)]),
        ("Waiting with nothing awaited", &[(at(0, STATE), WAITING)]),
        ("Waiting with nothing due", &[(at(2, DUE), 0)]),
        ("Free behind a conflict", &[(at(1, STATE), FREE)]),
        ("the reads' number", &[(at(0, NR), 1), (at(0, NW), 2)]),
        (
            "reads that do not rise",
            &[(at(0, LISTS), 2), (at(0, LISTS + 1), 1)],
        ),
        ("a byte behind the records", &[(at(0, LISTS + 3), 1)]),
        ("an unused entry", &[(at(63, LISTS + 15), 1)]),
        ("Cx", &[(CX + 3, 2)]),
        ("Cs", &[(CS + 255, 1)]),
    ];
    assert!(sound(&queued()));
    for (clause, bytes) in broken {
        let mut block = queued();
        for &(place, value) in *bytes {
            assert_ne!(block[place], value, "{}", clause);
            block[place] = value;
        }
        let before = block;
        assert!(!sound(&block), "{}", clause);
        assert_eq!(finish(&mut block, 0, 0), Reply::refused(15, 0));
        assert_eq!(held(&block), NOT_SOUND);
        assert_eq!(block, before);
    }
}

#[test]
fn what_the_clauses_allow_is_sound() {
    let at = |place: usize, part: usize| ENTRIES + place * ENTRY_BYTES + part;
    let mut block = queued();
    // a Waiting entry with its last answer due; a Blocked one that nothing blocks; a gap in the serials
    for (place, value) in [
        (at(2, DUE), 1),
        (at(0, STATE), BLOCKED),
        (at(3, SERIAL + 1), 9),
        (METERS + METER_BYTES + 5, 9),
    ] {
        block[place] = value;
    }
    assert!(sound(&block));
}

#[test]
fn a_record_in_both_lists_is_not_sound() {
    let mut block = queued();
    let first = ENTRIES + LISTS;
    // 1.1 reads 1 and 3, writes 3: the counters go with it
    block[first + 1] = 3;
    block[CS + 2] -= 1;
    block[CS + 3] += 1;
    assert!(!sound(&block));
}

/// Item 4, with the bytes of the entry, and the counters Cx and Cs of 3, 7 and 9.
#[test]
fn a_record_in_both_lists_counts_as_written_only() {
    let lists = |reads: &[u8], writes: &[u8]| {
        let mut records = [0; 2 + 16];
        records[..2].copy_from_slice(&[reads.len() as u8, writes.len() as u8]);
        records[2..2 + reads.len()].copy_from_slice(reads);
        records[2 + reads.len()..][..writes.len()].copy_from_slice(writes);
        records
    };
    type Given = (&'static [u8], &'static [u8]);
    let cases: [(Given, [u8; 18], u32, [u8; 6]); 4] = [
        ((&[7], &[7]), lists(&[], &[7]), 4, [0, 1, 0, 0, 0, 0]),
        ((&[7, 7], &[7]), lists(&[], &[7]), 4, [0, 1, 0, 0, 0, 0]),
        ((&[9, 3], &[9]), lists(&[3], &[9]), 6, [0, 0, 1, 1, 0, 0]),
        (
            (&[9, 7, 9], &[3, 9]),
            lists(&[7], &[3, 9]),
            8,
            [1, 0, 1, 0, 1, 0],
        ),
    ];
    for ((reads, writes), stored, price, counters) in cases {
        let mut block = [0; BLOCK_BYTES];
        open(&mut block, &[4; 16]);
        grant(&mut block, 1, price - 1);
        let refused = begin(&mut block, 1, 0, reads, writes);
        assert_eq!(refused, Reply::refused(9, 1));
        grant(&mut block, 1, 2);
        let reply = begin(&mut block, 1, 0, reads, writes);
        assert_eq!((reply.kind, reply.state, reply.burnt), (NAMED, FREE, price));
        assert_eq!(block[ENTRIES + NR..ENTRIES + ENTRY_BYTES], stored);
        let counted = [CX + 3, CX + 7, CX + 9, CS + 3, CS + 7, CS + 9].map(|at| block[at]);
        assert_eq!(counted, counters);
        assert!(sound(&block));
        // A second one with the same lists is blocked by the first.
        grant(&mut block, 2, price);
        assert_eq!(begin(&mut block, 2, 0, reads, writes).state, BLOCKED);
    }
    let mut block = [0; BLOCK_BYTES];
    open(&mut block, &[4; 16]);
    grant(&mut block, 1, 100);
    let before = block;
    for (number, reads, writes) in [(4, &[3, 9, 3][..], &[9][..]), (3, &[7; 9], &[7])] {
        block = before;
        assert_eq!(
            begin(&mut block, 1, 0, reads, writes),
            Reply::refused(number, 1)
        );
    }
}

/// A promotion goes by the answers still due, whatever was awaited.
#[test]
fn a_promoted_entry_waits_only_for_what_is_due() {
    let calls: [fn(&mut [u8]) -> Reply; 3] = [
        |block| recheck(block, 1, 1),
        |block| scan(block, 1),
        |block| pick(block),
    ];
    for (due, state) in [(0, FREE), (1, WAITING), (2, WAITING)] {
        for call in calls {
            let mut block = [0; BLOCK_BYTES];
            open(&mut block, &[4; 16]);
            grant(&mut block, 1, 100);
            begin(&mut block, 1, 2, &[], &[3]);
            let entry = entry(&mut block, 0);
            entry[STATE] = BLOCKED;
            entry[DUE] = due;
            assert!(sound(&block));
            let mut after = block;
            let reply = call(&mut after);
            assert_eq!((reply.kind, reply.state), (NAMED, state));
            block[ENTRIES + STATE] = state;
            assert_eq!(after[COUNT..], block[COUNT..]);
            assert_eq!(finish(&mut after, 1, 1).kind == DONE, due == 0);
        }
    }
}
