//! Item 5 of document 02: what a Blocked Begin tells, and how many records are
//! held. Worked out by hand from documents 01 and 02.

mod common;

use common::{base, entry, Call, Picture, BLOCKED, FREE, WAITING};
use damsonpouch::{held, Answer, Held, Locks, Refusal, State, BLOCK_LENGTH};

/// Reads and writes.
type Lists = (&'static [u8], &'static [u8]);

/// Tenant 1 holds these, as they stand; tenant 2 has a place and fuel.
fn holding(holders: &[(u8, Lists)]) -> Picture {
    let mut picture = Picture::fresh(&[32, 1]).fuel(2, 100).serials(1, 99);
    for (serial, (state, (reads, writes))) in (1..).zip(holders) {
        let holder = entry(1, serial, *state, reads, writes);
        let due = u8::from(*state == WAITING);
        picture = picture.with(holder.awaits(due, due));
    }
    picture
}

/// What tenant 2 is told when it begins this behind those. A Blocked entry, and
/// no other, is told a record.
#[track_caller]
fn told(holders: &[(u8, Lists)], (reads, writes): Lists) -> Option<u8> {
    let mut block = holding(holders).bytes();
    let mut locks = Locks::over(&mut block);
    assert!(locks.is_sound());
    let answer = locks.begin(2, 0, reads, writes).answer.expect("admitted");
    let blocked = answer.state() == Some(State::Blocked);
    assert_eq!(answer.clash().is_some(), blocked);
    let record = answer.clash().map_or(String::new(), |r| format!("@{}", r));
    let word = if blocked { "blocked" } else { "free" };
    assert_eq!(answer.to_string(), format!("{}:2.1{}", word, record));
    answer.clash()
}

#[test]
fn the_lowest_record_of_a_clash() {
    let cases: [(&[(u8, Lists)], Lists, Option<u8>); 13] = [
        // by a read, by two writes, by a write over a read; two readers do not
        (&[(FREE, (&[], &[5]))], (&[5], &[]), Some(5)),
        (&[(FREE, (&[], &[5]))], (&[], &[5]), Some(5)),
        (&[(FREE, (&[5], &[]))], (&[], &[5]), Some(5)),
        (&[(FREE, (&[5], &[]))], (&[5], &[]), None),
        // the lowest, whichever holder has it, among the reads or the writes
        (
            &[(FREE, (&[], &[90])), (WAITING, (&[], &[20]))],
            (&[], &[20, 90]),
            Some(20),
        ),
        (&[(FREE, (&[], &[20, 90]))], (&[90], &[20]), Some(20)),
        (&[(FREE, (&[], &[20, 90]))], (&[20], &[90]), Some(20)),
        (&[(FREE, (&[30], &[40]))], (&[40], &[30]), Some(30)),
        // lower ones that both read, or that nobody has
        (&[(FREE, (&[3], &[9]))], (&[3, 9], &[2, 4]), Some(9)),
        (&[(FREE, (&[3], &[9]))], (&[0, 3], &[9]), Some(9)),
        // in both lists as given: once, and no clash with itself
        (&[(FREE, (&[7], &[]))], (&[7], &[7]), Some(7)),
        (&[(FREE, (&[8], &[]))], (&[7, 8], &[7]), None),
        // with a Blocked one alone
        (
            &[(FREE, (&[], &[1])), (BLOCKED, (&[], &[1, 2]))],
            (&[2], &[]),
            Some(2),
        ),
    ];
    for (holders, request, lowest) in cases {
        assert_eq!(told(holders, request), lowest, "{:?}", request);
    }
}

#[test]
fn every_record_can_be_told() {
    for record in 0..=255 {
        for (held, asked) in [(true, true), (true, false), (false, true)] {
            let one = [record];
            let lists = |writes: bool| -> (&[u8], &[u8]) {
                if writes {
                    (&[], &one)
                } else {
                    (&one, &[])
                }
            };
            let (reads, writes) = lists(held);
            let mut block = holding(&[]).with(entry(1, 1, FREE, reads, writes)).bytes();
            let (reads, writes) = lists(asked);
            let begun = Locks::over(&mut block).begin(2, 0, reads, writes);
            assert_eq!(begun.to_string(), format!("blocked:2.1@{} 4", record));
        }
    }
}

/// The two words on each side of a border: the lower one is told, in both lists.
#[test]
fn records_at_the_borders_of_the_words() {
    let all: &[u8] = &[0, 63, 64, 127, 128, 191, 192, 255];
    for (from, &record) in all.iter().enumerate() {
        let mut block = holding(&[(FREE, (&[], all))]).bytes();
        let begun = Locks::over(&mut block).begin(2, 0, &all[from..], &[]);
        assert_eq!(begun.answer.map(Answer::clash), Ok(Some(record)));
        let mut block = holding(&[(FREE, (all, &[]))]).bytes();
        let begun = Locks::over(&mut block).begin(2, 0, &[], &all[from..]);
        assert_eq!(begun.answer.map(Answer::clash), Ok(Some(record)));
    }
}

/// One of two holders leaves, and the record is still told; then the other.
#[test]
fn one_of_two_holders_leaves() {
    let mut block = holding(&[(FREE, (&[70], &[])), (FREE, (&[70, 71], &[]))]).bytes();
    let mut locks = Locks::over(&mut block);
    assert_eq!(locks.held(), Ok(counts(0, 2, 2)));
    assert_eq!(locks.finish(1, 1).to_string(), "done 0");
    assert_eq!(locks.held(), Ok(counts(0, 2, 2)));
    let begun = locks.begin(2, 1, &[], &[70]);
    assert_eq!(begun.to_string(), "blocked:2.1@70 4");
    assert_eq!(locks.finish(1, 2).to_string(), "done 0");
    assert_eq!(locks.held(), Ok(counts(1, 0, 1)));
    // no other call tells a record
    assert_eq!(locks.deliver(2, 1).to_string(), "blocked:2.1 0");
    assert_eq!(locks.recheck(2, 1).to_string(), "free:2.1 2");
    assert_eq!(locks.finish(2, 1).to_string(), "done 0");
    assert_eq!(locks.begin(2, 0, &[], &[70]).to_string(), "free:2.2 4");
}

/// What is taken out holds nothing any more: what another has too is still told,
/// and counted, and what it alone had is not.
#[test]
fn what_is_taken_out_holds_nothing() {
    // 10 is written by 1.1 and 2.1; 20 is read by 1.2; 5 and 12 are 2.1's alone
    // who then asks for all four is told the lowest of those that are left
    let taken: [(Call, Held, u8); 4] = [
        (|locks| locks.evict(1, 1), counts(2, 2, 4), 5),
        (|locks| locks.evict(1, 2), counts(2, 1, 3), 5),
        (|locks| locks.evict(2, 1), counts(1, 1, 2), 10),
        (|locks| locks.cancel(2, 1), counts(1, 1, 2), 10),
    ];
    for (take_out, left, lowest) in taken {
        let mut block = base().bytes();
        let mut locks = Locks::over(&mut block);
        assert_eq!(take_out(&mut locks).answer, Ok(Answer::Done));
        assert_eq!(locks.held(), Ok(left));
        let begun = locks.begin(1, 0, &[], &[5, 10, 12, 20]);
        assert_eq!(begun.answer.map(Answer::clash), Ok(Some(lowest)));
    }
    // both holders of 70, and then nobody
    let mut block = holding(&[(FREE, (&[], &[70])), (BLOCKED, (&[70], &[]))]).bytes();
    let mut locks = Locks::over(&mut block);
    assert_eq!(locks.grant(1, 1).to_string(), "ok 0");
    assert_eq!(locks.cancel(1, 2).to_string(), "done 1");
    assert_eq!(locks.held(), Ok(counts(1, 0, 1)));
    assert_eq!(locks.evict(1, 1).to_string(), "done 0");
    assert_eq!(locks.held(), Ok(counts(0, 0, 0)));
    assert_eq!(locks.begin(2, 0, &[], &[70]).to_string(), "free:2.1 4");
}

fn counts(written: u16, read: u16, either: u16) -> Held {
    Held {
        written,
        read,
        either,
    }
}

#[test]
fn held_counts_records() {
    let fresh = Picture::fresh(&[4; 16]).bytes();
    assert_eq!(held(&fresh), Ok(counts(0, 0, 0)));
    // 10 and 12 are written, 5 and 20 are read
    let block = base().bytes();
    let told = held(&block);
    assert_eq!(told, Ok(counts(2, 2, 4)));
    assert_eq!(
        told.map(|held| held.to_string()),
        Ok(String::from("written 2 read 2 either 4"))
    );
    let mut lent = block.clone();
    let locks = Locks::over(&mut lent);
    assert_eq!(locks.held(), told);
    assert_eq!(lent, block, "it is only read");
    // a record that is read by one and written by another is one of either
    let both = holding(&[
        (FREE, (&[0, 255], &[64])),
        (BLOCKED, (&[64], &[0])),
        (BLOCKED, (&[64], &[])),
    ]);
    assert_eq!(held(&both.bytes()), Ok(counts(2, 3, 3)));
}

/// Every record, read by one and written by another.
#[test]
fn held_counts_up_to_256() {
    let records: Vec<u8> = (0..=255).collect();
    let mut picture = Picture::fresh(&[64]).serials(1, 64);
    for (serial, eight) in (1..).zip(records.chunks(8)) {
        picture = picture.with(entry(1, serial, FREE, eight, &[]));
    }
    assert_eq!(held(&picture.bytes()), Ok(counts(0, 256, 256)));
    for (serial, eight) in (33..).zip(records.chunks(8)) {
        picture = picture.with(entry(1, serial, BLOCKED, &[], eight));
    }
    assert_eq!(held(&picture.bytes()), Ok(counts(256, 256, 256)));
}

/// 15, and no other: the block is not sound, or has another length.
#[test]
fn held_is_refused_on_what_is_not_sound() {
    let block = base().bytes();
    for at in [0, 3, 121, 380, 639, 643, BLOCK_LENGTH - 1] {
        let mut broken = block.clone();
        broken[at] ^= 0x40;
        assert_eq!(held(&broken), Err(Refusal::NotSound), "byte {}", at);
    }
    for bytes in [&block[1..], &[&block[..], &[0]].concat(), &[]] {
        assert_eq!(held(bytes), Err(Refusal::NotSound));
    }
}
