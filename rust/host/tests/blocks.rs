//! Sound and unsound blocks: each rule of document 02's Item 1, with Item 2's
//! change, just kept and just broken. An unsound block is refused by every call, unchanged, and Open
//! overwrites it.

mod common;

use common::{
    base, entry, gives, Call, Entry, Picture, BLOCKED, COUNT, CS, CX, ENTRIES, FREE, WAITING,
};
use damsonpouch::{held, Locks, Refusal, BLOCK_LENGTH};

fn is_sound(block: &[u8]) -> bool {
    Locks::over(&mut block.to_vec()).is_sound()
}

#[track_caller]
fn sound(why: &str, picture: &Picture) {
    let block = picture.bytes();
    assert!(is_sound(&block), "not sound: {}", why);
    // a call that changes nothing gives the block back as it was
    gives(&block, |locks| locks.grant(1, 0), "ok 0", &block);
}

#[track_caller]
fn unsound(why: &str, block: &[u8]) {
    assert!(!is_sound(block), "sound: {}", why);
    let calls: [Call; 9] = [
        |locks| locks.grant(1, 1),
        |locks| locks.begin(1, 0, &[], &[200]),
        |locks| locks.finish(1, 1),
        |locks| locks.recheck(2, 1),
        |locks| locks.scan(1),
        |locks| locks.pick(),
        |locks| locks.deliver(1, 2),
        |locks| locks.evict(1, 1),
        |locks| locks.cancel(2, 1),
    ];
    for call in calls {
        gives(block, call, "refused:15 0", block);
    }
    assert_eq!(held(block), Err(Refusal::NotSound), "{}", why);
    let fresh = Picture::fresh(&[1; 16]).bytes();
    if block.len() == BLOCK_LENGTH {
        gives(block, |locks| locks.open(&[1; 16]), "ok 0", &fresh);
    } else {
        gives(block, |locks| locks.open(&[1; 16]), "refused:15 0", block);
        gives(block, |locks| locks.open(&[]), "refused:15 0", block);
    }
}

/// A room of 16 tenants with four places each, and these entries.
fn room(queue: Vec<Entry>) -> Picture {
    let mut picture = Picture::fresh(&[4; 16]);
    picture.serials = [9; 16];
    picture.queue = queue;
    picture
}

#[test]
fn lengths() {
    let block = base().bytes();
    for length in [0, 1, 2, 3, 19, 639, 640, 2175] {
        unsound("short", &block[..length]);
    }
    for more in [1, 2176] {
        unsound("long", &[&block[..], &vec![0; more]].concat());
    }
    unsound("fresh memory", &[0; BLOCK_LENGTH]);
    unsound("noise", &[0xff; BLOCK_LENGTH]);
    sound("the block itself", &base());
}

#[test]
fn heads() {
    for field in [0, 19, 118, 377, 636] {
        for at in field..field + 3 {
            for bit in 0..8 {
                let mut block = base().bytes();
                block[at] ^= 1 << bit;
                unsound("a head", &block);
            }
        }
    }
}

#[test]
fn shares_fuel_and_count() {
    let mut picture = Picture::fresh(&[4; 16]);
    sound("64 places", &picture);
    picture.shares[3] = 5;
    unsound("65 places", &picture.bytes());
    sound("one tenant has all", &Picture::fresh(&[64]));
    unsound(
        "a sum that is 0 in a byte",
        &Picture::fresh(&[128, 128]).bytes(),
    );

    sound("all the fuel", &base().fuel(16, 1_000_000_000));
    unsound("a unit more", &base().fuel(16, 1_000_000_001).bytes());
    unsound("high bytes", &base().fuel(3, 0xff00_0000).bytes());

    let full = |held: u16| {
        let mut picture = Picture::fresh(&[64]).serials(1, 99);
        picture.queue = (1..=held).map(|k| entry(1, k, FREE, &[1], &[])).collect();
        picture
    };
    sound("64 entries", &full(64));
    let mut block = full(64).bytes();
    block[COUNT] = 65;
    unsound("65 entries", &block);
    block[COUNT] = 255;
    unsound("255 entries", &block);
    block[COUNT] = 63;
    unsound("an entry that is not counted", &block);
    let mut block = base().bytes();
    block[COUNT] = 4;
    unsound("a counted entry that is not there", &block);
}

#[test]
fn awaited_and_due() {
    let of = |state, awaited, due| room(vec![entry(1, 1, state, &[], &[1]).awaits(awaited, due)]);
    sound("15 awaited", &of(WAITING, 15, 15));
    unsound("16 awaited", &of(WAITING, 16, 15).bytes());
    unsound("more due than awaited", &of(WAITING, 1, 2).bytes());
    unsound("more due than awaited", &of(BLOCKED, 0, 1).bytes());
    sound("Blocked with some due", &of(BLOCKED, 3, 2));
    sound("Free once all have come", &of(FREE, 3, 0));
    unsound("Free with one due", &of(FREE, 3, 1).bytes());
    sound("Waiting for the last", &of(WAITING, 3, 1));
    unsound("Waiting with nothing due", &of(WAITING, 3, 0).bytes());
    unsound("Waiting with nothing awaited", &of(WAITING, 0, 0).bytes());
    sound("Blocked once all have come", &of(BLOCKED, 3, 0));
    unsound("a state of 3", &of(3, 1, 1).bytes());
    unsound("a state of 255", &of(255, 1, 1).bytes());
}

#[test]
fn tenants_and_serials() {
    let of = |tenant, serial| entry(tenant, serial, FREE, &[], &[]);
    sound("tenant 16", &room(vec![of(16, 1)]));
    unsound("tenant 0", &room(vec![of(0, 1)]).bytes());
    unsound("tenant 17", &room(vec![of(17, 1)]).bytes());
    unsound("tenant 255", &room(vec![of(255, 1)]).bytes());
    let four = vec![of(2, 1), of(2, 2), of(2, 3), of(2, 4)];
    sound("all its places", &room(four.clone()));
    let mut more = room(four);
    more.shares[1] = 3;
    unsound("above its share", &more.bytes());

    sound("the last serial given", &room(vec![of(1, 9)]));
    unsound("a serial not given yet", &room(vec![of(1, 10)]).bytes());
    unsound("a serial of 0", &room(vec![of(1, 0)]).bytes());
    sound("a gap", &room(vec![of(1, 2), of(1, 7)]));
    sound(
        "two tenants, each rising",
        &room(vec![of(1, 5), of(2, 1), of(1, 6), of(2, 3)]),
    );
    unsound("falling", &room(vec![of(1, 5), of(2, 1), of(1, 4)]).bytes());
    unsound("twice", &room(vec![of(1, 5), of(2, 1), of(1, 5)]).bytes());
}

#[test]
fn lists() {
    let of = |reads: &[u8], writes: &[u8]| room(vec![entry(1, 1, FREE, reads, writes)]);
    sound(
        "eight of each",
        &of(&[1, 2, 3, 4, 5, 6, 7, 8], &[0, 9, 10, 11, 12, 13, 14, 255]),
    );
    unsound("nine reads", &of(&[1, 2, 3, 4, 5, 6, 7, 8, 9], &[]).bytes());
    unsound(
        "nine writes",
        &of(&[], &[1, 2, 3, 4, 5, 6, 7, 8, 9]).bytes(),
    );
    unsound("reads that fall", &of(&[2, 1], &[]).bytes());
    unsound("a write twice", &of(&[], &[2, 2]).bytes());
    unsound("in both lists", &of(&[1, 2], &[2, 3]).bytes());
    sound("Free without a record", &of(&[], &[]));
    unsound(
        "Blocked without a record",
        &room(vec![entry(1, 1, BLOCKED, &[], &[])]).bytes(),
    );
    let mut block = of(&[1], &[2]).bytes();
    block[ENTRIES + 6] = 200;
    unsound("200 reads", &block);
    block[ENTRIES + 6] = 255;
    block[ENTRIES + 7] = 255;
    unsound("255 of each", &block);
}

#[test]
fn unused_bytes() {
    for at in [ENTRIES + 9, ENTRIES + 23, ENTRIES + 72, ENTRIES + 500, 2175] {
        let mut block = base().bytes();
        assert_eq!(block[at], 0);
        block[at] = 1;
        unsound("an unused byte", &block);
    }
}

#[test]
fn counters() {
    for at in [
        CX,
        CX + 10,
        CX + 12,
        CX + 255,
        CS,
        CS + 5,
        CS + 20,
        CS + 255,
    ] {
        for off in [1, 255] {
            let mut block = base().bytes();
            block[at] = block[at].wrapping_add(off);
            unsound("a counter", &block);
        }
    }
    let mut block = base().bytes();
    block.swap(CX + 10, CX + 12);
    unsound("two counters in each other's place", &block);
}

#[test]
fn conflicts() {
    let of = |state: u8, awaited, reads: &[u8], writes: &[u8]| {
        room(vec![
            entry(1, 1, FREE, &[1], &[2]),
            entry(2, 1, state, reads, writes).awaits(awaited, awaited),
        ])
    };
    sound("two readers", &of(FREE, 0, &[1], &[]));
    for (reads, writes) in [(&[2][..], &[][..]), (&[], &[1]), (&[], &[2])] {
        unsound(
            "a Free one behind one it conflicts with",
            &of(FREE, 0, reads, writes).bytes(),
        );
        unsound(
            "a Waiting one behind one it conflicts with",
            &of(WAITING, 1, reads, writes).bytes(),
        );
        sound("a Blocked one", &of(BLOCKED, 0, reads, writes));
    }
    // one that is no longer held up may still be called Blocked, and the
    // entries ahead count though they are Blocked
    sound("Blocked behind nobody", &of(BLOCKED, 0, &[7], &[]));
    let mut ahead = of(FREE, 0, &[2], &[]);
    ahead.queue[0].state = BLOCKED;
    unsound("a Free one behind a Blocked one", &ahead.bytes());
    ahead.queue.swap(0, 1);
    sound("the other way round", &ahead);
}

#[test]
fn a_block_with_one_changed_byte_is_never_written() {
    // whatever byte is changed and however: either the block is sound, or
    // nothing of it is
    let base = base().bytes();
    for at in (0..BLOCK_LENGTH).step_by(5) {
        for to in [0, 1, 2, 16, 255] {
            let mut block = base.clone();
            block[at] = to;
            let mut after = block.clone();
            let told = Locks::over(&mut after).grant(16, 7).to_string();
            if is_sound(&block) {
                assert_eq!(told, "ok 0", "byte {} is {}", at, to);
                assert!(is_sound(&after));
            } else {
                assert_eq!(told, "refused:15 0", "byte {} is {}", at, to);
                assert_eq!(after, block);
            }
        }
    }
}
