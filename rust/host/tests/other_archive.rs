//! Another archive than the one that the crate was written for: its functions
//! stand here, so that the linker takes none of `libdamsonpouch.a`, and hand back
//! what a test tells them. By it is tried what the pages say of panics.

mod common;

use common::Call;
use damsonpouch::{held, is_sound, Answer, Held, Locks, Outcome, Refusal, State, BLOCK_LENGTH};
use std::cell::Cell;
use std::panic::{catch_unwind, AssertUnwindSafe};

/// As `include/damsonpouch.h` has it.
#[repr(C)]
#[derive(Clone, Copy, Debug, Default)]
struct Reply {
    kind: u8,
    number: u8,
    state: u8,
    tenant: u8,
    serial: u16,
    clashed: u8,
    lowest: u8,
    burnt: u32,
}

#[repr(C)]
#[derive(Clone, Copy, Debug, Default)]
struct Counts {
    number: u8,
    written: u16,
    read: u16,
    either: u16,
}

thread_local! {
    static REPLY: Cell<Reply> = Cell::new(Reply::default());
    static COUNTS: Cell<Counts> = Cell::new(Counts::default());
}

/// What the functions of this archive hand back, whatever they are given.
macro_rules! hands_back_the_reply {
    ($($name:ident($($argument:ty),*);)*) => {
        $(#[no_mangle]
        extern "C" fn $name(_: *mut u8, _: usize, $(_: $argument),*) -> Reply {
            REPLY.with(Cell::get)
        })*
    };
}

hands_back_the_reply! {
    damsonpouch_open(*const u8, usize);
    damsonpouch_grant(u8, u32);
    damsonpouch_begin(u8, u8, *const u8, usize, *const u8, usize);
    damsonpouch_finish(u8, u16);
    damsonpouch_recheck(u8, u16);
    damsonpouch_scan(u8);
    damsonpouch_pick();
    damsonpouch_deliver(u8, u16);
    damsonpouch_evict(u8, u16);
    damsonpouch_cancel(u8, u16);
}

#[no_mangle]
extern "C" fn damsonpouch_held(_: *const u8, _: usize) -> Counts {
    COUNTS.with(Cell::get)
}

#[no_mangle]
extern "C" fn damsonpouch_sound(_: *const u8, _: usize) -> bool {
    REPLY.with(Cell::get).number > 0
}

/// The ten calls.
const CALLS: [Call; 10] = [
    |locks| locks.open(&[4; 16]),
    |locks| locks.grant(1, 40),
    |locks| locks.begin(1, 0, &[], &[10]),
    |locks| locks.finish(1, 1),
    |locks| locks.recheck(1, 1),
    |locks| locks.scan(1),
    |locks| locks.pick(),
    |locks| locks.deliver(1, 1),
    |locks| locks.evict(1, 1),
    |locks| locks.cancel(1, 1),
];

/// What a call on some block gives, or the message of its panic.
fn given<T>(call: impl FnOnce(&mut Locks<'_>) -> T) -> Result<T, String> {
    let mut block = [7; BLOCK_LENGTH];
    let mut locks = Locks::over(&mut block);
    catch_unwind(AssertUnwindSafe(|| call(&mut locks))).map_err(|panic| {
        let message = panic.downcast::<String>().expect("it has a message");
        *message
    })
}

/// Every one of the ten calls panics, and says which reply it was.
#[track_caller]
fn unknown(reply: Reply) {
    REPLY.with(|next| next.set(reply));
    for (at, call) in CALLS.iter().enumerate() {
        let message = given(call).expect_err("no panic");
        let due = format!(
            "libdamsonpouch.a is not the one that this crate was written for: it gave {:?}",
            reply
        );
        assert_eq!(message, due, "call {}", at + 1);
    }
}

/// None of the ten calls panics, and each gives that.
#[track_caller]
fn known(reply: Reply, answer: Result<Answer, Refusal>) {
    REPLY.with(|next| next.set(reply));
    let burnt = reply.burnt;
    for call in CALLS {
        assert_eq!(given(call), Ok(Outcome { answer, burnt }));
    }
}

fn plain(kind: u8, burnt: u32) -> Reply {
    Reply {
        kind,
        burnt,
        ..Reply::default()
    }
}

fn refused(number: u8, burnt: u32) -> Reply {
    Reply {
        number,
        ..plain(4, burnt)
    }
}

fn entry(state: u8, clashed: u8, lowest: u8) -> Reply {
    Reply {
        state,
        tenant: 16,
        serial: 65_535,
        clashed,
        lowest,
        ..plain(5, 4_294_967_295)
    }
}

#[test]
fn a_reply_that_is_not_known_panics() {
    for kind in [6, 7, 255] {
        unknown(plain(kind, 0));
    }
    for number in [0, 5, 16, 255] {
        unknown(refused(number, 1));
    }
    for state in [3, 255] {
        unknown(entry(state, 0, 0));
    }
    // a record without a clash; a clash that is no Blocked entry's, or is neither
    // yes nor no
    for (state, clashed, lowest) in [(2, 0, 1), (0, 0, 255), (0, 1, 7), (1, 1, 7), (2, 2, 7)] {
        unknown(entry(state, clashed, lowest));
    }
}

#[test]
fn a_reply_that_is_known_does_not() {
    for (kind, said) in (0..).zip([Answer::Ok, Answer::Done, Answer::Still, Answer::Nothing]) {
        known(plain(kind, 1_089), Ok(said));
    }
    for refusal in &Refusal::ALL {
        known(refused(refusal.number(), 9), Err(*refusal));
    }
    let states = [State::Free, State::Waiting, State::Blocked];
    for (number, state) in (0..).zip(states) {
        let clashes: &[Option<u8>] = match state {
            State::Blocked => &[None, Some(0), Some(255)],
            _ => &[None],
        };
        for &clash in clashes {
            let said = Answer::Entry {
                state,
                tenant: 16,
                serial: 65_535,
                clash,
            };
            let clashed = u8::from(clash.is_some());
            known(entry(number, clashed, clash.unwrap_or(0)), Ok(said));
        }
    }
}

#[test]
fn held_panics_on_a_number_that_is_not_known() {
    let gives = |number| {
        let counts = Counts {
            number,
            written: 1,
            read: 256,
            either: 257,
        };
        COUNTS.with(|next| next.set(counts));
        let lent = given(|locks| locks.held());
        let read = given(|locks| held(locks.block()));
        assert_eq!(lent, read);
        lent
    };
    let counted = Held {
        written: 1,
        read: 256,
        either: 257,
    };
    assert_eq!(gives(0), Ok(Ok(counted)));
    for number in (1..=16).chain([255]) {
        match Refusal::from_number(number) {
            Some(refusal) => assert_eq!(gives(number), Ok(Err(refusal))),
            None => {
                let message = gives(number).expect_err("no panic");
                assert!(message.starts_with("libdamsonpouch.a is not the one that "));
                assert!(message.contains(&format!("Counts {{ number: {},", number)));
            }
        }
    }
}

/// The check, the bytes and the making of a `Locks` ask for no reply.
#[test]
fn the_others_do_not_panic() {
    for number in [0, 16] {
        REPLY.with(|next| next.set(refused(number, 0)));
        COUNTS.with(|next| {
            next.set(Counts {
                number: 16,
                ..Counts::default()
            })
        });
        assert_eq!(given(|locks| locks.is_sound()), Ok(number > 0));
        assert_eq!(given(|locks| is_sound(locks.block())), Ok(number > 0));
        assert_eq!(given(|locks| locks.block()[0]), Ok(7));
    }
}

/// The pages say what was tried above.
#[test]
fn the_pages_say_so() {
    let source = include_str!("../src/locks.rs");
    let page = |item: &str| {
        let at = source.find(item).expect("it is there");
        let above = source[..at].rsplit("\n\n").next().unwrap_or("");
        let lines = above.lines().filter_map(|line| line.strip_prefix("///"));
        lines.map(str::trim).collect::<Vec<_>>().join(" ")
    };
    let locks = page("pub struct Locks");
    for said in [
        "# Panics  The ten calls and [`held`](Locks::held) panic where the archive hands back a \
         reply that this crate does not know:",
        "[`over`](Locks::over), [`block`](Locks::block) and [`is_sound`](Locks::is_sound) do not \
         panic.",
    ] {
        assert!(locks.contains(said), "{}\nis not in:\n{}", said, locks);
    }
    // and nothing else of panics
    assert_eq!(locks.matches("panic").count(), 2);
    let free = page("pub fn held(block");
    assert!(free.contains("# Panics  Where another archive was linked"));
    assert!(!page("pub fn is_sound(block").contains("Panics"));
}
