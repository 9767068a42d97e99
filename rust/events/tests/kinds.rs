//! Each kind of generated file is what its name says; of `overlap`, `clash` and
//! `stuck` more is said in `overlap.rs`, `clash.rs` and `stuck.rs`.

mod common;

use common::{files, walk, Step};
use events::kinds::{generate, Kind, KINDS};
use second::reader::read_record;
use second::State::{Blocked, Free, Waiting};
use second::{Answer, Entry, Event, FileRefusal};
use std::collections::BTreeSet;

const SEEDS: u64 = 96;

/// How many of its files have a call of which `holds` is true.
fn files_with(kind: Kind, holds: impl Fn(&Step<'_>) -> bool) -> u64 {
    common::files_with(kind, SEEDS, holds)
}

#[test]
fn a_seed_gives_the_same_file_again() {
    for (name, kind) in KINDS {
        for seed in [0, 1, 77, u64::MAX] {
            assert_eq!(generate(seed, kind), generate(seed, kind), "{}", name);
        }
    }
}

#[test]
fn seeds_give_different_files() {
    for (name, kind) in KINDS {
        let different: BTreeSet<Vec<u8>> = files(kind, SEEDS).collect();
        // Boundary files are short by nature, so that some come twice.
        let least = if kind == Kind::Boundary {
            SEEDS / 2
        } else {
            SEEDS - 2
        };
        assert!(
            different.len() as u64 >= least,
            "{}: {}",
            name,
            different.len()
        );
    }
}

#[test]
fn names_find_their_kinds() {
    for (name, kind) in KINDS {
        assert_eq!(Kind::named(name), Some(kind));
        assert!(Kind::names().contains(name));
    }
    assert_eq!(Kind::named("Mixed"), None);
    assert_eq!(Kind::named(""), None);
}

/// Small enough that thousands of files compare fast.
#[test]
fn files_are_small() {
    for (name, kind) in KINDS {
        let mut sizes: Vec<usize> = files(kind, SEEDS).map(|file| file.len()).collect();
        sizes.sort_unstable();
        let most = if kind == Kind::Boundary {
            65_537
        } else {
            16_384
        };
        assert!(sizes[sizes.len() - 1] <= most, "{}: {:?}", name, sizes);
        assert!(sizes[sizes.len() / 2] <= 8_192, "{}: {:?}", name, sizes);
    }
}

#[test]
fn loads_are_good_files() {
    let good = [
        Kind::Mixed,
        Kind::Deep,
        Kind::Scarce,
        Kind::Remote,
        Kind::Refusals,
        Kind::Worst,
        Kind::Early,
        Kind::Overlap,
        Kind::Clash,
        Kind::Stuck,
    ];
    for kind in good {
        for file in files(kind, SEEDS) {
            assert_eq!(walk(&file, |_| ()), None, "{:?}", kind);
        }
    }
}

#[test]
fn mixed_files_answer_in_every_way() {
    let answers = ["ok", "done", "nothing", "free", "blocked", "refused"];
    for answer in answers {
        let with = files_with(Kind::Mixed, |step| {
            step.outcome.answer.to_string().starts_with(answer)
        });
        assert!(with > SEEDS / 2, "{}: {} files", answer, with);
    }
    for call in ["evict", "cancel"] {
        let with = files_with(Kind::Mixed, |step| {
            step.event.call() == call && step.outcome.answer == Answer::Done
        });
        assert!(with > SEEDS / 2, "{}: {} files", call, with);
    }
}

/// Item 7's calls are new: the loads that speak of other things, and the kinds of
/// former items, are without them.
#[test]
fn the_other_kinds_take_nothing_out() {
    for kind in [
        Kind::Deep,
        Kind::Scarce,
        Kind::Remote,
        Kind::Worst,
        Kind::Early,
        Kind::Overlap,
        Kind::Clash,
    ] {
        let with = files_with(kind, |step| {
            ["evict", "cancel"].contains(&step.event.call())
        });
        assert_eq!(with, 0, "{:?}", kind);
    }
}

#[test]
fn deep_files_have_deep_queues() {
    assert_eq!(
        files_with(Kind::Deep, |step| step.after.queue.len() > 32),
        SEEDS
    );
    let tenants = |step: &Step<'_>| {
        let held: BTreeSet<u8> = step.after.queue.iter().map(|entry| entry.tenant).collect();
        held.len()
    };
    assert_eq!(files_with(Kind::Deep, |step| tenants(step) >= 10), SEEDS);
}

#[test]
fn scarce_files_run_short() {
    for number in [2, 9] {
        let with = files_with(Kind::Scarce, |step| step.refusal() == Some(number));
        assert!(with > SEEDS * 9 / 10, "refusal {}: {} files", number, with);
    }
}

#[test]
fn remote_files_answer_early_and_late() {
    for (from, to) in [
        (Waiting, Free),
        (Blocked, Blocked),
        (Blocked, Free),
        (Blocked, Waiting),
    ] {
        let with = files_with(Kind::Remote, |step| {
            let before = step.entry_before().map(|entry| entry.state);
            before == Some(from) && step.answered_state() == Some(to)
        });
        assert!(with > SEEDS / 2, "{:?} to {:?}: {} files", from, to, with);
    }
}

/// Whether a call promotes an entry that got answers while it was Blocked: all of
/// them, or some.
fn promotes(step: &Step<'_>, call: &str, all: bool) -> bool {
    let answered = |entry: &Entry| {
        let awaited = entry.request.awaited;
        entry.state == Blocked && entry.due < awaited && (entry.due == 0) == all
    };
    let state = if all { Free } else { Waiting };
    step.event.call() == call
        && step.entry_before().map_or(false, answered)
        && step.answered_state() == Some(state)
}

/// Each call that can promotes such an entry, and the entry leaves.
#[test]
fn early_files_promote_what_has_answers() {
    for call in ["recheck", "scan", "pick"] {
        for all in [true, false] {
            let (mut promoting, mut finishing) = (0, 0);
            for file in files(Kind::Early, SEEDS) {
                let (mut promoted, mut finished) = (BTreeSet::new(), false);
                walk(&file, |step| match (step.outcome.answer, step.event) {
                    (Answer::Entry { tenant, serial, .. }, _) if promotes(step, call, all) => {
                        promoted.insert((tenant, serial));
                    }
                    (Answer::Done, Event::Finish { tenant, serial }) => {
                        finished |= promoted.contains(&(tenant, serial));
                    }
                    _ => {}
                });
                promoting += u64::from(!promoted.is_empty());
                finishing += u64::from(finished);
            }
            let what = format!("{}, all answers: {}", call, all);
            assert!(promoting > SEEDS * 9 / 10, "{}: {} files", what, promoting);
            assert!(finishing > SEEDS * 3 / 4, "{}: {} files", what, finishing);
        }
    }
}

/// Calls on an entry that has been promoted, or is Blocked with its answers in.
#[test]
fn early_files_try_what_cannot_be() {
    for (call, number, state) in [
        ("finish", 11, Waiting),
        ("finish", 11, Blocked),
        ("finish", 2, Blocked),
        ("recheck", 11, Waiting),
        ("recheck", 11, Free),
        ("deliver", 12, Blocked),
        ("deliver", 12, Free),
    ] {
        let with = files_with(Kind::Early, |step| {
            step.event.call() == call
                && step.refusal() == Some(number)
                && step.entry_before().map(|entry| entry.state) == Some(state)
        });
        assert!(with > SEEDS / 4, "{} {:?}: {} files", call, state, with);
    }
    let dry = |step: &Step<'_>| {
        let tenant = step.event.tenant();
        step.outcome.answer == Answer::Done
            && tenant.and_then(|tenant| step.before.fuel(tenant)) == Some(0)
    };
    assert!(files_with(Kind::Early, dry) > SEEDS * 9 / 10);
}

/// Every number but 5 (it is no longer given), 8 (no file reaches it) and 14
/// (which leaves no other call admitted) in most of the files.
#[test]
fn refusals_files_refuse() {
    for number in [1, 2, 3, 4, 6, 7, 9, 10, 11, 12, 13] {
        let with = files_with(Kind::Refusals, |step| step.refusal() == Some(number));
        assert!(with > SEEDS * 3 / 4, "refusal {}: {} files", number, with);
    }
    for (call, number) in [
        ("evict", 1),
        ("evict", 10),
        ("cancel", 1),
        ("cancel", 2),
        ("cancel", 10),
        ("cancel", 11),
    ] {
        let with = files_with(Kind::Refusals, |step| {
            step.event.call() == call && step.refusal() == Some(number)
        });
        assert!(with > SEEDS / 8, "{} {}: {} files", call, number, with);
    }
    let overlapping = |step: &Step<'_>| step.overlaps() && step.refusal().is_none();
    let with = files_with(Kind::Refusals, overlapping);
    assert!(with > SEEDS / 2, "a record in both lists: {} files", with);
    let with = files_with(Kind::Refusals, |step| step.refusal() == Some(14));
    assert!(with > 0, "refusal 14");
    assert_eq!(
        files_with(Kind::Refusals, |step| step.refusal() == Some(8)),
        0
    );
}

#[test]
fn worst_files_have_the_dearest_scan() {
    let full = |step: &Step<'_>| {
        let queue = &step.after.queue;
        queue.len() == 64 && queue.iter().all(|entry| entry.request.n() == 16)
    };
    assert_eq!(files_with(Kind::Worst, full), SEEDS);
    let dearest = |step: &Step<'_>| step.event.call() == "scan" && step.outcome.burnt == 1_089;
    assert_eq!(files_with(Kind::Worst, dearest), SEEDS);
}

#[test]
fn damaged_files_are_mostly_refused() {
    let refused = files(Kind::Damaged, SEEDS)
        .filter(|file| walk(file, |_| ()).is_some())
        .count() as u64;
    assert!(refused > SEEDS / 2, "{} files", refused);
    assert!(refused < SEEDS, "no damage that leaves a good file");
}

#[test]
fn boundary_files_have_the_sizes_of_the_boundaries() {
    let sizes: BTreeSet<usize> = files(Kind::Boundary, SEEDS)
        .map(|file| file.len())
        .collect();
    for size in [0, 1, 2, 19, 65_536, 65_537] {
        assert!(sizes.contains(&size), "no file of {} bytes", size);
    }
    let mut refused = BTreeSet::new();
    for file in files(Kind::Boundary, SEEDS) {
        refused.extend(walk(&file, |_| ()).map(|refusal| refusal.number()));
    }
    let all: BTreeSet<u8> = (20..=24).collect();
    assert_eq!(refused, all);
}

/// Some files begin with an Evict or a Cancel, and some end with tag 0A.
#[test]
fn boundary_files_have_the_tags_of_item_7() {
    let mut first = BTreeSet::new();
    let mut unknown = BTreeSet::new();
    for file in files(Kind::Boundary, 24 * 40) {
        first.extend(file.first().copied());
        let mut rest = &file[..];
        while let Ok((_, after)) = read_record(rest) {
            rest = after;
        }
        if let (Some(&tag), Some(FileRefusal::UnknownTag)) = (rest.first(), walk(&file, |_| ())) {
            unknown.insert(tag);
        }
    }
    for tag in [0x09, 0x0B] {
        assert!(first.contains(&tag), "no file begins with {}", tag);
        assert!(!unknown.contains(&tag), "{} is known", tag);
    }
    assert!(unknown.contains(&0x0A), "0A is never met");
}

/// A file of exactly 65,536 bytes is read to its end.
#[test]
fn some_boundary_file_is_as_long_as_may_be_and_good() {
    let mut longest = files(Kind::Boundary, SEEDS).filter(|file| file.len() == 65_536);
    assert!(longest.any(|file| walk(&file, |_| ()).is_none()));
}
