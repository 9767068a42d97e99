//! What a call's units were paid for: each part by hand, and over generated
//! files that the parts sum up to what was burnt.

use events::kinds::{generate, KINDS};
use events::long::{long, LONG};
use events::text::to_bytes;
use page::bill::{bill, total, Part};
use second::{apply, Answer, Reader, Table};

/// The bill of each call of a file, with the units that the call burnt.
fn bills(file: &[u8]) -> Vec<(Vec<Part>, u32, Answer)> {
    let mut table = Table::default();
    let calls = Reader::new(file).filter_map(Result::ok);
    let billed = calls.map(|event| {
        let before = table.clone();
        let outcome = apply(&mut table, event);
        let parts = bill(&before, event, outcome.answer);
        (parts, outcome.burnt, outcome.answer)
    });
    billed.collect()
}

/// The bill of the last call of a text.
fn last(text: &str) -> Vec<Part> {
    let file = to_bytes(text.as_bytes()).expect("a right text");
    bills(&file).pop().expect("a call").0
}

fn looks(entries: usize, units: u32) -> Part {
    Part::Looks { entries, units }
}

const OPENED: &str = "open 3 2\ngrant 1 40\ngrant 2 40\n";

fn after_opening(calls: &str) -> Vec<Part> {
    last(&format!("{}{}", OPENED, calls))
}

#[test]
fn a_begin_pays_for_now_and_for_the_release() {
    let parts = |units| vec![Part::Now(units), Part::Release(units)];
    assert_eq!(after_opening("begin 1"), parts(1));
    assert_eq!(after_opening("begin 1 reads 3 4 writes 9"), parts(4));
    // A record in both lists is one record.
    assert_eq!(after_opening("begin 1 reads 3 9 writes 9"), parts(3));
    let blocked = "begin 1 writes 9\nbegin 2 reads 1 writes 9";
    assert_eq!(after_opening(blocked), parts(3));
}

#[test]
fn a_recheck_pays_for_the_records_and_a_cancel_one_unit() {
    let queue = "begin 1 writes 9\nbegin 2 reads 1 2 writes 9\n";
    let still = format!("{}recheck 2 1", queue);
    assert_eq!(after_opening(&still), [Part::Recheck(4)]);
    let promoted = format!("{}finish 1 1\nrecheck 2 1", queue);
    assert_eq!(after_opening(&promoted), [Part::Recheck(4)]);
    let cancelled = format!("{}cancel 2 1", queue);
    assert_eq!(after_opening(&cancelled), [Part::Cancel(1)]);
}

#[test]
fn a_scan_pays_for_the_entries_that_it_looks_at() {
    let queue = "begin 1 writes 9\nbegin 2 reads 1 2 writes 9\nbegin 1\n";
    let nothing = format!("{}scan 2", queue);
    assert_eq!(after_opening(&nothing), [Part::Search(1), looks(3, 7)]);
    // It stops at the one that it promotes.
    let found = format!("{}finish 1 1\nscan 2", queue);
    assert_eq!(after_opening(&found), [Part::Search(1), looks(1, 4)]);
    assert_eq!(after_opening("scan 2"), [Part::Search(1), looks(0, 0)]);
}

#[test]
fn a_scan_that_is_cut_short_pays_for_what_it_could() {
    let queue = "open 3 1\ngrant 1 40\nbegin 1 writes 9\nbegin 1 reads 1 2\nbegin 1\ngrant 2 ";
    let with = |fuel: u32| last(&format!("{}{}\nscan 2", queue, fuel));
    assert_eq!(with(1), [Part::Search(1), looks(0, 0)]);
    assert_eq!(with(2), [Part::Search(1), looks(0, 0)]);
    assert_eq!(with(3), [Part::Search(1), looks(1, 2)]);
    assert_eq!(with(5), [Part::Search(1), looks(1, 2)]);
    // The next entry costs 3, and 1 would do for the one behind it.
    assert_eq!(with(4), [Part::Search(1), looks(1, 2)]);
    assert_eq!(with(6), [Part::Search(1), looks(2, 5)]);
    assert_eq!(with(7), [Part::Search(1), looks(3, 6)]);
}

#[test]
fn a_refusal_pays_by_its_row() {
    let row = |units| [Part::Row(units)];
    assert_eq!(after_opening("begin 1 writes 9 9"), row(1));
    assert_eq!(after_opening("begin 17 writes 9"), row(0));
    assert_eq!(after_opening("begin 3 writes 9"), row(0));
    assert_eq!(after_opening("scan 3"), row(0));
    assert_eq!(after_opening("scan 0"), row(0));
    assert_eq!(after_opening("finish 1 1"), row(1));
    assert_eq!(after_opening("recheck 1 1"), row(1));
    assert_eq!(after_opening("cancel 1 1"), row(1));
    // The host's calls burn nothing.
    assert_eq!(after_opening("deliver 1 1"), row(0));
    assert_eq!(after_opening("evict 1 1"), row(0));
    assert_eq!(after_opening("grant 1 1000000000"), row(0));
    assert_eq!(last("open 65"), row(0));
}

#[test]
fn what_burns_nothing_has_no_part() {
    for calls in [
        "pick",
        "grant 1 5",
        "begin 1\nfinish 1 1",
        "begin 1\nevict 1 1",
        "begin 1 awaited 1\ndeliver 1 1",
    ] {
        assert_eq!(after_opening(calls), [], "{}", calls);
    }
    assert_eq!(last("open 2 2"), []);
}

#[test]
fn the_parts_sum_up_to_what_was_burnt() {
    let generated = KINDS.iter().flat_map(|&(name, kind)| {
        (0..24).map(move |seed| (format!("{} {}", name, seed), generate(seed, kind)))
    });
    let long = LONG.iter().map(|&(name, _)| {
        let file = long(name, 1).expect("a long file");
        (name.to_string(), file)
    });
    let mut summed = 0;
    for (name, file) in generated.chain(long) {
        for (at, (parts, burnt, answer)) in bills(&file).into_iter().enumerate() {
            assert_eq!(
                total(&parts),
                burnt,
                "{}: record {}, {}",
                name,
                at + 1,
                answer
            );
            summed += usize::from(parts.len() > 1);
        }
    }
    assert!(summed > 20_000, "{} sums", summed);
}
