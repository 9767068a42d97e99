//! The generated files reach every answer, refusal and change of state that
//! the documents know and a file can reach, and no other.

mod common;

use common::{batch, walk, Step};
use second::{Entry, Event, State, Table};
use std::collections::BTreeSet;

const SEEDS: u64 = 150;

/// By call, its answers; the refusals in the order of document 01. Refusal 8
/// needs more Begins than a file holds, and 5 is no longer given. What overlaps
/// is a Begin with a record in both lists.
const CALLS: [(&str, &str); 11] = [
    ("open", "ok refused:14"),
    ("grant", "ok refused:1 refused:13"),
    (
        "begin",
        "free waiting blocked refused:1 refused:2 refused:3 refused:4 \
         refused:6 refused:7 refused:9",
    ),
    (
        "overlapping begin",
        "free waiting blocked refused:1 refused:2 refused:3 refused:4 \
         refused:6 refused:7 refused:9",
    ),
    ("finish", "done refused:1 refused:2 refused:10 refused:11"),
    (
        "recheck",
        "free waiting still refused:1 refused:2 refused:10 refused:11 refused:9",
    ),
    ("scan", "free waiting nothing refused:1 refused:2 refused:9"),
    ("pick", "free waiting nothing"),
    (
        "deliver",
        "free waiting blocked refused:1 refused:10 refused:12",
    ),
    ("evict", "done refused:1 refused:10"),
    ("cancel", "done refused:1 refused:2 refused:10 refused:11"),
];

/// An entry is answered if it awaited answers and none is due any more.
const CHANGES: [&str; 12] = [
    "recheck from blocked to free",
    "recheck from blocked, answered to free",
    "recheck from blocked to waiting",
    "scan from blocked to free",
    "scan from blocked, answered to free",
    "scan from blocked to waiting",
    "pick from blocked to free",
    "pick from blocked, answered to free",
    "pick from blocked to waiting",
    "deliver from waiting to free",
    "deliver from waiting to waiting",
    "deliver from blocked to blocked",
];

const FILE_REFUSALS: [&str; 5] = [
    "file refused:20",
    "file refused:21",
    "file refused:22",
    "file refused:23",
    "file refused:24",
];

const SPECIAL: [&str; 20] = [
    "finish of a free entry on a dry tank",
    "finish refused for a waiting entry",
    "deliver refused for a blocked, answered entry",
    "finish refused for a blocked entry",
    "recheck refused for a free entry",
    "recheck refused for a waiting entry",
    "begin that burns the last unit",
    "still, but nothing ahead is in conflict",
    "scan of 1089",
    "queue of 64",
    "evict of a free entry",
    "evict of a waiting entry",
    "evict of a blocked entry",
    "evict on a dry tank",
    "cancel refused for a free entry",
    "cancel refused for a waiting entry",
    "cancel refused on a dry tank, for a blocked entry",
    "cancel that burns the last unit",
    "cancel of a blocked, answered entry",
    "cancel of an entry that nothing ahead conflicts with",
];

fn wanted() -> BTreeSet<String> {
    let mut wanted = BTreeSet::new();
    for (call, answers) in CALLS {
        wanted.extend(
            answers
                .split_whitespace()
                .map(|answer| format!("{} {}", call, answer)),
        );
    }
    let others = CHANGES.iter().chain(&FILE_REFUSALS).chain(&SPECIAL);
    wanted.extend(others.map(|name| name.to_string()));
    wanted
}

#[test]
fn everything_is_reached_and_nothing_else() {
    let mut seen = BTreeSet::new();
    for (_, file) in batch(SEEDS) {
        let refusal = walk(&file, |step| note(step, &mut seen));
        seen.extend(refusal.map(|refusal| format!("file refused:{}", refusal.number())));
    }
    let wanted = wanted();
    let missing: Vec<&String> = wanted.difference(&seen).collect();
    assert!(missing.is_empty(), "never reached: {:?}", missing);
    let strange: Vec<&String> = seen.difference(&wanted).collect();
    assert!(strange.is_empty(), "not in the documents: {:?}", strange);
}

fn note(step: &Step<'_>, seen: &mut BTreeSet<String>) {
    let call = step.event.call();
    let answer = match step.answered_state() {
        Some(state) => state.word().to_string(),
        None => step.outcome.answer.to_string(),
    };
    seen.insert(format!("{} {}", call, answer));
    if step.overlaps() {
        seen.insert(format!("overlapping {} {}", call, answer));
    }
    if let (Some(entry), Some(state)) = (step.entry_before(), step.answered_state()) {
        let answered = if is_answered(entry) { ", answered" } else { "" };
        let (from, to) = (entry.state.word(), state.word());
        seen.insert(format!("{} from {}{} to {}", call, from, answered, to));
    }
    seen.extend(special(step).map(String::from));
    seen.extend(taken_out(step).into_iter().map(String::from));
    if step.after.queue.len() == 64 {
        seen.insert(String::from("queue of 64"));
    }
}

/// What is special about a call, in the words of `SPECIAL`.
fn special(step: &Step<'_>) -> Option<&'static str> {
    let answer = step.outcome.answer.to_string();
    let fuel_before = step
        .event
        .tenant()
        .and_then(|tenant| step.before.fuel(tenant));
    let fuel_after = step
        .event
        .tenant()
        .and_then(|tenant| step.after.fuel(tenant));
    let state = step.entry_before().map(|entry| entry.state);
    let answered = step.entry_before().map_or(false, is_answered);
    match (step.event, answer.as_str(), state) {
        (Event::Finish { .. }, "done", _) if fuel_before == Some(0) => Some(SPECIAL[0]),
        (Event::Finish { .. }, "refused:11", Some(State::Waiting)) => Some(SPECIAL[1]),
        (Event::Deliver { .. }, "refused:12", Some(State::Blocked)) if answered => Some(SPECIAL[2]),
        (Event::Finish { .. }, "refused:11", Some(State::Blocked)) => Some(SPECIAL[3]),
        (Event::Recheck { .. }, "refused:11", Some(State::Free)) => Some(SPECIAL[4]),
        (Event::Recheck { .. }, "refused:11", Some(State::Waiting)) => Some(SPECIAL[5]),
        (Event::Begin { .. }, _, _) if admitted(step) && fuel_after == Some(0) => Some(SPECIAL[6]),
        (Event::Recheck { .. }, "still", _) if nothing_ahead(step) => Some(SPECIAL[7]),
        (Event::Scan { .. }, _, _) if step.outcome.burnt == 1_089 => Some(SPECIAL[8]),
        _ => None,
    }
}

/// What is special about an Evict or a Cancel of an entry, in the same words.
fn taken_out(step: &Step<'_>) -> Vec<&'static str> {
    let (entry, tenant) = match (step.entry_before(), step.event.tenant()) {
        (Some(entry), Some(tenant)) => (entry, tenant),
        _ => return Vec::new(),
    };
    let dry = |table: &Table| table.fuel(tenant) == Some(0);
    let (free, waiting) = (entry.state == State::Free, entry.state == State::Waiting);
    let blocked = entry.state == State::Blocked;
    let answer = step.outcome.answer.to_string();
    let found = match (step.event, answer.as_str()) {
        (Event::Evict { .. }, "done") => vec![
            (SPECIAL[10], free),
            (SPECIAL[11], waiting),
            (SPECIAL[12], blocked),
            (SPECIAL[13], dry(step.before)),
        ],
        (Event::Cancel { .. }, "refused:11") => vec![(SPECIAL[14], free), (SPECIAL[15], waiting)],
        (Event::Cancel { .. }, "refused:2") => vec![(SPECIAL[16], blocked)],
        (Event::Cancel { .. }, "done") => vec![
            (SPECIAL[17], dry(step.after)),
            (SPECIAL[18], is_answered(entry)),
            (SPECIAL[19], nothing_ahead(step)),
        ],
        _ => Vec::new(),
    };
    let true_ones = found.into_iter().filter(|(_, holds)| *holds);
    true_ones.map(|(what, _)| what).collect()
}

fn is_answered(entry: &Entry) -> bool {
    entry.request.awaited > 0 && entry.due == 0
}

fn admitted(step: &Step<'_>) -> bool {
    step.answered_state().is_some()
}

/// No entry ahead of the named one is in conflict with it.
fn nothing_ahead(step: &Step<'_>) -> bool {
    let named = step.entry_before().expect("the call names its entry");
    let queue = step.before.queue.iter();
    let mut ahead = queue.take_while(|entry| *entry != named);
    !ahead.any(|entry| entry.request.conflicts_with(&named.request))
}
