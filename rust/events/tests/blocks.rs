//! What must hold over generated block cases: what they reach, and that a
//! block is what its maker says it is.

use events::blockkinds::{
    call_line, write_cases, BlockKind, Case, Cases, Made, BLOCK_KINDS, CASES,
};
use events::blocklines::{block_line, parse, Line};
use events::breaks::BREAKS;
use events::clashscenes::CLASHES;
use events::scenes::SCENES;
use events::stuckscenes::LEAVINGS;
use second::block::{self, Broken, BYTES, CLAUSES};
use second::{Answer, Entry, Event, Held, Outcome, State, Table};
use std::collections::BTreeSet;

const SEEDS: u64 = 20;

/// Cases of every kind, from seeds 0 up to `SEEDS` - 1.
fn batch() -> impl Iterator<Item = (String, Case)> {
    BLOCK_KINDS.iter().flat_map(|&(name, kind)| {
        (0..SEEDS).flat_map(move |seed| {
            let cases = Cases::new(seed, kind).take(CASES).enumerate();
            cases.map(move |(before, case)| {
                let what = format!("{} {} case {}: {}", name, seed, before + 1, case.what);
                (what, case)
            })
        })
    })
}

/// The call made on the case's block, and the block that it leaves.
fn made(case: &Case) -> (Outcome, Vec<u8>) {
    let mut block = case.block.clone();
    let outcome = block::call(&mut block, case.call.event());
    (outcome, block)
}

#[test]
fn a_block_is_what_its_maker_says() {
    for (what, case) in batch() {
        let read = block::read(&case.block).map_err(|broken| broken.clause());
        match case.made {
            Made::Sound => assert!(read.is_ok(), "{}: {:?}", what, read),
            Made::Breaking(clause) => assert_eq!(read, Err(clause), "{}", what),
            Made::Anyhow => {}
        }
        if let Ok(table) = read {
            assert_eq!(block::write(&table), case.block, "{}", what);
        }
    }
}

/// A sound block stays sound; another is refused unchanged, but for Open.
#[test]
fn calls_keep_blocks_sound() {
    for (what, case) in batch() {
        let (outcome, after) = made(&case);
        let opens = case.call.event().is_open();
        let refused = outcome.answer.to_string() == "refused:15";
        let called = if opens {
            case.block.len() == BYTES
        } else {
            block::read(&case.block).is_ok()
        };
        assert_eq!(refused, !called, "{}", what);
        if called {
            assert!(block::read(&after).is_ok(), "{}", what);
        } else {
            assert_eq!((outcome.burnt, &after), (0, &case.block), "{}", what);
        }
    }
}

#[test]
fn a_scene_meets_its_refusal() {
    for (what, case) in batch() {
        let number = match made(&case).0.answer {
            Answer::Refused(refusal) => refusal.number(),
            _ => 0,
        };
        if let Some(wanted) = case.refusal {
            assert_eq!(number, wanted, "{}", what);
        }
    }
}

/// What is held after a call: as many as the block has counters above 0, and 15
/// where it is not sound.
#[test]
fn held_counts_the_counters_above_0() {
    let (mut refused, mut counted) = (0, 0);
    for (what, case) in batch() {
        let (_, after) = made(&case);
        let held = block::held(&after).map_err(|refusal| refusal.number());
        if block::read(&after).is_err() {
            assert_eq!(held, Err(15), "{}", what);
            refused += 1;
            continue;
        }
        let (cx, cs) = (&after[121..377], &after[380..636]);
        let above = |counters: &[u8]| counters.iter().filter(|&&count| count > 0).count() as u16;
        let both: Vec<u8> = cx.iter().zip(cs).map(|(x, s)| x | s).collect();
        let (written, read, either) = (above(cx), above(cs), above(&both));
        let wanted = Held {
            written,
            read,
            either,
        };
        assert_eq!(held, Ok(wanted), "{}", what);
        counted += u32::from(written > 0 && read > 0 && either < written + read);
    }
    assert!(refused > 1_000, "only {} refused", refused);
    assert!(counted > 100, "only {} with a record in both", counted);
}

/// A Begin of these scenes is Blocked, and a Finish takes its entry out.
#[test]
fn scenes_of_clashes_are_what_they_say() {
    let cases = (0..SEEDS).flat_map(|seed| Cases::new(seed, BlockKind::Clash).take(CASES));
    let mut met = BTreeSet::new();
    for case in cases {
        let answer = answered(&case);
        let wanted = ["begin blocked", "finish done"];
        assert!(
            wanted.contains(&answer.as_str()),
            "{}: {}",
            case.what,
            answer
        );
        met.insert(answer);
    }
    assert_eq!(met.len(), 2, "{:?}", met);
}

/// An entry is taken out, and nothing else changes but for a cancel's unit.
#[test]
fn scenes_of_what_is_taken_out_are_what_they_say() {
    let cases = (0..SEEDS).flat_map(|seed| Cases::new(seed, BlockKind::Stuck).take(CASES));
    let mut met = BTreeSet::new();
    for case in cases {
        let answer = answered(&case);
        let wanted = ["evict done", "cancel done"];
        assert!(
            wanted.contains(&answer.as_str()),
            "{}: {}",
            case.what,
            answer
        );
        let before = block::read(&case.block).expect("a scene is sound");
        let left = named(&case, &before).expect("it was there").clone();
        let mut expected = before.clone();
        expected.queue.retain(|entry| *entry != left);
        let (outcome, after) = made(&case);
        expected.meters[usize::from(left.tenant) - 1].fuel -= outcome.burnt;
        assert_eq!(outcome.burnt, u32::from(answer == "cancel done"));
        assert_eq!(after, block::write(&expected), "{}", case.what);
        met.insert(answer);
    }
    assert_eq!(met.len(), 2, "{:?}", met);
}

#[test]
fn a_third_of_each_kind_is_sound() {
    for (name, kind) in BLOCK_KINDS {
        let cases = (0..SEEDS).flat_map(|seed| Cases::new(seed, kind).take(CASES));
        let (mut sound, mut all) = (0, 0);
        for case in cases {
            sound += usize::from(block::read(&case.block).is_ok());
            all += 1;
        }
        assert!(3 * sound >= all, "{}: {} of {}", name, sound, all);
    }
}

/// Each answer of each call, each way to be unsound and each shape of a sound
/// block.
const WANTED: &str = "\
    open ok, open refused:14, open refused:15,\
    grant ok, grant refused:1, grant refused:13, grant refused:15,\
    begin free, begin waiting, begin blocked, begin refused:1, begin refused:2,\
    begin refused:3, begin refused:4, begin refused:6, begin refused:7,\
    begin refused:8, begin refused:9, begin refused:15,\
    begin free of overlapping lists, begin waiting of overlapping lists,\
    begin blocked of overlapping lists,\
    clash on 0, clash on 63, clash on 64, clash on 127, clash on 128, clash on 191, clash on 192,\
    clash on 255, clash by a read, clash by a write over a read, clash by a write over a write,\
    clash on the lowest of several, clash behind a lower record that both read,\
    clash with a blocked entry alone, clash on the highest of 15 records,\
    finish that leaves a record held, finish that lets a record go,\
    finish done, finish refused:1, finish refused:2, finish refused:10, finish refused:11,\
    finish refused:15,\
    recheck still, recheck free, recheck waiting, recheck refused:1, recheck refused:2,\
    recheck refused:10, recheck refused:11, recheck refused:9, recheck refused:15,\
    scan free, scan waiting, scan nothing, scan refused:1, scan refused:2, scan refused:9,\
    scan refused:15,\
    pick free, pick waiting, pick nothing, pick refused:15,\
    deliver free, deliver waiting, deliver blocked, deliver refused:1, deliver refused:10,\
    deliver refused:12, deliver refused:15,\
    evict done, evict refused:1, evict refused:10, evict refused:15,\
    cancel done, cancel refused:1, cancel refused:2, cancel refused:10, cancel refused:11,\
    cancel refused:15,\
    evict of a free front, evict of a free middle, evict of a free last, evict of a free only,\
    evict of a waiting front, evict of a waiting middle, evict of a waiting last,\
    evict of a waiting only,\
    evict of a blocked front, evict of a blocked middle, evict of a blocked last,\
    evict of a blocked only,\
    cancel of a blocked front, cancel of a blocked middle, cancel of a blocked last,\
    cancel of a blocked only, cancel refused for a free, cancel refused for a waiting,\
    evict on a dry tank, cancel with the last unit, cancel with answers in,\
    evict out of 64, cancel out of 64, evict that clears the way, cancel that clears the way,\
    evict that leaves a record held, evict that lets a record go,\
    cancel that leaves a record held, cancel that lets a record go,\
    Length, Head, Unused, Shares, Fuel, Awaited, Count, Due, Tenant, AboveShare, Serial, State,\
    FreeWithDue, WaitingForNothing of 0 awaited, WaitingForNothing of some awaited,\
    BlockedOnNothing, Lists TooManyRecords, Lists NotRising, Lists InBothLists, Counter Cx,\
    Counter Cs, Conflict free, Conflict waiting,\
    empty queue, queue of 64, queue of another length,\
    free entry, waiting entry, blocked entry,\
    recheck free with all answers in, recheck waiting with some answers in,\
    scan free with all answers in, scan waiting with some answers in,\
    pick free with all answers in, pick waiting with some answers in,\
    free after its answers, blocked with no conflict, entry of 0 records, entry of 16 records,\
    eight readers of a record, serial 65535, hole in the serials, tenant at its share,\
    share 0, fuel 0, fuel 1, fuel 1000000000";

#[test]
fn everything_is_reached_and_nothing_else() {
    let mut seen = BTreeSet::new();
    for (_, case) in batch() {
        seen.insert(answered(&case));
        match block::read(&case.block) {
            Ok(table) => {
                shapes(&table, &mut seen);
                seen.extend(answers_in(&case, &table));
                seen.extend(overlap(&case));
                seen.extend(clash(&case, &table));
                seen.extend(released(&case, &table));
                seen.extend(taken_out(&case, &table));
            }
            Err(broken) => {
                seen.insert(breach(&case.block, &broken));
            }
        }
    }
    let wanted: BTreeSet<String> = WANTED.split(',').map(|name| name.trim().into()).collect();
    let missing: Vec<&String> = wanted.difference(&seen).collect();
    assert!(missing.is_empty(), "never reached: {:?}", missing);
    let strange: Vec<&String> = seen.difference(&wanted).collect();
    assert!(strange.is_empty(), "not in the documents: {:?}", strange);
}

fn answered(case: &Case) -> String {
    let (outcome, _) = made(case);
    let answer = match outcome.answer {
        Answer::Entry { state, .. } => String::from(state.word()),
        answer => answer.to_string(),
    };
    format!("{} {}", case.call.event().call(), answer)
}

/// A request that is admitted with a record in both lists.
fn overlap(case: &Case) -> Option<String> {
    let overlaps = match case.call.event() {
        Event::Begin { reads, writes, .. } => reads.iter().any(|r| writes.contains(r)),
        _ => false,
    };
    let admitted = matches!(made(case).0.answer, Answer::Entry { .. });
    if !overlaps || !admitted {
        return None;
    }
    Some(format!("{} of overlapping lists", answered(case)))
}

/// What is true of a Begin that is Blocked, by the record that it tells.
fn clash(case: &Case, before: &Table) -> Vec<String> {
    let (lowest, begun) = match (made(case).0.answer, case.call.event()) {
        (
            Answer::Entry {
                clash: Some(lowest),
                ..
            },
            Event::Begin { reads, writes, .. },
        ) => (lowest, second::Request::reduced(0, reads, writes)),
        _ => return Vec::new(),
    };
    let holders = |record: u8| before.queue.iter().filter(move |entry| has(entry, record));
    let written = |record| holders(record).any(|entry| entry.request.writes.contains(&record));
    let writes = begun.writes.contains(&lowest);
    let how = match (writes, written(lowest)) {
        (false, _) => "read",
        (true, false) => "write over a read",
        (true, true) => "write over a write",
    };
    let named = || begun.reads.iter().chain(&begun.writes).copied();
    let clashing = |r: &u8| written(*r) || begun.writes.contains(r) && holders(*r).count() > 0;
    let several = named().filter(clashing).count() > 1;
    let shared = named().any(|r| r < lowest && holders(r).count() > 0);
    let blocked = holders(lowest).all(|entry| entry.state == State::Blocked);
    let highest = begun.n() == 15 && named().all(|r| r <= lowest);
    let mut told = vec![format!("clash by a {}", how)];
    for (what, there) in [
        ("on the lowest of several", several),
        ("behind a lower record that both read", shared),
        ("with a blocked entry alone", blocked && !several),
        ("on the highest of 15 records", highest && !several),
    ] {
        told.extend(there.then(|| format!("clash {}", what)));
    }
    if [0, 63, 64, 127, 128, 191, 192, 255].contains(&lowest) {
        told.push(format!("clash on {}", lowest));
    }
    told
}

fn has(entry: &Entry, record: u8) -> bool {
    entry.request.reads.contains(&record) || entry.request.writes.contains(&record)
}

/// The entry that a Finish, an Evict or a Cancel names.
fn named<'a>(case: &Case, before: &'a Table) -> Option<&'a Entry> {
    let name = match case.call.event() {
        Event::Finish { tenant, serial }
        | Event::Evict { tenant, serial }
        | Event::Cancel { tenant, serial } => (tenant, serial),
        _ => return None,
    };
    let mut queue = before.queue.iter();
    queue.find(|entry| (entry.tenant, entry.serial) == name)
}

/// What becomes of the records of an entry that leaves.
fn released(case: &Case, before: &Table) -> Vec<String> {
    let left = match (made(case).0.answer, named(case, before)) {
        (Answer::Done, Some(left)) => left,
        _ => return Vec::new(),
    };
    let records = left.request.reads.iter().chain(&left.request.writes);
    let what = records.map(|&record| {
        let mut others = before.queue.iter().filter(|entry| *entry != left);
        match others.any(|entry| has(entry, record)) {
            true => "leaves a record held",
            false => "lets a record go",
        }
    });
    what.map(|what| format!("{} that {}", case.call.event().call(), what))
        .collect()
}

/// What is true of an Evict or a Cancel of an entry that is there.
fn taken_out(case: &Case, before: &Table) -> Vec<String> {
    let call = case.call.event().call();
    let (answer, entry) = match (made(case).0.answer, named(case, before)) {
        (answer, Some(entry)) if call != "finish" => (answer.to_string(), entry),
        _ => return Vec::new(),
    };
    let (queue, state) = (&before.queue, entry.state.word());
    let fuel = before.fuel(entry.tenant);
    if answer == "refused:11" {
        return vec![format!("{} refused for a {}", call, state)];
    }
    if answer != "done" {
        return Vec::new();
    }
    let at = queue.iter().position(|other| other == entry);
    let at = at.expect("it was there");
    let place = match at {
        0 if queue.len() == 1 => "only",
        0 => "front",
        _ if at + 1 == queue.len() => "last",
        _ => "middle",
    };
    // Some Blocked entry behind conflicts with nothing else ahead.
    let waits = |behind: usize| {
        let waiting = &queue[behind];
        let mut ahead = (0..behind).filter(|&other| waiting.conflicts_with(&queue[other]));
        waiting.state == State::Blocked && ahead.next() == Some(at) && ahead.next().is_none()
    };
    let (evicts, awaited) = (call == "evict", entry.request.awaited);
    let mut told = vec![format!("{} of a {} {}", call, state, place)];
    for (what, there) in [
        ("on a dry tank", evicts && fuel == Some(0)),
        ("with the last unit", !evicts && fuel == Some(1)),
        ("with answers in", !evicts && entry.due == 0 && awaited > 0),
        ("out of 64", queue.len() == 64),
        ("that clears the way", (at + 1..queue.len()).any(waits)),
    ] {
        told.extend(there.then(|| format!("{} {}", call, what)));
    }
    told
}

/// A promotion of an entry that got answers while it was Blocked.
fn answers_in(case: &Case, before: &Table) -> Option<String> {
    let name = match made(case).0.answer {
        Answer::Entry { tenant, serial, .. } => (tenant, serial),
        _ => return None,
    };
    let mut queue = before.queue.iter();
    let entry = queue.find(|entry| (entry.tenant, entry.serial) == name)?;
    let promoted = ["recheck", "scan", "pick"].contains(&case.call.event().call());
    if !promoted || entry.due == entry.request.awaited {
        return None;
    }
    let which = if entry.due == 0 { "all" } else { "some" };
    Some(format!("{} with {} answers in", answered(case), which))
}

/// The name of the way in which a block is not sound.
fn breach(block: &[u8], broken: &Broken) -> String {
    let name = format!("{:?}", broken);
    let name = name.split_whitespace().next().unwrap_or("");
    match broken {
        Broken::Lists { fault, .. } => format!("{} {:?}", name, fault),
        Broken::Counter { field: 0x13, .. } => format!("{} Cx", name),
        Broken::Counter { .. } => format!("{} Cs", name),
        Broken::Conflict { state, .. } => format!("{} {}", name, state.word()),
        Broken::WaitingForNothing { at } => {
            // The fifth of an entry's 24 bytes.
            let awaited = block[640 + 24 * (at.number - 1) + 4];
            let awaited = if awaited == 0 { "0" } else { "some" };
            format!("{} of {} awaited", name, awaited)
        }
        _ => String::from(name),
    }
}

fn shapes(table: &Table, seen: &mut BTreeSet<String>) {
    let mut see = |shape: &str, there: bool| {
        if there {
            seen.insert(String::from(shape));
        }
    };
    match table.queue.len() {
        0 => see("empty queue", true),
        64 => see("queue of 64", true),
        _ => see("queue of another length", true),
    }
    for (at, entry) in table.queue.iter().enumerate() {
        let request = &entry.request;
        let mut ahead = table.queue[..at].iter();
        let clear = !ahead.any(|other| other.conflicts_with(entry));
        see(&format!("{} entry", entry.state.word()), true);
        let free = entry.state == State::Free;
        see("free after its answers", free && request.awaited > 0);
        let blocked = entry.state == State::Blocked;
        see("blocked with no conflict", blocked && clear);
        see("entry of 0 records", request.n() == 0);
        see("entry of 16 records", request.n() == 16);
        see("serial 65535", entry.serial == u16::MAX);
        for record in &request.reads {
            let queue = table.queue.iter();
            let readers = queue.filter(|other| other.request.reads.contains(record));
            see("eight readers of a record", readers.count() >= 8);
        }
    }
    for (tenant, meter) in (1..).zip(&table.meters) {
        let queue = table.queue.iter();
        let held = queue.filter(|entry| entry.tenant == tenant).count();
        see(
            "tenant at its share",
            held > 0 && held == usize::from(meter.share),
        );
        see(
            "hole in the serials",
            held > 0 && held < usize::from(meter.serials),
        );
        see("share 0", meter.share == 0);
        for fuel in [0, 1, 1_000_000_000] {
            see(&format!("fuel {}", fuel), meter.fuel == fuel);
        }
    }
}

/// Each way to break a clause, and each scene, comes in every few files.
#[test]
fn breaks_and_scenes_come_in_turn() {
    let whats = |kind| -> BTreeSet<String> {
        let cases = (5..7).flat_map(move |seed| Cases::new(seed, kind).take(CASES));
        cases.map(|case| case.what).collect()
    };
    let broken = whats(BlockKind::Broken);
    for (clause, what, _) in BREAKS {
        assert!(broken.contains(what), "{}", what);
        assert!((1..=CLAUSES.len()).contains(&clause));
    }
    let scenes = whats(BlockKind::Refusals);
    for (_, what, _) in SCENES {
        assert!(scenes.contains(what), "{}", what);
    }
    let clashes = whats(BlockKind::Clash);
    for (what, _) in CLASHES {
        assert!(clashes.contains(what), "{}", what);
    }
    let leavings = whats(BlockKind::Stuck);
    for (what, _) in LEAVINGS {
        assert!(leavings.contains(what), "{}", what);
    }
}

#[test]
fn scenes_with_answers_in_promote() {
    let mut found = 0;
    for (what, case) in batch() {
        if case.what.ends_with("with answers in") {
            let table = block::read(&case.block).expect("a scene is sound");
            assert!(answers_in(&case, &table).is_some(), "{}", what);
            found += 1;
        }
    }
    assert!(found > 100, "only {} cases", found);
}

/// 32 seeds of the kind `bytes` change each byte of a full block.
#[test]
fn every_byte_is_changed() {
    let cases = (0..32).flat_map(|seed| Cases::new(seed, BlockKind::Bytes).take(CASES));
    let whats: BTreeSet<String> = cases.map(|case| case.what).collect();
    for at in 0..BYTES {
        assert!(whats.contains(&format!("byte {} changed", at)), "{}", at);
    }
}

#[test]
fn the_text_gives_the_case_again() {
    for (what, case) in batch() {
        let line = parse("", block_line(&case.block).as_bytes());
        assert_eq!(line, Ok(Some(Line::Block(case.block))), "{}", what);
        let line = parse("", call_line(&case.call).as_bytes());
        match line {
            Ok(Some(Line::Call(call))) => assert_eq!(call.event(), case.call.event(), "{}", what),
            other => panic!("{}: {:?}", what, other),
        }
    }
}

#[test]
fn a_seed_and_a_kind_give_the_same_text() {
    let text = |seed, kind, count| {
        let mut out = Vec::new();
        write_cases(seed, kind, count, &mut out).expect("a list takes it");
        out
    };
    for (name, kind) in BLOCK_KINDS {
        let file = text(7, kind, 20);
        assert_eq!(file, text(7, kind, 20), "{}", name);
        assert_ne!(file, text(8, kind, 20), "{}", name);
        assert!(file.starts_with(&text(7, kind, 5)), "{}", name);
        let lines = file.split(|&byte| byte == b'\n').count();
        assert_eq!(lines, 20 * 5 + 1, "{}", name);
    }
}
