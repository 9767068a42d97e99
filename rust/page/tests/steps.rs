//! The steps of a run: what the browser follows leads to the second program's
//! state after every call, and what differs from the proved listing is told.

use events::kinds::{generate, KINDS};
use events::text::to_bytes;
use page::bill::total;
use page::steps::{Change, Run};
use second::{apply, listing, Entry, Reader, Table};

fn file(text: &str) -> Vec<u8> {
    to_bytes(text.as_bytes()).expect("a right text")
}

/// The run of a text along its own listing.
fn run(text: &str) -> Run {
    let events = file(text);
    Run::of(&events, listing(&events).as_bytes(), Some(text.as_bytes()))
}

/// Follows the steps as the browser does.
#[derive(Default)]
struct Followed {
    queue: Vec<Entry>,
    shares: [u8; 16],
    fuel: [i64; 16],
}

impl Followed {
    fn follow(&mut self, step: &page::steps::Step, tenant: Option<u8>) {
        match &step.change {
            Some(Change::Shares(shares)) => {
                *self = Followed {
                    shares: *shares,
                    ..Followed::default()
                }
            }
            Some(Change::Joins(entry)) => self.queue.push(entry.clone()),
            Some(Change::Leaves(place)) => {
                self.queue.remove(*place);
            }
            Some(Change::Becomes { place, state, due }) => {
                self.queue[*place].state = *state;
                self.queue[*place].due = *due;
            }
            None => {}
        }
        let moved = i64::from(step.granted) - i64::from(total(&step.bill));
        if moved != 0 {
            self.fuel[usize::from(tenant.expect("who pays")) - 1] += moved;
        }
    }

    fn is(&self, table: &Table) -> bool {
        let fuel = table.meters.map(|meter| i64::from(meter.fuel));
        let shares = table.meters.map(|meter| meter.share);
        self.queue == table.queue && self.fuel == fuel && self.shares == shares
    }
}

#[test]
fn the_changes_lead_to_the_second_programs_state() {
    let mut steps = 0;
    for (name, kind) in KINDS {
        for seed in 0..24 {
            let events = generate(seed, kind);
            let listing = listing(&events);
            let run = Run::of(&events, listing.as_bytes(), None);
            assert_eq!(run.different(), 0);
            assert_eq!(run.steps.len() + 1, listing.lines().count());
            let mut table = Table::default();
            let mut followed = Followed::default();
            for (record, step) in Reader::new(&events).zip(&run.steps) {
                let event = match record {
                    Ok(event) => event,
                    Err(_) => {
                        assert_eq!((&step.call, &step.change), (&None, &None));
                        continue;
                    }
                };
                apply(&mut table, event);
                followed.follow(step, event.tenant());
                assert!(followed.is(&table), "{} {}: {:?}", name, seed, step);
                steps += 1;
            }
        }
    }
    assert!(steps > 10_000, "{} steps", steps);
}

#[test]
fn a_step_has_its_line_and_its_call() {
    let run = run("open 2\ngrant 1 9\nbegin 1 reads 7 3 writes 3\nraw ff ff ff\n");
    assert_eq!(
        run.header.line.as_deref(),
        Some("no call answer burnt left")
    );
    let told: Vec<_> = run
        .steps
        .iter()
        .map(|step| (step.told.line.as_deref(), step.call.as_deref()))
        .collect();
    let wanted = [
        (Some("1 open ok 0 -"), Some("open 2")),
        (Some("2 grant ok 0 9"), Some("grant 1 9")),
        (
            Some("3 begin free:1.1 6 3"),
            Some("begin 1 reads 7 3 writes 3"),
        ),
        (Some("4 file refused:20 0 -"), None),
    ];
    assert_eq!(told, wanted);
    assert_eq!(run.steps[1].granted, 9);
    assert_eq!(run.steps[2].granted, 0);
}

#[test]
fn an_empty_file_has_no_step() {
    let run = run("");
    assert_eq!(run.steps, []);
    assert_eq!(
        run.header.line.as_deref(),
        Some("no call answer burnt left")
    );
    assert_eq!(run.different(), 0);
}

const CALLS: &str = "open 1\ngrant 1 4\nbegin 1\n";

/// The differences of a changed listing of `CALLS`, header first.
fn differences(proved: &str) -> Vec<Option<String>> {
    let run = Run::of(&file(CALLS), proved.as_bytes(), None);
    let told = run.steps.iter().map(|step| &step.told);
    let told = std::iter::once(&run.header).chain(told);
    let found: Vec<_> = told.map(|told| told.difference.clone()).collect();
    let different = found.iter().filter(|what| what.is_some()).count();
    assert_eq!(run.different(), different);
    found
}

#[test]
fn what_differs_is_told_line_by_line() {
    let right = listing(&file(CALLS));
    assert_eq!(differences(&right), [None, None, None, None]);
    let has = |line: &str| Some(format!("the second program has {:?}", line));
    assert_eq!(
        differences(&right.replace("free:1.1 2 2", "waiting:1.1 2 2")),
        [None, None, None, has("3 begin free:1.1 2 2\n")]
    );
    assert_eq!(
        differences(&right.replace("no call", "No call")),
        [has("no call answer burnt left\n"), None, None, None]
    );
    assert_eq!(
        differences(right.trim_end()),
        [None, None, None, has("3 begin free:1.1 2 2\n")]
    );
    let missing = right.replace("3 begin free:1.1 2 2\n", "");
    let no_line = "no line; the second program has \"3 begin free:1.1 2 2\\n\"";
    assert_eq!(
        differences(&missing),
        [None, None, None, Some(no_line.to_string())]
    );
    let surplus = format!("{}4 pick nothing 0 -\n", right);
    let no_such = "the second program has no such line";
    assert_eq!(
        differences(&surplus),
        [None, None, None, None, Some(no_such.to_string())]
    );
    assert_eq!(differences("").len(), 4);
    assert!(differences("").iter().all(Option::is_some));
}

#[test]
fn comments_stand_with_their_calls() {
    let run = run(
        "# A sale.\n# Of lamps.\n\nopen 1  # ok 0 -   one place\n\
                   grant 1 4 # ok 0 5 is wrong\n\n# Now\nbegin 1\npick # nothing 0 -\n# The end.\n",
    );
    let said: Vec<_> = run.steps.iter().map(|step| step.said.clone()).collect();
    let wanted: [&[&str]; 4] = [
        &["A sale. Of lamps.", "one place"],
        // Only what the line says is left out.
        &["ok 0 5 is wrong"],
        &["Now"],
        &["The end."],
    ];
    assert_eq!(said, wanted);
}
