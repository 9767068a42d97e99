//! An event file and its proved listing as steps. A step has the proved line,
//! the call, what its units were paid for, and what it changed in the second
//! program's state: differences, so that a long run stays small.

use crate::bill::{bill, Part};
use events::back::record_line;
use events::beside::{beside, Line};
use events::comments::{comments, Said};
use events::encode::encode;
use second::table::TENANTS;
use second::{apply, listing, Entry, Event, Reader, State, Table};
use std::collections::BTreeMap;

#[derive(Clone, Debug, Default, PartialEq, Eq)]
pub struct Run {
    /// The listing's first line.
    pub header: Told,
    pub steps: Vec<Step>,
}

/// A line of the proved listing, and what is said where the second program's is
/// another.
#[derive(Clone, Debug, Default, PartialEq, Eq)]
pub struct Told {
    pub line: Option<String>,
    pub difference: Option<String>,
}

#[derive(Clone, Debug, Default, PartialEq, Eq)]
pub struct Step {
    pub told: Told,
    /// The call as a line of text; nothing where the file has no record.
    pub call: Option<String>,
    pub bill: Vec<Part>,
    /// What the named tenant's fuel rose by before the units were burnt.
    pub granted: u32,
    pub change: Option<Change>,
    /// What the text says of the call.
    pub said: Said,
}

/// What a call changed, beside the fuel.
#[derive(Clone, Debug, PartialEq, Eq)]
pub enum Change {
    /// A fresh state.
    Shares([u8; TENANTS]),
    /// An entry at the back.
    Joins(Entry),
    /// The entry at this place.
    Leaves(usize),
    Becomes {
        place: usize,
        state: State,
        due: u8,
    },
}

impl Run {
    /// The text, if the events come from one, is asked for its comments.
    pub fn of(events: &[u8], proved: &[u8], text: Option<&[u8]>) -> Run {
        let said = text.map(comments).unwrap_or_default();
        let own = listing(events);
        let mut lines = beside(proved, own.as_bytes()).map(told);
        let header = lines.next().unwrap_or_default();
        // The second program has a line for each record; the proved listing may
        // have more of them.
        let mut calls = calls(events, &said).into_iter();
        let steps = lines.map(|told| {
            let mut step = calls.next().unwrap_or_default();
            step.told = told;
            drop_what_the_line_says(&mut step);
            step
        });
        Run {
            header,
            steps: steps.collect(),
        }
    }

    /// How many lines differ.
    pub fn different(&self) -> usize {
        let told = self.steps.iter().map(|step| &step.told);
        let told = std::iter::once(&self.header).chain(told);
        told.filter(|told| told.difference.is_some()).count()
    }
}

fn told(line: Line<'_>) -> Told {
    Told {
        line: line.shown(),
        difference: line.difference(),
    }
}

/// The steps without their lines.
fn calls(events: &[u8], said: &BTreeMap<usize, Said>) -> Vec<Step> {
    let mut table = Table::default();
    let mut at = 0;
    let mut steps = Vec::new();
    for record in Reader::new(events) {
        let mut step = match record {
            Ok(event) => step(&mut table, event),
            Err(_) => Step::default(),
        };
        step.said = said.get(&at).cloned().unwrap_or_default();
        steps.push(step);
        at += record.map_or(0, length);
    }
    steps
}

fn step(table: &mut Table, event: Event<'_>) -> Step {
    let before = table.clone();
    let outcome = apply(table, event);
    let fuel = |table: &Table| event.tenant().and_then(|tenant| table.fuel(tenant));
    let granted = fuel(table).unwrap_or(0) + outcome.burnt - fuel(&before).unwrap_or(0);
    Step {
        call: Some(record_line(event)),
        bill: bill(&before, event, outcome.answer),
        granted,
        change: match event {
            Event::Open { .. } => Some(Change::Shares(table.meters.map(|meter| meter.share))),
            _ => change(&before.queue, &table.queue),
        },
        ..Step::default()
    }
}

/// How the one queue becomes the other. A call changes one entry at most, so
/// that is told by the first place in which they differ.
fn change(before: &[Entry], after: &[Entry]) -> Option<Change> {
    let mut both = before.iter().zip(after);
    let differs = both.position(|(was, now)| was != now);
    let place = differs.unwrap_or(before.len().min(after.len()));
    match (before.get(place), after.get(place)) {
        (Some(was), Some(now)) if (was.tenant, was.serial) == (now.tenant, now.serial) => {
            Some(Change::Becomes {
                place,
                state: now.state,
                due: now.due,
            })
        }
        (Some(_), _) => Some(Change::Leaves(place)),
        (None, joined) => joined.cloned().map(Change::Joins),
    }
}

/// The bytes of an event's record.
fn length(event: Event<'_>) -> usize {
    let mut bytes = Vec::new();
    // What was read from a file fits one.
    encode(event, &mut bytes).map_or(0, |()| bytes.len())
}

/// The comments of the examples begin with answer, units and fuel, which stand
/// in the line.
fn drop_what_the_line_says(step: &mut Step) {
    let fields = step.told.line.as_deref().unwrap_or("");
    let fields = fields.splitn(3, ' ').nth(2).unwrap_or("");
    if fields.is_empty() {
        return;
    }
    for paragraph in &mut step.said {
        if let Some(rest) = paragraph.strip_prefix(fields) {
            *paragraph = rest.trim_start().to_string();
        }
    }
    step.said.retain(|paragraph| !paragraph.is_empty());
}
