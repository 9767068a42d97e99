//! The run as the browser reads it.

use crate::bill::{look, Part};
use crate::steps::{Change, Run, Step, Told};
use second::{Entry, State};
use std::fmt::Write;

/// What is empty is left out.
pub fn run(run: &Run) -> String {
    let steps: Vec<String> = run.steps.iter().map(step).collect();
    let mut fields = told(&run.header);
    fields.push(field("steps", &format!("[\n{}\n]", steps.join(",\n"))));
    object(&fields)
}

fn told(told: &Told) -> Vec<String> {
    let line = told.line.iter().map(|line| field("line", &string(line)));
    let difference = told.difference.iter();
    let difference = difference.map(|what| field("difference", &string(what)));
    line.chain(difference).collect()
}

fn step(step: &Step) -> String {
    let mut fields = told(&step.told);
    fields.extend(step.call.iter().map(|call| field("call", &string(call))));
    if !step.bill.is_empty() {
        fields.push(field("bill", &list(step.bill.iter().map(part))));
    }
    if step.granted > 0 {
        fields.push(field("granted", &step.granted.to_string()));
    }
    fields.extend(step.change.iter().map(change));
    if !step.said.is_empty() {
        fields.push(field(
            "said",
            &list(step.said.iter().map(|said| string(said))),
        ));
    }
    object(&fields)
}

/// The word and the units; of the looks, also at how many entries.
fn part(part: &Part) -> String {
    let word = match part {
        Part::Now(_) => "now",
        Part::Release(_) => "release",
        Part::Recheck(_) => "recheck",
        Part::Cancel(_) => "cancel",
        Part::Search(_) => "search",
        Part::Looks { .. } => "looks",
        Part::Row(_) => "row",
    };
    let mut fields = vec![string(word), part.units().to_string()];
    if let Part::Looks { entries, .. } = part {
        fields.push(entries.to_string());
    }
    list(fields.into_iter())
}

fn change(change: &Change) -> String {
    match change {
        Change::Shares(shares) => field("shares", &numbers(shares)),
        Change::Joins(entry) => field("joins", &joined(entry)),
        Change::Leaves(place) => field("leaves", &place.to_string()),
        Change::Becomes { place, state, due } => {
            let now = [place.to_string(), word(*state), due.to_string()];
            field("becomes", &list(now.into_iter()))
        }
    }
}

fn joined(entry: &Entry) -> String {
    let request = &entry.request;
    object(&[
        field("tenant", &entry.tenant.to_string()),
        field("serial", &entry.serial.to_string()),
        field("state", &word(entry.state)),
        field("awaited", &request.awaited.to_string()),
        field("due", &entry.due.to_string()),
        field("reads", &numbers(&request.reads)),
        field("writes", &numbers(&request.writes)),
        field("look", &look(entry).to_string()),
    ])
}

fn word(state: State) -> String {
    string(state.word())
}

fn numbers(bytes: &[u8]) -> String {
    list(bytes.iter().map(u8::to_string))
}

fn list(items: impl Iterator<Item = String>) -> String {
    let items: Vec<String> = items.collect();
    format!("[{}]", items.join(","))
}

fn object(fields: &[String]) -> String {
    format!("{{{}}}", fields.join(","))
}

fn field(name: &str, value: &str) -> String {
    format!("\"{}\":{}", name, value)
}

/// No `<` is left in it, so that nothing in it ends the element that it stands
/// in.
fn string(text: &str) -> String {
    let mut out = String::from("\"");
    for letter in text.chars() {
        match letter {
            '"' => out += "\\\"",
            '\\' => out += "\\\\",
            '<' | '\u{0}'..='\u{1f}' | '\u{7f}'..='\u{9f}' | '\u{2028}' | '\u{2029}' => {
                // Writing to a String cannot fail.
                let _ = write!(out, "\\u{:04x}", letter as u32);
            }
            _ => out.push(letter),
        }
    }
    out.push('"');
    out
}
