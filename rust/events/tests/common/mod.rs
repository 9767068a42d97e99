//! What several test files need: generated files, a walk over one file with the
//! state before and after each call, and a program's run.
#![allow(dead_code)]

use events::kinds::{generate, Kind, KINDS};
use second::{apply, Answer, Entry, Event, FileRefusal, Outcome, Reader, State, Table};
use std::io::Write;
use std::process::{Command, Output, Stdio};

/// Files of every kind, from seeds 0 up to `seeds` - 1.
pub fn batch(seeds: u64) -> impl Iterator<Item = (String, Vec<u8>)> {
    KINDS.iter().flat_map(move |&(name, kind)| {
        (0..seeds).map(move |seed| (format!("{} {}", name, seed), generate(seed, kind)))
    })
}

pub fn files(kind: Kind, seeds: u64) -> impl Iterator<Item = Vec<u8>> {
    (0..seeds).map(move |seed| generate(seed, kind))
}

/// One call of a file.
pub struct Step<'a> {
    pub before: &'a Table,
    pub event: Event<'a>,
    pub outcome: Outcome,
    pub after: &'a Table,
}

impl Step<'_> {
    pub fn refusal(&self) -> Option<u8> {
        match self.outcome.answer {
            Answer::Refused(refusal) => Some(refusal.number()),
            _ => None,
        }
    }

    /// Whether it is a Begin with a record in both lists as given.
    pub fn overlaps(&self) -> bool {
        match self.event {
            Event::Begin { reads, writes, .. } => reads.iter().any(|r| writes.contains(r)),
            _ => false,
        }
    }

    /// The state that the answer tells.
    pub fn answered_state(&self) -> Option<State> {
        match self.outcome.answer {
            Answer::Entry { state, .. } => Some(state),
            _ => None,
        }
    }

    /// The entry that the answer or the call names, in the state before.
    pub fn entry_before(&self) -> Option<&Entry> {
        let (tenant, serial) = match (self.outcome.answer, self.event) {
            (Answer::Entry { tenant, serial, .. }, _)
            | (_, Event::Finish { tenant, serial })
            | (_, Event::Recheck { tenant, serial })
            | (_, Event::Deliver { tenant, serial })
            | (_, Event::Evict { tenant, serial })
            | (_, Event::Cancel { tenant, serial }) => (tenant, serial),
            _ => return None,
        };
        let named = |entry: &&Entry| (entry.tenant, entry.serial) == (tenant, serial);
        self.before.queue.iter().find(named)
    }
}

/// Shows every call of a file to `see`, and gives the refusal that ended it.
pub fn walk(file: &[u8], mut see: impl FnMut(&Step<'_>)) -> Option<FileRefusal> {
    let mut table = Table::default();
    for record in Reader::new(file) {
        let event = match record {
            Ok(event) => event,
            Err(refusal) => return Some(refusal),
        };
        let before = table.clone();
        let outcome = apply(&mut table, event);
        see(&Step {
            before: &before,
            event,
            outcome,
            after: &table,
        });
    }
    None
}

/// How many files of a kind, from seeds 0 on, have a call of which `holds` is
/// true.
pub fn files_with(kind: Kind, seeds: u64, holds: impl Fn(&Step<'_>) -> bool) -> u64 {
    let mut count = 0;
    for file in files(kind, seeds) {
        let mut found = false;
        walk(&file, |step| found = found || holds(step));
        count += u64::from(found);
    }
    count
}

/// Runs a program with this input.
pub fn run(program: &str, arguments: &[&str], input: &[u8]) -> Output {
    let mut child = Command::new(program)
        .args(arguments)
        .stdin(Stdio::piped())
        .stdout(Stdio::piped())
        .stderr(Stdio::piped())
        .spawn()
        .expect("the program starts");
    let mut stdin = child.stdin.take().expect("its input is a pipe");
    // A program that ends before it reads is told apart by its output.
    let _ = stdin.write_all(input);
    drop(stdin);
    child.wait_with_output().expect("it ends")
}
