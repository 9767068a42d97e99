//! Runs an event file and writes its listing.

use crate::answer::Outcome;
use crate::reader::{Event, FileRefusal, Reader};
use crate::table::Table;

pub const HEADER: &str = "no call answer burnt left\n";

/// The whole listing: the header, then one line a record.
pub fn listing(file: &[u8]) -> String {
    let mut text = String::from(HEADER);
    // The reader lets no call come before an Open, which replaces this table.
    let mut table = Table::default();
    for (before, record) in Reader::new(file).enumerate() {
        let number = before + 1;
        text += &match record {
            Ok(event) => {
                let outcome = apply(&mut table, event);
                call_line(number, event, outcome, &table)
            }
            Err(refusal) => file_line(number, refusal),
        };
    }
    text
}

/// Makes the call that a record of the file asks for.
pub fn apply(table: &mut Table, event: Event<'_>) -> Outcome {
    match event {
        Event::Open { shares } => {
            let (fresh, outcome) = Table::open(shares);
            *table = fresh;
            outcome
        }
        Event::Grant { tenant, amount } => table.grant(tenant, amount),
        Event::Begin {
            tenant,
            awaited,
            reads,
            writes,
        } => table.begin(tenant, awaited, reads, writes),
        Event::Finish { tenant, serial } => table.finish(tenant, serial),
        Event::Recheck { tenant, serial } => table.recheck(tenant, serial),
        Event::Scan { tenant } => table.scan(tenant),
        Event::Pick => table.pick(),
        Event::Deliver { tenant, serial } => table.deliver(tenant, serial),
        Event::Evict { tenant, serial } => table.evict(tenant, serial),
        Event::Cancel { tenant, serial } => table.cancel(tenant, serial),
    }
}

impl Event<'_> {
    /// The call's name in the listing.
    pub fn call(&self) -> &'static str {
        match self {
            Event::Open { .. } => "open",
            Event::Grant { .. } => "grant",
            Event::Begin { .. } => "begin",
            Event::Finish { .. } => "finish",
            Event::Recheck { .. } => "recheck",
            Event::Scan { .. } => "scan",
            Event::Pick => "pick",
            Event::Deliver { .. } => "deliver",
            Event::Evict { .. } => "evict",
            Event::Cancel { .. } => "cancel",
        }
    }

    /// The tenant that the call names, whether or not it is 1 to 16.
    pub fn tenant(&self) -> Option<u8> {
        match *self {
            Event::Open { .. } | Event::Pick => None,
            Event::Grant { tenant, .. }
            | Event::Begin { tenant, .. }
            | Event::Finish { tenant, .. }
            | Event::Recheck { tenant, .. }
            | Event::Scan { tenant }
            | Event::Deliver { tenant, .. }
            | Event::Evict { tenant, .. }
            | Event::Cancel { tenant, .. } => Some(tenant),
        }
    }
}

/// The last field is "the named tenant's fuel afterwards, or `-` with no valid
/// tenant named", and so it is for a refused call too.
fn call_line(number: usize, event: Event<'_>, outcome: Outcome, table: &Table) -> String {
    let left = match event.tenant().and_then(|tenant| table.fuel(tenant)) {
        Some(fuel) => fuel.to_string(),
        None => String::from("-"),
    };
    let Outcome { answer, burnt } = outcome;
    format!(
        "{} {} {} {} {}\n",
        number,
        event.call(),
        answer,
        burnt,
        left
    )
}

fn file_line(number: usize, refusal: FileRefusal) -> String {
    format!("{} file refused:{} 0 -\n", number, refusal.number())
}
