//! A listing with the state after each call below its line, for teaching. The
//! lines are the proved program's; the state is the second program's, which
//! says where it would have written another line.

use crate::beside::{beside, Line};
use second::{apply, listing, Entry, Reader, State, Table};
use std::io::{self, Write};

/// What a reader is told where the two programs part.
const MARK: &str = "  DIFFERENT:";
const INDENT: &str = "    ";
const RECORDS: usize = 256;

/// Writes the proved listing of an event file with the views, and gives the
/// number of lines in which the second program differs.
pub fn show(events: &[u8], proved: &[u8], out: &mut impl Write) -> io::Result<usize> {
    let own = listing(events);
    let mut lines = beside(proved, own.as_bytes());
    let mut different = 0;
    let mut line = |line: Option<Line<'_>>, out: &mut _| -> io::Result<()> {
        different += line.map_or(Ok(0), |line| write_line(line, out))?;
        Ok(())
    };
    line(lines.next(), out)?;
    let mut table = Table::default();
    for record in Reader::new(events) {
        line(lines.next(), out)?;
        if let Ok(event) = record {
            apply(&mut table, event);
            out.write_all(view(&table).as_bytes())?;
        }
    }
    for surplus in lines {
        line(Some(surplus), out)?;
    }
    Ok(different)
}

/// Writes a line of the proved listing, and below it what the second program
/// has instead, if anything. Gives 1 where the two differ, and else 0.
fn write_line(line: Line<'_>, out: &mut impl Write) -> io::Result<usize> {
    if let Some(proved) = line.shown() {
        writeln!(out, "{}", proved)?;
    }
    match line.difference() {
        Some(what) => writeln!(out, "{} {}", MARK, what).map(|()| 1),
        None => Ok(0),
    }
}

/// The queue, front first, with what each Blocked entry waits for; the counters
/// that are not 0; and for each tenant with a share or fuel the places it holds
/// and its fuel.
pub fn view(table: &Table) -> String {
    let mut rows = queue_rows(table);
    rows.extend(counter_row("Cx", &table.queue, |entry| {
        &entry.request.writes
    }));
    rows.extend(counter_row("Cs", &table.queue, |entry| {
        &entry.request.reads
    }));
    rows.extend(tenant_row(table));
    rows.iter()
        .map(|row| format!("{}{}\n", INDENT, row))
        .collect()
}

fn queue_rows(table: &Table) -> Vec<String> {
    if table.queue.is_empty() {
        return vec![String::from("queue empty")];
    }
    let mut rows = Vec::new();
    for (at, entry) in table.queue.iter().enumerate() {
        let label = if at == 0 { "front" } else { "" };
        let mut cells = entry_cells(label, entry);
        cells.push(match entry.state {
            State::Blocked => waits_for(table.clash_ahead(at)),
            _ => String::new(),
        });
        rows.push(cells);
    }
    aligned(&rows)
}

/// What a Blocked entry waits for: the lowest record on which it conflicts with
/// an entry ahead now. Those ahead may have left since it was begun, and it stays
/// Blocked until it is promoted.
fn waits_for(record: Option<u8>) -> String {
    match record {
        Some(record) => format!("waits for record {}", record),
        None => String::from("nothing ahead conflicts"),
    }
}

fn entry_cells(label: &str, entry: &Entry) -> Vec<String> {
    let request = &entry.request;
    let awaited = if request.awaited > 0 {
        format!("awaited {} due {}", request.awaited, entry.due)
    } else {
        String::new()
    };
    vec![
        String::from(label),
        format!("{}.{}", entry.tenant, entry.serial),
        String::from(entry.state.word()),
        awaited,
        list("reads", &request.reads),
        list("writes", &request.writes),
    ]
}

/// An empty list is left out, as in the text.
fn list(word: &str, records: &[u8]) -> String {
    if records.is_empty() {
        return String::new();
    }
    let numbers: Vec<String> = records.iter().map(u8::to_string).collect();
    format!("{} {}", word, numbers.join(" "))
}

/// Each cell as wide as the widest of its column; a column with nothing in it
/// takes no room.
fn aligned(table: &[Vec<String>]) -> Vec<String> {
    let columns = table.iter().map(Vec::len).max().unwrap_or(0);
    let width = |at: usize| table.iter().map(|row| row[at].len()).max().unwrap_or(0);
    let widths: Vec<usize> = (0..columns).map(width).collect();
    let line = |row: &Vec<String>| {
        let cells = row.iter().zip(&widths).filter(|(_, &width)| width > 0);
        let padded: Vec<String> = cells
            .map(|(cell, &width)| format!("{:1$}", cell, width))
            .collect();
        padded.join(" ").trim_end().to_string()
    };
    table.iter().map(line).collect()
}

/// `Cx 10=2 11=1`, or nothing where every counter is 0.
fn counter_row(name: &str, queue: &[Entry], records: fn(&Entry) -> &Vec<u8>) -> Option<String> {
    let mut counters = [0; RECORDS];
    for &record in queue.iter().flat_map(records) {
        counters[usize::from(record)] += 1;
    }
    let raised = counters.iter().enumerate().filter(|(_, &count)| count > 0);
    pairs(
        name,
        raised.map(|(record, count)| format!("{}={}", record, count)),
    )
}

/// `fuel 1=32 2=30, places 1=2/2 2=0/2`.
fn tenant_row(table: &Table) -> Option<String> {
    let known = (1..).zip(&table.meters);
    let known: Vec<_> = known
        .filter(|(_, meter)| meter.share > 0 || meter.fuel > 0)
        .collect();
    let fuel = pairs(
        "fuel",
        known
            .iter()
            .map(|(tenant, meter)| format!("{}={}", tenant, meter.fuel)),
    )?;
    let held = |tenant: u8| {
        table
            .queue
            .iter()
            .filter(|entry| entry.tenant == tenant)
            .count()
    };
    let places = pairs(
        "places",
        known
            .iter()
            .map(|&(tenant, meter)| format!("{}={}/{}", tenant, held(tenant), meter.share)),
    )?;
    Some(format!("{}, {}", fuel, places))
}

fn pairs(name: &str, pairs: impl Iterator<Item = String>) -> Option<String> {
    let pairs: Vec<String> = pairs.collect();
    if pairs.is_empty() {
        return None;
    }
    Some(format!("{} {}", name, pairs.join(" ")))
}
