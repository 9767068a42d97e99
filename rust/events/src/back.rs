//! Event bytes to readable text, in the words of `text`.

use second::reader::{read_record, Event};
use std::fmt::Write;

/// Bytes on one `raw` line.
const RAW_BYTES: usize = 32;

/// Any bytes have a text, and that text gives the same bytes again. From the
/// first record on that is not well formed, everything is `raw`.
pub fn to_text(bytes: &[u8]) -> String {
    let mut text = String::new();
    let mut rest = bytes;
    while !rest.is_empty() {
        match read_record(rest) {
            Ok((event, after)) => {
                text += &record_line(event);
                text.push('\n');
                rest = after;
            }
            Err(_) => {
                text += &raw_lines(rest);
                break;
            }
        }
    }
    text
}

/// A record as a line of text, without its line feed.
pub fn record_line(event: Event<'_>) -> String {
    let call = event.call();
    match event {
        Event::Open { shares } => format!("{}{}", call, numbers(without_last_zeros(shares))),
        Event::Grant { tenant, amount } => format!("{} {} {}", call, tenant, amount),
        Event::Begin {
            tenant,
            awaited,
            reads,
            writes,
        } => format!("{} {}{}", call, tenant, parts(awaited, reads, writes)),
        Event::Finish { tenant, serial }
        | Event::Recheck { tenant, serial }
        | Event::Deliver { tenant, serial }
        | Event::Evict { tenant, serial }
        | Event::Cancel { tenant, serial } => format!("{} {} {}", call, tenant, serial),
        Event::Scan { tenant } => format!("{} {}", call, tenant),
        Event::Pick => String::from(call),
    }
}

/// The parts of a Begin; those that are zero or empty are left out.
fn parts(awaited: u8, reads: &[u8], writes: &[u8]) -> String {
    let mut text = String::new();
    if awaited > 0 {
        text += &format!(" awaited {}", awaited);
    }
    if !reads.is_empty() {
        text += &format!(" reads{}", numbers(reads));
    }
    if !writes.is_empty() {
        text += &format!(" writes{}", numbers(writes));
    }
    text
}

pub(crate) fn numbers(bytes: &[u8]) -> String {
    bytes.iter().map(|byte| format!(" {}", byte)).collect()
}

fn without_last_zeros(shares: &[u8]) -> &[u8] {
    let kept = shares.iter().rposition(|&share| share != 0);
    &shares[..kept.map_or(0, |last| last + 1)]
}

fn raw_lines(bytes: &[u8]) -> String {
    let mut text = String::new();
    for line in bytes.chunks(RAW_BYTES) {
        text += "raw";
        for byte in line {
            // Writing to a String cannot fail.
            let _ = write!(text, " {:02x}", byte);
        }
        text.push('\n');
    }
    text
}
