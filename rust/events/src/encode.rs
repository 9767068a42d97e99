//! One record of an event file to bytes.

use second::reader::{tag, Event};

pub const MOST_BODY: usize = 65_535;
pub const MOST_READS: usize = 255;

/// Adds the record's bytes to `out`, or says what does not fit the format.
pub fn encode(event: Event<'_>, out: &mut Vec<u8>) -> Result<(), String> {
    let (tag, body) = match event {
        Event::Open { shares } => (tag::OPEN, shares.to_vec()),
        Event::Grant { tenant, amount } => (tag::GRANT, grant_body(tenant, amount)),
        Event::Begin {
            tenant,
            awaited,
            reads,
            writes,
        } => (tag::BEGIN, begin_body(tenant, awaited, reads, writes)?),
        Event::Finish { tenant, serial } => (tag::FINISH, name_body(tenant, serial)),
        Event::Recheck { tenant, serial } => (tag::RECHECK, name_body(tenant, serial)),
        Event::Scan { tenant } => (tag::SCAN, vec![tenant]),
        Event::Pick => (tag::PICK, Vec::new()),
        Event::Deliver { tenant, serial } => (tag::DELIVER, name_body(tenant, serial)),
        Event::Evict { tenant, serial } => (tag::EVICT, name_body(tenant, serial)),
        Event::Cancel { tenant, serial } => (tag::CANCEL, name_body(tenant, serial)),
    };
    encode_parts(tag, &body, out)
}

/// A record with any tag and body, suited to each other or not.
pub fn encode_parts(tag: u8, body: &[u8], out: &mut Vec<u8>) -> Result<(), String> {
    if body.len() > MOST_BODY {
        return Err(format!(
            "a body of {} bytes is too long (at most {})",
            body.len(),
            MOST_BODY
        ));
    }
    out.push(tag);
    out.extend_from_slice(&(body.len() as u16).to_be_bytes());
    out.extend_from_slice(body);
    Ok(())
}

fn grant_body(tenant: u8, amount: u32) -> Vec<u8> {
    let mut body = vec![tenant];
    body.extend_from_slice(&amount.to_be_bytes());
    body
}

fn name_body(tenant: u8, serial: u16) -> Vec<u8> {
    let mut body = vec![tenant];
    body.extend_from_slice(&serial.to_be_bytes());
    body
}

/// The number of reads is one byte, so the format holds at most 255 of them.
fn begin_body(tenant: u8, awaited: u8, reads: &[u8], writes: &[u8]) -> Result<Vec<u8>, String> {
    if reads.len() > MOST_READS {
        return Err(format!(
            "{} reads are too many (at most {} fit a record)",
            reads.len(),
            MOST_READS
        ));
    }
    let mut body = vec![tenant, awaited, reads.len() as u8];
    body.extend_from_slice(reads);
    body.extend_from_slice(writes);
    Ok(body)
}
