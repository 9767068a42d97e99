//! The block of Item 1: the whole state in 2,176 bytes that the host lends.
//!
//! "The item" in a comment means Item 1. A block is read to a `Table`, the call
//! is made on that, and the table is written back. The table keeps no counters,
//! so Cx and Cs are counted over its queue when it is written, and held against
//! that count when a block is read.

use crate::answer::{Answer, Outcome, Refusal};
use crate::listing::apply;
use crate::reader::Event;
use crate::request::{
    share_a_record, strictly_rising, Entry, Request, State, MOST_AWAITED, MOST_READS, MOST_WRITES,
};
use crate::table::{Held, Meter, Table, MOST_FUEL, MOST_PLACES, TENANTS};
use std::fmt;

/// "That is 2,176 bytes."
pub const BYTES: usize = 2_176;

const SHARES: u8 = 0x11;
const METERS: u8 = 0x12;
const CX: u8 = 0x13;
const CS: u8 = 0x14;
const ENTRIES: u8 = 0x15;

const RECORDS: usize = 256;
/// Fuel in four bytes and serials given in two.
const METER_BYTES: usize = 6;
const ENTRY_BYTES: usize = 24;
const MOST_ENTRIES: usize = 64;
/// Where an entry's records begin, and how many bytes it has for them.
const LISTS_AT: usize = 8;
const LIST_BYTES: usize = 16;

/// The clauses of a sound block in the item's words and order, the eighth as
/// Item 2 leaves it. The ninth is "lists keep refusals 3 to 5", of which Item 4
/// gives 5 no more. `Broken::clause` counts from 1.
pub const CLAUSES: [&str; 11] = [
    "heads, lengths and unused bytes are as above",
    "shares sum to at most 64",
    "fuel, awaited and count keep document 01's limits",
    "due is at most awaited",
    "tenants are 1 to 16, none above its share",
    "a tenant's serials rise from front to back, from 1 to those given",
    "states are 0 to 2",
    "a Free entry has nothing due, a Waiting one an answer due, a Blocked one n above 0",
    "lists keep refusals 3 and 4, and no record is in both",
    "Cx and Cs are the queue's",
    "no Free or Waiting entry conflicts with one ahead",
];

/// Which entry, counted from 1 at the front, and the name that it bears.
#[derive(Clone, Copy, Debug, PartialEq, Eq)]
pub struct Place {
    pub number: usize,
    pub tenant: u8,
    pub serial: u16,
}

impl fmt::Display for Place {
    fn fmt(&self, out: &mut fmt::Formatter<'_>) -> fmt::Result {
        write!(
            out,
            "entry {} ({}.{})",
            self.number, self.tenant, self.serial
        )
    }
}

/// Where a block is not sound: its first broken clause, in the item's order.
/// Offsets count the block's bytes from 0.
#[derive(Clone, Copy, Debug, PartialEq, Eq)]
pub enum Broken {
    /// The block is not 2,176 bytes long.
    Length {
        bytes: usize,
    },
    /// A byte of a field's tag or length.
    Head {
        field: u8,
        offset: usize,
        found: u8,
        wanted: u8,
    },
    /// A record byte behind an entry's records, or a byte of an entry behind
    /// the last, is not zero.
    Unused {
        entry: usize,
        offset: usize,
        found: u8,
    },
    Shares {
        sum: u32,
    },
    Fuel {
        tenant: u8,
        fuel: u32,
    },
    Awaited {
        at: Place,
        awaited: u8,
    },
    Count {
        count: u8,
    },
    Due {
        at: Place,
        due: u8,
        awaited: u8,
    },
    Tenant {
        at: Place,
    },
    AboveShare {
        tenant: u8,
        held: usize,
        share: u8,
    },
    /// `before` is the serial of the tenant's entry before this one, 0 for its
    /// first.
    Serial {
        at: Place,
        before: u16,
        given: u16,
    },
    State {
        at: Place,
        state: u8,
    },
    FreeWithDue {
        at: Place,
        due: u8,
    },
    WaitingForNothing {
        at: Place,
    },
    BlockedOnNothing {
        at: Place,
    },
    Lists {
        at: Place,
        fault: ListFault,
    },
    Counter {
        field: u8,
        record: u8,
        found: u8,
        counted: usize,
    },
    /// The lowest record on which the two conflict.
    Conflict {
        at: Place,
        state: State,
        ahead: Place,
        record: u8,
    },
}

/// What is wrong with the lists of an entry, the first in this order. They are
/// stored lists, so none of their records is taken out before they are judged.
#[derive(Clone, Copy, Debug, PartialEq, Eq)]
pub enum ListFault {
    /// What refusal 3 forbids.
    TooManyRecords,
    /// What refusal 4 forbids.
    NotRising,
    /// Item 4: a record in both lists of a Begin "is stored among the writes
    /// alone".
    InBothLists,
}

impl fmt::Display for ListFault {
    fn fmt(&self, out: &mut fmt::Formatter<'_>) -> fmt::Result {
        out.write_str(match self {
            ListFault::TooManyRecords => "more than 8 reads or more than 8 writes",
            ListFault::NotRising => "reads or writes not strictly rising",
            ListFault::InBothLists => "a record in both lists",
        })
    }
}

impl Broken {
    /// The clause's number in `CLAUSES`, from 1.
    pub fn clause(&self) -> usize {
        match self {
            Broken::Length { .. } | Broken::Head { .. } | Broken::Unused { .. } => 1,
            Broken::Shares { .. } => 2,
            Broken::Fuel { .. } | Broken::Awaited { .. } | Broken::Count { .. } => 3,
            Broken::Due { .. } => 4,
            Broken::Tenant { .. } | Broken::AboveShare { .. } => 5,
            Broken::Serial { .. } => 6,
            Broken::State { .. } => 7,
            Broken::FreeWithDue { .. }
            | Broken::WaitingForNothing { .. }
            | Broken::BlockedOnNothing { .. } => 8,
            Broken::Lists { .. } => 9,
            Broken::Counter { .. } => 10,
            Broken::Conflict { .. } => 11,
        }
    }
}

impl fmt::Display for Broken {
    fn fmt(&self, out: &mut fmt::Formatter<'_>) -> fmt::Result {
        match self {
            Broken::Length { bytes } => {
                write!(out, "the block has {} bytes, not {}", bytes, BYTES)
            }
            Broken::Head {
                field,
                offset,
                found,
                wanted,
            } => write!(
                out,
                "byte {} is {:02x}, not {:02x}: it is part of the head of field {:02x}",
                offset, found, wanted, field
            ),
            Broken::Unused {
                entry,
                offset,
                found,
            } => write!(
                out,
                "byte {} is {:02x}, not 00: it is an unused byte of entry {}",
                offset, found, entry
            ),
            Broken::Shares { sum } => {
                write!(out, "the shares sum to {}, above {}", sum, MOST_PLACES)
            }
            Broken::Fuel { tenant, fuel } => {
                write!(out, "tenant {} has fuel {}, above {}", tenant, fuel, MOST_FUEL)
            }
            Broken::Awaited { at, awaited } => {
                write!(out, "{} awaits {}, above {}", at, awaited, MOST_AWAITED)
            }
            Broken::Count { count } => {
                write!(out, "the count of entries is {}, above {}", count, MOST_ENTRIES)
            }
            Broken::Due { at, due, awaited } => {
                write!(out, "{} has {} answers due of {} awaited", at, due, awaited)
            }
            Broken::Tenant { at } => {
                write!(out, "{} is of tenant {}, not of 1 to {}", at, at.tenant, TENANTS)
            }
            Broken::AboveShare {
                tenant,
                held,
                share,
            } => write!(
                out,
                "tenant {} holds {} places, above its share of {}",
                tenant, held, share
            ),
            Broken::Serial { at, before, given } => write!(
                out,
                "{} has serial {}, not above {} (its tenant's entry before) and at most {} (those given)",
                at, at.serial, before, given
            ),
            Broken::State { at, state } => {
                write!(out, "{} has state {}, not 0 to 2", at, state)
            }
            Broken::FreeWithDue { at, due } => {
                write!(out, "{} is Free with {} answers due", at, due)
            }
            Broken::WaitingForNothing { at } => {
                write!(out, "{} is Waiting and has no answer due", at)
            }
            Broken::BlockedOnNothing { at } => {
                write!(out, "{} is Blocked and has no records", at)
            }
            Broken::Lists { at, fault } => write!(out, "{} has {}", at, fault),
            Broken::Counter {
                field,
                record,
                found,
                counted,
            } => write!(
                out,
                "{} of record {} is {}, but the queue has {}",
                if *field == CX { "Cx" } else { "Cs" },
                record,
                found,
                counted
            ),
            Broken::Conflict {
                at,
                state,
                ahead,
                record,
            } => write!(
                out,
                "{} is {} and conflicts on record {} with {} ahead of it",
                at,
                state.word(),
                record,
                ahead
            ),
        }
    }
}

/// Makes a call on the block: "A call does to the block what it does to the
/// state". "Any other block is refused unchanged": 15, "before 1, burning
/// nothing". "Open: only for a wrong length", and else "Open overwrites any
/// block of the right length, with refusal 14's state too".
pub fn call(block: &mut [u8], event: Event<'_>) -> Outcome {
    let mut table = match table_for(block, event) {
        Ok(table) => table,
        Err(_) => return Outcome::burning_nothing(Answer::Refused(Refusal::BlockNotSound)),
    };
    let outcome = apply(&mut table, event);
    block.copy_from_slice(&write(&table));
    outcome
}

/// Item 5's host call "held" on the block, which is only read, or refusal 15.
pub fn held(block: &[u8]) -> Result<Held, Refusal> {
    match read(block) {
        Ok(table) => Ok(table.held()),
        Err(_) => Err(Refusal::BlockNotSound),
    }
}

/// The state that a call starts from. That of Open does not matter.
fn table_for(block: &[u8], event: Event<'_>) -> Result<Table, Broken> {
    if event.is_open() {
        right_length(block)?;
        return Ok(Table::default());
    }
    read(block)
}

fn right_length(block: &[u8]) -> Result<(), Broken> {
    if block.len() != BYTES {
        return Err(Broken::Length { bytes: block.len() });
    }
    Ok(())
}

/// The state that a sound block holds, or the first clause it breaks.
pub fn read(block: &[u8]) -> Result<Table, Broken> {
    let fields = Fields::of(block)?;
    fields.unused_are_zero()?;
    fields.shares_sum()?;
    fields.limits()?;
    fields.due_at_most_awaited()?;
    fields.tenants()?;
    fields.serials()?;
    fields.states()?;
    fields.states_suit()?;
    fields.lists()?;
    let table = fields.table();
    counters_are_the_queues(CX, fields.cx, &table, |request| &request.writes)?;
    counters_are_the_queues(CS, fields.cs, &table, |request| &request.reads)?;
    running_are_clear(&table)?;
    Ok(table)
}

/// The bodies of the five fields, whose heads have been found right.
struct Fields<'a> {
    shares: &'a [u8],
    meters: &'a [u8],
    cx: &'a [u8],
    cs: &'a [u8],
    count: u8,
    /// All 64, used or not, front first.
    entries: Vec<Slot<'a>>,
}

/// The 24 bytes of an entry, as they are.
#[derive(Clone, Copy)]
struct Slot<'a> {
    /// From 1 at the front.
    number: usize,
    /// Where its bytes begin in the block.
    offset: usize,
    bytes: &'a [u8],
}

// The first clause: "heads, lengths and unused bytes are as above".
impl<'a> Fields<'a> {
    /// The fields stand "in this order".
    fn of(block: &'a [u8]) -> Result<Fields<'a>, Broken> {
        right_length(block)?;
        let mut rest = block;
        let shares = take_field(&mut rest, SHARES, TENANTS)?;
        let meters = take_field(&mut rest, METERS, TENANTS * METER_BYTES)?;
        let cx = take_field(&mut rest, CX, RECORDS)?;
        let cs = take_field(&mut rest, CS, RECORDS)?;
        let queue = take_field(&mut rest, ENTRIES, 1 + MOST_ENTRIES * ENTRY_BYTES)?;
        let (count, entries) = (queue[0], &queue[1..]);
        let first = BYTES - entries.len();
        let slot = |(before, bytes)| Slot {
            number: before + 1,
            offset: first + before * ENTRY_BYTES,
            bytes,
        };
        Ok(Fields {
            shares,
            meters,
            cx,
            cs,
            count,
            entries: entries.chunks(ENTRY_BYTES).enumerate().map(slot).collect(),
        })
    }

    /// The entries that the count counts; all of them if it is above 64.
    fn used(&self) -> &[Slot<'a>] {
        let used = usize::from(self.count).min(MOST_ENTRIES);
        &self.entries[..used]
    }

    /// "16 record bytes, unused ones zero" and "Unused entries are zero".
    fn unused_are_zero(&self) -> Result<(), Broken> {
        let used = self.used().len();
        for slot in &self.entries {
            let first = if slot.number <= used {
                LISTS_AT + slot.n().min(LIST_BYTES)
            } else {
                0
            };
            slot.zero_from(first)?;
        }
        Ok(())
    }
}

/// Takes a field off the front of what is left of the block and gives its body.
fn take_field<'a>(rest: &mut &'a [u8], tag: u8, length: usize) -> Result<&'a [u8], Broken> {
    let start = BYTES - rest.len();
    let [high, low] = (length as u16).to_be_bytes();
    for (at, wanted) in [tag, high, low].into_iter().enumerate() {
        let found = rest[at];
        if found != wanted {
            return Err(Broken::Head {
                field: tag,
                offset: start + at,
                found,
                wanted,
            });
        }
    }
    let (field, after) = rest.split_at(3 + length);
    *rest = after;
    Ok(&field[3..])
}

// The bytes of an entry: "tenant, serial in two, state ..., awaited, still due,
// number of reads, number of writes, then 16 record bytes".
impl Slot<'_> {
    fn tenant(&self) -> u8 {
        self.bytes[0]
    }

    fn serial(&self) -> u16 {
        u16::from_be_bytes([self.bytes[1], self.bytes[2]])
    }

    fn state_byte(&self) -> u8 {
        self.bytes[3]
    }

    fn awaited(&self) -> u8 {
        self.bytes[4]
    }

    fn due(&self) -> u8 {
        self.bytes[5]
    }

    fn read_count(&self) -> usize {
        usize::from(self.bytes[6])
    }

    fn write_count(&self) -> usize {
        usize::from(self.bytes[7])
    }

    fn n(&self) -> usize {
        self.read_count() + self.write_count()
    }

    fn place(&self) -> Place {
        Place {
            number: self.number,
            tenant: self.tenant(),
            serial: self.serial(),
        }
    }

    fn zero_from(&self, first: usize) -> Result<(), Broken> {
        for (at, &found) in self.bytes.iter().enumerate().skip(first) {
            if found != 0 {
                return Err(Broken::Unused {
                    entry: self.number,
                    offset: self.offset + at,
                    found,
                });
            }
        }
        Ok(())
    }

    fn state(&self) -> Option<State> {
        match self.state_byte() {
            0 => Some(State::Free),
            1 => Some(State::Waiting),
            2 => Some(State::Blocked),
            _ => None,
        }
    }

    /// The request with its lists as they are stored, or what is wrong with
    /// them. Reads stand before writes.
    fn request(&self) -> Result<Request, ListFault> {
        if self.read_count() > MOST_READS || self.write_count() > MOST_WRITES {
            return Err(ListFault::TooManyRecords);
        }
        let records = &self.bytes[LISTS_AT..LISTS_AT + self.n()];
        let (reads, writes) = records.split_at(self.read_count());
        if !strictly_rising(reads) || !strictly_rising(writes) {
            return Err(ListFault::NotRising);
        }
        if share_a_record(reads, writes) {
            return Err(ListFault::InBothLists);
        }
        Ok(Request {
            awaited: self.awaited(),
            reads: reads.to_vec(),
            writes: writes.to_vec(),
        })
    }
}

// The clauses from the second to the ninth, each on the bytes as they are.
impl Fields<'_> {
    /// "shares sum to at most 64".
    fn shares_sum(&self) -> Result<(), Broken> {
        let sum = self.shares.iter().map(|&share| u32::from(share)).sum();
        if sum > MOST_PLACES {
            return Err(Broken::Shares { sum });
        }
        Ok(())
    }

    /// "fuel, awaited and count keep document 01's limits".
    fn limits(&self) -> Result<(), Broken> {
        for tenant in 1..=TENANTS as u8 {
            let fuel = self.meter(tenant).fuel;
            if fuel > MOST_FUEL {
                return Err(Broken::Fuel { tenant, fuel });
            }
        }
        for slot in self.used() {
            let awaited = slot.awaited();
            if awaited > MOST_AWAITED {
                let at = slot.place();
                return Err(Broken::Awaited { at, awaited });
            }
        }
        let count = self.count;
        if usize::from(count) > MOST_ENTRIES {
            return Err(Broken::Count { count });
        }
        Ok(())
    }

    /// "due is at most awaited".
    fn due_at_most_awaited(&self) -> Result<(), Broken> {
        for slot in self.used() {
            let (due, awaited) = (slot.due(), slot.awaited());
            if due > awaited {
                let at = slot.place();
                return Err(Broken::Due { at, due, awaited });
            }
        }
        Ok(())
    }

    /// "tenants are 1 to 16, none above its share".
    fn tenants(&self) -> Result<(), Broken> {
        for slot in self.used() {
            if !(1..=TENANTS).contains(&usize::from(slot.tenant())) {
                return Err(Broken::Tenant { at: slot.place() });
            }
        }
        for tenant in 1..=TENANTS as u8 {
            let held = self.slots_of(tenant).count();
            let share = self.meter(tenant).share;
            if held > usize::from(share) {
                return Err(Broken::AboveShare {
                    tenant,
                    held,
                    share,
                });
            }
        }
        Ok(())
    }

    /// "a tenant's serials rise from front to back, from 1 to those given".
    fn serials(&self) -> Result<(), Broken> {
        for slot in self.used() {
            let ahead = self.slots_of(slot.tenant());
            let before = ahead.take_while(|other| other.number < slot.number).last();
            let before = before.map_or(0, |other| other.serial());
            let given = self.meter(slot.tenant()).serials;
            if slot.serial() <= before || slot.serial() > given {
                let at = slot.place();
                return Err(Broken::Serial { at, before, given });
            }
        }
        Ok(())
    }

    /// "states are 0 to 2".
    fn states(&self) -> Result<(), Broken> {
        for slot in self.used() {
            if slot.state().is_none() {
                return Err(Broken::State {
                    at: slot.place(),
                    state: slot.state_byte(),
                });
            }
        }
        Ok(())
    }

    /// "a Free entry has nothing due, ... a Blocked one n above 0", and by Item 2
    /// "Item 1's block then refuses a Waiting entry with nothing due". With due
    /// at most awaited that leaves no Waiting entry that awaited 0.
    fn states_suit(&self) -> Result<(), Broken> {
        for slot in self.used() {
            let (at, due) = (slot.place(), slot.due());
            match slot.state() {
                Some(State::Free) if due > 0 => return Err(Broken::FreeWithDue { at, due }),
                Some(State::Waiting) if due == 0 => return Err(Broken::WaitingForNothing { at }),
                Some(State::Blocked) if slot.n() == 0 => {
                    return Err(Broken::BlockedOnNothing { at })
                }
                _ => {}
            }
        }
        Ok(())
    }

    /// "lists keep refusals 3 to 5": what 5 forbade is no longer refused at
    /// Begin, and still never stored.
    fn lists(&self) -> Result<(), Broken> {
        for slot in self.used() {
            if let Err(fault) = slot.request() {
                let at = slot.place();
                return Err(Broken::Lists { at, fault });
            }
        }
        Ok(())
    }

    /// The entries of a tenant, front first.
    fn slots_of(&self, tenant: u8) -> impl Iterator<Item = &Slot<'_>> {
        let used = self.used().iter();
        used.filter(move |slot| slot.tenant() == tenant)
    }

    /// What a tenant from 1 to 16 has.
    fn meter(&self, tenant: u8) -> Meter {
        let seat = usize::from(tenant) - 1;
        let bytes = &self.meters[seat * METER_BYTES..];
        Meter {
            share: self.shares[seat],
            fuel: u32::from_be_bytes([bytes[0], bytes[1], bytes[2], bytes[3]]),
            serials: u16::from_be_bytes([bytes[4], bytes[5]]),
        }
    }

    /// The state that is held. An entry that no table can hold is left out, and
    /// there is none once the clauses above are kept.
    fn table(&self) -> Table {
        let mut table = Table::default();
        for (tenant, meter) in (1..).zip(&mut table.meters) {
            *meter = self.meter(tenant);
        }
        for slot in self.used() {
            if let (Some(state), Ok(request)) = (slot.state(), slot.request()) {
                table.queue.push(Entry {
                    tenant: slot.tenant(),
                    serial: slot.serial(),
                    state,
                    due: slot.due(),
                    request,
                });
            }
        }
        table
    }
}

/// "Cx and Cs are the queue's".
fn counters_are_the_queues(
    field: u8,
    counters: &[u8],
    table: &Table,
    list: fn(&Request) -> &Vec<u8>,
) -> Result<(), Broken> {
    let counted = counts(table, list);
    for (record, (&found, &counted)) in (0..=u8::MAX).zip(counters.iter().zip(&counted)) {
        if usize::from(found) != counted {
            return Err(Broken::Counter {
                field,
                record,
                found,
                counted,
            });
        }
    }
    Ok(())
}

/// How many entries have each record in that list.
fn counts(table: &Table, list: fn(&Request) -> &Vec<u8>) -> [usize; RECORDS] {
    let mut counts = [0; RECORDS];
    for entry in &table.queue {
        for &record in list(&entry.request) {
            counts[usize::from(record)] += 1;
        }
    }
    counts
}

/// "no Free or Waiting entry conflicts with one ahead".
fn running_are_clear(table: &Table) -> Result<(), Broken> {
    for (at, entry) in table.queue.iter().enumerate() {
        if entry.state == State::Blocked {
            continue;
        }
        for (before, ahead) in table.queue[..at].iter().enumerate() {
            if let Some(record) = entry.request.lowest_clash(&ahead.request) {
                return Err(Broken::Conflict {
                    at: place(at, entry),
                    state: entry.state,
                    ahead: place(before, ahead),
                    record,
                });
            }
        }
    }
    Ok(())
}

fn place(at: usize, entry: &Entry) -> Place {
    Place {
        number: at + 1,
        tenant: entry.tenant,
        serial: entry.serial,
    }
}

/// The block that holds a state, its counters counted over the queue. A state
/// that calls lead to always fits: it has at most 64 entries with at most 16
/// records each. One put together otherwise must fit too; whether the block is
/// sound is then for `read` to say.
pub fn write(table: &Table) -> Vec<u8> {
    let mut block = Vec::with_capacity(BYTES);
    let shares = table.meters.iter().map(|meter| meter.share);
    add_field(&mut block, SHARES, &shares.collect::<Vec<u8>>());
    add_field(&mut block, METERS, &meters_body(table));
    add_field(&mut block, CX, &counters_body(table, |r| &r.writes));
    add_field(&mut block, CS, &counters_body(table, |r| &r.reads));
    add_field(&mut block, ENTRIES, &entries_body(table));
    assert_eq!(block.len(), BYTES, "more entries than a block holds");
    block
}

/// "The block is tagged fields as in the event file".
fn add_field(block: &mut Vec<u8>, tag: u8, body: &[u8]) {
    block.push(tag);
    block.extend_from_slice(&(body.len() as u16).to_be_bytes());
    block.extend_from_slice(body);
}

fn meters_body(table: &Table) -> Vec<u8> {
    let mut body = Vec::new();
    for meter in &table.meters {
        body.extend_from_slice(&meter.fuel.to_be_bytes());
        body.extend_from_slice(&meter.serials.to_be_bytes());
    }
    body
}

/// A counter above 255, which no sound block has, is written as 255.
fn counters_body(table: &Table, list: fn(&Request) -> &Vec<u8>) -> Vec<u8> {
    let byte = |&count: &usize| count.min(usize::from(u8::MAX)) as u8;
    counts(table, list).iter().map(byte).collect()
}

fn entries_body(table: &Table) -> Vec<u8> {
    let mut body = vec![table.queue.len() as u8];
    for entry in &table.queue {
        add_entry(&mut body, entry);
    }
    let unused = MOST_ENTRIES.saturating_sub(table.queue.len());
    body.resize(body.len() + unused * ENTRY_BYTES, 0);
    body
}

fn add_entry(body: &mut Vec<u8>, entry: &Entry) {
    let Request {
        awaited,
        reads,
        writes,
    } = &entry.request;
    let unused = LIST_BYTES.checked_sub(reads.len() + writes.len());
    let unused = unused.expect("more records than an entry holds");
    body.push(entry.tenant);
    body.extend_from_slice(&entry.serial.to_be_bytes());
    body.push(state_byte(entry.state));
    body.extend_from_slice(&[*awaited, entry.due, reads.len() as u8, writes.len() as u8]);
    body.extend_from_slice(reads);
    body.extend_from_slice(writes);
    body.resize(body.len() + unused, 0);
}

/// "0 Free, 1 Waiting or 2 Blocked".
fn state_byte(state: State) -> u8 {
    match state {
        State::Free => 0,
        State::Waiting => 1,
        State::Blocked => 2,
    }
}
