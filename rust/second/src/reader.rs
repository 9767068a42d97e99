//! The event file: its records, and the file refusals 20 to 24.

use crate::table::TENANTS;

/// A longer file is refused with 24.
pub const MOST_BYTES: usize = 65_536;
/// A tag byte and a length of two bytes.
pub const HEAD_BYTES: usize = 3;

pub mod tag {
    pub const OPEN: u8 = 0x01;
    pub const GRANT: u8 = 0x02;
    pub const BEGIN: u8 = 0x03;
    pub const FINISH: u8 = 0x04;
    pub const RECHECK: u8 = 0x05;
    pub const SCAN: u8 = 0x06;
    pub const PICK: u8 = 0x07;
    pub const DELIVER: u8 = 0x08;
    /// Item 7: "Event tags are 09 and 0B". No record has tag 0A.
    pub const EVICT: u8 = 0x09;
    pub const CANCEL: u8 = 0x0B;

    pub const ALL: [u8; 10] = [
        OPEN, GRANT, BEGIN, FINISH, RECHECK, SCAN, PICK, DELIVER, EVICT, CANCEL,
    ];
}

#[derive(Clone, Copy, Debug, PartialEq, Eq)]
pub enum FileRefusal {
    UnknownTag = 20,
    CutShort = 21,
    BadLength = 22,
    OpenOutOfPlace = 23,
    FileTooLong = 24,
}

impl FileRefusal {
    pub fn number(self) -> u8 {
        self as u8
    }
}

/// A record of the file. Lists are parts of the file's own bytes.
#[derive(Clone, Copy, Debug, PartialEq, Eq)]
pub enum Event<'a> {
    Open {
        shares: &'a [u8],
    },
    Grant {
        tenant: u8,
        amount: u32,
    },
    Begin {
        tenant: u8,
        awaited: u8,
        reads: &'a [u8],
        writes: &'a [u8],
    },
    Finish {
        tenant: u8,
        serial: u16,
    },
    Recheck {
        tenant: u8,
        serial: u16,
    },
    Scan {
        tenant: u8,
    },
    Pick,
    Deliver {
        tenant: u8,
        serial: u16,
    },
    Evict {
        tenant: u8,
        serial: u16,
    },
    Cancel {
        tenant: u8,
        serial: u16,
    },
}

impl Event<'_> {
    pub fn is_open(&self) -> bool {
        matches!(self, Event::Open { .. })
    }
}

/// Reads the record at the start of `bytes` and gives it with the bytes after
/// it, or the first of "21 for the head, 20, 21 for the body, 22".
pub fn read_record(bytes: &[u8]) -> Result<(Event<'_>, &[u8]), FileRefusal> {
    if bytes.len() < HEAD_BYTES {
        return Err(FileRefusal::CutShort);
    }
    let (head, rest) = bytes.split_at(HEAD_BYTES);
    if !tag::ALL.contains(&head[0]) {
        return Err(FileRefusal::UnknownTag);
    }
    let length = usize::from(u16::from_be_bytes([head[1], head[2]]));
    if length > rest.len() {
        return Err(FileRefusal::CutShort);
    }
    let (body, after) = rest.split_at(length);
    match read_body(head[0], body) {
        Some(event) => Ok((event, after)),
        None => Err(FileRefusal::BadLength),
    }
}

/// Nothing if the body's length does not suit the tag. For Begin that is a
/// length below 3, or an r above length - 3.
fn read_body(tag: u8, body: &[u8]) -> Option<Event<'_>> {
    let event = match (tag, body) {
        (tag::OPEN, shares) if shares.len() == TENANTS => Event::Open { shares },
        (tag::GRANT, &[tenant, a, b, c, d]) => Event::Grant {
            tenant,
            amount: u32::from_be_bytes([a, b, c, d]),
        },
        (tag::BEGIN, &[tenant, awaited, r, ref lists @ ..]) if usize::from(r) <= lists.len() => {
            let (reads, writes) = lists.split_at(usize::from(r));
            Event::Begin {
                tenant,
                awaited,
                reads,
                writes,
            }
        }
        (tag::FINISH, &[tenant, high, low]) => Event::Finish {
            tenant,
            serial: u16::from_be_bytes([high, low]),
        },
        (tag::RECHECK, &[tenant, high, low]) => Event::Recheck {
            tenant,
            serial: u16::from_be_bytes([high, low]),
        },
        (tag::SCAN, &[tenant]) => Event::Scan { tenant },
        (tag::PICK, &[]) => Event::Pick,
        (tag::DELIVER, &[tenant, high, low]) => Event::Deliver {
            tenant,
            serial: u16::from_be_bytes([high, low]),
        },
        // Item 7: "bodies as for Finish".
        (tag::EVICT, &[tenant, high, low]) => Event::Evict {
            tenant,
            serial: u16::from_be_bytes([high, low]),
        },
        (tag::CANCEL, &[tenant, high, low]) => Event::Cancel {
            tenant,
            serial: u16::from_be_bytes([high, low]),
        },
        _ => return None,
    };
    Some(event)
}

/// Walks a whole event file. After a refusal it gives nothing more: "Reading
/// stops there."
pub struct Reader<'a> {
    rest: &'a [u8],
    at_first_record: bool,
}

impl<'a> Reader<'a> {
    pub fn new(file: &'a [u8]) -> Reader<'a> {
        Reader {
            rest: file,
            at_first_record: true,
        }
    }

    fn read_next(&mut self) -> Result<Event<'a>, FileRefusal> {
        // The rest only gets shorter, so this can be met at the first record
        // alone: "24 comes before any record".
        if self.rest.len() > MOST_BYTES {
            return Err(FileRefusal::FileTooLong);
        }
        let (event, after) = read_record(self.rest)?;
        // "23 the first record is not Open, or a later one is".
        if event.is_open() != self.at_first_record {
            return Err(FileRefusal::OpenOutOfPlace);
        }
        self.at_first_record = false;
        self.rest = after;
        Ok(event)
    }
}

impl<'a> Iterator for Reader<'a> {
    type Item = Result<Event<'a>, FileRefusal>;

    fn next(&mut self) -> Option<Self::Item> {
        if self.rest.is_empty() {
            return None;
        }
        let read = self.read_next();
        if read.is_err() {
            self.rest = &[];
        }
        Some(read)
    }
}
