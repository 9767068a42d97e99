//! What a Begin asks for, when two requests conflict, and the queue entry that
//! an admitted request becomes. A Begin is called with its lists as given; a
//! request has the reduced ones.

use crate::answer::Refusal;

pub const MOST_READS: usize = 8;
pub const MOST_WRITES: usize = 8;
pub const MOST_AWAITED: u8 = 15;

/// No record is in both lists of a request that is queued.
#[derive(Clone, Debug, PartialEq, Eq)]
pub struct Request {
    pub awaited: u8,
    pub reads: Vec<u8>,
    pub writes: Vec<u8>,
}

impl Request {
    /// The request that a caller asks for with these lists as given, or the
    /// first of refusals 3, 4 and 6.
    pub fn asked(awaited: u8, reads: &[u8], writes: &[u8]) -> Result<Request, Refusal> {
        // "The limits of 8 apply to the lists as given."
        if reads.len() > MOST_READS || writes.len() > MOST_WRITES {
            return Err(Refusal::TooManyRecords);
        }
        // "All else uses the reduced lists."
        let request = Request::reduced(awaited, reads, writes);
        if !strictly_rising(&request.reads) || !strictly_rising(&request.writes) {
            return Err(Refusal::NotRising);
        }
        if awaited > MOST_AWAITED {
            return Err(Refusal::AwaitedTooHigh);
        }
        Ok(request)
    }

    /// Item 4: "A record in both lists shall count as written only: it ... is
    /// counted once in n, and is stored among the writes alone." The reads that
    /// are not written keep their order, and the writes are as given.
    pub fn reduced(awaited: u8, reads: &[u8], writes: &[u8]) -> Request {
        let only_read = reads.iter().filter(|record| !writes.contains(record));
        Request {
            awaited,
            reads: only_read.copied().collect(),
            writes: writes.to_vec(),
        }
    }

    /// "n is an entry's number of records, reads and writes together."
    pub fn n(&self) -> u32 {
        (self.reads.len() + self.writes.len()) as u32
    }

    /// "Two requests conflict if some record is written by one of them and
    /// read or written by the other."
    pub fn conflicts_with(&self, other: &Request) -> bool {
        share_a_record(&self.writes, &other.writes)
            || share_a_record(&self.writes, &other.reads)
            || share_a_record(&self.reads, &other.writes)
    }

    /// The lowest record on which the two conflict.
    pub fn lowest_clash(&self, other: &Request) -> Option<u8> {
        let read = self.reads.iter();
        let read = read.filter(|record| other.writes.contains(record));
        let written = self.writes.iter();
        let written =
            written.filter(|record| other.reads.contains(record) || other.writes.contains(record));
        read.chain(written).min().copied()
    }
}

pub(crate) fn strictly_rising(records: &[u8]) -> bool {
    records.windows(2).all(|pair| pair[0] < pair[1])
}

pub(crate) fn share_a_record(some: &[u8], others: &[u8]) -> bool {
    some.iter().any(|record| others.contains(record))
}

#[derive(Clone, Copy, Debug, PartialEq, Eq)]
pub enum State {
    Free,
    Waiting,
    Blocked,
}

impl State {
    pub fn word(self) -> &'static str {
        match self {
            State::Free => "free",
            State::Waiting => "waiting",
            State::Blocked => "blocked",
        }
    }
}

/// A queued request, named by tenant and serial.
#[derive(Clone, Debug, PartialEq, Eq)]
pub struct Entry {
    pub tenant: u8,
    pub serial: u16,
    pub state: State,
    /// Remote answers still due; `request.awaited` keeps those it opened with.
    pub due: u8,
    pub request: Request,
}

impl Entry {
    /// An entry that joins the queue behind entries it does or does not
    /// conflict with.
    pub fn admitted(tenant: u8, serial: u16, request: Request, conflicts: bool) -> Entry {
        let mut entry = Entry {
            tenant,
            serial,
            state: State::Blocked,
            due: request.awaited,
            request,
        };
        // "otherwise it is Waiting if awaited is above 0, and Free if awaited
        // is 0": all that it awaits is due, so that a promotion says the same.
        if !conflicts {
            entry.promote();
        }
        entry
    }

    /// Item 2: "A promoted entry becomes Waiting only if an answer is still
    /// due, otherwise Free."
    pub fn promote(&mut self) {
        self.state = if self.due > 0 {
            State::Waiting
        } else {
            State::Free
        };
    }

    /// One remote answer has come. A Blocked entry stays Blocked.
    pub fn take_answer(&mut self) {
        self.due -= 1;
        if self.state == State::Waiting && self.due == 0 {
            self.state = State::Free;
        }
    }

    pub fn conflicts_with(&self, other: &Entry) -> bool {
        self.request.conflicts_with(&other.request)
    }
}
