//! What a call gives back: its answer and the fuel it burnt.

use crate::request::State;
use std::fmt;

/// The numbers of document 01's table, "Numbers a caller may get back", and 15
/// of Item 1: "15 for a block not sound". By Item 4 "5 is no longer given; its
/// number stays unused".
#[derive(Clone, Copy, Debug, PartialEq, Eq)]
pub enum Refusal {
    NoSuchTenant = 1,
    Dry = 2,
    TooManyRecords = 3,
    NotRising = 4,
    AwaitedTooHigh = 6,
    ShareHeld = 7,
    SerialsGiven = 8,
    FuelBelowPrice = 9,
    NoSuchEntry = 10,
    WrongState = 11,
    NothingDue = 12,
    TooMuchFuel = 13,
    BadShares = 14,
    BlockNotSound = 15,
}

impl Refusal {
    pub fn number(self) -> u8 {
        self as u8
    }
}

#[derive(Clone, Copy, Debug, PartialEq, Eq)]
pub enum Answer {
    Ok,
    Done,
    Still,
    Nothing,
    /// The state of an entry after the call, and its name.
    Entry {
        state: State,
        tenant: u8,
        serial: u16,
        /// Item 5: "A Blocked Begin then reports the lowest-numbered record
        /// that it clashed on". Every other answer has none, that of a Deliver
        /// to a Blocked entry too.
        clash: Option<u8>,
    },
    Refused(Refusal),
}

impl fmt::Display for Answer {
    fn fmt(&self, out: &mut fmt::Formatter<'_>) -> fmt::Result {
        match self {
            Answer::Ok => write!(out, "ok"),
            Answer::Done => write!(out, "done"),
            Answer::Still => write!(out, "still"),
            Answer::Nothing => write!(out, "nothing"),
            Answer::Entry {
                state,
                tenant,
                serial,
                clash,
            } => {
                write!(out, "{}:{}.{}", state.word(), tenant, serial)?;
                // "The listing's blocked answer at Begin gains `@` and the record."
                clash.map_or(Ok(()), |record| write!(out, "@{}", record))
            }
            Answer::Refused(refusal) => write!(out, "refused:{}", refusal.number()),
        }
    }
}

/// An answer with the units burnt for it.
#[derive(Clone, Copy, Debug, PartialEq, Eq)]
pub struct Outcome {
    pub answer: Answer,
    pub burnt: u32,
}

impl Outcome {
    pub fn burning(burnt: u32, answer: Answer) -> Outcome {
        Outcome { answer, burnt }
    }

    /// For host calls, "which burn nothing", and for Finish.
    pub fn burning_nothing(answer: Answer) -> Outcome {
        Outcome { answer, burnt: 0 }
    }
}
