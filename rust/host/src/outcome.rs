//! What a call hands back.

use crate::linked::{Counts, Reply};
use crate::refusal::Refusal;
use std::fmt;

/// The state of a queued entry.
#[derive(Clone, Copy, Debug, PartialEq, Eq, Hash)]
pub enum State {
    /// It runs, and may be finished.
    Free,
    /// It holds its locks and waits for the remote answers still due.
    Waiting,
    /// It conflicts with an entry that was queued before it.
    Blocked,
}

impl fmt::Display for State {
    fn fmt(&self, out: &mut fmt::Formatter<'_>) -> fmt::Result {
        out.write_str(match self {
            State::Free => "free",
            State::Waiting => "waiting",
            State::Blocked => "blocked",
        })
    }
}

/// The name of an entry: its tenant, and the serial that Begin gave it.
///
/// ```
/// assert_eq!(damsonpouch::Name { tenant: 2, serial: 7 }.to_string(), "2.7");
/// ```
#[derive(Clone, Copy, Debug, PartialEq, Eq, Hash, PartialOrd, Ord)]
pub struct Name {
    /// 1 to 16.
    pub tenant: u8,
    /// 1 to 65,535; no tenant is given one twice.
    pub serial: u16,
}

impl fmt::Display for Name {
    fn fmt(&self, out: &mut fmt::Formatter<'_>) -> fmt::Result {
        write!(out, "{}.{}", self.tenant, self.serial)
    }
}

/// The answer of a call that was not refused. Its [`Display`](fmt::Display) is
/// the listing's word, as `free:1.1`, and of a Begin that is Blocked, with the
/// record, `blocked:2.1@10`.
#[derive(Clone, Copy, Debug, PartialEq, Eq, Hash)]
pub enum Answer {
    /// Of Open and Grant.
    Ok,
    /// Of Finish, Evict and Cancel: the entry has left.
    Done,
    /// Of Recheck: the entry stays Blocked.
    Still,
    /// Of Scan and Pick: no entry was promoted.
    Nothing,
    /// An entry's state after the call, and its name: of Begin and Deliver, and
    /// of Recheck, Scan and Pick where they promote. A promoted entry is Waiting
    /// only if an answer is still due, else Free.
    Entry {
        /// Its state after the call.
        state: State,
        /// Its tenant.
        tenant: u8,
        /// Its serial.
        serial: u16,
        /// Of a Begin whose entry is Blocked: the lowest record that it clashed
        /// on, which an entry ahead writes, or reads where this one writes it.
        /// `None` in every other answer, that of a Deliver to a Blocked entry
        /// too.
        clash: Option<u8>,
    },
}

impl Answer {
    /// The state of the entry that the answer names, if it names one.
    pub fn state(self) -> Option<State> {
        match self {
            Answer::Entry { state, .. } => Some(state),
            _ => None,
        }
    }

    /// The name of the entry that the answer names, if it names one.
    pub fn name(self) -> Option<Name> {
        match self {
            Answer::Entry { tenant, serial, .. } => Some(Name { tenant, serial }),
            _ => None,
        }
    }

    /// The lowest record that a Begin clashed on, if it is Blocked: what it has
    /// to wait for. Others may be in its way too, and by the time that this one
    /// is let go it may wait for another.
    ///
    /// ```
    /// # let mut block = [0; damsonpouch::BLOCK_LENGTH];
    /// # let mut locks = damsonpouch::Locks::over(&mut block);
    /// # let _ = locks.open(&[4; 16]);
    /// # let _ = locks.grant(1, 40);
    /// use damsonpouch::Answer;
    ///
    /// assert_eq!(locks.begin(1, 0, &[], &[10, 30]).to_string(), "free:1.1 6");
    /// let begun = locks.begin(1, 0, &[7, 30], &[10]);
    /// assert_eq!(begun.to_string(), "blocked:1.2@10 8");
    /// assert_eq!(begun.answer.map(Answer::clash), Ok(Some(10)));
    /// ```
    pub fn clash(self) -> Option<u8> {
        match self {
            Answer::Entry { clash, .. } => clash,
            _ => None,
        }
    }
}

impl fmt::Display for Answer {
    fn fmt(&self, out: &mut fmt::Formatter<'_>) -> fmt::Result {
        match self {
            Answer::Ok => out.write_str("ok"),
            Answer::Done => out.write_str("done"),
            Answer::Still => out.write_str("still"),
            Answer::Nothing => out.write_str("nothing"),
            Answer::Entry {
                state,
                tenant,
                serial,
                clash,
            } => {
                write!(out, "{}:{}.{}", state, tenant, serial)?;
                clash.map_or(Ok(()), |record| write!(out, "@{}", record))
            }
        }
    }
}

/// What a call gave: its answer or its refusal, and the units of fuel that it
/// burnt. A refused call may have burnt some too.
///
/// Its [`Display`](fmt::Display) is the listing's two words: `free:1.1 4`,
/// `refused:15 0`.
///
/// ```
/// use damsonpouch::{Locks, Refusal, State, BLOCK_LENGTH};
///
/// # fn main() -> Result<(), Refusal> {
/// let mut block = [0; BLOCK_LENGTH];
/// let mut locks = Locks::over(&mut block);
/// locks.open(&[2, 2, 0, 0, 0, 0, 0, 0, 0, 0, 0, 0, 0, 0, 0, 0]).answer?;
/// locks.grant(1, 40).answer?;
/// let begun = locks.begin(1, 0, &[], &[10]);
/// assert_eq!(begun.burnt, 4);
/// assert_eq!(begun.to_string(), "free:1.1 4");
/// let answer = begun.answer?;
/// assert_eq!(answer.state(), Some(State::Free));
/// assert_eq!(answer.name().map(|name| name.serial), Some(1));
/// # Ok(())
/// # }
/// ```
#[derive(Clone, Copy, Debug, PartialEq, Eq, Hash)]
#[must_use = "a call may have been refused"]
pub struct Outcome {
    /// The answer, or why the call was refused.
    pub answer: Result<Answer, Refusal>,
    /// The units burnt, of the fuel of the tenant that made the call.
    pub burnt: u32,
}

impl fmt::Display for Outcome {
    fn fmt(&self, out: &mut fmt::Formatter<'_>) -> fmt::Result {
        match self.answer {
            Ok(answer) => write!(out, "{} {}", answer, self.burnt),
            Err(refusal) => write!(out, "refused:{} {}", refusal.number(), self.burnt),
        }
    }
}

impl From<Reply> for Outcome {
    fn from(reply: Reply) -> Outcome {
        let answer = match reply.kind {
            0 => Ok(Answer::Ok),
            1 => Ok(Answer::Done),
            2 => Ok(Answer::Still),
            3 => Ok(Answer::Nothing),
            4 => Err(refusal(reply)),
            5 => Ok(Answer::Entry {
                state: state(reply),
                tenant: reply.tenant,
                serial: reply.serial,
                clash: clash(reply),
            }),
            _ => other_archive(reply),
        };
        Outcome {
            answer,
            burnt: reply.burnt,
        }
    }
}

fn refusal(reply: Reply) -> Refusal {
    Refusal::from_number(reply.number).unwrap_or_else(|| other_archive(reply))
}

fn state(reply: Reply) -> State {
    match reply.state {
        0 => State::Free,
        1 => State::Waiting,
        2 => State::Blocked,
        _ => other_archive(reply),
    }
}

/// The two bytes were not used once: an older archive may have anything there.
fn clash(reply: Reply) -> Option<u8> {
    match (reply.clashed, reply.lowest) {
        (0, 0) => None,
        (1, lowest) if reply.state == 2 => Some(lowest),
        _ => other_archive(reply),
    }
}

/// How many of the 256 records are held by the entries in the queue, Blocked ones
/// among them. A record that some entries read and others write counts in each of
/// the three, and once.
///
/// Its [`Display`](fmt::Display) is `written 2 read 1 either 3`.
#[derive(Clone, Copy, Debug, Default, PartialEq, Eq, Hash)]
pub struct Held {
    /// Records that some entry writes: those with Cx above 0.
    pub written: u16,
    /// Records that some entry reads and does not write: those with Cs above 0.
    pub read: u16,
    /// Records that some entry writes or reads.
    pub either: u16,
}

impl fmt::Display for Held {
    fn fmt(&self, out: &mut fmt::Formatter<'_>) -> fmt::Result {
        write!(
            out,
            "written {} read {} either {}",
            self.written, self.read, self.either
        )
    }
}

impl Held {
    pub(crate) fn of(counts: Counts) -> Result<Held, Refusal> {
        match counts.number {
            0 => Ok(Held {
                written: counts.written,
                read: counts.read,
                either: counts.either,
            }),
            number => Err(Refusal::from_number(number).unwrap_or_else(|| other_archive(counts))),
        }
    }
}

/// The archive that this crate was written for hands back no such thing, whatever
/// the call: another one was linked.
fn other_archive(reply: impl fmt::Debug) -> ! {
    panic!(
        "libdamsonpouch.a is not the one that this crate was written for: it gave {:?}",
        reply
    )
}
