//! The refusals, by their numbers.

use std::error::Error;
use std::fmt;

/// Why a call was refused. Its [`Display`](fmt::Display) says it in words;
/// [`number`](Refusal::number) is its number. A later version may give others: a
/// `match` on it has an arm for them.
///
/// A refusal leaves the queue, the counters, the places and the serials as they
/// were, and burns the units that the [`Outcome`](crate::Outcome) tells. Where
/// several apply, a call gives the first in the order that `docs/CALLS.md` has.
/// [`NotSound`](Refusal::NotSound) comes before all others. The number 5, once of
/// a record in both lists, is no longer given and stays unused.
///
/// ```
/// use damsonpouch::Refusal;
///
/// assert_eq!(Refusal::Dry.number(), 2);
/// assert_eq!(Refusal::from_number(2), Some(Refusal::Dry));
/// assert_eq!(Refusal::Dry.to_string(), "the tenant has no fuel");
/// assert_eq!(Refusal::from_number(5), None);
/// ```
#[derive(Clone, Copy, Debug, PartialEq, Eq, Hash, PartialOrd, Ord)]
#[non_exhaustive]
pub enum Refusal {
    /// 1: the tenant number is not 1 to 16. Burns 0.
    NoSuchTenant = 1,
    /// 2, "dry": a tenant's call, and its fuel is 0. Burns 0. Not given by Finish
    /// of a Free entry.
    Dry = 2,
    /// 3: more than 8 reads or more than 8 writes, as they are given. Burns 1.
    TooManyRecords = 3,
    /// 4: the writes do not strictly rise, or the reads do not, without those that
    /// are written too. Burns 1.
    NotRising = 4,
    // 5 is no longer given; its number stays unused.
    /// 6: awaited is above 15. Burns 1.
    AwaitedTooHigh = 6,
    /// 7: the tenant already holds as many places as its share. Burns 1.
    ShareHeld = 7,
    /// 8: the tenant has been given all 65,535 serials. Burns 1.
    SerialsGiven = 8,
    /// 9: the fuel is below the price (Begin and Recheck, burning 1), or a scan
    /// was cut short (burning what it had burnt).
    FuelBelowPrice = 9,
    /// 10: the tenant has no such entry in the queue. Burns 1, of Deliver and
    /// Evict 0.
    NoSuchEntry = 10,
    /// 11: Finish of an entry that is not Free, or Recheck or Cancel of one that
    /// is not Blocked. Burns 1.
    WrongState = 11,
    /// 12: Deliver with no answer due. Burns 0.
    NothingDue = 12,
    /// 13: with this Grant the tenant's fuel would pass 1,000,000,000. Burns 0.
    TooMuchFuel = 13,
    /// 14: Open without exactly 16 shares, or their sum is above 64. Burns 0.
    /// The one refusal that writes: the block then holds a fresh state with
    /// every share 0.
    BadShares = 14,
    /// 15: the block is not sound, or has not 2,176 bytes; of Open, only the
    /// latter. Burns 0, and the block is as it was.
    NotSound = 15,
}

impl Refusal {
    /// Every refusal, in the order of the numbers: 1 to 15, without 5.
    pub const ALL: [Refusal; 14] = [
        Refusal::NoSuchTenant,
        Refusal::Dry,
        Refusal::TooManyRecords,
        Refusal::NotRising,
        Refusal::AwaitedTooHigh,
        Refusal::ShareHeld,
        Refusal::SerialsGiven,
        Refusal::FuelBelowPrice,
        Refusal::NoSuchEntry,
        Refusal::WrongState,
        Refusal::NothingDue,
        Refusal::TooMuchFuel,
        Refusal::BadShares,
        Refusal::NotSound,
    ];

    /// The number in the table of refusals, 1 to 15, and never 5.
    pub fn number(self) -> u8 {
        self as u8
    }

    /// The refusal of that number, if there is one.
    pub fn from_number(number: u8) -> Option<Refusal> {
        let mut all = Refusal::ALL.iter().copied();
        all.find(|refusal| refusal.number() == number)
    }

    /// What it means, in one sentence without a full stop.
    pub fn meaning(self) -> &'static str {
        match self {
            Refusal::NoSuchTenant => "the tenant number is not 1 to 16",
            Refusal::Dry => "the tenant has no fuel",
            Refusal::TooManyRecords => "more than 8 reads or more than 8 writes",
            Refusal::NotRising => "reads or writes do not strictly rise",
            Refusal::AwaitedTooHigh => "more than 15 awaited answers",
            Refusal::ShareHeld => "the tenant already holds as many places as its share",
            Refusal::SerialsGiven => "the tenant has been given all 65,535 serials",
            Refusal::FuelBelowPrice => "the fuel is below the price",
            Refusal::NoSuchEntry => "the tenant has no such entry in the queue",
            Refusal::WrongState => "the entry's state does not suit the call",
            Refusal::NothingDue => "no answer is due",
            Refusal::TooMuchFuel => "the tenant's fuel would pass 1,000,000,000",
            Refusal::BadShares => "not exactly 16 shares, or their sum is above 64",
            Refusal::NotSound => "the block is not sound, or has not 2,176 bytes",
        }
    }
}

impl fmt::Display for Refusal {
    fn fmt(&self, out: &mut fmt::Formatter<'_>) -> fmt::Result {
        out.write_str(self.meaning())
    }
}

impl Error for Refusal {}
