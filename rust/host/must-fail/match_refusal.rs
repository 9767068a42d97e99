// error[E0004]: non-exhaustive patterns: `_` not covered
// A match on a refusal without an arm for others.
use damsonpouch::Refusal;

pub fn is_the_hosts(refusal: Refusal) -> bool {
    match refusal {
        Refusal::NoSuchTenant
        | Refusal::NothingDue
        | Refusal::TooMuchFuel
        | Refusal::BadShares
        | Refusal::NotSound => true,
        Refusal::Dry
        | Refusal::TooManyRecords
        | Refusal::NotRising
        | Refusal::AwaitedTooHigh
        | Refusal::ShareHeld
        | Refusal::SerialsGiven
        | Refusal::FuelBelowPrice
        | Refusal::NoSuchEntry
        | Refusal::WrongState => false,
    }
}

fn main() {}
