//! The state of one partition, the ten calls on it, and Item 5's "held".

use crate::answer::{Answer, Outcome, Refusal};
use crate::price;
use crate::request::{Entry, Request, State};

pub const TENANTS: usize = 16;
/// The shares of all tenants sum to at most this many queue places.
pub const MOST_PLACES: u32 = 64;
pub const MOST_FUEL: u32 = 1_000_000_000;
pub const MOST_SERIALS: u16 = 65_535;

/// What a tenant has: queue places, fuel, and serials given so far.
#[derive(Clone, Copy, Debug, Default, PartialEq, Eq)]
pub struct Meter {
    pub share: u8,
    pub fuel: u32,
    pub serials: u16,
}

/// How many records the queue has: what Item 5's host call "held" counts "in the
/// first map, the second, and either". There are no maps here, and no counters.
#[derive(Clone, Copy, Debug, Default, PartialEq, Eq)]
pub struct Held {
    /// Written by some entry: those with Cx above 0.
    pub written: u16,
    /// Read by some entry: those with Cs above 0.
    pub read: u16,
    /// Written or read by some entry.
    pub either: u16,
}

/// The fields are public so that a test can set up what no event file reaches
/// (all 65,535 serials given) and look at every part afterwards.
#[derive(Clone, Debug, Default, PartialEq, Eq)]
pub struct Table {
    /// The meter of tenant t stands at t - 1.
    pub meters: [Meter; TENANTS],
    /// Front first.
    pub queue: Vec<Entry>,
}

// Host calls, which burn nothing.
impl Table {
    /// A fresh state. "Refusal 14 hands out a state with every share 0."
    pub fn open(shares: &[u8]) -> (Table, Outcome) {
        let mut table = Table::default();
        let places: u32 = shares.iter().map(|&share| u32::from(share)).sum();
        if shares.len() != TENANTS || places > MOST_PLACES {
            let answer = Answer::Refused(Refusal::BadShares);
            return (table, Outcome::burning_nothing(answer));
        }
        for (meter, &share) in table.meters.iter_mut().zip(shares) {
            meter.share = share;
        }
        (table, Outcome::burning_nothing(Answer::Ok))
    }

    pub fn grant(&mut self, tenant: u8, amount: u32) -> Outcome {
        Outcome::burning_nothing(match self.add_fuel(tenant, amount) {
            Ok(()) => Answer::Ok,
            Err(refusal) => Answer::Refused(refusal),
        })
    }

    /// Refusals in the order 1, 13.
    fn add_fuel(&mut self, tenant: u8, amount: u32) -> Result<(), Refusal> {
        let seat = seat(tenant)?;
        let fuel = &mut self.meters[seat].fuel;
        if amount > MOST_FUEL - *fuel {
            return Err(Refusal::TooMuchFuel);
        }
        *fuel += amount;
        Ok(())
    }

    /// Promotes the front entry if it is Blocked.
    pub fn pick(&mut self) -> Outcome {
        let front_blocked = match self.queue.first() {
            Some(front) => front.state == State::Blocked,
            None => false,
        };
        Outcome::burning_nothing(if front_blocked {
            self.promote(0)
        } else {
            Answer::Nothing
        })
    }

    pub fn deliver(&mut self, tenant: u8, serial: u16) -> Outcome {
        Outcome::burning_nothing(match self.find_due(tenant, serial) {
            Ok(at) => {
                self.queue[at].take_answer();
                self.answer_entry(at, None)
            }
            Err(refusal) => Answer::Refused(refusal),
        })
    }

    /// Refusals in the order 1, 10, 12.
    fn find_due(&self, tenant: u8, serial: u16) -> Result<usize, Refusal> {
        seat(tenant)?;
        let at = self.find(tenant, serial)?;
        if self.queue[at].due == 0 {
            return Err(Refusal::NothingDue);
        }
        Ok(at)
    }

    /// Item 7's "evict", "for an entry in any state; the host has undone its
    /// writes".
    pub fn evict(&mut self, tenant: u8, serial: u16) -> Outcome {
        Outcome::burning_nothing(match self.find_evictable(tenant, serial) {
            Ok(at) => self.release(at),
            Err(refusal) => Answer::Refused(refusal),
        })
    }

    /// "Refusals: evict 1, 10, burning 0".
    fn find_evictable(&self, tenant: u8, serial: u16) -> Result<usize, Refusal> {
        seat(tenant)?;
        self.find(tenant, serial)
    }

    /// Item 5's "held", which changes nothing and has no event.
    pub fn held(&self) -> Held {
        let has = |list: fn(&Request) -> &Vec<u8>, record: u8| {
            let mut queue = self.queue.iter();
            queue.any(|entry| list(&entry.request).contains(&record))
        };
        let mut held = Held::default();
        for record in 0..=u8::MAX {
            let written = has(|request| &request.writes, record);
            let read = has(|request| &request.reads, record);
            held.written += u16::from(written);
            held.read += u16::from(read);
            held.either += u16::from(written || read);
        }
        held
    }
}

// Tenant calls.
impl Table {
    pub fn begin(&mut self, tenant: u8, awaited: u8, reads: &[u8], writes: &[u8]) -> Outcome {
        match self.admissible(tenant, awaited, reads, writes) {
            Ok(request) => self.admit(tenant, request),
            Err(refusal) => self.refuse(tenant, refusal),
        }
    }

    /// Refusals 1 to 9 in number order; Item 4: "5 is no longer given".
    fn admissible(
        &self,
        tenant: u8,
        awaited: u8,
        reads: &[u8],
        writes: &[u8],
    ) -> Result<Request, Refusal> {
        let meter = self.meters[self.fuelled_seat(tenant)?];
        let request = Request::asked(awaited, reads, writes)?;
        if self.places_held(tenant) >= usize::from(meter.share) {
            return Err(Refusal::ShareHeld);
        }
        if meter.serials == MOST_SERIALS {
            return Err(Refusal::SerialsGiven);
        }
        if meter.fuel < price::begin(request.n()) {
            return Err(Refusal::FuelBelowPrice);
        }
        Ok(request)
    }

    fn admit(&mut self, tenant: u8, request: Request) -> Outcome {
        let burnt = price::begin(request.n());
        self.burn(tenant, burnt);
        let serial = self.next_serial(tenant);
        // "It is Blocked exactly if it conflicts with some entry queued before it."
        let conflicts = self
            .queue
            .iter()
            .any(|entry| entry.request.conflicts_with(&request));
        self.queue
            .push(Entry::admitted(tenant, serial, request, conflicts));
        let at = self.queue.len() - 1;
        // "judged before its own counts": by the entries ahead of it alone.
        let clash = self.clash_ahead(at);
        Outcome::burning(burnt, self.answer_entry(at, clash))
    }

    pub fn finish(&mut self, tenant: u8, serial: u16) -> Outcome {
        match self.find_finishable(tenant, serial) {
            Ok(at) => Outcome::burning_nothing(self.release(at)),
            Err(refusal) => self.refuse(tenant, refusal),
        }
    }

    /// "Finish: 1; then a Free entry of that name succeeds even on a dry tank;
    /// then 2, 10, 11."
    fn find_finishable(&self, tenant: u8, serial: u16) -> Result<usize, Refusal> {
        seat(tenant)?;
        let found = self.find(tenant, serial);
        if let Ok(at) = found {
            if self.queue[at].state == State::Free {
                return Ok(at);
            }
        }
        self.fuelled_seat(tenant)?;
        found?;
        Err(Refusal::WrongState)
    }

    /// Item 7's "cancel", by which a tenant takes out "its own Blocked entry".
    pub fn cancel(&mut self, tenant: u8, serial: u16) -> Outcome {
        match self.find_cancellable(tenant, serial) {
            Ok(at) => {
                // Who is not dry has the price, so that 9 is never due.
                let burnt = self.burn(tenant, price::CANCEL);
                Outcome::burning(burnt, self.release(at))
            }
            Err(refusal) => self.refuse(tenant, refusal),
        }
    }

    /// "cancel 1, 2, 10, then 11 for an entry not Blocked".
    fn find_cancellable(&self, tenant: u8, serial: u16) -> Result<usize, Refusal> {
        self.fuelled_seat(tenant)?;
        let at = self.find(tenant, serial)?;
        if self.queue[at].state != State::Blocked {
            return Err(Refusal::WrongState);
        }
        Ok(at)
    }

    /// Promotes a Blocked entry that conflicts with no other entry in the
    /// queue, be it ahead or behind. That is what the counters say in document
    /// 01: with its own counts aside, nobody else counts on its records. So it
    /// may answer "still" where a scan, which looks only ahead, promotes.
    pub fn recheck(&mut self, tenant: u8, serial: u16) -> Outcome {
        let at = match self.find_recheckable(tenant, serial) {
            Ok(at) => at,
            Err(refusal) => return self.refuse(tenant, refusal),
        };
        let burnt = price::recheck(self.queue[at].request.n());
        self.burn(tenant, burnt);
        let answer = if self.conflicts_anywhere(at) {
            Answer::Still
        } else {
            self.promote(at)
        };
        Outcome::burning(burnt, answer)
    }

    /// Refusals in the order 1, 2, 10, 11, 9.
    fn find_recheckable(&self, tenant: u8, serial: u16) -> Result<usize, Refusal> {
        let meter = self.meters[self.fuelled_seat(tenant)?];
        let at = self.find(tenant, serial)?;
        let entry = &self.queue[at];
        if entry.state != State::Blocked {
            return Err(Refusal::WrongState);
        }
        if meter.fuel < price::recheck(entry.request.n()) {
            return Err(Refusal::FuelBelowPrice);
        }
        Ok(at)
    }

    /// Walks from the front to the first Blocked entry of this tenant that
    /// conflicts with no entry ahead of it, Blocked ones included.
    pub fn scan(&mut self, tenant: u8) -> Outcome {
        let seat = match self.fuelled_seat(tenant) {
            Ok(seat) => seat,
            Err(refusal) => return self.refuse(tenant, refusal),
        };
        let mut burnt = self.burn(tenant, price::SCAN);
        for at in 0..self.queue.len() {
            // The fuel is checked before the entry is looked at.
            let look_price = price::look(self.queue[at].request.n());
            if self.meters[seat].fuel < look_price {
                return Outcome::burning(burnt, Answer::Refused(Refusal::FuelBelowPrice));
            }
            burnt += self.burn(tenant, look_price);
            let entry = &self.queue[at];
            let own_blocked = entry.tenant == tenant && entry.state == State::Blocked;
            if own_blocked && !self.conflicts_ahead(at) {
                return Outcome::burning(burnt, self.promote(at));
            }
        }
        Outcome::burning(burnt, Answer::Nothing)
    }
}

// Looking things up.
impl Table {
    /// A tenant's fuel, or nothing for a number that is no tenant.
    pub fn fuel(&self, tenant: u8) -> Option<u32> {
        seat(tenant).ok().map(|seat| self.meters[seat].fuel)
    }

    fn places_held(&self, tenant: u8) -> usize {
        self.queue
            .iter()
            .filter(|entry| entry.tenant == tenant)
            .count()
    }

    /// Where the entry of that name stands in the queue, or refusal 10.
    fn find(&self, tenant: u8, serial: u16) -> Result<usize, Refusal> {
        self.queue
            .iter()
            .position(|entry| entry.tenant == tenant && entry.serial == serial)
            .ok_or(Refusal::NoSuchEntry)
    }

    /// Where the meter of a tenant with fuel stands, or the first of refusals
    /// 1 and 2.
    fn fuelled_seat(&self, tenant: u8) -> Result<usize, Refusal> {
        let seat = seat(tenant)?;
        if self.meters[seat].fuel == 0 {
            return Err(Refusal::Dry);
        }
        Ok(seat)
    }

    /// The lowest record on which the entry at that place conflicts with one
    /// ahead of it, or nothing if it conflicts with none.
    pub fn clash_ahead(&self, at: usize) -> Option<u8> {
        let (ahead, rest) = self.queue.split_at(at);
        let request = &rest[0].request;
        let clashes = ahead
            .iter()
            .filter_map(|other| request.lowest_clash(&other.request));
        clashes.min()
    }

    fn conflicts_ahead(&self, at: usize) -> bool {
        let (ahead, rest) = self.queue.split_at(at);
        ahead.iter().any(|other| rest[0].conflicts_with(other))
    }

    fn conflicts_behind(&self, at: usize) -> bool {
        let (upto, behind) = self.queue.split_at(at + 1);
        behind.iter().any(|other| upto[at].conflicts_with(other))
    }

    fn conflicts_anywhere(&self, at: usize) -> bool {
        self.conflicts_ahead(at) || self.conflicts_behind(at)
    }

    fn answer_entry(&self, at: usize, clash: Option<u8>) -> Answer {
        let entry = &self.queue[at];
        Answer::Entry {
            state: entry.state,
            tenant: entry.tenant,
            serial: entry.serial,
            clash,
        }
    }
}

// Small changes. Those that take a tenant are only called with a number from
// 1 to 16.
impl Table {
    fn promote(&mut self, at: usize) -> Answer {
        self.queue[at].promote();
        self.answer_entry(at, None)
    }

    /// An entry leaves, and with it its counts and its place; "the others keep
    /// their order". Item 7's two calls "refund no fuel", and neither does a
    /// Finish.
    fn release(&mut self, at: usize) -> Answer {
        self.queue.remove(at);
        Answer::Done
    }

    /// The tenant's next serial, from 1.
    fn next_serial(&mut self, tenant: u8) -> u16 {
        let meter = &mut self.meters[usize::from(tenant) - 1];
        meter.serials += 1;
        meter.serials
    }

    /// The one place that lowers fuel. Gives back what it burnt.
    fn burn(&mut self, tenant: u8, units: u32) -> u32 {
        self.meters[usize::from(tenant) - 1].fuel -= units;
        units
    }

    /// A refused tenant call, with the charge of document 01's table.
    fn refuse(&mut self, tenant: u8, refusal: Refusal) -> Outcome {
        let burnt = price::refused(refusal);
        if burnt > 0 {
            self.burn(tenant, burnt);
        }
        Outcome::burning(burnt, Answer::Refused(refusal))
    }
}

/// Where a tenant's meter stands, or refusal 1.
fn seat(tenant: u8) -> Result<usize, Refusal> {
    let number = usize::from(tenant);
    if (1..=TENANTS).contains(&number) {
        Ok(number - 1)
    } else {
        Err(Refusal::NoSuchTenant)
    }
}
