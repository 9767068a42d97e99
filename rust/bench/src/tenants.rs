//! What both yardsticks share: the tenants' meters, the tests of a request that
//! need no lock, the prices and the answers, all as document 01 has them.

pub const TENANTS: usize = 16;
const MOST_PLACES: u32 = 64;
const MOST_FUEL: u32 = 1_000_000_000;
const MOST_SERIALS: u16 = 65_535;
/// The most records in each of a request's two lists.
pub const MOST_RECORDS: usize = 8;
const MOST_AWAITED: u8 = 15;

/// The number of document 01's table, "Numbers a caller may get back".
pub type Refusal = u8;

/// What a call of a tenant burnt, with its answer or the number it is refused
/// with.
#[derive(Clone, Copy, Debug, PartialEq, Eq)]
pub struct Outcome {
    pub answer: Result<Answer, Refusal>,
    pub burnt: u32,
}

#[derive(Clone, Copy, Debug, PartialEq, Eq)]
pub enum Answer {
    Done,
    Nothing,
    /// An entry that runs or waits.
    Named(Mode, u8, u16),
    /// A Begin that is Blocked: its tenant and serial, and the lowest record that
    /// it clashed on.
    Blocked(u8, u16, u8),
}

/// The state of an entry.
#[derive(Clone, Copy, Debug, PartialEq, Eq)]
pub enum Mode {
    Free,
    Waiting,
    Blocked,
}

impl Mode {
    /// Of an entry that nothing blocks, by the answers still due.
    pub fn unblocked(due: u8) -> Mode {
        if due > 0 {
            Mode::Waiting
        } else {
            Mode::Free
        }
    }
}

#[derive(Clone, Copy, Debug, Default)]
pub struct Meter {
    pub fuel: u32,
    pub serials: u16,
    pub share: u8,
}

pub struct Tenants {
    /// The meter of tenant t stands at t - 1.
    meters: [Meter; TENANTS],
}

impl Tenants {
    /// Refusal 14 is all that can go wrong.
    pub fn open(shares: &[u8]) -> Result<Tenants, Refusal> {
        let places: u32 = shares.iter().map(|&share| u32::from(share)).sum();
        if shares.len() != TENANTS || places > MOST_PLACES {
            return Err(14);
        }
        let mut meters = [Meter::default(); TENANTS];
        for (meter, &share) in meters.iter_mut().zip(shares) {
            meter.share = share;
        }
        Ok(Tenants { meters })
    }

    /// Refusals in the order 1, 13.
    pub fn grant(&mut self, who: u8, amount: u32) -> Result<(), Refusal> {
        let meter = self.meter_mut(who)?;
        if amount > MOST_FUEL - meter.fuel {
            return Err(13);
        }
        meter.fuel += amount;
        Ok(())
    }

    /// The meter of a tenant, or refusal 1.
    pub fn meter(&self, who: u8) -> Result<Meter, Refusal> {
        seat(who).map(|seat| self.meters[seat])
    }

    fn meter_mut(&mut self, who: u8) -> Result<&mut Meter, Refusal> {
        seat(who).map(move |seat| &mut self.meters[seat])
    }

    /// The meter of a tenant with fuel, or the first of refusals 1 and 2.
    pub fn fuelled(&self, who: u8) -> Result<Meter, Refusal> {
        let meter = self.meter(who)?;
        if meter.fuel == 0 {
            return Err(2);
        }
        Ok(meter)
    }

    /// Refusals 7 to 9 of a Begin of a tenant that holds so many places.
    pub fn affords(meter: Meter, held: usize, price: u32) -> Result<(), Refusal> {
        if held >= usize::from(meter.share) {
            return Err(7);
        }
        if meter.serials == MOST_SERIALS {
            return Err(8);
        }
        if meter.fuel < price {
            return Err(9);
        }
        Ok(())
    }

    /// The tenant pays, and gets its next serial.
    pub fn admit(&mut self, who: u8, price: u32) -> u16 {
        let meter = &mut self.meters[usize::from(who) - 1];
        meter.fuel -= price;
        meter.serials += 1;
        meter.serials
    }

    pub fn burn(&mut self, who: u8, units: u32) {
        self.meters[usize::from(who) - 1].fuel -= units;
    }

    /// A refused call of a tenant, which burns 1 but for refusals 1 and 2.
    pub fn refuse(&mut self, who: u8, number: Refusal) -> Outcome {
        let burnt = u32::from(number > 2);
        if burnt > 0 {
            self.burn(who, burnt);
        }
        Outcome {
            answer: Err(number),
            burnt,
        }
    }
}

fn seat(who: u8) -> Result<usize, Refusal> {
    match usize::from(who) {
        number @ 1..=TENANTS => Ok(number - 1),
        _ => Err(1),
    }
}

/// The records that a request reads and does not write, in their order.
#[derive(Clone, Copy, Debug, PartialEq, Eq)]
pub struct OnlyRead {
    records: [u8; MOST_RECORDS],
    count: usize,
}

impl OnlyRead {
    /// Of lists of up to 8 records. "A record in both lists shall count as
    /// written only" (document 02, Item 4).
    fn of(reads: &[u8], writes: &[u8]) -> OnlyRead {
        let mut only_read = OnlyRead {
            records: [0; MOST_RECORDS],
            count: 0,
        };
        for record in reads {
            if !writes.contains(record) {
                only_read.records[only_read.count] = *record;
                only_read.count += 1;
            }
        }
        only_read
    }

    pub fn records(&self) -> &[u8] {
        &self.records[..self.count]
    }
}

/// Refusals 3, 4 and 6 of a Begin, or what it only reads. 3 is judged on the
/// lists as given, 4 on the reduced ones; 5 is no longer given, and its number
/// stays unused.
pub fn well_formed(awaited: u8, reads: &[u8], writes: &[u8]) -> Result<OnlyRead, Refusal> {
    if reads.len() > MOST_RECORDS || writes.len() > MOST_RECORDS {
        return Err(3);
    }
    let only_read = OnlyRead::of(reads, writes);
    if !rises(only_read.records()) || !rises(writes) {
        return Err(4);
    }
    if awaited > MOST_AWAITED {
        return Err(6);
    }
    Ok(only_read)
}

fn rises(records: &[u8]) -> bool {
    records.windows(2).all(|pair| pair[0] < pair[1])
}

/// 1 + n for the request, and as much for its release.
pub fn begin_price(n: usize) -> u32 {
    2 + 2 * n as u32
}

/// What a search burns for an entry that it looks at.
pub fn look_price(n: usize) -> u32 {
    1 + n as u32
}

#[cfg(test)]
mod tests {
    use super::*;

    #[test]
    fn a_begin_is_refused_in_the_order_of_the_document() {
        assert_eq!(well_formed(16, &[9; 9], &[9]), Err(3));
        assert_eq!(well_formed(16, &[7, 7], &[8]), Err(4));
        assert_eq!(well_formed(16, &[3, 9, 3], &[9]), Err(4));
        assert_eq!(well_formed(16, &[7], &[7, 7]), Err(4));
        assert_eq!(well_formed(16, &[7], &[7]), Err(6));
        assert_eq!(well_formed(16, &[7], &[8]), Err(6));
        let meter = |share, serials| Meter {
            fuel: 3,
            serials,
            share,
        };
        assert_eq!(Tenants::affords(meter(1, 65_535), 1, 4), Err(7));
        assert_eq!(Tenants::affords(meter(1, 65_535), 0, 4), Err(8));
        assert_eq!(Tenants::affords(meter(1, 0), 0, 4), Err(9));
        assert_eq!(Tenants::affords(meter(1, 0), 0, 3), Ok(()));
    }

    #[test]
    fn what_is_written_is_not_among_the_reads() {
        let cases: [(&[u8], &[u8], &[u8]); 6] = [
            (&[1, 2], &[3, 4], &[1, 2]),
            (&[7], &[7], &[]),
            (&[7, 7], &[7], &[]),
            (&[9, 3], &[9], &[3]),
            (&[9, 3, 9, 5], &[9], &[3, 5]),
            (&[1, 2, 3, 4, 5, 6, 7, 8], &[2, 8], &[1, 3, 4, 5, 6, 7]),
        ];
        for (reads, writes, only_read) in cases {
            let found = well_formed(0, reads, writes).unwrap();
            assert_eq!(found.records(), only_read);
        }
    }

    #[test]
    fn shares_and_fuel_have_limits() {
        assert_eq!(Tenants::open(&[4; 15]).err(), Some(14));
        assert_eq!(Tenants::open(&[5; 16]).err(), Some(14));
        let mut tenants = Tenants::open(&[4; 16]).unwrap();
        assert_eq!(tenants.fuelled(17).err(), Some(1));
        assert_eq!(tenants.fuelled(16).err(), Some(2));
        assert_eq!(tenants.grant(16, MOST_FUEL), Ok(()));
        assert_eq!(tenants.grant(16, 1), Err(13));
        assert_eq!(tenants.fuelled(16).unwrap().fuel, MOST_FUEL);
    }
}
