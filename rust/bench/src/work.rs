//! The work that is measured, over either yardstick: what the proved program
//! `rounds` does, call for call.

use crate::inplace;
use crate::tenants::{Outcome, Tenants, TENANTS};

/// The calls that a round takes.
pub trait Locks {
    fn open(tenants: Tenants) -> Self;
    fn begin(&mut self, who: u8, awaited: u8, reads: &[u8], writes: &[u8]) -> Outcome;
    fn finish(&mut self, who: u8, serial: u16) -> Outcome;
    fn tenants(&self) -> &Tenants;
    fn queued(&self) -> usize;
}

/// Tenant 2 holds `held` entries, each of 2 reads and 2 writes of its own.
pub fn holding<T: Locks>(held: u8) -> T {
    let mut shares = [0; TENANTS];
    shares[0] = 1;
    shares[1] = 63;
    let mut tenants = Tenants::open(&shares).expect("shares of 64 in all");
    for who in [1, 2] {
        tenants.grant(who, 1_000_000_000).expect("an empty tank");
    }
    let mut table = T::open(tenants);
    for k in 0..held {
        let first = 4 * k;
        table.begin(2, 0, &[first, first + 1], &[first + 2, first + 3]);
    }
    table
}

/// Requests of tenant 1 on records that nobody holds, each finished before the
/// next.
pub fn rounds<T: Locks>(table: &mut T, n: u16) {
    for serial in 1..=n {
        table.begin(1, 0, &[252, 253], &[254, 255]);
        table.finish(1, serial);
    }
}

/// Scans of tenant 1 that look at every entry: its own is behind the others, and
/// is blocked by the front one. With none held the queue is empty.
pub fn scans(table: &mut inplace::Table, n: u16) {
    if table.queued() > 0 {
        table.begin(1, 0, &[252, 253], &[3, 254]);
    }
    for _ in 0..n {
        table.scan(1);
    }
}

/// Tenant 1's fuel and serials, and how many entries are queued.
pub fn shown<T: Locks>(table: &T) -> String {
    let meter = table.tenants().meter(1).expect("a tenant");
    format!("{} {} {}", meter.fuel, meter.serials, table.queued())
}

/// A table in which each tenant has 4 places, and these have fuel.
#[cfg(test)]
pub fn opened<T: Locks>(fuel: &[(u8, u32)]) -> T {
    let mut tenants = Tenants::open(&[4; TENANTS]).unwrap();
    for &(who, amount) in fuel {
        tenants.grant(who, amount).unwrap();
    }
    T::open(tenants)
}

#[cfg(test)]
mod tests {
    use super::*;
    use crate::tenants::{Answer, Mode};
    use crate::waiters;

    #[test]
    fn a_round_leaves_the_held_entries_and_costs_10() {
        for held in [0, 16, 63] {
            let told = format!("{} 7 {}", 1_000_000_000 - 7 * 10, held);
            let mut table: inplace::Table = holding(held);
            rounds(&mut table, 7);
            assert_eq!(shown(&table), told);
            let mut table: waiters::Table = holding(held);
            rounds(&mut table, 7);
            assert_eq!(shown(&table), told);
        }
    }

    /// Behind 1.1, which reads 1 and 64 and writes 63, and 1.2, which writes 0 and
    /// 255.
    fn told<T: Locks>(reads: &[u8], writes: &[u8]) -> Option<u8> {
        let mut table: T = opened(&[(1, 40), (2, 40)]);
        table.begin(1, 0, &[1, 64], &[63]);
        table.begin(1, 0, &[], &[0, 255]);
        match table.begin(2, 0, reads, writes).answer {
            Ok(Answer::Blocked(2, 1, lowest)) => Some(lowest),
            Ok(Answer::Named(Mode::Free, 2, 1)) => None,
            other => panic!("{:?}", other),
        }
    }

    #[test]
    fn a_blocked_begin_tells_the_lowest_record() {
        let cases: [(&[u8], &[u8], Option<u8>); 8] = [
            (&[63], &[], Some(63)),
            (&[], &[64], Some(64)),
            (&[0, 63], &[64, 255], Some(0)),
            (&[63, 255], &[64], Some(63)),
            (&[255], &[63, 64], Some(63)),
            (&[1, 2, 255], &[3], Some(255)),
            (&[1, 64], &[2], None),
            (&[7], &[7], None),
        ];
        for (reads, writes, lowest) in cases {
            assert_eq!(told::<inplace::Table>(reads, writes), lowest);
            assert_eq!(told::<waiters::Table>(reads, writes), lowest);
        }
    }

    #[test]
    fn a_scan_looks_at_all_64_entries() {
        let mut table = holding(63);
        scans(&mut table, 3);
        let fuel = 1_000_000_000 - 10 - 3 * (1 + 64 * 5);
        assert_eq!(shown(&table), format!("{} 1 64", fuel));
        let mut table = holding(0);
        scans(&mut table, 3);
        assert_eq!(shown(&table), format!("{} 0 0", 1_000_000_000 - 3));
    }
}
