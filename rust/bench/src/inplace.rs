//! The same locks as the proved calls keep (two counters a record and one
//! queue), changed in place behind a `&mut`, as plain Rust would do it.

use crate::tenants::{
    begin_price, look_price, well_formed, Answer, Mode, OnlyRead, Outcome, Refusal, Tenants,
    MOST_RECORDS,
};
use crate::work::Locks;

const PLACES: usize = 64;
const RECORDS: usize = 256;

#[derive(Clone, Copy)]
struct Entry {
    tenant: u8,
    serial: u16,
    mode: Mode,
    /// Nothing here reads it: an entry is to be as large as the proved one.
    #[allow(dead_code)]
    awaited: u8,
    due: u8,
    nr: u8,
    nw: u8,
    reads: [u8; MOST_RECORDS],
    writes: [u8; MOST_RECORDS],
}

/// The entry of an unused slot.
const UNUSED: Entry = Entry {
    tenant: 0,
    serial: 0,
    mode: Mode::Free,
    awaited: 0,
    due: 0,
    nr: 0,
    nw: 0,
    reads: [0; MOST_RECORDS],
    writes: [0; MOST_RECORDS],
};

impl Entry {
    fn reads(&self) -> &[u8] {
        &self.reads[..usize::from(self.nr)]
    }

    fn writes(&self) -> &[u8] {
        &self.writes[..usize::from(self.nw)]
    }

    fn n(&self) -> usize {
        usize::from(self.nr) + usize::from(self.nw)
    }

    fn promote(&mut self) -> Answer {
        self.mode = Mode::unblocked(self.due);
        Answer::Named(self.mode, self.tenant, self.serial)
    }
}

/// A set of records, one bit each.
#[derive(Default)]
struct Map {
    words: [u64; RECORDS / 64],
}

impl Map {
    fn insert(&mut self, records: &[u8]) {
        for &record in records {
            self.words[usize::from(record) / 64] |= 1 << (record % 64);
        }
    }

    fn hits(&self, records: &[u8]) -> bool {
        records
            .iter()
            .any(|&record| self.words[usize::from(record) / 64] >> (record % 64) & 1 == 1)
    }
}

pub struct Table {
    cx: [u8; RECORDS],
    cs: [u8; RECORDS],
    tenants: Tenants,
    count: usize,
    entries: [Entry; PLACES],
}

impl Table {
    fn queue(&self) -> &[Entry] {
        &self.entries[..self.count]
    }

    fn find(&self, who: u8, serial: u16) -> Option<usize> {
        self.queue()
            .iter()
            .position(|entry| entry.tenant == who && entry.serial == serial)
    }

    /// Refusals 1 to 9 in number order, or what the request only reads and its
    /// price.
    fn admissible(
        &self,
        who: u8,
        awaited: u8,
        reads: &[u8],
        writes: &[u8],
    ) -> Result<(OnlyRead, u32), Refusal> {
        let meter = self.tenants.fuelled(who)?;
        let only_read = well_formed(awaited, reads, writes)?;
        let own = self.queue().iter().filter(|entry| entry.tenant == who);
        let held = own.take(usize::from(meter.share)).count();
        let price = begin_price(only_read.records().len() + writes.len());
        Tenants::affords(meter, held, price)?;
        Ok((only_read, price))
    }

    /// The lowest record of a clash of figure 2, the request's own counts
    /// included. Both lists rise, so that the first of each that clashes is its
    /// lowest.
    fn lowest_clash(&self, reads: &[u8], writes: &[u8]) -> Option<u8> {
        let read = |&&record: &&u8| self.cx[usize::from(record)] > 0;
        let write =
            |&&record: &&u8| self.cx[usize::from(record)] > 1 || self.cs[usize::from(record)] > 0;
        let (read, written) = (reads.iter().find(read), writes.iter().find(write));
        read.into_iter().chain(written).min().copied()
    }

    /// "Finish: 1; then a Free entry of that name succeeds even on a dry tank;
    /// then 2, 10, 11."
    fn finishable(&self, who: u8, serial: u16) -> Result<usize, Refusal> {
        self.tenants.meter(who)?;
        let found = self.find(who, serial);
        match found {
            Some(at) if self.entries[at].mode == Mode::Free => Ok(at),
            _ => {
                self.tenants.fuelled(who)?;
                Err(if found.is_none() { 10 } else { 11 })
            }
        }
    }

    /// Those behind a place move up.
    fn remove(&mut self, at: usize) {
        self.entries.copy_within(at + 1..self.count, at);
        self.count -= 1;
        self.entries[self.count] = UNUSED;
    }

    /// The search from the front. Each entry is paid for before it is looked at.
    fn search(&mut self, who: u8, fuel: u32) -> (Result<Answer, Refusal>, u32) {
        let mut written = Map::default();
        let mut read = Map::default();
        let mut burnt = 1;
        for entry in &mut self.entries[..self.count] {
            let price = look_price(entry.n());
            if fuel - burnt < price {
                return (Err(9), burnt);
            }
            burnt += price;
            if entry.tenant == who
                && entry.mode == Mode::Blocked
                && !written.hits(entry.reads())
                && !written.hits(entry.writes())
                && !read.hits(entry.writes())
            {
                return (Ok(entry.promote()), burnt);
            }
            written.insert(entry.writes());
            read.insert(entry.reads());
        }
        (Ok(Answer::Nothing), burnt)
    }

    pub fn scan(&mut self, who: u8) -> Outcome {
        let meter = match self.tenants.fuelled(who) {
            Ok(meter) => meter,
            Err(number) => return self.tenants.refuse(who, number),
        };
        let (answer, burnt) = self.search(who, meter.fuel);
        self.tenants.burn(who, burnt);
        Outcome { answer, burnt }
    }
}

impl Locks for Table {
    fn open(tenants: Tenants) -> Table {
        Table {
            cx: [0; RECORDS],
            cs: [0; RECORDS],
            tenants,
            count: 0,
            entries: [UNUSED; PLACES],
        }
    }

    fn begin(&mut self, who: u8, awaited: u8, reads: &[u8], writes: &[u8]) -> Outcome {
        let (only_read, price) = match self.admissible(who, awaited, reads, writes) {
            Ok(admitted) => admitted,
            Err(number) => return self.tenants.refuse(who, number),
        };
        let reads = only_read.records();
        for &record in reads {
            self.cs[usize::from(record)] += 1;
        }
        for &record in writes {
            self.cx[usize::from(record)] += 1;
        }
        let mut entry = Entry {
            tenant: who,
            serial: self.tenants.admit(who, price),
            mode: Mode::Blocked,
            awaited,
            due: awaited,
            nr: reads.len() as u8,
            nw: writes.len() as u8,
            ..UNUSED
        };
        entry.reads[..reads.len()].copy_from_slice(reads);
        entry.writes[..writes.len()].copy_from_slice(writes);
        let answer = match self.lowest_clash(reads, writes) {
            Some(lowest) => Answer::Blocked(who, entry.serial, lowest),
            None => entry.promote(),
        };
        self.entries[self.count] = entry;
        self.count += 1;
        Outcome {
            answer: Ok(answer),
            burnt: price,
        }
    }

    fn finish(&mut self, who: u8, serial: u16) -> Outcome {
        let at = match self.finishable(who, serial) {
            Ok(at) => at,
            Err(number) => return self.tenants.refuse(who, number),
        };
        let entry = self.entries[at];
        for &record in entry.reads() {
            self.cs[usize::from(record)] -= 1;
        }
        for &record in entry.writes() {
            self.cx[usize::from(record)] -= 1;
        }
        self.remove(at);
        Outcome {
            answer: Ok(Answer::Done),
            burnt: 0,
        }
    }

    fn tenants(&self) -> &Tenants {
        &self.tenants
    }

    fn queued(&self) -> usize {
        self.count
    }
}

#[cfg(test)]
mod tests {
    use super::*;
    use crate::work::opened;

    fn named(mode: Mode, who: u8, serial: u16) -> Result<Answer, Refusal> {
        Ok(Answer::Named(mode, who, serial))
    }

    #[test]
    fn a_conflict_blocks_until_a_scan_finds_it_clear() {
        let mut table: Table = opened(&[(1, 40), (2, 40)]);
        assert_eq!(
            table.begin(1, 0, &[], &[10]).answer,
            named(Mode::Free, 1, 1)
        );
        assert_eq!(
            table.begin(1, 0, &[], &[11]).answer,
            named(Mode::Free, 1, 2)
        );
        let blocked = table.begin(2, 0, &[], &[10, 12]);
        assert_eq!(blocked.answer, Ok(Answer::Blocked(2, 1, 10)));
        assert_eq!(blocked.burnt, 6);
        assert_eq!(table.scan(2).answer, Ok(Answer::Nothing));
        assert_eq!(table.finish(1, 1).answer, Ok(Answer::Done));
        // 1 for the search, 2 for the entry of one record, 3 for that of two
        let found = table.scan(2);
        assert_eq!((found.answer, found.burnt), (named(Mode::Free, 2, 1), 6));
        assert_eq!(table.queued(), 2);
    }

    #[test]
    fn what_is_promoted_waits_only_for_what_is_due() {
        for (due, mode) in [(0, Mode::Free), (1, Mode::Waiting), (2, Mode::Waiting)] {
            let mut table: Table = opened(&[(1, 40), (2, 40)]);
            table.begin(1, 0, &[], &[10]);
            table.begin(2, 2, &[], &[10]);
            table.finish(1, 1);
            table.entries[0].due = due;
            assert_eq!(table.scan(2).answer, named(mode, 2, 1));
        }
    }

    #[test]
    fn readers_share_and_a_writer_behind_them_does_not() {
        let mut table: Table = opened(&[(1, 40)]);
        assert_eq!(table.begin(1, 0, &[5], &[]).answer, named(Mode::Free, 1, 1));
        assert_eq!(
            table.begin(1, 3, &[5], &[]).answer,
            named(Mode::Waiting, 1, 2)
        );
        assert_eq!(
            table.begin(1, 0, &[], &[5]).answer,
            Ok(Answer::Blocked(1, 3, 5))
        );
        assert_eq!(table.finish(1, 3).answer, Err(11));
        assert_eq!(table.finish(1, 9).answer, Err(10));
        assert_eq!(table.tenants().meter(1).unwrap().fuel, 40 - 12 - 2);
    }

    #[test]
    fn a_record_in_both_lists_is_counted_once() {
        let mut table: Table = opened(&[(1, 40), (2, 40)]);
        let begun = table.begin(1, 0, &[9, 7, 9], &[9]);
        assert_eq!((begun.answer, begun.burnt), (named(Mode::Free, 1, 1), 6));
        assert_eq!((table.cx[9], table.cs[9], table.cs[7]), (1, 0, 1));
        // 7 is only read
        assert_eq!(table.begin(2, 0, &[7], &[]).answer, named(Mode::Free, 2, 1));
        for (serial, reads, writes) in [(2, &[9][..], &[9][..]), (3, &[9], &[]), (4, &[], &[9])] {
            let begun = table.begin(2, 0, reads, writes);
            assert_eq!(begun.answer, Ok(Answer::Blocked(2, serial, 9)));
        }
        table.finish(1, 1);
        assert_eq!((table.cx[9], table.cs[9], table.cs[7]), (2, 1, 1));
        // 1 for the search, 2 for each entry of one record
        let found = table.scan(2);
        assert_eq!((found.answer, found.burnt), (named(Mode::Free, 2, 2), 5));
    }

    #[test]
    fn a_search_stops_before_an_entry_that_it_cannot_pay() {
        let mut table: Table = opened(&[(1, 40), (3, 2)]);
        table.begin(1, 0, &[], &[1, 2]);
        let short = table.scan(3);
        assert_eq!((short.answer, short.burnt), (Err(9), 1));
    }
}
