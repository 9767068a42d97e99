//! The usual lock table: a map from a record to the list of those who want it,
//! in their order. A Finish wakes whom it leaves clear, so there is no scan.

use crate::tenants::{
    begin_price, well_formed, Answer, Mode, OnlyRead, Outcome, Refusal, Tenants, TENANTS,
};
use crate::work::Locks;
use std::collections::hash_map::{Entry, HashMap};

/// A request's tenant and serial.
type Name = (u8, u16);

struct Waiter {
    name: Name,
    writes: bool,
}

struct Request {
    mode: Mode,
    due: u8,
    reads: Vec<u8>,
    writes: Vec<u8>,
}

pub struct Table {
    tenants: Tenants,
    /// The places that each tenant holds.
    held: [usize; TENANTS],
    lists: HashMap<u8, Vec<Waiter>>,
    requests: HashMap<Name, Request>,
}

impl Table {
    /// Refusals 1 to 9 in number order, or what the request only reads and its
    /// price.
    fn admissible(
        &self,
        who: u8,
        awaited: u8,
        reads: &[u8],
        writes: &[u8],
    ) -> Result<(OnlyRead, u32), Refusal> {
        let meter = self.tenants.fuelled(who)?;
        let only_read = well_formed(awaited, reads, writes)?;
        let price = begin_price(only_read.records().len() + writes.len());
        Tenants::affords(meter, self.held[usize::from(who) - 1], price)?;
        Ok((only_read, price))
    }

    /// "Finish: 1; then a Free entry of that name succeeds even on a dry tank;
    /// then 2, 10, 11."
    fn finishable(&self, name: Name) -> Result<(), Refusal> {
        self.tenants.meter(name.0)?;
        let request = self.requests.get(&name);
        match request {
            Some(request) if request.mode == Mode::Free => Ok(()),
            _ => {
                self.tenants.fuelled(name.0)?;
                Err(if request.is_none() { 10 } else { 11 })
            }
        }
    }

    /// Joins the back of a record's list, and tells whether nothing ahead in it
    /// conflicts.
    fn join(&mut self, record: u8, name: Name, writes: bool) -> bool {
        let list = self.lists.entry(record).or_default();
        let clear = list.iter().all(|ahead| !ahead.writes && !writes);
        list.push(Waiter { name, writes });
        clear
    }

    /// Joins the list of every record, and gives the lowest in whose list
    /// something ahead conflicts.
    fn lowest_clash(&mut self, name: Name, reads: &[u8], writes: &[u8]) -> Option<u8> {
        let mut lowest: Option<u8> = None;
        let reads = reads.iter().map(|&record| (record, false));
        let writes = writes.iter().map(|&record| (record, true));
        for (record, written) in reads.chain(writes) {
            if !self.join(record, name, written) {
                lowest = Some(lowest.map_or(record, |other| other.min(record)));
            }
        }
        lowest
    }

    /// Leaves a record's list, and gives back who is left in it.
    fn leave(&mut self, record: u8, name: Name) -> Vec<Name> {
        let mut list = match self.lists.entry(record) {
            Entry::Occupied(list) => list,
            Entry::Vacant(_) => return Vec::new(),
        };
        list.get_mut().retain(|waiter| waiter.name != name);
        if list.get().is_empty() {
            list.remove();
            return Vec::new();
        }
        list.get().iter().map(|waiter| waiter.name).collect()
    }

    /// Whether nothing ahead of a request conflicts, in any of its lists.
    fn is_clear(&self, name: Name, request: &Request) -> bool {
        let mut records = request.reads.iter().chain(&request.writes);
        records.all(|record| {
            let list = &self.lists[record];
            let own = list.iter().position(|waiter| waiter.name == name).unwrap();
            list[..own]
                .iter()
                .all(|ahead| !ahead.writes && !list[own].writes)
        })
    }

    /// A Blocked request that has become clear runs, or waits for what is due.
    fn wake(&mut self, name: Name) {
        let request = &self.requests[&name];
        if request.mode == Mode::Blocked && self.is_clear(name, request) {
            let mode = Mode::unblocked(request.due);
            self.requests.get_mut(&name).unwrap().mode = mode;
        }
    }
}

impl Locks for Table {
    fn open(tenants: Tenants) -> Table {
        Table {
            tenants,
            held: [0; TENANTS],
            lists: HashMap::new(),
            requests: HashMap::new(),
        }
    }

    fn begin(&mut self, who: u8, awaited: u8, reads: &[u8], writes: &[u8]) -> Outcome {
        let (only_read, price) = match self.admissible(who, awaited, reads, writes) {
            Ok(admitted) => admitted,
            Err(number) => return self.tenants.refuse(who, number),
        };
        let reads = only_read.records();
        let serial = self.tenants.admit(who, price);
        self.held[usize::from(who) - 1] += 1;
        let clash = self.lowest_clash((who, serial), reads, writes);
        let mode = clash.map_or(Mode::unblocked(awaited), |_| Mode::Blocked);
        let request = Request {
            mode,
            due: awaited,
            reads: reads.to_vec(),
            writes: writes.to_vec(),
        };
        self.requests.insert((who, serial), request);
        Outcome {
            answer: Ok(match clash {
                Some(lowest) => Answer::Blocked(who, serial, lowest),
                None => Answer::Named(mode, who, serial),
            }),
            burnt: price,
        }
    }

    fn finish(&mut self, who: u8, serial: u16) -> Outcome {
        let name = (who, serial);
        if let Err(number) = self.finishable(name) {
            return self.tenants.refuse(who, number);
        }
        if let Some(request) = self.requests.remove(&name) {
            self.held[usize::from(who) - 1] -= 1;
            for &record in request.reads.iter().chain(&request.writes) {
                for other in self.leave(record, name) {
                    self.wake(other);
                }
            }
        }
        Outcome {
            answer: Ok(Answer::Done),
            burnt: 0,
        }
    }

    fn tenants(&self) -> &Tenants {
        &self.tenants
    }

    fn queued(&self) -> usize {
        self.requests.len()
    }
}

#[cfg(test)]
mod tests {
    use super::*;
    use crate::work::opened;

    fn mode_of(table: &Table, name: Name) -> Mode {
        table.requests[&name].mode
    }

    #[test]
    fn a_conflict_blocks_and_a_finish_wakes() {
        let mut table: Table = opened(&[(1, 40), (2, 40)]);
        table.begin(1, 0, &[], &[10]);
        table.begin(1, 0, &[], &[12]);
        let blocked = table.begin(2, 2, &[11], &[10, 12]);
        let answer = Answer::Blocked(2, 1, 10);
        assert_eq!((blocked.answer, blocked.burnt), (Ok(answer), 8));
        assert_eq!(table.finish(1, 1).answer, Ok(Answer::Done));
        assert_eq!(mode_of(&table, (2, 1)), Mode::Blocked);
        assert_eq!(table.finish(1, 2).answer, Ok(Answer::Done));
        assert_eq!(mode_of(&table, (2, 1)), Mode::Waiting);
        assert_eq!(table.queued(), 1);
    }

    #[test]
    fn what_is_woken_waits_only_for_what_is_due() {
        for (due, mode) in [(0, Mode::Free), (1, Mode::Waiting), (2, Mode::Waiting)] {
            let mut table: Table = opened(&[(1, 40), (2, 40)]);
            table.begin(1, 0, &[], &[10]);
            table.begin(2, 2, &[], &[10]);
            table.requests.get_mut(&(2, 1)).unwrap().due = due;
            table.finish(1, 1);
            assert_eq!(mode_of(&table, (2, 1)), mode);
        }
    }

    #[test]
    fn a_record_in_both_lists_is_waited_for_once() {
        let mut table: Table = opened(&[(1, 40), (2, 40)]);
        let begun = table.begin(1, 0, &[9, 7, 9], &[9]);
        let free = Answer::Named(Mode::Free, 1, 1);
        assert_eq!((begun.answer, begun.burnt), (Ok(free), 6));
        assert_eq!((table.lists[&9].len(), table.lists[&7].len()), (1, 1));
        // 7 is only read
        table.begin(2, 0, &[7], &[]);
        assert_eq!(mode_of(&table, (2, 1)), Mode::Free);
        table.begin(2, 0, &[9], &[9]);
        table.begin(2, 0, &[9], &[]);
        assert_eq!(mode_of(&table, (2, 2)), Mode::Blocked);
        table.finish(1, 1);
        assert_eq!(mode_of(&table, (2, 2)), Mode::Free);
        assert_eq!(mode_of(&table, (2, 3)), Mode::Blocked);
        table.finish(2, 2);
        assert_eq!(mode_of(&table, (2, 3)), Mode::Free);
        assert_eq!(table.lists[&9].len(), 1);
    }

    #[test]
    fn readers_are_woken_together_and_empty_lists_are_dropped() {
        let mut table: Table = opened(&[(1, 60)]);
        table.begin(1, 0, &[], &[5]);
        table.begin(1, 0, &[5], &[]);
        table.begin(1, 0, &[5], &[]);
        table.begin(1, 0, &[], &[5]);
        table.finish(1, 1);
        assert_eq!(mode_of(&table, (1, 2)), Mode::Free);
        assert_eq!(mode_of(&table, (1, 3)), Mode::Free);
        assert_eq!(mode_of(&table, (1, 4)), Mode::Blocked);
        assert_eq!(table.finish(1, 4).answer, Err(11));
        for serial in 2..=4 {
            assert_eq!(table.finish(1, serial).answer, Ok(Answer::Done));
        }
        assert!(table.lists.is_empty());
        assert_eq!(table.finish(1, 4).answer, Err(10));
    }
}
