//! An event file in the making, with the state that its calls lead to. The
//! state steers: a generator asks it which entries there are, so that its
//! calls hit live ones.

use crate::encode::{encode, encode_parts};
use crate::random::Random;
use second::reader::Event;
use second::table::TENANTS;
use second::{apply, Entry, Outcome, Request, State, Table};

pub type Shares = [u8; TENANTS];

/// Tenant and serial of an entry.
pub type Name = (u8, u16);

pub struct Sheet {
    bytes: Vec<u8>,
    pub table: Table,
}

// The calls. Each adds a record and makes the call on the steering state.
impl Sheet {
    pub fn open(shares: Shares) -> Sheet {
        let mut sheet = Sheet {
            bytes: Vec::new(),
            table: Table::default(),
        };
        sheet.call(Event::Open { shares: &shares });
        sheet
    }

    fn call(&mut self, event: Event<'_>) -> Outcome {
        encode(event, &mut self.bytes).expect("a generated record fits the format");
        apply(&mut self.table, event)
    }

    pub fn grant(&mut self, tenant: u8, amount: u32) -> Outcome {
        self.call(Event::Grant { tenant, amount })
    }

    pub fn begin(&mut self, tenant: u8, awaited: u8, lists: &Lists) -> Outcome {
        self.call(Event::Begin {
            tenant,
            awaited,
            reads: &lists.reads,
            writes: &lists.writes,
        })
    }

    pub fn finish(&mut self, (tenant, serial): Name) -> Outcome {
        self.call(Event::Finish { tenant, serial })
    }

    pub fn recheck(&mut self, (tenant, serial): Name) -> Outcome {
        self.call(Event::Recheck { tenant, serial })
    }

    pub fn scan(&mut self, tenant: u8) -> Outcome {
        self.call(Event::Scan { tenant })
    }

    pub fn pick(&mut self) -> Outcome {
        self.call(Event::Pick)
    }

    pub fn deliver(&mut self, (tenant, serial): Name) -> Outcome {
        self.call(Event::Deliver { tenant, serial })
    }

    pub fn evict(&mut self, (tenant, serial): Name) -> Outcome {
        self.call(Event::Evict { tenant, serial })
    }

    pub fn cancel(&mut self, (tenant, serial): Name) -> Outcome {
        self.call(Event::Cancel { tenant, serial })
    }

    /// Grants what a tank lacks of that much fuel.
    pub fn fuel_up(&mut self, tenant: u8, wanted: u32) {
        let left = self.fuel(tenant);
        if left < wanted {
            self.grant(tenant, wanted - left);
        }
    }

    /// Answers come until so many are left due.
    pub fn deliver_down_to(&mut self, name: Name, left: u8) {
        let due = self.place(name).map_or(0, |at| self.table.queue[at].due);
        for _ in left..due {
            self.deliver(name);
        }
    }

    /// The front of a queue that is not empty leaves, which burns nothing. The
    /// answers of one that is Blocked come before its Pick or after it.
    pub fn front_leaves(&mut self, random: &mut Random) {
        let front = (self.table.queue[0].tenant, self.table.queue[0].serial);
        if random.chance(50) {
            self.deliver_down_to(front, 0);
        }
        self.pick();
        self.deliver_down_to(front, 0);
        self.finish(front);
    }
}

// Bytes that are no call of the steering state.
impl Sheet {
    /// A record whose tag and body need not suit each other. It must come
    /// last: the steering state does not follow it.
    pub fn into_bytes_with(mut self, tag: u8, body: &[u8]) -> Vec<u8> {
        encode_parts(tag, body, &mut self.bytes).expect("a generated record fits the format");
        self.bytes
    }

    pub fn into_bytes(self) -> Vec<u8> {
        self.bytes
    }

    pub fn len(&self) -> usize {
        self.bytes.len()
    }
}

// What the state says.
impl Sheet {
    pub fn fuel(&self, tenant: u8) -> u32 {
        self.table.fuel(tenant).unwrap_or(0)
    }

    /// The names of the entries that `wanted` holds for, front first.
    pub fn names(&self, wanted: impl Fn(&Entry) -> bool) -> Vec<Name> {
        let entries = self.table.queue.iter().filter(|entry| wanted(entry));
        entries.map(|entry| (entry.tenant, entry.serial)).collect()
    }

    pub fn names_in(&self, state: State) -> Vec<Name> {
        self.names(|entry| entry.state == state)
    }

    /// Where the entry of that name stands in the queue.
    pub fn place(&self, name: Name) -> Option<usize> {
        let mut queue = self.table.queue.iter();
        queue.position(|entry| (entry.tenant, entry.serial) == name)
    }

    pub fn has_place(&self, tenant: u8) -> bool {
        let held = self.names(|entry| entry.tenant == tenant).len();
        held < usize::from(self.table.meters[usize::from(tenant) - 1].share)
    }
}

/// The record lists of a Begin, as given.
#[derive(Clone, Default)]
pub struct Lists {
    pub reads: Vec<u8>,
    pub writes: Vec<u8>,
}

impl Lists {
    pub fn reading(reads: &[u8]) -> Lists {
        Lists {
            reads: reads.to_vec(),
            writes: Vec::new(),
        }
    }

    pub fn writing(writes: &[u8]) -> Lists {
        Lists {
            reads: Vec::new(),
            writes: writes.to_vec(),
        }
    }

    /// One record, which is written or read.
    pub fn of_one(record: u8, writes: bool) -> Lists {
        let mut lists = Lists::default();
        lists.add(record, writes);
        lists
    }

    /// One record more, in its place.
    pub fn add(&mut self, record: u8, writes: bool) {
        if writes {
            self.writes.push(record);
        } else {
            self.reads.push(record);
        }
        self.sort();
    }

    pub fn has(&self, record: u8) -> bool {
        self.reads.contains(&record) || self.writes.contains(&record)
    }

    /// Lists that keep refusals 3 and 4: that many reads and writes, no record
    /// twice, be it in one list or in both, out of `pool` as far as it reaches.
    pub fn drawn(random: &mut Random, pool: &[u8], reads: usize, writes: usize) -> Lists {
        let mut pool = pool.to_vec();
        random.shuffle(&mut pool);
        let (reads, rest) = pool.split_at(reads.min(pool.len()));
        let mut lists = Lists {
            reads: reads.to_vec(),
            writes: rest[..writes.min(rest.len())].to_vec(),
        };
        lists.sort();
        lists
    }

    pub fn sort(&mut self) {
        self.reads.sort_unstable();
        self.writes.sort_unstable();
    }

    /// The n of a request with these lists: "A record in both lists ... is
    /// counted once in n" (Item 4).
    pub fn n(&self) -> u32 {
        Request::reduced(0, &self.reads, &self.writes).n()
    }

    /// Written records are read too, until there are so many reads: anywhere in
    /// the list, and one of them perhaps several times. The reduced lists stay
    /// as they are.
    pub fn read_written(&mut self, random: &mut Random, reads: usize) {
        let more = reads.saturating_sub(self.reads.len());
        random.strew(&mut self.reads, &self.writes, more);
    }
}

/// That many places dealt out to the first `tenants` tenants, at least one
/// each.
pub fn deal_shares(random: &mut Random, tenants: u8, places: usize) -> Shares {
    let mut shares = [0; TENANTS];
    let dealt = &mut shares[..usize::from(tenants)];
    dealt.fill(1);
    for _ in dealt.len()..places {
        dealt[random.below(dealt.len())] += 1;
    }
    shares
}

/// A number of places that gives each of `tenants` tenants one or more.
pub fn any_places(random: &mut Random, tenants: u8) -> usize {
    random.between(usize::from(tenants), 64)
}
