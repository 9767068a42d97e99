//! The block, and the linked calls on it.

use crate::explain::{words, Verdict};
use damsonpouch::{Locks, Outcome};
use events::blocklines::{Machine, Said};
use second::{block, Event, Held};
use std::cell::Cell;

#[derive(Default)]
pub struct Linked {
    block: Vec<u8>,
    /// How many explanations told a difference.
    different: Cell<usize>,
}

impl Linked {
    pub fn different(&self) -> usize {
        self.different.get()
    }

    fn locks(&mut self) -> Locks<'_> {
        Locks::over(&mut self.block)
    }
}

impl Machine for Linked {
    fn take(&mut self, block: &[u8]) {
        self.block.clear();
        self.block.extend_from_slice(block);
    }

    fn call(&mut self, call: Event<'_>) -> Said {
        let outcome = make(&mut self.locks(), call);
        Said {
            answer: match outcome.answer {
                Ok(answer) => answer.to_string(),
                Err(refusal) => format!("refused:{}", refusal.number()),
            },
            burnt: outcome.burnt,
        }
    }

    fn held(&self) -> Result<Held, u8> {
        let held = damsonpouch::held(&self.block).map_err(|refusal| refusal.number())?;
        Ok(Held {
            written: held.written,
            read: held.read,
            either: held.either,
        })
    }

    fn block(&self) -> &[u8] {
        &self.block
    }

    fn explain(&self) -> String {
        let verdict = Verdict {
            linked: damsonpouch::is_sound(&self.block),
            second: block::read(&self.block).err(),
        };
        if verdict.differs() {
            self.different.set(self.different.get() + 1);
        }
        words(&self.block, &verdict)
    }
}

fn make(locks: &mut Locks<'_>, call: Event<'_>) -> Outcome {
    match call {
        Event::Open { shares } => locks.open(shares),
        Event::Grant { tenant, amount } => locks.grant(tenant, amount),
        Event::Begin {
            tenant,
            awaited,
            reads,
            writes,
        } => locks.begin(tenant, awaited, reads, writes),
        Event::Finish { tenant, serial } => locks.finish(tenant, serial),
        Event::Recheck { tenant, serial } => locks.recheck(tenant, serial),
        Event::Scan { tenant } => locks.scan(tenant),
        Event::Pick => locks.pick(),
        Event::Deliver { tenant, serial } => locks.deliver(tenant, serial),
        Event::Evict { tenant, serial } => locks.evict(tenant, serial),
        Event::Cancel { tenant, serial } => locks.cancel(tenant, serial),
    }
}
