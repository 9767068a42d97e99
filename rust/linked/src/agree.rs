//! Whether the linked calls and those by hand do the same, over calls from a
//! seed: the same replies, and the same bytes afterwards.

use crate::calls::{Call, Said, BY_HAND, LINKED};
use crate::seeded;
use events::random::Random;
use inblock::{Counts, BLOCK_BYTES, DONE, REFUSED};

const SEQUENCES: usize = 60;
const CALLS: usize = 250;

#[derive(Default)]
pub struct Tally {
    /// Calls on blocks as they came from the calls before.
    pub plain: usize,
    /// Calls on damaged blocks, and those of them that were refused with 15.
    pub damaged: usize,
    pub refused: usize,
    /// Begins that were told a record that they clashed on.
    pub clashed: usize,
    /// Entries that an Evict took out, and that a Cancel did.
    pub evicted: usize,
    pub cancelled: usize,
}

impl Tally {
    fn note(&mut self, call: &Call, said: Said) {
        match said {
            Said::Reply(reply) => {
                self.refused += usize::from(reply.kind == REFUSED && reply.number == 15);
                self.clashed += usize::from(reply.clashed == 1);
                match call {
                    Call::Evict(..) => self.evicted += usize::from(reply.kind == DONE),
                    Call::Cancel(..) => self.cancelled += usize::from(reply.kind == DONE),
                    _ => {}
                }
            }
            Said::Held(Counts { number: 15, .. }) => self.refused += 1,
            _ => {}
        }
    }
}

/// The tally, or what differs.
pub fn agree(seed: u64) -> Result<Tally, String> {
    let mut random = Random::new(seed);
    let mut tally = Tally::default();
    for _ in 0..SEQUENCES {
        let top = random.one_of(&[20, 90, 255]);
        let mut block = random.bytes(BLOCK_BYTES);
        both(&Call::Open(seeded::shares(&mut random)), &mut block)?;
        for tenant in 1..=16 {
            let amount = random.one_of(&[0, 30, 400, 1_000_000]);
            both(&Call::Grant(tenant, amount), &mut block)?;
        }
        tally.plain += 17;
        for _ in 0..CALLS {
            if random.chance(40) {
                let mut damaged = block.clone();
                seeded::damage(&mut random, &mut damaged);
                both(&Call::Sound, &mut damaged)?;
                both(&Call::Held, &mut damaged)?;
                let call = if random.chance(2) {
                    Call::Open(seeded::shares(&mut random))
                } else {
                    seeded::call(&mut random, &damaged, top)
                };
                tally.note(&call, both(&call, &mut damaged)?);
                tally.damaged += 1;
            }
            let call = seeded::call(&mut random, &block, top);
            tally.note(&call, both(&call, &mut block)?);
            tally.plain += 1;
        }
    }
    Ok(tally)
}

/// Makes a call on both; they must agree.
fn both(call: &Call, block: &mut Vec<u8>) -> Result<Said, String> {
    let before = block.clone();
    let mut other = block.clone();
    let linked = LINKED.make(call, block);
    let by_hand = BY_HAND.make(call, &mut other);
    if linked != by_hand {
        return Err(format!(
            "{:?} answers {:?} linked and {:?} by hand, on the block {:02x?}",
            call, linked, by_hand, before
        ));
    }
    if *block != other {
        let at = (0..other.len()).find(|&at| block[at] != other[at]);
        return Err(format!(
            "after {:?} byte {:?} differs, on the block {:02x?}",
            call, at, before
        ));
    }
    Ok(linked)
}
