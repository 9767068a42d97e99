//! The calls.

use crate::linked;
use crate::outcome::{Held, Outcome};
use crate::refusal::Refusal;

/// The bytes of a block.
pub const BLOCK_LENGTH: usize = 2176;

/// The number of tenants, and so of shares.
pub const TENANTS: usize = 16;

/// Whether these bytes are a sound block, as [`Locks::is_sound`], of a block
/// that is only lent to be read.
///
/// ```
/// assert!(!damsonpouch::is_sound(&[0; damsonpouch::BLOCK_LENGTH]));
/// ```
pub fn is_sound(block: &[u8]) -> bool {
    linked::sound(block)
}

/// How many records are held, as [`Locks::held`], of a block that is only lent to
/// be read.
///
/// # Panics
///
/// Where another archive was linked, as the calls of [`Locks`].
///
/// # Example
///
/// ```
/// use damsonpouch::{Refusal, BLOCK_LENGTH};
///
/// assert_eq!(damsonpouch::held(&[0; BLOCK_LENGTH]), Err(Refusal::NotSound));
/// ```
pub fn held(block: &[u8]) -> Result<Held, Refusal> {
    Held::of(linked::held(block))
}

/// The lock manager over a block that the host lends: ten calls, a check, and a
/// count of the records held.
///
/// The block is the whole state. A call reads it, checks that it is
/// [sound](Locks::is_sound), does what the call does, and writes it back;
/// nothing is kept elsewhere. So a block may be copied, stored, sent and lent
/// again at any time between two calls. Every call takes any bytes, any length
/// of the block and any numbers, and answers; none of them allocates or blocks.
///
/// # Panics
///
/// The ten calls and [`held`](Locks::held) panic where the archive hands back a
/// reply that this crate does not know: another archive was linked than the one
/// that the crate was written for, which hands back none. The message says so.
/// By then the call has been made, and the block is as that archive left it.
/// [`over`](Locks::over), [`block`](Locks::block) and
/// [`is_sound`](Locks::is_sound) do not panic.
///
/// # Example
///
/// ```
/// use damsonpouch::{Locks, Refusal, BLOCK_LENGTH};
///
/// # fn main() -> Result<(), Refusal> {
/// let mut block = [0; BLOCK_LENGTH];
/// let mut locks = Locks::over(&mut block);
/// locks.open(&[2, 2, 0, 0, 0, 0, 0, 0, 0, 0, 0, 0, 0, 0, 0, 0]).answer?;
/// locks.grant(1, 40).answer?;
/// locks.grant(2, 40).answer?;
/// assert_eq!(locks.begin(1, 0, &[], &[10]).to_string(), "free:1.1 4");
/// assert_eq!(locks.begin(2, 0, &[], &[10, 12]).to_string(), "blocked:2.1@10 6");
/// assert_eq!(locks.finish(1, 1).to_string(), "done 0");
/// assert_eq!(locks.scan(2).to_string(), "free:2.1 4");
/// # Ok(())
/// # }
/// ```
#[derive(Debug)]
pub struct Locks<'a> {
    block: &'a mut [u8],
}

impl<'a> Locks<'a> {
    /// The manager over these bytes. They are neither read nor written yet, and
    /// may be anything: a new block is made by [`open`](Locks::open), and one
    /// that was used before is taken as it is. Where they are not
    /// [`BLOCK_LENGTH`], every call is refused with
    /// [`NotSound`](crate::Refusal::NotSound).
    ///
    /// ```
    /// use damsonpouch::{Locks, Refusal};
    ///
    /// let mut short = [7; 100];
    /// assert_eq!(Locks::over(&mut short).pick().answer, Err(Refusal::NotSound));
    /// assert_eq!(short, [7; 100]);
    /// ```
    pub fn over(block: &'a mut [u8]) -> Locks<'a> {
        Locks { block }
    }

    /// The bytes, to be copied or looked at. `docs/HOST.md` has their layout.
    ///
    /// ```
    /// use damsonpouch::{Locks, BLOCK_LENGTH};
    ///
    /// let mut block = [0; BLOCK_LENGTH];
    /// let mut locks = Locks::over(&mut block);
    /// assert!(locks.open(&[4; 16]).answer.is_ok());
    /// assert_eq!(locks.block()[..4], [0x11, 0, 16, 4]);
    /// ```
    pub fn block(&self) -> &[u8] {
        self.block
    }

    /// Whether the block is sound: what [`open`](Locks::open) makes, what every
    /// call keeps, and what every call but Open asks for. A host need not ask,
    /// since the calls do.
    ///
    /// ```
    /// use damsonpouch::{Locks, BLOCK_LENGTH};
    ///
    /// let mut block = [0; BLOCK_LENGTH];
    /// let mut locks = Locks::over(&mut block);
    /// assert!(!locks.is_sound());
    /// assert!(locks.open(&[4; 16]).answer.is_ok());
    /// assert!(locks.is_sound());
    /// ```
    pub fn is_sound(&self) -> bool {
        is_sound(self.block)
    }

    /// A host call: how many records are held by the entries in the queue. It
    /// burns nothing and changes nothing, and is no call of an event file.
    ///
    /// Refusals: 15.
    ///
    /// ```
    /// # let mut block = [0; damsonpouch::BLOCK_LENGTH];
    /// # let mut locks = damsonpouch::Locks::over(&mut block);
    /// # let _ = locks.open(&[4; 16]);
    /// # let _ = locks.grant(1, 40);
    /// # let _ = locks.grant(2, 40);
    /// use damsonpouch::Held;
    ///
    /// assert_eq!(locks.begin(1, 0, &[3, 5], &[10]).to_string(), "free:1.1 8");
    /// assert_eq!(locks.begin(2, 0, &[3], &[5]).to_string(), "blocked:2.1@5 6");
    /// // 5 and 10 are written, 3 and 5 are read
    /// let held = Held { written: 2, read: 2, either: 3 };
    /// assert_eq!(locks.held(), Ok(held));
    /// // 2.1 still reads 3 and writes 5
    /// assert_eq!(locks.finish(1, 1).to_string(), "done 0");
    /// assert_eq!(locks.held(), Ok(Held { written: 1, read: 1, either: 2 }));
    /// ```
    pub fn held(&self) -> Result<Held, Refusal> {
        held(self.block)
    }

    /// A host call: overwrites any block of the right length with a fresh
    /// state, in which tenant t has `shares[t - 1]` of the 64 queue places, no
    /// fuel, and no serial given.
    ///
    /// Refusals: [`NotSound`](crate::Refusal::NotSound) for a wrong length
    /// alone; [`BadShares`](crate::Refusal::BadShares), which leaves a fresh
    /// state with every share 0.
    ///
    /// ```
    /// use damsonpouch::{Answer, Locks, Refusal, BLOCK_LENGTH};
    ///
    /// let mut block = [0xa5; BLOCK_LENGTH];
    /// let mut locks = Locks::over(&mut block);
    /// assert_eq!(locks.open(&[4; 16]).answer, Ok(Answer::Ok));
    /// assert_eq!(locks.open(&[5; 16]).answer, Err(Refusal::BadShares));
    /// assert!(locks.is_sound());
    /// ```
    pub fn open(&mut self, shares: &[u8]) -> Outcome {
        linked::open(self.block, shares).into()
    }

    /// A host call: adds fuel to a tenant's.
    ///
    /// Refusals, in this order: 15, 1, 13.
    ///
    /// ```
    /// # let mut block = [0; damsonpouch::BLOCK_LENGTH];
    /// # let mut locks = damsonpouch::Locks::over(&mut block);
    /// # let _ = locks.open(&[4; 16]);
    /// use damsonpouch::{Answer, Refusal};
    ///
    /// assert_eq!(locks.grant(1, 1_000_000_000).answer, Ok(Answer::Ok));
    /// assert_eq!(locks.grant(1, 1).answer, Err(Refusal::TooMuchFuel));
    /// assert_eq!(locks.grant(17, 1).answer, Err(Refusal::NoSuchTenant));
    /// ```
    pub fn grant(&mut self, tenant: u8, amount: u32) -> Outcome {
        linked::grant(self.block, tenant, amount).into()
    }

    /// A tenant's call: asks for all locks of a request at once, which joins
    /// the back of the queue. It burns 2 + 2n for n records, reads and writes
    /// together. `awaited` is the number of remote answers that the request
    /// waits for.
    ///
    /// A record may stand in both lists. It then counts as written only, and
    /// once in n: the entry has it among its writes alone. Each list has at most
    /// 8 records as given, and must strictly rise once the written ones are
    /// taken out of the reads.
    ///
    /// The answer is the new entry: Blocked if it conflicts with an entry
    /// ahead, else Waiting if it awaits answers, and else Free. One that is
    /// Blocked tells the lowest record that it clashed on, its
    /// [`clash`](crate::Answer::clash). Refusals, in this order: 15, 1 to 9; of
    /// these 5 is no longer given.
    ///
    /// ```
    /// # let mut block = [0; damsonpouch::BLOCK_LENGTH];
    /// # let mut locks = damsonpouch::Locks::over(&mut block);
    /// # let _ = locks.open(&[4; 16]);
    /// # let _ = locks.grant(1, 40);
    /// use damsonpouch::{Answer, State};
    ///
    /// let begun = locks.begin(1, 0, &[3, 5], &[10]);
    /// let free = Answer::Entry { state: State::Free, tenant: 1, serial: 1, clash: None };
    /// assert_eq!(begun.answer, Ok(free));
    /// assert_eq!(begun.burnt, 8);
    /// assert_eq!(locks.begin(1, 2, &[7], &[]).to_string(), "waiting:1.2 4");
    /// assert_eq!(locks.begin(1, 0, &[10], &[]).to_string(), "blocked:1.3@10 4");
    /// // reads the stock, record 20, and writes it back: one record
    /// assert_eq!(locks.begin(1, 0, &[20], &[20]).to_string(), "free:1.4 4");
    /// assert_eq!(locks.begin(1, 0, &[], &[20, 20]).to_string(), "refused:4 1");
    /// ```
    pub fn begin(&mut self, tenant: u8, awaited: u8, reads: &[u8], writes: &[u8]) -> Outcome {
        linked::begin(self.block, tenant, awaited, reads, writes).into()
    }

    /// A tenant's call: a Free entry leaves the queue. It burns 0, so that a
    /// tenant without fuel can let go.
    ///
    /// Refusals, in this order: 15, 1; then a Free entry leaves; 2, 10, 11.
    ///
    /// ```
    /// # let mut block = [0; damsonpouch::BLOCK_LENGTH];
    /// # let mut locks = damsonpouch::Locks::over(&mut block);
    /// # let _ = locks.open(&[4; 16]);
    /// # let _ = locks.grant(1, 40);
    /// # let _ = locks.begin(1, 0, &[], &[10]);
    /// assert_eq!(locks.finish(1, 1).to_string(), "done 0");
    /// assert_eq!(locks.finish(1, 1).to_string(), "refused:10 1");
    /// ```
    pub fn finish(&mut self, tenant: u8, serial: u16) -> Outcome {
        linked::finish(self.block, tenant, serial).into()
    }

    /// A tenant's call: promotes a Blocked entry if no other entry conflicts
    /// with it, ahead or behind, and else answers Still. It burns 1 + n.
    ///
    /// Refusals, in this order: 15, 1, 2, 10, 11, 9.
    ///
    /// ```
    /// # let mut block = [0; damsonpouch::BLOCK_LENGTH];
    /// # let mut locks = damsonpouch::Locks::over(&mut block);
    /// # let _ = locks.open(&[4; 16]);
    /// # let _ = locks.grant(1, 40);
    /// # let _ = locks.begin(1, 0, &[], &[10]);
    /// assert_eq!(locks.begin(1, 0, &[10], &[]).to_string(), "blocked:1.2@10 4");
    /// assert_eq!(locks.recheck(1, 2).to_string(), "still 2");
    /// assert_eq!(locks.finish(1, 1).to_string(), "done 0");
    /// assert_eq!(locks.recheck(1, 2).to_string(), "free:1.2 2");
    /// ```
    pub fn recheck(&mut self, tenant: u8, serial: u16) -> Outcome {
        linked::recheck(self.block, tenant, serial).into()
    }

    /// A tenant's call: promotes the tenant's first Blocked entry that
    /// conflicts with none ahead, and else answers Nothing. It burns 1, and 1 +
    /// n for each entry that it looks at: 1,089 at most.
    ///
    /// Refusals, in this order: 15, 1, 2; then 9 where the fuel is below the
    /// next entry's price.
    ///
    /// ```
    /// # let mut block = [0; damsonpouch::BLOCK_LENGTH];
    /// # let mut locks = damsonpouch::Locks::over(&mut block);
    /// # let _ = locks.open(&[4; 16]);
    /// # let _ = locks.grant(1, 40);
    /// # let _ = locks.begin(1, 0, &[], &[10]);
    /// assert_eq!(locks.begin(1, 0, &[10], &[]).to_string(), "blocked:1.2@10 4");
    /// assert_eq!(locks.scan(1).to_string(), "nothing 5");
    /// assert_eq!(locks.finish(1, 1).to_string(), "done 0");
    /// assert_eq!(locks.scan(1).to_string(), "free:1.2 3");
    /// ```
    pub fn scan(&mut self, tenant: u8) -> Outcome {
        linked::scan(self.block, tenant).into()
    }

    /// A host call: promotes the front of the queue if it is Blocked, and else
    /// answers Nothing.
    ///
    /// Refusals: 15.
    ///
    /// ```
    /// # let mut block = [0; damsonpouch::BLOCK_LENGTH];
    /// # let mut locks = damsonpouch::Locks::over(&mut block);
    /// # let _ = locks.open(&[4; 16]);
    /// # let _ = locks.grant(1, 40);
    /// # let _ = locks.begin(1, 0, &[], &[10]);
    /// # let _ = locks.begin(1, 0, &[10], &[]);
    /// assert_eq!(locks.pick().to_string(), "nothing 0");
    /// assert_eq!(locks.finish(1, 1).to_string(), "done 0");
    /// assert_eq!(locks.pick().to_string(), "free:1.2 0");
    /// ```
    pub fn pick(&mut self) -> Outcome {
        linked::pick(self.block).into()
    }

    /// A host call: one remote answer of an entry has come. A Waiting entry
    /// with none left due becomes Free; a Blocked one stays Blocked until it is
    /// promoted.
    ///
    /// Refusals, in this order: 15, 1, 10, 12.
    ///
    /// ```
    /// # let mut block = [0; damsonpouch::BLOCK_LENGTH];
    /// # let mut locks = damsonpouch::Locks::over(&mut block);
    /// # let _ = locks.open(&[4; 16]);
    /// # let _ = locks.grant(1, 40);
    /// assert_eq!(locks.begin(1, 2, &[], &[10]).to_string(), "waiting:1.1 4");
    /// assert_eq!(locks.begin(1, 1, &[10], &[]).to_string(), "blocked:1.2@10 4");
    /// assert_eq!(locks.deliver(1, 1).to_string(), "waiting:1.1 0");
    /// assert_eq!(locks.deliver(1, 1).to_string(), "free:1.1 0");
    /// assert_eq!(locks.deliver(1, 1).to_string(), "refused:12 0");
    /// assert_eq!(locks.deliver(1, 2).to_string(), "blocked:1.2 0");
    /// assert_eq!(locks.finish(1, 1).to_string(), "done 0");
    /// assert_eq!(locks.pick().to_string(), "free:1.2 0");
    /// ```
    pub fn deliver(&mut self, tenant: u8, serial: u16) -> Outcome {
        linked::deliver(self.block, tenant, serial).into()
    }

    /// A host call: takes an entry out, in whatever state it is, as one whose
    /// plugin hung with its lock held. The host has undone the entry's writes
    /// before: no call undoes any.
    ///
    /// The entry leaves as by a [`finish`](Locks::finish): its counters fall,
    /// its place is free, the others keep their order and their states. Nobody
    /// is promoted by it: those that waited for this entry find out by a
    /// [`recheck`](Locks::recheck), a [`scan`](Locks::scan) or a
    /// [`pick`](Locks::pick). It burns 0 and gives no fuel back, neither what
    /// the Begin burnt nor its part for the release, and the serial is not given
    /// again.
    ///
    /// Refusals, in this order: 15, 1, 10.
    ///
    /// ```
    /// # let mut block = [0; damsonpouch::BLOCK_LENGTH];
    /// # let mut locks = damsonpouch::Locks::over(&mut block);
    /// # let _ = locks.open(&[1; 16]);
    /// # let _ = locks.grant(1, 40);
    /// # let _ = locks.grant(2, 40);
    /// // the plugin of tenant 1 hangs; its writes are undone
    /// assert_eq!(locks.begin(1, 0, &[], &[10]).to_string(), "free:1.1 4");
    /// assert_eq!(locks.begin(2, 0, &[10], &[]).to_string(), "blocked:2.1@10 4");
    /// assert_eq!(locks.evict(1, 1).to_string(), "done 0");
    /// assert_eq!(locks.pick().to_string(), "free:2.1 0");
    /// // it wakes up, and is not in the queue any more
    /// assert_eq!(locks.finish(1, 1).to_string(), "refused:10 1");
    /// assert_eq!(locks.evict(1, 1).to_string(), "refused:10 0");
    /// assert_eq!(locks.begin(1, 0, &[], &[20]).to_string(), "free:1.2 4");
    /// ```
    pub fn evict(&mut self, tenant: u8, serial: u16) -> Outcome {
        linked::evict(self.block, tenant, serial).into()
    }

    /// A tenant's call: takes out an entry of its own that is Blocked, which
    /// then leaves as by a [`finish`](Locks::finish). It burns 1, and of what
    /// the Begin burnt nothing is given back.
    ///
    /// An entry that is Free is let go by a Finish, and one that is Waiting
    /// stays until its answers have come, or until the host
    /// [evicts](Locks::evict) it.
    ///
    /// Refusals, in this order: 15, 1, 2, 10, 11.
    ///
    /// ```
    /// # let mut block = [0; damsonpouch::BLOCK_LENGTH];
    /// # let mut locks = damsonpouch::Locks::over(&mut block);
    /// # let _ = locks.open(&[4; 16]);
    /// # let _ = locks.grant(1, 10);
    /// assert_eq!(locks.begin(1, 0, &[], &[10]).to_string(), "free:1.1 4");
    /// assert_eq!(locks.begin(1, 0, &[10], &[]).to_string(), "blocked:1.2@10 4");
    /// // of 10 units 2 are left: one goes for asking, one is the price
    /// assert_eq!(locks.cancel(1, 1).to_string(), "refused:11 1");
    /// assert_eq!(locks.cancel(1, 2).to_string(), "done 1");
    /// assert_eq!(locks.cancel(1, 2).to_string(), "refused:2 0");
    /// ```
    pub fn cancel(&mut self, tenant: u8, serial: u16) -> Outcome {
        linked::cancel(self.block, tenant, serial).into()
    }
}
