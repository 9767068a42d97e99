//! The kinds of generated block case. A case sets a block, makes one call on it,
//! asks how many records are held then and shows the block, in the text of
//! `blocklines`.

use crate::aim::{aimed, open};
use crate::back::{numbers, record_line};
use crate::blocklines::block_line;
use crate::breaks::{another, unused_bytes, BREAKS};
use crate::clashscenes::CLASHES;
use crate::compose::{composed, composed_of, reached, PLACES};
use crate::random::Random;
use crate::scenes::{Scene, SCENES};
use crate::stuckscenes::LEAVINGS;
use crate::text::Call;
use second::block::{self, BYTES};
use second::table::TENANTS;
use second::{Event, Table};
use std::io::{self, Write};

/// The cases of a file unless another number is asked for: 68 changed blocks
/// and 34 sound ones where every third is sound.
pub const CASES: usize = 102;

/// How many positions of the block the kind `bytes` goes through in a file of
/// `CASES`: 32 seeds go through all 2,176.
const POSITIONS: u64 = 68;

#[derive(Clone, Copy, Debug, PartialEq, Eq)]
pub enum BlockKind {
    Reached,
    Composed,
    Full,
    Refusals,
    Broken,
    Bytes,
    Unused,
    Lengths,
    Random,
    Open,
    Clash,
    Stuck,
}

/// In this order: a kind's place goes into its random numbers, so a new kind
/// joins at the end.
pub const BLOCK_KINDS: [(&str, BlockKind); 12] = [
    ("reached", BlockKind::Reached),
    ("composed", BlockKind::Composed),
    ("full", BlockKind::Full),
    ("refusals", BlockKind::Refusals),
    ("broken", BlockKind::Broken),
    ("bytes", BlockKind::Bytes),
    ("unused", BlockKind::Unused),
    ("lengths", BlockKind::Lengths),
    ("random", BlockKind::Random),
    ("open", BlockKind::Open),
    ("clash", BlockKind::Clash),
    ("stuck", BlockKind::Stuck),
];

impl BlockKind {
    pub fn named(name: &str) -> Option<BlockKind> {
        let found = BLOCK_KINDS.iter().find(|(known, _)| *known == name);
        found.map(|(_, kind)| *kind)
    }

    /// All names, for messages.
    pub fn names() -> String {
        let names: Vec<&str> = BLOCK_KINDS.iter().map(|(name, _)| *name).collect();
        names.join(", ")
    }
}

/// What the maker of a case knows about its block.
#[derive(Clone, Copy, Debug, PartialEq, Eq)]
pub enum Made {
    Sound,
    /// It breaks this clause of `second::block::CLAUSES` first.
    Breaking(usize),
    /// It was changed at random, and may be sound or not.
    Anyhow,
}

pub struct Case {
    /// For the comment above the case.
    pub what: String,
    pub made: Made,
    pub block: Vec<u8>,
    pub call: Call,
    /// The refusal that the call was made for, 0 for none, if it was made for
    /// one.
    pub refusal: Option<u8>,
}

/// The cases of a seed and a kind, without end: the same on every machine.
pub struct Cases {
    kind: BlockKind,
    seed: u64,
    random: Random,
    /// The cases given so far.
    given: u64,
    /// Those of them whose block was not left sound.
    spoilt: u64,
}

/// The text of so many cases.
pub fn write_cases(
    seed: u64,
    kind: BlockKind,
    count: usize,
    out: &mut impl Write,
) -> io::Result<()> {
    for (before, case) in Cases::new(seed, kind).take(count).enumerate() {
        writeln!(out, "# case {}: {}", before + 1, case.what)?;
        writeln!(out, "{}", block_line(&case.block))?;
        writeln!(out, "{}", call_line(&case.call))?;
        writeln!(out, "held\nshow")?;
    }
    Ok(())
}

/// As `blocklines` reads it.
pub fn call_line(call: &Call) -> String {
    match call.event() {
        Event::Open { shares } if shares.len() != TENANTS => {
            format!("open exactly{}", numbers(shares))
        }
        event => record_line(event),
    }
}

impl Iterator for Cases {
    type Item = Case;

    fn next(&mut self) -> Option<Case> {
        let case = self.case();
        self.given += 1;
        if case.made != Made::Sound {
            self.spoilt += 1;
        }
        Some(case)
    }
}

impl Cases {
    pub fn new(seed: u64, kind: BlockKind) -> Cases {
        Cases {
            kind,
            seed,
            random: Random::new(seed ^ ((kind as u64 + 65) << 56)),
            given: 0,
            spoilt: 0,
        }
    }

    fn case(&mut self) -> Case {
        let every_third = self.given % 3 == 2;
        let random = &mut self.random;
        match self.kind {
            BlockKind::Reached => sound("reached by calls", random, reached),
            BlockKind::Composed => sound("put together", random, composed),
            BlockKind::Full => sound("a full queue", random, full),
            BlockKind::Refusals => self.scene(),
            BlockKind::Open => self.open(),
            BlockKind::Clash => self.clash(),
            BlockKind::Stuck => self.stuck(),
            BlockKind::Bytes if every_third => sound("a full queue", random, full),
            BlockKind::Lengths | BlockKind::Random if every_third => {
                sound("reached by calls", random, reached)
            }
            _ if every_third => sound("put together", random, composed),
            BlockKind::Broken => self.broken(),
            BlockKind::Bytes => self.byte(),
            BlockKind::Unused => self.unused(),
            BlockKind::Lengths => self.length(),
            BlockKind::Random => self.random(),
        }
    }

    /// The scenes in turn.
    fn scene(&mut self) -> Case {
        let (number, what, scene) = SCENES[self.turn(SCENES.len())];
        self.played(number, what, scene)
    }

    /// The scenes of clashes in turn.
    fn clash(&mut self) -> Case {
        let (what, scene) = CLASHES[self.turn(CLASHES.len())];
        self.played(0, what, scene)
    }

    /// The scenes of what is taken out, in turn.
    fn stuck(&mut self) -> Case {
        let (what, scene) = LEAVINGS[self.turn(LEAVINGS.len())];
        self.played(0, what, scene)
    }

    /// Whose turn it is of so many.
    fn turn(&self, count: usize) -> usize {
        (self.seed.wrapping_add(self.given) % count as u64) as usize
    }

    /// A scene on a state that has a place for it.
    fn played(&mut self, number: u8, what: &str, scene: Scene) -> Case {
        loop {
            let mut table = any_state(&mut self.random);
            if let Some(call) = scene(&mut self.random, &mut table) {
                return Case {
                    what: String::from(what),
                    made: Made::Sound,
                    block: block::write(&table),
                    call,
                    refusal: Some(number),
                };
            }
        }
    }

    /// The breaks in turn, with a call that would do something on the block as
    /// it was before.
    fn broken(&mut self) -> Case {
        let turn = self.seed.wrapping_mul(POSITIONS).wrapping_add(self.spoilt);
        let (clause, what, breaks) = BREAKS[(turn % BREAKS.len() as u64) as usize];
        loop {
            let table = any_state(&mut self.random);
            let broken = breaks(&mut self.random, &mut table.clone());
            if let Some(block) = broken {
                return Case {
                    what: String::from(what),
                    made: Made::Breaking(clause),
                    block,
                    call: aimed(&mut self.random, &table),
                    refusal: None,
                };
            }
        }
    }

    /// One byte of a full block, the positions in turn.
    fn byte(&mut self) -> Case {
        let turn = self.seed.wrapping_mul(POSITIONS).wrapping_add(self.spoilt);
        let at = (turn % BYTES as u64) as usize;
        let table = full(&mut self.random);
        let mut block = block::write(&table);
        block[at] = another(&mut self.random, block[at]);
        self.anyhow(format!("byte {} changed", at), block, &table)
    }

    /// One unused byte, or several.
    fn unused(&mut self) -> Case {
        let mut table = composed(&mut self.random);
        while unused_bytes(&table).is_empty() {
            table = composed(&mut self.random);
        }
        let mut block = block::write(&table);
        for _ in 0..self.random.one_of(&[1, 1, 1, 2, 20]) {
            let at = self.random.one_of(&unused_bytes(&table));
            block[at] = self.random.one_of(&[1, 2, 128, 255]);
        }
        Case {
            made: Made::Breaking(1),
            ..self.anyhow(String::from("unused bytes changed"), block, &table)
        }
    }

    /// A sound block cut short or made longer.
    fn length(&mut self) -> Case {
        let table = any_state(&mut self.random);
        let mut block = block::write(&table);
        let any = self.random.below(BYTES);
        let lengths = [
            0, 1, 2, 3, 19, 636, 640, 2_174, 2_175, 2_177, 2_178, 2_200, 4_352, 65_536, any,
        ];
        let turn = self.seed.wrapping_add(self.spoilt) % lengths.len() as u64;
        let length = lengths[turn as usize];
        let fill = self.random.one_of(&[0, 0, 0x11, 255]);
        block.resize(length, fill);
        let case = self.anyhow(format!("{} bytes", length), block, &table);
        Case {
            made: Made::Breaking(1),
            call: self.or_open(case.call, 33),
            ..case
        }
    }

    /// Bytes at random, from all of them to a few, and some that look like
    /// entries.
    fn random(&mut self) -> Case {
        let random = &mut self.random;
        let table = any_state(random);
        let mut block = block::write(&table);
        let what = match random.below(6) {
            0 => {
                block = random.bytes(BYTES);
                "random bytes"
            }
            1 => {
                block = vec![random.one_of(&[0, 1, 17, 255]); BYTES];
                "all bytes the same"
            }
            2 => {
                let bodies = [(3, 16), (22, 96), (121, 256), (380, 256), (639, 1_537)];
                for (start, length) in bodies {
                    block[start..start + length].copy_from_slice(&random.bytes(length));
                }
                "random behind right heads"
            }
            3 => {
                let length = random.one_of(&[2, 4, 24, 100]);
                let start = random.below(BYTES - length);
                block[start..start + length].copy_from_slice(&random.bytes(length));
                "a stretch of random bytes"
            }
            4 => {
                for _ in 0..random.between(1, 4) {
                    let at = random.below(BYTES);
                    block[at] = random.byte();
                }
                "a few random bytes"
            }
            _ => {
                likely_entries(random, &mut block);
                "random bytes that look like entries"
            }
        };
        self.anyhow(String::from(what), block, &table)
    }

    /// Open over a block of any kind.
    fn open(&mut self) -> Case {
        let others = [
            BlockKind::Reached,
            BlockKind::Composed,
            BlockKind::Full,
            BlockKind::Broken,
            BlockKind::Lengths,
            BlockKind::Random,
        ];
        let kind = self.random.one_of(&others);
        let below = Cases::new(self.random.draw(), kind).next();
        let below = below.expect("cases are without end");
        Case {
            what: format!("open over: {}", below.what),
            call: open(&mut self.random),
            refusal: None,
            ..below
        }
    }

    /// A block of which nothing is known, with a call aimed at this state.
    fn anyhow(&mut self, what: String, block: Vec<u8>, table: &Table) -> Case {
        Case {
            what,
            made: Made::Anyhow,
            block,
            call: aimed(&mut self.random, table),
            refusal: None,
        }
    }

    fn or_open(&mut self, call: Call, in_a_hundred: usize) -> Call {
        if self.random.chance(in_a_hundred) {
            open(&mut self.random)
        } else {
            call
        }
    }
}

fn sound(what: &str, random: &mut Random, state: fn(&mut Random) -> Table) -> Case {
    let table = state(random);
    Case {
        what: String::from(what),
        made: Made::Sound,
        block: block::write(&table),
        call: aimed(random, &table),
        refusal: None,
    }
}

fn full(random: &mut Random) -> Table {
    composed_of(random, PLACES)
}

fn any_state(random: &mut Random) -> Table {
    match random.below(6) {
        0 => reached(random),
        1 => full(random),
        _ => composed(random),
    }
}

/// A few entries of small numbers with no records, so that not all of them are
/// unsound: shares of 4 each and no counters to get right.
fn likely_entries(random: &mut Random, block: &mut [u8]) {
    block.copy_from_slice(&block::write(&Table::default()));
    block[3..19].fill(4);
    for tenant in 0..TENANTS {
        block[22 + 6 * tenant + 5] = random.byte_between(2, 9);
    }
    let count = random.between(0, 3);
    block[639] = count as u8;
    for at in 0..count {
        let awaited = random.byte_between(0, 2);
        let entry = [
            random.byte_between(1, 16),
            0,
            random.byte_between(1, 4),
            random.byte_between(0, 1),
            awaited,
            random.byte_between(0, awaited),
        ];
        block[640 + 24 * at..640 + 24 * at + 6].copy_from_slice(&entry);
    }
}
