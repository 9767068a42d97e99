//! The kinds of generated file.

use crate::boundary::boundary;
use crate::clash::clash;
use crate::damaged::damaged;
use crate::early::early;
use crate::load::{deep, mixed, remote, scarce};
use crate::overlap::overlap;
use crate::random::Random;
use crate::refusals::refusals;
use crate::stuck::stuck;
use crate::worst::worst;

#[derive(Clone, Copy, Debug, PartialEq, Eq)]
pub enum Kind {
    Mixed,
    Deep,
    Scarce,
    Remote,
    Refusals,
    Worst,
    Damaged,
    Boundary,
    Early,
    Overlap,
    Clash,
    Stuck,
}

/// In this order: a kind's place goes into its random numbers, so a new kind
/// joins at the end.
pub const KINDS: [(&str, Kind); 12] = [
    ("mixed", Kind::Mixed),
    ("deep", Kind::Deep),
    ("scarce", Kind::Scarce),
    ("remote", Kind::Remote),
    ("refusals", Kind::Refusals),
    ("worst", Kind::Worst),
    ("damaged", Kind::Damaged),
    ("boundary", Kind::Boundary),
    ("early", Kind::Early),
    ("overlap", Kind::Overlap),
    ("clash", Kind::Clash),
    ("stuck", Kind::Stuck),
];

impl Kind {
    pub fn named(name: &str) -> Option<Kind> {
        let found = KINDS.iter().find(|(known, _)| *known == name);
        found.map(|(_, kind)| *kind)
    }

    /// All names, for messages.
    pub fn names() -> String {
        let names: Vec<&str> = KINDS.iter().map(|(name, _)| *name).collect();
        names.join(", ")
    }
}

/// The event file of a seed and a kind: the same bytes on every machine. The
/// loads are steered by the state of `second`, so where a rule changes there,
/// the files that meet it change with it.
pub fn generate(seed: u64, kind: Kind) -> Vec<u8> {
    let mut random = Random::new(seed ^ ((kind as u64 + 1) << 56));
    match kind {
        Kind::Mixed => mixed(&mut random),
        Kind::Deep => deep(&mut random),
        Kind::Scarce => scarce(&mut random),
        Kind::Remote => remote(&mut random),
        Kind::Refusals => refusals(&mut random),
        Kind::Worst => worst(&mut random),
        Kind::Damaged => damaged(&mut random),
        Kind::Boundary => boundary(seed, &mut random),
        Kind::Early => early(&mut random),
        Kind::Overlap => overlap(&mut random),
        Kind::Clash => clash(&mut random),
        Kind::Stuck => stuck(&mut random),
    }
}
