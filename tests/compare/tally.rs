//! What was generated: answers, violations alone and in pairs, and what turned out other than claimed.

use crate::damage::KINDS;
use crate::rearrange::{exchange, Rearranged};
use crate::violations::Violation;
use reference::layout::Broken;
use std::collections::{BTreeMap, BTreeSet};

#[derive(Default)]
pub struct Tally {
    /// How often each answer 0 to 9 occurred, and last "bad".
    pub answers: [usize; 11],
    /// How often each other call of `trace` occurred.
    pub calls: BTreeMap<&'static str, usize>,
    /// How often a layout broke in each kind of structure (`damage::KINDS`).
    pub breaks: BTreeMap<&'static str, usize>,
    /// How often accepted frames met the limits (`limits::MET`).
    pub limits: BTreeMap<&'static str, usize>,
    /// How often lifetimes mattered (`lives::MET`).
    pub lives: BTreeMap<&'static str, usize>,
    /// How often the path mattered (`paths::MET`).
    pub paths: BTreeMap<&'static str, usize>,
    /// How often fresh tree keys mattered (`fresh::MET`).
    pub fresh: BTreeMap<&'static str, usize>,
    /// How often sealed frames came to what they must (`sealed::MET`, `sealed::BREAKS`).
    pub sealed: BTreeMap<&'static str, usize>,
    /// How often fragments came to what they must (`fragments::MET`, `fragments::ORDERS`, `broken_fragments::BREAKS`).
    pub fragments: BTreeMap<&'static str, usize>,
    pub alone: BTreeMap<&'static str, usize>,
    pub paired: BTreeMap<&'static str, usize>,
    pub pairs: BTreeSet<(&'static str, &'static str)>,
    /// Pairs that gave the lower number of the two.
    pub pairs_as_lower: usize,
    pub pairs_done: usize,
    /// How often a frame of an exchange and number was handed in in another order that really moved something.
    pub orders: BTreeMap<(&'static str, u8), usize>,
    /// How often each of `rearrange::MOVED` was moved.
    pub moves: BTreeMap<&'static str, usize>,
    /// How many frames were handed in in another order, those among them that stayed as they were.
    pub rearranged: usize,
    pub unmoved: usize,
    pub complaints: Vec<String>,
}

impl Tally {
    pub fn answer(&mut self, answer: Option<u8>) {
        self.answers[answer.unwrap_or(10) as usize] += 1;
    }

    pub fn call(&mut self, call: &'static str) {
        *self.calls.entry(call).or_default() += 1;
    }

    pub fn broken(&mut self, broken: Broken) {
        for (name, _) in KINDS.iter().filter(|(_, kind)| *kind == broken.kind) {
            *self.breaks.entry(name).or_default() += 1;
        }
    }

    pub fn limit(&mut self, name: &'static str) {
        *self.limits.entry(name).or_default() += 1;
    }

    pub fn life(&mut self, name: &'static str) {
        *self.lives.entry(name).or_default() += 1;
    }

    pub fn path(&mut self, name: &'static str) {
        *self.paths.entry(name).or_default() += 1;
    }

    pub fn fresh(&mut self, name: &'static str) {
        *self.fresh.entry(name).or_default() += 1;
    }

    pub fn sealed(&mut self, name: &'static str) {
        *self.sealed.entry(name).or_default() += 1;
    }

    pub fn fragment(&mut self, name: &'static str) {
        *self.fragments.entry(name).or_default() += 1;
    }

    pub fn alone(&mut self, name: &'static str) {
        *self.alone.entry(name).or_default() += 1;
    }

    pub fn pair(&mut self, a: &'static Violation, b: &'static Violation, answer: u8) {
        *self.paired.entry(a.name).or_default() += 1;
        *self.paired.entry(b.name).or_default() += 1;
        self.pairs.insert((a.name, b.name));
        self.pairs_done += 1;
        self.pairs_as_lower += (answer == a.number.min(b.number)) as usize;
    }

    pub fn rearranged(&mut self, frame: &[u8], number: u8, other: &Rearranged) {
        self.rearranged += 1;
        self.unmoved += (frame == other.octets) as usize;
        other.moved.iter().for_each(|what| *self.moves.entry(what).or_default() += 1);
        if let Some(exchange) = exchange(frame).filter(|_| frame != other.octets) {
            *self.orders.entry((exchange, number)).or_default() += 1;
        }
    }

    pub fn complain(&mut self, complaint: String) {
        self.complaints.push(complaint);
    }
}
