//! Frames that the member will accept, made from the state it is in.

use crate::case::Case;
use crate::limits::{Sizes, MOST_DELETED};
use crate::lives::borders;
use builder::rng::Rng;
use builder::typical::*;
use builder::wrapping::wrap;
use builder::{Attribute, Part, ESP, REKEY};
use reference::fragments::Collection;
use reference::member::{Member, Sa};

/// The member, the clock and the lent key at a place of a script.
pub struct Scene {
    pub rng: Rng,
    pub lent: Vec<u8>,
    pub member: Member,
    /// The fragments that the member waits with.
    pub kept: Collection,
    pub tick: u32,
    pub sizes: Sizes,
    /// The keys that came with the last registration, held or not.
    pub tree: Vec<(u32, Vec<u8>)>,
    /// How many of 100 policies have a lifetime.
    pub lives: usize,
}

/// What a frame is to have.
#[derive(Clone, Copy)]
pub struct Shape {
    pub rekey: bool,
    pub esp: usize,
    pub group_wide: bool,
    /// Keys of the tree, and entries beyond the one that each of them needs.
    pub keys: usize,
    pub further: usize,
    pub deletes: bool,
}

impl Scene {
    /// A frame of everything, so that everything can be violated.
    pub fn full_shape(&mut self) -> Shape {
        let (esp, keys, further) = (self.rng.between(1, 2), self.rng.between(2, 4), self.rng.below(3));
        Shape { rekey: true, esp, group_wide: true, keys, further, deletes: true }
    }

    pub fn any_shape(&mut self) -> Shape {
        let keys = self.rng.pick(self.sizes.keys);
        let further = if self.rng.chance(50) { 0 } else { self.rng.below(self.sizes.entries + 1 - keys) };
        let esp = self.rng.pick(self.sizes.esp);
        Shape {
            rekey: self.rng.chance(40) || esp == 0,
            esp,
            group_wide: self.rng.chance(60),
            keys,
            further,
            deletes: self.rng.chance(self.sizes.deletes),
        }
    }

    pub fn registration(&mut self, shape: Shape) -> Case {
        let exchange = self.rng.pick(&[GSA_AUTH, GSA_REGISTRATION]);
        let (any_spis, any_id) = (self.rng.octets(16), self.rng.number() as u32);
        let (spis, message_id) = (self.rng.pick(&[vec![0; 16], any_spis]), self.rng.pick(&[0, 1, any_id, u32::MAX]));
        let mut case = self.case(exchange, &spis, message_id, self.lent.clone(), Vec::new());
        if shape.keys > 0 {
            let entries = tree(&mut case, shape);
            case.bags().expect("KD").push(Part::unnamed(entries));
        }
        self.announce(&mut case, shape);
        if !shape.rekey {
            case.path = Some(Vec::new());
        } else if let Some((id, value)) = case.keys.last().cloned().filter(|_| self.rng.chance(50)) {
            case.only_copy(id, &value).expect("a Rekey SA");
        }
        case
    }

    /// A rekey over the live Rekey SA; None if there is none, if it has run out, or no Message ID is left.
    pub fn rekey(&mut self, shape: Shape) -> Option<Case> {
        let sa = self.member.live_rekey().filter(|sa| !sa.is_due(self.tick))?.clone();
        self.rekey_over(&sa, shape)
    }

    /// A rekey over this Rekey SA.
    pub fn rekey_over(&mut self, sa: &Sa, shape: Shape) -> Option<Case> {
        let message_id = self.member.least_id?;
        let mut case = self.case(GSA_REKEY, &sa.spi, message_id, sa.default_key().to_vec(), self.member.held.clone());
        let room = self.sizes.sas.saturating_sub(self.member.table.iter().filter(|sa| !sa.is_due(self.tick)).count());
        let rekey = shape.rekey && room > 0;
        let esp = shape.esp.min(room - rekey as usize);
        if !rekey && esp == 0 {
            case.frame.payloads = vec![delete(&self.deleted())];
            return Some(case);
        }
        self.announce(&mut case, Shape { rekey, esp, ..shape });
        if shape.deletes {
            case.insert(delete(&self.deleted()));
        }
        Some(case)
    }

    /// A rekey over the member's own channel; None if the member is empty, or has no room.
    pub fn inband(&mut self, shape: Shape) -> Option<Case> {
        let room = self.sizes.sas.saturating_sub(self.member.table.iter().filter(|sa| !sa.is_due(self.tick)).count());
        let rekey = shape.rekey && room > 0;
        let esp = shape.esp.min(room - rekey as usize);
        if self.member.is_empty(self.tick) || !rekey && esp == 0 {
            return None;
        }
        let (any_spis, any_id) = (self.rng.octets(16), self.rng.number() as u32);
        let (spis, message_id) = (self.rng.pick(&[vec![0; 16], any_spis]), self.rng.pick(&[0, 1, any_id, u32::MAX]));
        let mut case = self.case(GSA_INBAND_REKEY, &spis, message_id, self.lent.clone(), Vec::new());
        self.announce(&mut case, Shape { rekey, esp, ..shape });
        Some(case)
    }

    fn case(&mut self, exchange: u8, spis: &[u8], message_id: u32, key0: Vec<u8>, keys: Vec<(u32, Vec<u8>)>) -> Case {
        let rng = Rng::new(self.rng.number());
        let frame = frame(exchange, spis, message_id, vec![gsa(vec![]), kd(vec![])]);
        let (member, tick) = (self.member.clone(), self.tick);
        let off_path = self.tree.iter().filter(|key| !member.held.contains(key)).cloned().collect();
        Case { rng, frame, key0, keys, sa_keys: Vec::new(), path: None, off_path, member, tick }
    }

    fn announce(&mut self, case: &mut Case, shape: Shape) {
        if shape.rekey {
            case.announce_rekey().expect("GSA and KD");
        }
        for _ in 0..shape.esp {
            case.announce_esp().expect("GSA and KD");
        }
        if shape.rekey && self.rng.chance(30) {
            let id = self.rng.pick(&[0, 7, 1000, u32::MAX - 20]);
            case.policy(REKEY).expect("Rekey policy").attributes.push(initial_message_id(id));
        }
        if shape.group_wide {
            let delay = self.rng.pick(&[0, 1, 2, 30, 65535]);
            let at = self.rng.below(2);
            case.policies().expect("GSA").insert(at, delay_policy(delay));
        }
        if self.lives > 0 {
            self.give_lifetimes(case);
        }
    }

    /// SPIs to delete: some of the table, some unknown, sometimes 0.
    fn deleted(&mut self) -> Vec<Vec<u8>> {
        let mut spis = vec![self.rng.octets(4)];
        for sa in self.member.table.iter().filter(|sa| sa.protocol == ESP) {
            if self.rng.chance(self.sizes.deleted) {
                spis.push(sa.spi.clone());
            }
        }
        if self.rng.chance(15) {
            spis.push(vec![0; 4]);
        }
        self.rng.shuffle(&mut spis);
        spis.truncate(MOST_DELETED);
        spis
    }

    /// Moves the clock: a little, far, near its wrap, or to where an SA is about to be due.
    pub fn move_clock(&mut self) {
        let dues = borders(&self.member);
        self.tick = match self.rng.below(12) {
            0..=3 => self.tick.wrapping_add(self.rng.below(1500) as u32),
            4..=7 if !dues.is_empty() => self.rng.pick(&dues).wrapping_add(self.rng.below(3) as u32).wrapping_sub(1),
            8 => self.rng.number() as u32,
            9 => u32::MAX - self.rng.below(3000) as u32,
            10 => self.rng.below(3000) as u32,
            _ => self.tick,
        };
    }
}

/// WRAP_KEYs in any order: each key under the default key or one before it, and further entries that give no key another value. Some trees
/// are one chain.
fn tree(case: &mut Case, shape: Shape) -> Vec<Attribute> {
    let mut entries = Vec::new();
    let size = case.key0.len();
    let deep = case.rng.pick(&[50, 100]);
    for _ in 0..shape.keys {
        let mut id = case.rng.pick(&[1, 2, 3, 5, 9, 255, 256, u32::MAX, 0x0100_0000]);
        while case.keys.iter().any(|key| key.0 == id) || id == 0 {
            id = case.rng.number() as u32 >> case.rng.below(32);
        }
        let deepest = case.keys.last().cloned().filter(|_| case.rng.chance(deep));
        let (kwk_id, kwk) = deepest.unwrap_or_else(|| case.some_key());
        let value = case.rng.octets(size);
        entries.push(Attribute::key(id, kwk_id, &wrap(&kwk, &value)));
        case.keys.push((id, value));
    }
    for _ in 0..shape.further {
        let entry = further_entry(case, &entries);
        entries.push(entry);
    }
    case.rng.shuffle(&mut entries);
    entries
}

/// An entry that agrees with the others, or leads nowhere.
fn further_entry(case: &mut Case, entries: &[Attribute]) -> Attribute {
    let (id, value) = case.rng.pick(&case.keys);
    let (kwk_id, kwk) = case.other_key(id);
    match case.rng.below(5) {
        0 => case.rng.pick(entries),
        1 => Attribute::key(id, kwk_id, &case.rng.octets(24)),
        2 => {
            let unknown = case.unknown_id();
            Attribute::key(id, unknown, &wrap(&kwk, &value))
        }
        3 => {
            // A key that nothing reaches, wrapped under another one.
            let (unknown, another, other) = (case.unknown_id(), case.unknown_id(), case.rng.octets(value.len()));
            Attribute::key(unknown, another, &wrap(&other, &other))
        }
        _ => Attribute::key(id, kwk_id, &wrap(&kwk, &value)),
    }
}
