//! Fresh tree keys in a rekey (document 02, T-11): to members with the profile and, in the other scripts, to members without it.

use crate::case::Case;
use crate::limits::{MOST_FRESH_KEYS, MOST_HELD};
use crate::scene::Shape;
use crate::script::Writer;
use builder::line::line;
use builder::typical::{fresh_key, FRESH_KEY};
use builder::wrapping::wrap;
use builder::{Attribute, ESP, REKEY};
use reference::layout::MOST_FRAME;
use reference::member::Member;

/// What must come about in every long run of the comparer, by a rekey with fresh keys to a member with the profile, but for the last.
pub const MET: [&str; 15] = [
    "a path to the default key",
    "a path to a held key",
    "no path",
    "held keys ahead of the path's end go",
    "a held key behind the path's end goes, its Key ID being on the path",
    "a held key carried anew stays with its old value",
    "a held list that is full",
    "a held list too long, 7",
    "128 fresh keys",
    "129 fresh keys, 7",
    "Key ID 0 or a key that wraps itself, 6",
    "a wrong size or two values, 8",
    "no copy opens, 9",
    "a held list too long, and a copy of another SA that does not open, 9",
    "fresh keys without the profile",
];

/// What comes with the new Rekey SA is made here.
const NEW_REKEY_SA: Shape = Shape { rekey: true, esp: 0, group_wide: false, keys: 0, further: 0, deletes: false };

/// A fault of a frame's fresh keys, or none.
#[derive(Clone, Copy, PartialEq)]
enum Fault {
    None,
    KeyIdZero,
    WrapsItself,
    OtherSize,
    TwoValues,
    Layout,
    Full,
    TooMany,
    /// A chain that ends on the first held key and fills the list up, or has one key more.
    FullList,
    LongList,
}

const FAULTS: [Fault; 9] = [
    Fault::KeyIdZero,
    Fault::WrapsItself,
    Fault::OtherSize,
    Fault::TwoValues,
    Fault::Layout,
    Fault::Full,
    Fault::TooMany,
    Fault::FullList,
    Fault::LongList,
];

impl Writer<'_> {
    /// Some rekeys with fresh keys; the second member tells what becomes of each.
    pub fn fresh_keys(&mut self) {
        for _ in 0..self.scene.rng.between(1, 3) {
            let shape = Shape { esp: self.scene.rng.below(2), ..NEW_REKEY_SA };
            let Some(mut case) = self.scene.rekey(shape) else { return };
            let fault = if self.scene.rng.chance(30) { self.scene.rng.pick(&FAULTS) } else { Fault::None };
            if plant(&mut case, fault).is_none() || case.frame.octets().len() > MOST_FRAME {
                continue;
            }
            let before = self.scene.member.clone();
            let answer = self.line(line(self.scene.tick, &case.frame.octets()), "fresh keys".to_string());
            let met = met(&case, fault, answer, &before, &self.scene.member);
            MET.into_iter().zip(met).filter(|(_, met)| *met).for_each(|(name, _)| self.tally.fresh(name));
        }
    }
}

/// Which of these came about.
fn met(case: &Case, fault: Fault, answer: Option<u8>, before: &Member, after: &Member) -> [bool; MET.len()] {
    let (old, new, on) = (&before.held, &after.held, before.profile);
    let taken = on && answer == Some(0);
    let path = taken && old != new;
    // The first held key that stays is the one that a path ends on.
    let end = old.iter().position(|key| new.contains(key));
    let goes_behind = end.is_some_and(|end| old[end..].iter().any(|key| !new.contains(key)));
    let stays = old.iter().any(|key| new.contains(key) && carries(case, key.0));
    let refused = |number: u8| on && answer == Some(number);
    [
        path && end.is_none(),
        path && end.is_some(),
        taken && !path,
        path && end.is_some_and(|end| end > 0),
        path && goes_behind,
        taken && stays,
        path && new.len() == MOST_HELD,
        refused(7) && matches!(fault, Fault::None | Fault::LongList),
        fault == Fault::Full && on && answer != Some(7) && answer != Some(1),
        refused(7) && fault == Fault::TooMany,
        refused(6) && matches!(fault, Fault::KeyIdZero | Fault::WrapsItself),
        refused(8) && matches!(fault, Fault::OtherSize | Fault::TwoValues),
        refused(9) && fault != Fault::LongList,
        refused(9) && fault == Fault::LongList,
        !on && answer == Some(0),
    ]
}

/// Whether the Rekey SA's bag has a fresh entry of that Key ID.
fn carries(case: &Case, id: u32) -> bool {
    let of_id = |value: &[u8]| value.starts_with(&id.to_be_bytes());
    let is_of = |attribute: &Attribute| matches!(attribute, Attribute::Long { kind: FRESH_KEY, value, .. } if of_id(value));
    case.clone().sa_bag(REKEY).is_some_and(|bag| bag.attributes.iter().any(is_of))
}

type Key = (u32, Vec<u8>);

/// Puts fresh keys and copies of the Rekey SA's key into its bag, in any order.
fn plant(c: &mut Case, fault: Fault) -> Option<()> {
    let octets = c.sa_key(REKEY)?;
    if matches!(fault, Fault::FullList | Fault::LongList) {
        let start = c.keys.first()?.clone();
        let keys = new_keys(c, MOST_HELD + (fault == Fault::LongList) as usize - c.keys.len());
        let chain: Vec<Key> = std::iter::once(start).chain(keys).collect();
        let mut entries: Vec<Attribute> = chain.windows(2).map(|two| entry(&two[1], &two[0])).collect();
        let (id, value) = chain.last()?;
        entries.push(Attribute::key(0, *id, &wrap(value, &octets)));
        c.sa_bag(REKEY)?.attributes = entries;
        let closed = Attribute::key(0, 0, &c.rng.octets(32));
        if fault == Fault::LongList && c.rng.chance(50) {
            c.sa_bag(ESP).into_iter().for_each(|bag| bag.attributes = vec![closed.clone()]);
        }
        return Some(());
    }
    let (keys, start) = some_keys(c);
    let mut entries = tree(c, &keys, &start);
    for _ in 0..c.rng.pick(&[0, 0, 1, 2, 4]) {
        entries.push(further(c, &keys));
    }
    spoil(c, fault, &keys, &mut entries);
    let copies = c.rng.pick(&[1, 1, 1, 2, 4]);
    for copy in 0..copies {
        let (id, value) = under(c, &keys, copy == 0);
        entries.push(Attribute::key(0, id, &wrap(&value, &octets)));
    }
    c.rng.shuffle(&mut entries);
    c.sa_bag(REKEY)?.attributes = entries;
    Some(())
}

fn entry(key: &Key, under: &Key) -> Attribute {
    fresh_key(key.0, under.0, &wrap(&under.1, &key.1))
}

/// So many keys, none of them held.
fn new_keys(c: &mut Case, count: usize) -> Vec<Key> {
    let mut keys: Vec<Key> = Vec::new();
    while keys.len() < count {
        let id = (c.rng.number() as u32).max(1);
        if c.keys.iter().chain(&keys).all(|key| key.0 != id) {
            keys.push((id, c.rng.octets(c.key0.len())));
        }
    }
    keys
}

/// Fresh keys, some with the Key ID of a held one, and the key that they start from: key 0 or a held key that is not among them.
fn some_keys(c: &mut Case) -> (Vec<Key>, Key) {
    let held = c.keys.clone();
    let mut keys: Vec<Key> = Vec::new();
    for _ in 0..c.rng.pick(&[1, 1, 2, 3, 5, 12, 30]) {
        let any = (c.rng.number() as u32 >> c.rng.below(32)).max(1);
        let id = if !held.is_empty() && c.rng.chance(25) { c.rng.pick(&held).0 } else { any };
        if keys.iter().all(|key| key.0 != id) {
            keys.push((id, c.rng.octets(c.key0.len())));
        }
    }
    let not_carried: Vec<Key> = held.into_iter().filter(|key| keys.iter().all(|other| other.0 != key.0)).collect();
    let key0 = (0, c.key0.clone());
    let start = match (not_carried.first().cloned(), c.rng.below(4)) {
        (None, _) | (_, 0) => key0,
        (Some(first), 1) => first,
        _ => c.rng.pick(&not_carried),
    };
    (keys, start)
}

/// An entry for each fresh key: the first under the start, each later one under the one before it or under any other key.
fn tree(c: &mut Case, keys: &[Key], start: &Key) -> Vec<Attribute> {
    let mut before = start.clone();
    let mut entries = Vec::new();
    for (at, key) in keys.iter().enumerate() {
        if at > 0 && c.rng.chance(30) {
            before = named(c, keys);
        }
        if before.0 != key.0 {
            entries.push(entry(key, &before));
        }
        before = key.clone();
    }
    entries
}

/// The key that a KWK ID of this frame names: a fresh one, key 0, or a held one that is not carried anew.
fn named(c: &mut Case, keys: &[Key]) -> Key {
    let (id, value) = if c.rng.chance(50) { c.rng.pick(keys) } else { c.some_key() };
    let fresh = keys.iter().find(|key| key.0 == id).cloned();
    fresh.unwrap_or((id, value))
}

/// One more way to a key, one that fails, one under no key, or a key carried anew that nothing reaches.
fn further(c: &mut Case, keys: &[Key]) -> Attribute {
    let (id, value) = c.rng.pick(keys);
    let (kwk_id, kwk) = named(c, keys);
    let kwk_id = if kwk_id == id { 0 } else { kwk_id };
    let kwk = if kwk_id == 0 { c.key0.clone() } else { kwk };
    match c.rng.below(6) {
        0 => fresh_key(id, kwk_id, &c.rng.octets(24)),
        1 => fresh_key(id, c.unknown_id(), &wrap(&kwk, &value)),
        2 if !c.keys.is_empty() => {
            let carried = c.rng.pick(&c.keys).0;
            fresh_key(carried, c.unknown_id(), &c.rng.octets(24))
        }
        _ => fresh_key(id, kwk_id, &wrap(&kwk, &value)),
    }
}

/// Does the fault to the entries. Those that fill the frame up are reached by nothing.
fn spoil(c: &mut Case, fault: Fault, keys: &[Key], entries: &mut Vec<Attribute>) {
    let (id, mut value) = c.rng.pick(keys);
    let key0 = c.key0.clone();
    match fault {
        Fault::None | Fault::FullList | Fault::LongList => {}
        Fault::KeyIdZero => entries.push(fresh_key(0, 0, &wrap(&key0, &value))),
        Fault::WrapsItself => entries.push(fresh_key(id, id, &wrap(&value, &value))),
        Fault::OtherSize => {
            value.resize(c.rng.pick(&[1, 8, 16, 24, 32, 40]), 0);
            let unknown = c.unknown_id();
            entries.push(fresh_key(unknown, 0, &wrap(&key0, &value)));
        }
        Fault::TwoValues => {
            value[0] ^= 1;
            entries.push(fresh_key(id, 0, &wrap(&key0, &value)));
        }
        Fault::Layout => {
            let size = c.rng.pick(&[0, 8, 20, 23, 25, 273, 280]);
            let broken = [Attribute::Short(FRESH_KEY, 1), Attribute::long(FRESH_KEY, &c.rng.octets(size))];
            entries.push(c.rng.pick(&broken));
        }
        Fault::Full | Fault::TooMany => {
            let (unknown, count) = (c.unknown_id(), MOST_FRESH_KEYS + (fault == Fault::TooMany) as usize);
            let octets = c.rng.octets(16);
            entries.resize(count, fresh_key(unknown, unknown ^ 1, &octets));
        }
    }
}

/// The key that a copy is wrapped under: the last fresh one, another one that a KWK ID names, or the old value of a held one.
fn under(c: &mut Case, keys: &[Key], first: bool) -> Key {
    match c.rng.below(10) {
        0..=4 if first => keys.last().cloned().unwrap_or((0, c.key0.clone())),
        0..=7 => {
            let key = named(c, keys);
            if key.0 == 0 {
                c.rng.pick(keys)
            } else {
                key
            }
        }
        _ => c.some_key(),
    }
}
