//! Which keys a chain reaches, the copies they open, and refusals 8 and 9.

use std::collections::BTreeMap;

use crate::aes::Schedule;
use crate::judging::Announced;
use crate::keywrap;
use crate::layout::WrappedKey;

/// Keys that open: key 0, held ones and reached ones, each with one value.
pub struct Keys {
    keys: Vec<Key>,
    /// How many of them a chain starts with: the first ones.
    starts: usize,
    /// Key ID and KWK ID of each entry that opened.
    opened: Vec<(u32, u32)>,
}

/// The Key IDs of a chain, from the last back to the first, and that of the key it starts with, which is not counted. Of several the one
/// with fewest keys is least, then the one whose Key IDs are smallest, compared number by number, then the one with the smaller end.
#[derive(PartialEq, Eq, PartialOrd, Ord)]
struct Chain {
    count: usize,
    ids: Vec<u32>,
    end: u32,
}

/// The keys of a chain, from the one that opens a copy on, and the Key ID of the default key (0) or held key behind them.
pub struct Path {
    pub keys: Vec<(u32, Vec<u8>)>,
    pub end: u32,
}

struct Key {
    id: u32,
    value: Vec<u8>,
    /// Expanded when the key opens something for the first time.
    schedule: Option<Schedule>,
}

impl Keys {
    /// The keys that a chain starts with: the default key as key 0, and held keys.
    pub fn starting<'h>(default_key: &[u8], held: impl Iterator<Item = &'h (u32, Vec<u8>)>) -> Keys {
        let mut keys = Keys { keys: Vec::new(), starts: 0, opened: Vec::new() };
        keys.add(0, default_key);
        held.for_each(|(id, value)| keys.add(*id, value));
        keys.starts = keys.keys.len();
        keys
    }

    fn add(&mut self, id: u32, value: &[u8]) {
        self.keys.push(Key { id, value: value.to_vec(), schedule: None });
    }

    /// Follows the entries from the keys so far. Each reached key opens the entries that name it, so their order does not matter;
    /// refused as 8 when a value has not the size of key 0, or a reached key has two values.
    pub fn follow(&mut self, entries: &[WrappedKey]) -> Result<(), u8> {
        let mut next = 0;
        while next < self.keys.len() {
            let (id, size) = (self.keys[next].id, self.keys[0].value.len());
            for entry in entries.iter().filter(|entry| entry.kwk_id == id) {
                let Some(value) = self.keys[next].open(entry.wrapped) else { continue };
                if value.len() != size {
                    return Err(8);
                }
                self.opened.push((entry.key_id, id));
                match self.keys.iter().find(|key| key.id == entry.key_id) {
                    None => self.add(entry.key_id, &value),
                    Some(key) if key.value != value => return Err(8),
                    Some(_) => {}
                }
            }
            next += 1;
        }
        Ok(())
    }

    /// The least chain that opens one of these copies (document 02, T-04 and T-11); None where no copy opens.
    pub fn path(&mut self, copies: &[WrappedKey]) -> Option<Path> {
        let opens = |copy: &&WrappedKey| self.key(copy.kwk_id).is_some_and(|key| key.open(copy.wrapped).is_some());
        let named: Vec<u32> = copies.iter().filter(opens).map(|copy| copy.kwk_id).collect();
        let chains = self.least_chains();
        let least = named.iter().filter_map(|id| chains.get(id)).min()?;
        let value = |id: &u32| self.keys.iter().find(|key| key.id == *id).map(|key| (*id, key.value.clone()));
        Some(Path { keys: least.ids.iter().filter_map(value).collect(), end: least.end })
    }

    fn key(&mut self, id: u32) -> Option<&mut Key> {
        self.keys.iter_mut().find(|key| key.id == id)
    }

    /// The least chain to each key. A chain is made by one entry more at a time, and kept where it is less than the one kept before, until
    /// no entry makes such a one.
    fn least_chains(&self) -> BTreeMap<u32, Chain> {
        let start = |key: &Key| (key.id, Chain { count: 0, ids: Vec::new(), end: key.id });
        let mut chains: BTreeMap<u32, Chain> = self.keys[..self.starts].iter().map(start).collect();
        let mut settled = false;
        while !settled {
            settled = true;
            for (id, kwk_id) in &self.opened {
                let Some(before) = chains.get(kwk_id) else { continue };
                let ids = std::iter::once(*id).chain(before.ids.iter().copied()).collect();
                let longer = Chain { count: before.count + 1, ids, end: before.end };
                if chains.get(id).is_none_or(|kept| longer < *kept) {
                    chains.insert(*id, longer);
                    settled = false;
                }
            }
        }
        chains
    }

    /// The octets of each announced SA. Number 8 over all SAs comes before 9 of any.
    pub fn sa_keys(&mut self, announced: &[Announced]) -> Result<Vec<Vec<u8>>, u8> {
        let found: Vec<Option<Vec<u8>>> = announced.iter().map(|sa| self.sa_key(sa)).collect::<Result<_, u8>>()?;
        found.into_iter().collect::<Option<_>>().ok_or(9)
    }

    /// What the copies of one SA's key open to. Copies under unknown keys, or that do not open, are passed over.
    fn sa_key(&mut self, announced: &Announced) -> Result<Option<Vec<u8>>, u8> {
        let mut found = None;
        for copy in &announced.copies {
            let Some(key) = self.key(copy.kwk_id) else { continue };
            let Some(octets) = key.open(copy.wrapped) else { continue };
            if octets.len() != announced.need.octets() || found.as_ref().is_some_and(|before| *before != octets) {
                return Err(8);
            }
            found = Some(octets);
        }
        Ok(found)
    }
}

impl Key {
    fn open(&mut self, wrapped: &[u8]) -> Option<Vec<u8>> {
        if self.schedule.is_none() {
            self.schedule = Schedule::expand(&self.value);
        }
        keywrap::open_under(self.schedule.as_ref()?, wrapped)
    }
}
