//! A group as its controller sees it: the keys of the tree, the live Rekey SA, what the next frame is to carry.

use builder::rng::Rng;
use builder::typical::*;
use builder::wrapping::wrap;
use builder::{Attribute, Frame, Part, Payload, ESP, REKEY};

/// A key by its Key ID.
pub type Key = (u32, Vec<u8>);

/// The policy and the bag of an SA.
pub type Sa = (Part, Part);

pub struct Group {
    pub rng: Rng,
    /// The octets of every wrapping key, and of the AES keys in the SAs.
    size: usize,
    pub lent: Vec<u8>,
    /// The keys that a registered member holds: one chain, from the default key on (document 02, T-04).
    pub held: Vec<Key>,
    /// SPI and default key of the live Rekey SA.
    rekey_spi: Vec<u8>,
    pub key0: Vec<u8>,
    message_id: u32,
}

impl Group {
    /// With so many keys in its chain, all of so many octets.
    pub fn new(size: usize, keys: u32) -> Group {
        let mut rng = Rng::new(size as u64);
        let lent = rng.octets(size);
        let held = (1..=keys).map(|number| (257 * number, rng.octets(size))).collect();
        Group { rng, size, key0: lent.clone(), lent, held, rekey_spi: vec![0; 16], message_id: 0 }
    }

    /// The octets that an ESP SA needs, and those of a Rekey SA: a salt of 4 belongs to the AES key.
    pub fn esp_octets(&self) -> usize {
        self.size + 4
    }

    pub fn rekey_octets(&self) -> usize {
        2 * self.size + 4
    }

    /// A registration with a Rekey SA, its key under the last key of the chain, and the whole chain.
    pub fn registration(&mut self) -> Frame {
        let last = self.held.last().expect("keys").clone();
        let (sa, spi, keying) = self.rekey_sa(&[last]);
        let chain = Part::unnamed(self.chain(self.held.len() as u32));
        let frame = frame(GSA_AUTH, &[0; 16], 1, vec![gsa(vec![sa.0]), kd(vec![sa.1, chain])]);
        self.enter(spi, &keying);
        frame
    }

    /// The first keys, each under the one before, the first under the default key; the last one stands first.
    pub fn chain(&self, count: u32) -> Vec<Attribute> {
        let keys = &self.held[..count as usize];
        let default = (0, self.lent.clone());
        let befores = [&default].into_iter().chain(keys);
        let mut entries: Vec<Attribute> =
            befores.zip(keys).map(|(kwk, key)| Attribute::key(key.0, kwk.0, &wrap(&kwk.1, &key.1))).collect();
        entries.reverse();
        entries
    }

    /// A new Rekey SA with copies of its key under the given keys, its SPI and its keying octets.
    pub fn rekey_sa(&mut self, under: &[Key]) -> (Sa, Vec<u8>, Vec<u8>) {
        let (spi, keying) = (self.rng.octets(16), self.rng.octets(self.rekey_octets()));
        let copies = under.iter().map(|(id, kwk)| Attribute::key(0, *id, &wrap(kwk, &keying))).collect();
        let policy = rekey_policy(&spi, 8 * self.size as u16, self.size as u16 / 8 - 1);
        ((policy, bag(REKEY, &spi, copies)), spi, keying)
    }

    /// A new ESP SA, its key under the default key.
    pub fn esp_sa(&mut self, spi: u32) -> Sa {
        let (spi, keying) = (spi.to_be_bytes(), self.rng.octets(self.esp_octets()));
        let copy = Attribute::key(0, 0, &wrap(&self.key0, &keying));
        (esp_policy(&spi, 8 * self.size as u16), bag(ESP, &spi, vec![copy]))
    }

    /// A rekey over the live Rekey SA with its next Message ID.
    pub fn rekey(&mut self, payloads: Vec<Payload>) -> Frame {
        self.message_id += 1;
        frame(GSA_REKEY, &self.rekey_spi, self.message_id - 1, payloads)
    }

    /// From now on this is the live Rekey SA.
    pub fn enter(&mut self, spi: Vec<u8>, keying: &[u8]) {
        self.key0 = keying[self.esp_octets()..].to_vec();
        self.rekey_spi = spi;
        self.message_id = 0;
    }
}

/// GSA and KD of these SAs.
pub fn announce(sas: Vec<Sa>) -> Vec<Payload> {
    let (policies, bags) = sas.into_iter().unzip();
    vec![gsa(policies), kd(bags)]
}
