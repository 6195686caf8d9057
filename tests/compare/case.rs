//! One frame in the making, with what its maker knows: the keys, the member it will meet, the tick.

use builder::rng::Rng;
use builder::typical::*;
use builder::wrapping::wrap;
use builder::{Attribute, Body, Delete, Frame, Part, Payload, Selector, Transform};
use builder::{DELETE, ESP, GSA, KD, REKEY};
use reference::member::Member;

#[derive(Clone)]
pub struct Case {
    pub rng: Rng,
    pub frame: Frame,
    /// The default key.
    pub key0: Vec<u8>,
    /// The keys that are reached or held, by Key ID.
    pub keys: Vec<(u32, Vec<u8>)>,
    /// The announced SAs' keys, by protocol and SPI.
    pub sa_keys: Vec<(u8, Vec<u8>, Vec<u8>)>,
    /// The Key IDs that are held after a registration, in their order, where its maker knows them.
    pub path: Option<Vec<u32>>,
    /// The keys that came with the member's registration and are not held.
    pub off_path: Vec<(u32, Vec<u8>)>,
    pub member: Member,
    pub tick: u32,
}

impl Case {
    pub fn payload(&mut self, kind: u8) -> Option<&mut Payload> {
        self.frame.payloads.iter_mut().find(|payload| payload.kind == kind)
    }

    fn parts(&mut self, kind: u8) -> Option<&mut Vec<Part>> {
        match &mut self.payload(kind)?.body {
            Body::Parts(parts) => Some(parts),
            _ => None,
        }
    }

    pub fn policies(&mut self) -> Option<&mut Vec<Part>> {
        self.parts(GSA)
    }

    pub fn bags(&mut self) -> Option<&mut Vec<Part>> {
        self.parts(KD)
    }

    /// The first policy of a protocol; 0 for the group-wide one.
    pub fn policy(&mut self, protocol: u8) -> Option<&mut Part> {
        self.policies()?.iter_mut().find(|policy| policy.protocol == protocol)
    }

    /// The first bag of a protocol; 0 for the Member Key Bag.
    pub fn bag(&mut self, protocol: u8) -> Option<&mut Part> {
        self.bags()?.iter_mut().find(|bag| bag.protocol == protocol)
    }

    /// A policy or bag by chance.
    pub fn some_part(&mut self, kind: u8) -> Option<&mut Part> {
        let count = self.parts(kind)?.len();
        let at = self.rng.below(count);
        self.parts(kind)?.get_mut(at)
    }

    /// An SA policy by chance.
    pub fn some_sa_policy(&mut self) -> Option<&mut Part> {
        let named: Vec<usize> =
            self.policies()?.iter().enumerate().filter(|(_, part)| part.protocol != 0).map(|(i, _)| i).collect();
        let at = *named.get(self.rng.below(named.len()))?;
        self.policies()?.get_mut(at)
    }

    pub fn some_selector(&mut self) -> Option<&mut Selector> {
        let at = self.rng.below(2);
        self.some_sa_policy()?.selectors.get_mut(at)
    }

    pub fn some_transform(&mut self) -> Option<&mut Transform> {
        let number = self.rng.below(6);
        let transforms = &mut self.some_sa_policy()?.transforms;
        let count = transforms.len().max(1);
        transforms.get_mut(number % count)
    }

    pub fn transform(&mut self, protocol: u8, kind: u8) -> Option<&mut Transform> {
        self.policy(protocol)?.transforms.iter_mut().find(|transform| transform.kind == kind)
    }

    pub fn delete(&mut self) -> Option<&mut Delete> {
        match &mut self.payload(DELETE)?.body {
            Body::Delete(delete) => Some(delete),
            _ => None,
        }
    }

    /// The D payload, made if there is none.
    pub fn made_delete(&mut self) -> Option<&mut Payload> {
        if self.payload(DELETE).is_none() {
            let spi = self.rng.octets(4);
            self.insert(delete(&[spi]));
        }
        self.payload(DELETE)
    }

    /// Puts a payload at a place by chance.
    pub fn insert(&mut self, payload: Payload) {
        let at = self.rng.below(self.frame.payloads.len() + 1);
        self.frame.payloads.insert(at, payload);
    }

    pub fn remove(&mut self, kind: u8) -> Option<()> {
        let before = self.frame.payloads.len();
        self.frame.payloads.retain(|payload| payload.kind != kind);
        (self.frame.payloads.len() < before).then_some(())
    }

    /// An SPI that is neither in the table nor in the frame.
    pub fn fresh_spi(&mut self, protocol: u8) -> Vec<u8> {
        loop {
            let mut spi = self.rng.octets(if protocol == REKEY { 16 } else { 4 });
            if self.rng.chance(30) {
                let (fill, last) = (self.rng.pick(&[0, 255]), self.rng.pick(&[0, 1, 2, 255]));
                spi.fill(fill);
                spi[self.rng.below(2)] = last;
            }
            let in_table = self.member.table.iter().any(|sa| sa.protocol == protocol && sa.spi == spi);
            let in_frame =
                [GSA, KD].iter().any(|&kind| self.parts(kind).is_some_and(|parts| parts.iter().any(|part| part.spi == spi)));
            if !in_table && !in_frame {
                return spi;
            }
        }
    }

    /// Adds a policy and a bag of an ESP SA, its key wrapped under key 0.
    pub fn announce_esp(&mut self) -> Option<()> {
        let spi = self.fresh_spi(ESP);
        let (bits, octets) = self.rng.pick(&ENCRYPTIONS);
        let key = self.rng.octets(octets);
        let mut transforms = vec![encryption(bits), sequence_numbers(self.rng.pick(&[0, 2]))];
        self.rng.shuffle(&mut transforms);
        let selectors = vec![self.any_selector(), self.any_selector()];
        let copy = Attribute::key(0, 0, &wrap(&self.key0, &key));
        self.add(Part { selectors, transforms, ..Part::named(ESP, &spi) }, bag(ESP, &spi, vec![copy]))?;
        self.sa_keys.push((ESP, spi, key));
        Some(())
    }

    /// Adds a policy and a bag of a Rekey SA, one copy of its key wrapped under key 0 or one of the keys.
    pub fn announce_rekey(&mut self) -> Option<()> {
        let spi = self.fresh_spi(REKEY);
        let ((bits, first), (wrap_id, second)) = (self.rng.pick(&ENCRYPTIONS), self.rng.pick(&KEY_WRAPS));
        let key = self.rng.octets(first + second);
        let mut transforms = vec![encryption(bits), key_wrap(wrap_id), authentication(self.rng.pick(&[1, 2]))];
        self.rng.shuffle(&mut transforms);
        let selectors = vec![self.any_selector(), self.multicast_selector()];
        let (kwk_id, kwk) = self.some_key();
        let copy = Attribute::key(0, kwk_id, &wrap(&kwk, &key));
        self.add(Part { selectors, transforms, ..Part::named(REKEY, &spi) }, bag(REKEY, &spi, vec![copy]))?;
        self.sa_keys.push((REKEY, spi, key));
        Some(())
    }

    fn add(&mut self, policy: Part, bag: Part) -> Option<()> {
        let (at_policy, at_bag) = (self.rng.number() as usize, self.rng.number() as usize);
        let policies = self.policies()?;
        policies.insert(at_policy % (policies.len() + 1), policy);
        let bags = self.bags()?;
        bags.insert(at_bag % (bags.len() + 1), bag);
        Some(())
    }

    /// Key 0 or one of the other keys, by chance.
    pub fn some_key(&mut self) -> (u32, Vec<u8>) {
        let at = self.rng.below(self.keys.len() + 2);
        self.keys.get(at).cloned().unwrap_or((0, self.key0.clone()))
    }

    /// The same, but not the key of that ID, which is not 0.
    pub fn other_key(&mut self, id: u32) -> (u32, Vec<u8>) {
        let key = self.some_key();
        if key.0 == id {
            (0, self.key0.clone())
        } else {
            key
        }
    }

    /// A Key ID that is neither 0 nor that of a key, nor named in the frame.
    pub fn unknown_id(&mut self) -> u32 {
        let octets = self.frame.octets();
        loop {
            let id = self.rng.number() as u32;
            if id != 0 && self.keys.iter().all(|key| key.0 != id) && !octets.windows(4).any(|four| four == id.to_be_bytes()) {
                return id;
            }
        }
    }

    /// Any selector: addresses and ports need not even rise.
    pub fn any_selector(&mut self) -> Selector {
        let size = self.rng.pick(&[4, 16]);
        let (start, end) = (self.rng.octets(size), self.rng.octets(size));
        let ports = self.rng.pick(&[(0, 65535), (500, 500), (9, 3)]);
        Selector { ip_protocol: self.rng.pick(&[0, 17, 255]), ..Selector::new(&start, &end, ports) }
    }

    /// One address in 224.0.0.0/4 or ff00::/8 and one port.
    pub fn multicast_selector(&mut self) -> Selector {
        let mut address = self.rng.octets(4);
        address[0] = self.rng.pick(&[224, 225, 230, 239]);
        if self.rng.chance(40) {
            address = self.rng.octets(16);
            address[0] = 255;
        }
        let port = self.rng.pick(&[0, 848, 4500, 65535]);
        Selector::new(&address, &address, (port, port))
    }

    /// The key of the first announced SA of a protocol.
    pub fn sa_key(&self, protocol: u8) -> Option<Vec<u8>> {
        self.sa_keys.iter().find(|sa| sa.0 == protocol).map(|sa| sa.2.clone())
    }

    /// The bag of that SA.
    pub fn sa_bag(&mut self, protocol: u8) -> Option<&mut Part> {
        let spi = self.sa_keys.iter().find(|sa| sa.0 == protocol)?.1.clone();
        self.bags()?.iter_mut().find(|bag| bag.protocol == protocol && bag.spi == spi)
    }

    /// Leaves the announced Rekey SA one copy of its key, under this key.
    pub fn only_copy(&mut self, kwk_id: u32, kwk: &[u8]) -> Option<()> {
        let key = self.sa_key(REKEY)?;
        self.sa_bag(REKEY)?.attributes = vec![Attribute::key(0, kwk_id, &wrap(kwk, &key))];
        Some(())
    }

    /// The policy of that SA.
    pub fn sa_policy(&mut self, protocol: u8) -> Option<&mut Part> {
        let spi = self.sa_keys.iter().find(|sa| sa.0 == protocol)?.1.clone();
        self.policies()?.iter_mut().find(|policy| policy.protocol == protocol && policy.spi == spi)
    }

    /// Gives the first announced SA of a protocol another SPI, in its policy and its bag.
    pub fn rename(&mut self, protocol: u8, spi: &[u8]) -> Option<()> {
        self.sa_policy(protocol)?.spi = spi.to_vec();
        self.sa_bag(protocol)?.spi = spi.to_vec();
        self.sa_keys.iter_mut().find(|sa| sa.0 == protocol)?.1 = spi.to_vec();
        Some(())
    }
}
