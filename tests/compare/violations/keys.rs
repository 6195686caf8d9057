//! Numbers 8 and 9.

use super::copies::far_apart;
use super::{any, either_rekey, inband, registration, rekey, Violation};
use crate::case::Case;
use builder::wrapping::{wrap, wrap_as};
use builder::{Attribute, ESP, REKEY};

const CONSTANT: [u8; 4] = [0xa6, 0x59, 0x59, 0xa6];

pub const TABLE: &[Violation] = &[
    registration(8, "WRAP_KEY of a wrong size under the default key", |c| {
        let (id, value) = (c.unknown_id(), wrong_size(c, c.key0.len()));
        let kwk = c.key0.clone();
        entry(c, id, &value, 0, &kwk)
    }),
    registration(8, "WRAP_KEY of a wrong size under a reached key", |c| {
        let (id, value) = (c.unknown_id(), wrong_size(c, c.key0.len()));
        let (kwk_id, kwk) = reached(c)?;
        entry(c, id, &value, kwk_id, &kwk)
    }),
    registration(8, "WRAP_KEY of a wrong size for a key that has a value", |c| {
        let value = wrong_size(c, c.key0.len());
        let id = reached(c)?.0;
        let (kwk_id, kwk) = c.other_key(id);
        entry(c, id, &value, kwk_id, &kwk)
    }),
    registration(8, "one key with two values under the default key", |c| {
        let (id, kwk) = (c.unknown_id(), c.key0.clone());
        for _ in 0..2 {
            let value = c.rng.octets(c.key0.len());
            entry(c, id, &value, 0, &kwk)?;
        }
        Some(())
    }),
    registration(8, "one key with two values from two chains", |c| {
        let (id, mut value) = reached(c)?;
        let (kwk_id, kwk) = c.other_key(id);
        let at = c.rng.below(value.len());
        value[at] ^= 1;
        entry(c, id, &value, kwk_id, &kwk)
    }),
    any(8, "ESP key of a wrong size", |c| {
        let key = wrong_size(c, c.sa_key(ESP)?.len());
        set_esp_copy(c, |key0| wrap(key0, &key))
    }),
    any(8, "ESP key of a wrong size whose wrapping is as long", |c| {
        let mut key = c.sa_key(ESP)?;
        key.push(0);
        set_esp_copy(c, |key0| wrap(key0, &key))
    }),
    any(8, "Rekey key of a wrong size", |c| {
        let key = wrong_size(c, c.sa_key(REKEY)?.len());
        let (kwk_id, kwk) = c.some_key();
        c.sa_bag(REKEY)?.attributes = vec![Attribute::key(0, kwk_id, &wrap(&kwk, &key))];
        Some(())
    }),
    rekey(8, "Rekey key of a wrong size beside a right copy", |c| {
        let key = wrong_size(c, c.sa_key(REKEY)?.len());
        copy(c, &key)
    }),
    rekey(8, "Rekey key with two values", |c| {
        let mut key = c.sa_key(REKEY)?;
        let at = c.rng.below(key.len());
        key[at] ^= 0x10;
        copy(c, &key)
    }),
    rekey(8, "Rekey key with another value in the last of copies far apart that name one held key", |c| {
        let mut key = c.sa_key(REKEY)?;
        *key.last_mut()? ^= 1;
        far_apart(c, &key)
    }),
    any(8, "Rekey key of a wrong size, and an ESP key that does not open", |c| {
        let key = wrong_size(c, c.sa_key(REKEY)?.len());
        let kwk = c.key0.clone();
        c.sa_bag(REKEY)?.attributes = vec![Attribute::key(0, 0, &wrap(&kwk, &key))];
        let octets = c.rng.octets(32);
        set_esp_copy(c, |_| octets)
    }),
    any(9, "ESP key under another key", |c| {
        let (key, other) = (c.sa_key(ESP)?, c.rng.octets(c.key0.len()));
        set_esp_copy(c, |_| wrap(&other, &key))
    }),
    any(9, "ESP key wrapped under a reached or held key, KWK ID 0", |c| {
        let (key, other) = (c.sa_key(ESP)?, reached(c)?.1);
        set_esp_copy(c, |_| wrap(&other, &key))
    }),
    any(9, "ESP key with one octet flipped", |c| {
        let (key, flip, bit) = (c.sa_key(ESP)?, c.rng.number() as usize, c.rng.below(8));
        set_esp_copy(c, |key0| {
            let mut wrapped = wrap(key0, &key);
            let at = flip % wrapped.len();
            wrapped[at] ^= 1 << bit;
            wrapped
        })
    }),
    any(9, "ESP key with another constant", |c| {
        let (padded, constant) = (padded(c)?, c.rng.pick(&[[0xa6, 0x59, 0x59, 0xa7], [0; 4], [0xa6; 4]]));
        set_esp_copy(c, |key0| wrap_as(key0, constant, 20, &padded))
    }),
    any(9, "ESP key with a count too small", |c| {
        let (padded, less) = (padded(c)?, c.rng.pick(&[8, 9, 16]));
        set_esp_copy(c, |key0| wrap_as(key0, CONSTANT, (padded.len() - less) as u32, &padded))
    }),
    any(9, "ESP key with a count too large", |c| {
        let (padded, more) = (padded(c)?, c.rng.pick(&[1, 8, 1 << 16, 1 << 31]));
        set_esp_copy(c, |key0| wrap_as(key0, CONSTANT, padded.len() as u32 + more, &padded))
    }),
    any(9, "ESP key with padding that is not zero", |c| {
        let (key, mut padded) = (c.sa_key(ESP)?, padded(c)?);
        *padded.last_mut()? = 1;
        (padded.len() > key.len()).then_some(())?;
        set_esp_copy(c, |key0| wrap_as(key0, CONSTANT, key.len() as u32, &padded))
    }),
    any(9, "ESP key with 8 octets of padding too many", |c| {
        let (key, mut padded) = (c.sa_key(ESP)?, padded(c)?);
        padded.extend([0; 8]);
        set_esp_copy(c, |key0| wrap_as(key0, CONSTANT, key.len() as u32, &padded))
    }),
    any(9, "ESP key of no octets", |c| set_esp_copy(c, |key0| wrap_as(key0, CONSTANT, 0, &[0; 8]))),
    any(9, "Rekey key under an unknown key", |c| {
        let (id, kwk) = (c.unknown_id(), c.key0.clone());
        c.only_copy(id, &kwk)
    }),
    any(9, "Rekey key under another key than its KWK ID names", |c| {
        let ((id, _), other) = (c.some_key(), c.rng.octets(16));
        c.only_copy(id, &other)
    }),
    registration(9, "Rekey key under a key of a cycle", |c| {
        let (a, b) = (c.unknown_id(), c.unknown_id());
        (a != b).then_some(())?;
        let (value_a, value_b) = (c.rng.octets(c.key0.len()), c.rng.octets(c.key0.len()));
        entry(c, a, &value_a, b, &value_b)?;
        entry(c, b, &value_b, a, &value_a)?;
        c.only_copy(a, &value_a)
    }),
    registration(9, "Rekey key under a key whose entry does not open", |c| {
        let (id, value, other) = (c.unknown_id(), c.rng.octets(c.key0.len()), c.rng.octets(16));
        entry(c, id, &value, 0, &other)?;
        c.only_copy(id, &value)
    }),
    either_rekey(9, "Rekey key under the announced SA's own default key", |c| {
        let key = c.sa_key(REKEY)?;
        c.only_copy(0, &key[key.len() - 16..])
    }),
    inband(9, "Rekey key under a held key, over the own channel", |c| {
        let (id, key) = c.member.held.first()?.clone();
        c.only_copy(id, &key)
    }),
    inband(9, "Rekey key under the live Rekey SA's default key, over the own channel", |c| {
        let key = c.member.live_rekey()?.default_key().to_vec();
        c.only_copy(0, &key)
    }),
    inband(9, "Rekey key under the lent key by a held key's ID, over the own channel", |c| {
        let (id, key) = (c.member.held.first()?.0, c.key0.clone());
        c.only_copy(id, &key)
    }),
    inband(9, "ESP key under the live Rekey SA's default key, over the own channel", |c| {
        let (kwk, key) = (c.member.live_rekey()?.default_key().to_vec(), c.sa_key(ESP)?);
        set_esp_copy(c, |_| wrap(&kwk, &key))
    }),
    rekey(9, "Rekey key under a key of the member's tree that is not held", |c| {
        let (id, key) = c.off_path.get(c.rng.below(c.off_path.len()))?.clone();
        c.only_copy(id, &key)
    }),
    rekey(9, "Rekey key with no copy that opens", |c| {
        let (unknown, (id, _)) = (c.unknown_id(), c.some_key());
        let keys =
            [(unknown, 32), (id, 16), (0, 48), (0, 264)].map(|(kwk_id, count)| Attribute::key(0, kwk_id, &c.rng.octets(count)));
        c.sa_bag(REKEY)?.attributes = keys.to_vec();
        Some(())
    }),
];

/// Octets of another count than `size`: often one that another algorithm needs.
fn wrong_size(c: &mut Case, size: usize) -> Vec<u8> {
    let sizes: Vec<usize> =
        [16, 20, 24, 28, 32, 36, 44, 1, 8, 255, 256].into_iter().chain([size - 1, size + 1]).filter(|&n| n != size).collect();
    let count = c.rng.pick(&sizes);
    c.rng.octets(count)
}

/// A reached or held key other than key 0.
fn reached(c: &mut Case) -> Option<(u32, Vec<u8>)> {
    c.keys.get(c.rng.below(c.keys.len())).cloned()
}

/// Adds a WRAP_KEY at a place by chance.
fn entry(c: &mut Case, id: u32, value: &[u8], kwk_id: u32, kwk: &[u8]) -> Option<()> {
    let at = c.rng.number() as usize;
    let entries = &mut c.bag(0)?.attributes;
    entries.insert(at % (entries.len() + 1), Attribute::key(id, kwk_id, &wrap(kwk, value)));
    Some(())
}

fn set_esp_copy(c: &mut Case, wrapped: impl FnOnce(&[u8]) -> Vec<u8>) -> Option<()> {
    let key = Attribute::key(0, 0, &wrapped(&c.key0));
    c.sa_bag(ESP)?.attributes = vec![key];
    Some(())
}

/// The ESP key with its zero padding.
fn padded(c: &mut Case) -> Option<Vec<u8>> {
    let mut octets = c.sa_key(ESP)?;
    octets.resize(octets.len().next_multiple_of(8), 0);
    Some(octets)
}

/// Adds a copy of the Rekey SA's key under a key that opens it.
fn copy(c: &mut Case, key: &[u8]) -> Option<()> {
    let (kwk_id, kwk) = c.some_key();
    c.sa_bag(REKEY)?.attributes.push(Attribute::key(0, kwk_id, &wrap(&kwk, key)));
    Some(())
}
