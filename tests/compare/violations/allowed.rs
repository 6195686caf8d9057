//! What looks odd and must not be refused: number 0. Several may be done to one frame, in the order of the table.

use super::copies::{far_apart, under_none, under_one};
use super::pairing::{esp_policies, fill, one_chain, sas_after};
use super::{any, either_rekey, inband, registration, rekey, trees, Exchange, Violation};
use crate::case::Case;
use crate::limits::*;
use crate::lives::without_lifetime;
use builder::typical::*;
use builder::wrapping::wrap;
use builder::{Attribute, Body, Part, Payload, AUTH, CERT, DELETE, ESP, GSA, IDR, KD, NOTIFY, REKEY};

pub fn of_exchange(exchange: Exchange) -> Vec<&'static Violation> {
    TABLE.iter().filter(|allowed| allowed.place.has(exchange)).collect()
}

pub const TABLE: &[Violation] = &[
    any(0, "flags and minor version", |c| {
        (c.frame.flags, c.frame.version) = (c.rng.number() as u8, 0x20 | c.rng.below(16) as u8);
        Some(())
    }),
    any(0, "reserved bits and octets", reserved),
    any(0, "critical bit on known payloads", |c| {
        c.frame.payloads.iter_mut().for_each(|payload| payload.flags |= 0x80);
        Some(())
    }),
    any(0, "unknown payloads, not critical", |c| {
        for _ in 0..3 {
            let kind = c.rng.pick(&[1, 33, 34, 35, 38, 40, 43, 44, 46, 48, 50, 53, 54, 128, 255]);
            plain_payload(c, kind, 0x7f);
        }
        Some(())
    }),
    any(0, "unread payloads with any body", |c| {
        for _ in 0..4 {
            let kind = c.rng.pick(&[IDR, CERT, AUTH, NOTIFY]);
            plain_payload(c, kind, 0xff);
        }
        Some(())
    }),
    any(0, "payloads the other way round", |c| {
        c.frame.payloads.reverse();
        Some(())
    }),
    any(0, "skipped attributes in policies and transforms", |c| {
        let attributes: Vec<Attribute> = (0..8).map(|_| skipped(c, &[0, 3, 4, 13, 15, 18, 0x0300, 0x4001, 0x7fff])).collect();
        for (i, policy) in c.policies()?.iter_mut().enumerate() {
            policy.attributes.insert(0, attributes[i % 8].clone());
            policy.attributes.push(attributes[(i + 1) % 8].clone());
            policy.transforms.iter_mut().for_each(|transform| transform.attributes.insert(0, attributes[(i + 2) % 8].clone()));
        }
        Some(())
    }),
    any(0, "skipped attributes in bags", |c| {
        let attributes: Vec<Attribute> = (0..8).map(|_| skipped(c, &[0, 2, 3, 4, 14, 0x4002, 0x7fff])).collect();
        for (i, bag) in c.bags()?.iter_mut().enumerate() {
            bag.attributes.insert(0, attributes[i % 8].clone());
            bag.attributes.push(attributes[(i + 1) % 8].clone());
        }
        Some(())
    }),
    any(0, "private attributes in any form where they are not read", |c| {
        let attributes: Vec<Attribute> = (0..8).map(|_| skipped(c, &[FRESH_KEY])).collect();
        let read = c.frame.exchange == GSA_REKEY && c.member.profile;
        for (i, bag) in c.bags()?.iter_mut().enumerate().filter(|(_, bag)| !read || bag.protocol != REKEY) {
            bag.attributes.insert(0, attributes[i % 8].clone());
            bag.attributes.push(attributes[(i + 1) % 8].clone());
        }
        Some(())
    }),
    any(0, "attribute 14 outside of encryption transforms", |c| {
        let two = [skipped(c, &[14]), skipped(c, &[14])];
        for policy in c.policies()? {
            policy.attributes.extend(two.clone());
            let others = policy.transforms.iter_mut().filter(|transform| transform.kind != 1);
            others.for_each(|transform| transform.attributes.extend(two.clone()));
        }
        Some(())
    }),
    any(0, "attributes that look like transforms", |c| {
        let octets = [5, 0, 0, 0, 0x80, 0x0e, 0, 128];
        let two = [Attribute::long(0x0300, &octets), Attribute::long(0, &octets)];
        for policy in c.policies()?.iter_mut().filter(|policy| policy.protocol != 0) {
            policy.attributes.splice(0..0, two.clone());
        }
        Some(())
    }),
    any(0, "attribute 2 in an ESP policy and in transforms", |c| {
        let two = [skipped(c, &[2]), skipped(c, &[2])];
        let policy = c.policy(ESP)?;
        policy.attributes.extend(two.clone());
        policy.transforms.iter_mut().for_each(|transform| transform.attributes.extend(two.clone()));
        Some(())
    }),
    any(0, "attribute 1 in the group-wide policy and in transforms", |c| {
        let two = [skipped(c, &[1]), skipped(c, &[1])];
        for policy in c.policies()? {
            if policy.protocol == 0 {
                policy.attributes.extend(two.clone());
            }
            policy.transforms.iter_mut().for_each(|transform| transform.attributes.extend(two.clone()));
        }
        Some(())
    }),
    any(0, "lifetimes up to the longest", |c| {
        let (esp, rekey) = (c.rng.pick(&[0, 1, MOST_SECONDS]), c.rng.pick(&[1, 1000, MOST_SECONDS]));
        for policy in c.policies()?.iter_mut().filter(|policy| policy.protocol != 0) {
            without_lifetime(policy);
            policy.attributes.push(lifetime(if policy.protocol == ESP { esp } else { rekey }));
        }
        Some(())
    }),
    any(0, "empty group-wide policy", |c| {
        c.policy(0)?.attributes.clear();
        Some(())
    }),
    any(0, "no group-wide policy", |c| {
        c.policies()?.retain(|policy| policy.protocol != 0);
        Some(())
    }),
    any(0, "GSA_INITIAL_MESSAGE_ID", |c| {
        let id = c.rng.pick(&[0, 1, 7, 0x7fff_ffff, 0x8000_0000, u32::MAX - 9]);
        let attributes = &mut c.policy(REKEY)?.attributes;
        attributes.retain(|attribute| !matches!(attribute, Attribute::Long { kind: 2, .. }));
        attributes.push(initial_message_id(id));
        Some(())
    }),
    registration(0, "empty Member bag", |c| {
        c.keys.clear();
        default_copy(c);
        c.bag(0)?.attributes.clear();
        Some(())
    }),
    registration(0, "no Member bag", |c| {
        c.keys.clear();
        default_copy(c);
        c.bags()?.retain(|bag| bag.protocol != 0);
        Some(())
    }),
    registration(0, "a tree with chains as long as the path", trees::ties),
    registration(0, "a tree with a longer chain of smaller Key IDs", trees::smaller),
    registration(0, "a tree with entries twice", trees::twice),
    registration(0, "a tree with a cycle", trees::cycles),
    registration(0, "a tree with entries that fail or lead nowhere", trees::closed),
    registration(0, "a tree, and the Rekey SA's key under the default key", trees::under_default),
    registration(0, "two keys that wrap each other", |c| {
        let (first, second, value) = (c.unknown_id(), c.unknown_id(), c.rng.octets(c.key0.len()));
        (first != second).then_some(())?;
        entry(c, first, second, &wrap(&value, &value))?;
        entry(c, second, first, &wrap(&value, &value))
    }),
    registration(0, "WRAP_KEY under an unknown key", |c| {
        let (id, kwk_id, count) = (c.unknown_id(), c.unknown_id(), c.rng.pick(&[16, 24, 264]));
        (id != kwk_id).then_some(())?;
        let octets = c.rng.octets(count);
        entry(c, id, kwk_id, &octets)
    }),
    registration(0, "WRAP_KEY that does not open", |c| {
        let id = c.some_key().0.max(1);
        let kwk_id = c.other_key(id).0;
        let count = c.rng.pick(&[16, 24, 32, 264]);
        let octets = c.rng.octets(count);
        entry(c, id, kwk_id, &octets)
    }),
    registration(0, "as many WRAP_KEY as may be", |c| fill(c, 0, MOST_WRAP_KEYS)),
    registration(0, "as many keys as may be, in one chain, backwards", |c| one_chain(c, MOST_HELD as u32)),
    rekey(0, "Message ID above the least", |c| {
        let more = c.rng.pick(&[1, 2, 1000, 1 << 20]);
        c.frame.message_id = c.frame.message_id.checked_add(more).filter(|id| *id < u32::MAX)?;
        Some(())
    }),
    inband(0, "the live Rekey SA's SPIs and a Message ID that it would not take, over the own channel", |c| {
        c.frame.spis = c.member.live_rekey()?.spi.clone();
        c.frame.message_id = c.member.least_id.map_or(u32::MAX, |least| least.saturating_sub(1));
        Some(())
    }),
    rekey(0, "the last Message ID, with a new Rekey SA", |c| {
        c.policy(REKEY)?;
        c.frame.message_id = u32::MAX;
        Some(())
    }),
    rekey(0, "copies that do not open beside one that does", |c| {
        let unknown = c.unknown_id();
        for _ in 0..3 {
            let (kwk_id, count) = (c.rng.pick(&[unknown, 0, c.keys.first().map_or(0, |key| key.0)]), c.rng.pick(&[16, 40, 264]));
            let copy = Attribute::key(0, kwk_id, &c.rng.octets(count));
            let at = c.rng.below(2);
            c.sa_bag(REKEY)?.attributes.insert(at, copy);
        }
        Some(())
    }),
    rekey(0, "copies under every key", |c| {
        let (key, mut keys) = (c.sa_key(REKEY)?, c.keys.clone());
        c.rng.shuffle(&mut keys);
        let bag = c.sa_bag(REKEY)?;
        let room = MOST_SA_KEYS.checked_sub(bag.attributes.len())?;
        bag.attributes.extend(keys.iter().take(room).map(|(id, kwk)| Attribute::key(0, *id, &wrap(kwk, &key))));
        Some(())
    }),
    rekey(0, "copies that all name one held key", under_one),
    rekey(0, "copies that name none of the held keys", under_none),
    rekey(0, "copies far apart that name one held key", |c| far_apart(c, &c.sa_key(REKEY)?)),
    rekey(0, "as many SA_KEY as may be", |c| fill(c, REKEY, MOST_SA_KEYS)),
    any(0, "as many ESP policies as may be", |c| {
        let others = c.member.table.len() + c.sa_keys.iter().filter(|sa| sa.0 == REKEY).count();
        (others + MOST_ESP_POLICIES <= MOST_SAS).then_some(())?;
        esp_policies(c, MOST_ESP_POLICIES)
    }),
    either_rekey(0, "as many SAs as may be", |c| sas_after(c, MOST_SAS)),
    any(0, "SPI of an SA that is due", |c| {
        let (protocol, tick) = (c.rng.pick(&[ESP, REKEY]), c.tick);
        let spi = c.member.table.iter().find(|sa| sa.protocol == protocol && sa.is_due(tick))?.spi.clone();
        c.rename(protocol, &spi)
    }),
    rekey(0, "Delete of every ESP SA", |c| {
        c.delete()?.spis = vec![vec![0; 4]];
        Some(())
    }),
    rekey(0, "Delete of unknown, retiring, announced and repeated SPIs", |c| {
        let mut spis: Vec<Vec<u8>> = c.member.table.iter().filter(|sa| sa.protocol == ESP).map(|sa| sa.spi.clone()).collect();
        spis.extend(c.policy(ESP).map(|policy| policy.spi.clone()));
        spis.push(c.rng.octets(4));
        c.rng.shuffle(&mut spis);
        spis.truncate(MOST_DELETED / 2);
        c.delete()?.spis = [spis.clone(), spis].concat();
        Some(())
    }),
    rekey(0, "a Delete payload for each SPI", |c| {
        let spis = c.delete()?.spis.clone();
        c.remove(DELETE)?;
        spis.iter().for_each(|spi| c.insert(delete(&[spi.clone()])));
        Some(())
    }),
    rekey(0, "as many deleted SPIs as may be, the last ones of the table", |c| {
        let mut spis = vec![vec![7; 4]; MOST_DELETED];
        let table = c.member.table.iter().filter(|sa| sa.protocol == ESP).map(|sa| sa.spi.clone());
        spis.extend(table);
        spis.drain(..spis.len() - MOST_DELETED);
        let first = c.rng.between(1, MOST_DELETED);
        c.remove(DELETE)?;
        spis.chunks(first).for_each(|spis| c.frame.payloads.push(delete(spis)));
        Some(())
    }),
    rekey(0, "Delete alone", |c| {
        (c.frame.message_id < u32::MAX).then_some(())?;
        c.delete()?;
        c.remove(GSA)?;
        c.remove(KD)?;
        c.sa_keys.clear();
        Some(())
    }),
    any(0, "hundreds of payloads", |c| {
        let kind = c.rng.pick(&[NOTIFY, CERT, 33, 255]);
        c.frame.payloads.extend(vec![Payload::new(kind, Body::Plain(vec![])); 500]);
        Some(())
    }),
    any(0, "hundreds of skipped attributes", |c| {
        let (kind, attribute) = (c.rng.pick(&[GSA, KD]), skipped(c, &[0, 3, 0x7fff]));
        c.some_part(kind)?.attributes.extend(vec![attribute; 200]);
        Some(())
    }),
    any(0, "16,384 octets", |c| {
        let count = 16_384usize.checked_sub(c.frame.octets().len() + 4)?;
        let octets = vec![c.rng.number() as u8; count];
        c.insert(Payload::new(NOTIFY, Body::Plain(octets)));
        Some(())
    }),
];

fn reserved(c: &mut Case) -> Option<()> {
    let octet = c.rng.number() as u8 | 1;
    for payload in &mut c.frame.payloads {
        payload.flags |= octet & 0x7f;
        let Body::Parts(parts) = &mut payload.body else { continue };
        for part in parts {
            if part.protocol == 0 {
                part.second = octet;
            }
            part.transforms.iter_mut().for_each(|transform| transform.reserved = (octet, !octet));
        }
    }
    Some(())
}

fn plain_payload(c: &mut Case, kind: u8, flags: u8) {
    let count = c.rng.pick(&[0, 1, 3, 4, 30]);
    let body = Body::Plain(c.rng.octets(count));
    let flags = c.rng.number() as u8 & flags;
    c.insert(Payload { flags, ..Payload::new(kind, body) });
}

/// An attribute of one of these types in any format and size.
fn skipped(c: &mut Case, kinds: &[u16]) -> Attribute {
    let (kind, count) = (c.rng.pick(kinds), c.rng.pick(&[0, 1, 2, 4, 5, 20]));
    let octets = c.rng.octets(count);
    c.rng.pick(&[Attribute::Short(kind, 0x0102), Attribute::long(kind, &octets)])
}

fn entry(c: &mut Case, id: u32, kwk_id: u32, wrapped: &[u8]) -> Option<()> {
    let bag: &mut Part = c.bag(0)?;
    bag.attributes.insert(0, Attribute::key(id, kwk_id, wrapped));
    (bag.attributes.len() <= MOST_WRAP_KEYS).then_some(())
}

/// The Rekey SA's key, if one is announced, under the default key.
fn default_copy(c: &mut Case) -> Option<()> {
    c.path = Some(Vec::new());
    let key0 = c.key0.clone();
    c.only_copy(0, &key0)
}
