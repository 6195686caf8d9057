//! Numbers 6 and 7.

use super::{any, either_rekey, registration, rekey, with_lent_key, Violation};
use crate::case::Case;
use crate::limits::*;
use crate::lives::without_lifetime;
use builder::typical::*;
use builder::wrapping::wrap;
use builder::{Attribute, Part, ESP, REKEY};
use reference::member::{Condition, Sa};

pub const TABLE: &[Violation] = &[
    any(6, "policy without a bag", |c| {
        let at = c.bags()?.iter().position(|bag| bag.protocol != 0)?;
        c.bags()?.remove(at);
        Some(())
    }),
    any(6, "bag without a policy", |c| {
        let spi = c.fresh_spi(ESP);
        let mut bag = c.bag(ESP)?.clone();
        bag.spi = spi;
        c.bags()?.push(bag);
        Some(())
    }),
    any(6, "bag without a policy, the policy without its bag", |c| {
        let at = c.rng.below(4);
        c.bag(ESP)?.spi[at] ^= 0x80;
        Some(())
    }),
    any(6, "Rekey bag with another SPI", |c| {
        let at = c.rng.below(16);
        c.bag(REKEY)?.spi[at] ^= 1;
        Some(())
    }),
    any(6, "one SPI in two policies and two bags", |c| {
        let (policy, bag) = (c.sa_policy(ESP)?.clone(), c.sa_bag(ESP)?.clone());
        c.policies()?.push(policy);
        c.bags()?.push(bag);
        Some(())
    }),
    any(6, "one SPI in two policies and two bags, and no other SA", |c| {
        let (policy, bag) = (c.sa_policy(ESP)?.clone(), c.sa_bag(ESP)?.clone());
        c.policies()?.retain(|policy| policy.protocol == 0);
        c.policies()?.extend([policy.clone(), policy]);
        c.bags()?.retain(|bag| bag.protocol == 0);
        c.bags()?.extend([bag.clone(), bag]);
        Some(())
    }),
    any(6, "one SPI in two policies", |c| {
        let policy = c.policy(ESP)?.clone();
        c.policies()?.push(policy);
        Some(())
    }),
    any(6, "one SPI in two bags", |c| {
        let protocol = c.rng.pick(&[ESP, REKEY]);
        let bag = c.bag(protocol)?.clone();
        c.bags()?.push(bag);
        Some(())
    }),
    either_rekey(6, "ESP SA live in the table", |c| rename_as(c, ESP, live)),
    either_rekey(6, "ESP SA retiring in the table", |c| {
        rename_as(c, ESP, |sa, tick| sa.condition != Condition::Live && !sa.is_due(tick))
    }),
    either_rekey(6, "the live Rekey SA's own SPI", |c| rename_as(c, REKEY, live)),
    either_rekey(6, "Rekey SA retiring in the table", |c| {
        rename_as(c, REKEY, |sa, tick| sa.condition != Condition::Live && !sa.is_due(tick))
    }),
    rekey(6, "ESP SA in the table that the frame deletes without delay", |c| {
        rename_as(c, ESP, live)?;
        let spi = c.sa_policy(ESP)?.spi.clone();
        c.delete()?.spis = vec![spi];
        c.policies()?.retain(|policy| policy.protocol != 0);
        Some(())
    }),
    any(6, "ESP: no SA_KEY", |c| {
        c.bag(ESP)?.attributes.clear();
        Some(())
    }),
    any(6, "ESP: two SA_KEYs", |c| two_keys(c, ESP)),
    any(6, "Rekey: no SA_KEY", |c| {
        c.bag(REKEY)?.attributes.clear();
        Some(())
    }),
    with_lent_key(6, "Rekey: two SA_KEYs in a frame with a lent key", |c| two_keys(c, REKEY)),
    any(6, "ESP: SA_KEY with a Key ID", |c| set_ids(c, ESP, &[1, 7, u32::MAX], &[0])),
    any(6, "Rekey: SA_KEY with a Key ID", |c| set_ids(c, REKEY, &[1, 7, u32::MAX], &[0, 9])),
    either_rekey(6, "Rekey: one of several SA_KEYs with a Key ID", |c| {
        let key = Attribute::key(5, 0, &c.rng.octets(16));
        c.bag(REKEY)?.attributes.push(key);
        Some(())
    }),
    any(6, "ESP: SA_KEY under another key than the default one", |c| {
        let key = c.sa_key(ESP)?;
        let (id, kwk) = c.keys.first().cloned().unwrap_or((3, c.key0.clone()));
        c.sa_bag(ESP)?.attributes = vec![Attribute::key(0, id, &wrap(&kwk, &key))];
        Some(())
    }),
    registration(6, "WRAP_KEY with Key ID 0", |c| {
        let value = c.rng.octets(c.key0.len());
        let key = Attribute::key(0, 0, &wrap(&c.key0, &value));
        c.bag(0)?.attributes.push(key);
        Some(())
    }),
    registration(6, "WRAP_KEY with Key ID 0 that does not open", |c| {
        let key = Attribute::key(0, c.rng.pick(&[0, 77]), &c.rng.octets(24));
        c.bag(0)?.attributes.insert(0, key);
        Some(())
    }),
    registration(6, "a reached key that wraps itself", |c| {
        let (id, value) = reached(c)?;
        under_itself(c, id, &wrap(&value, &value))
    }),
    registration(6, "a reached key that wraps another value of itself", |c| {
        let (id, value) = reached(c)?;
        let other = c.rng.octets(value.len());
        under_itself(c, id, &wrap(&value, &other))
    }),
    registration(6, "a reached key under itself that does not open", |c| {
        let (id, octets) = (reached(c)?.0, c.rng.octets(24));
        under_itself(c, id, &octets)
    }),
    registration(6, "a key that nothing reaches and that wraps itself", |c| {
        let (id, value) = (c.unknown_id(), c.rng.octets(c.key0.len()));
        under_itself(c, id, &wrap(&value, &value))
    }),
    registration(6, "the last Key ID under itself", |c| {
        let (count, id) = (c.rng.pick(&[16, 24, 32, 264]), u32::MAX);
        let octets = c.rng.octets(count);
        under_itself(c, id, &octets)
    }),
    any(7, "one ESP policy too many", |c| {
        c.policy(ESP)?;
        esp_policies(c, MOST_ESP_POLICIES + 1)
    }),
    any(7, "60 ESP policies", many_policies),
    any(6, "60 ESP policies, two of one SPI", |c| {
        many_policies(c)?;
        let (policy, bag) = (c.policy(ESP)?.clone(), c.sa_bag(ESP)?.clone());
        let spi = policy.spi.clone();
        c.policies()?.push(policy);
        c.bags()?.push(Part { spi, ..bag });
        Some(())
    }),
    registration(7, "one WRAP_KEY too many", |c| fill(c, 0, MOST_WRAP_KEYS + 1)),
    registration(7, "one key too many in one chain, backwards", |c| one_chain(c, MOST_HELD as u32 + 1)),
    registration(7, "200 WRAP_KEY", |c| fill(c, 0, 200)),
    registration(6, "200 WRAP_KEY, the last with Key ID 0", |c| {
        fill(c, 0, 199)?;
        c.bag(0)?.attributes.push(Attribute::key(0, 0, &[0; 16]));
        Some(())
    }),
    registration(6, "one WRAP_KEY too many, one under its own Key ID", |c| {
        fill(c, 0, MOST_WRAP_KEYS)?;
        let id = c.unknown_id();
        under_itself(c, id, &[0; 16])
    }),
    rekey(7, "150 SA_KEY in a bag", |c| fill(c, REKEY, 150)),
    rekey(7, "2,000 deleted SPIs", |c| {
        c.delete()?.spis = vec![vec![0; 4]; 2000];
        Some(())
    }),
    rekey(7, "one SA_KEY in a bag too many", |c| fill(c, REKEY, MOST_SA_KEYS + 1)),
    rekey(7, "one deleted SPI too many", |c| {
        let spi = c.rng.octets(4);
        c.delete()?.spis = vec![spi; MOST_DELETED + 1];
        Some(())
    }),
    rekey(7, "one deleted SPI too many in two payloads", |c| {
        let first = c.rng.between(1, MOST_DELETED);
        c.delete()?.spis = vec![vec![7; 4]; first];
        c.insert(delete(&vec![vec![8; 4]; MOST_DELETED + 1 - first]));
        Some(())
    }),
    any(7, "a lifetime one second too long", |c| set_lifetime(c, MOST_SECONDS + 1)),
    any(7, "a lifetime of 4,294,967,295 seconds", |c| set_lifetime(c, u32::MAX)),
    either_rekey(7, "one SA too many", |c| sas_after(c, MOST_SAS + 1)),
    rekey(7, "one SA too many, the others live", |c| {
        c.member.table.iter().all(|sa| sa.condition == Condition::Live).then_some(())?;
        sas_after(c, MOST_SAS + 1)
    }),
];

fn live(sa: &Sa, tick: u32) -> bool {
    sa.condition == Condition::Live && !sa.is_due(tick)
}

/// Gives the announced SA the SPI of one in the table.
fn rename_as(c: &mut Case, protocol: u8, fits: fn(&Sa, u32) -> bool) -> Option<()> {
    let fitting: Vec<_> = c.member.table.iter().filter(|sa| sa.protocol == protocol && fits(sa, c.tick)).collect();
    let spi = fitting.get(c.rng.below(fitting.len()))?.spi.clone();
    c.rename(protocol, &spi)
}

fn set_lifetime(c: &mut Case, seconds: u32) -> Option<()> {
    let policy = c.some_sa_policy()?;
    without_lifetime(policy);
    policy.attributes.insert(0, lifetime(seconds));
    Some(())
}

fn many_policies(c: &mut Case) -> Option<()> {
    c.policy(ESP)?;
    esp_policies(c, 60)
}

/// Announces ESP SAs until there are so many policies of ESP.
pub fn esp_policies(c: &mut Case, count: usize) -> Option<()> {
    while c.policies()?.iter().filter(|policy| policy.protocol == ESP).count() < count {
        c.announce_esp()?;
    }
    Some(())
}

/// Announces ESP SAs until there are so many SAs after the frame; None if a frame does not take so many.
pub fn sas_after(c: &mut Case, count: usize) -> Option<()> {
    let tick = c.tick;
    let staying = c.member.table.iter().filter(|sa| !sa.is_due(tick)).count();
    let of = |c: &mut Case, fits: fn(&Part) -> bool| Some(c.policies()?.iter().filter(|policy| fits(policy)).count());
    let room = MOST_ESP_POLICIES.checked_sub(of(c, |policy| policy.protocol == ESP)?)?;
    let more = count.checked_sub(staying + of(c, |policy| policy.protocol != 0)?).filter(|more| *more <= room)?;
    (0..more).try_for_each(|_| c.announce_esp())
}

fn two_keys(c: &mut Case, protocol: u8) -> Option<()> {
    let bag = c.bag(protocol)?;
    let key = bag.attributes.first()?.clone();
    bag.attributes.push(key);
    Some(())
}

fn set_ids(c: &mut Case, protocol: u8, key_ids: &[u32], kwk_ids: &[u32]) -> Option<()> {
    let ids = [c.rng.pick(key_ids).to_be_bytes(), c.rng.pick(kwk_ids).to_be_bytes()].concat();
    match c.bag(protocol)?.attributes.first_mut()? {
        Attribute::Long { value, .. } => value.get_mut(..8)?.copy_from_slice(&ids),
        Attribute::Short(..) => return None,
    }
    Some(())
}

/// A reached key other than key 0.
fn reached(c: &mut Case) -> Option<(u32, Vec<u8>)> {
    c.keys.get(c.rng.below(c.keys.len())).cloned()
}

/// Adds a WRAP_KEY under its own Key ID at a place by chance.
fn under_itself(c: &mut Case, id: u32, wrapped: &[u8]) -> Option<()> {
    let at = c.rng.number() as usize;
    let entries = &mut c.bag(0)?.attributes;
    entries.insert(at % (entries.len() + 1), Attribute::key(id, id, wrapped));
    Some(())
}

/// Each of so many keys under the one before, the last one first; the Rekey SA's key, if one is announced, under the last.
pub fn one_chain(c: &mut Case, count: u32) -> Option<()> {
    let (mut kwk_id, mut kwk) = (0, c.key0.clone());
    let mut entries = Vec::new();
    c.keys.clear();
    for id in (1..=count).map(|i| 7 * i % 131) {
        let value = c.rng.octets(kwk.len());
        entries.insert(0, Attribute::key(id, kwk_id, &wrap(&kwk, &value)));
        c.keys.push((id, value.clone()));
        (kwk_id, kwk) = (id, value);
    }
    c.bag(0)?.attributes = entries;
    if c.only_copy(kwk_id, &kwk).is_some() {
        c.path = Some(c.keys.iter().rev().map(|key| key.0).collect());
    }
    Some(())
}

/// Repeats the first key of the bag until there are so many.
pub fn fill(c: &mut Case, protocol: u8, count: usize) -> Option<()> {
    let bag = c.bag(protocol)?;
    let key = bag.attributes.iter().find(|key| matches!(key, Attribute::Long { kind: 1, .. }))?.clone();
    while bag.attributes.len() < count {
        bag.attributes.push(key.clone());
    }
    (bag.attributes.len() == count).then_some(())
}
