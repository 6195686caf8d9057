//! Numbers 2, 3 and 4. (A member value that breaks its list cannot come through the program.)

use super::attributes::policy_of;
use super::{any, either_rekey, inband, registration, rekey, with_lent_key, Violation};
use crate::case::Case;
use builder::typical::*;
use builder::{Attribute, Body, Delete, Part, Payload, AH, DELETE, ESP, GSA, KD, NOTIFY, REKEY};
use reference::member::Condition;

pub const TABLE: &[Violation] = &[
    any(2, "exchange not one of the four", |c| {
        c.frame.exchange = c.rng.pick(&[0, 34, 35, 36, 37, 38, 43, 44, 169, 255]);
        Some(())
    }),
    registration(2, "rekey of a member without a Rekey SA", |c| {
        c.frame.exchange = GSA_REKEY;
        Some(())
    }),
    registration(2, "rekey over the own channel of an empty member", |c| {
        c.frame.exchange = GSA_INBAND_REKEY;
        Some(())
    }),
    inband(2, "rekey over the own channel as one over the Rekey SA", |c| {
        c.frame.exchange = GSA_REKEY;
        c.member.live_rekey().is_none_or(|sa| sa.spi != c.frame.spis).then_some(())
    }),
    either_rekey(2, "registration of a non-empty member", |c| {
        c.frame.exchange = c.rng.pick(&[GSA_AUTH, GSA_REGISTRATION]);
        Some(())
    }),
    rekey(2, "rekey: initiator's SPI", |c| {
        c.frame.spis[c.rng.below(8)] ^= 1 << c.rng.below(8);
        Some(())
    }),
    rekey(2, "rekey: responder's SPI", |c| {
        c.frame.spis[8 + c.rng.below(8)] ^= 1 << c.rng.below(8);
        Some(())
    }),
    rekey(2, "rekey: the two SPIs exchanged", |c| {
        let before = c.frame.spis.clone();
        c.frame.spis.rotate_left(8);
        (c.frame.spis != before).then_some(())
    }),
    rekey(2, "rekey: SPIs of a retiring Rekey SA", |c| {
        let mut retiring = c.member.table.iter().filter(|sa| sa.protocol == REKEY && sa.condition != Condition::Live);
        c.frame.spis = retiring.next()?.spi.clone();
        Some(())
    }),
    rekey(2, "rekey: SPIs of the announced Rekey SA", |c| {
        c.frame.spis = c.policy(REKEY)?.spi.clone();
        Some(())
    }),
    rekey(3, "Message ID one below the least", |c| {
        c.frame.message_id = c.member.least_id?.checked_sub(1)?;
        Some(())
    }),
    rekey(3, "Message ID well below the least", |c| {
        let least = c.member.least_id.filter(|least| *least > 0)?;
        c.frame.message_id = c.rng.number() as u32 % least;
        Some(())
    }),
    any(4, "critical unknown payload", |c| {
        let kind = c.rng.pick(&[1, 32, 33, 34, 35, 38, 40, 43, 44, 46, 48, 50, 53, 54, 128, 255]);
        let mut payload = Payload::new(kind, Body::Plain(c.rng.octets(5)));
        payload.flags = 0x80 | c.rng.number() as u8;
        c.insert(payload);
        Some(())
    }),
    either_rekey(4, "Member bag in a rekey", |c| {
        let key = Attribute::key(7, 0, &c.rng.octets(24));
        c.bags()?.push(Part::unnamed(vec![key]));
        Some(())
    }),
    either_rekey(4, "Member bag in a rekey, empty", |c| {
        c.bags()?.insert(0, Part::unnamed(vec![]));
        Some(())
    }),
    with_lent_key(4, "Delete in a frame with a lent key", |c| {
        c.made_delete()?;
        Some(())
    }),
    with_lent_key(4, "Delete in a frame with a lent key, of a kind that GSA_REKEY refuses as 5", |c| {
        let delete = c.rng.pick(&[Delete::new(ESP, 4, &[]), Delete::new(REKEY, 16, &[vec![0; 16]]), Delete::new(0, 0, &[])]);
        c.insert(Payload::new(DELETE, Body::Delete(delete)));
        Some(())
    }),
    inband(4, "Delete alone over the own channel", |c| {
        c.remove(GSA)?;
        c.remove(KD)?;
        c.made_delete()?;
        Some(())
    }),
    any(4, "two GSA", |c| twice(c, GSA)),
    any(4, "two GSA, one empty", |c| {
        c.insert(gsa(vec![]));
        Some(())
    }),
    any(4, "two KD", |c| twice(c, KD)),
    any(4, "two KD, one empty", |c| {
        c.insert(kd(vec![]));
        Some(())
    }),
    any(4, "two GSA and two KD, the second ones empty", |c| {
        c.insert(gsa(vec![]));
        c.insert(kd(vec![]));
        Some(())
    }),
    any(4, "policies in two GSA, bags in two KD", |c| {
        let (policy, bag) = (c.policies()?.pop()?, c.bags()?.pop()?);
        c.insert(gsa(vec![policy]));
        c.insert(kd(vec![bag]));
        Some(())
    }),
    any(4, "GSA without KD", |c| c.remove(KD)),
    any(4, "KD without GSA", |c| c.remove(GSA)),
    any(4, "neither GSA nor KD", |c| {
        c.frame.payloads.retain(|payload| ![GSA, KD, DELETE].contains(&payload.kind));
        if c.rng.chance(50) {
            c.insert(Payload::new(NOTIFY, Body::Plain(vec![0; 8])));
        }
        Some(())
    }),
    any(4, "two Rekey policies", |c| {
        c.policy(REKEY)?;
        c.announce_rekey()
    }),
    any(4, "two group-wide policies", |c| {
        c.policy(0)?;
        let second = c.rng.pick(&[Part::unnamed(vec![]), delay_policy(3)]);
        c.policies()?.push(second);
        Some(())
    }),
    registration(4, "two Member bags", |c| {
        c.bag(0)?;
        c.bags()?.push(Part::unnamed(vec![]));
        Some(())
    }),
    any(4, "GSA with no SA policy", |c| {
        c.policies()?.retain(|policy| policy.protocol == 0);
        c.bags()?.retain(|bag| bag.protocol == 0);
        Some(())
    }),
    any(4, "empty GSA and KD", |c| {
        c.policies()?.clear();
        c.bags()?.clear();
        Some(())
    }),
    any(4, "Key Length twice, in ESP", |c| again(&mut c.transform(ESP, 1)?.attributes, None)),
    any(4, "Key Length twice, in Rekey", |c| again(&mut c.transform(REKEY, 1)?.attributes, None)),
    any(4, "Key Length twice with two values", |c| again(&mut c.transform(ESP, 1)?.attributes, Some(Attribute::Short(14, 512)))),
    any(4, "Key Length twice, in AH", |c| {
        let mut policy = c.policy(ESP)?.clone();
        policy.protocol = AH;
        let encryption = policy.transforms.iter_mut().find(|transform| transform.kind == 1)?;
        again(&mut encryption.attributes, None)?;
        c.policies()?.push(policy);
        Some(())
    }),
    any(4, "GSA_INITIAL_MESSAGE_ID twice", |c| {
        let attributes = &mut c.policy(REKEY)?.attributes;
        attributes.retain(|attribute| !matches!(attribute, Attribute::Long { kind: 2, .. }));
        attributes.extend([initial_message_id(1), initial_message_id(1)]);
        Some(())
    }),
    any(4, "GSA_KEY_LIFETIME twice, in ESP", |c| two_lifetimes(c, ESP)),
    any(4, "GSA_KEY_LIFETIME twice, in Rekey", |c| two_lifetimes(c, REKEY)),
    any(4, "GSA_KEY_LIFETIME twice, in AH", |c| two_lifetimes(c, AH)),
    any(4, "deactivation delay twice", |c| {
        let value = c.rng.pick(&[0, 7]);
        c.policy(0)?.attributes = vec![Attribute::Short(2, 7), Attribute::Short(2, value)];
        Some(())
    }),
    any(4, "Rekey destination: two addresses", |c| {
        let at = c.rng.below(3);
        c.policy(REKEY)?.selectors.get_mut(1)?.end[1 + at] ^= 1;
        Some(())
    }),
    any(4, "Rekey destination: no multicast address", |c| {
        let first = c.rng.pick(&[0, 10, 127, 192, 223, 240, 254]);
        let selector = c.policy(REKEY)?.selectors.get_mut(1)?;
        (selector.start[0], selector.end[0]) = (first, first);
        Some(())
    }),
    any(4, "Rekey destination: first octet of the other kind of address", |c| {
        let selector = c.policy(REKEY)?.selectors.get_mut(1)?;
        let first = if selector.start.len() == 4 { 255 } else { 239 };
        (selector.start[0], selector.end[0]) = (first, first);
        Some(())
    }),
    any(4, "Rekey destination: two ports", |c| {
        let ports = c.rng.pick(&[(0, 65535), (848, 849), (849, 848), (0, 1)]);
        c.policy(REKEY)?.selectors.get_mut(1)?.ports = ports;
        Some(())
    }),
];

/// Equal ones, or one of them too long.
fn two_lifetimes(c: &mut Case, protocol: u8) -> Option<()> {
    let seconds = c.rng.pick(&[30, 31, u32::MAX]);
    policy_of(c, protocol)?.attributes.extend([lifetime(30), lifetime(seconds)]);
    Some(())
}

/// The payload of that kind once more.
fn twice(c: &mut Case, kind: u8) -> Option<()> {
    let payload = c.payload(kind)?.clone();
    c.insert(payload);
    Some(())
}

/// The first attribute once more, or another one.
fn again(attributes: &mut Vec<Attribute>, other: Option<Attribute>) -> Option<()> {
    let first = attributes.first()?.clone();
    attributes.push(other.unwrap_or(first));
    Some(())
}
