//! Number 1: header, payloads, policies, selectors, transforms. (Over 16,384 octets is a bad line already.)

use super::{any, Violation};
use crate::case::Case;
use builder::{Body, Part, Payload, AH, ESP, GSA, NOTIFY, REKEY};

pub const TABLE: &[Violation] = &[
    any(1, "header: under 28 octets", |c| {
        c.frame.cut = Some(c.rng.below(28));
        Some(())
    }),
    any(1, "header: length too small", |c| {
        c.frame.skew = -c.rng.pick(&[1, 4, 28]);
        Some(())
    }),
    any(1, "header: length too large", |c| {
        c.frame.skew = c.rng.pick(&[1, 4, 65536, 1 << 31]);
        Some(())
    }),
    any(1, "header: major version not 2", |c| {
        c.frame.version = c.rng.pick(&[0x00, 0x02, 0x10, 0x1f, 0x30, 0xa0, 0xf2]);
        Some(())
    }),
    any(1, "header: names a payload that is not there", |c| {
        c.frame.payloads.clear();
        c.frame.first = Some(c.rng.pick(&[GSA, NOTIFY, 1, 255]));
        Some(())
    }),
    any(1, "payload: length under 4", |c| {
        let (at, length) = (c.rng.below(c.frame.payloads.len()), c.rng.below(4));
        c.frame.payloads.get_mut(at)?.say_length(length);
        Some(())
    }),
    any(1, "payload: length of an unread one under 4", |c| {
        let mut payload = notify(c, 3);
        payload.say_length(c.rng.below(4));
        c.insert(payload);
        Some(())
    }),
    any(1, "payload: length past the frame", |c| {
        let more = c.rng.pick(&[1, 2, 4, 1000]);
        c.frame.payloads.last_mut()?.skew = more;
        Some(())
    }),
    any(1, "payload: length of an inner one past the frame", |c| {
        let at = c.rng.below(c.frame.payloads.len());
        c.frame.payloads.get_mut(at)?.say_length(65535);
        Some(())
    }),
    any(1, "payload: cut at the end, header length right", |c| {
        let less = c.rng.between(1, 8);
        let whole = c.frame.octets().len();
        c.frame.cut = Some(whole - less);
        c.frame.skew = -(less as i64);
        Some(())
    }),
    any(1, "payload: last one ends before the frame", |c| {
        let mut payload = notify(c, 8);
        payload.skew = -(c.rng.between(1, 8) as i64);
        c.frame.payloads.push(payload);
        Some(())
    }),
    any(1, "payload: octets after next payload 0", |c| {
        let count = c.rng.between(1, 9);
        c.frame.tail = c.rng.octets(count);
        Some(())
    }),
    any(1, "payload: next payload 0 too early", |c| {
        let inner = c.frame.payloads.len().checked_sub(1)?;
        let at = c.rng.below(inner);
        c.frame.payloads[..inner].get_mut(at)?.next = Some(0);
        Some(())
    }),
    any(1, "payload: named and not there", |c| {
        let kind = c.rng.pick(&[NOTIFY, GSA, 33, 200]);
        c.frame.payloads.last_mut()?.next = Some(kind);
        Some(())
    }),
    any(1, "payload: 1 to 3 octets of its header", |c| {
        let count = c.rng.between(1, 3);
        c.frame.payloads.last_mut()?.next = Some(NOTIFY);
        c.frame.tail = c.rng.octets(count);
        Some(())
    }),
    any(1, "policy: first octet", |c| {
        let octet = c.rng.pick(&[1, 4, 5, 7, 8, 16, 128, 255]);
        c.some_part(GSA)?.protocol = octet;
        Some(())
    }),
    any(1, "policy: SPI size of Rekey", |c| spi_size(c, REKEY, &[0, 4, 15, 17, 255])),
    any(1, "policy: SPI size of ESP", |c| spi_size(c, ESP, &[0, 3, 5, 16, 255])),
    any(1, "policy: SPI size of AH", |c| {
        let mut policy = c.policy(ESP)?.clone();
        (policy.protocol, policy.second) = (AH, c.rng.pick(&[0, 3, 5, 16]));
        c.policies()?.push(policy);
        Some(())
    }),
    any(1, "policy: Rekey with an SPI of 4 octets", |c| other_spi(c, REKEY, 4)),
    any(1, "policy: ESP with an SPI of 16 octets", |c| other_spi(c, ESP, 16)),
    any(1, "policy: length under 4", |c| {
        let length = c.rng.below(4);
        c.some_part(GSA)?.say_length(length);
        Some(())
    }),
    any(1, "policy: length too small for its SPI", |c| {
        let length = c.rng.between(4, 7);
        c.some_sa_policy()?.say_length(length);
        Some(())
    }),
    any(1, "policy: length past the payload", |c| {
        let more = c.rng.pick(&[1, 2, 4, 100]);
        c.policies()?.last_mut()?.skew = more;
        Some(())
    }),
    any(1, "policy: 1 to 3 octets of its header", |c| {
        let count = c.rng.between(1, 3);
        let octets = c.rng.octets(count);
        c.payload(GSA)?.tail = octets;
        Some(())
    }),
    any(1, "selector: type", |c| {
        let kind = c.rng.pick(&[0, 1, 6, 9, 10, 255]);
        c.some_selector()?.kind = kind;
        Some(())
    }),
    any(1, "selector: length", |c| {
        let skew = c.rng.pick(&[-8, -4, -1, 1, 4, 24, -24]);
        c.some_selector()?.skew = skew;
        Some(())
    }),
    any(1, "selector: IPv4 with addresses of 16 octets", |c| addresses(c, 7, 16)),
    any(1, "selector: IPv6 with addresses of 4 octets", |c| addresses(c, 8, 4)),
    any(1, "selector: only one", |c| {
        c.some_sa_policy()?.selectors.pop()?;
        Some(())
    }),
    any(1, "selector: policy ends behind the SPI or the source", |c| {
        let count = c.rng.below(2);
        let policy = c.some_sa_policy()?;
        policy.selectors.truncate(count);
        policy.transforms.clear();
        policy.attributes.clear();
        Some(())
    }),
    any(1, "transform: none", |c| {
        let policy = c.some_sa_policy()?;
        policy.transforms.clear();
        policy.attributes.clear();
        Some(())
    }),
    any(1, "transform: first octet", |c| {
        let octet = c.rng.pick(&[1, 2, 4, 128, 255]);
        c.some_transform()?.more = Some(octet);
        Some(())
    }),
    any(1, "transform: 3 with nothing behind", |c| more_with_tail(c, 0)),
    any(1, "transform: 3 with under 8 octets behind", |c| {
        let count = c.rng.between(1, 7);
        more_with_tail(c, count)
    }),
    any(1, "transform: length under 8", |c| {
        let length = c.rng.below(8);
        c.some_transform()?.say_length(length);
        Some(())
    }),
    any(1, "transform: length past the policy", |c| {
        c.some_transform()?.say_length(60000);
        Some(())
    }),
];

fn notify(c: &mut Case, count: usize) -> Payload {
    Payload::new(NOTIFY, Body::Plain(c.rng.octets(count)))
}

fn spi_size(c: &mut Case, protocol: u8, sizes: &[u8]) -> Option<()> {
    let size = c.rng.pick(sizes);
    c.policy(protocol)?.second = size;
    Some(())
}

fn other_spi(c: &mut Case, protocol: u8, size: usize) -> Option<()> {
    let spi = c.rng.octets(size);
    let policy = c.policy(protocol)?;
    *policy = Part { second: size as u8, spi, ..policy.clone() };
    Some(())
}

fn addresses(c: &mut Case, kind: u8, size: usize) -> Option<()> {
    let address = c.rng.octets(size);
    let selector = c.some_selector()?;
    (selector.kind, selector.start, selector.end) = (kind, address.clone(), address);
    Some(())
}

/// The last transform says that another follows, of which so many octets stand.
fn more_with_tail(c: &mut Case, count: usize) -> Option<()> {
    let policy = c.some_sa_policy()?;
    policy.attributes.clear();
    policy.tail = [0, 0, 0, 8, 5, 0, 0][..count].to_vec();
    policy.transforms.last_mut()?.more = Some(3);
    Some(())
}
