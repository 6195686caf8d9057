//! Number 1: attributes wherever they stand, bags, Delete payloads.

use super::{any, either_rekey, registration, Violation};
use crate::case::Case;
use builder::{Attribute, Body, Delete, Part, AH, ESP, KD, REKEY};

pub const TABLE: &[Violation] = &[
    any(1, "attribute: past a transform", |c| {
        let attribute = overlong(c);
        c.some_transform()?.attributes.push(attribute);
        Some(())
    }),
    any(1, "attribute: past an SA policy", |c| {
        let attribute = overlong(c);
        c.some_sa_policy()?.attributes.push(attribute);
        Some(())
    }),
    any(1, "attribute: past the group-wide policy", |c| {
        let attribute = overlong(c);
        c.policy(0)?.attributes.push(attribute);
        Some(())
    }),
    any(1, "attribute: past a bag", |c| {
        let attribute = overlong(c);
        c.some_part(KD)?.attributes.push(attribute);
        Some(())
    }),
    any(1, "attribute: 1 to 3 octets in a transform", |c| {
        let octets = left_over(c);
        c.some_transform()?.tail = octets;
        Some(())
    }),
    any(1, "attribute: 1 to 3 octets in an SA policy", |c| {
        let octets = left_over(c);
        c.some_sa_policy()?.tail = octets;
        Some(())
    }),
    any(1, "attribute: 1 to 3 octets in the group-wide policy", |c| {
        let octets = left_over(c);
        c.policy(0)?.tail = octets;
        Some(())
    }),
    any(1, "attribute: 1 to 3 octets in a bag", |c| {
        let octets = left_over(c);
        c.some_part(KD)?.tail = octets;
        Some(())
    }),
    any(1, "Key Length: long format, in ESP", |c| long_key_length(c, ESP)),
    any(1, "Key Length: long format, in Rekey", |c| long_key_length(c, REKEY)),
    any(1, "Key Length: long format, in AH with another ID", |c| {
        let mut policy = c.policy(ESP)?.clone();
        policy.protocol = AH;
        for transform in policy.transforms.iter_mut().filter(|transform| transform.kind == 1) {
            (transform.id, transform.attributes) = (12, vec![Attribute::long(14, &[0, 128])]);
        }
        c.policies()?.push(policy);
        Some(())
    }),
    any(1, "GSA_INITIAL_MESSAGE_ID: short format", |c| {
        c.policy(REKEY)?.attributes.push(Attribute::Short(2, 0));
        Some(())
    }),
    any(1, "GSA_INITIAL_MESSAGE_ID: not 4 octets", |c| {
        let count = c.rng.pick(&[0, 1, 3, 5, 8]);
        c.policy(REKEY)?.attributes.push(Attribute::long(2, &vec![0; count]));
        Some(())
    }),
    any(1, "GSA_KEY_LIFETIME: short format, in ESP", |c| short_lifetime(c, ESP)),
    any(1, "GSA_KEY_LIFETIME: short format, in Rekey", |c| short_lifetime(c, REKEY)),
    any(1, "GSA_KEY_LIFETIME: short format, in AH", |c| short_lifetime(c, AH)),
    any(1, "GSA_KEY_LIFETIME: not 4 octets, in ESP", |c| unfit_lifetime(c, ESP)),
    any(1, "GSA_KEY_LIFETIME: not 4 octets, in Rekey", |c| unfit_lifetime(c, REKEY)),
    any(1, "GSA_KEY_LIFETIME: not 4 octets, in AH", |c| unfit_lifetime(c, AH)),
    any(1, "deactivation delay: long format", |c| {
        c.policy(0)?.attributes = vec![Attribute::long(2, &[0, 1])];
        Some(())
    }),
    any(1, "SA_KEY: short format", |c| {
        let protocol = c.rng.pick(&[ESP, REKEY]);
        c.bag(protocol)?.attributes.push(Attribute::Short(1, 0));
        Some(())
    }),
    any(1, "SA_KEY: wrapped octets of another count", |c| {
        let (protocol, key) = (c.rng.pick(&[ESP, REKEY]), unfit_key(c, 0));
        c.bag(protocol)?.attributes.push(key);
        Some(())
    }),
    any(1, "SA_KEY: under 8 octets", |c| {
        let (protocol, count) = (c.rng.pick(&[ESP, REKEY]), c.rng.below(8));
        c.bag(protocol)?.attributes.push(Attribute::long(1, &vec![0; count]));
        Some(())
    }),
    any(1, "SA_KEY: broken in an AH bag", |c| {
        let key = unfit_key(c, 0);
        c.bags()?.push(Part { attributes: vec![key], ..Part::named(AH, &[1, 2, 3, 4]) });
        Some(())
    }),
    registration(1, "WRAP_KEY: short format", |c| {
        c.bag(0)?.attributes.push(Attribute::Short(1, 7));
        Some(())
    }),
    registration(1, "WRAP_KEY: wrapped octets of another count", |c| {
        let key = unfit_key(c, 7);
        c.bag(0)?.attributes.push(key);
        Some(())
    }),
    registration(1, "WRAP_KEY: under 8 octets", |c| {
        let count = c.rng.below(8);
        c.bag(0)?.attributes.push(Attribute::long(1, &vec![0; count]));
        Some(())
    }),
    either_rekey(1, "WRAP_KEY: broken in a rekey's Member bag", |c| {
        let key = unfit_key(c, 7);
        c.bags()?.push(Part::unnamed(vec![key]));
        Some(())
    }),
    any(1, "bag: first octet", |c| {
        let octet = c.rng.pick(&[1, 4, 5, 7, 8, 16, 128, 255]);
        c.some_part(KD)?.protocol = octet;
        Some(())
    }),
    any(1, "bag: SPI size of Rekey", |c| spi_size(c, REKEY, &[0, 4, 15, 17, 255])),
    any(1, "bag: SPI size of ESP", |c| spi_size(c, ESP, &[0, 3, 5, 16, 255])),
    any(1, "bag: SPI size of AH", |c| {
        let second = c.rng.pick(&[0, 3, 5, 16]);
        c.bags()?.push(Part { second, ..Part::named(AH, &[1, 2, 3, 4]) });
        Some(())
    }),
    any(1, "bag: length under 4", |c| {
        let length = c.rng.below(4);
        c.some_part(KD)?.say_length(length);
        Some(())
    }),
    any(1, "bag: length too small for its SPI", |c| {
        let (protocol, length) = (c.rng.pick(&[ESP, REKEY]), c.rng.between(4, 7));
        c.bag(protocol)?.say_length(length);
        Some(())
    }),
    any(1, "bag: length past the payload", |c| {
        let more = c.rng.pick(&[1, 2, 4, 100]);
        c.bags()?.last_mut()?.skew = more;
        Some(())
    }),
    any(1, "bag: 1 to 3 octets of its header", |c| {
        let octets = left_over(c);
        c.payload(KD)?.tail = octets;
        Some(())
    }),
    any(1, "Delete: under 4 octets", |c| {
        let octets = [3, 4, 0][..c.rng.below(4)].to_vec();
        c.made_delete()?.body = Body::Plain(octets);
        Some(())
    }),
    any(1, "Delete: count not that of its SPIs", |c| {
        let skew = c.rng.pick(&[-1, 1, 2, 256, 16384]);
        set_delete(c, Delete { skew, ..Delete::new(ESP, 4, &[vec![1; 4]]) })
    }),
    any(1, "Delete: ESP with another size", |c| {
        let size = c.rng.pick(&[0, 1, 3, 5, 16]);
        set_delete(c, Delete::new(ESP, size as u8, &[vec![1; size], vec![2; size]]))
    }),
    any(1, "Delete: ESP with size 5 and count 0", |c| {
        let size = c.rng.pick(&[0, 3, 5, 16]);
        set_delete(c, Delete::new(ESP, size, &[]))
    }),
    any(1, "Delete: another protocol, size times count not the rest", |c| {
        let protocol = c.rng.pick(&[0, 1, AH, REKEY, 255]);
        let wrong = Delete { skew: c.rng.pick(&[-1, 1]), ..Delete::new(protocol, 4, &[vec![1; 4], vec![2; 4]]) };
        let sizeless = Delete::new(protocol, 0, &[vec![1; 4]]);
        let delete = c.rng.pick(&[wrong, sizeless]);
        set_delete(c, delete)
    }),
];

/// An attribute that nobody reads, of a length that goes past what holds it.
fn overlong(c: &mut Case) -> Attribute {
    let count = c.rng.below(5);
    Attribute::Long { kind: c.rng.pick(&[4, 99, 0x7fff]), skew: c.rng.pick(&[1, 4, 1000, 60000]), value: c.rng.octets(count) }
}

fn left_over(c: &mut Case) -> Vec<u8> {
    let count = c.rng.between(1, 3);
    c.rng.octets(count)
}

fn long_key_length(c: &mut Case, protocol: u8) -> Option<()> {
    let (more, count) = (c.rng.chance(50), c.rng.pick(&[0, 2, 4]));
    let attributes = &mut c.transform(protocol, 1)?.attributes;
    if !more {
        attributes.clear();
    }
    attributes.push(Attribute::long(14, &[0, 128, 0, 0][..count]));
    Some(())
}

/// A policy of that protocol; one of AH is made.
pub fn policy_of(c: &mut Case, protocol: u8) -> Option<&mut Part> {
    if protocol == AH {
        let policy = Part { protocol, ..c.policy(ESP)?.clone() };
        c.policies()?.push(policy);
    }
    c.policy(protocol)
}

fn short_lifetime(c: &mut Case, protocol: u8) -> Option<()> {
    policy_of(c, protocol)?.attributes.push(Attribute::Short(1, 30));
    Some(())
}

fn unfit_lifetime(c: &mut Case, protocol: u8) -> Option<()> {
    let count = c.rng.pick(&[0, 1, 2, 3, 5, 8]);
    policy_of(c, protocol)?.attributes.push(Attribute::long(1, &vec![0; count]));
    Some(())
}

/// SA_KEY or WRAP_KEY whose wrapped octets are not 16 to 264 or no multiple of 8.
fn unfit_key(c: &mut Case, key_id: u32) -> Attribute {
    let count = c.rng.pick(&[0, 8, 15, 17, 20, 28, 263, 265, 272]);
    let octets = c.rng.octets(count);
    Attribute::key(key_id, 0, &octets)
}

fn spi_size(c: &mut Case, protocol: u8, sizes: &[u8]) -> Option<()> {
    let size = c.rng.pick(sizes);
    c.bag(protocol)?.second = size;
    Some(())
}

fn set_delete(c: &mut Case, delete: Delete) -> Option<()> {
    c.made_delete()?.body = Body::Delete(delete);
    Some(())
}
