//! Number 5. (A lent default key of another size is the matter of scripts of their own.)

use super::{any, rekey, Violation};
use crate::case::Case;
use crate::limits::MOST_SECONDS;
use crate::lives::without_lifetime;
use builder::typical::*;
use builder::{Attribute, Body, Delete, Part, Payload, Transform, AH, DELETE, ESP, REKEY};

const ENCRYPTION: u8 = 1;
const NUMBERS: u8 = 5;
const WRAP: u8 = 13;
const AUTHENTICATION: u8 = 14;

pub const TABLE: &[Violation] = &[
    any(5, "AH policy and bag", |c| {
        ah_policy(c)?;
        ah_bag(c)
    }),
    any(5, "AH policy without a bag", ah_policy),
    any(5, "AH bag without a policy", ah_bag),
    any(5, "AH policy with an ESP SA's transforms", |c| {
        let policy = Part { protocol: AH, ..c.policy(ESP)?.clone() };
        c.policies()?.push(policy);
        Some(())
    }),
    any(5, "AH policy with a lifetime that is too long", |c| {
        let mut policy = Part { protocol: AH, ..c.policy(ESP)?.clone() };
        without_lifetime(&mut policy);
        policy.attributes.push(lifetime(MOST_SECONDS + 1));
        c.policies()?.push(policy);
        Some(())
    }),
    any(5, "ESP: hundreds of transforms", |c| many_transforms(c, ESP)),
    any(5, "Rekey: hundreds of transforms", |c| many_transforms(c, REKEY)),
    any(5, "ESP: no encryption", |c| without(c, ESP, ENCRYPTION)),
    any(5, "ESP: encryption twice", |c| twice(c, ESP, ENCRYPTION)),
    any(5, "ESP: encryption with another ID", |c| with_id(c, ESP, ENCRYPTION, &[0, 12, 18, 19, 21, 28, 276])),
    any(5, "ESP: no Key Length", |c| without_key_length(c, ESP)),
    any(5, "ESP: another Key Length", |c| with_key_length(c, ESP)),
    any(5, "ESP: no sequence numbers", |c| without(c, ESP, NUMBERS)),
    any(5, "ESP: sequence numbers twice", |c| twice(c, ESP, NUMBERS)),
    any(5, "ESP: sequence numbers with ID 1", |c| with_id(c, ESP, NUMBERS, &[1])),
    any(5, "ESP: sequence numbers with another ID", |c| with_id(c, ESP, NUMBERS, &[3, 4, 256, 512, 65535])),
    any(5, "ESP: a further transform", |c| further(c, ESP, &[0, 2, 3, 4, 13, 14, 255])),
    any(5, "ESP: another type in place of sequence numbers", |c| in_place(c, ESP, NUMBERS, &[0, 2, 3, 13, 14])),
    any(5, "Rekey: no encryption", |c| without(c, REKEY, ENCRYPTION)),
    any(5, "Rekey: encryption twice", |c| twice(c, REKEY, ENCRYPTION)),
    any(5, "Rekey: encryption with another ID", |c| with_id(c, REKEY, ENCRYPTION, &[0, 12, 18, 19, 21, 28, 276])),
    any(5, "Rekey: no Key Length", |c| without_key_length(c, REKEY)),
    any(5, "Rekey: another Key Length", |c| with_key_length(c, REKEY)),
    any(5, "Rekey: no key wrap", |c| without(c, REKEY, WRAP)),
    any(5, "Rekey: key wrap twice", |c| twice(c, REKEY, WRAP)),
    any(5, "Rekey: key wrap with another ID", |c| with_id(c, REKEY, WRAP, &[0, 4, 5, 257, 65535])),
    any(5, "Rekey: no controller authentication", |c| without(c, REKEY, AUTHENTICATION)),
    any(5, "Rekey: controller authentication twice", |c| twice(c, REKEY, AUTHENTICATION)),
    any(5, "Rekey: controller authentication with another ID", |c| with_id(c, REKEY, AUTHENTICATION, &[0, 3, 257, 65535])),
    any(5, "Rekey: a further transform", |c| further(c, REKEY, &[0, 2, 3, 4, 5, 15, 255])),
    any(5, "Rekey: another type in place of key wrap", |c| in_place(c, REKEY, WRAP, &[0, 2, 3, 5])),
    any(5, "Rekey: another type in place of controller authentication", |c| in_place(c, REKEY, AUTHENTICATION, &[0, 2, 3, 5])),
    rekey(5, "Delete of another protocol", |c| {
        let protocol = c.rng.pick(&[0, 1, AH, 4, 5, REKEY, 255]);
        let size = c.rng.pick(&[1, 4, 16]);
        replace_delete(c, Delete::new(protocol, size as u8, &[vec![0; size]]))
    }),
    rekey(5, "Delete of another protocol with size 0", |c| {
        let delete = Delete { skew: c.rng.pick(&[0, 1, 40, 65535]), ..Delete::new(c.rng.pick(&[0, AH, REKEY]), 0, &[]) };
        replace_delete(c, delete)
    }),
    rekey(5, "Delete with count 0", |c| replace_delete(c, Delete::new(ESP, 4, &[]))),
    rekey(5, "Delete with count 0 beside a good one", |c| {
        c.delete()?;
        c.insert(Payload::new(DELETE, Body::Delete(Delete::new(ESP, 4, &[]))));
        Some(())
    }),
    rekey(5, "Delete of Rekey SAs beside a good one", |c| {
        c.delete()?;
        c.insert(Payload::new(DELETE, Body::Delete(Delete::new(REKEY, 16, &[vec![0; 16]]))));
        Some(())
    }),
];

fn ah_policy(c: &mut Case) -> Option<()> {
    let transforms = vec![Transform::new(3, 12, vec![]), sequence_numbers(0)];
    let selectors = vec![any_source(), multicast()];
    c.policies()?.push(Part { selectors, transforms, ..Part::named(AH, &[9, 8, 7, 6]) });
    Some(())
}

fn ah_bag(c: &mut Case) -> Option<()> {
    let key = Attribute::key(0, 0, &c.rng.octets(32));
    c.bags()?.push(bag(AH, &[9, 8, 7, 6], vec![key]));
    Some(())
}

fn many_transforms(c: &mut Case, protocol: u8) -> Option<()> {
    let transform = c.some_transform()?.clone();
    c.policy(protocol)?.transforms.extend(vec![transform; 300]);
    Some(())
}

fn without(c: &mut Case, protocol: u8, kind: u8) -> Option<()> {
    c.policy(protocol)?.transforms.retain(|transform| transform.kind != kind);
    Some(())
}

fn twice(c: &mut Case, protocol: u8, kind: u8) -> Option<()> {
    let transform = c.transform(protocol, kind)?.clone();
    c.policy(protocol)?.transforms.push(transform);
    Some(())
}

fn with_id(c: &mut Case, protocol: u8, kind: u8, ids: &[u16]) -> Option<()> {
    let id = c.rng.pick(ids);
    c.transform(protocol, kind)?.id = id;
    Some(())
}

fn further(c: &mut Case, protocol: u8, kinds: &[u8]) -> Option<()> {
    let transform = Transform::new(c.rng.pick(kinds), c.rng.pick(&[0, 1]), vec![]);
    c.policy(protocol)?.transforms.insert(0, transform);
    Some(())
}

fn in_place(c: &mut Case, protocol: u8, kind: u8, kinds: &[u8]) -> Option<()> {
    let other = c.rng.pick(kinds);
    c.transform(protocol, kind)?.kind = other;
    Some(())
}

fn without_key_length(c: &mut Case, protocol: u8) -> Option<()> {
    c.transform(protocol, ENCRYPTION)?.attributes.clear();
    Some(())
}

fn with_key_length(c: &mut Case, protocol: u8) -> Option<()> {
    let bits = c.rng.pick(&[0, 16, 64, 127, 129, 160, 224, 255, 512, 0x8080, 65535]);
    c.transform(protocol, ENCRYPTION)?.attributes = vec![Attribute::Short(14, bits)];
    Some(())
}

fn replace_delete(c: &mut Case, delete: Delete) -> Option<()> {
    c.made_delete()?.body = Body::Delete(delete);
    Some(())
}
