//! The smallest policies and bags, and hundreds of names to pair.

use super::{broken, closed_esp, closed_sas, fill, full, new, registration, room_for_many, Hostile, GSA_AT, KD_AT};
use super::{MOST_ESP_POLICIES, MOST_FRAME, MOST_SAS};
use crate::group::{announce, Group, Sa};
use builder::typical::*;
use builder::{Attribute, Frame, Part, Transform, AH, ESP};

/// Octets of an ESP policy, of its bag with the smallest SA_KEY, and of a bag with none.
const POLICY: usize = 60;
const BAG: usize = 36;
const EMPTY_BAG: usize = 8;

pub const TABLE: &[Hostile] = &[
    new(4, "policies-group-wide", |_| {
        fill(registration(closed_sas()), 4, |frame, count| parts(frame, GSA_AT).extend(vec![Part::unnamed(vec![]); count]))
    }),
    new(5, "policies-esp", |_| policies(ESP)),
    new(5, "policies-ah", |_| policies(AH)),
    new(4, "bags-member", |_| {
        fill(registration(closed_sas()), 4, |frame, count| parts(frame, KD_AT).extend(vec![Part::unnamed(vec![]); count]))
    }),
    new(6, "bags-esp", |_| bags_and_policies(1)),
    new(6, "bags-for-136-policies", |_| bags_and_policies(136)),
    new(6, "paired-without-keys", |_| paired(POLICY + EMPTY_BAG, |sas| sas.iter_mut().for_each(|sa| sa.1.attributes.clear()))),
    new(7, "paired", |_| paired(POLICY + BAG, |_| {})),
    new(7, "paired-backwards", |_| backwards(paired(POLICY + BAG, |_| {}))),
    new(6, "paired-one-name", |_| paired(POLICY + BAG, |sas| sas.fill(closed_esp(1)))),
    new(6, "paired-last-name-twice", |_| {
        paired(POLICY + BAG, |sas| {
            let last = sas.len() - 1;
            sas[last] = sas[last - 1].clone();
        })
    }),
    new(6, "paired-last-apart", |_| paired(POLICY + BAG, |sas| last_bag(sas).spi[3] ^= 0x80)),
    new(6, "paired-last-key-id", |_| paired(POLICY + BAG, |sas| last_bag(sas).attributes = vec![Attribute::key(1, 0, &[0; 16])])),
    broken(MOST_FRAME - 28, "paired-last-length", |_| {
        let past = Attribute::Long { kind: 99, skew: 1, value: vec![0; 24] };
        paired(POLICY + BAG, |sas| last_bag(sas).attributes = vec![past])
    }),
    full(7, "paired-full-table", |group| {
        let registration = paired(POLICY + BAG, |_| {});
        group.rekey(registration.payloads)
    }),
    full(6, "paired-last-in-table", |group| {
        let registration = paired(POLICY + BAG, |sas| *sas.last_mut().expect("SAs") = closed_esp(MOST_SAS - 1));
        group.rekey(registration.payloads)
    }),
    full(7, "esps-and-deletes-full-table", esps_and_deletes),
    room_for_many(9, "esps-and-deletes", esps_and_deletes),
];

/// 24 ESP SAs whose keys do not open, and Deletes of the 32 SAs that come last in a full table, each in its own payload.
fn esps_and_deletes(group: &mut Group) -> Frame {
    let sas = (0..MOST_ESP_POLICIES).map(|number| closed_esp(0x5500_0000 + number)).collect();
    let deleted = (MOST_SAS - 32..MOST_SAS).map(|spi| delete(&[spi.to_be_bytes().to_vec()]));
    group.rekey(announce(sas).into_iter().chain(deleted).collect())
}

fn parts(frame: &mut Frame, payload: usize) -> &mut Vec<Part> {
    frame.payloads[payload].parts()
}

/// Names that differ in their last octets alone.
fn many(count: usize) -> Vec<Sa> {
    (0..count as u32).map(|number| closed_esp(0x5500_0000 + number)).collect()
}

/// As many policies as fit, with the least that a layout asks for: one transform, no attributes.
fn policies(protocol: u8) -> Frame {
    fill(registration(announce(vec![])), POLICY - 12, |frame, count| {
        let smallest = |policy: Part| Part { protocol, transforms: vec![Transform::new(5, 0, vec![])], ..policy };
        *parts(frame, GSA_AT) = many(count).into_iter().map(|sa| smallest(sa.0)).collect();
    })
}

/// So many policies, and as many bags without a key as fit; those with a policy come last.
fn bags_and_policies(policies: usize) -> Frame {
    let frame = registration(vec![gsa(many(policies).into_iter().map(|sa| sa.0).collect()), kd(vec![])]);
    fill(frame, EMPTY_BAG, |frame, count| {
        let bags = many(count).into_iter().map(|sa| Part { attributes: vec![], ..sa.1 });
        *parts(frame, KD_AT) = bags.rev().collect();
    })
}

/// As many SAs of so many octets as fit, changed in some way.
fn paired(octets: usize, change: impl FnOnce(&mut Vec<Sa>)) -> Frame {
    fill(registration(announce(vec![])), octets, |frame, count| {
        let mut sas = many(count);
        change(&mut sas);
        frame.payloads = announce(sas);
    })
}

fn backwards(mut frame: Frame) -> Frame {
    parts(&mut frame, KD_AT).reverse();
    frame
}

fn last_bag(sas: &mut [Sa]) -> &mut Part {
    &mut sas.last_mut().expect("SAs").1
}
