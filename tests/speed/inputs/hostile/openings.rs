//! As much to open as one frame may ask for: 128 WRAP_KEYs and 25 copies in a registration, 56 copies in a rekey; of the longest keys as
//! many as 16,384 octets hold.

use super::{fill, last_held, new, registered, registration, rekey_sa, Hostile, GSA_AT, KD_AT, KEY_SIZE, LONGEST, MOST_FRAME};
use super::{MOST_ESP_POLICIES, MOST_HELD};
use crate::group::{announce, Group, Key, Sa};
use builder::typical::*;
use builder::wrapping::wrap;
use builder::{Attribute, Frame, Part, ESP};

pub const TABLE: &[Hostile] = &[
    new(9, "entries-closed", |_| with_longest_entries(|id, _| closed(id, 0))),
    new(9, "entries-in-a-chain", |group| with_closed_copies(group.chain(MOST_HELD))),
    new(9, "entries-in-a-chain-alone", |group| {
        let sas = vec![rekey_sa(vec![Attribute::key(0, 0, &super::closed())])];
        with_entries(sas, group.chain(MOST_HELD))
    }),
    new(9, "entries-half-in-a-chain", |group| {
        let closed = (1..=16).map(|id| closed(id, 0)).collect();
        let entries = [closed, group.chain(MOST_HELD - 16)].concat();
        with_closed_copies(entries)
    }),
    new(9, "entries-closed-after-a-chain", |group| {
        let last = group.held[MOST_HELD as usize - 17].0;
        let closed = (1..=16).map(|id| closed(id, last)).collect();
        let entries = [closed, group.chain(MOST_HELD - 16)].concat();
        with_closed_copies(entries)
    }),
    new(9, "entries-all-the-same", |group| {
        let entries = group.chain(1);
        with_closed_copies(vec![entries[0].clone(); MOST_HELD as usize])
    }),
    new(9, "entries-one-key-by-many", |group| with_closed_copies(one_key_by_many(group))),
    new(9, "entries-in-a-cycle", |group| {
        let (first, last) = (&group.held[0], group.held.last().expect("keys"));
        let mut entries = group.chain(MOST_HELD);
        *entries.last_mut().expect("entries") = Attribute::key(first.0, last.0, &wrap(&last.1, &first.1));
        with_closed_copies(entries)
    }),
    new(8, "entries-of-256-octets", |group| with_longest_entries(|id, _| too_long(group, id))),
    new(8, "entries-last-of-256-octets", |group| {
        with_longest_entries(|id, count| if id == count { too_long(group, id) } else { closed(id, 0) })
    }),
    new(8, "entries-two-values", |group| {
        let (first, last) = (group.held[0].0, group.held[MOST_HELD as usize - 2].clone());
        let other = Attribute::key(first, last.0, &wrap(&last.1, &[7; KEY_SIZE]));
        let entries = [vec![other], group.chain(MOST_HELD - 1)].concat();
        with_closed_copies(entries)
    }),
    new(8, "entries-and-copies-open", |group| {
        let entries = group.chain(MOST_HELD);
        let (last_id, last) = group.held.last().cloned().expect("keys");
        let too_short = vec![7; group.rekey_octets() - 1];
        let mut sas: Vec<Sa> = (1..=MOST_ESP_POLICIES).map(|spi| group.esp_sa(spi)).collect();
        sas.push(rekey_sa(vec![Attribute::key(0, last_id, &wrap(&last, &too_short))]));
        with_entries(sas, entries)
    }),
    registered(9, "copies-closed", |group| {
        let copies = last_held(group).iter().map(|key| closed(0, key.0)).collect();
        rekey(group, closed_esps(), copies)
    }),
    registered(9, "copies-closed-one-key", |group| {
        let last = group.held.last().expect("keys").0;
        rekey(group, closed_esps(), vec![closed(0, last); 32])
    }),
    registered(9, "copies-open", |group| {
        let mut sas: Vec<Sa> = (1..MOST_ESP_POLICIES).map(|spi| group.esp_sa(spi)).collect();
        sas.extend(closed_esps().pop());
        let copies = last_held(group).iter().map(|key| copy(key, &[7; 68])).collect();
        rekey(group, sas, copies)
    }),
    registered(8, "copies-last-of-256-octets", |group| {
        let held = last_held(group);
        let mut copies: Vec<Attribute> = held.iter().map(|key| closed(0, key.0)).collect();
        copies[31] = copy(&held[31], &[7; 256]);
        rekey(group, closed_esps(), copies)
    }),
    registered(8, "copies-last-of-another-value", |group| {
        let held = last_held(group);
        let mut copies: Vec<Attribute> = held.iter().map(|key| copy(key, &[7; 68])).collect();
        copies[31] = copy(&held[31], &[8; 68]);
        rekey(group, closed_esps(), copies)
    }),
];

/// A wrapped key of the longest size that does not open.
fn closed(id: u32, kwk_id: u32) -> Attribute {
    Attribute::key(id, kwk_id, &[0x5a; LONGEST])
}

fn copy(key: &Key, octets: &[u8]) -> Attribute {
    Attribute::key(0, key.0, &wrap(&key.1, octets))
}

/// An entry that opens under the default key, to more octets than any key has.
fn too_long(group: &Group, id: u32) -> Attribute {
    Attribute::key(id, 0, &wrap(&group.lent, &[7; 256]))
}

/// Half of the entries give keys under the default key, and each of these gives one further key the same value.
fn one_key_by_many(group: &Group) -> Vec<Attribute> {
    let (last, keys) = (group.held.last().expect("keys"), &group.held[..MOST_HELD as usize / 2]);
    let again = keys.iter().map(|key| Attribute::key(last.0, key.0, &wrap(&key.1, &last.1)));
    again.chain(keys.iter().map(|key| Attribute::key(key.0, 0, &wrap(&group.lent, &key.1)))).collect()
}

/// 24 ESP SAs whose keys do not open, of the longest size.
fn closed_esps() -> Vec<Sa> {
    let spis = 101..101 + MOST_ESP_POLICIES;
    spis.map(|spi| (esp_policy(&spi.to_be_bytes(), 256), bag(ESP, &spi.to_be_bytes(), vec![closed(0, 0)]))).collect()
}

/// A registration with these entries, and a Rekey SA and ESP SAs whose keys do not open under the default key.
fn with_closed_copies(entries: Vec<Attribute>) -> Frame {
    let mut sas = closed_esps();
    sas.push(rekey_sa(vec![closed(0, 0)]));
    with_entries(sas, entries)
}

/// A registration with as many entries of the longest size as fit beside a Rekey SA whose key does not open, by number and their count.
fn with_longest_entries(entry: impl Fn(u32, u32) -> Attribute) -> Frame {
    let frame = with_entries(vec![rekey_sa(vec![Attribute::key(0, 0, &super::closed())])], Vec::new());
    fill(frame, 12 + LONGEST, |frame, count| {
        frame.payloads[KD_AT].parts()[1].attributes = (1..=count as u32).map(|id| entry(id, count as u32)).collect();
    })
}

fn with_entries(sas: Vec<Sa>, entries: Vec<Attribute>) -> Frame {
    let mut frame = registration(announce(sas));
    frame.payloads[KD_AT].parts().push(Part::unnamed(entries));
    cut_to_size(frame)
}

/// A rekey with these ESP SAs and a Rekey SA with these copies.
fn rekey(group: &mut Group, mut sas: Vec<Sa>, copies: Vec<Attribute>) -> Frame {
    sas.push(rekey_sa(copies));
    cut_to_size(group.rekey(announce(sas)))
}

/// Without the first SAs, if the frame is too long with them.
fn cut_to_size(mut frame: Frame) -> Frame {
    while frame.octets().len() > MOST_FRAME {
        [GSA_AT, KD_AT].into_iter().for_each(|payload| drop(frame.payloads[payload].parts().remove(0)));
    }
    frame
}
