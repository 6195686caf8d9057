//! What a frame is judged by stands behind thousands of the smallest structures, for members that look for each thing from the start.

use super::{closed, closed_esp, fill, fill_front, fill_part, new, registered, registration, rekey_sa, skipped, Hostile};
use super::{last_held, GSA_AT, KD_AT, MOST_ESP_POLICIES, MOST_HELD};
use crate::group::{announce, Group, Sa};
use builder::typical::*;
use builder::{Attribute, Frame, Part, Payload};

/// The SAs of these frames; the Rekey SA is the last.
const SAS: usize = MOST_ESP_POLICIES as usize + 1;

pub const TABLE: &[Hostile] = &[
    new(9, "behind-payloads", |_| fill_front(registration(full_payloads()))),
    new(9, "behind-payloads-backwards", |_| {
        let mut payloads = full_payloads();
        payloads.reverse();
        fill_front(registration(payloads))
    }),
    new(9, "wrap-keys-behind-attributes", |_| fill_part(registration(full_payloads()), KD_AT, SAS)),
    new(9, "policies-behind-attributes", |_| {
        let mut payloads = full_payloads();
        payloads[GSA_AT].parts().insert(0, Part::unnamed(vec![]));
        fill_part(registration(payloads), GSA_AT, 0)
    }),
    new(9, "bags-behind-attributes", |_| {
        let mut payloads = full_payloads();
        payloads[KD_AT].parts().reverse();
        fill_part(registration(payloads), KD_AT, 0)
    }),
    registered(9, "copies-behind-attributes", |group| {
        let mut frame = rekey(group);
        frame.payloads[GSA_AT].parts()[SAS - 1].attributes.push(initial_message_id(7));
        fill_part(frame, KD_AT, SAS - 1)
    }),
    registered(9, "esp-bags-behind-attributes", |group| {
        let frame = rekey(group);
        fill(frame, 4 * MOST_ESP_POLICIES as usize, |frame, count| {
            let bags = &mut frame.payloads[KD_AT].parts()[..MOST_ESP_POLICIES as usize];
            bags.iter_mut().for_each(|bag| drop(bag.attributes.splice(0..0, vec![skipped(); count])));
        })
    }),
    registered(9, "deletes-behind-payloads", |group| {
        let mut frame = rekey(group);
        frame.payloads.extend((0..32).map(|number| delete(&[vec![number; 4]])));
        fill_front(frame)
    }),
];

/// 24 ESP SAs and a Rekey SA with these copies.
fn sas(copies: Vec<Attribute>) -> Vec<Sa> {
    (1..=MOST_ESP_POLICIES).map(closed_esp).chain([rekey_sa(copies)]).collect()
}

/// GSA and KD of these SAs with keys that do not open, and 128 WRAP_KEYs likewise.
fn full_payloads() -> Vec<Payload> {
    let mut payloads = announce(sas(vec![Attribute::key(0, 0, &closed())]));
    let entries = (1..=MOST_HELD).map(|id| Attribute::key(id, 0, &closed())).collect();
    payloads[KD_AT].parts().push(Part::unnamed(entries));
    payloads
}

/// A rekey of these SAs, the Rekey SA's key in 32 copies that do not open, under the last keys that are held.
fn rekey(group: &mut Group) -> Frame {
    let copies = last_held(group).iter().map(|key| Attribute::key(0, key.0, &closed())).collect();
    group.rekey(announce(sas(copies)))
}
