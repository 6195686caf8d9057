//! The smallest attributes and transforms, wherever they stand.

use super::{broken, closed, closed_sas, fill, fill_part, new, registered, registration, rekey_sa, skipped};
use super::{Hostile, GSA_AT, KD_AT, MOST_FRAME};
use crate::group::announce;
use builder::typical::*;
use builder::{Attribute, Frame, Part, Transform};

/// Where the ESP policy starts: behind the headers, 4 octets that fill the frame up, GSA and the Rekey policy of 88 octets.
const ESP_POLICY: usize = 28 + 4 + 4 + 88;

pub const TABLE: &[Hostile] = &[
    new(9, "attributes-group-wide-policy", |_| fill_part(base(), GSA_AT, 2)),
    new(9, "attributes-rekey-policy", |_| fill_part(base(), GSA_AT, 0)),
    new(9, "attributes-esp-policy", |_| fill_part(base(), GSA_AT, 1)),
    new(9, "attributes-transform", |_| encryption_attributes(skipped())),
    new(9, "attributes-rekey-bag", |_| fill_part(base(), KD_AT, 0)),
    new(9, "attributes-esp-bag", |_| fill_part(base(), KD_AT, 1)),
    new(9, "attributes-member-bag", |_| fill_part(base(), KD_AT, 2)),
    broken(MOST_FRAME - 28, "attributes-last-length", |_| {
        let mut frame = fill_part(base(), KD_AT, 2);
        frame.payloads[KD_AT].parts()[2].attributes.pop();
        frame.payloads[KD_AT].parts()[2].attributes.push(Attribute::Long { kind: 99, skew: 1, value: vec![0; 24] });
        frame
    }),
    new(4, "key-lengths", |_| encryption_attributes(Attribute::Short(14, 256))),
    new(4, "delays", |_| attributes(GSA_AT, 2, 4, Attribute::Short(2, 0))),
    new(4, "initial-message-ids", |_| attributes(GSA_AT, 0, 8, initial_message_id(0))),
    new(5, "transforms", |_| transforms()),
    broken(ESP_POLICY, "transforms-last-octet", |_| {
        let mut frame = transforms();
        frame.payloads[GSA_AT].parts()[1].transforms.last_mut().expect("transforms").more = Some(3);
        frame
    }),
    new(6, "sa-keys-registration", |_| attributes(KD_AT, 0, 28, Attribute::key(0, 0, &closed()))),
    registered(7, "sa-keys", |group| {
        let frame = group.rekey(announce(vec![rekey_sa(vec![])]));
        fill(frame, 28, |frame, count| {
            frame.payloads[KD_AT].parts()[0].attributes = vec![Attribute::key(0, 0, &closed()); count];
        })
    }),
    new(7, "wrap-keys", |_| wrap_keys()),
    new(6, "wrap-keys-last-key-0", |_| {
        let mut frame = wrap_keys();
        *frame.payloads[KD_AT].parts()[2].attributes.last_mut().expect("WRAP_KEYs") = Attribute::key(0, 0, &closed());
        frame
    }),
];

/// Two SAs whose keys do not open; the third policy is the group-wide one, the third bag the Member bag.
fn base() -> Frame {
    let mut frame = registration(closed_sas());
    frame.payloads[GSA_AT].parts()[0].attributes.push(initial_message_id(7));
    frame.payloads[GSA_AT].parts().push(delay_policy(1));
    frame.payloads[KD_AT].parts().push(Part::unnamed(vec![Attribute::key(5, 0, &closed())]));
    frame
}

/// As many more attributes of so many octets as fit into one policy or bag.
fn attributes(payload: usize, part: usize, octets: usize, attribute: Attribute) -> Frame {
    fill(base(), octets, |frame, count| {
        frame.payloads[payload].parts()[part].attributes.splice(0..0, vec![attribute; count]);
    })
}

/// As many more attributes as fit into the ESP policy's encryption transform.
fn encryption_attributes(attribute: Attribute) -> Frame {
    fill(base(), 4, |frame, count| {
        frame.payloads[GSA_AT].parts()[1].transforms[0].attributes.extend(vec![attribute; count]);
    })
}

/// As many more sequence numbers as fit into the ESP policy.
fn transforms() -> Frame {
    fill(base(), 8, |frame, count| {
        frame.payloads[GSA_AT].parts()[1].transforms.extend(vec![Transform::new(5, 0, vec![]); count]);
    })
}

/// WRAP_KEYs with different Key IDs.
fn wrap_keys() -> Frame {
    fill(base(), 28, |frame, count| {
        frame.payloads[KD_AT].parts()[2].attributes = (1..=count as u32).map(|id| Attribute::key(id, 0, &closed())).collect();
    })
}
