//! Frames that are accepted: each brings ESP SAs and deletes those before, behind thousands of the smallest structures. To a full table
//! none come, and what is deleted is not there. Of a registration the longest path is found and held.

use super::Situation::{Full, ManyEsps, OneEsp, RunOut};
use super::{accepted, fill_front, fill_part, Hostile, GSA_AT, KD_AT, MOST_ESP_POLICIES};
use crate::group::{announce, Group};
use builder::typical::*;
use builder::{Frame, Payload};

pub const TABLE: &[Hostile] = &[
    accepted("accepted-behind-payloads", OneEsp, |group, turn| fill_front(rekey(group, turn, vec![deleted(turn)]))),
    accepted("accepted-many-deletes", OneEsp, |group, turn| {
        let unknown = (0..31).map(|number| deleted(0x7700_0000 + number));
        let deletes = unknown.chain([deleted(turn)]).collect();
        fill_front(rekey(group, turn, deletes))
    }),
    accepted("accepted-behind-attributes", OneEsp, |group, turn| {
        let mut frame = rekey(group, turn, vec![deleted(turn)]);
        frame.payloads[GSA_AT].parts().insert(0, delay_policy(0));
        fill_part(frame, GSA_AT, 0)
    }),
    accepted("accepted-key-behind-attributes", OneEsp, |group, turn| {
        fill_part(rekey(group, turn, vec![deleted(turn)]), KD_AT, 0)
    }),
    accepted("accepted-24-esps-and-32-deletes", ManyEsps, |group, turn| {
        let first = MOST_ESP_POLICIES * turn + 1;
        let sas = (first..first + MOST_ESP_POLICIES).map(|spi| group.esp_sa(spi)).collect();
        let before = (first - MOST_ESP_POLICIES..first).chain(0x7700_0000..0x7700_0008);
        fill_front(group.rekey([announce(sas), before.map(deleted).collect()].concat()))
    }),
    accepted("accepted-32-deletes-full-table", Full, |group, _| {
        fill_front(group.rekey((0x7700_0000..0x7700_0020).map(deleted).collect()))
    }),
    accepted("accepted-path-of-128", RunOut, |group, _| {
        let mut frame = group.registration();
        frame.payloads[GSA_AT].parts()[0].attributes.push(lifetime(0));
        fill_front(frame)
    }),
];

/// The ESP SA after that of the turn comes.
fn rekey(group: &mut Group, turn: u32, deletes: Vec<Payload>) -> Frame {
    let esp_sa = group.esp_sa(turn + 1);
    group.rekey([announce(vec![esp_sa]), deletes].concat())
}

fn deleted(spi: u32) -> Payload {
    delete(&[spi.to_be_bytes().to_vec()])
}
