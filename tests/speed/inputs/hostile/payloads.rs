//! The smallest payloads.

use super::{broken, fill, new, registered, registration, Hostile, MOST_FRAME};
use builder::typical::delete;
use builder::{Body, Frame, Payload, DELETE, GSA, KD, NOTIFY};

pub const TABLE: &[Hostile] = &[
    new(4, "payloads-unread", |_| empty(NOTIFY)),
    new(4, "payloads-unknown", |_| empty(33)),
    new(4, "payloads-gsa", |_| empty(GSA)),
    new(4, "payloads-kd", |_| empty(KD)),
    broken(MOST_FRAME - 4, "payloads-last-length", |_| {
        let mut frame = empty(NOTIFY);
        frame.payloads.last_mut().expect("payloads").skew = 1;
        frame
    }),
    broken(0, "payloads-last-next", |_| {
        let mut frame = empty(NOTIFY);
        frame.payloads.last_mut().expect("payloads").next = Some(NOTIFY);
        frame
    }),
    new(4, "deletes-sizeless-registration", |_| sizeless(registration(vec![]))),
    registered(5, "deletes-sizeless", |group| sizeless(group.rekey(vec![]))),
    registered(7, "deletes-of-one", |group| {
        fill(group.rekey(vec![]), 12, |frame, count| frame.payloads = vec![delete(&[vec![7; 4]]); count])
    }),
    registered(7, "deletes-of-4000", |group| {
        fill(group.rekey(vec![delete(&[])]), 4, |frame, count| frame.payloads = vec![delete(&vec![vec![7; 4]; count])])
    }),
];

fn empty(kind: u8) -> Frame {
    fill(registration(vec![]), 4, |frame, count| frame.payloads = vec![Payload::new(kind, Body::Plain(vec![])); count])
}

/// Deletes of protocol 0 with SPIs of no octets, 65,535 of them in each.
fn sizeless(frame: Frame) -> Frame {
    fill(frame, 8, |frame, count| frame.payloads = vec![Payload::new(DELETE, Body::Plain(vec![0, 0, 255, 255])); count])
}
