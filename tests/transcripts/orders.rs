//! Frames in another order (document 02, T-14): each is given the number, the counts and the member of the frame in its own order.

use crate::inband::inband;
use crate::lifetimes::{for_seconds, lived};
use crate::parts::*;
use crate::paths::{sa_under, tree, value, LIFE};
use crate::Transcript;
use builder::typical::*;
use builder::{Attribute, Body, Frame, Part, AH, GSA, KD};

pub fn all() -> Vec<Transcript> {
    vec![registrations(), rekeys(), refused()]
}

/// The policies or bags of a frame.
fn parts(frame: &mut Frame, kind: u8) -> &mut Vec<Part> {
    let payload = frame.payloads.iter_mut().find(|payload| payload.kind == kind).expect("GSA and KD");
    match &mut payload.body {
        Body::Parts(parts) => parts,
        _ => panic!("no parts"),
    }
}

/// Policies, bags, and what each bag holds, all in reversed order.
fn reversed(mut frame: Frame) -> Frame {
    parts(&mut frame, GSA).reverse();
    parts(&mut frame, KD).reverse();
    parts(&mut frame, KD).iter_mut().for_each(|bag| bag.attributes.reverse());
    frame
}

/// The Member Key Bag before the others, which stay in their order.
fn member_bag_first(mut frame: Frame) -> Frame {
    parts(&mut frame, KD).sort_by_key(|bag| bag.protocol != 0);
    frame
}

/// A skipped attribute before what each bag holds.
fn skipped_first(mut frame: Frame) -> Frame {
    parts(&mut frame, KD).iter_mut().for_each(|bag| bag.attributes.insert(0, Attribute::Short(900, 1)));
    frame
}

/// RFC 9838, Appendix A.2: member A, with two ESP SAs and a delay. Entries in any order, before and behind the copy that needs them.
fn registrations() -> Transcript {
    let mut t = Transcript::new("orders-registrations", LENT);
    let sas = [sa_under(0xa0, &[1]), for_seconds(esp(7, &lent()), LIFE), for_seconds(esp(5, &lent()), LIFE)];
    let mut frame = registration(&sas, &tree(&[(1, 3), (3, 7), (7, 0)]));
    parts(&mut frame, GSA).push(delay_policy(30));
    let orders = [
        ("1 under 3, 3 under 7, 7 under 0, all behind the copy under 1", frame.clone()),
        ("all reversed: 7 under 0 first, entries before the copy", reversed(frame.clone())),
        ("the Member bag first", member_bag_first(frame.clone())),
        ("a skipped attribute before all others", skipped_first(frame.clone())),
        ("a skipped attribute behind all others", reversed(skipped_first(frame))),
    ];
    for (tick, (about, frame)) in (1000..).step_by(1000 * LIFE as usize).zip(orders) {
        t.frame(about, tick, &frame, "0 3 3");
        let sas = [esp_text(5, "live"), esp_text(7, "live"), rekey_text(0xa0, "live")].map(|text| lived(text, tick, LIFE));
        let held = [1, 3, 7].map(|id| held_text(id, &value(id)));
        t.then(&[&sas[..], &held[..], &[least(0)]].concat());
    }
    t
}

/// RFC 9838, Appendix A.4: the new Rekey SA's key under 1 and under 15, with an ESP SA and a delay; with its Member bag it is refused.
fn rekeys() -> Transcript {
    let mut t = Transcript::new("orders-rekeys", LENT);
    let first = registration(&[sa_under(0xa0, &[1])], &tree(&[(1, 3), (3, 7), (7, 0)]));
    let new = [sa_under(0xc0, &[1, 15]), for_seconds(esp(9, &default_key(0xa0)), LIFE)];
    let rekeyed = rekey(0xa0, 0, announce_with_delay(&new, 30));
    let mut with_entries = rekeyed.clone();
    parts(&mut with_entries, KD).insert(0, Part::unnamed(tree(&[(15, 3), (1, 15)])));
    let orders: [(&str, fn(Frame) -> Frame); 2] = [("in order", |frame| frame), ("reversed", reversed)];
    for (tick, (order, arranged)) in (1000..).step_by(1000 * LIFE as usize).zip(orders) {
        t.frame("A registers: 1, 3, 7", tick, &first, "0 1 3");
        let held = [1, 3, 7].map(|id| held_text(id, &value(id)));
        t.then(&[&[lived(rekey_text(0xa0, "live"), tick, LIFE)], &held[..], &[least(0)]].concat());
        let about = format!("c0 under 1 and 15 with the Member bag, {order}");
        t.frame(&about, tick, &arranged(with_entries.clone()), "4 1 3");
        t.frame(&format!("c0 under 1 and 15, {order}"), tick, &arranged(rekeyed.clone()), "0 3 3");
        let sas = [esp_text(9, "live"), rekey_text(0xa0, &format!("retiring {tick} 30")), rekey_text(0xc0, "live")];
        t.then(&[&sas.map(|text| lived(text, tick, LIFE))[..], &held[..], &[least(0)]].concat());
    }
    t
}

/// A frame of each number but 1, in its own order and reversed.
fn refused() -> Transcript {
    let mut t = Transcript::new("orders-refused", LENT);
    let sas = [rekey_sa(0xa0, &[(0, lent())]), esp(1, &lent()), esp(2, &lent())];
    let plain = registration(&sas, &tree(&[(5, 9), (9, 0)]));
    let other = |entries: &[Attribute]| registration(&sas, entries);
    let both = |t: &mut Transcript, about: &str, frame: Frame, answer: &str| {
        t.frame(about, 0, &frame, answer);
        t.frame(&format!("{about}, reversed"), 0, &reversed(frame), answer);
    };
    both(&mut t, "a rekey of a new member", rekey(0xa0, 0, announce(&sas)), "2 0 0");
    let mut delays = plain.clone();
    parts(&mut delays, GSA).insert(0, delay_policy(1));
    parts(&mut delays, GSA).push(delay_policy(2));
    both(&mut t, "two delays", delays, "4 0 0");
    let mut ah = plain.clone();
    let policy = Part { protocol: AH, ..parts(&mut ah, GSA)[1].clone() };
    parts(&mut ah, GSA).push(policy);
    both(&mut t, "an AH policy behind the others", ah, "5 0 0");
    both(&mut t, "5 under 5 behind 9 under 0", other(&tree(&[(9, 0), (5, 5)])), "6 0 0");
    let many: Vec<_> = (1..=25).map(|number| esp(number, &lent())).collect();
    both(&mut t, "25 ESP policies", registration(&many, &[]), "7 0 0");
    let two_values = [entry(5, 1, 0, &lent()), entry(5, 2, 9, &value(9)), entry(9, value(9)[0], 0, &lent())];
    both(&mut t, "5 with two values", other(&two_values), "8 0 0");
    let [_, one, two] = &sas;
    let closed = registration(&[rekey_sa(0xa0, &[(5, value(5))]), one.clone(), two.clone()], &tree(&[(5, 9), (9, 5)]));
    both(&mut t, "5 under 9, 9 under 5, the Rekey SA's key under 5", closed, "9 0 0");
    t.frame("a registration", 0, &plain, "0 3 0");
    both(&mut t, "a second one", plain, "2 3 0");
    let next = rekey(0xa0, 5, announce(&[esp(3, &default_key(0xa0)), esp(4, &default_key(0xa0))]));
    t.frame("a rekey with Message ID 5", 0, &next, "0 5 0");
    both(&mut t, "Message ID 5 once more", next, "3 5 0");
    let wrong = [esp(6, &lent()), esp(8, &default_key(0xa0))];
    both(&mut t, "over the own channel, a key that does not open", inband(announce(&wrong)), "9 5 0");
    t
}
