//! Equal sizes and other meanings, the lowest number that applies, and what looks odd and is taken.

use crate::parts::*;
use crate::Transcript;
use builder::typical::*;
use builder::wrapping::wrap;
use builder::{Attribute, Body, Frame, Payload, Selector, AH, AUTH, CERT, ESP, IDR, NOTIFY, REKEY};

pub fn all() -> Vec<Transcript> {
    vec![attribute_1(), chain_128(), lowest_number(), destinations(), odd_frames()]
}

/// SA_KEY and WRAP_KEY are both attribute 1. An ESP key of 20 octets and, under a default key of 24, a wrapping key wrap to 32 octets.
fn attribute_1() -> Transcript {
    let lent: Vec<u8> = (0x40..0x40 + 24).collect();
    let mut t = Transcript::new("attribute-1", &text(&lent));
    let (esp_key, tree_key) = (wrap(&lent, &esp_keying()), wrap(&lent, &[5; 24]));
    let with = |sa_keys: &[(u32, &[u8])], wrap_keys: &[(u32, &[u8])]| {
        let keys = |keys: &[(u32, &[u8])]| keys.iter().map(|(id, wrapped)| Attribute::key(*id, 0, wrapped)).collect();
        let mut sas = [rekey_sa(0xa0, &[(5, vec![5; 24])]), esp(1, &lent)];
        sas[1].bag.attributes = keys(sa_keys);
        registration(&sas, &keys(wrap_keys))
    };
    t.frame("the ESP key in the Member bag alone", 0, &with(&[], &[(5, &esp_key)]), "6 0 0");
    t.frame("as an SA_KEY, with Key ID 0, in the Member bag too", 0, &with(&[(0, &esp_key)], &[(0, &esp_key)]), "6 0 0");
    t.frame("a WRAP_KEY in the ESP bag too", 0, &with(&[(0, &esp_key), (5, &tree_key)], &[]), "6 0 0");
    t.frame("a WRAP_KEY in the ESP bag alone", 0, &with(&[(5, &tree_key)], &[]), "6 0 0");
    t.frame("the ESP key as WRAP_KEY", 0, &with(&[(0, &esp_key)], &[(5, &esp_key)]), "8 0 0");
    t.frame("the tree key as SA_KEY", 0, &with(&[(0, &tree_key)], &[(5, &tree_key)]), "8 0 0");
    t.frame("each in its bag; Rekey SA a0 under the tree key", 0, &with(&[(0, &esp_key)], &[(5, &tree_key)]), "0 2 1");
    t.then(&[esp_text(1, "live"), rekey_text(0xa0, "live"), held_text(5, &[5; 24]), least(0)]);
    t
}

/// Keys 1 to 129, each under the one before; the last one stands first.
fn chain_128() -> Transcript {
    let mut t = Transcript::new("chain-128", LENT);
    let value = |id: u32| if id == 0 { lent() } else { key(id as u8) };
    let chain = |ids: std::ops::RangeInclusive<u32>| -> Vec<Attribute> {
        ids.rev().map(|id| entry(id, id as u8, id - 1, &value(id - 1))).collect()
    };
    let sas = [rekey_sa(0xa0, &[(128, key(128))])];
    t.frame("129 keys", 0, &registration(&sas, &chain(1..=129)), "7 0 0");
    t.frame("the chain does not start at the default key", 0, &registration(&sas, &chain(2..=128)), "9 0 0");
    t.frame("128 keys, the Rekey SA's key under the last: all are held", 0, &registration(&sas, &chain(1..=128)), "0 1 128");
    let under = |ids: std::ops::RangeInclusive<u32>| -> Vec<(u32, Vec<u8>)> { ids.map(|id| (id, key(id as u8))).collect() };
    let mut next = |about: &str, over: u8, fill: u8, ids: std::ops::RangeInclusive<u32>, answer: &str| {
        t.frame(about, 0, &rekey(over, 0, announce(&[rekey_sa(fill, &under(ids))])), answer);
    };
    next("b0 under key 129, which came in a refused frame", 0xa0, 0xb0, 129..=129, "9 1 128");
    next("b0 under 33 of them", 0xa0, 0xb0, 96..=128, "7 1 128");
    next("b0 under the last 32", 0xa0, 0xb0, 97..=128, "0 2 128");
    next("c0 under key 33; a0 goes", 0xb0, 0xc0, 33..=33, "0 2 128");
    next("d0 under keys 1 to 32; b0 goes", 0xc0, 0xd0, 1..=32, "0 2 128");
    next("e0 under key 128; c0 goes", 0xd0, 0xe0, 128..=128, "0 2 128");
    t
}

/// One rekey with a fault for every number; they are mended one after the other, the lowest first.
fn lowest_number() -> Transcript {
    let mut t = Transcript::new("lowest-number", LENT);
    let mut first = rekey_sa(0xa0, &[(5, key(5))]);
    first.policy.attributes = vec![initial_message_id(7)];
    t.frame("Rekey SA a0 under key 5, initial Message ID 7", 0, &registration(&[first], &[entry(5, 5, 0, &lent())]), "0 1 1");
    let (fit, mut frame) = (fit_rekey(), faulty_rekey());
    let mut mended = |about: &str, mend: &dyn Fn(&mut Frame), answer: &str| {
        mend(&mut frame);
        t.frame(about, 0, &frame, answer);
    };
    mended("everything at once, also an octet after the last payload", &|_| {}, "1 1 1 0");
    mended("without that octet: other SPIs", &|f| f.tail.clear(), "2 1 1");
    mended("over a0: Message ID 6", &|f| f.spis = fit.spis.clone(), "3 1 1");
    mended("Message ID 7: a critical unknown payload", &|f| f.message_id = fit.message_id, "4 1 1");
    mended("without that payload: an AH policy", &|f| f.payloads.truncate(2), "5 1 1");
    mended("an ESP policy: a bag of another SPI", &|f| f.payloads[0].parts()[3].protocol = ESP, "6 1 1");
    mended("its own SPI: 25 ESP policies", &|f| f.payloads[1].parts()[2].spi = spi(2), "7 1 1");
    let without_last = |f: &mut Frame| f.payloads.iter_mut().for_each(|payload| drop(payload.parts().pop()));
    mended("24 of them: a copy of a wrong size", &without_last, "8 1 1");
    let one_size = |f: &mut Frame| drop(f.payloads[1].parts()[0].attributes.pop());
    mended("without that copy: an ESP key that does not open", &one_size, "9 1 1");
    mended("one that opens", &|f| f.payloads[1] = fit.payloads[1].clone(), "0 26 1");
    t
}

/// Over a0: Rekey SA b0, its key under the default key and under key 5, and ESP SAs 1 to 24.
fn fit_rekey() -> Frame {
    let a0 = default_key(0xa0);
    let mut sas = vec![rekey_sa(0xb0, &[(0, a0.clone()), (5, key(5))])];
    sas.extend((1..=24).map(|number| esp(number, &a0)));
    rekey(0xa0, 7, announce(&sas))
}

/// The same with a fault for every number.
fn faulty_rekey() -> Frame {
    let mut frame = fit_rekey();
    let (last, closed) = (esp(25, &default_key(0xa0)), esp(1, &lent()));
    let wrong_size = Attribute::key(0, 5, &wrap(&key(5), &rekey_keying(0xb0, 35)));
    frame.payloads[1].parts()[1].attributes = closed.bag.attributes;
    frame.payloads[1].parts()[0].attributes.push(wrong_size);
    frame.payloads[0].parts().push(last.policy);
    frame.payloads[1].parts().push(last.bag);
    frame.payloads[1].parts()[2].spi = spi(99);
    frame.payloads[0].parts()[3].protocol = AH;
    frame.payloads.push(Payload { flags: 0x80, ..Payload::new(99, Body::Plain(vec![])) });
    (frame.spis, frame.message_id, frame.tail) = (rekey_spi(0x11), 6, vec![0]);
    frame
}

/// The destination of a Rekey SA: one multicast address and one port.
fn destinations() -> Transcript {
    let mut t = Transcript::new("destinations", LENT);
    let a0 = default_key(0xa0);
    let to = |selector: Selector, fill: u8, key0: Vec<u8>| {
        let mut sa = rekey_sa(fill, &[(0, key0)]);
        sa.policy.selectors[1] = selector;
        sa
    };
    let one = |address: &[u8], port: u16| Selector::new(address, address, (port, port));
    let ipv6 = |first: u8| [vec![first], vec![2; 15]].concat();
    let range = |last: u8| [vec![255; 15], vec![last]].concat();
    t.frame("a0 to 239.1.2.3, port 848", 0, &first_registration(), "0 1 0");
    let refused: [(&str, Selector); 7] = [
        ("223.255.255.255", one(&[223, 255, 255, 255], 848)),
        ("240.0.0.0", one(&[240, 0, 0, 0], 848)),
        ("fe02:..", one(&ipv6(0xfe), 848)),
        ("an IPv6 address that starts like a multicast one of IPv4", one(&ipv6(239), 848)),
        ("an IPv4 address that starts like a multicast one of IPv6", one(&[255; 4], 848)),
        ("two IPv6 addresses", Selector::new(&range(1), &range(2), (848, 848))),
        ("all ports", Selector::new(&[239, 1, 2, 3], &[239, 1, 2, 3], (0, 65535))),
    ];
    for (about, selector) in refused {
        t.frame(about, 0, &rekey(0xa0, 0, announce(&[to(selector, 0xb0, a0.clone())])), "4 1 0");
    }
    let taken: [(&str, Selector); 4] = [
        ("b0 to 224.0.0.0, port 0", one(&[224, 0, 0, 0], 0)),
        ("b1 to 239.255.255.255, port 65535; a0 goes", one(&[239, 255, 255, 255], 65535)),
        ("b2 to ff02:..; b0 goes", one(&ipv6(0xff), 848)),
        ("b3 to the last IPv6 address; b1 goes", one(&[255; 16], 848)),
    ];
    let mut over = 0xa0;
    for (fill, (about, selector)) in (0xb0..).zip(taken) {
        t.frame(about, 0, &rekey(over, 0, announce(&[to(selector, fill, default_key(over))])), "0 2 0");
        over = fill;
    }
    let mut esp = esp(1, &default_key(over));
    esp.policy.selectors = vec![Selector::new(&[9; 4], &[3; 4], (9, 3)), Selector::new(&[1; 16], &[2; 16], (0, 65535))];
    t.frame("an ESP SA from and to anywhere; b2 goes", 0, &rekey(over, 0, announce(&[esp])), "0 2 0");
    t
}

/// What is not read, or is free.
fn odd_frames() -> Transcript {
    let mut t = Transcript::new("odd-frames", LENT);
    t.frame("KD before GSA, between payloads that are not read or not known", 0, &among_others(), "0 1 1");
    let (a0, b0, c0) = (default_key(0xa0), default_key(0xb0), default_key(0xc0));
    let mut flags = rekey(0xa0, 0, announce(&[esp(1, &a0)]));
    (flags.version, flags.flags) = (0x2f, 0xff);
    flags.payloads.iter_mut().for_each(|payload| payload.flags = 0xff);
    t.frame("minor version, flags, critical and reserved bits", 0, &flags, "0 2 1");
    let sas = [rekey_sa(0xb0, &[(0, a0.clone())]), esp(2, &a0)];
    let transforms = rekey(0xa0, 1, announce(&sas.map(with_other_transforms)));
    t.frame("transforms backwards, digital signature, sequence numbers 2; b0 comes", 0, &transforms, "0 4 1");
    let mut attributes = rekey(0xb0, 0, announce_with_delay(&[esp(3, &b0)], 0));
    skip_attributes(&mut attributes);
    t.frame("attributes that are skipped, also 2 and 14 in an ESP policy; a0 goes", 0, &attributes, "0 4 1");
    let mut copies = rekey_sa(0xc0, &[(77, key(5)), (5, key(7)), (5, key(5))]);
    copies.bag.attributes.push(Attribute::key(0, 0, &[1; 264]));
    t.frame("copies under an unknown key, or that do not open; c0 comes", 0, &rekey(0xb0, 1, announce(&[copies])), "0 5 1");
    let deletes = vec![delete(&[spi(1)]), plain(NOTIFY, &[]), delete(&[spi(1), spi(2)]), delete(&[spi(3)])];
    t.frame("three Delete payloads; b0 goes", 0, &rekey(0xc0, 0, deletes), "0 4 1");
    let copy = Attribute::key(0, 5, &wrap(&key(5), &[9; 68]));
    let zero = Sa { policy: rekey_policy(&[0; 16], 256, 3), bag: bag(REKEY, &[0; 16], vec![copy]) };
    t.frame("SPIs of zero, 256 bits; 1 to 3 go", 0, &rekey(0xc0, 1, announce(&[esp(0, &c0), zero])), "0 3 1");
    let over_zero = rekey(0, 0, announce(&[esp(4, &[9; 32]), esp(5, &[9; 32])]));
    t.frame("over it, under its 32 octets; c0 goes", 0, &over_zero, "0 4 1");
    t
}

fn plain(kind: u8, octets: &[u8]) -> Payload {
    Payload::new(kind, Body::Plain(octets.to_vec()))
}

/// A registration with Rekey SA a0 under key 5.
fn among_others() -> Frame {
    let mut frame = registration(&[rekey_sa(0xa0, &[(5, key(5))])], &[entry(5, 5, 0, &lent())]);
    frame.payloads.reverse();
    frame.payloads.splice(0..0, [plain(IDR, &[]), plain(CERT, &[1]), plain(AUTH, &[2; 9]), plain(46, &[3; 30])]);
    frame.payloads.extend([plain(NOTIFY, &[0; 3]), plain(NOTIFY, &[]), plain(53, &[])]);
    frame
}

fn with_other_transforms(mut sa: Sa) -> Sa {
    let transforms = &mut sa.policy.transforms;
    transforms.reverse();
    transforms[0].id = 2;
    transforms.iter_mut().for_each(|transform| transform.reserved = (7, 7));
    sa
}

/// Attributes that nobody reads, everywhere in a frame with an ESP SA.
fn skip_attributes(frame: &mut Frame) {
    let skipped = [Attribute::long(9, &[]), Attribute::Short(0, 7), Attribute::long(0x0300, &[5, 0, 0, 0, 0x80, 0x0e, 0, 0x80])];
    for part in frame.payloads.iter_mut().flat_map(Payload::parts) {
        part.attributes.splice(0..0, skipped.clone());
        part.transforms.iter_mut().for_each(|transform| transform.attributes.extend(skipped.clone()));
    }
    let unread_here = [Attribute::Short(2, 1), Attribute::long(14, &[]), Attribute::long(14, &[])];
    frame.payloads[0].parts()[0].attributes.extend(unread_here);
}
