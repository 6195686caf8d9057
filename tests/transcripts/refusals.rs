//! One transcript for each refusal: several clauses, in registrations and in rekeys, and then a frame that is taken.

use crate::parts::*;
use crate::Transcript;
use builder::typical::*;
use builder::wrapping::{wrap, wrap_as};
use builder::{Attribute, Body, Delete, Frame, Part, Payload, Transform, AH, DELETE, ESP, NOTIFY, REKEY};

pub fn all() -> Vec<Transcript> {
    vec![one(), two(), three(), four(), five(), six(), seven(), eight(), nine()]
}

/// Rekey SA a0 under key 5, which is then held; ESP SA 1 and key 5 under the default key.
fn whole() -> Frame {
    registration(&[rekey_sa(0xa0, &[(5, key(5))]), esp(1, &lent())], &[entry(5, 5, 0, &lent())])
}

/// A rekey over a0 with the new Rekey SA b0 and ESP SA 2.
fn whole_rekey() -> Frame {
    let a0 = default_key(0xa0);
    rekey(0xa0, 0, announce(&[rekey_sa(0xb0, &[(0, a0.clone())]), esp(2, &a0)]))
}

fn changed(mut frame: Frame, change: impl FnOnce(&mut Frame)) -> Frame {
    change(&mut frame);
    frame
}

/// Of the frames above: payload 0 is GSA with the Rekey policy and the ESP policy, payload 1 KD with their bags and the Member bag.
fn part(frame: &mut Frame, payload: usize, at: usize) -> &mut Part {
    &mut frame.payloads[payload].parts()[at]
}

fn add_part(frame: &mut Frame, payload: usize, part: Part) {
    frame.payloads[payload].parts().push(part);
}

fn remove_part(frame: &mut Frame, payload: usize, at: usize) {
    frame.payloads[payload].parts().remove(at);
}

impl Transcript {
    fn refused(&mut self, about: &str, base: Frame, change: impl FnOnce(&mut Frame), answer: &str) {
        self.frame(about, 0, &changed(base, change), answer);
    }
}

/// The offsets in `whole`: GSA 28 with the policies at 32 and 112, KD 172 with the bags at 176, 256 and 308, the end 348.
fn one() -> Transcript {
    let mut t = Transcript::new("refusal-1", LENT);
    let mut refused = |offset: usize, about: &str, change: fn(&mut Frame)| {
        t.refused(about, whole(), change, &format!("1 0 0 {offset}"));
    };
    refused(0, "27 octets", |f| f.cut = Some(27));
    refused(0, "header length one more than the frame's", |f| f.skew = 1);
    refused(0, "major version 3", |f| f.version = 0x30);
    refused(0, "an octet after the last payload", |f| f.tail = vec![0]);
    refused(0, "a payload named that is not there", |f| f.payloads[1].next = Some(NOTIFY));
    refused(28, "payload length 3", |f| f.payloads[0].say_length(3));
    refused(172, "payload length past the frame", |f| f.payloads[1].skew = 1);
    refused(32, "policy's first octet 1", |f| part(f, 0, 0).protocol = 1);
    refused(256, "bag's first octet 7", |f| part(f, 1, 1).protocol = 7);
    refused(112, "SPI size 16 for ESP", |f| part(f, 0, 1).second = 16);
    refused(176, "SPI size 4 for Rekey, in the bag", |f| part(f, 1, 0).second = 4);
    refused(120, "selector type 9", |f| part(f, 0, 1).selectors[0].kind = 9);
    refused(68, "selector length 15", |f| part(f, 0, 0).selectors[1].skew = -1);
    refused(112, "no transform", |f| part(f, 0, 1).transforms.clear());
    refused(84, "a transform's first octet 2", |f| part(f, 0, 0).transforms[0].more = Some(2));
    refused(112, "3 in the last transform", |f| part(f, 0, 1).transforms[1].more = Some(3));
    refused(160, "Key Length with a length", |f| part(f, 0, 1).transforms[0].attributes = vec![Attribute::long(14, &[0, 128])]);
    refused(112, "GSA_INITIAL_MESSAGE_ID of 2 octets", |f| part(f, 0, 0).attributes = vec![Attribute::long(2, &[0, 7])]);
    refused(176, "deactivation delay with a length", |f| add_part(f, 0, Part::unnamed(vec![Attribute::long(2, &[0, 7])])));
    refused(264, "SA_KEY without a length", |f| part(f, 1, 1).attributes = vec![Attribute::Short(1, 0)]);
    refused(264, "8 wrapped octets", |f| part(f, 1, 1).attributes = vec![Attribute::key(0, 0, &[0; 8])]);
    refused(312, "272 wrapped octets", |f| part(f, 1, 2).attributes = vec![Attribute::key(5, 0, &[0; 272])]);
    refused(312, "20 wrapped octets", |f| part(f, 1, 2).attributes = vec![Attribute::key(5, 0, &[0; 20])]);
    refused(348, "3 octets where an attribute stands", |f| part(f, 1, 2).tail = vec![0; 3]);
    refused(348, "a Delete payload of 3 octets", |f| f.payloads.push(Payload::new(DELETE, Body::Plain(vec![3, 4, 0]))));
    refused(348, "a Delete payload of ESP with SPIs of 5 octets", |f| {
        f.payloads.push(Payload::new(DELETE, Body::Delete(Delete::new(ESP, 5, &[vec![0; 5]]))))
    });
    t.frame("as it should be", 0, &whole(), "0 2 1");
    t
}

fn two() -> Transcript {
    let mut t = Transcript::new("refusal-2", LENT);
    for exchange in [0, 38, 43, 255] {
        t.refused("another exchange", whole(), |f| f.exchange = exchange, "2 0 0");
    }
    t.refused("a rekey of a new member", whole(), |f| f.exchange = GSA_REKEY, "2 0 0");
    t.refused("a rekey over the own channel of a new member", whole(), |f| f.exchange = GSA_INBAND_REKEY, "2 0 0");
    t.refused(
        "another exchange beats a critical unknown payload",
        whole(),
        |f| (f.exchange, f.payloads[0]) = (43, critical(99)),
        "2 0 0",
    );
    t.frame("the registration", 0, &whole(), "0 2 1");
    t.frame("a second one", 0, &whole(), "2 2 1");
    t.refused("a second one by GSA_REGISTRATION", whole(), |f| f.exchange = GSA_REGISTRATION, "2 2 1");
    t.refused("a rekey over another initiator's SPI", whole_rekey(), |f| f.spis[7] ^= 1, "2 2 1");
    t.refused("a rekey over another responder's SPI", whole_rekey(), |f| f.spis[8] ^= 1, "2 2 1");
    t.frame("the rekey: a0 retires", 0, &whole_rekey(), "0 4 1");
    t.refused("a rekey over the retiring a0", whole_rekey(), |f| f.message_id = 1, "2 4 1");
    t
}

fn three() -> Transcript {
    let mut t = Transcript::new("refusal-3", LENT);
    t.refused("initial Message ID 7", whole(), |f| part(f, 0, 0).attributes = vec![initial_message_id(7)], "0 2 1");
    for message_id in [0, 1, 6] {
        t.refused("a Message ID below 7", whole_rekey(), |f| f.message_id = message_id, "3 2 1");
    }
    t.refused("it beats a critical unknown payload", whole_rekey(), |f| f.payloads.push(critical(99)), "3 2 1");
    let esp_only = |number: u32, message_id: u32| rekey(0xa0, message_id, announce(&[esp(number, &default_key(0xa0))]));
    t.frame("7", 0, &esp_only(2, 7), "0 3 1");
    t.frame("7 again", 0, &esp_only(3, 7), "3 3 1");
    t.frame("a Message ID that is no small one", 0, &esp_only(3, 0x8000_0000), "0 4 1");
    t.frame("one below it", 0, &esp_only(4, 0x7fff_ffff), "3 4 1");
    t.frame("the last Message ID", 0, &esp_only(4, u32::MAX), "0 5 1");
    t.frame("none is acceptable any more", 0, &esp_only(5, u32::MAX), "3 5 1");
    t.frame("none is acceptable any more", 0, &esp_only(5, 0), "3 5 1");
    t
}

/// An empty payload of that type with its critical bit.
fn critical(kind: u8) -> Payload {
    Payload { flags: 0x80, ..Payload::new(kind, Body::Plain(vec![])) }
}

fn four() -> Transcript {
    let mut t = Transcript::new("refusal-4", LENT);
    let mut refused = |about: &str, change: fn(&mut Frame)| t.refused(about, whole(), change, "4 0 0");
    refused("a critical unknown payload", |f| f.payloads.insert(0, critical(46)));
    refused("Delete in a registration", |f| f.payloads.push(delete(&[spi(1)])));
    refused("two GSA", |f| f.payloads.push(gsa(vec![])));
    refused("two KD", |f| f.payloads.push(kd(vec![])));
    refused("two GSA and two KD", |f| f.payloads.extend([gsa(vec![]), kd(vec![])]));
    refused("GSA without KD", |f| f.payloads.truncate(1));
    refused("KD without GSA", |f| drop(f.payloads.remove(0)));
    refused("neither", |f| f.payloads.clear());
    refused("two Rekey policies", |f| add_part(f, 0, rekey_sa(0xa1, &[]).policy));
    refused("two group-wide policies", |f| (0..2).for_each(|_| add_part(f, 0, Part::unnamed(vec![]))));
    refused("two Member bags", |f| add_part(f, 1, Part::unnamed(vec![])));
    refused("no SA policy", |f| f.payloads[0] = gsa(vec![delay_policy(1)]));
    refused("Key Length twice", |f| part(f, 0, 1).transforms[0].attributes.push(Attribute::Short(14, 128)));
    refused("GSA_INITIAL_MESSAGE_ID twice", |f| part(f, 0, 0).attributes = vec![initial_message_id(1), initial_message_id(1)]);
    refused("deactivation delay twice", |f| add_part(f, 0, Part::unnamed(vec![Attribute::Short(2, 1), Attribute::Short(2, 1)])));
    refused("Rekey destination 223.1.2.3", |f| {
        let selector = &mut part(f, 0, 0).selectors[1];
        (selector.start[0], selector.end[0]) = (223, 223);
    });
    refused("Rekey destination of two addresses", |f| part(f, 0, 0).selectors[1].end[3] = 4);
    refused("Rekey destination of two ports", |f| part(f, 0, 0).selectors[1].ports = (848, 849));
    t.refused("a critical bit on known payloads", whole(), |f| f.payloads.iter_mut().for_each(|p| p.flags = 0x80), "0 2 1");
    t.refused("a Member bag in a rekey", whole_rekey(), |f| add_part(f, 1, Part::unnamed(vec![])), "4 2 1");
    t.refused("a rekey with neither and no Delete", whole_rekey(), |f| f.payloads.clear(), "4 2 1");
    t.refused("GSA without KD, beside a Delete", whole_rekey(), |f| f.payloads[1] = delete(&[spi(1)]), "4 2 1");
    t.frame("a rekey with Delete alone", 0, &rekey(0xa0, 0, vec![delete(&[spi(1)])]), "0 2 1");
    t
}

fn five() -> Transcript {
    let mut t = Transcript::new("refusal-5", LENT);
    let mut refused = |about: &str, change: fn(&mut Frame)| t.refused(about, whole(), change, "5 0 0");
    refused("an AH policy", |f| add_part(f, 0, Part { protocol: AH, ..esp(9, &lent()).policy }));
    refused("an AH bag", |f| add_part(f, 1, Part { protocol: AH, ..esp(9, &lent()).bag }));
    refused("ESP without Key Length", |f| part(f, 0, 1).transforms[0].attributes.clear());
    refused("ESP with Key Length 160", |f| part(f, 0, 1).transforms[0].attributes = vec![Attribute::Short(14, 160)]);
    refused("ESP with AES-GCM-12", |f| part(f, 0, 1).transforms[0].id = 19);
    refused("ESP with sequence numbers 1", |f| part(f, 0, 1).transforms[1].id = 1);
    refused("ESP with two sequence numbers", |f| part(f, 0, 1).transforms.push(sequence_numbers(2)));
    refused("ESP with integrity NONE", |f| part(f, 0, 1).transforms.push(Transform::new(3, 0, vec![])));
    refused("Rekey with KW_ARX", |f| part(f, 0, 0).transforms[1].id = 4);
    refused("Rekey with controller authentication 3", |f| part(f, 0, 0).transforms[2].id = 3);
    refused("Rekey without controller authentication", |f| part(f, 0, 0).transforms.truncate(2));
    refused("Rekey with sequence numbers", |f| part(f, 0, 0).transforms.push(sequence_numbers(0)));
    t.frame("as it should be", 0, &whole(), "0 2 1");
    let mut refused = |about: &str, delete: Delete| {
        t.refused(about, whole_rekey(), |f| f.payloads.push(Payload::new(DELETE, Body::Delete(delete))), "5 2 1")
    };
    refused("Delete of AH", Delete::new(AH, 4, &[spi(1)]));
    refused("Delete of GIKE_UPDATE", Delete::new(REKEY, 16, &[vec![0; 16]]));
    refused("Delete of protocol 0, without SPIs", Delete::new(0, 0, &[]));
    refused("Delete with count 0", Delete::new(ESP, 4, &[]));
    t.refused("a rekey without controller authentication", whole_rekey(), |f| part(f, 0, 0).transforms.truncate(2), "5 2 1");
    t.frame("the rekey", 0, &whole_rekey(), "0 4 1");
    t
}

/// A WRAP_KEY under its own Key ID.
fn itself() -> Attribute {
    entry(9, 9, 9, &key(9))
}

fn six() -> Transcript {
    let mut t = Transcript::new("refusal-6", LENT);
    let mut refused = |about: &str, change: fn(&mut Frame)| t.refused(about, whole(), change, "6 0 0");
    refused("a policy without a bag", |f| remove_part(f, 1, 1));
    refused("a bag without a policy", |f| remove_part(f, 0, 1));
    refused("a bag of another SPI", |f| part(f, 1, 1).spi = spi(2));
    refused("one SPI in two policies and two bags", |f| {
        add_part(f, 0, esp(1, &lent()).policy);
        add_part(f, 1, esp(1, &lent()).bag);
    });
    refused("no SA_KEY for ESP", |f| part(f, 1, 1).attributes.clear());
    refused("two SA_KEY for a Rekey SA in a registration", |f| {
        part(f, 1, 0).attributes.extend(rekey_sa(0xa0, &[(0, lent())]).bag.attributes)
    });
    refused("SA_KEY with Key ID 1", |f| part(f, 1, 1).attributes = vec![Attribute::key(1, 0, &wrap(&lent(), &esp_keying()))]);
    refused("SA_KEY of ESP under key 5", |f| {
        part(f, 1, 1).attributes = vec![Attribute::key(0, 5, &wrap(&key(5), &esp_keying()))]
    });
    refused("WRAP_KEY with Key ID 0", |f| part(f, 1, 2).attributes.push(entry(0, 6, 0, &lent())));
    refused("key 5 is reached and wraps itself", |f| part(f, 1, 2).attributes.push(entry(5, 5, 5, &key(5))));
    refused("the same, before the entry that reaches it", |f| part(f, 1, 2).attributes.insert(0, entry(5, 5, 5, &key(5))));
    refused("key 9 is not reached and wraps itself", |f| part(f, 1, 2).attributes.push(itself()));
    refused("key 5 under itself, which does not open", |f| part(f, 1, 2).attributes.push(Attribute::key(5, 5, &[1; 24])));
    refused("the last Key ID under itself", |f| part(f, 1, 2).attributes.push(Attribute::key(u32::MAX, u32::MAX, &[1; 24])));
    refused("Key ID 0 under KWK ID 0, which does not open", |f| part(f, 1, 2).attributes.push(Attribute::key(0, 0, &[1; 24])));
    refused("33 WRAP_KEY, the last under itself", |f| {
        part(f, 1, 2).attributes = vec![entry(5, 5, 0, &lent()); 32];
        part(f, 1, 2).attributes.push(itself());
    });
    t.refused("it is 4 beside a second Member bag", whole(), |f| add_part(f, 1, Part::unnamed(vec![itself()])), "4 0 0");
    t.frame("as it should be", 0, &whole(), "0 2 1");
    t.refused("a key under itself in a rekey", whole_rekey(), |f| add_part(f, 1, Part::unnamed(vec![itself()])), "4 2 1");
    let a0 = default_key(0xa0);
    t.frame("ESP SA 1 is in the table", 0, &rekey(0xa0, 0, announce(&[esp(1, &a0)])), "6 2 1");
    let both = [announce(&[esp(1, &a0)]), vec![delete(&[spi(1)])]].concat();
    t.frame("a Delete of the same frame does not free it", 0, &rekey(0xa0, 0, both), "6 2 1");
    t.frame("the live Rekey SA's own SPI", 0, &rekey(0xa0, 0, announce(&[rekey_sa(0xa0, &[(0, a0.clone())])])), "6 2 1");
    t.frame("no SA_KEY for a Rekey SA in a rekey", 0, &rekey(0xa0, 0, announce(&[rekey_sa(0xb0, &[])])), "6 2 1");
    t.frame(
        "two SA_KEY for a Rekey SA in a rekey",
        0,
        &rekey(0xa0, 0, announce(&[rekey_sa(0xb0, &[(0, a0.clone()), (5, key(5))])])),
        "0 3 1",
    );
    t
}

fn seven() -> Transcript {
    let mut t = Transcript::new("refusal-7", LENT);
    let rekey_policy = rekey_sa(0xa0, &[(5, key(5))]);
    let all: Vec<Sa> = [rekey_policy.clone()].into_iter().chain((1..=25).map(|number| esp(number, &lent()))).collect();
    let same = |count: usize| vec![entry(5, 5, 0, &lent()); count];
    t.frame("25 ESP policies", 0, &registration(&all, &[]), "7 0 0");
    t.frame("129 WRAP_KEY, all the same", 0, &registration(&[rekey_policy.clone()], &same(129)), "7 0 0");
    let with_itself = [same(128), vec![itself()]].concat();
    t.frame("129 WRAP_KEY, the last under itself: the lower number", 0, &registration(&[rekey_policy], &with_itself), "6 0 0");
    t.frame("24 ESP policies, 128 WRAP_KEY, all the same: one key is held", 0, &registration(&all[..25], &same(128)), "0 25 1");
    let a0 = default_key(0xa0);
    let more = |numbers: std::ops::Range<u32>| announce(&numbers.map(|number| esp(number, &a0)).collect::<Vec<_>>());
    t.frame("49 SAs", 0, &rekey(0xa0, 0, more(31..55)), "0 49 1");
    t.frame("65 SAs", 0, &rekey(0xa0, 1, more(61..77)), "7 49 1");
    t.frame("33 SA_KEY", 0, &rekey(0xa0, 1, announce(&[rekey_sa(0xb0, &vec![(0, a0.clone()); 33])])), "7 49 1");
    t.frame("33 deleted SPIs, all the same", 0, &rekey(0xa0, 1, vec![delete(&vec![spi(1); 33])]), "7 49 1");
    t.frame("64 SAs", 0, &rekey(0xa0, 1, more(61..76)), "0 64 1");
    t.frame("a Rekey SA would be the 65th", 0, &rekey(0xa0, 2, announce(&[rekey_sa(0xb0, &[(0, a0)])])), "7 64 1");
    t
}

fn eight() -> Transcript {
    let mut t = Transcript::new("refusal-8", LENT);
    let mut refused = |about: &str, change: fn(&mut Frame)| t.refused(about, whole(), change, "8 0 0");
    refused("WRAP_KEY of 32 octets", |f| part(f, 1, 2).attributes = vec![Attribute::key(5, 0, &wrap(&lent(), &[5; 32]))]);
    refused("WRAP_KEY of 15 octets, wrapped as long as one of 16", |f| {
        part(f, 1, 2).attributes = vec![Attribute::key(5, 0, &wrap(&lent(), &[5; 15]))]
    });
    refused("two values for key 5", |f| part(f, 1, 2).attributes.push(entry(5, 6, 0, &lent())));
    refused("a second value for key 5 by key 9", |f| {
        part(f, 1, 2).attributes.extend([entry(5, 6, 9, &key(9)), entry(9, 9, 0, &lent())])
    });
    refused("ESP key of 24 octets, wrapped as long as one of 20", |f| {
        part(f, 1, 1).attributes = vec![Attribute::key(0, 0, &wrap(&lent(), &[1; 24]))]
    });
    refused("Rekey key of 44 octets where 36 are needed", |f| {
        part(f, 1, 0).attributes = vec![Attribute::key(0, 0, &wrap(&lent(), &[1; 44]))]
    });
    t.refused(
        "a second value for key 5 by key 5, which is the lower number",
        whole(),
        |f| part(f, 1, 2).attributes.push(entry(5, 6, 5, &key(5))),
        "6 0 0",
    );
    t.frame("as it should be", 0, &whole(), "0 2 1");
    t.refused(
        "a Rekey copy of a wrong size beside a right one",
        whole_rekey(),
        |f| part(f, 1, 0).attributes.push(Attribute::key(0, 5, &wrap(&key(5), &[1; 35]))),
        "8 2 1",
    );
    t.refused(
        "a Rekey copy of another value beside a right one",
        whole_rekey(),
        |f| part(f, 1, 0).attributes.push(Attribute::key(0, 5, &wrap(&key(5), &rekey_keying(0xb1, 36)))),
        "8 2 1",
    );
    t.refused(
        "a Rekey copy of a wrong size beats an ESP key that does not open",
        whole_rekey(),
        |f| {
            part(f, 1, 0).attributes.push(Attribute::key(0, 5, &wrap(&key(5), &[1; 35])));
            part(f, 1, 1).attributes = vec![Attribute::key(0, 0, &[1; 32])];
        },
        "8 2 1",
    );
    t.frame("the rekey", 0, &whole_rekey(), "0 4 1");
    t
}

fn nine() -> Transcript {
    let mut t = Transcript::new("refusal-9", LENT);
    const CONSTANT: [u8; 4] = [0xa6, 0x59, 0x59, 0xa6];
    let mut refused = |about: &str, change: fn(&mut Frame)| t.refused(about, whole(), change, "9 0 0");
    refused("ESP key under another key", |f| part(f, 1, 1).attributes = esp(1, &key(5)).bag.attributes);
    refused("ESP key with another constant", |f| {
        let padded = [esp_keying(), vec![0; 4]].concat();
        part(f, 1, 1).attributes = vec![Attribute::key(0, 0, &wrap_as(&lent(), [0xa6, 0x59, 0x59, 0xa7], 20, &padded))];
    });
    refused("ESP key with padding that is not zero", |f| {
        let padded = [esp_keying(), vec![0, 0, 0, 1]].concat();
        part(f, 1, 1).attributes = vec![Attribute::key(0, 0, &wrap_as(&lent(), CONSTANT, 20, &padded))];
    });
    refused("ESP key with 8 octets of padding too many", |f| {
        let padded = [esp_keying(), vec![0; 12]].concat();
        part(f, 1, 1).attributes = vec![Attribute::key(0, 0, &wrap_as(&lent(), CONSTANT, 20, &padded))];
    });
    refused("Rekey key under an unknown key", |f| part(f, 1, 0).attributes = rekey_sa(0xa0, &[(6, lent())]).bag.attributes);
    refused("Rekey key under key 5, whose entry does not open", |f| {
        part(f, 1, 0).attributes = rekey_sa(0xa0, &[(5, key(5))]).bag.attributes;
        part(f, 1, 2).attributes = vec![entry(5, 5, 0, &key(1))];
    });
    t.frame("as it should be", 0, &whole(), "0 2 1");
    let a0 = default_key(0xa0);
    let with = |under: &[(u32, Vec<u8>)]| rekey(0xa0, 0, announce(&[rekey_sa(0xb0, under)]));
    t.frame("Rekey key under the lent default key", 0, &with(&[(0, lent())]), "9 2 1");
    t.frame("Rekey key under unknown keys", 0, &with(&[(6, key(5)), (7, key(5))]), "9 2 1");
    t.frame("Rekey key under its own default key", 0, &with(&[(0, default_key(0xb0))]), "9 2 1");
    t.frame("Rekey key under the default key, KWK ID 5", 0, &with(&[(5, a0.clone())]), "9 2 1");
    t.frame("Rekey key under unknown keys, and under key 5", 0, &with(&[(6, key(5)), (5, key(5))]), "0 3 1");
    t
}
