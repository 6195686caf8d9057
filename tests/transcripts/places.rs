//! Where a layout breaks (document 02, T-06): each kind of structure with each of its faults, what is missing or left over, and two
//! breaks in one frame. The offsets are put down by hand, from the table at `whole`.

use crate::parts::*;
use crate::Transcript;
use builder::typical::*;
use builder::{Attribute, Body, Delete, Frame, Part, Payload, Transform, AH, DELETE, ESP, NOTIFY};

pub fn all() -> Vec<Transcript> {
    vec![places()]
}

/// A frame that is whole. Its parts start at
///
/// - 28: GSA; 32: Rekey policy, selectors at 52 and 68, transforms at 84 (Key Length at 92), 96 and 104, attribute at 112;
///   120: ESP policy, selectors at 128 and 144, transforms at 160 (Key Length at 168) and 172; 180: group-wide policy, attribute at 184;
/// - 188: KD; 192: Rekey bag, SA_KEY at 212; 272: ESP bag, SA_KEY at 280; 324: Member bag, WRAP_KEYs at 328 and 364;
/// - 400: N; 408: D; 424: the end.
fn whole() -> Frame {
    let mut sas = [rekey_sa(0xa0, &[(0, lent())]), esp(1, &lent())];
    sas[0].policy.attributes = vec![initial_message_id(7)];
    let mut frame = registration(&sas, &[entry(5, 5, 0, &lent()), entry(6, 6, 5, &key(5))]);
    frame.payloads[0].parts().push(delay_policy(30));
    frame.payloads.push(Payload::new(NOTIFY, Body::Plain(vec![0; 4])));
    frame.payloads.push(delete(&[spi(300), spi(301)]));
    frame
}

const GSA: usize = 0;
const KD: usize = 1;
const N: usize = 2;
const D: usize = 3;
/// Of the policies and bags.
const REKEY: usize = 0;
const ONE: usize = 1;
const LAST: usize = 2;

fn part(frame: &mut Frame, payload: usize, at: usize) -> &mut Part {
    &mut frame.payloads[payload].parts()[at]
}

impl Transcript {
    /// The frame with a change breaks at that offset.
    fn at(&mut self, offset: usize, about: &str, change: fn(&mut Frame)) {
        let mut frame = whole();
        change(&mut frame);
        self.frame(about, 0, &frame, &format!("1 0 0 {offset}"));
    }
}

fn places() -> Transcript {
    let mut t = Transcript::new("where", LENT);
    t.frame("whole: D in a registration", 0, &whole(), "4 0 0");
    headers(&mut t);
    payloads(&mut t);
    policies(&mut t);
    selectors(&mut t);
    transforms(&mut t);
    bags(&mut t);
    attributes_of_policies(&mut t);
    attributes_of_bags(&mut t);
    two_breaks(&mut t);
    t.frame("whole: D in a registration", 0, &whole(), "4 0 0");
    t
}

fn headers(t: &mut Transcript) {
    t.octets("header: no octet", 0, &[], "1 0 0 0");
    t.at(0, "header: 27 octets", |f| f.cut = Some(27));
    t.at(0, "header: 28 octets, but a length of 424", |f| f.cut = Some(28));
    t.at(0, "header: length one less", |f| f.skew = -1);
    t.at(0, "header: major version 1", |f| f.version = 0x10);
    t.at(0, "header: the first payload named, and no octet of it", |f| (f.payloads, f.first) = (vec![], Some(NOTIFY)));
    t.at(0, "header: a payload named behind the last one, and no octet of it", |f| f.payloads[D].next = Some(NOTIFY));
    t.at(0, "header: an octet left over behind next payload 0", |f| f.tail = vec![0]);
    t.at(0, "header: next payload 0 in front of N and D", |f| f.payloads[KD].next = Some(0));
    t.at(0, "header: no payload, and all octets left over", |f| f.first = Some(0));
}

fn payloads(t: &mut Transcript) {
    t.at(28, "payload: GSA of length 3", |f| f.payloads[GSA].say_length(3));
    t.at(188, "payload: KD of length 0", |f| f.payloads[KD].say_length(0));
    t.at(400, "payload: N of length 2", |f| f.payloads[N].say_length(2));
    t.at(400, "payload: N runs past the frame", |f| f.payloads[N].say_length(25));
    t.at(408, "payload: D one octet past the frame", |f| f.payloads[D].skew = 1);
    t.at(400, "payload: an unknown one, critical, of length 1", |f| {
        f.payloads[N] = Payload { flags: 0x80, ..Payload::new(99, Body::Plain(vec![])) };
        f.payloads[N].say_length(1);
    });
    for count in 1..=3 {
        let mut frame = whole();
        (frame.payloads[D].next, frame.tail) = (Some(NOTIFY), vec![0; count]);
        t.frame(&format!("payload: {count} octets of its header"), 0, &frame, "1 0 0 424");
    }
    t.at(408, "D: a body of no octets", |f| f.payloads[D].body = Body::Plain(vec![]));
    t.at(408, "D: a body of 3 octets", |f| f.payloads[D].body = Body::Plain(vec![3, 4, 0]));
    t.at(408, "D: a count of 3 with two SPIs", |f| {
        f.payloads[D].body = Body::Delete(Delete { skew: 1, ..Delete::new(ESP, 4, &[spi(1), spi(2)]) })
    });
    t.at(408, "D: an octet left over behind the SPIs", |f| f.payloads[D].tail = vec![0]);
    t.at(408, "D: ESP with SPIs of 5 octets", |f| f.payloads[D].body = Body::Delete(Delete::new(ESP, 5, &[vec![0; 5]])));
    t.at(408, "D: ESP of size 16 and count 0", |f| f.payloads[D].body = Body::Delete(Delete::new(ESP, 16, &[])));
}

fn policies(t: &mut Transcript) {
    t.at(32, "policy: first octet 1", |f| part(f, GSA, REKEY).protocol = 1);
    t.at(120, "policy: first octet 4", |f| part(f, GSA, ONE).protocol = 4);
    t.at(32, "policy: SPI size 4 for Rekey", |f| part(f, GSA, REKEY).second = 4);
    t.at(120, "policy: SPI size 16 for ESP", |f| part(f, GSA, ONE).second = 16);
    t.at(120, "policy: SPI size 16 for AH", |f| (part(f, GSA, ONE).protocol, part(f, GSA, ONE).second) = (AH, 16));
    t.at(32, "policy: length 3", |f| part(f, GSA, REKEY).say_length(3));
    t.at(32, "policy: length 19, which its SPI does not fit", |f| part(f, GSA, REKEY).say_length(19));
    t.at(120, "policy: length 7, which its SPI does not fit", |f| part(f, GSA, ONE).say_length(7));
    t.at(180, "group-wide policy: length 0", |f| part(f, GSA, LAST).say_length(0));
    t.at(180, "group-wide policy: one octet past its payload", |f| part(f, GSA, LAST).skew = 1);
    t.at(188, "policy: 1 octet of it", |f| f.payloads[GSA].tail = vec![6]);
    t.at(188, "policy: 3 octets of it", |f| f.payloads[GSA].tail = vec![0, 0, 0]);
    t.at(120, "policy: no octet of a source selector", |f| *part(f, GSA, ONE) = Part::named(ESP, &spi(1)));
    t.at(120, "policy: no octet of a destination selector", |f| {
        let selectors = vec![any_source()];
        *part(f, GSA, ONE) = Part { selectors, ..Part::named(ESP, &spi(1)) };
    });
    t.at(120, "policy: no octet of a transform", |f| part(f, GSA, ONE).transforms.clear());
    t.at(120, "policy: its last transform says that more follow, and no octet of one", |f| {
        part(f, GSA, ONE).transforms[1].more = Some(3)
    });
}

fn selectors(t: &mut Transcript) {
    t.at(52, "selector: type 9", |f| part(f, GSA, REKEY).selectors[0].kind = 9);
    t.at(144, "selector: type 8 with the length of 7", |f| part(f, GSA, ONE).selectors[1].kind = 8);
    t.at(68, "selector: length 15", |f| part(f, GSA, REKEY).selectors[1].skew = -1);
    t.at(128, "selector: type 7 with addresses of 16 octets", |f| {
        let selector = &mut part(f, GSA, ONE).selectors[0];
        (selector.start, selector.end) = (vec![9; 16], vec![9; 16]);
    });
    t.at(128, "selector: 1 octet of it", |f| *part(f, GSA, ONE) = Part { tail: vec![7], ..Part::named(ESP, &spi(1)) });
    t.at(144, "selector: 15 octets of the second", |f| {
        let (selectors, tail) = (vec![any_source()], vec![7, 17, 0, 16, 0, 0, 0, 0, 1, 2, 3, 4, 1, 2, 3]);
        *part(f, GSA, ONE) = Part { selectors, tail, ..Part::named(ESP, &spi(1)) };
    });
}

fn transforms(t: &mut Transcript) {
    t.at(84, "transform: first octet 2", |f| part(f, GSA, REKEY).transforms[0].more = Some(2));
    t.at(104, "transform: first octet 1 of the last", |f| part(f, GSA, REKEY).transforms[2].more = Some(1));
    t.at(96, "transform: length 7", |f| part(f, GSA, REKEY).transforms[1].say_length(7));
    t.at(160, "transform: length 3", |f| part(f, GSA, ONE).transforms[0].say_length(3));
    t.at(172, "transform: one octet past its policy", |f| part(f, GSA, ONE).transforms[1].skew = 1);
    for count in [1, 4, 7] {
        let mut frame = whole();
        let policy = part(&mut frame, GSA, ONE);
        (policy.transforms[1].more, policy.tail) = (Some(3), [0, 0, 0, 8, 5, 0, 0][..count].to_vec());
        t.frame(&format!("transform: {count} octets of it"), 0, &frame, "1 0 0 180");
    }
    t.at(112, "transform: one that is an attribute, of the type 0 and with a length of 4", |f| {
        part(f, GSA, REKEY).transforms[2].more = Some(3);
        part(f, GSA, REKEY).attributes = vec![Attribute::long(0, &[0; 4])];
    });
}

fn bags(t: &mut Transcript) {
    t.at(192, "bag: first octet 5", |f| part(f, KD, REKEY).protocol = 5);
    t.at(272, "bag: SPI size 3 for ESP", |f| part(f, KD, ONE).second = 3);
    t.at(192, "bag: SPI size 4 for Rekey", |f| part(f, KD, REKEY).second = 4);
    t.at(272, "bag: length 2", |f| part(f, KD, ONE).say_length(2));
    t.at(192, "bag: length 19, which its SPI does not fit", |f| part(f, KD, REKEY).say_length(19));
    t.at(324, "Member bag: one octet past its payload", |f| part(f, KD, LAST).skew = 1);
    t.at(400, "bag: 2 octets of it", |f| f.payloads[KD].tail = vec![3, 4]);
}

fn attributes_of_policies(t: &mut Transcript) {
    let past = || Attribute::Long { kind: 99, skew: 1, value: vec![] };
    t.at(168, "attribute: Key Length in the long form", |f| {
        part(f, GSA, ONE).transforms[0].attributes = vec![Attribute::long(14, &[0, 128])]
    });
    t.at(168, "attribute: Key Length in the long form in an AH policy", |f| {
        part(f, GSA, ONE).protocol = AH;
        part(f, GSA, ONE).transforms[0] = Transform::new(1, 12, vec![Attribute::long(14, &[0, 128])]);
    });
    t.at(96, "attribute: 3 octets of one in a transform", |f| part(f, GSA, REKEY).transforms[0].tail = vec![0x80, 14, 0]);
    t.at(112, "attribute: GSA_INITIAL_MESSAGE_ID in the short form", |f| {
        part(f, GSA, REKEY).attributes = vec![Attribute::Short(2, 7)]
    });
    t.at(112, "attribute: GSA_INITIAL_MESSAGE_ID of 5 octets", |f| {
        part(f, GSA, REKEY).attributes = vec![Attribute::long(2, &[0; 5])]
    });
    t.at(120, "attribute: 1 octet of one in a policy", |f| part(f, GSA, REKEY).tail = vec![0]);
    t.at(184, "attribute: the delay in the long form", |f| part(f, GSA, LAST).attributes = vec![Attribute::long(2, &[0, 30])]);
    let mut frame = whole();
    part(&mut frame, GSA, ONE).attributes = vec![Attribute::Short(40, 0), Attribute::long(41, &[1; 5]), past()];
    t.frame("attribute: skipped, behind two others, one octet past its policy", 0, &frame, "1 0 0 193");
    let mut frame = whole();
    part(&mut frame, GSA, ONE).transforms[1].attributes = vec![past()];
    t.frame("attribute: one octet past its transform", 0, &frame, "1 0 0 180");
    let mut frame = whole();
    part(&mut frame, GSA, LAST).attributes.push(past());
    t.frame("attribute: one octet past the group-wide policy", 0, &frame, "1 0 0 188");
}

fn attributes_of_bags(t: &mut Transcript) {
    t.at(212, "attribute: SA_KEY in the short form", |f| part(f, KD, REKEY).attributes = vec![Attribute::Short(1, 0)]);
    t.at(280, "attribute: SA_KEY of 8 wrapped octets", |f| part(f, KD, ONE).attributes = vec![Attribute::key(0, 0, &[0; 8])]);
    t.at(280, "attribute: SA_KEY of 272", |f| part(f, KD, ONE).attributes = vec![Attribute::key(0, 0, &[0; 272])]);
    t.at(280, "attribute: SA_KEY of 25", |f| part(f, KD, ONE).attributes = vec![Attribute::key(0, 0, &[0; 25])]);
    t.at(280, "attribute: SA_KEY of 20 in an AH bag", |f| {
        part(f, KD, ONE).protocol = AH;
        part(f, KD, ONE).attributes = vec![Attribute::key(0, 0, &[0; 20])];
    });
    t.at(364, "attribute: the second WRAP_KEY in the short form", |f| part(f, KD, LAST).attributes[1] = Attribute::Short(1, 0));
    t.at(328, "attribute: WRAP_KEY of 7 octets", |f| part(f, KD, LAST).attributes[0] = Attribute::long(1, &[0; 7]));
    t.at(364, "attribute: one octet past the Member bag", |f| {
        part(f, KD, LAST).attributes[1] = Attribute::Long { kind: 3, skew: 1, value: vec![0; 4] }
    });
    t.at(324, "attribute: 2 octets of one in a bag", |f| part(f, KD, ONE).tail = vec![0, 1]);
}

fn two_breaks(t: &mut Transcript) {
    t.at(28, "GSA past the frame, its first policy broken: own fields first", |f| {
        f.payloads[GSA].say_length(60000);
        part(f, GSA, REKEY).protocol = 1;
    });
    t.at(120, "a policy past its payload, its selector broken", |f| {
        f.payloads[GSA].parts().pop();
        part(f, GSA, ONE).skew = 1;
        part(f, GSA, ONE).selectors[0].kind = 9;
    });
    t.at(160, "a transform's first octet, and its attribute", |f| {
        let transform = &mut part(f, GSA, ONE).transforms[0];
        (transform.more, transform.attributes) = (Some(9), vec![Attribute::long(14, &[])]);
    });
    t.at(168, "an attribute of a transform that says that more follow, and no octet of one", |f| {
        part(f, GSA, ONE).transforms.truncate(1);
        let transform = &mut part(f, GSA, ONE).transforms[0];
        (transform.more, transform.attributes) = (Some(3), vec![Attribute::long(14, &[])]);
    });
    t.at(52, "both selectors: the earlier one", |f| part(f, GSA, REKEY).selectors.iter_mut().for_each(|s| s.kind = 9));
    t.at(184, "what the group-wide policy holds, and the length of KD", |f| {
        part(f, GSA, LAST).attributes = vec![Attribute::long(2, &[])];
        f.payloads[KD].say_length(3);
    });
    t.at(188, "the length of KD, and what D holds", |f| {
        f.payloads[KD].say_length(60000);
        f.payloads[D].body = Body::Plain(vec![]);
    });
    t.at(364, "an octet left over behind the frame's payloads, and a WRAP_KEY", |f| {
        f.tail = vec![0];
        part(f, KD, LAST).attributes[1] = Attribute::Short(1, 0);
    });
    t.at(0, "a payload that is named and not there, and a length of the header", |f| {
        f.payloads[D].next = Some(DELETE);
        f.skew = 4;
    });
    t.at(212, "an SA_KEY, and the next bag's first octet", |f| {
        part(f, KD, REKEY).attributes = vec![Attribute::Short(1, 0)];
        part(f, KD, ONE).protocol = 1;
    });
}
