//! The second member against what document 01 and the standards print: samples, vectors, the example of the program.

#[path = "selftest/cipher.rs"]
mod cipher;
#[path = "selftest/fragments.rs"]
mod fragments;
#[path = "selftest/requests.rs"]
mod requests;
#[path = "selftest/sealing.rs"]
mod sealing;

use builder::typical::*;
use builder::wrapping::wrap;
use builder::{Attribute, Frame, Part, Payload, ESP, REKEY};
use reference::member::{Condition, Member, Sa};
use reference::{judging, layout, text};

const LENT: [u8; 16] = [0x11; 16];
const REKEY_SPI: [u8; 16] = [0xa5; 16];

fn hex(digits: &str) -> Vec<u8> {
    (0..digits.len()).step_by(2).map(|i| u8::from_str_radix(&digits[i..i + 2], 16).unwrap()).collect()
}

fn output(input: &[u8]) -> String {
    let mut output = Vec::new();
    text::run(input, &mut output).unwrap();
    String::from_utf8(output).unwrap()
}

/// A registration of one Rekey SA (AES-GCM-16 with 128 bits, KW_5649_128) whose key is wrapped under the lent one.
fn registration(entries: Vec<Attribute>, policy_attributes: Vec<Attribute>) -> Frame {
    registration_under(0, &LENT, entries, policy_attributes)
}

/// The same, with the Rekey SA's key under another key.
fn registration_under(kwk_id: u32, kwk: &[u8], entries: Vec<Attribute>, policy_attributes: Vec<Attribute>) -> Frame {
    let policy = Part { attributes: policy_attributes, ..rekey_policy(&REKEY_SPI, 128, 1) };
    let copy = Attribute::key(0, kwk_id, &wrap(kwk, &keying(36)));
    let bags = vec![bag(REKEY, &REKEY_SPI, vec![copy]), Part::unnamed(entries)];
    frame(GSA_AUTH, &[0; 16], 0, vec![gsa(vec![policy]), kd(bags)])
}

fn keying(count: usize) -> Vec<u8> {
    (0..count as u8).collect()
}

/// A rekey over that SA.
fn rekey(message_id: u32, payloads: Vec<Payload>) -> Frame {
    frame(GSA_REKEY, &REKEY_SPI, message_id, payloads)
}

/// GSA and KD with ESP SAs of these SPIs, wrapped under the Rekey SA's default key.
fn esp_sas(spis: &[u32]) -> Vec<Payload> {
    let copy = || Attribute::key(0, 0, &wrap(&keying(36)[20..], &keying(20)));
    let policies = spis.iter().map(|spi| esp_policy(&spi.to_be_bytes(), 128)).collect();
    let bags = spis.iter().map(|spi| bag(ESP, &spi.to_be_bytes(), vec![copy()])).collect();
    vec![gsa(policies), kd(bags)]
}

/// The number of the answer.
fn take(member: &mut Member, lent: &[u8], tick: u32, octets: &[u8]) -> u8 {
    member.take(lent, tick, octets).number
}

fn registered(policy_attributes: Vec<Attribute>) -> Member {
    let mut member = Member::new();
    assert_eq!(take(&mut member, &LENT, 0, &registration(vec![], policy_attributes).octets()), 0);
    member
}

fn held_ids(member: &Member) -> Vec<u32> {
    member.held.iter().map(|(id, _)| *id).collect()
}

fn entry(id: u32, value: &[u8], kwk_id: u32, kwk: &[u8]) -> Attribute {
    Attribute::key(id, kwk_id, &wrap(kwk, value))
}

fn retiring_sa(start: u32, delay: u16) -> Sa {
    let condition = Condition::Retiring { start, delay };
    Sa { protocol: ESP, spi: vec![0, 0, 0, 1], keying: keying(20), encryption: 20, condition, lifetime: None }
}

/// P: start 4,294,967,000, delay 1: at 703 elapsed 999, not due; at 704 due. Delay 0: due at its own start.
#[test]
fn sample_due() {
    let sa = retiring_sa(4_294_967_000, 1);
    assert_eq!(703u32.wrapping_sub(4_294_967_000), 999);
    assert!(!sa.is_due(703) && sa.is_due(704));
    assert!(retiring_sa(77, 0).is_due(77));
}

/// P: least ID 7: 6 refused (3), 7 and 9 taken; after 9, 9 refused.
#[test]
fn sample_least_id() {
    let mut member = registered(vec![initial_message_id(7)]);
    let ids = [(6, 3), (7, 0), (9, 0), (9, 3)];
    for (spi, (id, answer)) in ids.into_iter().enumerate() {
        assert_eq!(take(&mut member, &[], 0, &rekey(id, esp_sas(&[spi as u32])).octets()), answer, "Message ID {id}");
    }
}

/// P: ID 4,294,967,295 taken with no new Rekey SA: every later rekey over that SA is 3.
#[test]
fn sample_last_id() {
    let mut member = registered(vec![]);
    assert_eq!(take(&mut member, &[], 0, &rekey(u32::MAX, esp_sas(&[1])).octets()), 0);
    for id in [0, 1, u32::MAX - 1, u32::MAX] {
        assert_eq!(take(&mut member, &[], 0, &rekey(id, esp_sas(&[2])).octets()), 3);
    }
}

/// P, with the Rekey SA's key under 5 (T-04): (5 under 9), (9 under 0): held 5, 9. (5 under 9), (9 under 5): 9. Two values for 5: 8.
#[test]
fn sample_chains() {
    let (five, nine, other) = ([5; 16], [9; 16], [6; 16]);
    let cases = [
        (vec![entry(5, &five, 9, &nine), entry(9, &nine, 0, &LENT)], 0, vec![5, 9]),
        (vec![entry(5, &five, 9, &nine), entry(9, &nine, 5, &five)], 9, vec![]),
        (vec![entry(5, &five, 0, &LENT), entry(5, &other, 9, &nine), entry(9, &nine, 0, &LENT)], 8, vec![]),
    ];
    for (entries, answer, held) in cases {
        let mut member = Member::new();
        assert_eq!(take(&mut member, &LENT, 0, &registration_under(5, &five, entries, vec![]).octets()), answer);
        assert_eq!(held_ids(&member), held);
    }
}

/// P: a 28-octet default key: 5.
#[test]
fn sample_default_key() {
    let mut member = Member::new();
    assert_eq!(take(&mut member, &[0x11; 28], 0, &registration(vec![], vec![]).octets()), 5);
    assert_eq!(member, Member::new());
}

/// P: octets 80 0e 00 80 read as Key Length 128.
#[test]
fn sample_key_length() {
    let octets = registration(vec![], vec![]).octets();
    assert!(octets.windows(4).any(|four| four == [0x80, 0x0e, 0x00, 0x80]));
    let frame = layout::frame(&octets, false).unwrap();
    let layout::Payload::Gsa(policies) = &frame.payloads[0] else { panic!("no GSA") };
    let layout::Policy::Sa(policy) = &policies[0] else { panic!("no SA policy") };
    assert_eq!(policy.transforms[0].key_lengths, [128]);
    assert_eq!(judging::encryption_octets(&policy.transforms[0]), Some(20));
}

/// 128 WRAP_KEY taken, 129 gives 7 (T-01). All are held where they are one chain (T-04).
#[test]
fn sample_wrap_keys() {
    let key = |id: u32| if id == 0 { LENT } else { [id as u8; 16] };
    for (count, answer, held) in [(32, 0, 32), (33, 0, 33), (128, 0, 128), (129, 7, 0)] {
        let entries = (1..=count).map(|id| entry(id, &key(id), id - 1, &key(id - 1))).collect();
        let mut member = Member::new();
        assert_eq!(take(&mut member, &LENT, 0, &registration_under(count, &key(count), entries, vec![]).octets()), answer);
        assert_eq!(held_ids(&member), (1..=held).rev().collect::<Vec<u32>>());
    }
}

/// 64 SAs, one due: one more fits (T-01). 24 ESP policies are taken, 25 give 7.
#[test]
fn sample_64_sas() {
    let mut member = registered(vec![]);
    let mut rekeyed = |tick: u32, id: u32, payloads: Vec<Payload>, answer: u8, count: usize| {
        assert_eq!(take(&mut member, &[], tick, &rekey(id, payloads).octets()), answer);
        assert_eq!(member.table.len(), count);
        member.clone()
    };
    let sas = |spis: std::ops::Range<u32>| esp_sas(&spis.collect::<Vec<_>>());
    rekeyed(0, 0, sas(1..26), 7, 1);
    rekeyed(0, 0, sas(1..25), 0, 25);
    rekeyed(0, 1, sas(25..49), 0, 49);
    rekeyed(0, 2, sas(49..65), 7, 49);
    rekeyed(0, 2, sas(49..64), 0, 64);
    rekeyed(0, 3, sas(64..65), 7, 64);
    rekeyed(5, 3, vec![delete(&[vec![0, 0, 0, 3]])], 0, 64); // without delay it stays until the next accepted frame
    rekeyed(5, 4, sas(64..66), 7, 64);
    let member = rekeyed(5, 4, sas(64..65), 0, 64);
    assert!(member.sa(ESP, &[0, 0, 0, 3]).is_none() && member.sa(ESP, &[0, 0, 0, 64]).is_some());
}

/// 44 octets are 20 + 24 under one policy and 28 + 16 under another: the default key is cut by the policy.
#[test]
fn rekey_key_is_cut_by_its_policy() {
    for (bits, wrap_id, cut) in [(128, 2, 20), (192, 1, 28)] {
        let copy = Attribute::key(0, 0, &wrap(&LENT, &keying(44)));
        let payloads = vec![gsa(vec![rekey_policy(&REKEY_SPI, bits, wrap_id)]), kd(vec![bag(REKEY, &REKEY_SPI, vec![copy])])];
        let mut member = Member::new();
        assert_eq!(take(&mut member, &LENT, 0, &frame(GSA_REGISTRATION, &[0; 16], 0, payloads).octets()), 0);
        assert_eq!(member.live_rekey().unwrap().default_key(), &keying(44)[cut..]);
    }
}

/// What only callers of the library meet: an empty member that still holds a due SA, and values that are no members.
#[test]
fn members_of_the_library() {
    let due = Member { table: vec![retiring_sa(0, 0)], ..Member::new() };
    let mut member = due.clone();
    assert_eq!(take(&mut member, &LENT, 0, &registration(vec![], vec![]).octets()), 0);
    assert!(member.table.len() == 1 && member.table[0].protocol == REKEY);
    let mut swept = due.clone();
    swept.sweep(0);
    assert_eq!(swept, Member::new());

    let broken = Member { held: vec![(2, vec![0; 16]), (2, vec![0; 16])], ..due };
    let mut member = broken.clone();
    assert_eq!(take(&mut member, &LENT, 0, &registration(vec![], vec![]).octets()), 2);
    assert_eq!(take(&mut member, &LENT, 0, &[0; 28]), 1);
    member.sweep(0);
    assert_eq!(member, broken);
    assert!(member.sa(ESP, &[0, 0, 0, 1]).is_none());
    member.leave();
    assert_eq!(member, Member::new());
}

/// A table of members that break document 01's list in one place.
#[test]
fn values_that_are_no_members() {
    let esp = retiring_sa(0, 0);
    let rekey = Sa { protocol: REKEY, spi: vec![1; 16], keying: keying(36), condition: Condition::Live, ..esp.clone() };
    let other = Sa { spi: vec![2; 16], ..rekey.clone() };
    let two = vec![esp.clone(), rekey.clone()];
    assert!(Member { table: two, held: vec![(1, vec![0; 32])], least_id: None, profile: true }.is_whole());
    let sas = |count: u8| -> Vec<Sa> { (0..count).map(|i| Sa { spi: vec![0, 0, 0, i], ..esp.clone() }).collect() };
    let keys = |count: u32| -> Vec<(u32, Vec<u8>)> { (1..=count).map(|id| (id, vec![0; 16])).collect() };
    for (count, held) in [(16, 32), (17, 33), (64, 128)] {
        assert!(
            Member { table: sas(count), held: keys(held), least_id: None, ..Member::new() }.is_whole(),
            "{count} SAs, {held} keys"
        );
    }
    let tables = [
        vec![rekey.clone(), esp.clone()],
        vec![esp.clone(), esp.clone()],
        vec![rekey.clone(), other],
        vec![Sa { protocol: 2, ..esp.clone() }],
        vec![Sa { spi: vec![0; 5], ..esp.clone() }],
        vec![Sa { keying: keying(24), ..esp.clone() }],
        vec![Sa { encryption: 19, keying: keying(35), ..rekey.clone() }],
        vec![Sa { encryption: 20, keying: keying(44 - 16), ..rekey }],
        sas(65),
    ];
    for (i, table) in tables.into_iter().enumerate() {
        assert!(!Member { table, ..Member::new() }.is_whole(), "table {i}");
    }
    let value = vec![0; 16];
    let falling = vec![(2, value.clone()), (1, value.clone())];
    assert!(Member { held: falling.clone(), ..Member::new() }.is_whole());
    let twice = [falling, vec![(2, value.clone())]].concat();
    let lists = [vec![(0, value.clone())], twice, vec![(1, vec![0; 20])], keys(129)];
    for (i, held) in lists.into_iter().enumerate() {
        assert!(!Member { held, ..Member::new() }.is_whole(), "held list {i}");
    }
}

#[test]
fn example_of_the_program() {
    let input = b"000102030405060708090a0b0c0d0e0f\n0000000000\nxyz\n\
        0000000000000000000000000000000000000000002000000000000000000000001C\n\
        0000000000000000000000000000000000000000002000000000000000000000001 c\n";
    assert_eq!(output(input), "1 0 0 0\nbad\nbad\nbad\n");
    let header = format!("{}{}{}", "0".repeat(34), "20", "0".repeat(18) + "1c");
    assert_eq!(output(format!("\n12345678{header}").as_bytes()), "2 0 0\n");
}

#[test]
fn lines_of_the_program() {
    assert_eq!(output(b""), "");
    assert_eq!(output(b"00"), "");
    assert_eq!(output(b"\n"), "");
    assert_eq!(output(b"\n\n"), "bad\n");
    assert_eq!(output(b"\n00000000"), "1 0 0 0\n");
    assert_eq!(output(b"\n00000000\r\n0000000\n00000000 \n"), "bad\nbad\nbad\n");
    for (digits, answer) in [(32_776, "1 0 0 0\n"), (32_777, "bad\n"), (32_778, "bad\n"), (100_000, "bad\n")] {
        assert_eq!(output(format!("\n{}\n", "0".repeat(digits)).as_bytes()), answer);
    }
    assert_eq!(text::default_key(&[b'0'; 40]).len(), 20);
    assert_eq!(text::default_key(&[b'0'; 64]).len(), 32);
    for fault in [&[b'0'; 66][..], b"000", b"0g", b"0A", b"00\r"] {
        assert!(text::default_key(fault).is_empty());
    }
}
