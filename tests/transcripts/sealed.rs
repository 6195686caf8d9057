//! Sealed frames (document 02, T-05), lines `x` of `trace`: number, offset, member and room of each. The first sealed frame was computed
//! with OpenSSL; the others are sealed by the second program.

use crate::parts::*;
use crate::Transcript;
use builder::typical::*;
use builder::wrapping::wrap;
use builder::{Attribute, Frame, Payload, REKEY};
use reference::layout::MOST_FRAME;
use reference::sealing::{seal_frame, seal_plain, Choice};

pub fn all() -> Vec<Transcript> {
    vec![sealed()]
}

/// SPI a0 a1 .. af, keying octets 00 01 .. 23: GSK_e is 00 .. 13.
pub fn spi_of_sa() -> Vec<u8> {
    (0xa0..0xb0).collect()
}

pub fn keying() -> Vec<u8> {
    (0..36).collect()
}

pub const OPENED: &str = "a0a1a2a3a4a5a6a7a8a9aaabacadaeaf2a20290000000007000000280000000c0304000111223344";
pub const SEALED: &str =
    "a0a1a2a3a4a5a6a7a8a9aaabacadaeaf2e20290000000007000000452a0000290102030405060708905657acd339e7f00c9a6a8eddbfd41b\
    07465b77a89884913a082bc25c";

pub fn octets(digits: &str) -> Vec<u8> {
    (0..digits.len()).step_by(2).map(|i| u8::from_str_radix(&digits[i..i + 2], 16).expect("digits")).collect()
}

pub fn rekey_text_here(condition: &str) -> String {
    format!("sa 6 {} {} 20 16 {condition} life none", text(&spi_of_sa()), text(&keying()))
}

pub fn over(message_id: u32, payloads: Vec<Payload>) -> Vec<u8> {
    frame(GSA_REKEY, &spi_of_sa(), message_id, payloads).octets()
}

fn choice(padding: usize) -> Choice {
    Choice { reserved: 0x80, iv: [9; 8], padding: vec![0x55; padding] }
}

fn sealed_by(opened: &[u8], padding: usize) -> Vec<u8> {
    seal_frame(&keying()[..20], opened, &choice(padding))
}

fn hand(t: &mut Transcript, about: &str, room: usize, octets: &[u8], answer: &str, opened: Option<&[u8]>) {
    t.line(about, format!("x{room:08x}00000000{}", text(octets)).as_bytes(), answer);
    if let Some(opened) = opened {
        t.then(&[format!("wrote {}", text(opened))]);
    }
}

/// The Rekey SA comes, and the least Message ID is 7.
pub fn registers() -> Frame {
    registers_with(vec![initial_message_id(7)])
}

/// The same with these attributes of the policy.
pub fn registers_with(attributes: Vec<Attribute>) -> Frame {
    let copy = Attribute::key(0, 0, &wrap(&lent(), &keying()));
    let policy = builder::Part { attributes, ..rekey_policy(&spi_of_sa(), 128, 1) };
    frame(GSA_AUTH, &[0; 16], 1, vec![gsa(vec![policy]), kd(vec![bag(REKEY, &spi_of_sa(), vec![copy])])])
}

fn sealed() -> Transcript {
    let mut t = Transcript::of_calls("sealed", LENT);
    let (sample, opened) = (octets(SEALED), octets(OPENED));
    hand(&mut t, "to a new member", MOST_FRAME, &sample, "answer 2", None);
    t.frame("registers, the least Message ID is 7", 0, &registers(), "answer 0");
    t.then(&[rekey_text_here("live"), least(7)]);
    outer_faults(&mut t, &sample);
    number_10(&mut t, &sample, &opened);
    hand(&mut t, "the frame that OpenSSL sealed", MOST_FRAME, &sample, "answer 0", Some(&opened));
    t.then(&[rekey_text_here("live"), least(8)]);
    hand(&mut t, "once more: its Message ID is below the least", MOST_FRAME, &sample, "answer 3", Some(&opened));
    hand(&mut t, "a room of one octet less", MOST_FRAME - 1, &sample, "answer 10", None);
    let mut below = over(7, vec![delete(&[spi(1)])]);
    let end = below.len() - 1;
    below[35] = 9;
    hand(&mut t, "a Delete payload that breaks, below the least", MOST_FRAME, &sealed_by(&below, 0), "answer 1 28", Some(&below));
    below[35] = 1;
    below[end] = 2;
    hand(&mut t, "the same whole", MOST_FRAME, &sealed_by(&below, 0), "answer 3", Some(&below));
    let nothing = over(8, vec![]);
    hand(&mut t, "no payload, padding alone", MOST_FRAME, &sealed_by(&nothing, 255), "answer 4", Some(&nothing));
    let mut zero = over(8, vec![delete(&[spi(1)])]);
    zero[16] = 0;
    hand(&mut t, "next payload 0 and octets behind it", MOST_FRAME, &sealed_by(&zero, 3), "answer 1 0", Some(&zero));
    let esp_sas = over(8, announce(&[esp(1, &keying()[20..])]));
    hand(&mut t, "an ESP SA, padded", MOST_FRAME + 1, &sealed_by(&esp_sas, 17), "answer 0", Some(&esp_sas));
    t.then(&[esp_text(1, "live"), rekey_text_here("live"), least(9)]);
    t.octets("the same opened: its Message ID is below the least", 0, &esp_sas, "answer 3");
    t
}

/// What is judged on the outside: 1 and 2. The room stays.
fn outer_faults(t: &mut Transcript, sample: &[u8]) {
    let with = |at: usize, octet: u8| {
        let mut octets = sample.to_vec();
        octets[at] = octet;
        octets
    };
    hand(t, "no octets", MOST_FRAME, &[], "answer 1 0", None);
    hand(t, "the header alone", MOST_FRAME, &sample[..28], "answer 1 0", None);
    hand(t, "one octet less", MOST_FRAME, &sample[..sample.len() - 1], "answer 1 0", None);
    hand(t, "version 1", MOST_FRAME, &with(17, 0x10), "answer 1 0", None);
    hand(t, "first payload 53", MOST_FRAME, &with(16, 53), "answer 1 0", None);
    hand(t, "the payload is one octet shorter than the rest", MOST_FRAME, &with(31, 0x28), "answer 1 0", None);
    hand(t, "the opened frame", MOST_FRAME, &octets(OPENED), "answer 1 0", None);
    hand(t, "other SPIs", MOST_FRAME, &with(0, 0xa1), "answer 2", None);
    hand(t, "GSA_INBAND_REKEY", MOST_FRAME, &with(18, 42), "answer 2", None);
    hand(t, "GSA_AUTH, and no room", 0, &with(18, 39), "answer 2", None);
}

/// Each clause of number 10; flags, minor version and the critical bit are authenticated.
fn number_10(t: &mut Transcript, sample: &[u8], opened: &[u8]) {
    hand(t, "a room of one octet less", MOST_FRAME - 1, sample, "answer 10", None);
    hand(t, "no room", 0, sample, "answer 10", None);
    for (about, at) in
        [("flags", 19), ("version", 17), ("critical bit", 29), ("IV", 32), ("ciphertext", 40), ("tag", sample.len() - 1)]
    {
        let mut octets = sample.to_vec();
        octets[at] ^= 1;
        hand(t, &format!("one bit of the {about}"), MOST_FRAME, &octets, "answer 10", None);
    }
    let mut short = sample[..32 + 24].to_vec();
    (short[27], short[31]) = (56, 28);
    hand(t, "a body of 24 octets", MOST_FRAME, &short, "answer 10", None);
    let payloads = opened.len() - 28;
    hand(t, "a pad length above the octets before it", MOST_FRAME, &padded_as(opened, payloads as u8 + 1), "answer 10", None);
    hand(t, "a pad length of 255", MOST_FRAME, &padded_as(opened, 255), "answer 10", None);
    let bare = [&opened[..24], &[0, 0, 0, 28]].concat();
    let all = padded_as(opened, payloads as u8);
    hand(t, "all octets are padding, next payload 42", MOST_FRAME, &all, "answer 1 0", Some(&bare));
    hand(t, "an octet behind the payloads", MOST_FRAME, &sealed_by(&counted(opened), 0), "answer 1 0", Some(&counted(opened)));
}

/// The sealed frame with this octet for its pad length, whatever is before it.
fn padded_as(opened: &[u8], pad: u8) -> Vec<u8> {
    seal_plain(&keying()[..20], opened, &choice(0), &[&opened[28..], &[pad]].concat())
}

/// The opened frame with one octet more, which its header counts.
fn counted(opened: &[u8]) -> Vec<u8> {
    let mut octets = [opened, &[13]].concat();
    octets[27] += 1;
    octets
}
