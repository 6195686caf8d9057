//! Fragments (document 02, T-12), lines `y` of `trace`: what each is answered, the numbers that are kept after it, member and room. The two
//! fragments of the sample were computed with OpenSSL; the others are sealed by the second program.

use crate::parts::*;
use crate::sealed::{keying, octets, over, registers, rekey_text_here, OPENED, SEALED};
use crate::Transcript;
use builder::typical::*;
use reference::aes::Schedule;
use reference::fragments::{seal_fragment, Place};
use reference::gcm::seal;
use reference::layout::MOST_FRAME;
use reference::sealing::Choice;

pub fn all() -> Vec<Transcript> {
    vec![sample(), refused(), judged()]
}

/// The sample frame of T-05, cut behind 5 octets.
pub const FIRST: &str = "a0a1a2a3a4a5a6a7a8a9aaabacadaeaf3520290000000007000000422a000026000100020000000000000001\
    5e46fa9db8145a89b9a38a376211e4848fc0a26d391e";
pub const SECOND: &str = "a0a1a2a3a4a5a6a7a8a9aaabacadaeaf35202900000000070000004400000028000200020000000000000002\
    7c35c155e1de4bd0bc27e921353348a40b14f1ff25577d7b";

/// Hands in a fragment: its answer, and the numbers that are kept after it.
pub fn hand_at(t: &mut Transcript, about: &str, tick: u32, octets: &[u8], answer: &str, waits: &str) {
    hand_in(t, about, (MOST_FRAME, tick), octets, answer, waits);
}

pub fn hand(t: &mut Transcript, about: &str, octets: &[u8], answer: &str, waits: &str) {
    hand_at(t, about, 0, octets, answer, waits);
}

/// The same with a room of so many octets, at a tick.
fn hand_in(t: &mut Transcript, about: &str, (room, tick): (usize, u32), octets: &[u8], answer: &str, waits: &str) {
    t.line(about, format!("y{room:08x}{tick:08x}{}", text(octets)).as_bytes(), answer);
    t.then(&[if waits.is_empty() { "waits".to_string() } else { format!("waits {waits}") }]);
}

/// Hands in the fragment that completes this frame, which then stands in the room.
pub fn complete(t: &mut Transcript, about: &str, octets: &[u8], answer: &str, opened: &[u8]) {
    hand(t, about, octets, answer, "");
    t.then(&[wrote(opened)]);
}

pub fn wrote(opened: &[u8]) -> String {
    format!("wrote {}", text(opened))
}

pub fn choice() -> Choice {
    Choice { reserved: 0x80, iv: [9; 8], padding: Vec::new() }
}

/// Fragment `number` of `total` with the header of this frame and its next payload, and these octets of it; no padding.
pub fn fragment(opened: &[u8], number: u16, total: u16, piece: &[u8]) -> Vec<u8> {
    plain_fragment(opened, number, total, &[piece, &[0]].concat())
}

/// The same with any plain octets, whatever their last one counts.
fn plain_fragment(opened: &[u8], number: u16, total: u16, plain: &[u8]) -> Vec<u8> {
    seal_fragment(&keying()[..20], opened, Place { number, total }, &choice(), plain)
}

/// A frame that deletes an SPI that is not in the table: accepted, and nothing changes but the least Message ID.
pub fn deletes(message_id: u32) -> Vec<u8> {
    over(message_id, vec![delete(&[spi(1)])])
}

/// With this octet at a place.
pub fn with(octets: &[u8], at: usize, octet: u8) -> Vec<u8> {
    let mut octets = octets.to_vec();
    octets[at] = octet;
    octets
}

/// The first so many octets, which the header and the payload count.
fn cut_to(octets: &[u8], count: u8) -> Vec<u8> {
    with(&with(&octets[..count as usize], 27, count), 31, count - 28)
}

/// A member whose least acceptable Message ID is 7.
pub fn registered(name: &'static str) -> Transcript {
    let mut t = Transcript::of_calls(name, LENT);
    t.frame("registers, the least Message ID is 7", 0, &registers(), "answer 0");
    t.then(&[rekey_text_here("live"), least(7)]);
    t
}

/// The two fragments that OpenSSL sealed, in both orders.
fn sample() -> Transcript {
    let mut t = Transcript::of_calls("fragments", LENT);
    let (first, second, opened) = (octets(FIRST), octets(SECOND), octets(OPENED));
    hand(&mut t, "to a new member", &first, "refused 2", "");
    for (one, other, number) in [(&first, &second, "1"), (&second, &first, "2")] {
        t.frame("registers, the least Message ID is 7", 0, &registers(), "answer 0");
        t.then(&[rekey_text_here("live"), least(7)]);
        hand(&mut t, "one of the two", one, "waiting", number);
        hand(&mut t, "once more", one, "passed over", number);
        complete(&mut t, "the other one", other, "complete 0", &opened);
        t.then(&[rekey_text_here("live"), least(8)]);
        hand(&mut t, "its Message ID is below the least", other, "refused 3", "");
        t.line("leaves", b"l", "done");
        t.then(&[least(0)]);
    }
    t.line("no room, no tick", b"y", "bad");
    t.line("a tick cut short", b"y000040000000000", "bad");
    t.line("a room of 32,769 octets", b"y0000800100000000", "bad");
    t.line("an odd count of digits", b"y00004000000000000", "bad");
    t
}

/// Number 1 and number 2, each clause, while fragment 2 waits.
fn refused() -> Transcript {
    let mut t = registered("fragments-outer");
    let (first, opened) = (octets(FIRST), octets(OPENED));
    hand(&mut t, "fragment 2 of 2", &octets(SECOND), "waiting", "2");
    let behind = with(&[&first[..], &[0, 0, 0, 4]].concat(), 27, first.len() as u8 + 4);
    let place = |number: u16, total: u16| fragment(&opened, number, total, &opened[28..33]);
    let faults = [
        ("no octets", vec![]),
        ("the header alone", first[..28].to_vec()),
        ("one octet less", first[..first.len() - 1].to_vec()),
        ("version 1", with(&first, 17, 0x10)),
        ("first payload 46", with(&first, 16, 46)),
        ("the frame sealed whole", octets(SEALED)),
        ("the opened frame", opened.clone()),
        ("the payload is one octet shorter than the rest", with(&first, 31, 0x25)),
        ("a payload behind it", behind),
        ("a body of no octets", cut_to(&first, 32)),
        ("a body of 3 octets", cut_to(&first, 35)),
        ("number 0 of 2", place(0, 2)),
        ("number 3 of 2", place(3, 2)),
        ("number 0 of 0", place(0, 0)),
        ("number 1 of 0", place(1, 0)),
        ("number 33 of 32", place(33, 32)),
        ("number 256 of 2", place(256, 2)),
        ("number 0 of 33", place(0, 33)),
        ("number 0, other SPIs", with(&place(0, 2), 0, 0xa1)),
    ];
    faults.iter().for_each(|(about, octets)| hand(&mut t, about, octets, "refused 1 0", "2"));
    hand(&mut t, "other SPIs", &with(&first, 0, 0xa1), "refused 2", "2");
    hand(&mut t, "other SPIs, 33 in all", &with(&place(1, 33), 15, 0xa1), "refused 2", "2");
    hand(&mut t, "GSA_INBAND_REKEY", &with(&first, 18, 42), "refused 2", "2");
    hand_in(&mut t, "GSA_AUTH, and no room", (0, 0), &with(&first, 18, 39), "refused 2", "2");
    hand_in(&mut t, "number 0, and no room", (0, 0), &place(0, 2), "refused 1 0", "2");
    complete(&mut t, "whole in all", &first, "complete 0", &opened);
    t.then(&[rekey_text_here("live"), least(8)]);
    t
}

/// Numbers 10, 3 and 7, in this order, from both sides.
fn judged() -> Transcript {
    let mut t = registered("fragments-judged");
    let (first, opened) = (octets(FIRST), octets(OPENED));
    hand(&mut t, "fragment 2 of 2", &octets(SECOND), "waiting", "2");
    hand_in(&mut t, "a room of 16,383 octets", (MOST_FRAME - 1, 0), &first, "refused 10", "2");
    hand_in(&mut t, "no room", (0, 0), &first, "refused 10", "2");
    let last = first.len() - 1;
    let bits =
        [("flags", 19, 1), ("minor version", 17, 1), ("Message ID", 23, 8), ("next payload", 28, 1), ("critical bit", 29, 0x80)];
    let others = [("number: 2 of 2", 33, 3), ("total: 1 of 3", 35, 1), ("IV", 43, 1), ("ciphertext", 44, 1), ("tag", last, 1)];
    for (about, at, bit) in bits.into_iter().chain(others) {
        hand(&mut t, &format!("another {about}"), &with(&first, at, first[at] ^ bit), "refused 10", "2");
    }
    hand(&mut t, "a body of 4 octets", &cut_to(&first, 36), "refused 10", "2");
    hand(&mut t, "a body of 28 octets", &cut_to(&first, 60), "refused 10", "2");
    hand(&mut t, "a pad length above the octets before it", &plain_fragment(&opened, 1, 2, &[7, 7, 3]), "refused 10", "2");
    hand(&mut t, "a tag over 32 octets, without number and total", &tag_over_32(&first), "refused 10", "2");
    let below = fragment(&deletes(6), 1, 2, &[7]);
    hand(&mut t, "Message ID 6, a bad tag", &with(&below, below.len() - 1, below[below.len() - 1] ^ 1), "refused 10", "2");
    let many = fragment(&opened, 1, 33, &[7]);
    hand(&mut t, "33 in all, a bad tag", &with(&many, 44, many[44] ^ 1), "refused 10", "2");
    hand(&mut t, "Message ID 6", &below, "refused 3", "2");
    hand(&mut t, "Message ID 6, 33 in all", &fragment(&deletes(6), 1, 33, &[7]), "refused 3", "2");
    hand(&mut t, "1 of 33", &many, "refused 7", "2");
    hand(&mut t, "2 of 65,535", &fragment(&opened, 2, 65_535, &[7]), "refused 7", "2");
    hand(&mut t, "32 of 32, a larger total", &fragment(&opened, 32, 32, &[7]), "waiting", "32");
    hand(&mut t, "a body of 29 octets: an empty piece", &fragment(&opened, 1, 32, &[]), "waiting", "1 32");
    hand(&mut t, "all octets are padding", &plain_fragment(&opened, 31, 32, &[7, 7, 2]), "waiting", "1 31 32");
    hand_in(&mut t, "a room of 16,385 octets", (MOST_FRAME + 1, 0), &fragment(&opened, 2, 32, &[]), "waiting", "1 2 31 32");
    t
}

/// A fragment with the same plain octets whose tag does not cover number and total.
fn tag_over_32(first: &[u8]) -> Vec<u8> {
    let (key, salt) = (Schedule::expand(&keying()[..16]).expect("an AES key"), &keying()[16..20]);
    let nonce = [salt, &first[36..44]].concat().try_into().expect("12 octets");
    [&first[..44], &seal(&key, nonce, &first[..32], &[&octets(OPENED)[28..33], &[0]].concat())].concat()
}
