//! `fragments NAME COUNT`: writes inputs of `trace`, NAME-KIND.in, and what the second member prints for each, NAME-KIND.out. KIND `whole` has
//! a registration and so many rekeys of 16,000 octets, each sealed; 14, 14-backwards, 32 and 32-backwards have the same rekeys in so many
//! fragments. A rekey deletes an SPI that is not in the table, and the rest is a Notify payload: there is as little to do as may be beside
//! opening and collecting, and the member that `trace` prints stays as small. KIND `sealed-SIZE` has forged sealed frames of so many
//! octets, with the right SPIs and another tag, `fragment-SIZE` forged fragments. NAME-KIND-outer.in has the same lines with another first
//! payload, which are refused before anything is opened.

use builder::line::{hex, line};
use builder::typical::*;
use builder::wrapping::wrap;
use builder::{Attribute, Body, Payload, NOTIFY, REKEY};
use reference::fragments::{seal_fragment, Place, ENCRYPTED_FRAGMENT};
use reference::layout::MOST_FRAME;
use reference::sealing::{padded, seal_frame, Choice, ENCRYPTED, HEADER};
use reference::trace;

const OCTETS: usize = 16_000;
const LENT: [u8; 16] = [0x11; 16];
const SPI: [u8; 16] = [0xa5; 16];
const TOTALS: [u16; 2] = [14, 32];
/// Of forged frames, and how many times COUNT of each.
const FORGED: [(usize, usize); 2] = [(MOST_FRAME, 1), (1_200, 10)];
/// Another first payload: D.
const OTHER: &[u8] = b"2a";
/// Where the first payload stands in a line, behind the letter, the room and the tick.
const FIRST_PAYLOAD: usize = 17 + 2 * 16;

/// The keying octets of the Rekey SA, GSK_e of 20 and GSK_w of 16.
fn keying() -> Vec<u8> {
    (0..36).collect()
}

fn registration() -> Vec<u8> {
    let copy = Attribute::key(0, 0, &wrap(&LENT, &keying()));
    let payloads = vec![gsa(vec![rekey_policy(&SPI, 128, 1)]), kd(vec![bag(REKEY, &SPI, vec![copy])])];
    line(0, &frame(GSA_AUTH, &[0; 16], 0, payloads).octets())
}

/// A rekey of that Message ID.
fn rekey(message_id: u32) -> Vec<u8> {
    let deletes = delete(&[vec![0, 0, 0, 1]]);
    let short = frame(GSA_REKEY, &SPI, message_id, vec![deletes.clone()]).octets().len() + 4;
    let rest = Payload::new(NOTIFY, Body::Plain(vec![0x5a; OCTETS - short]));
    frame(GSA_REKEY, &SPI, message_id, vec![deletes, rest]).octets()
}

/// The line of a frame with a room of 16,384 octets.
fn in_room(letter: u8, octets: &[u8]) -> Vec<u8> {
    [&[letter], hex(&(MOST_FRAME as u32).to_be_bytes()).as_slice(), b"00000000", &hex(octets)].concat()
}

fn choice(number: u16) -> Choice {
    Choice { iv: (number as u64).to_be_bytes(), ..Choice::default() }
}

fn whole(opened: &[u8]) -> Vec<Vec<u8>> {
    vec![in_room(b'x', &seal_frame(&keying()[..20], opened, &choice(0)))]
}

/// Fragments of equal size, but for the last.
fn pieces(opened: &[u8], total: u16, backwards: bool) -> Vec<Vec<u8>> {
    let size = (opened.len() - HEADER).div_ceil(total as usize);
    let sealed = |(number, piece): (u16, &[u8])| {
        let choice = choice(number);
        let octets = seal_fragment(&keying()[..20], opened, Place { number, total }, &choice, &padded(piece, &choice));
        in_room(b'y', &octets)
    };
    let mut lines: Vec<Vec<u8>> = (1..=total).zip(opened[HEADER..].chunks(size)).map(sealed).collect();
    assert_eq!(lines.len(), total as usize);
    if backwards {
        lines.reverse();
    }
    lines
}

/// A frame of so many octets with one payload of that kind, whose tag does not hold.
fn forged(letter: u8, kind: u8, size: usize) -> Vec<u8> {
    let mut octets = [&SPI[..], &[kind, 0x20, GSA_REKEY, 0, 0, 0, 0, 7], &(size as u32).to_be_bytes(), &[42, 0]].concat();
    octets.extend((size as u16 - HEADER as u16).to_be_bytes());
    octets.extend([0, 1, 0, 2]);
    octets.resize(size, 0x5a);
    in_room(letter, &octets)
}

fn other_first_payload(line: &[u8]) -> Vec<u8> {
    [&line[..FIRST_PAYLOAD - 1], OTHER, &line[FIRST_PAYLOAD + 1..]].concat()
}

fn write(name: &str, kind: &str, lines: &[Vec<u8>]) {
    let outer: Vec<Vec<u8>> = lines.iter().map(|line| other_first_payload(line)).collect();
    for (kind, lines) in [(kind.to_string(), lines), (format!("{kind}-outer"), &outer[..])] {
        let input = [&[hex(&LENT), registration()], lines].concat().join(&b'\n');
        let mut output = Vec::new();
        trace::run(&input[..], &mut output).expect("writing to memory");
        for (ending, octets) in [("in", &input), ("out", &output)] {
            std::fs::write(format!("{name}-{kind}.{ending}"), octets).expect("a file");
        }
    }
}

fn main() {
    let arguments: Vec<String> = std::env::args().collect();
    let [_, name, count] = arguments.as_slice() else { panic!("fragments NAME COUNT") };
    let count: u32 = count.parse().expect("a number");
    let all = |lines: &dyn Fn(&[u8]) -> Vec<Vec<u8>>| (0..count).flat_map(|id| lines(&rekey(id))).collect::<Vec<_>>();
    write(name, "whole", &all(&whole));
    for total in TOTALS {
        write(name, &total.to_string(), &all(&|opened| pieces(opened, total, false)));
        write(name, &format!("{total}-backwards"), &all(&|opened| pieces(opened, total, true)));
    }
    for (size, times) in FORGED {
        for (kind, letter, payload) in [("sealed", b'x', ENCRYPTED), ("fragment", b'y', ENCRYPTED_FRAGMENT)] {
            write(name, &format!("{kind}-{size}"), &vec![forged(letter, payload, size); count as usize * times]);
        }
    }
}
