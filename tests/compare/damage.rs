//! Damage done to the octets of a frame, and hostile lines of text. Nothing is known of the answer.

use builder::rng::Rng;
use builder::{Built, Mark};
use reference::layout::Kind;

/// What a layout can break in, and must in every long run of the comparer.
pub const KINDS: [(&str, Kind); 7] = [
    ("header", Kind::Header),
    ("payload", Kind::Payload),
    ("policy", Kind::Policy),
    ("bag", Kind::Bag),
    ("selector", Kind::Selector),
    ("transform", Kind::Transform),
    ("attribute", Kind::Attribute),
];

/// The octets with one to three damages; the header's length is set right again in most cases where it would no longer be.
pub fn damaged(built: &Built, rng: &mut Rng) -> Vec<u8> {
    let mut octets = built.octets.clone();
    for _ in 0..rng.pick(&[1, 1, 1, 2, 2, 3]) {
        damage(&mut octets, &built.marks, rng);
    }
    if octets.len() != built.octets.len() && octets.len() >= 28 && rng.chance(85) {
        let length = octets.len() as u32;
        octets[24..28].copy_from_slice(&length.to_be_bytes());
    }
    octets
}

fn damage(octets: &mut Vec<u8>, marks: &[Mark], rng: &mut Rng) {
    let at = rng.below(octets.len());
    let count = rng.between(1, 8).min(octets.len() - at);
    match rng.below(12) {
        0 => octets.truncate(at),
        1 => {
            let inserted = rng.octets(count);
            octets.splice(at..at, inserted);
        }
        2 => drop(octets.drain(at..at + count)),
        3 => {
            let end = (at + rng.below(60)).min(octets.len());
            let stretch = octets[at..end].to_vec();
            octets.splice(at..at, stretch);
        }
        4 | 5 if !octets.is_empty() => octets[at] ^= 1 << rng.below(8),
        6 if !octets.is_empty() => octets[at] = rng.number() as u8,
        _ => {
            let mark = some_mark(marks, rng);
            let end = mark.at + mark.size;
            if end <= octets.len() {
                change_number(&mut octets[mark.at..end], rng);
            }
        }
    }
}

/// Any number, or one of a kind of structure by chance: there are many more attributes than selectors, say.
fn some_mark(marks: &[Mark], rng: &mut Rng) -> Mark {
    let any = rng.pick(marks);
    let kind = rng.pick(&KINDS).1;
    let of_kind: Vec<Mark> = marks.iter().copied().filter(|mark| mark.kind == kind).collect();
    if of_kind.is_empty() || rng.chance(40) {
        any
    } else {
        rng.pick(&of_kind)
    }
}

/// Another value for a number of 1, 2 or 4 octets: near the old one, or one with a meaning somewhere.
fn change_number(octets: &mut [u8], rng: &mut Rng) {
    let old = octets.iter().fold(0u64, |number, octet| number << 8 | *octet as u64);
    let new = match rng.below(3) {
        0 => old.wrapping_add(rng.pick(&[1, 2, 4, 8, u64::MAX, u64::MAX - 1, u64::MAX - 3, u64::MAX - 7])),
        1 => rng
            .pick(&[0, 1, 2, 3, 4, 5, 6, 7, 8, 12, 13, 14, 16, 20, 24, 36, 39, 40, 41, 42, 51, 52, 53, 127, 128, 192, 255, 256]),
        _ => old ^ rng.pick(&[0x80, 0x8000, 0xff, 0xffff, 0x0100]),
    };
    let count = octets.len();
    octets.copy_from_slice(&new.to_be_bytes()[8 - count..]);
}

/// A good line made bad, or one at the border of being so.
pub fn hostile_line(good: &[u8], rng: &mut Rng) -> Vec<u8> {
    let mut line = good.to_vec();
    let at = rng.below(line.len());
    match rng.below(16) {
        0 => line.clear(),
        1 => line.truncate(rng.below(9)),
        2 => line.truncate(at | 1),
        3 => line.push(b'\r'),
        4 => line[at] = rng.pick(b" \t\0\r-_.:;xgGzABCDEF/@`{\x7f\x80\xc3\xff"),
        5 => line.make_ascii_uppercase(),
        6 => line.insert(0, b' '),
        7 => line.insert(at, rng.pick(b"0f ")),
        8 => line = [b"0x", good].concat(),
        9 => line = vec![b'0'; rng.pick(&[32_774, 32_776, 32_777, 32_778, 40_000, 300_000])],
        10 => line = vec![rng.pick(b"0f"); rng.pick(&[7, 8, 9, 10, 62, 64, 66])],
        11 => line.resize(rng.pick(&[32_775, 32_776, 32_777, 32_778, 70_000]), b'0'),
        12 => line.push(b' '),
        13 => line = rng.octets(20).into_iter().filter(|octet| *octet != b'\n').collect(),
        14 => line = vec![0; 8],
        _ => line.truncate(8),
    }
    line
}

/// First lines, good and bad, by kind. Most would be a fit key but for the fault.
pub fn first_line(kind: usize, rng: &mut Rng) -> Vec<u8> {
    let digits = |rng: &mut Rng, count: usize| -> Vec<u8> { (0..count).map(|_| rng.pick(b"0123456789abcdef")).collect() };
    let fit = rng.pick(&[32, 48, 64]);
    let (unfit, at) = (rng.pick(&[2, 30, 34, 40, 46, 50, 56, 62]), rng.below(fit));
    let mut line = digits(rng, fit);
    match kind % 13 {
        0 => line.clear(),
        1 => line = digits(rng, 65),
        2 => line = digits(rng, 66),
        3 => line.truncate(fit - 1),
        4 => line.push(b'\r'),
        5 => line.insert(0, b' '),
        6 => line[at] = rng.pick(b"gx/:@`{ \t\0\x7f\x80\xff"),
        7 => line[at] = rng.pick(b"ABCDEF"),
        8 => line = digits(rng, 40_000),
        9 => line = digits(rng, unfit),
        10 => line = [b"0x", line.as_slice()].concat(),
        11 => line.push(b' '),
        _ => {}
    }
    line
}
