//! Frames in another order (document 02, T-14): policies within their GSA, bags within their KD, attributes within their bag. It cuts a
//! frame by the formats of document 01 alone, by its lengths, and knows nothing of what a reader makes of them.

use builder::rng::Rng;
use builder::{GSA, KD, REKEY};

/// IKE header, payload header, and head of a policy or bag before its SPI.
const HEADER: usize = 28;
const HEAD: usize = 4;
const FIRST_PAYLOAD: usize = 16;
const EXCHANGE: usize = 18;

/// Attribute 1: SA_KEY in a Group Key Bag, WRAP_KEY in a Member Key Bag.
const KEY: u16 = 1;

/// The private attribute of document 02, T-11, in the bag of a Rekey SA.
const PRIVATE: u16 = 16385;

#[derive(Clone, Copy)]
pub enum Order {
    Reversed,
    Shuffled,
}

/// The orders in which every frame is handed in beside its own.
pub const ORDERS: [Order; 3] = [Order::Reversed, Order::Shuffled, Order::Shuffled];

/// What can be moved, and must have been over the run.
pub const MOVED: [&str; 8] = [
    "policies",
    "the group-wide policy",
    "bags",
    "the Member Key Bag",
    "SA_KEY copies",
    "WRAP_KEY entries",
    "private entries",
    "a skipped attribute among the others",
];

/// Each exchange with the numbers that its frames can be given, 1 left out.
const NUMBERS: [(&str, &[u8]); 3] = [
    ("registration", &[0, 2, 4, 5, 6, 7, 8, 9]),
    ("rekey", &[0, 2, 3, 4, 5, 6, 7, 8, 9]),
    ("rekey over the own channel", &[0, 2, 4, 5, 6, 7, 8, 9]),
];

pub const EXCHANGES: [&str; 3] = [NUMBERS[0].0, NUMBERS[1].0, NUMBERS[2].0];

/// Every exchange and number that must have occurred with a frame that really moved.
pub fn numbers() -> impl Iterator<Item = (&'static str, u8)> {
    NUMBERS.into_iter().flat_map(|(exchange, numbers)| numbers.iter().map(move |number| (exchange, *number)))
}

/// The exchange of a frame (RFC 9838, section 9.2); None for one that no member takes.
pub fn exchange(frame: &[u8]) -> Option<&'static str> {
    match frame.get(EXCHANGE)? {
        39 | 40 => Some(NUMBERS[0].0),
        41 => Some(NUMBERS[1].0),
        42 => Some(NUMBERS[2].0),
        _ => None,
    }
}

pub struct Rearranged {
    pub octets: Vec<u8>,
    /// Which of `MOVED` were.
    pub moved: Vec<&'static str>,
}

/// The frame in another order; None if its lengths do not lead to its end.
pub fn rearranged(frame: &[u8], order: Order, rng: &mut Rng) -> Option<Rearranged> {
    let mut out = Rearranged { octets: frame.get(..HEADER)?.to_vec(), moved: Vec::new() };
    let (mut kind, mut rest) = (frame[FIRST_PAYLOAD], &frame[HEADER..]);
    while kind != 0 {
        let payload = rest.get(..counted(rest)?)?;
        out.octets.extend_from_slice(&payload[..HEAD]);
        let body = &payload[HEAD..];
        match kind {
            GSA => policies(body, order, rng, &mut out)?,
            KD => bags(body, order, rng, &mut out)?,
            _ => out.octets.extend_from_slice(body),
        }
        kind = payload[0];
        rest = &rest[payload.len()..];
    }
    rest.is_empty().then_some(out)
}

fn policies(body: &[u8], order: Order, rng: &mut Rng, out: &mut Rearranged) -> Option<()> {
    let before = cut(body, counted)?;
    let after = ordered(&before, order, rng);
    out.note(MOVED[0], before != after);
    out.note(MOVED[1], place_of_unnamed(&before) != place_of_unnamed(&after));
    out.octets.extend(after.concat());
    Some(())
}

fn bags(body: &[u8], order: Order, rng: &mut Rng, out: &mut Rearranged) -> Option<()> {
    let before = cut(body, counted)?;
    let after = ordered(&before, order, rng);
    out.note(MOVED[2], before != after);
    out.note(MOVED[3], place_of_unnamed(&before) != place_of_unnamed(&after));
    for bag in after {
        let (head, held) = bag.split_at_checked(HEAD + spi_size(bag[0])?)?;
        let before = cut(held, attribute)?;
        let after = ordered(&before, order, rng);
        let skipped = |list: &[&[u8]]| -> Vec<bool> { list.iter().map(|a| ![KEY, PRIVATE].contains(&type_of(a))).collect() };
        out.note(if bag[0] == 0 { MOVED[5] } else { MOVED[4] }, of_type(KEY, &before) != of_type(KEY, &after));
        out.note(MOVED[6], bag[0] == REKEY && of_type(PRIVATE, &before) != of_type(PRIVATE, &after));
        out.note(MOVED[7], skipped(&before) != skipped(&after));
        out.octets.extend_from_slice(head);
        out.octets.extend(after.concat());
    }
    Some(())
}

impl Rearranged {
    fn note(&mut self, what: &'static str, moved: bool) {
        if moved && !self.moved.contains(&what) {
            self.moved.push(what);
        }
    }
}

/// Stretches one after the other, each of the size that its first octets tell.
fn cut(mut rest: &[u8], size: fn(&[u8]) -> Option<usize>) -> Option<Vec<&[u8]>> {
    let mut stretches = Vec::new();
    while !rest.is_empty() {
        let (stretch, behind) = rest.split_at_checked(size(rest)?)?;
        stretches.push(stretch);
        rest = behind;
    }
    Some(stretches)
}

/// The size of a payload, policy or bag: its octets 2 and 3.
fn counted(octets: &[u8]) -> Option<usize> {
    let size = u16::from_be_bytes([*octets.get(2)?, *octets.get(3)?]) as usize;
    (size >= HEAD).then_some(size)
}

/// The size of an attribute: "top bit 1: 15-bit type and 2-octet value. Top bit 0: type, length 2, value".
fn attribute(octets: &[u8]) -> Option<usize> {
    let length = u16::from_be_bytes([*octets.get(2)?, *octets.get(3)?]) as usize;
    Some(if octets[0] >= 128 { HEAD } else { HEAD + length })
}

/// "protocol (6 Rekey, 3 ESP, 2 AH), SPI size (16, 4, 4)"; a Member Key Bag has no SPI.
fn spi_size(protocol: u8) -> Option<usize> {
    match protocol {
        0 => Some(0),
        2 | 3 => Some(4),
        6 => Some(16),
        _ => None,
    }
}

fn type_of(attribute: &[u8]) -> u16 {
    u16::from_be_bytes([attribute[0], attribute[1]])
}

/// The attributes of a type, in their order.
fn of_type<'f>(kind: u16, list: &[&'f [u8]]) -> Vec<&'f [u8]> {
    list.iter().copied().filter(|a| type_of(a) == kind).collect()
}

/// Where the group-wide policy or the Member Key Bag stands.
fn place_of_unnamed(parts: &[&[u8]]) -> Option<usize> {
    parts.iter().position(|part| part[0] == 0)
}

fn ordered<'f>(stretches: &[&'f [u8]], order: Order, rng: &mut Rng) -> Vec<&'f [u8]> {
    let mut list = stretches.to_vec();
    match order {
        Order::Reversed => list.reverse(),
        Order::Shuffled => rng.shuffle(&mut list),
    }
    list
}
