//! Frames from fields to octets. Every length, count and type comes out right unless a field says otherwise, so that a frame
//! can be broken in one place on purpose.

mod built;
pub mod line;
pub mod rng;
pub mod typical;
pub mod wrapping;

pub use built::{Built, Mark};
use reference::layout::Kind;

pub const AH: u8 = 2;
pub const ESP: u8 = 3;
pub const REKEY: u8 = 6;

pub const IDR: u8 = 36;
pub const CERT: u8 = 37;
pub const AUTH: u8 = 39;
pub const NOTIFY: u8 = 41;
pub const DELETE: u8 = 42;
pub const GSA: u8 = 51;
pub const KD: u8 = 52;

#[derive(Clone)]
pub struct Frame {
    pub spis: Vec<u8>,
    /// The type of the first payload, if it is not to be the right one.
    pub first: Option<u8>,
    pub version: u8,
    pub exchange: u8,
    pub flags: u8,
    pub message_id: u32,
    /// Added to the right length; the same in the structures below.
    pub skew: i64,
    pub payloads: Vec<Payload>,
    /// Octets that follow the last structure; the same in the structures below.
    pub tail: Vec<u8>,
    /// Cuts the built frame to that many octets.
    pub cut: Option<usize>,
}

#[derive(Clone)]
pub struct Payload {
    pub kind: u8,
    pub next: Option<u8>,
    /// Critical bit and reserved.
    pub flags: u8,
    pub skew: i64,
    pub body: Body,
    pub tail: Vec<u8>,
}

#[derive(Clone)]
pub enum Body {
    Plain(Vec<u8>),
    Parts(Vec<Part>),
    Delete(Delete),
}

/// A policy of a GSA payload or a bag of a KD payload. A bag has no selectors and no transforms.
#[derive(Clone)]
pub struct Part {
    pub protocol: u8,
    /// SPI size, or the reserved octet where the protocol is 0.
    pub second: u8,
    pub skew: i64,
    pub spi: Vec<u8>,
    pub selectors: Vec<Selector>,
    pub transforms: Vec<Transform>,
    pub attributes: Vec<Attribute>,
    pub tail: Vec<u8>,
}

#[derive(Clone)]
pub struct Selector {
    pub kind: u8,
    pub ip_protocol: u8,
    pub skew: i64,
    pub ports: (u16, u16),
    pub start: Vec<u8>,
    pub end: Vec<u8>,
}

#[derive(Clone)]
pub struct Transform {
    /// The first octet, if it is not to be the right one of 3 and 0.
    pub more: Option<u8>,
    pub reserved: (u8, u8),
    pub skew: i64,
    pub kind: u8,
    pub id: u16,
    pub attributes: Vec<Attribute>,
    pub tail: Vec<u8>,
}

#[derive(Clone, PartialEq)]
pub enum Attribute {
    Short(u16, u16),
    Long { kind: u16, skew: i64, value: Vec<u8> },
}

#[derive(Clone)]
pub struct Delete {
    pub protocol: u8,
    pub size: u8,
    pub skew: i64,
    pub spis: Vec<Vec<u8>>,
}

impl Frame {
    pub fn build(&self) -> Built {
        let mut out = Built::default();
        out.octets.extend_from_slice(&self.spis);
        let kinds: Vec<u8> = self.payloads.iter().map(|payload| payload.kind).chain([0]).collect();
        out.number(1, self.first.unwrap_or(kinds[0]) as i64);
        out.number(1, self.version as i64);
        out.number(1, self.exchange as i64);
        out.number(1, self.flags as i64);
        out.number(4, self.message_id as i64);
        out.number(4, 0);
        for (payload, next) in self.payloads.iter().zip(&kinds[1..]) {
            payload.build(*next, &mut out);
        }
        out.octets.extend_from_slice(&self.tail);
        let length = out.octets.len() as i64 + self.skew;
        out.octets[24..28].copy_from_slice(&(length as u32).to_be_bytes());
        out.octets.truncate(self.cut.unwrap_or(usize::MAX));
        out.marks.retain(|mark| mark.at + mark.size <= out.octets.len());
        out
    }

    pub fn octets(&self) -> Vec<u8> {
        self.build().octets
    }
}

impl Payload {
    pub fn new(kind: u8, body: Body) -> Payload {
        Payload { kind, next: None, flags: 0, skew: 0, body, tail: Vec::new() }
    }

    /// The policies of a GSA payload or the bags of a KD payload.
    pub fn parts(&mut self) -> &mut Vec<Part> {
        match &mut self.body {
            Body::Parts(parts) => parts,
            _ => panic!("a payload without parts"),
        }
    }

    /// Makes the length field say `length`.
    pub fn say_length(&mut self, length: usize) {
        let mut out = Built::default();
        self.build(0, &mut out);
        self.skew = length as i64 - out.octets.len() as i64;
    }

    fn build(&self, next: u8, out: &mut Built) {
        let start = out.octets.len();
        out.kind = Kind::Payload;
        out.number(1, self.next.unwrap_or(next) as i64);
        out.number(1, self.flags as i64);
        out.number(2, 0);
        match &self.body {
            Body::Plain(octets) => out.octets.extend_from_slice(octets),
            Body::Parts(parts) => {
                let kind = if self.kind == KD { Kind::Bag } else { Kind::Policy };
                parts.iter().for_each(|part| part.build(kind, out));
            }
            Body::Delete(delete) => delete.build(out),
        }
        out.octets.extend_from_slice(&self.tail);
        out.set_length(start + 2, start, self.skew);
    }
}

impl Part {
    /// The group-wide policy or the Member Key Bag.
    pub fn unnamed(attributes: Vec<Attribute>) -> Part {
        Part { attributes, ..Part::named(0, &[]) }
    }

    pub fn named(protocol: u8, spi: &[u8]) -> Part {
        let (second, spi) = (spi.len() as u8, spi.to_vec());
        let (selectors, transforms, attributes) = (Vec::new(), Vec::new(), Vec::new());
        Part { protocol, second, skew: 0, spi, selectors, transforms, attributes, tail: Vec::new() }
    }

    /// Makes the length field say `length`.
    pub fn say_length(&mut self, length: usize) {
        let mut out = Built::default();
        self.build(Kind::Policy, &mut out);
        self.skew = length as i64 - out.octets.len() as i64;
    }

    fn build(&self, kind: Kind, out: &mut Built) {
        let start = out.octets.len();
        out.kind = kind;
        out.number(1, self.protocol as i64);
        out.number(1, self.second as i64);
        out.number(2, 0);
        out.octets.extend_from_slice(&self.spi);
        self.selectors.iter().for_each(|selector| selector.build(out));
        for (i, transform) in self.transforms.iter().enumerate() {
            transform.build(i + 1 == self.transforms.len(), out);
        }
        self.attributes.iter().for_each(|attribute| attribute.build(out));
        out.octets.extend_from_slice(&self.tail);
        out.set_length(start + 2, start, self.skew);
    }
}

impl Selector {
    /// One address or a range of them, IPv4 or IPv6 by their size; UDP.
    pub fn new(start: &[u8], end: &[u8], ports: (u16, u16)) -> Selector {
        let kind = if start.len() == 4 { 7 } else { 8 };
        Selector { kind, ip_protocol: 17, skew: 0, ports, start: start.to_vec(), end: end.to_vec() }
    }

    fn build(&self, out: &mut Built) {
        let start = out.octets.len();
        out.kind = Kind::Selector;
        out.number(1, self.kind as i64);
        out.number(1, self.ip_protocol as i64);
        out.number(2, 0);
        out.number(2, self.ports.0 as i64);
        out.number(2, self.ports.1 as i64);
        out.octets.extend_from_slice(&self.start);
        out.octets.extend_from_slice(&self.end);
        out.set_length(start + 2, start, self.skew);
    }
}

impl Transform {
    pub fn new(kind: u8, id: u16, attributes: Vec<Attribute>) -> Transform {
        Transform { more: None, reserved: (0, 0), skew: 0, kind, id, attributes, tail: Vec::new() }
    }

    /// Makes the length field say `length`.
    pub fn say_length(&mut self, length: usize) {
        let mut out = Built::default();
        self.build(true, &mut out);
        self.skew = length as i64 - out.octets.len() as i64;
    }

    fn build(&self, last: bool, out: &mut Built) {
        let start = out.octets.len();
        out.kind = Kind::Transform;
        out.number(1, self.more.unwrap_or(if last { 0 } else { 3 }) as i64);
        out.number(1, self.reserved.0 as i64);
        out.number(2, 0);
        out.number(1, self.kind as i64);
        out.number(1, self.reserved.1 as i64);
        out.number(2, self.id as i64);
        self.attributes.iter().for_each(|attribute| attribute.build(out));
        out.octets.extend_from_slice(&self.tail);
        out.set_length(start + 2, start, self.skew);
    }
}

impl Attribute {
    pub fn long(kind: u16, value: &[u8]) -> Attribute {
        Attribute::Long { kind, skew: 0, value: value.to_vec() }
    }

    /// SA_KEY or WRAP_KEY.
    pub fn key(key_id: u32, kwk_id: u32, wrapped: &[u8]) -> Attribute {
        Attribute::long(1, &[&key_id.to_be_bytes(), &kwk_id.to_be_bytes(), wrapped].concat())
    }

    fn build(&self, out: &mut Built) {
        out.kind = Kind::Attribute;
        match self {
            Attribute::Short(kind, value) => {
                out.number(2, *kind as i64 | 0x8000);
                out.number(2, *value as i64);
            }
            Attribute::Long { kind, skew, value } => {
                out.number(2, *kind as i64);
                out.number(2, value.len() as i64 + skew);
                out.octets.extend_from_slice(value);
            }
        }
    }
}

impl Delete {
    pub fn new(protocol: u8, size: u8, spis: &[Vec<u8>]) -> Delete {
        Delete { protocol, size, skew: 0, spis: spis.to_vec() }
    }

    fn build(&self, out: &mut Built) {
        out.number(1, self.protocol as i64);
        out.number(1, self.size as i64);
        out.number(2, self.spis.len() as i64 + self.skew);
        self.spis.iter().for_each(|spi| out.octets.extend_from_slice(spi));
    }
}
