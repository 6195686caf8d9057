//! The parts of ordinary frames, with the numbers that document 01 wants.

use crate::{Attribute, Body, Delete, Frame, Part, Payload, Selector, Transform};
use crate::{DELETE, ESP, GSA, KD, REKEY};

pub const GSA_AUTH: u8 = 39;
pub const GSA_REGISTRATION: u8 = 40;
pub const GSA_REKEY: u8 = 41;
pub const GSA_INBAND_REKEY: u8 = 42;

/// The rows of the algorithm table: Key Length in bits and octets needed, key wrap ID and octets needed.
pub const ENCRYPTIONS: [(u16, usize); 3] = [(128, 20), (192, 28), (256, 36)];
pub const KEY_WRAPS: [(u16, usize); 3] = [(1, 16), (2, 24), (3, 32)];

pub fn encryption(bits: u16) -> Transform {
    Transform::new(1, 20, vec![Attribute::Short(14, bits)])
}

pub fn sequence_numbers(id: u16) -> Transform {
    Transform::new(5, id, Vec::new())
}

pub fn key_wrap(id: u16) -> Transform {
    Transform::new(13, id, Vec::new())
}

pub fn authentication(id: u16) -> Transform {
    Transform::new(14, id, Vec::new())
}

/// Any source, IPv4.
pub fn any_source() -> Selector {
    Selector::new(&[0; 4], &[255; 4], (0, 65535))
}

/// One multicast address and port.
pub fn multicast() -> Selector {
    Selector::new(&[239, 1, 2, 3], &[239, 1, 2, 3], (848, 848))
}

pub fn esp_policy(spi: &[u8], bits: u16) -> Part {
    let transforms = vec![encryption(bits), sequence_numbers(0)];
    Part { selectors: vec![any_source(), multicast()], transforms, ..Part::named(ESP, spi) }
}

pub fn rekey_policy(spi: &[u8], bits: u16, wrap: u16) -> Part {
    let transforms = vec![encryption(bits), key_wrap(wrap), authentication(1)];
    Part { selectors: vec![any_source(), multicast()], transforms, ..Part::named(REKEY, spi) }
}

/// The group-wide policy with the deactivation delay.
pub fn delay_policy(seconds: u16) -> Part {
    Part::unnamed(vec![Attribute::Short(2, seconds)])
}

pub fn initial_message_id(id: u32) -> Attribute {
    Attribute::long(2, &id.to_be_bytes())
}

/// GSA_KEY_LIFETIME.
pub fn lifetime(seconds: u32) -> Attribute {
    Attribute::long(1, &seconds.to_be_bytes())
}

/// Document 02's private attribute for a fresh tree key (T-11).
pub const FRESH_KEY: u16 = 16_385;

pub fn fresh_key(key_id: u32, kwk_id: u32, wrapped: &[u8]) -> Attribute {
    Attribute::long(FRESH_KEY, &[&key_id.to_be_bytes(), &kwk_id.to_be_bytes(), wrapped].concat())
}

pub fn bag(protocol: u8, spi: &[u8], keys: Vec<Attribute>) -> Part {
    Part { attributes: keys, ..Part::named(protocol, spi) }
}

pub fn gsa(policies: Vec<Part>) -> Payload {
    Payload::new(GSA, Body::Parts(policies))
}

pub fn kd(bags: Vec<Part>) -> Payload {
    Payload::new(KD, Body::Parts(bags))
}

pub fn delete(spis: &[Vec<u8>]) -> Payload {
    Payload::new(DELETE, Body::Delete(Delete::new(ESP, 4, spis)))
}

pub fn frame(exchange: u8, spis: &[u8], message_id: u32, payloads: Vec<Payload>) -> Frame {
    let (version, flags) = (0x20, 0x20);
    Frame {
        spis: spis.to_vec(),
        first: None,
        version,
        exchange,
        flags,
        message_id,
        skew: 0,
        payloads,
        tail: Vec::new(),
        cut: None,
    }
}
