//! How a frame is laid out: octets to a tree, or refusal 1 with the place. Everything is read, also what a later number refuses.
//! The tree keeps what the later numbers ask about; parts of the frame stay where they stand.

use crate::octets::{number_of_4_octets, short, Octets, Read, Value};
pub use crate::octets::{Broken, Kind};

/// For the header, and for what is missing or left over among the payloads.
const IN_HEADER: Broken = Broken { kind: Kind::Header, at: 0 };

pub const MOST_FRAME: usize = 16_384;

/// Protocols (001, section 9): what stands in the first octet of a policy or bag, and the SPI size each has.
pub const AH: u8 = 2;
pub const ESP: u8 = 3;
pub const REKEY: u8 = 6;

pub const ENCRYPTION: u8 = 1; // a transform type
const KEY_LENGTH: u16 = 14; // an attribute of such a transform
const KEY_LIFETIME: u16 = 1; // GSA_KEY_LIFETIME, in every Group SA policy
const INITIAL_MESSAGE_ID: u16 = 2; // GSA_INITIAL_MESSAGE_ID, in a Rekey policy
const DEACTIVATION_DELAY: u16 = 2; // GWP_DTD, in a group-wide policy
const WRAPPED_KEY: u16 = 1; // SA_KEY in a Group Key Bag, WRAP_KEY in a Member Key Bag
const FRESH_KEY: u16 = 16_385; // document 02's private attribute (T-11), in a Rekey SA's Group Key Bag

pub const GSA_REKEY: u8 = 41; // an exchange type (001, section 9)

pub struct Frame<'f> {
    /// Initiator's and responder's SPI, 16 octets: the SPI of a Rekey SA in a GSA_REKEY.
    pub spis: &'f [u8],
    pub exchange: u8,
    pub message_id: u32,
    pub payloads: Vec<Payload<'f>>,
}

pub enum Payload<'f> {
    /// IDr, CERT, AUTH, N: known, the body not read.
    Unread,
    Unknown {
        critical: bool,
    },
    Gsa(Vec<Policy<'f>>),
    Kd(Vec<Bag<'f>>),
    Delete(Delete<'f>),
}

pub enum Policy<'f> {
    GroupWide { delays: Vec<u16> },
    Sa(SaPolicy<'f>),
}

pub struct SaPolicy<'f> {
    pub protocol: u8,
    pub spi: &'f [u8],
    pub destination: Selector<'f>,
    pub transforms: Vec<Transform>,
    /// GSA_KEY_LIFETIME, in seconds.
    pub lifetimes: Vec<u32>,
    pub initial_ids: Vec<u32>,
}

pub struct Selector<'f> {
    pub start_port: u16,
    pub end_port: u16,
    pub start: &'f [u8],
    pub end: &'f [u8],
}

pub struct Transform {
    pub kind: u8,
    pub id: u16,
    pub key_lengths: Vec<u16>,
}

pub enum Bag<'f> {
    Member { wrap_keys: Vec<WrappedKey<'f>> },
    Group(GroupBag<'f>),
}

pub struct GroupBag<'f> {
    pub protocol: u8,
    pub spi: &'f [u8],
    pub sa_keys: Vec<WrappedKey<'f>>,
    /// Fresh tree keys (document 02, T-11).
    pub fresh_keys: Vec<WrappedKey<'f>>,
}

#[derive(Clone, Copy)]
pub struct WrappedKey<'f> {
    pub key_id: u32,
    pub kwk_id: u32,
    pub wrapped: &'f [u8],
}

pub struct Delete<'f> {
    pub protocol: u8,
    pub count: u16,
    pub spis: &'f [u8],
}

/// With the profile (document 02, T-11) fresh tree keys are read in a GSA_REKEY.
pub fn frame(octets: &[u8], profile: bool) -> Read<Frame<'_>> {
    let mut rest = Octets { octets, at: 0 };
    let (mut frame, first_payload) = header(&mut rest).ok_or(IN_HEADER)?;
    let fresh = profile && frame.exchange == GSA_REKEY;
    frame.payloads = payloads(first_payload, rest, fresh)?;
    Ok(frame)
}

/// The frame without its payloads, and the type of the first one.
fn header<'f>(rest: &mut Octets<'f>) -> Option<(Frame<'f>, u8)> {
    let count = rest.octets.len();
    let spis = rest.take(16)?;
    let first_payload = rest.number1()?;
    let major_version = rest.number1()? >> 4;
    let exchange = rest.number1()?;
    let _flags = rest.number1()?;
    let message_id = rest.number4()?;
    let length = rest.number4()?;
    let fits = count <= MOST_FRAME && major_version == 2 && length as usize == count;
    fits.then_some((Frame { spis, exchange, message_id, payloads: Vec::new() }, first_payload))
}

/// A payload that is named and of which no octet is there, and octets behind the last one, count for the header.
fn payloads(first: u8, mut rest: Octets, fresh: bool) -> Read<Vec<Payload>> {
    let mut all = Vec::new();
    let mut kind = first;
    while kind != 0 {
        rest.must_begin(IN_HEADER)?;
        let (next, payload) = payload(kind, &mut rest, fresh)?;
        all.push(payload);
        kind = next;
    }
    if !rest.is_empty() {
        return Err(IN_HEADER);
    }
    Ok(all)
}

/// The type of the next payload, and this one. The body of a Delete payload is the payload's own.
fn payload<'f>(kind: u8, rest: &mut Octets<'f>, fresh: bool) -> Read<(u8, Payload<'f>)> {
    let broken = rest.broken(Kind::Payload);
    let mut own = || {
        let next = rest.number1()?;
        let critical = rest.number1()? & 0x80 != 0;
        let body = rest.rest_of_length(4)?;
        let delete = if kind == 42 { Some(delete(body)?) } else { None };
        Some((next, critical, body, delete))
    };
    let (next, critical, body, delete) = own().ok_or(broken)?;
    let payload = match (kind, delete) {
        (_, Some(delete)) => Payload::Delete(delete),
        (36 | 37 | 39 | 41, _) => Payload::Unread,
        (51, _) => Payload::Gsa(body.each(policy)?),
        (52, _) => Payload::Kd(body.each(if fresh { bag_with_fresh_keys } else { bag })?),
        _ => Payload::Unknown { critical },
    };
    Ok((next, payload))
}

/// The selectors, the first transform and one behind a "more" count for the policy where no octet of them is there.
fn policy<'f>(rest: &mut Octets<'f>) -> Read<Policy<'f>> {
    let broken = rest.broken(Kind::Policy);
    let (protocol, spi, mut rest) = part(rest).ok_or(broken)?;
    if protocol == 0 {
        return Ok(Policy::GroupWide { delays: rest.attributes_of(Some(DEACTIVATION_DELAY), short)? });
    }
    let _source = selector(&mut rest, broken)?;
    let destination = selector(&mut rest, broken)?;
    let transforms = transforms(&mut rest, broken)?;
    let (mut lifetimes, mut initial_ids) = (Vec::new(), Vec::new());
    rest.attributes(|kind, value| {
        match kind {
            KEY_LIFETIME => lifetimes.push(number_of_4_octets(value)?),
            INITIAL_MESSAGE_ID if protocol == REKEY => initial_ids.push(number_of_4_octets(value)?),
            _ => {}
        }
        Some(())
    })?;
    Ok(Policy::Sa(SaPolicy { protocol, spi, destination, transforms, lifetimes, initial_ids }))
}

/// The own fields of a policy or bag: protocol and SPI, and what follows them.
fn part<'f>(rest: &mut Octets<'f>) -> Option<(u8, &'f [u8], Octets<'f>)> {
    let protocol = rest.number1()?;
    let second = rest.number1()?;
    let mut rest = rest.rest_of_length(4)?;
    let size = match (protocol, second) {
        (0, _reserved) => 0,
        (AH | ESP, 4) => 4,
        (REKEY, 16) => 16,
        _ => return None,
    };
    Some((protocol, rest.take(size)?, rest))
}

fn selector<'f>(rest: &mut Octets<'f>, missing: Broken) -> Read<Selector<'f>> {
    rest.must_begin(missing)?;
    let broken = rest.broken(Kind::Selector);
    selector_fields(rest).ok_or(broken)
}

/// RFC 7296, section 3.13.1.
fn selector_fields<'f>(rest: &mut Octets<'f>) -> Option<Selector<'f>> {
    let kind = rest.number1()?;
    let _ip_protocol = rest.number1()?;
    let length = rest.number2()?;
    let address = match (kind, length) {
        (7, 16) => 4,
        (8, 40) => 16,
        _ => return None,
    };
    let start_port = rest.number2()?;
    let end_port = rest.number2()?;
    Some(Selector { start_port, end_port, start: rest.take(address)?, end: rest.take(address)? })
}

fn transforms(rest: &mut Octets, missing: Broken) -> Read<Vec<Transform>> {
    let mut all = Vec::new();
    let mut more = true;
    while more {
        rest.must_begin(missing)?;
        let broken = rest.broken(Kind::Transform);
        let (follows, kind, id, mut body) = transform_fields(rest).ok_or(broken)?;
        let read = (kind == ENCRYPTION).then_some(KEY_LENGTH);
        all.push(Transform { kind, id, key_lengths: body.attributes_of(read, short)? });
        more = follows;
    }
    Ok(all)
}

/// Whether another one follows, type and ID, and the attributes.
fn transform_fields<'f>(rest: &mut Octets<'f>) -> Option<(bool, u8, u16, Octets<'f>)> {
    let first = rest.number1()?;
    let _reserved = rest.number1()?;
    let mut body = rest.rest_of_length(4)?;
    let kind = body.number1()?;
    let _reserved = body.number1()?;
    let id = body.number2()?;
    matches!(first, 0 | 3).then_some((first == 3, kind, id, body))
}

fn bag<'f>(rest: &mut Octets<'f>) -> Read<Bag<'f>> {
    bag_of(rest, |_| false)
}

/// Document 02, T-11: "private attribute 16385 in the Rekey SA's Group Key Bag, with WRAP_KEY's layout".
fn bag_with_fresh_keys<'f>(rest: &mut Octets<'f>) -> Read<Bag<'f>> {
    bag_of(rest, |protocol| protocol == REKEY)
}

fn bag_of<'f>(rest: &mut Octets<'f>, has_fresh_keys: fn(u8) -> bool) -> Read<Bag<'f>> {
    let broken = rest.broken(Kind::Bag);
    let (protocol, spi, mut rest) = part(rest).ok_or(broken)?;
    let (mut keys, mut fresh_keys) = (Vec::new(), Vec::new());
    rest.attributes(|kind, value| {
        match kind {
            WRAPPED_KEY => keys.push(wrapped_key(value)?),
            FRESH_KEY if has_fresh_keys(protocol) => fresh_keys.push(wrapped_key(value)?),
            _ => {}
        }
        Some(())
    })?;
    Ok(match protocol {
        0 => Bag::Member { wrap_keys: keys },
        _ => Bag::Group(GroupBag { protocol, spi, sa_keys: keys, fresh_keys }),
    })
}

/// RFC 7296, section 3.11.
fn delete(mut rest: Octets) -> Option<Delete> {
    let protocol = rest.number1()?;
    let size = rest.number1()?;
    let count = rest.number2()?;
    let spis = rest.octets;
    let fits = size as usize * count as usize == spis.len() && (protocol != ESP || size == 4);
    fits.then_some(Delete { protocol, count, spis })
}

fn wrapped_key(value: Value) -> Option<WrappedKey> {
    let Value::Long(octets) = value else { return None };
    let mut rest = Octets { octets, at: 0 };
    let (key_id, kwk_id, wrapped) = (rest.number4()?, rest.number4()?, rest.octets);
    let fits = (16..=264).contains(&wrapped.len()) && wrapped.len() % 8 == 0;
    fits.then_some(WrappedKey { key_id, kwk_id, wrapped })
}
