//! Sealed frames: an IKE header and one payload under AES-GCM with a tag of 16 octets (RFC 5282), an Encrypted payload (RFC 7296, section
//! 3.14) or an Encrypted Fragment (RFC 7383).

use crate::aes::Schedule;
use crate::gcm::{open, seal, Nonce, TAG};
use crate::layout::MOST_FRAME;

pub const ENCRYPTED: u8 = 46;
pub const HEADER: usize = 28;
pub const PAYLOAD_HEADER: usize = 4;
const IV: usize = 8;
const SALT: usize = 4;
/// IV, one octet of plain text, tag.
const LEAST_BODY: usize = IV + 1 + TAG;

/// What a sender chooses: the octet with the critical bit, the IV, the padding.
#[derive(Clone, Debug, Default)]
pub struct Choice {
    pub reserved: u8,
    pub iv: [u8; IV],
    pub padding: Vec<u8>,
}

/// The AES key of GSK_e, and the nonce: its last 4 octets, then the IV (RFC 5282, sections 4 and 7.1).
fn key_and_nonce(gsk_e: &[u8], iv: &[u8]) -> Option<(Schedule, Nonce)> {
    let (key, salt) = gsk_e.split_at(gsk_e.len().checked_sub(SALT)?);
    Some((Schedule::expand(key)?, [salt, iv].concat().try_into().ok()?))
}

/// The frame that an opened one is sealed in; the opened frame has a header.
pub fn seal_frame(gsk_e: &[u8], opened: &[u8], choice: &Choice) -> Vec<u8> {
    seal_plain(gsk_e, opened, choice, &padded(&opened[HEADER..], choice))
}

/// The same with any plain octets, whatever their last one counts.
pub fn seal_plain(gsk_e: &[u8], opened: &[u8], choice: &Choice, plain: &[u8]) -> Vec<u8> {
    seal_payload(gsk_e, opened, ENCRYPTED, &[], choice, plain)
}

/// The octets of payloads with the padding, which is counted behind it.
pub fn padded(payloads: &[u8], choice: &Choice) -> Vec<u8> {
    [payloads, &choice.padding, &[choice.padding.len() as u8]].concat()
}

/// The header of an opened frame with one payload of that kind: what stands before the IV, and the sealed form of the plain octets.
pub fn seal_payload(gsk_e: &[u8], opened: &[u8], kind: u8, before: &[u8], choice: &Choice, plain: &[u8]) -> Vec<u8> {
    let (key, nonce) = key_and_nonce(gsk_e, &choice.iv).expect("a GSK_e of 20, 28 or 36 octets");
    let length = PAYLOAD_HEADER + before.len() + IV + plain.len() + TAG;
    let mut frame = opened[..HEADER].to_vec();
    frame[16] = kind;
    frame[24..HEADER].copy_from_slice(&((HEADER + length) as u32).to_be_bytes());
    frame.extend([opened[16], choice.reserved]);
    frame.extend((length as u16).to_be_bytes());
    frame.extend(before);
    let sealed = seal(&key, nonce, &frame, plain);
    frame.extend(choice.iv);
    frame.extend(sealed);
    frame
}

/// Number 1 on the outer header and the one payload of that kind, alone in the frame.
pub fn is_outer(frame: &[u8], kind: u8) -> bool {
    let number = |from: usize, to: usize| frame[from..to].iter().fold(0, |number, &octet| number << 8 | octet as usize);
    (HEADER + PAYLOAD_HEADER..=MOST_FRAME).contains(&frame.len())
        && number(24, 28) == frame.len()
        && frame[17] >> 4 == 2
        && frame[16] == kind
        && HEADER + number(30, 32) == frame.len()
}

/// The octets of payloads, the body starting at the IV and all before it being authenticated, or None: a body under 25 octets, a bad tag,
/// a pad length above the octets before it.
pub fn open_payloads(gsk_e: &[u8], frame: &[u8], iv_at: usize) -> Option<Vec<u8>> {
    let (headers, body) = frame.split_at_checked(iv_at)?;
    if body.len() < LEAST_BODY {
        return None;
    }
    let (iv, sealed) = body.split_at(IV);
    let (key, nonce) = key_and_nonce(gsk_e, iv)?;
    let plain = open(&key, nonce, headers, sealed)?;
    let (&padding, before) = plain.split_last()?;
    Some(before[..before.len().checked_sub(padding as usize)?].to_vec())
}

/// The frame that such an Encrypted payload is opened to.
pub fn open_frame(gsk_e: &[u8], frame: &[u8]) -> Option<Vec<u8>> {
    let payloads = open_payloads(gsk_e, frame, HEADER + PAYLOAD_HEADER)?;
    Some(opened_frame(&frame[..HEADER], frame[HEADER], &payloads))
}

/// A header with next payload and length set anew, and the payloads behind it.
pub fn opened_frame(header: &[u8], next: u8, payloads: &[u8]) -> Vec<u8> {
    let mut opened = [header, payloads].concat();
    opened[16] = next;
    let length = opened.len() as u32;
    opened[24..HEADER].copy_from_slice(&length.to_be_bytes());
    opened
}
