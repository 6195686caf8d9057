//! The keys, SAs and frames of the transcripts.

use builder::typical::*;
use builder::wrapping::wrap;
use builder::{Attribute, Frame, Part, Payload, ESP, REKEY};

/// The lent default key: 00 01 .. 0f.
pub const LENT: &str = "000102030405060708090a0b0c0d0e0f";

pub fn lent() -> Vec<u8> {
    (0..16).collect()
}

/// A wrapping key of 16 octets.
pub fn key(fill: u8) -> Vec<u8> {
    vec![fill; 16]
}

/// A WRAP_KEY: key `id`, all octets `fill`, under another key.
pub fn entry(id: u32, fill: u8, kwk_id: u32, kwk: &[u8]) -> Attribute {
    Attribute::key(id, kwk_id, &wrap(kwk, &key(fill)))
}

/// An SA: its policy and its bag.
#[derive(Clone)]
pub struct Sa {
    pub policy: Part,
    pub bag: Part,
}

/// An ESP SA (AES-GCM-16 with 128 bits) whose key is wrapped under `key0`.
pub fn esp(spi: u32, key0: &[u8]) -> Sa {
    esp_of(spi, 128, &esp_keying(), key0)
}

/// An ESP SA of these keying octets.
pub fn esp_of(spi: u32, bits: u16, keying: &[u8], key0: &[u8]) -> Sa {
    let spi = spi.to_be_bytes();
    let copy = Attribute::key(0, 0, &wrap(key0, keying));
    Sa { policy: esp_policy(&spi, bits), bag: bag(ESP, &spi, vec![copy]) }
}

pub fn esp_keying() -> Vec<u8> {
    (0xc0..0xc0 + 20).collect()
}

/// The 16 octets of a Rekey SA's SPI.
pub fn rekey_spi(fill: u8) -> Vec<u8> {
    vec![fill; 16]
}

/// The keying octets of the Rekey SA of that SPI.
pub fn rekey_keying(fill: u8, count: u8) -> Vec<u8> {
    (0..count).map(|i| fill ^ i).collect()
}

/// The default key of the Rekey SA of that SPI: its octets are 20 for AES-GCM-16 with 128 bits and 16 for KW_5649_128.
pub fn default_key(fill: u8) -> Vec<u8> {
    rekey_keying(fill, 36)[20..].to_vec()
}

/// A Rekey SA with copies of its key under the given keys.
pub fn rekey_sa(fill: u8, under: &[(u32, Vec<u8>)]) -> Sa {
    let copies = under.iter().map(|(id, kwk)| Attribute::key(0, *id, &wrap(kwk, &rekey_keying(fill, 36)))).collect();
    let spi = rekey_spi(fill);
    Sa { policy: rekey_policy(&spi, 128, 1), bag: bag(REKEY, &spi, copies) }
}

/// GSA and KD of these SAs.
pub fn announce(sas: &[Sa]) -> Vec<Payload> {
    let policies = sas.iter().map(|sa| sa.policy.clone()).collect();
    vec![gsa(policies), kd(sas.iter().map(|sa| sa.bag.clone()).collect())]
}

/// The same with a group-wide policy that has a deactivation delay.
pub fn announce_with_delay(sas: &[Sa], seconds: u16) -> Vec<Payload> {
    let policies = sas.iter().map(|sa| sa.policy.clone()).chain([delay_policy(seconds)]).collect();
    vec![gsa(policies), kd(sas.iter().map(|sa| sa.bag.clone()).collect())]
}

/// A GSA_AUTH response with these SAs and WRAP_KEYs (no Member bag if there are none).
pub fn registration(sas: &[Sa], entries: &[Attribute]) -> Frame {
    let mut bags: Vec<Part> = sas.iter().map(|sa| sa.bag.clone()).collect();
    if !entries.is_empty() {
        bags.push(Part::unnamed(entries.to_vec()));
    }
    let policies = sas.iter().map(|sa| sa.policy.clone()).collect();
    frame(GSA_AUTH, &[0; 16], 1, vec![gsa(policies), kd(bags)])
}

/// A GSA_REKEY over the Rekey SA of that SPI.
pub fn rekey(over: u8, message_id: u32, payloads: Vec<Payload>) -> Frame {
    frame(GSA_REKEY, &rekey_spi(over), message_id, payloads)
}

/// The registration that most transcripts begin with: Rekey SA a0 under the default key.
pub fn first_registration() -> Frame {
    registration(&[rekey_sa(0xa0, &[(0, lent())])], &[])
}

pub fn spi(number: u32) -> Vec<u8> {
    number.to_be_bytes().to_vec()
}

/// The line of `trace` for the ESP SA of that SPI, without a lifetime.
pub fn esp_text(number: u32, condition: &str) -> String {
    esp_text_of(number, &esp_keying(), condition)
}

pub fn esp_text_of(number: u32, keying: &[u8], condition: &str) -> String {
    format!("sa 3 {number:08x} {} 0 0 {condition} life none", text(keying))
}

/// The line of `trace` for the Rekey SA of that SPI, with 20 and 16 octets, without a lifetime.
pub fn rekey_text(fill: u8, condition: &str) -> String {
    rekey_text_of(fill, &rekey_keying(fill, 36), 20, condition)
}

/// The same for any octets, of which the first so many are for encryption.
pub fn rekey_text_of(fill: u8, keying: &[u8], first: usize, condition: &str) -> String {
    format!("sa 6 {} {} {first} {} {condition} life none", text(&rekey_spi(fill)), text(keying), keying.len() - first)
}

pub fn held_text(id: u32, value: &[u8]) -> String {
    format!("held {id} {}", text(value))
}

pub fn least(id: u32) -> String {
    format!("least {id}")
}

/// Octets in hexadecimal.
pub fn text(octets: &[u8]) -> String {
    octets.iter().map(|octet| format!("{octet:02x}")).collect()
}
