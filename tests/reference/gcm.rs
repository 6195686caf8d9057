//! AES-GCM (NIST SP 800-38D) by the steps of the standard, for a nonce of 96 bits and a tag of 128. A block is its 16 octets; its bits are
//! numbered from the first octet's highest bit on.

use crate::aes::{Block, Schedule};

pub const TAG: usize = 16;
pub type Nonce = [u8; 12];

/// The product of two blocks (section 6.3), bit by bit.
fn product(x: Block, y: Block) -> Block {
    let x = u128::from_be_bytes(x);
    let mut v = u128::from_be_bytes(y);
    let mut z = 0;
    for i in 0..128 {
        if x >> (127 - i) & 1 == 1 {
            z ^= v;
        }
        v = if v & 1 == 1 { v >> 1 ^ 0xe1 << 120 } else { v >> 1 };
    }
    z.to_be_bytes()
}

/// GHASH (section 6.4) of octets, with zeros behind each part up to a whole block.
fn ghash(h: Block, parts: &[&[u8]]) -> Block {
    let mut y = [0; 16];
    for octets in parts.iter().flat_map(|part| part.chunks(16)) {
        for (sum, octet) in y.iter_mut().zip(octets) {
            *sum ^= octet;
        }
        y = product(y, h);
    }
    y
}

fn enciphered(key: &Schedule, mut block: Block) -> Block {
    key.cipher(&mut block);
    block
}

/// The counter block of a number: 1 is J_0 (section 7.1, step 2).
fn counter_block(nonce: Nonce, number: u32) -> Block {
    let mut block = [0; 16];
    block[..12].copy_from_slice(&nonce);
    block[12..].copy_from_slice(&number.to_be_bytes());
    block
}

/// GCTR from inc_32(J_0) on (section 6.5): the same for both directions.
fn stream(key: &Schedule, nonce: Nonce, text: &[u8]) -> Vec<u8> {
    let mut out = Vec::with_capacity(text.len());
    for (number, octets) in (2..).zip(text.chunks(16)) {
        let mask = enciphered(key, counter_block(nonce, number));
        out.extend(octets.iter().zip(mask).map(|(octet, mask)| octet ^ mask));
    }
    out
}

/// The tag of additional data and ciphertext (section 7.1, steps 4 to 6).
fn tag(key: &Schedule, nonce: Nonce, additional: &[u8], ciphertext: &[u8]) -> Block {
    let h = enciphered(key, [0; 16]);
    let mut lengths = [0; 16];
    lengths[..8].copy_from_slice(&(8 * additional.len() as u64).to_be_bytes());
    lengths[8..].copy_from_slice(&(8 * ciphertext.len() as u64).to_be_bytes());
    let hash = ghash(h, &[additional, ciphertext, &lengths]);
    let mask = enciphered(key, counter_block(nonce, 1));
    std::array::from_fn(|i| hash[i] ^ mask[i])
}

/// GCM-AE (section 7.1): the ciphertext, then the tag.
pub fn seal(key: &Schedule, nonce: Nonce, additional: &[u8], plain: &[u8]) -> Vec<u8> {
    let mut sealed = stream(key, nonce, plain);
    let tag = tag(key, nonce, additional, &sealed);
    sealed.extend(tag);
    sealed
}

/// GCM-AD (section 7.2): the plain octets, or None for a tag that is not theirs.
pub fn open(key: &Schedule, nonce: Nonce, additional: &[u8], sealed: &[u8]) -> Option<Vec<u8>> {
    let (ciphertext, given) = sealed.split_at(sealed.len().checked_sub(TAG)?);
    (tag(key, nonce, additional, ciphertext) == given).then(|| stream(key, nonce, ciphertext))
}
