//! Key wrapping (RFC 5649) a second time, in the shifting form of RFC 3394, section 2.2.1, and with room for faults.

use reference::aes::{Block, Schedule};
use std::collections::VecDeque;

/// RFC 5649 under a key of 16, 24 or 32 octets (under another key: octets that open under none).
pub fn wrap(key: &[u8], octets: &[u8]) -> Vec<u8> {
    let mut padded = octets.to_vec();
    padded.resize(octets.len().next_multiple_of(8).max(8), 0);
    wrap_as(key, [0xa6, 0x59, 0x59, 0xa6], octets.len() as u32, &padded)
}

/// The same with the constant, the count and the padded octets as given (at least 8 octets, a multiple of 8).
pub fn wrap_as(key: &[u8], constant: [u8; 4], count: u32, padded: &[u8]) -> Vec<u8> {
    let Some(schedule) = Schedule::expand(key) else { return vec![0x5a; padded.len() + 8] };
    let mut a = [constant, count.to_be_bytes()].concat();
    if padded.len() == 8 {
        return cipher(&schedule, &a, padded).concat();
    }
    let mut r: VecDeque<Vec<u8>> = padded.chunks(8).map(<[u8]>::to_vec).collect();
    for t in 1..=6 * r.len() as u64 {
        let first = r.pop_front().unwrap_or_default();
        let [high, low] = cipher(&schedule, &a, &first);
        a = high.iter().zip(t.to_be_bytes()).map(|(octet, step)| octet ^ step).collect();
        r.push_back(low);
    }
    [a, r.into_iter().flatten().collect()].concat()
}

/// AES of two halves of a block, in two halves.
fn cipher(schedule: &Schedule, high: &[u8], low: &[u8]) -> [Vec<u8>; 2] {
    let mut block: Block = [0; 16];
    block[..8].copy_from_slice(high);
    block[8..].copy_from_slice(low);
    schedule.cipher(&mut block);
    [block[..8].to_vec(), block[8..].to_vec()]
}
