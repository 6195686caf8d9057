//! Key wrapping with padding (RFC 5649) over the steps of RFC 3394 in its index form.

use crate::aes::{Block, Schedule};

/// Document 01 wraps 1 to 256 octets; 001, section 4.4.2.1.2 asks for as many.
pub const MOST_OCTETS: usize = 256;
pub const MOST_WRAPPED: usize = MOST_OCTETS + 8;

/// The constant half of the alternative initial value (RFC 5649, section 3).
const CONSTANT: [u8; 4] = [0xa6, 0x59, 0x59, 0xa6];

/// Wraps `octets` under `key` to the start of `room` and gives the count written; None, and the room as lent, on a wrong size.
pub fn wrap(key: &[u8], octets: &[u8], room: &mut [u8]) -> Option<usize> {
    let schedule = Schedule::expand(key)?;
    if octets.is_empty() || octets.len() > MOST_OCTETS {
        return None;
    }
    let count = 8 + octets.len().next_multiple_of(8);
    let registers = room.get_mut(..count)?;
    registers[..4].copy_from_slice(&CONSTANT);
    registers[4..8].copy_from_slice(&(octets.len() as u32).to_be_bytes());
    registers[8..8 + octets.len()].copy_from_slice(octets);
    registers[8 + octets.len()..].fill(0);
    wrap_steps(&schedule, registers);
    Some(count)
}

/// Opens `wrapped` under `key` to the start of `room` and gives the count written; None, and the room as lent, if there is
/// nothing whose wrapping this is, or too little room for it.
pub fn open(key: &[u8], wrapped: &[u8], room: &mut [u8]) -> Option<usize> {
    let schedule = Schedule::expand(key)?;
    let opened = open_under(&schedule, wrapped)?;
    room.get_mut(..opened.len())?.copy_from_slice(&opened);
    Some(opened.len())
}

/// The octets whose wrapping under the schedule's key `wrapped` is.
pub fn open_under(schedule: &Schedule, wrapped: &[u8]) -> Option<Vec<u8>> {
    let count = wrapped.len();
    if !(16..=MOST_WRAPPED).contains(&count) || count % 8 != 0 {
        return None;
    }
    let mut registers = [0; MOST_WRAPPED];
    let registers = &mut registers[..count];
    registers.copy_from_slice(wrapped);
    open_steps(schedule, registers);
    let (initial, padded) = registers.split_at(8);
    let octets = u32::from_be_bytes([initial[4], initial[5], initial[6], initial[7]]) as usize;
    let count_fits = padded.len() - 8 < octets && octets <= padded.len();
    if initial[..4] != CONSTANT || !count_fits || padded[octets..].iter().any(|&octet| octet != 0) {
        return None;
    }
    Some(padded[..octets].to_vec())
}

/// Turns A | R1 | .. | Rn (16 octets or more, a multiple of 8) in place: RFC 5649, section 4.1, RFC 3394, section 2.2.1.
pub fn wrap_steps(schedule: &Schedule, registers: &mut [u8]) {
    if let Ok(block) = <&mut Block>::try_from(&mut *registers) {
        return schedule.cipher(block);
    }
    let (a, r) = registers.split_at_mut(8);
    let mut block: Block = [0; 16];
    block[..8].copy_from_slice(a);
    let mut t: u64 = 0;
    for _ in 0..6 {
        for register in r.chunks_exact_mut(8) {
            block[8..].copy_from_slice(register);
            schedule.cipher(&mut block);
            t += 1;
            xor_step(&mut block, t);
            register.copy_from_slice(&block[8..]);
        }
    }
    a.copy_from_slice(&block[..8]);
}

/// Undoes `wrap_steps`: RFC 5649, section 4.2, RFC 3394, section 2.2.2.
fn open_steps(schedule: &Schedule, registers: &mut [u8]) {
    if let Ok(block) = <&mut Block>::try_from(&mut *registers) {
        return schedule.inverse_cipher(block);
    }
    let (a, r) = registers.split_at_mut(8);
    let mut block: Block = [0; 16];
    block[..8].copy_from_slice(a);
    let mut t = 6 * (r.len() as u64 / 8);
    for _ in 0..6 {
        for register in r.chunks_exact_mut(8).rev() {
            block[8..].copy_from_slice(register);
            xor_step(&mut block, t);
            schedule.inverse_cipher(&mut block);
            t -= 1;
            register.copy_from_slice(&block[8..]);
        }
    }
    a.copy_from_slice(&block[..8]);
}

/// A xor t, where A is the first half of the block.
fn xor_step(block: &mut Block, t: u64) {
    for (octet, step) in block.iter_mut().zip(t.to_be_bytes()) {
        *octet ^= step;
    }
}
