//! Lines of the program's input.

/// Octets in hexadecimal.
pub fn hex(octets: &[u8]) -> Vec<u8> {
    const DIGITS: &[u8; 16] = b"0123456789abcdef";
    octets.iter().flat_map(|octet| [DIGITS[(octet >> 4) as usize], DIGITS[(octet & 15) as usize]]).collect()
}

/// A tick and a frame, without the newline.
pub fn line(tick: u32, octets: &[u8]) -> Vec<u8> {
    [hex(&tick.to_be_bytes()), hex(octets)].concat()
}
