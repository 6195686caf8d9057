//! AES (FIPS 197) by the octet-wise steps of the standard. A state is its 16 octets, column by column (section 3.4).

pub type Block = [u8; 16];

/// The round keys of one key, expanded once (section 5.2).
#[derive(Clone)]
pub struct Schedule {
    round_keys: [Block; 15],
    rounds: usize,
}

impl Schedule {
    /// None for a key that is not of 16, 24 or 32 octets.
    pub fn expand(key: &[u8]) -> Option<Schedule> {
        let key_words = match key.len() {
            16 => 4,
            24 => 6,
            32 => 8,
            _ => return None,
        };
        let rounds = key_words + 6;
        let mut words = [[0u8; 4]; 60];
        for (word, octets) in words.iter_mut().zip(key.chunks_exact(4)) {
            word.copy_from_slice(octets);
        }
        let mut constant = 1; // Rcon
        for i in key_words..4 * (rounds + 1) {
            let mut word = words[i - 1];
            if i % key_words == 0 {
                word.rotate_left(1);
                sub_word(&mut word);
                word[0] ^= constant;
                constant = xtime(constant);
            } else if key_words == 8 && i % 8 == 4 {
                sub_word(&mut word);
            }
            for (octet, before) in word.iter_mut().zip(words[i - key_words]) {
                *octet ^= before;
            }
            words[i] = word;
        }
        let mut round_keys = [[0; 16]; 15];
        for (round_key, columns) in round_keys.iter_mut().zip(words.chunks_exact(4)) {
            round_key.copy_from_slice(columns.as_flattened());
        }
        Some(Schedule { round_keys, rounds })
    }

    /// The last word of the key expansion, which appendix A shows.
    pub fn last_word(&self) -> [u8; 4] {
        let [.., a, b, c, d] = self.round_keys[self.rounds];
        [a, b, c, d]
    }

    pub fn round_key(&self, round: usize) -> Block {
        self.round_keys[round]
    }

    /// Cipher (section 5.1).
    pub fn cipher(&self, state: &mut Block) {
        add_round_key(state, &self.round_keys[0]);
        for round_key in &self.round_keys[1..self.rounds] {
            sub_bytes(state, &SBOX);
            shift_rows(state);
            mix_columns(state);
            add_round_key(state, round_key);
        }
        sub_bytes(state, &SBOX);
        shift_rows(state);
        add_round_key(state, &self.round_keys[self.rounds]);
    }

    /// InvCipher (section 5.3).
    pub fn inverse_cipher(&self, state: &mut Block) {
        add_round_key(state, &self.round_keys[self.rounds]);
        for round_key in self.round_keys[1..self.rounds].iter().rev() {
            inv_shift_rows(state);
            sub_bytes(state, &INV_SBOX);
            add_round_key(state, round_key);
            inv_mix_columns(state);
        }
        inv_shift_rows(state);
        sub_bytes(state, &INV_SBOX);
        add_round_key(state, &self.round_keys[0]);
    }
}

/// Multiplication by x in GF(2^8) modulo x^8 + x^4 + x^3 + x + 1.
fn xtime(octet: u8) -> u8 {
    (octet << 1) ^ (0x1b * (octet >> 7))
}

fn sub_word(word: &mut [u8; 4]) {
    for octet in word {
        *octet = SBOX[*octet as usize];
    }
}

fn sub_bytes(state: &mut Block, table: &[u8; 256]) {
    for octet in state {
        *octet = table[*octet as usize];
    }
}

fn add_round_key(state: &mut Block, round_key: &Block) {
    for (octet, key) in state.iter_mut().zip(round_key) {
        *octet ^= key;
    }
}

/// Row r moves r columns to the left.
fn shift_rows(state: &mut Block) {
    let s = *state;
    *state = [s[0], s[5], s[10], s[15], s[4], s[9], s[14], s[3], s[8], s[13], s[2], s[7], s[12], s[1], s[6], s[11]];
}

fn inv_shift_rows(state: &mut Block) {
    let s = *state;
    *state = [s[0], s[13], s[10], s[7], s[4], s[1], s[14], s[11], s[8], s[5], s[2], s[15], s[12], s[9], s[6], s[3]];
}

/// Each column times the matrix with the rows 2 3 1 1, turned.
fn mix_columns(state: &mut Block) {
    for column in state.chunks_exact_mut(4) {
        let s = [column[0], column[1], column[2], column[3]];
        for row in 0..4 {
            let (a, b, c, d) = (s[row], s[(row + 1) % 4], s[(row + 2) % 4], s[(row + 3) % 4]);
            column[row] = xtime(a) ^ (xtime(b) ^ b) ^ c ^ d;
        }
    }
}

/// Each column times the matrix with the rows 14 11 13 9, turned: 14 = 8 + 4 + 2, 11 = 8 + 2 + 1, 13 = 8 + 4 + 1, 9 = 8 + 1.
fn inv_mix_columns(state: &mut Block) {
    for column in state.chunks_exact_mut(4) {
        let s = [column[0], column[1], column[2], column[3]];
        let by_2 = s.map(xtime);
        let by_4 = by_2.map(xtime);
        let by_8 = by_4.map(xtime);
        for row in 0..4 {
            let (a, b, c, d) = (row, (row + 1) % 4, (row + 2) % 4, (row + 3) % 4);
            column[row] =
                (by_8[a] ^ by_4[a] ^ by_2[a]) ^ (by_8[b] ^ by_2[b] ^ s[b]) ^ (by_8[c] ^ by_4[c] ^ s[c]) ^ (by_8[d] ^ s[d]);
        }
    }
}

/// SubBytes (figure 7): the inverse in GF(2^8), then the affine map.
#[rustfmt::skip]
pub const SBOX: [u8; 256] = [
    0x63, 0x7c, 0x77, 0x7b, 0xf2, 0x6b, 0x6f, 0xc5, 0x30, 0x01, 0x67, 0x2b, 0xfe, 0xd7, 0xab, 0x76,
    0xca, 0x82, 0xc9, 0x7d, 0xfa, 0x59, 0x47, 0xf0, 0xad, 0xd4, 0xa2, 0xaf, 0x9c, 0xa4, 0x72, 0xc0,
    0xb7, 0xfd, 0x93, 0x26, 0x36, 0x3f, 0xf7, 0xcc, 0x34, 0xa5, 0xe5, 0xf1, 0x71, 0xd8, 0x31, 0x15,
    0x04, 0xc7, 0x23, 0xc3, 0x18, 0x96, 0x05, 0x9a, 0x07, 0x12, 0x80, 0xe2, 0xeb, 0x27, 0xb2, 0x75,
    0x09, 0x83, 0x2c, 0x1a, 0x1b, 0x6e, 0x5a, 0xa0, 0x52, 0x3b, 0xd6, 0xb3, 0x29, 0xe3, 0x2f, 0x84,
    0x53, 0xd1, 0x00, 0xed, 0x20, 0xfc, 0xb1, 0x5b, 0x6a, 0xcb, 0xbe, 0x39, 0x4a, 0x4c, 0x58, 0xcf,
    0xd0, 0xef, 0xaa, 0xfb, 0x43, 0x4d, 0x33, 0x85, 0x45, 0xf9, 0x02, 0x7f, 0x50, 0x3c, 0x9f, 0xa8,
    0x51, 0xa3, 0x40, 0x8f, 0x92, 0x9d, 0x38, 0xf5, 0xbc, 0xb6, 0xda, 0x21, 0x10, 0xff, 0xf3, 0xd2,
    0xcd, 0x0c, 0x13, 0xec, 0x5f, 0x97, 0x44, 0x17, 0xc4, 0xa7, 0x7e, 0x3d, 0x64, 0x5d, 0x19, 0x73,
    0x60, 0x81, 0x4f, 0xdc, 0x22, 0x2a, 0x90, 0x88, 0x46, 0xee, 0xb8, 0x14, 0xde, 0x5e, 0x0b, 0xdb,
    0xe0, 0x32, 0x3a, 0x0a, 0x49, 0x06, 0x24, 0x5c, 0xc2, 0xd3, 0xac, 0x62, 0x91, 0x95, 0xe4, 0x79,
    0xe7, 0xc8, 0x37, 0x6d, 0x8d, 0xd5, 0x4e, 0xa9, 0x6c, 0x56, 0xf4, 0xea, 0x65, 0x7a, 0xae, 0x08,
    0xba, 0x78, 0x25, 0x2e, 0x1c, 0xa6, 0xb4, 0xc6, 0xe8, 0xdd, 0x74, 0x1f, 0x4b, 0xbd, 0x8b, 0x8a,
    0x70, 0x3e, 0xb5, 0x66, 0x48, 0x03, 0xf6, 0x0e, 0x61, 0x35, 0x57, 0xb9, 0x86, 0xc1, 0x1d, 0x9e,
    0xe1, 0xf8, 0x98, 0x11, 0x69, 0xd9, 0x8e, 0x94, 0x9b, 0x1e, 0x87, 0xe9, 0xce, 0x55, 0x28, 0xdf,
    0x8c, 0xa1, 0x89, 0x0d, 0xbf, 0xe6, 0x42, 0x68, 0x41, 0x99, 0x2d, 0x0f, 0xb0, 0x54, 0xbb, 0x16,
];

/// InvSubBytes (figure 14).
const INV_SBOX: [u8; 256] = {
    let mut table = [0; 256];
    let mut i = 0;
    while i < 256 {
        table[SBOX[i] as usize] = i as u8;
        i += 1;
    }
    table
};
