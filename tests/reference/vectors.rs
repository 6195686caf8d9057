//! Prints the published vectors of FIPS 197 and RFC 5649 and further cases of wrapping and opening, one line a case, as the
//! program `vectors` does. `vectors random`: 10,000 keys and blocks by a rule, enciphered and deciphered, as that does too.

use reference::aes::{Block, Schedule};
use reference::keywrap::{open, wrap, wrap_steps};

const KEY_SIZES: [usize; 3] = [16, 24, 32];
const COUNTS: [usize; 14] = [1, 7, 8, 9, 15, 16, 17, 20, 24, 36, 44, 68, 255, 256];
const LENT: u8 = 0xee;

fn main() {
    match std::env::args().nth(1).as_deref() {
        Some("random") => random(),
        _ => all_cases(),
    }
}

fn all_cases() {
    ciphers();
    expansions();
    published();
    KEY_SIZES.iter().for_each(|&size| counts(size));
    KEY_SIZES.iter().for_each(|&size| rooms(size));
    KEY_SIZES.iter().for_each(|&size| damages(size));
    sizes();
}

/// FIPS 197, appendices B and C.1 to C.3.
fn ciphers() {
    let appendix_b = (hex_to_octets("2b7e151628aed2a6abf7158809cf4f3c"), hex_to_octets("3243f6a8885a308d313198a2e0370734"));
    let appendix_c = |size: u8| ((0..size).collect(), hex_to_octets("00112233445566778899aabbccddeeff"));
    let cases = [("B", appendix_b), ("C.1", appendix_c(16)), ("C.2", appendix_c(24)), ("C.3", appendix_c(32))];
    for (name, (key, plain)) in cases {
        let schedule = Schedule::expand(&key).expect("a key size");
        let mut block: Block = plain.try_into().expect("a block");
        schedule.cipher(&mut block);
        println!("cipher {name} {}", hex(&block));
        schedule.inverse_cipher(&mut block);
        println!("inverse {name} {}", hex(&block));
        let rounds = key.len() / 4 + 6;
        println!("inverse key {name} 0 {}", hex(&schedule.round_key(rounds)));
        println!("inverse key {name} 1 {}", hex(&inv_mix_columns(schedule.round_key(rounds - 1))));
        println!("inverse key {name} {rounds} {}", hex(&schedule.round_key(0)));
    }
}

/// InvMixColumns of a round key (FIPS 197, section 5.3.5), apart from the cipher's, whose time is measured.
fn inv_mix_columns(key: Block) -> Block {
    std::array::from_fn(|i| {
        let product = |k: usize| times([14, 11, 13, 9][k], key[i / 4 * 4 + (i + k) % 4]);
        (0..4).fold(0, |sum, k| sum ^ product(k))
    })
}

/// The product in GF(2^8).
fn times(factor: u8, octet: u8) -> u8 {
    let power = |n: u8| (0..n).fold(octet, |x, _| (x << 1) ^ (0x1b * (x >> 7)));
    (0..8).filter(|n| factor >> n & 1 == 1).fold(0, |sum, n| sum ^ power(n))
}

/// Keys of 16, 24 and 32 octets in turn: the lowest octets of 48 numbers of a generator are a key, the first of 32, and a block.
fn random() {
    let mut state: u64 = 0x9e3779b97f4a7c15;
    let mut next = || {
        state ^= state << 13;
        state ^= state >> 7;
        state ^= state << 17;
        state as u8
    };
    let mut lines = String::new();
    for turn in 0..10_000 {
        let octets: [u8; 48] = std::array::from_fn(|_| next());
        let key = &octets[..KEY_SIZES[turn % 3]];
        let plain: Block = octets[32..].try_into().expect("a block");
        let schedule = Schedule::expand(key).expect("a key size");
        let (mut forward, mut back) = (plain, plain);
        schedule.cipher(&mut forward);
        schedule.inverse_cipher(&mut back);
        lines += &format!("random {} {} {} {}\n", hex(key), hex(&plain), hex(&forward), hex(&back));
    }
    print!("{lines}");
}

/// FIPS 197, appendix A.
fn expansions() {
    let keys = [
        ("A.1", "2b7e151628aed2a6abf7158809cf4f3c"),
        ("A.2", "8e73b0f7da0e6452c810f32b809079e562f8ead2522c6b7b"),
        ("A.3", "603deb1015ca71be2b73aef0857d77811f352c073b6108d72d9810a30914dff4"),
    ];
    for (name, key) in keys {
        let schedule = Schedule::expand(&hex_to_octets(key)).expect("a key size");
        println!("expansion {name} {}", hex(&schedule.last_word()));
    }
}

/// RFC 5649, section 6.
fn published() {
    let key = hex_to_octets("5840df6e29b02af1ab493b705bf16ea1ae8338f4dcc176a8");
    for plain in ["c37b7e6492584340bed12207808941155068f738", "466f7250617369"] {
        let octets = hex_to_octets(plain);
        both_ways(&format!("rfc5649 {}", octets.len()), " wrap", " open", &key, &octets);
    }
}

fn counts(size: usize) {
    for count in COUNTS {
        both_ways("", &format!("wrap {size} {count}"), &format!("open {size} {count}"), &key(size), &plain(count));
    }
}

fn both_ways(start: &str, wrap_name: &str, open_name: &str, key: &[u8], octets: &[u8]) {
    let wrapped = wrapping(key, octets);
    println!("{start}{wrap_name} {}", hex(&wrapped));
    let mut room = [LENT; 256];
    let count = open(key, &wrapped, &mut room).expect("opens");
    println!("{start}{open_name} {}", hex(&room[..count]));
}

fn rooms(size: usize) {
    let (key, octets) = (key(size), plain(20));
    for room_size in [31, 32, 40] {
        let mut room = vec![LENT; room_size];
        let answer = wrap(&key, &octets, &mut room);
        println!("room {size} wrap {room_size} {} {}", answer_text(answer), hex(&room));
    }
    let wrapped = wrapping(&key, &octets);
    for room_size in [19, 20, 30] {
        let mut room = vec![LENT; room_size];
        let answer = open(&key, &wrapped, &mut room);
        println!("room {size} open {room_size} {} {}", answer_text(answer), hex(&room));
    }
}

fn damages(size: usize) {
    let (key, octets) = (key(size), plain(20));
    let schedule = Schedule::expand(&key).expect("a key size");
    // The registers before wrapping: a65959a6, the count 20, the octets, 4 octets of padding; one octet of them is changed.
    let altered = |at: usize, octet: u8| {
        let mut registers = [&[0xa6, 0x59, 0x59, 0xa6, 0, 0, 0, 20], octets.as_slice(), &[0; 4]].concat();
        registers[at] = octet;
        wrap_steps(&schedule, &mut registers);
        registers
    };
    let right = wrapping(&key, &octets);
    let mut flipped = right.clone();
    flipped[9] ^= 1;
    let mut other_key = key.clone();
    other_key[0] ^= 1;
    let cases = [
        ("constant", &key, altered(3, 0xa7)),
        ("small", &key, altered(7, 16)),
        ("large", &key, altered(7, 25)),
        ("padding", &key, altered(31, 1)),
        ("flipped", &key, flipped),
        ("key", &other_key, right.clone()),
        ("short", &key, right[..24].to_vec()),
    ];
    for (kind, key, wrapped) in cases {
        let answer = in_large_room(|room| open(key, &wrapped, room));
        println!("damage {size} {kind} {} {answer}", hex(&wrapped));
    }
}

fn sizes() {
    let octets = plain(20);
    let wrapped = wrapping(&key(16), &octets);
    for size in [0, 8, 15, 17, 20, 28, 33] {
        println!("size key {size} wrap {}", in_large_room(|room| wrap(&key(size), &octets, room)));
        println!("size key {size} open {}", in_large_room(|room| open(&key(size), &wrapped, room)));
    }
    for count in [0, 257] {
        println!("size octets {count} {}", in_large_room(|room| wrap(&key(16), &plain(count), room)));
    }
    for count in [0, 8, 15, 17, 23, 265, 272] {
        let wrapped: Vec<u8> = (0..count).map(|i| i as u8).collect();
        println!("size wrapped {count} {}", in_large_room(|room| open(&key(16), &wrapped, room)));
    }
}

/// The answer of a call that must say no and leave the room as lent.
fn in_large_room(call: impl Fn(&mut [u8]) -> Option<usize>) -> String {
    let mut room = [LENT; 256 + 16];
    let answer = call(&mut room);
    assert!(answer.is_some() || room.iter().all(|&octet| octet == LENT));
    answer_text(answer)
}

fn wrapping(key: &[u8], octets: &[u8]) -> Vec<u8> {
    let mut room = vec![LENT; 264];
    let count = wrap(key, octets, &mut room).expect("wraps");
    room.truncate(count);
    room
}

fn answer_text(answer: Option<usize>) -> String {
    answer.map_or("no".to_string(), |count| count.to_string())
}

fn key(size: usize) -> Vec<u8> {
    (0..size).map(|i| (7 * i + size) as u8).collect()
}

fn plain(count: usize) -> Vec<u8> {
    (0..count).map(|i| (13 * i + count) as u8).collect()
}

fn hex(octets: &[u8]) -> String {
    octets.iter().map(|octet| format!("{octet:02x}")).collect()
}

fn hex_to_octets(digits: &str) -> Vec<u8> {
    (0..digits.len()).step_by(2).map(|i| u8::from_str_radix(&digits[i..i + 2], 16).expect("digits")).collect()
}
