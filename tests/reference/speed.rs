//! `speed wrap|open K`: 10,000 wraps or openings of 36 octets under a key of K octets, which each call expands. The first 4
//! octets wrapped are the turn's number; what is opened in each turn is the wrapping of turn 0. Prints a checksum over what was
//! written, so that nothing can be left out. In any other mode it does nothing.

use reference::keywrap::{open, wrap};

const TURNS: u32 = 10_000;
const COUNT: usize = 36;

fn main() {
    let arguments: Vec<String> = std::env::args().collect();
    let (Some(mode), Some(size)) = (arguments.get(1), arguments.get(2).and_then(|size| size.parse().ok())) else {
        eprintln!("speed wrap|open K");
        std::process::exit(2);
    };
    let key: Vec<u8> = (0..size).map(|i: usize| (7 * i + size) as u8).collect();
    let mut octets: [u8; COUNT] = std::array::from_fn(|i| (13 * i + COUNT) as u8);
    let mut room = [0; 264];
    let mut checksum: u32 = 0;
    let mut add = |written: &[u8]| {
        for octet in written {
            checksum = checksum.wrapping_mul(31).wrapping_add(*octet as u32);
        }
    };
    if mode == "wrap" {
        for turn in 0..TURNS {
            octets[..4].copy_from_slice(&turn.to_be_bytes());
            let count = wrap(&key, &octets, &mut room).unwrap_or(0);
            add(&room[..count]);
        }
    }
    if mode == "open" {
        octets[..4].fill(0);
        let mut wrapped = [0; 264];
        let count = wrap(&key, &octets, &mut wrapped).unwrap_or(0);
        for _ in 0..TURNS {
            let count = open(&key, &wrapped[..count], &mut room).unwrap_or(0);
            add(&room[..count]);
        }
    }
    println!("{checksum}");
}
