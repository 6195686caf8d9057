//! The cases of McGrew and Viega whose nonce has 96 bits, and a sealed frame computed with OpenSSL.

use crate::{hex, registered};
use reference::aes::Schedule;
use reference::gcm::{open, seal};
use reference::member::Answer;
use reference::sealing::{open_frame, seal_frame, Choice};

const NONCE: &str = "cafebabefacedbaddecaf888";
const DATA: &str = "feedfacedeadbeeffeedfacedeadbeefabaddad2";
const PLAIN: &str =
    "d9313225f88406e5a55909c5aff5269a86a7a9531534f7da2e4c303d8a318a721c3c0c95956809532fcf0e2449a6b525b16aedf5aa0de657ba637b39";

#[test]
fn cases_4_10_and_16() {
    let key = "feffe9928665731c6d6a8f9467308308feffe9928665731c6d6a8f9467308308";
    let tags = ["5bc94fbc3221a5db94fae95ae7121a47", "2519498e80f1478f37ba55bd6d27618c", "76fc6ece0f4e1768cddf8853bb2d551b"];
    for (size, tag) in [16, 24, 32].into_iter().zip(tags) {
        let schedule = Schedule::expand(&hex(key)[..size]).unwrap();
        let nonce = hex(NONCE).try_into().unwrap();
        let sealed = seal(&schedule, nonce, &hex(DATA), &hex(PLAIN));
        assert_eq!(sealed[60..], hex(tag));
        assert_eq!(open(&schedule, nonce, &hex(DATA), &sealed), Some(hex(PLAIN)));
        for at in 0..sealed.len() {
            let mut other = sealed.clone();
            other[at] ^= 1;
            assert_eq!(open(&schedule, nonce, &hex(DATA), &other), None);
        }
    }
}

#[test]
fn sample_frame() {
    let gsk_e: Vec<u8> = (0..20).collect();
    let opened = hex("a0a1a2a3a4a5a6a7a8a9aaabacadaeaf2a20290000000007000000280000000c0304000111223344");
    let sealed = hex(concat!(
        "a0a1a2a3a4a5a6a7a8a9aaabacadaeaf2e20290000000007000000452a0000290102030405060708",
        "905657acd339e7f00c9a6a8eddbfd41b07465b77a89884913a082bc25c"
    ));
    let choice = Choice { iv: [1, 2, 3, 4, 5, 6, 7, 8], ..Choice::default() };
    assert_eq!(seal_frame(&gsk_e, &opened, &choice), sealed);
    assert_eq!(open_frame(&gsk_e, &sealed), Some(opened));
}

/// 10 comes before 3, and inner 1 before 3 too; the room is written for what was opened alone.
#[test]
fn judging_order() {
    let mut member = registered(vec![]);
    member.least_id = Some(9);
    let gsk_e = member.live_rekey().unwrap().encryption_key().to_vec();
    let spi = member.live_rekey().unwrap().spi.clone();
    let opened = |next: u8, body: &[u8]| {
        let length = (28 + body.len() as u32).to_be_bytes();
        [spi.as_slice(), &[next, 0x20, 41, 0, 0, 0, 0, 7], &length, body].concat()
    };
    let mut answers = |frame: &[u8], size: usize| {
        let mut room = vec![0xa5; size];
        let answer = member.take_sealed(&mut room, 0, frame);
        (answer, room.iter().any(|&octet| octet != 0xa5))
    };
    let replayed = seal_frame(&gsk_e, &opened(0, &[]), &Choice::default());
    assert_eq!(answers(&replayed, 16_384), (Answer { number: 3, offset: 0 }, true));
    assert_eq!(answers(&replayed, 16_383), (Answer { number: 10, offset: 0 }, false));
    let broken = seal_frame(&gsk_e, &opened(42, &[0, 0, 0, 3]), &Choice::default());
    assert_eq!(answers(&broken, 16_384), (Answer { number: 1, offset: 28 }, true));
}
