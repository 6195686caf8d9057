//! The published vectors of FIPS 197, RFC 5649 and AES-GCM, and the sizes that wrap and open.

use crate::{hex, keying};
use builder::wrapping::wrap;
use reference::aes::{Schedule, SBOX};
use reference::{gcm, keywrap};

#[test]
fn sbox_is_inverse_and_affine_map() {
    let times = |mut a: u32, b: u32| {
        (0..8).fold(0, |sum, bit| {
            let next = if b >> bit & 1 == 1 { sum ^ a } else { sum };
            a = if a & 0x80 != 0 { a << 1 ^ 0x11b } else { a << 1 };
            next
        })
    };
    for x in 0..256u32 {
        let inverse = (0..256).find(|&y| times(x, y) == 1).unwrap_or(0);
        let bit = |i: u32| (inverse >> (i % 8)) & 1;
        let affine =
            (0..8).map(|i| (bit(i) ^ bit(i + 4) ^ bit(i + 5) ^ bit(i + 6) ^ bit(i + 7) ^ (0x63 >> i & 1)) << i).sum::<u32>();
        assert_eq!(SBOX[x as usize] as u32, affine, "entry {x}");
    }
}

#[test]
fn fips_197_vectors() {
    let block = "00112233445566778899aabbccddeeff";
    let cases = [
        ("2b7e151628aed2a6abf7158809cf4f3c", "3243f6a8885a308d313198a2e0370734", "3925841d02dc09fbdc118597196a0b32"),
        ("000102030405060708090a0b0c0d0e0f", block, "69c4e0d86a7b0430d8cdb78070b4c55a"),
        ("000102030405060708090a0b0c0d0e0f1011121314151617", block, "dda97ca4864cdfe06eaf70a0ec0d7191"),
        ("000102030405060708090a0b0c0d0e0f101112131415161718191a1b1c1d1e1f", block, "8ea2b7ca516745bfeafc49904b496089"),
    ];
    for (key, plain, cipher) in cases {
        let schedule = Schedule::expand(&hex(key)).unwrap();
        let mut state = hex(plain).try_into().unwrap();
        schedule.cipher(&mut state);
        assert_eq!(state.to_vec(), hex(cipher));
        schedule.inverse_cipher(&mut state);
        assert_eq!(state.to_vec(), hex(plain));
    }
    let expansions = [
        ("2b7e151628aed2a6abf7158809cf4f3c", "b6630ca6"),
        ("8e73b0f7da0e6452c810f32b809079e562f8ead2522c6b7b", "01002202"),
        ("603deb1015ca71be2b73aef0857d77811f352c073b6108d72d9810a30914dff4", "706c631e"),
    ];
    for (key, word) in expansions {
        assert_eq!(Schedule::expand(&hex(key)).unwrap().last_word().to_vec(), hex(word));
    }
}

#[test]
fn rfc_5649_vectors() {
    let key = hex("5840df6e29b02af1ab493b705bf16ea1ae8338f4dcc176a8");
    let cases = [
        ("c37b7e6492584340bed12207808941155068f738", "138bdeaa9b8fa7fc61f97742e72248ee5ae6ae5360d1ae6a5f54f373fa543b6a"),
        ("466f7250617369", "afbeb0f07dfbf5419200f2ccb50bb24f"),
    ];
    for (plain, wrapped) in cases {
        let (plain, wrapped) = (hex(plain), hex(wrapped));
        let mut room = [0; 264];
        assert_eq!(keywrap::wrap(&key, &plain, &mut room), Some(wrapped.len()));
        assert_eq!(room[..wrapped.len()], wrapped);
        assert_eq!(keywrap::open(&key, &wrapped, &mut room), Some(plain.len()));
        assert_eq!(room[..plain.len()], plain);
        assert_eq!(wrap(&key, &plain), wrapped);
    }
}

#[test]
fn both_forms_of_wrapping_agree_and_open() {
    for size in [16, 24, 32] {
        for count in 1..=256 {
            let (key, octets) = (keying(size), vec![count as u8; count]);
            let mut room = [0; 264];
            let wrapped = keywrap::wrap(&key, &octets, &mut room).unwrap();
            assert_eq!(room[..wrapped], wrap(&key, &octets));
            let mut opened = [0; 256];
            assert_eq!(keywrap::open(&key, &room[..wrapped], &mut opened), Some(count));
            assert_eq!(opened[..count], octets);
        }
    }
}

#[test]
fn sizes_that_neither_wrap_nor_open() {
    let (key, mut room) = (keying(16), [0; 300]);
    for count in [0, 257, 264] {
        assert_eq!(keywrap::wrap(&key, &vec![1; count], &mut room), None);
    }
    for count in [0, 8, 15, 17, 23, 25, 265, 272] {
        assert_eq!(keywrap::open(&key, &vec![1; count], &mut room), None);
    }
    assert_eq!(room, [0; 300]);
}

/// AES-GCM: cases 1 to 4, 7 to 10 and 13 to 16 of McGrew and Viega, whose nonce has 96 bits; the tag is the last of the sealed octets.
#[test]
fn gcm_vectors() {
    let feff = "feffe9928665731c6d6a8f9467308308feffe9928665731c6d6a8f9467308308";
    let plain = hex(concat!(
        "d9313225f88406e5a55909c5aff5269a86a7a9531534f7da2e4c303d8a318a72",
        "1c3c0c95956809532fcf0e2449a6b525b16aedf5aa0de657ba637b391aafd255"
    ));
    let additional = hex("feedfacedeadbeeffeedfacedeadbeefabaddad2");
    let nonce: [u8; 12] = hex("cafebabefacedbaddecaf888").try_into().unwrap();
    let zeros = [
        (16, "58e2fccefa7e3061367f1d57a4e7455a", "0388dace60b6a392f328c2b971b2fe78ab6e47d42cec13bdf53a67b21257bddf"),
        (24, "cd33b28ac773f74ba00ed1f312572435", "98e7247c07f0fe411c267e4384b0f6002ff58d80033927ab8ef4d4587514f0fb"),
        (32, "530f8afbc74536b9a963b4f1c4cb738b", "cea7403d4d606b6e074ec5d3baf39d18d0d1c8a799996bf0265b98b5d48ab919"),
    ];
    for (size, first, second) in zeros {
        let key = Schedule::expand(&vec![0; size]).unwrap();
        assert_eq!(gcm::seal(&key, [0; 12], &[], &[]), hex(first));
        assert_eq!(gcm::seal(&key, [0; 12], &[], &[0; 16]), hex(second));
    }
    let texts = [
        (
            16,
            "42831ec2217774244b7221b784d0d49ce3aa212f2c02a4e035c17e2329aca12e\
             21d514b25466931c7d8f6a5aac84aa051ba30b396a0aac973d58e091473f5985",
            "4d5c2af327cd64a62cf35abd2ba6fab4",
            "5bc94fbc3221a5db94fae95ae7121a47",
        ),
        (
            24,
            "3980ca0b3c00e841eb06fac4872a2757859e1ceaa6efd984628593b40ca1e19c\
             7d773d00c144c525ac619d18c84a3f4718e2448b2fe324d9ccda2710acade256",
            "9924a7c8587336bfb118024db8674a14",
            "2519498e80f1478f37ba55bd6d27618c",
        ),
        (
            32,
            "522dc1f099567d07f47f37a32a84427d643a8cdcbfe5c0c97598a2bd2555d1aa\
             8cb08e48590dbb3da7b08b1056828838c5f61e6393ba7a0abcc9f662898015ad",
            "b094dac5d93471bdec1a502270e3cc6c",
            "76fc6ece0f4e1768cddf8853bb2d551b",
        ),
    ];
    for (size, ciphertext, third, fourth) in texts {
        let (key, ciphertext) = (Schedule::expand(&hex(&feff[..2 * size])).unwrap(), hex(ciphertext));
        assert_eq!(gcm::seal(&key, nonce, &[], &plain), [&ciphertext[..], &hex(third)].concat());
        let sealed = [&ciphertext[..60], &hex(fourth)].concat();
        assert_eq!(gcm::seal(&key, nonce, &additional, &plain[..60]), sealed);
        assert_eq!(gcm::open(&key, nonce, &additional, &sealed), Some(plain[..60].to_vec()));
        for at in 0..sealed.len() {
            let mut damaged = sealed.clone();
            damaged[at] ^= 1 << (at % 8);
            assert_eq!(gcm::open(&key, nonce, &additional, &damaged), None);
        }
    }
    assert_eq!(gcm::open(&Schedule::expand(&[0; 16]).unwrap(), [0; 12], &[], &[0; 15]), None);
}
