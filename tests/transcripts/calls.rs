//! Lines of `trace` that are no frames: sweeps, leaving, questions, other lent keys, and lines that ask for nothing.

use crate::parts::*;
use crate::Transcript;
use builder::typical::*;
use builder::wrapping::wrap;
use builder::{Attribute, Frame, ESP, REKEY};

pub fn all() -> Vec<Transcript> {
    vec![sweeps(), leaving(), questions(), lent_keys(), other_lines()]
}

/// ESP SAs 1, 2 and 3 have 20, 28 and 36 keying octets, no two the same.
fn keying(number: u32) -> Vec<u8> {
    let (start, count) = [(0x10, 20), (0x40, 28), (0x80, 36)][number as usize - 1];
    (start..start + count).collect()
}

fn esp_sa(number: u32, key0: &[u8]) -> Sa {
    esp_of(number, [128, 192, 256][number as usize - 1], &keying(number), key0)
}

fn esp_line(number: u32, condition: &str) -> String {
    esp_text_of(number, &keying(number), condition)
}

/// Rekey SA a0 with 36 and 32 octets.
fn large() -> Vec<u8> {
    rekey_keying(0xa0, 68)
}

/// The same, its key under key 9.
fn large_sa(nine: &[u8]) -> Sa {
    let copy = Attribute::key(0, 9, &wrap(nine, &large()));
    Sa { policy: rekey_policy(&rekey_spi(0xa0), 256, 3), bag: bag(REKEY, &rekey_spi(0xa0), vec![copy]) }
}

/// Rekey SA a0 under key 9, which is then held, ESP SAs 1 to 3 and key 9 under a default key.
fn full_registration(key0: &[u8]) -> Frame {
    let nine = vec![9; key0.len()];
    let sas = [large_sa(&nine), esp_sa(3, key0), esp_sa(1, key0), esp_sa(2, key0)];
    registration(&sas, &[Attribute::key(9, 0, &wrap(key0, &nine))])
}

/// The member with these lines for its ESP SAs, Rekey SA a0 live, and a held key of so many octets.
fn member(esps: &[String], held: usize, id: u32) -> Vec<String> {
    [esps, &[rekey_text_of(0xa0, &large(), 36, "live"), held_text(9, &vec![9; held]), least(id)]].concat()
}

fn live() -> Vec<String> {
    (1..=3).map(|number| esp_line(number, "live")).collect()
}

fn sweep(t: &mut Transcript, about: &str, tick: u32) {
    t.line(about, format!("s{tick:08x}").as_bytes(), "done");
}

fn sweeps() -> Transcript {
    let mut t = Transcript::of_calls("sweeps", LENT);
    sweep(&mut t, "a new member", 5);
    t.frame("Rekey SA a0 under key 9, ESP SAs 1 to 3", 0, &full_registration(&lent()), "answer 0");
    t.then(&member(&live(), 16, 0));
    sweep(&mut t, "no SA retires", u32::MAX);
    let a0 = large()[36..].to_vec();
    let b0 = announce_with_delay(&[rekey_sa(0xb0, &[(0, a0)])], 5);
    let gone = |condition: &str| -> Vec<String> {
        let old = rekey_text_of(0xa0, &large(), 36, condition);
        let esps = (1..=3).map(|number| esp_line(number, if number == 2 { "live" } else { condition }));
        esps.chain([old, rekey_text(0xb0, "live"), held_text(9, &key(9)), least(0)]).collect()
    };
    let deleted = delete(&[spi(3), spi(1)]);
    t.frame("b0 comes; a0, 1 and 3 retire for 5 s", 4_294_966_000, &rekey(0xa0, 0, [b0, vec![deleted]].concat()), "answer 0");
    t.then(&gone("retiring 4294966000 5"));
    sweep(&mut t, "their own start", 4_294_966_000);
    sweep(&mut t, "4,999 ms", 3703);
    sweep(&mut t, "5,000 ms: they go", 3704);
    let rest =
        |condition: &str, id: u32| [esp_line(2, condition), rekey_text(0xb0, "live"), held_text(9, &key(9)), least(id)].to_vec();
    t.then(&rest("live", 0));
    sweep(&mut t, "nothing is left to go", 3704);
    t.frame("2 retires without delay", 4000, &rekey(0xb0, 7, vec![delete(&[spi(0)])]), "answer 0");
    t.then(&rest("retiring 4000 0", 8));
    sweep(&mut t, "it is due at once, by any clock", 3999);
    t.then(&rest("", 8)[1..]);
    t
}

fn leaving() -> Transcript {
    let mut t = Transcript::of_calls("leaving", LENT);
    t.line("a new member stays one", b"l", "done");
    let first = full_registration(&lent());
    t.frame("Rekey SA a0 under key 9, ESP SAs 1 to 3", 0, &first, "answer 0");
    t.then(&member(&live(), 16, 0));
    t.line("nothing is left", b"l", "done");
    t.then(&[least(0)]);
    t.frame("a rekey over a0", 0, &rekey(0xa0, 0, vec![delete(&[spi(1)])]), "answer 2");
    t.frame("registered anew, by the same frame", 9, &first, "answer 0");
    t.then(&member(&live(), 16, 0));
    t.frame("a rekey", 9, &rekey(0xa0, 41, vec![delete(&[spi(77)])]), "answer 0");
    t.then(&member(&live(), 16, 42));
    t.frame("the last Message ID", 9, &rekey(0xa0, u32::MAX, vec![delete(&[spi(77)])]), "answer 0");
    let mut last = member(&live(), 16, 0);
    last[5] = "least none".to_string();
    t.then(&last);
    t.line("nothing is left, and Message IDs start anew", b"l", "done");
    t.then(&[least(0)]);
    t.line("twice", b"l", "done");
    t
}

fn questions() -> Transcript {
    let mut t = Transcript::of_calls("questions", LENT);
    let ask = |t: &mut Transcript, about: &str, protocol: u8, spi: &[u8], answer: &str| {
        t.line(about, format!("q{protocol:02x}{}", text(spi)).as_bytes(), answer);
    };
    ask(&mut t, "a new member", ESP, &spi(1), "none");
    t.frame("Rekey SA a0 under key 9, ESP SAs 1 to 3", 0, &full_registration(&lent()), "answer 0");
    t.then(&member(&live(), 16, 0));
    let found = |octets: &[u8], condition: &str| format!("found {} {condition} life none", text(octets));
    for number in 1..=3 {
        ask(&mut t, "an ESP SA", ESP, &spi(number), &found(&keying(number), "live"));
    }
    ask(&mut t, "the Rekey SA", REKEY, &rekey_spi(0xa0), &found(&large(), "live"));
    ask(&mut t, "no such ESP SA", ESP, &spi(4), "none");
    ask(&mut t, "SPI 0", ESP, &spi(0), "none");
    ask(&mut t, "an ESP SPI with zeros behind it", ESP, &[0, 0, 0, 1, 0], "none");
    ask(&mut t, "one of 16 octets", ESP, &[0, 0, 0, 1, 0, 0, 0, 0, 0, 0, 0, 0, 0, 0, 0, 0], "none");
    ask(&mut t, "three octets of one", ESP, &[0, 0, 0], "none");
    ask(&mut t, "no SPI", ESP, &[], "none");
    ask(&mut t, "an ESP SPI as Rekey", REKEY, &spi(1), "none");
    ask(&mut t, "the Rekey SA's SPI as ESP", ESP, &rekey_spi(0xa0), "none");
    ask(&mut t, "AH", 2, &spi(1), "none");
    ask(&mut t, "protocol 0", 0, &spi(1), "none");
    ask(&mut t, "the Rekey SA's SPI with its last octet changed", REKEY, &[[0xa0; 15].as_slice(), &[0xa1]].concat(), "none");
    let a0 = &large()[36..];
    let more = [announce_with_delay(&[esp_of(4, 128, &keying(1), a0)], 2), vec![delete(&[spi(2)])]].concat();
    t.frame("2 retires for 2 s; 4 comes, with the key of 1", 1000, &rekey(0xa0, 3, more), "answer 0");
    let retiring = esp_line(2, "retiring 1000 2");
    let four = esp_text_of(4, &keying(1), "live");
    t.then(&member(&[esp_line(1, "live"), retiring, esp_line(3, "live"), four.clone()], 16, 4));
    ask(&mut t, "a retiring SA", ESP, &spi(2), &found(&keying(2), "retiring 1000 2"));
    t.frame("a refused frame at 3,000, where 2 is due", 3000, &rekey(0xa0, 3, vec![delete(&[spi(1)])]), "answer 3");
    ask(&mut t, "it is due, and not yet swept", ESP, &spi(2), &found(&keying(2), "retiring 1000 2"));
    sweep(&mut t, "it goes", 3000);
    t.then(&member(&[esp_line(1, "live"), esp_line(3, "live"), four], 16, 4));
    ask(&mut t, "it is gone", ESP, &spi(2), "none");
    t
}

fn lent_keys() -> Transcript {
    let mut t = Transcript::of_calls("lent-keys", LENT);
    let lend = |t: &mut Transcript, about: &str, octets: &[u8]| {
        t.line(about, format!("k{}", text(octets)).as_bytes(), "done");
    };
    let other: Vec<u8> = (0x60..0x60 + 24).collect();
    lend(&mut t, "24 octets", &other);
    t.frame("a registration under the first key", 0, &full_registration(&lent()), "answer 9");
    for size in [0, 1, 15, 17, 20, 28, 33, 48] {
        lend(&mut t, "no size of a wrapping key", &vec![0x60; size]);
        t.frame("a registration", 0, &full_registration(&other), "answer 5");
    }
    lend(&mut t, "24 octets", &other);
    t.line("an odd count of digits: the key stays", b"k666", "bad");
    t.line("a capital", b"k6A", "bad");
    t.frame("a registration under them", 0, &full_registration(&other), "answer 0");
    t.then(&member(&live(), 24, 0));
    lend(&mut t, "20 octets", &[0x60; 20]);
    t.frame("a rekey reads no lent key", 0, &rekey(0xa0, 0, vec![delete(&[spi(77)])]), "answer 0");
    t.then(&member(&live(), 24, 1));
    let again = esp_of(5, 128, &keying(1), &large()[36..]);
    t.frame("nor for its copies", 0, &rekey(0xa0, 1, announce(&[again])), "answer 0");
    t.then(&member(&[live(), vec![esp_text_of(5, &keying(1), "live")]].concat(), 24, 2));
    t
}

/// Lines that are nearly a call.
fn other_lines() -> Transcript {
    let mut t = Transcript::of_calls("other-lines", LENT);
    let bad: [(&str, &[u8]); 16] = [
        ("an empty line", b""),
        ("a sweep without a tick", b"s"),
        ("7 digits", b"s0000000"),
        ("9 digits", b"s000000000"),
        ("a frame behind the tick", b"s0000000000"),
        ("capitals", b"sFFFFFFFF"),
        ("a blank", b"s 00000000"),
        ("digits behind leaving", b"l00"),
        ("a blank behind it", b"l "),
        ("a carriage return", b"l\r"),
        ("a question about nothing", b"q"),
        ("half a protocol", b"q0"),
        ("half an octet of an SPI", b"q030"),
        ("another letter", b"m00000000"),
        ("a capital", b"L"),
        ("a blank before", b" l"),
    ];
    for (about, line) in bad {
        t.line(about, line, "bad");
    }
    t.line("a protocol and no SPI", b"q03", "none");
    t.line("16,388 octets", &[b"k".as_slice(), &[b'0'; 32_776]].concat(), "done");
    t.line("32,778 digits", &[b"k".as_slice(), &[b'0'; 32_778]].concat(), "bad");
    t.line("a protocol and 16,387 octets", &[b"q".as_slice(), &[b'0'; 32_776]].concat(), "none");
    t.line("32,778 digits", &[b"q".as_slice(), &[b'0'; 32_778]].concat(), "bad");
    t.line("a frame of 16,384 octets, zeros", &[b'0'; 32_776], "answer 1 0");
    t.line("32,778 digits", &[b'0'; 32_778], "bad");
    t
}
