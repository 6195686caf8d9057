//! Runs of the program: the example, registrations, rekeys, deletes, the clock, held keys, limits, lines.

use crate::parts::*;
use crate::Transcript;
use builder::typical::*;
use builder::wrapping::wrap;
use builder::{Attribute, Body, Part, Payload, NOTIFY, REKEY};

pub fn all() -> Vec<Transcript> {
    vec![
        example(),
        header(),
        registration_run(),
        without_rekey_sa(),
        chains_in_any_order(),
        chains_in_a_cycle(),
        rekeys(),
        deletes(),
        clock(),
        held_keys(),
        cut("cut-20-24", 128, 2, 20),
        cut("cut-28-16", 192, 1, 28),
        limits(),
        lines(),
        Transcript::of("input-empty", b"", "", "no input: nothing is printed"),
        Transcript::of("input-newline", b"\n", "", "an empty first line: nothing is printed"),
        Transcript::of("input-key", LENT.as_bytes(), "", "the default key, without a newline: nothing is printed"),
        Transcript::of("input-newlines", b"\n\n\n", "bad\nbad\n", "an empty first line, then two empty lines"),
        Transcript::of("input-last-line", b"\n00000000\n00000000", "1 0 0 0\n1 0 0 0\n", "the last line has no newline"),
        odd_key("key-28", &"1c".repeat(28)),
        odd_key("key-20", &"14".repeat(20)),
        odd_key("key-33", &"21".repeat(33)),
        odd_key("key-odd", &LENT[..31]),
        odd_key("key-cr", &format!("{LENT}\r")),
        odd_key("key-capitals", "000102030405060708090A0B0C0D0E0F"),
        odd_key("key-empty", ""),
        other_key("key-24", 24),
        other_key("key-32", 32),
    ]
}

/// Document 01's own.
fn example() -> Transcript {
    let mut t = Transcript::new("example", LENT);
    t.line("a frame of one octet", b"0000000000", "1 0 0 0");
    t.line("other characters", b"xyz", "bad");
    t.line("a capital", b"0000000000000000000000000000000000000000002000000000000000000000001C", "bad");
    t.line("a blank", b"0000000000000000000000000000000000000000002000000000000000000000001 c", "bad");
    t
}

fn header() -> Transcript {
    let mut t = Transcript::new("header", LENT);
    let bare = builder::Frame { version: 0x20, flags: 0, ..frame(0, &[0; 16], 0, vec![]) };
    for tick in [0, 0x1234_5678, u32::MAX] {
        t.frame("a bare header, all zero but version and length", tick, &bare, "2 0 0");
    }
    t.frame("minor version and flags are ignored", 0, &builder::Frame { version: 0x2f, flags: 255, ..bare.clone() }, "2 0 0");
    t.frame("major version 1", 0, &builder::Frame { version: 0x10, ..bare.clone() }, "1 0 0 0");
    t.frame("27 octets", 0, &builder::Frame { cut: Some(27), ..bare.clone() }, "1 0 0 0");
    t.frame("length 29", 0, &builder::Frame { skew: 1, ..bare.clone() }, "1 0 0 0");
    t.frame("a 29th octet, and length 29", 0, &builder::Frame { tail: vec![0], ..bare.clone() }, "1 0 0 0");
    t.frame("a payload named that is not there", 0, &builder::Frame { first: Some(51), ..bare.clone() }, "1 0 0 0");
    t.frame("GSA_AUTH with neither GSA nor KD", 0, &builder::Frame { exchange: 39, ..bare.clone() }, "4 0 0");
    t.frame("GSA_REKEY to a member without a Rekey SA", 0, &builder::Frame { exchange: 41, ..bare.clone() }, "2 0 0");
    t.frame("GSA_INBAND_REKEY to a new member", 0, &builder::Frame { exchange: 42, ..bare }, "2 0 0");
    t
}

fn registration_run() -> Transcript {
    let mut t = Transcript::new("registration", LENT);
    let sas = [rekey_sa(0xa0, &[(5, key(5))]), esp(1, &lent()), esp(2, &lent())];
    let frame = registration(&sas, &[entry(9, 9, 0, &lent()), entry(5, 5, 9, &key(9))]);
    t.frame("Rekey SA under key 5, two ESP SAs, keys 9 and 5: the path is 5, 9", 0, &frame, "0 3 2");
    let (one, two, a0) = (esp_text(1, "live"), esp_text(2, "live"), rekey_text(0xa0, "live"));
    let held = [held_text(5, &key(5)), held_text(9, &key(9))];
    t.then(&[[one.clone(), two.clone(), a0.clone()].as_slice(), &held, &[least(0)]].concat());
    t.frame("a second registration", 0, &frame, "2 3 2");
    t.frame("a second registration, by GSA_REGISTRATION", 9, &builder::Frame { exchange: GSA_REGISTRATION, ..frame }, "2 3 2");
    t.frame("the first rekey", 0, &rekey(0xa0, 0, announce(&[esp(3, &default_key(0xa0))])), "0 4 2");
    t.then(&[[one, two, esp_text(3, "live"), a0].as_slice(), &held, &[least(1)]].concat());
    t
}

fn without_rekey_sa() -> Transcript {
    let mut t = Transcript::new("registration-without-rekey-sa", LENT);
    let mut frame = registration(&[esp(1, &lent())], &[entry(9, 9, 0, &lent())]);
    frame.exchange = GSA_REGISTRATION;
    t.frame("one ESP SA, one key, no Rekey SA: the key is reached and not held", 0, &frame, "0 1 0");
    t.then(&[esp_text(1, "live"), least(0)]);
    t.frame("a rekey, over no Rekey SA", 0, &rekey(0xa0, 0, announce(&[esp(2, &lent())])), "2 1 0");
    t.frame("a rekey over SPIs of zero", 0, &rekey(0, 0, announce(&[esp(2, &lent())])), "2 1 0");
    t.frame("a second registration", 0, &frame, "2 1 0");
    t
}

fn chains_in_any_order() -> Transcript {
    let mut t = Transcript::new("chains", LENT);
    let sas = [rekey_sa(0xa0, &[(5, key(5))])];
    let two_values = [entry(5, 5, 0, &lent()), entry(5, 6, 9, &key(9)), entry(9, 9, 0, &lent())];
    t.frame("two values for 5 from two chains", 0, &registration(&sas, &two_values), "8 0 0");
    let cycle = [entry(5, 5, 9, &key(9)), entry(9, 9, 5, &key(5))];
    t.frame("5 under 9, 9 under 5, the Rekey SA's key under 5: document 02's sample", 0, &registration(&sas, &cycle), "9 0 0");
    let backwards = [entry(5, 5, 9, &key(9)), entry(9, 9, 0, &lent())];
    t.frame("5 under 9, 9 under the default key: document 02's sample, held 5, 9", 0, &registration(&sas, &backwards), "0 1 2");
    t.then(&[rekey_text(0xa0, "live"), held_text(5, &key(5)), held_text(9, &key(9)), least(0)]);
    t
}

fn chains_in_a_cycle() -> Transcript {
    let mut t = Transcript::new("chains-cycle", LENT);
    let sas = [rekey_sa(0xa0, &[(0, lent())])];
    let short = Attribute::key(4, 0, &wrap(&lent(), &[4; 24]));
    t.frame("a key of 24 octets where the default key has 16", 0, &registration(&sas, &[short]), "8 0 0");
    let damaged = Attribute::key(4, 0, &[4; 24]);
    let cycle = [entry(5, 5, 9, &key(9)), entry(9, 9, 5, &key(5)), damaged];
    t.frame("5 under 9, 9 under 5, and an entry that does not open: nothing is reached", 0, &registration(&sas, &cycle), "0 1 0");
    t.then(&[rekey_text(0xa0, "live"), least(0)]);
    t
}

fn rekeys() -> Transcript {
    let mut t = Transcript::new("rekeys", LENT);
    let mut sa = rekey_sa(0xa0, &[(0, lent())]);
    sa.policy.attributes = vec![initial_message_id(7)];
    let (a0, b0) = (default_key(0xa0), default_key(0xb0));
    let esps = |count: u32, rest: &[String]| [(1..=count).map(|n| esp_text(n, "live")).collect(), rest.to_vec()].concat();
    let (live, last, new) = (rekey_text(0xa0, "live"), rekey_text(0xa0, "retiring 1000 10"), rekey_text(0xb0, "live"));
    t.frame("Rekey SA a0, initial Message ID 7", 0, &registration(&[sa], &[]), "0 1 0");
    t.then(&[live.clone(), least(7)]);
    t.frame("Message ID 6", 0, &rekey(0xa0, 6, announce(&[esp(1, &a0)])), "3 1 0");
    t.frame("Message ID 7: ESP SA 1", 0, &rekey(0xa0, 7, announce(&[esp(1, &a0)])), "0 2 0");
    t.then(&esps(1, &[live.clone(), least(8)]));
    t.frame("Message ID 9: ESP SA 2", 0, &rekey(0xa0, 9, announce(&[esp(2, &a0)])), "0 3 0");
    t.then(&esps(2, &[live, least(10)]));
    t.frame("Message ID 9 again", 0, &rekey(0xa0, 9, announce(&[esp(3, &a0)])), "3 3 0");
    let b = announce_with_delay(&[rekey_sa(0xb0, &[(0, a0.clone())])], 10);
    t.frame("the last Message ID, with a new Rekey SA b0; a0 retires for 10 s", 1000, &rekey(0xa0, u32::MAX, b), "0 4 0");
    t.then(&esps(2, &[last.clone(), new.clone(), least(0)]));
    t.frame("a rekey over the retiring a0", 1000, &rekey(0xa0, 10, announce(&[esp(3, &a0)])), "2 4 0");
    t.frame("over b0, wrapped under a0's default key", 1000, &rekey(0xb0, 0, announce(&[esp(3, &a0)])), "9 4 0");
    t.frame("over b0 from Message ID 0: ESP SA 3, 9,999 ms later", 10_999, &rekey(0xb0, 0, announce(&[esp(3, &b0)])), "0 5 0");
    t.then(&esps(3, &[last, new.clone(), least(1)]));
    t.frame("10,000 ms later a0 is due and goes, ESP SA 4 comes", 11_000, &rekey(0xb0, 1, announce(&[esp(4, &b0)])), "0 5 0");
    t.then(&esps(4, &[new.clone(), least(2)]));
    t.frame("the last Message ID, no new Rekey SA", 11_000, &rekey(0xb0, u32::MAX, announce(&[esp(5, &b0)])), "0 6 0");
    t.then(&esps(5, &[new, "least none".to_string()]));
    for message_id in [0, 2, u32::MAX] {
        t.frame("no Message ID is acceptable any more", 11_000, &rekey(0xb0, message_id, announce(&[esp(6, &b0)])), "3 6 0");
    }
    t
}

fn deletes() -> Transcript {
    let mut t = Transcript::new("deletes", LENT);
    let sas = [rekey_sa(0xa0, &[(0, lent())]), esp(1, &lent()), esp(2, &lent()), esp(3, &lent()), esp(4, &lent())];
    t.frame("Rekey SA a0, ESP SAs 1 to 4", 0, &registration(&sas, &[]), "0 5 0");
    let a0 = default_key(0xa0);
    let more = |number: u32, delay: u16, deleted: &[Vec<u8>]| {
        [announce_with_delay(&[esp(number, &a0)], delay), vec![delete(deleted)]].concat()
    };
    let nothing = || vec![delete(&[spi(77)])];
    t.frame("delete 1: it retires without delay and stays", 100, &rekey(0xa0, 0, vec![delete(&[spi(1)])]), "0 5 0");
    t.frame("a refused frame removes nothing", 100, &rekey(0xa0, 1, vec![]), "4 5 0");
    t.frame("the next accepted frame removes 1; 5 comes", 100, &rekey(0xa0, 1, announce(&[esp(5, &a0)])), "0 5 0");
    let deleted = [spi(2), spi(99), spi(2), spi(6)];
    t.frame("2 retires for 3 s; 99 is unknown, and so is 6, which comes", 200, &rekey(0xa0, 2, more(6, 3, &deleted)), "0 6 0");
    t.frame("SPI 0: 3 to 6 retire for 100 s, 2 keeps its time; 7 comes", 1200, &rekey(0xa0, 3, more(7, 100, &[spi(0)])), "0 7 0");
    t.frame("2 is still in the table", 3199, &rekey(0xa0, 4, announce(&[esp(2, &a0)])), "6 7 0");
    t.frame("2,999 ms: 2 is not due", 3199, &rekey(0xa0, 4, nothing()), "0 7 0");
    t.frame("3,000 ms: 2 is due and may come anew", 3200, &rekey(0xa0, 5, announce(&[esp(2, &a0)])), "0 7 0");
    t.frame("99,999 ms: 3 to 6 are not due", 101_199, &rekey(0xa0, 6, nothing()), "0 7 0");
    t.frame("100,000 ms: they go; a0, 2 and 7 stay", 101_200, &rekey(0xa0, 7, nothing()), "0 3 0");
    t
}

fn clock() -> Transcript {
    let mut t = Transcript::new("clock", LENT);
    let sas = [rekey_sa(0xa0, &[(0, lent())]), esp(1, &lent())];
    t.frame("Rekey SA a0, ESP SA 1", 4_294_966_000, &registration(&sas, &[]), "0 2 0");
    let a0 = default_key(0xa0);
    let replace = |new: u32, old: u32| [announce_with_delay(&[esp(new, &a0)], 1), vec![delete(&[spi(old)])]].concat();
    let nothing = || vec![delete(&[spi(77)])];
    t.frame("1 retires for 1 s at 4,294,967,000; 2 comes", 4_294_967_000, &rekey(0xa0, 0, replace(2, 1)), "0 3 0");
    t.frame("at 703 it is not due", 703, &rekey(0xa0, 1, nothing()), "0 3 0");
    t.frame("at 704 it is", 704, &rekey(0xa0, 2, nothing()), "0 2 0");
    t.frame("2 retires for 1 s at 2,000; 3 comes", 2000, &rekey(0xa0, 3, replace(3, 2)), "0 3 0");
    t.frame("at 3,000 it is due, but the frame is refused", 3000, &rekey(0xa0, 0, nothing()), "3 3 0");
    t.frame("at 2,999 it is not due", 2999, &rekey(0xa0, 4, nothing()), "0 3 0");
    t.frame("at 2,000, its own start, it is not due", 2000, &rekey(0xa0, 5, nothing()), "0 3 0");
    t.frame("at 1,999 nearly a whole round has gone by", 1999, &rekey(0xa0, 6, nothing()), "0 2 0");
    t
}

fn held_keys() -> Transcript {
    let mut t = Transcript::new("held-keys", LENT);
    let entries = [entry(7, 7, 5, &key(5)), entry(5, 5, 9, &key(9)), entry(9, 9, 0, &lent())];
    let first = registration(&[rekey_sa(0xa0, &[(7, key(7))])], &entries);
    t.frame("keys 9, 5 and 7 in a chain, Rekey SA a0 under the last: all are held", 0, &first, "0 1 3");
    let new = |fill: u8, under: &[(u32, u8)]| {
        let under: Vec<_> = under.iter().map(|(id, fill)| (*id, key(*fill))).collect();
        announce(&[rekey_sa(fill, &under)])
    };
    t.frame("Rekey SA b0 under 7; a0 retires", 0, &rekey(0xa0, 0, new(0xb0, &[(7, 7)])), "0 2 3");
    t.frame(
        "Rekey SA b1 under an unknown key and under 5; a0 goes",
        0,
        &rekey(0xb0, 0, new(0xb1, &[(1000, 5), (5, 5)])),
        "0 2 3",
    );
    t.frame("under 5, but wrapped under 9's value", 0, &rekey(0xb1, 0, new(0xc0, &[(5, 9)])), "9 2 3");
    let mut two = rekey_sa(0xc0, &[(5, key(5))]);
    two.bag.attributes.push(Attribute::key(0, 9, &wrap(&key(9), &rekey_keying(0xc1, 36))));
    t.frame("two values under 5 and 9", 0, &rekey(0xb1, 0, announce(&[two])), "8 2 3");
    t.frame("an ESP key under the lent default key", 0, &rekey(0xb1, 0, announce(&[esp(1, &lent())])), "9 2 3");
    t.frame("under b1's; b0 goes", 0, &rekey(0xb1, 0, announce(&[esp(1, &default_key(0xb1))])), "0 2 3");
    t.frame("Rekey SA c0 under 9 and 7, the same value", 0, &rekey(0xb1, 1, new(0xc0, &[(9, 9), (7, 7)])), "0 3 3");
    t
}

/// 44 keying octets are 20 + 24 or 28 + 16: the policy says which.
fn cut(name: &'static str, bits: u16, wrap_id: u16, first: usize) -> Transcript {
    let mut t = Transcript::new(name, LENT);
    let (spi, keying) = (rekey_spi(0xa0), rekey_keying(0xa0, 44));
    let copy = Attribute::key(0, 0, &wrap(&lent(), &keying));
    let sa = Sa { policy: rekey_policy(&spi, bits, wrap_id), bag: bag(REKEY, &spi, vec![copy]) };
    t.frame("Rekey SA a0 with 44 keying octets", 0, &registration(&[sa], &[]), "0 1 0");
    let a0 = rekey_text_of(0xa0, &keying, first, "live");
    t.then(&[a0.clone(), least(0)]);
    let other = if first == 20 { 28 } else { 20 };
    t.frame("an ESP key under the other cut's key wrap part", 0, &rekey(0xa0, 0, announce(&[esp(1, &keying[other..])])), "9 1 0");
    t.frame("under the right one", 0, &rekey(0xa0, 0, announce(&[esp(1, &keying[first..])])), "0 2 0");
    t.then(&[esp_text(1, "live"), a0, least(1)]);
    t
}

/// Number 7 from both sides: document 02's figures (T-01), and document 01's for deleted SPIs and SA_KEY.
fn limits() -> Transcript {
    let mut t = Transcript::new("limits", LENT);
    let sas = [rekey_sa(0xa0, &[(128, key(128))])];
    let kwk = |id: u32| if id == 0 { lent() } else { key(id as u8) };
    let entries: Vec<Attribute> = (1..=129).map(|id| entry(id, id as u8, id - 1, &kwk(id - 1))).collect();
    t.frame("129 WRAP_KEY", 0, &registration(&sas, &entries), "7 0 0");
    t.frame("128 WRAP_KEY, each under the one before: all are held", 0, &registration(&sas, &entries[..128]), "0 1 128");
    let a0 = default_key(0xa0);
    let esps = |numbers: std::ops::Range<u32>| announce(&numbers.map(|number| esp(number, &a0)).collect::<Vec<_>>());
    t.frame("25 ESP policies", 0, &rekey(0xa0, 0, esps(1..26)), "7 1 128");
    t.frame("24 ESP policies", 0, &rekey(0xa0, 0, esps(1..25)), "0 25 128");
    t.frame("24 more", 0, &rekey(0xa0, 1, esps(25..49)), "0 49 128");
    t.frame("16 more would be 65 SAs", 0, &rekey(0xa0, 2, esps(49..65)), "7 49 128");
    t.frame("15 more are 64", 0, &rekey(0xa0, 2, esps(49..64)), "0 64 128");
    t.frame("33 deleted SPIs", 50, &rekey(0xa0, 3, vec![delete(&vec![spi(77); 33])]), "7 64 128");
    t.frame(
        "33 deleted SPIs in two payloads",
        50,
        &rekey(0xa0, 3, vec![delete(&vec![spi(77); 32]), delete(&[spi(1)])]),
        "7 64 128",
    );
    let deleted = [vec![spi(77); 31], vec![spi(1)]].concat();
    t.frame("32 deleted SPIs, of which 1 retires without delay", 50, &rekey(0xa0, 3, vec![delete(&deleted)]), "0 64 128");
    t.frame("64 SAs, one due: two more do not fit", 50, &rekey(0xa0, 4, esps(101..103)), "7 64 128");
    t.frame("one more fits", 50, &rekey(0xa0, 4, esps(101..102)), "0 64 128");
    t.frame("all ESP SAs retire", 50, &rekey(0xa0, 5, vec![delete(&[spi(0)])]), "0 64 128");
    let copies = |count: usize| announce(&[rekey_sa(0xb0, &vec![(0, a0.clone()); count])]);
    t.frame("33 SA_KEY in a bag", 50, &rekey(0xa0, 6, copies(33)), "7 64 128");
    t.frame("32 SA_KEY; the ESP SAs go, a0 retires", 50, &rekey(0xa0, 6, copies(32)), "0 2 128");
    t
}

fn lines() -> Transcript {
    let mut t = Transcript::new("lines", LENT);
    t.line("no digits", b"", "bad");
    t.line("7 digits", b"0000000", "bad");
    t.line("8 digits: an empty frame", b"ffffffff", "1 0 0 0");
    t.line("an odd count", b"000000000", "bad");
    t.line("a carriage return", b"0000000000\r", "bad");
    t.line("NUL", b"00000000\x00\x00", "bad");
    t.line("octets above 127", b"00000000\xc3\xa9", "bad");
    t.line("0x", b"0x0000000000", "bad");
    t.line("32,777 digits", &[b'0'; 32_777], "bad");
    t.line("32,778 digits", &[b'0'; 32_778], "bad");
    let mut frame = first_registration();
    let filler = vec![0x5a; 16_384 - 4 - frame.octets().len()];
    frame.payloads.push(Payload::new(NOTIFY, Body::Plain(filler)));
    t.frame("a registration of 16,384 octets", 0, &frame, "0 1 0");
    t
}

/// A first line that gives no fit key.
fn odd_key(name: &'static str, first_line: &str) -> Transcript {
    let mut t = Transcript::new(name, first_line);
    t.frame("a registration with a default key of another size than 16, 24 or 32", 0, &first_registration(), "5 0 0");
    let two = [first_registration().payloads, vec![gsa(vec![])]].concat();
    t.frame("two GSA, which is the lower number", 0, &frame(GSA_AUTH, &[0; 16], 0, two), "4 0 0");
    let itself = registration(&[rekey_sa(0xa0, &[(0, lent())])], &[entry(5, 5, 5, &key(5))]);
    t.frame("a WRAP_KEY under its own Key ID, which is a higher number", 0, &itself, "5 0 0");
    t
}

/// A default key of 24 or 32 octets: the wrapping keys have its size.
fn other_key(name: &'static str, size: usize) -> Transcript {
    let key: Vec<u8> = (0..size as u8).map(|i| i ^ 0x55).collect();
    let mut t = Transcript::new(name, &text(&key));
    let tree = |count: usize| {
        vec![Attribute::key(3, 0, &wrap(&key, &vec![3; count])), Attribute::key(2, 3, &wrap(&vec![3; size], &vec![2; size]))]
    };
    let sa = rekey_sa(0xa0, &[(2, vec![2; size])]);
    let with = |entries: Vec<Attribute>| {
        let bags = vec![Part::unnamed(entries), sa.bag.clone()];
        frame(GSA_REGISTRATION, &[7; 16], 9, vec![kd(bags), gsa(vec![sa.policy.clone()])])
    };
    t.frame("a wrapping key of 16 octets", 0, &with(tree(16)), "8 0 0");
    t.frame("wrapping keys as long as the default key", 0, &with(tree(size)), "0 1 2");
    t.then(&[rekey_text(0xa0, "live"), held_text(2, &vec![2; size]), held_text(3, &vec![3; size]), least(0)]);
    t
}
