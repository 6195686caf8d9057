//! Rekeys over the member's own channel: GSA_INBAND_REKEY (document 02, T-02).

use crate::parts::*;
use crate::Transcript;
use builder::typical::*;
use builder::{Attribute, Frame, Part, Payload};

pub fn all() -> Vec<Transcript> {
    vec![accepted(), refused(), without_rekey_sa(), lent_keys()]
}

/// One whose SPIs no SA has.
pub fn inband(payloads: Vec<Payload>) -> Frame {
    frame(GSA_INBAND_REKEY, &[0; 16], 0, payloads)
}

/// Rekey SA a0 under key 9, which is then held.
fn first() -> Frame {
    registration(&[rekey_sa(0xa0, &[(9, key(9))])], &[entry(9, 9, 0, &lent())])
}

/// The member with ESP SAs 1 to `esps`, these lines for its Rekey SAs, key 9, and that least Message ID.
fn member(esps: u32, rekeys: &[String], least: &str) -> Vec<String> {
    let esps = (1..=esps).map(|number| esp_text(number, "live"));
    esps.chain(rekeys.iter().cloned()).chain([held_text(9, &key(9)), format!("least {least}")]).collect()
}

/// A GSA_REKEY that brings an ESP SA.
fn over(fill: u8, id: u32, number: u32) -> Frame {
    rekey(fill, id, announce(&[esp(number, &default_key(fill))]))
}

fn accepted() -> Transcript {
    let mut t = Transcript::new("inband", LENT);
    let esp = |number| announce(&[esp(number, &lent())]);
    let live = |fill| rekey_text(fill, "live");
    t.frame("Rekey SA a0 under key 9", 0, &first(), "0 1 1");
    t.then(&member(0, &[live(0xa0)], "0"));
    t.frame("an ESP SA under the lent key", 0, &inband(esp(1)), "0 2 1");
    t.then(&member(1, &[live(0xa0)], "0"));
    t.frame("the SPIs of a0, the last Message ID", 0, &frame(GSA_INBAND_REKEY, &rekey_spi(0xa0), u32::MAX, esp(2)), "0 3 1");
    t.then(&member(2, &[live(0xa0)], "0"));
    t.frame("GSA_REKEY over a0: the least Message ID stayed 0", 0, &over(0xa0, 0, 3), "0 4 1");
    t.then(&member(3, &[live(0xa0)], "1"));
    let b0 = announce_with_delay(&[rekey_sa(0xb0, &[(0, lent())])], 2);
    t.frame("Rekey SA b0: a0 retires for 2 seconds", 0, &inband(b0), "0 5 1");
    let a0 = rekey_text(0xa0, "retiring 0 2");
    t.then(&member(3, &[a0.clone(), live(0xb0)], "0"));
    t.frame("GSA_REKEY over a0", 0, &over(0xa0, 1, 4), "2 5 1");
    t.frame("GSA_REKEY over b0 with Message ID 0", 0, &over(0xb0, 0, 4), "0 6 1");
    t.then(&member(4, &[a0.clone(), live(0xb0)], "1"));
    let c0 = announce(&[rekey_sa(0xc0, &[(9, key(9))])]);
    t.frame("the held key 9 still serves a GSA_REKEY", 0, &rekey(0xb0, 1, c0), "0 7 1");
    t.then(&member(4, &[a0, rekey_text(0xb0, "retiring 0 0"), live(0xc0)], "0"));
    let mut d0 = rekey_sa(0xd0, &[(0, lent())]);
    d0.policy.attributes = vec![initial_message_id(7)];
    t.frame("Rekey SA d0, initial Message ID 7: a0 and b0 are due", 2000, &inband(announce(&[d0])), "0 6 1");
    t.then(&member(4, &[rekey_text(0xc0, "retiring 2000 0"), live(0xd0)], "7"));
    t.frame("GSA_REKEY over d0 with Message ID 6", 2000, &over(0xd0, 6, 5), "3 6 1");
    t.frame("GSA_REKEY over d0 with Message ID 7: c0 is due", 2000, &over(0xd0, 7, 5), "0 6 1");
    t.then(&member(5, &[live(0xd0)], "8"));
    t.frame("the last Message ID over d0", 2000, &over(0xd0, u32::MAX, 6), "0 7 1");
    t.then(&member(6, &[live(0xd0)], "none"));
    t.frame("none is acceptable any more", 2000, &over(0xd0, u32::MAX, 7), "3 7 1");
    t.frame("over the own channel it is not asked", 2000, &inband(esp(7)), "0 8 1");
    t.then(&member(7, &[live(0xd0)], "none"));
    t.frame("none is acceptable still", 2000, &over(0xd0, 8, 8), "3 8 1");
    t.frame("a new Rekey SA e0", 2000, &inband(announce(&[rekey_sa(0xe0, &[(0, lent())])])), "0 9 1");
    t.then(&member(7, &[rekey_text(0xd0, "retiring 2000 0"), live(0xe0)], "0"));
    t.frame("GSA_REKEY over e0 with Message ID 0: d0 is due", 2000, &over(0xe0, 0, 8), "0 9 1");
    t.then(&member(8, &[live(0xe0)], "1"));
    t
}

fn refused() -> Transcript {
    let mut t = Transcript::new("inband-refused", LENT);
    let fit = || announce(&[esp(1, &lent())]);
    let copies = |under: &[(u32, Vec<u8>)]| inband(announce(&[rekey_sa(0xb0, under)]));
    let with_bag = |entries: Vec<Attribute>| {
        let sa = esp(1, &lent());
        inband(vec![gsa(vec![sa.policy]), kd(vec![Part::unnamed(entries), sa.bag])])
    };
    t.frame("of a new member", 0, &inband(fit()), "2 0 0");
    t.frame("of a new member, with nothing in it", 0, &inband(vec![]), "2 0 0");
    t.frame("Rekey SA a0 under key 9", 0, &first(), "0 1 1");
    t.then(&member(0, &[rekey_text(0xa0, "live")], "0"));
    t.frame("a Member bag", 0, &with_bag(vec![entry(5, 5, 0, &lent())]), "4 1 1");
    t.frame("an empty Member bag", 0, &with_bag(vec![]), "4 1 1");
    t.frame("D beside GSA and KD", 0, &inband([fit(), vec![delete(&[spi(1)])]].concat()), "4 1 1");
    t.frame("D alone", 0, &inband(vec![delete(&[spi(1)])]), "4 1 1");
    t.frame("neither GSA nor KD", 0, &inband(vec![]), "4 1 1");
    let mut policy = rekey_sa(0xb0, &[(0, lent())]);
    policy.policy.transforms.retain(|transform| transform.kind != 14);
    t.frame("a Rekey policy without controller authentication", 0, &inband(announce(&[policy])), "5 1 1");
    t.frame("two copies of a Rekey SA's key", 0, &copies(&[(0, lent()), (0, lent())]), "6 1 1");
    t.frame("no copy of it", 0, &copies(&[]), "6 1 1");
    t.frame("the SPI of the live Rekey SA", 0, &inband(announce(&[rekey_sa(0xa0, &[(0, lent())])])), "6 1 1");
    t.frame("a copy under the held key 9", 0, &copies(&[(9, key(9))]), "9 1 1");
    t.frame("a copy under the lent key by KWK ID 9", 0, &copies(&[(9, lent())]), "9 1 1");
    t.frame("a copy under a0's default key", 0, &copies(&[(0, default_key(0xa0))]), "9 1 1");
    t.frame("an ESP key under a0's default key", 0, &inband(announce(&[esp(1, &default_key(0xa0))])), "9 1 1");
    t.frame("as it should be", 0, &inband(fit()), "0 2 1");
    t.then(&member(1, &[rekey_text(0xa0, "live")], "0"));
    t.frame("the same once more", 0, &inband(fit()), "6 2 1");
    t
}

fn without_rekey_sa() -> Transcript {
    let mut t = Transcript::new("inband-without-rekey-sa", LENT);
    let esps = |count: u32| -> Vec<String> { (1..=count).map(|number| esp_text(number, "live")).collect() };
    let a0 = |id: u32| vec![rekey_text(0xa0, "live"), least(id)];
    t.frame("one ESP SA", 0, &registration(&[esp(1, &lent())], &[]), "0 1 0");
    t.then(&[esps(1), vec![least(0)]].concat());
    t.frame("another", 0, &inband(announce(&[esp(2, &lent())])), "0 2 0");
    t.then(&[esps(2), vec![least(0)]].concat());
    t.frame("GSA_REKEY over no Rekey SA", 0, &over(0xa0, 0, 3), "2 2 0");
    t.frame("the first Rekey SA", 0, &inband(announce(&[rekey_sa(0xa0, &[(0, lent())])])), "0 3 0");
    t.then(&[esps(2), a0(0)].concat());
    t.frame("GSA_REKEY over it", 0, &over(0xa0, 0, 3), "0 4 0");
    t.then(&[esps(3), a0(1)].concat());
    t
}

/// The lent key of each line is the one that counts, by its size and by its octets.
fn lent_keys() -> Transcript {
    let mut t = Transcript::of_calls("inband-lent-keys", LENT);
    let lend = |t: &mut Transcript, about: &str, octets: &[u8]| t.line(about, format!("k{}", text(octets)).as_bytes(), "done");
    let under = |number: u32, key0: &[u8]| inband(announce(&[esp(number, key0)]));
    t.frame("Rekey SA a0 under key 9", 0, &first(), "answer 0");
    t.then(&member(0, &[rekey_text(0xa0, "live")], "0"));
    for (number, size) in [(1, 24), (2, 32), (3, 16)] {
        let other = vec![0x50 + size as u8; size];
        lend(&mut t, "another lent key", &other);
        t.frame("an ESP SA under the key of the registration", 0, &under(number, &lent()), "answer 9");
        t.frame("under the key that is lent now", 0, &under(number, &other), "answer 0");
        t.then(&member(number, &[rekey_text(0xa0, "live")], "0"));
    }
    for size in [0, 15, 20, 28, 33] {
        lend(&mut t, "a key of no fit size", &vec![1; size]);
        t.frame("an ESP SA", 0, &under(4, &lent()), "answer 5");
    }
    t.frame("GSA_REKEY over a0 does not read it", 0, &over(0xa0, 0, 4), "answer 0");
    t.then(&member(4, &[rekey_text(0xa0, "live")], "1"));
    t.line("leaving", b"l", "done");
    t.then(&[least(0)]);
    t.frame("over the own channel of a new member", 0, &under(5, &lent()), "answer 2");
    t
}
