//! SAs that run out (document 02, T-07), and what is refused of lifetimes.

use crate::inband::inband;
use crate::parts::*;
use crate::Transcript;
use builder::typical::*;
use builder::{Attribute, Body, Frame, Part, Payload, AH};

pub fn all() -> Vec<Transcript> {
    vec![lifetimes(), renewed(), over_the_own_channel(), refused(), asked()]
}

/// The SA with a lifetime of so many seconds.
pub fn for_seconds(mut sa: Sa, seconds: u32) -> Sa {
    sa.policy.attributes.push(lifetime(seconds));
    sa
}

/// The line of `trace` for an SA with a lifetime.
pub fn lived(text: String, start: u32, seconds: u32) -> String {
    text.replace("life none", &format!("life {start} {seconds}"))
}

/// A frame that changes nothing but takes what is due out of the table.
fn nothing() -> Vec<Payload> {
    vec![delete(&[spi(77)])]
}

/// SAs that enter with a lifetime, are due and go; retiring ones by whichever comes first.
fn lifetimes() -> Transcript {
    let mut t = Transcript::new("lifetimes", LENT);
    let a0 = default_key(0xa0);
    let live = |number: u32| esp_text(number, "live");
    let rekey_line = lived(rekey_text(0xa0, "live"), 4_294_966_000, 2_000_000);
    let member = |esps: &[String], id: u32| [esps, &[rekey_line.clone(), least(id)]].concat();
    let longest = for_seconds(rekey_sa(0xa0, &[(0, lent())]), 2_000_000);
    t.frame(
        "Rekey SA a0 for 2,000,000 s, ESP SA 1 without a lifetime",
        4_294_966_000,
        &registration(&[longest, esp(1, &lent())], &[]),
        "0 2 0",
    );
    t.then(&member(&[live(1)], 0));
    let second = for_seconds(esp(2, &a0), 1);
    t.frame("ESP SA 2 for 1 s", 4_294_967_000, &rekey(0xa0, 0, announce(&[second])), "0 3 0");
    let two = lived(live(2), 4_294_967_000, 1);
    t.then(&member(&[live(1), two.clone()], 1));
    t.frame("at 703 it is in the table", 703, &rekey(0xa0, 1, announce(&[esp(2, &a0)])), "6 3 0");
    t.frame("and is not due", 703, &rekey(0xa0, 1, nothing()), "0 3 0");
    t.then(&member(&[live(1), two], 2));
    t.frame("at 704 it is due; a refused frame removes nothing", 704, &rekey(0xa0, 1, nothing()), "3 3 0");
    t.frame("it goes, and another 2 comes, without a lifetime", 704, &rekey(0xa0, 2, announce(&[esp(2, &a0)])), "0 3 0");
    t.then(&member(&[live(1), live(2)], 3));
    let at_once = for_seconds(esp(3, &a0), 0);
    t.frame("ESP SA 3 for 0 s enters", 1000, &rekey(0xa0, 3, announce(&[at_once])), "0 4 0");
    t.then(&member(&[live(1), live(2), lived(live(3), 1000, 0)], 4));
    t.frame("it was due at once, and goes", 1000, &rekey(0xa0, 4, nothing()), "0 3 0");
    t.then(&member(&[live(1), live(2)], 5));
    let both = announce(&[for_seconds(esp(4, &a0), 3), for_seconds(esp(5, &a0), 9)]);
    t.frame("ESP SAs 4 for 3 s and 5 for 9 s", 2000, &rekey(0xa0, 5, both), "0 5 0");
    t.then(&member(&[live(1), live(2), lived(live(4), 2000, 3), lived(live(5), 2000, 9)], 6));
    let deletes = [announce_with_delay(&[esp(6, &a0)], 5), vec![delete(&[spi(4), spi(5)])]].concat();
    t.frame("both retire for 5 s and keep their lifetimes; 6 comes", 3000, &rekey(0xa0, 6, deletes), "0 6 0");
    let retiring = |number: u32, seconds: u32| lived(esp_text(number, "retiring 3000 5"), 2000, seconds);
    t.then(&member(&[live(1), live(2), retiring(4, 3), retiring(5, 9), live(6)], 7));
    t.frame("2,999 ms of 4's lifetime", 4999, &rekey(0xa0, 7, nothing()), "0 6 0");
    t.then(&member(&[live(1), live(2), retiring(4, 3), retiring(5, 9), live(6)], 8));
    t.frame("3,000 ms: 4 goes by its lifetime", 5000, &rekey(0xa0, 8, nothing()), "0 5 0");
    t.then(&member(&[live(1), live(2), retiring(5, 9), live(6)], 9));
    t.frame("4,999 ms of 5's delay", 7999, &rekey(0xa0, 9, nothing()), "0 5 0");
    t.then(&member(&[live(1), live(2), retiring(5, 9), live(6)], 10));
    t.frame("5,000 ms: 5 goes by its delay", 8000, &rekey(0xa0, 10, nothing()), "0 4 0");
    t.then(&member(&[live(1), live(2), live(6)], 11));
    t
}

/// A Rekey SA that runs out takes no rekey; a member whose SAs all ran out registers anew.
fn renewed() -> Transcript {
    let mut t = Transcript::new("lifetimes-renewed", LENT);
    let (a0, first) = (default_key(0xa0), registration(&[rekey_sa(0xa0, &[(0, lent())]), esp(1, &lent())], &[]));
    t.frame("Rekey SA a0, ESP SA 1", 0, &first, "0 2 0");
    t.then(&[esp_text(1, "live"), rekey_text(0xa0, "live"), least(0)]);
    let b0 = announce(&[for_seconds(rekey_sa(0xb0, &[(0, a0)]), 2)]);
    t.frame("b0 for 2 s; a0 and 1 retire", 9000, &rekey(0xa0, 0, [b0, vec![delete(&[spi(0)])]].concat()), "0 3 0");
    let (old, one) = (rekey_text(0xa0, "retiring 9000 0"), esp_text(1, "retiring 9000 0"));
    let new = lived(rekey_text(0xb0, "live"), 9000, 2);
    t.then(&[one, old, new.clone(), least(0)]);
    t.frame("1,999 ms of b0's lifetime; a0 and 1 go", 10_999, &rekey(0xb0, 0, nothing()), "0 1 0");
    t.then(&[new, least(1)]);
    t.frame("a registration: b0 has not run out", 10_999, &first, "2 1 0");
    t.frame("2,000 ms: a rekey over b0", 11_000, &rekey(0xb0, 1, nothing()), "2 1 0");
    t.frame("its Message ID below the least is not looked at", 11_000, &rekey(0xb0, 0, nothing()), "2 1 0");
    t.frame("nor a payload that is critical and unknown", 11_000, &rekey(0xb0, 1, vec![critical()]), "2 1 0");
    let sas = [for_seconds(rekey_sa(0xb0, &[(9, key(9))]), 1), for_seconds(esp(1, &lent()), 1)];
    let again = registration(&sas, &[entry(9, 9, 0, &lent())]);
    t.frame("registered anew, with b0 and 1 for 1 s and key 9; the old b0 goes", 11_000, &again, "0 2 1");
    let anew = |tick: u32| [lived(esp_text(1, "live"), tick, 1), lived(rekey_text(0xb0, "live"), tick, 1)].to_vec();
    t.then(&[anew(11_000), vec![held_text(9, &key(9)), least(0)]].concat());
    t.frame("over the new b0", 11_999, &rekey(0xb0, 41, nothing()), "0 2 1");
    t.then(&[anew(11_000), vec![held_text(9, &key(9)), least(42)]].concat());
    t.frame("both ran out: a rekey", 12_000, &rekey(0xb0, 42, nothing()), "2 2 1");
    t.frame("the same registration once more", 12_000, &again, "0 2 1");
    t.then(&[anew(12_000), vec![held_text(9, &key(9)), least(0)]].concat());
    t.frame("at 11,999 nearly a whole round has gone by", 11_999, &rekey(0xb0, 0, nothing()), "2 2 1");
    let mixed = [for_seconds(rekey_sa(0xa0, &[(0, lent())]), 2_000_000), esp(1, &lent())];
    t.frame("a0 for 2,000,000 s, 1 without a lifetime, no key", 11_999, &registration(&mixed, &[]), "0 2 0");
    let longest = |id: u32| [esp_text(1, "live"), lived(rekey_text(0xa0, "live"), 11_999, 2_000_000), least(id)];
    t.then(&longest(0));
    t.frame("1,999,999,999 ms", 2_000_011_998, &rekey(0xa0, 0, nothing()), "0 2 0");
    t.then(&longest(1));
    t.frame("2,000,000,000 ms: a0 has run out", 2_000_011_999, &rekey(0xa0, 1, nothing()), "2 2 0");
    t.frame("a registration: 1 has not", 2_000_011_999, &first, "2 2 0");
    t.frame("a whole round later a0 is not due", 11_999, &rekey(0xa0, 1, nothing()), "0 2 0");
    t.then(&longest(2));
    t
}

/// Where the Rekey SA has run out, rekeys over the own channel are taken as long as some SA has not.
fn over_the_own_channel() -> Transcript {
    let mut t = Transcript::new("lifetimes-inband", LENT);
    let sas = [for_seconds(rekey_sa(0xa0, &[(0, lent())]), 1), for_seconds(esp(1, &lent()), 3)];
    t.frame("Rekey SA a0 for 1 s, ESP SA 1 for 3 s", 0, &registration(&sas, &[]), "0 2 0");
    let one = lived(esp_text(1, "live"), 0, 3);
    let a0 = |start: u32| lived(rekey_text(0xa0, "live"), start, 1);
    t.then(&[one.clone(), a0(0), least(0)]);
    t.frame("999 ms: over a0", 999, &rekey(0xa0, 4, nothing()), "0 2 0");
    t.then(&[one.clone(), a0(0), least(5)]);
    t.frame("1,000 ms: a0 has run out", 1000, &rekey(0xa0, 5, nothing()), "2 2 0");
    t.frame("ESP SA 2 over the own channel; a0 goes and does not retire", 1000, &inband(announce(&[esp(2, &lent())])), "0 2 0");
    t.then(&[one.clone(), esp_text(2, "live"), least(5)]);
    t.frame("a rekey over a0, which is gone", 1000, &rekey(0xa0, 5, nothing()), "2 2 0");
    let mut again = for_seconds(rekey_sa(0xa0, &[(0, lent())]), 1);
    again.policy.attributes.push(initial_message_id(7));
    t.frame("a0 comes again, initial Message ID 7", 1500, &inband(announce(&[again])), "0 3 0");
    t.then(&[one.clone(), esp_text(2, "live"), a0(1500), least(7)]);
    t.frame("2 retires for 0 s", 2000, &rekey(0xa0, 7, vec![delete(&[spi(2)])]), "0 3 0");
    t.then(&[one.clone(), esp_text(2, "retiring 2000 0"), a0(1500), least(8)]);
    let b0 = for_seconds(rekey_sa(0xb0, &[(0, lent())]), 0);
    t.frame("a0 is due, and so is 2: b0 comes for 0 s", 2500, &inband(announce(&[b0])), "0 2 0");
    t.then(&[one, lived(rekey_text(0xb0, "live"), 2500, 0), least(0)]);
    t.frame("b0 takes no rekey", 2500, &rekey(0xb0, 0, nothing()), "2 2 0");
    t.frame("3,000 ms: 1 has run out too, and the member is empty", 3000, &inband(announce(&[esp(3, &lent())])), "2 2 0");
    t.frame("it registers anew, with the same names", 3000, &registration(&sas, &[]), "0 2 0");
    t.then(&[lived(esp_text(1, "live"), 3000, 3), a0(3000), least(0)]);
    t
}

/// An empty payload that is unknown, with its critical bit.
fn critical() -> Payload {
    Payload { flags: 0x80, ..Payload::new(99, Body::Plain(vec![])) }
}

/// Rekey SA a0 and ESP SA 1, and an AH policy behind them: the policies stand at 32, 112 and 172 and end at 232.
fn with_ah() -> Frame {
    let mut frame = registration(&[rekey_sa(0xa0, &[(0, lent())]), esp(1, &lent())], &[]);
    frame.payloads[0].parts().push(Part { protocol: AH, ..esp(9, &lent()).policy });
    frame
}

fn with(at: usize, attributes: &[Attribute]) -> Frame {
    let mut frame = with_ah();
    frame.payloads[0].parts()[at].attributes = attributes.to_vec();
    frame
}

fn refused() -> Transcript {
    let mut t = Transcript::new("lifetimes-refused", LENT);
    for (at, name, offset) in [(0, "a Rekey", 112), (1, "an ESP", 172), (2, "an AH", 232)] {
        let broken = format!("1 0 0 {offset}");
        t.frame(&format!("without a length in {name} policy"), 0, &with(at, &[Attribute::Short(1, 30)]), &broken);
        for count in [0, 3, 5] {
            let about = format!("of {count} octets in {name} policy");
            t.frame(&about, 0, &with(at, &[Attribute::long(1, &[0; 5][..count])]), &broken);
        }
        t.frame(&format!("twice in {name} policy"), 0, &with(at, &[lifetime(30), lifetime(30)]), "4 0 0");
        t.frame(&format!("twice in {name} policy, one too long"), 0, &with(at, &[lifetime(2_000_001), lifetime(0)]), "4 0 0");
    }
    t.frame("an AH policy is 5 also with a lifetime that is too long", 0, &with(2, &[lifetime(2_000_001)]), "5 0 0");
    let without_ah = |mut frame: Frame| {
        frame.payloads[0].parts().truncate(2);
        frame
    };
    for (at, name) in [(0, "a Rekey"), (1, "an ESP")] {
        for seconds in [2_000_001, 0x8000_0000, u32::MAX] {
            let about = format!("{seconds} seconds in {name} policy");
            t.frame(&about, 0, &without_ah(with(at, &[lifetime(seconds)])), "7 0 0");
        }
    }
    let mut unpaired = without_ah(with(1, &[lifetime(2_000_001)]));
    unpaired.payloads[1].parts()[1].spi = spi(2);
    t.frame("too long, and the bag of another SPI", 0, &unpaired, "6 0 0");
    let mut skipped = without_ah(with(0, &[lifetime(2_000_000), initial_message_id(7)]));
    let attribute_1 = [Attribute::Short(1, 7), Attribute::long(1, &[0; 3]), lifetime(u32::MAX)];
    skipped.payloads[0].parts()[1].transforms.iter_mut().for_each(|it| it.attributes.extend(attribute_1.clone()));
    skipped.payloads[0].parts().push(Part::unnamed(attribute_1.to_vec()));
    t.frame("attribute 1 in a group-wide policy and in transforms is another; a0 for 2,000,000 s", 5, &skipped, "0 2 0");
    t.then(&[esp_text(1, "live"), lived(rekey_text(0xa0, "live"), 5, 2_000_000), least(7)]);
    let a0 = default_key(0xa0);
    let over = |sa: Sa| rekey(0xa0, 7, announce(&[sa]));
    let twice = for_seconds(for_seconds(esp(2, &a0), 1), 1);
    t.frame("twice in a rekey", 5, &over(twice), "4 2 0");
    t.frame("too long in a rekey", 5, &over(for_seconds(rekey_sa(0xb0, &[(0, a0.clone())]), 2_000_001)), "7 2 0");
    t.frame("too long, and a key that does not open", 5, &over(for_seconds(esp(2, &lent()), 2_000_001)), "7 2 0");
    t.frame("0 seconds", 5, &over(for_seconds(esp(2, &a0), 0)), "0 3 0");
    t.then(&[esp_text(1, "live"), lived(esp_text(2, "live"), 5, 0), lived(rekey_text(0xa0, "live"), 5, 2_000_000), least(8)]);
    t
}

/// Questions about SAs with a lifetime, and sweeps: they take a live SA that has run out too.
fn asked() -> Transcript {
    let mut t = Transcript::of_calls("lifetimes-asked", LENT);
    let sas = [for_seconds(rekey_sa(0xa0, &[(0, lent())]), 60), for_seconds(esp(1, &lent()), 30), esp(2, &lent())];
    t.frame("Rekey SA a0 for 60 s, ESP SAs 1 for 30 s and 2", 700, &registration(&sas, &[]), "answer 0");
    let (one, a0) = (lived(esp_text(1, "live"), 700, 30), lived(rekey_text(0xa0, "live"), 700, 60));
    t.then(&[one.clone(), esp_text(2, "live"), a0.clone(), least(0)]);
    let ask = |t: &mut Transcript, about: &str, name: &str, keying: &[u8], rest: &str| {
        t.line(about, format!("q{name}").as_bytes(), &format!("found {} {rest}", text(keying)));
    };
    ask(&mut t, "1", "0300000001", &esp_keying(), "live life 700 30");
    ask(&mut t, "2", "0300000002", &esp_keying(), "live life none");
    ask(&mut t, "a0", &format!("06{}", text(&rekey_spi(0xa0))), &rekey_keying(0xa0, 36), "live life 700 60");
    let three = [announce_with_delay(&[esp(3, &default_key(0xa0))], 40), vec![delete(&[spi(1), spi(2)])]].concat();
    t.frame("1 and 2 retire for 40 s, 3 comes", 1000, &rekey(0xa0, 0, three), "answer 0");
    let retiring = |number: u32| esp_text(number, "retiring 1000 40");
    t.then(&[lived(retiring(1), 700, 30), retiring(2), esp_text(3, "live"), a0.clone(), least(1)]);
    ask(&mut t, "1 keeps its lifetime", "0300000001", &esp_keying(), "retiring 1000 40 life 700 30");
    ask(&mut t, "2", "0300000002", &esp_keying(), "retiring 1000 40 life none");
    let sweep = |t: &mut Transcript, about: &str, tick: u32| t.line(about, format!("s{tick:08x}").as_bytes(), "done");
    sweep(&mut t, "29,999 ms of 1's lifetime", 30_699);
    sweep(&mut t, "30,000 ms: 1 goes, its delay has not run", 30_700);
    t.then(&[retiring(2), esp_text(3, "live"), a0.clone(), least(1)]);
    t.line("1 is gone", b"q0300000001", "none");
    sweep(&mut t, "40,000 ms of 2's delay: it goes", 41_000);
    t.then(&[esp_text(3, "live"), a0, least(1)]);
    t.frame("60,000 ms of a0's lifetime: a rekey", 60_700, &rekey(0xa0, 1, nothing()), "answer 2");
    ask(
        &mut t,
        "it is due, and not yet swept",
        &format!("06{}", text(&rekey_spi(0xa0))),
        &rekey_keying(0xa0, 36),
        "live life 700 60",
    );
    sweep(&mut t, "a0 goes; 3 and the least Message ID stay", 60_700);
    t.then(&[esp_text(3, "live"), least(1)]);
    t.frame("swept, the rekey is refused by the same number", 60_700, &rekey(0xa0, 1, nothing()), "answer 2");
    t.frame("a registration: 3 has no lifetime", 60_700, &registration(&sas, &[]), "answer 2");
    t
}
