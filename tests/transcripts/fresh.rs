//! Fresh tree keys in a rekey (document 02, T-11): what a member with the profile holds after it, what is refused of them, and where they
//! are skipped. Which keys are held shows in `trace`.

use crate::inband::inband;
use crate::parts::*;
use crate::Transcript;
use builder::typical::*;
use builder::wrapping::wrap;
use builder::{Attribute, Part, Payload, AH, REKEY};

pub fn all() -> Vec<Transcript> {
    vec![rfc9838(), ends(), choices(), carried(), numbers(), sizes(), long_lists(), skipped()]
}

/// An entry by its Key ID and its KWK ID.
type Link = (u32, u32);

/// A key of the list: as it was held, or as it came with the last rekey.
#[derive(Clone, Copy)]
enum Key {
    Old(u32),
    New(u32),
}
use Key::{New, Old};

/// The value of a held key.
fn value(id: u32) -> Vec<u8> {
    key(id as u8)
}

/// The value of a fresh key: another one than the held key of that Key ID has.
fn fresh(id: u32) -> Vec<u8> {
    key(255 - id as u8)
}

/// Members one after the other, each with Rekey SA a0 at first.
struct Run {
    t: Transcript,
    held: Vec<(u32, Vec<u8>)>,
    /// The live Rekey SA, and the one before it.
    live: u8,
    old: Option<u8>,
}

impl Run {
    fn new(name: &'static str) -> Run {
        Run { t: Transcript::of_calls(name, LENT), held: Vec::new(), live: 0, old: None }
    }

    /// A new member, which registers and then holds these keys, the last one under the lent key.
    fn member(&mut self, about: &str, profile: &str, held: &[u32]) {
        self.t.line(&format!("a new member, {about}"), profile.as_bytes(), "done");
        if self.live != 0 {
            self.t.then(&[least(0)]);
        }
        self.registers(held);
    }

    fn registers(&mut self, held: &[u32]) {
        let under = |id: Option<&u32>| id.map_or((0, lent()), |id| (*id, value(*id)));
        let entries: Vec<Attribute> = (0..held.len())
            .map(|i| {
                let (kwk_id, kwk) = under(held.get(i + 1));
                Attribute::key(held[i], kwk_id, &wrap(&kwk, &value(held[i])))
            })
            .collect();
        let frame = registration(&[rekey_sa(0xa0, &[under(held.first())])], &entries);
        self.t.frame("registers", 0, &frame, "answer 0");
        (self.live, self.old) = (0xa0, None);
        self.held = held.iter().map(|id| (*id, value(*id))).collect();
        self.then();
    }

    fn then(&mut self) {
        let old = self.old.map(|fill| rekey_text(fill, "retiring 0 0"));
        let held = self.held.iter().map(|(id, value)| held_text(*id, value));
        let lines: Vec<String> = old.into_iter().chain([rekey_text(self.live, "live")]).chain(held).chain([least(0)]).collect();
        self.t.then(&lines);
    }

    /// The value that a Key ID names in a frame with these entries.
    fn named(&self, links: &[Link], id: u32) -> Vec<u8> {
        let held = self.held.iter().find(|key| key.0 == id).map(|key| key.1.clone());
        match id {
            0 => default_key(self.live),
            _ if links.iter().any(|link| link.0 == id) => fresh(id),
            _ => held.unwrap_or(value(id)),
        }
    }

    fn entries(&self, links: &[Link]) -> Vec<Attribute> {
        links.iter().map(|link| fresh_key(link.0, link.1, &wrap(&self.named(links, link.1), &fresh(link.0)))).collect()
    }

    /// A copy of the next Rekey SA's key under each of these keys.
    fn copies(&self, links: &[Link], under: &[u32]) -> Vec<(u32, Vec<u8>)> {
        under.iter().map(|id| (*id, self.named(links, *id))).collect()
    }

    /// The payloads of a rekey that brings the next Rekey SA, with these attributes in its bag besides the copies.
    fn payloads(&self, entries: &[Attribute], copies: &[(u32, Vec<u8>)]) -> Vec<Payload> {
        let mut sa = rekey_sa(self.live + 1, copies);
        sa.bag.attributes.extend_from_slice(entries);
        announce(&[sa])
    }

    /// A rekey with these fresh keys and copies: taken, and then the list is this one.
    fn taken(&mut self, about: &str, links: &[Link], under: &[u32], list: &[Key]) {
        let (entries, copies) = (self.entries(links), self.copies(links, under));
        self.taken_of(about, &entries, &copies, list);
    }

    fn taken_of(&mut self, about: &str, entries: &[Attribute], copies: &[(u32, Vec<u8>)], list: &[Key]) {
        let payloads = self.payloads(entries, copies);
        self.t.frame(about, 0, &rekey(self.live, 0, payloads), "answer 0");
        let known = |key: &Key| match key {
            New(id) => (*id, fresh(*id)),
            Old(id) => (*id, self.held.iter().find(|held| held.0 == *id).map_or(Vec::new(), |held| held.1.clone())),
        };
        self.held = list.iter().map(known).collect();
        (self.old, self.live) = (Some(self.live), self.live + 1);
        self.then();
    }

    fn refused(&mut self, about: &str, links: &[Link], under: &[u32], number: u8) {
        let copies = self.copies(links, under);
        self.refused_of(about, &self.entries(links), &copies, &format!("answer {number}"));
    }

    fn refused_of(&mut self, about: &str, entries: &[Attribute], copies: &[(u32, Vec<u8>)], answer: &str) {
        let payloads = self.payloads(entries, copies);
        self.t.frame(about, 0, &rekey(self.live, 0, payloads), answer);
    }
}

/// RFC 9838, Appendix A.4, with the private attribute in the place of the Member bag: F is expelled.
fn rfc9838() -> Transcript {
    let mut run = Run::new("fresh-rfc9838");
    let links = [(15, 6), (15, 16), (16, 11)];
    for (name, path) in [("A", [1, 3, 7]), ("B", [1, 3, 8]), ("C", [1, 4, 9]), ("D", [1, 4, 10])] {
        run.member(name, "p01", &path);
        run.taken("copies under 1 and 15: the list stays", &links, &[1, 15], &path.map(Old));
    }
    run.member("E", "p01", &[2, 5, 11]);
    run.taken("15, 16, 11", &links, &[1, 15], &[New(15), New(16), Old(11)]);
    run.taken("a copy under 15", &[], &[15], &[Old(15), Old(16), Old(11)]);
    run.refused("a copy under 2, which is held no longer", &[], &[2], 9);
    run.member("F", "p01", &[2, 5, 12]);
    run.refused("no key of F leads to 15", &links, &[1, 15], 9);
    for (name, own) in [("G", 13), ("H", 14)] {
        run.member(name, "p01", &[2, 6, own]);
        run.taken("15, 6 and the own key", &links, &[1, 15], &[New(15), Old(6), Old(own)]);
        run.refused("a copy under 2, which is held no longer", &[], &[2], 9);
    }
    run.t
}

/// Where a path ends: what goes before it, what goes, what stays.
fn ends() -> Transcript {
    let mut run = Run::new("fresh-ends");
    run.member("which holds 5, 6, 7", "p01", &[5, 6, 7]);
    run.taken("8 under 5: before the first", &[(8, 5)], &[8], &[New(8), Old(5), Old(6), Old(7)]);
    run.taken("9 under 6: 8 and 5 are ahead of it", &[(9, 6)], &[9], &[New(9), Old(6), Old(7)]);
    run.taken("10 under 11, 11 under 7: 9 and 6 are ahead of it", &[(10, 11), (11, 7)], &[10], &[New(10), New(11), Old(7)]);
    run.taken("12 under 0: the whole list", &[(12, 0)], &[12], &[New(12)]);
    run.member("which holds 5, 6, 7", "p01", &[5, 6, 7]);
    run.taken("7 and 8 under 5, the path 7, 8: the old 7 goes", &[(7, 8), (8, 5)], &[7], &[New(7), New(8), Old(5), Old(6)]);
    run.member("which holds 5, 6, 7", "p01", &[5, 6, 7]);
    run.taken("6 and 7 behind 5, both carried, 6 on the path", &[(6, 5), (7, 5)], &[6], &[New(6), Old(5), Old(7)]);
    run.taken("a copy under the old 7", &[], &[7], &[Old(6), Old(5), Old(7)]);
    run.member("which holds 5, 6, 7", "p01", &[5, 6, 7]);
    run.taken("5 anew under 6", &[(5, 6)], &[5], &[New(5), Old(6), Old(7)]);
    run.taken("all anew under 0", &[(5, 6), (6, 7), (7, 0)], &[5], &[New(5), New(6), New(7)]);
    run.member("which holds nothing", "p01", &[]);
    run.taken("5 under 0", &[(5, 0)], &[5], &[New(5)]);
    run.taken("a copy under 0: the list stays", &[], &[0], &[Old(5)]);
    run.t
}

/// Of several paths the one with fewest keys, then the smallest, then the one with the smaller end; over all copies that open.
fn choices() -> Transcript {
    let mut run = Run::new("fresh-choices");
    run.member("which holds 5, 6, 7", "p01", &[5, 6, 7]);
    run.taken("8 under 7 and under 6: the smaller end", &[(8, 7), (8, 6)], &[8], &[New(8), Old(6), Old(7)]);
    run.taken("9 under 7 and under 0: the end 0", &[(9, 7), (9, 0)], &[9], &[New(9)]);
    run.member("which holds 7, 6, 5", "p01", &[7, 6, 5]);
    run.taken("8 under 7 and under 5: the smaller end is behind", &[(8, 7), (8, 5)], &[8], &[New(8), Old(5)]);
    run.member("which holds 5, 6, 7", "p01", &[5, 6, 7]);
    let longer = [(8, 9), (9, 5), (8, 7)];
    run.taken("8, 7 has fewer fresh keys than 8, 9, 5", &longer, &[8], &[New(8), Old(7)]);
    run.member("which holds 5, 6, 7", "p01", &[5, 6, 7]);
    let ties = [(8, 10), (10, 5), (8, 9), (9, 7)];
    run.taken("8, 9 is smaller than 8, 10, whatever the ends", &ties, &[8], &[New(8), New(9), Old(7)]);
    run.member("which holds 5, 6, 7", "p01", &[5, 6, 7]);
    let copies = [(10, 5), (9, 6), (8, 9)];
    run.taken("copies under 8 and 10: 10 has fewer", &copies, &[8, 10], &[New(10), Old(5), Old(6), Old(7)]);
    run.taken("copies under 12 and 11, both under 5: 11", &[(12, 5), (11, 5)], &[12, 11], &[New(11), Old(5), Old(6), Old(7)]);
    let list = [Old(11), Old(5), Old(6), Old(7)];
    run.taken("a copy under 0 besides: nothing changes", &[(13, 5)], &[13, 0], &list);
    run.taken("a copy under 6 besides: nothing changes", &[(13, 5)], &[13, 6], &list);
    run.taken("fresh keys that no copy is under: nothing changes", &[(13, 5), (14, 13)], &[7], &list);
    let closed = [(8, wrap(&value(99), &rekey_keying(run.live + 1, 36)))];
    let entries = [run.entries(&[(8, 5), (9, 5)]), closed.map(|(id, octets)| Attribute::key(0, id, &octets)).to_vec()].concat();
    let payloads = run.payloads(&entries, &run.copies(&[(9, 5)], &[9]));
    run.t.frame("a copy under 8 that does not open, one under 9", 0, &rekey(run.live, 0, payloads), "answer 0");
    run.held = [(9, fresh(9)), (5, value(5)), (6, value(6)), (7, value(7))].to_vec();
    (run.old, run.live) = (Some(run.live), run.live + 1);
    run.then();
    run.t
}

/// A held key that the frame carries anew, by any entry, opens nothing; it stays in the list unless the path takes it out.
fn carried() -> Transcript {
    let mut run = Run::new("fresh-carried");
    run.member("which holds 5, 6, 7", "p01", &[5, 6, 7]);
    let fails = [fresh_key(6, 0, &[4; 24])];
    run.refused_of("6 fails under 0; a copy under the old 6", &fails, &[(6, value(6))], "answer 9");
    run.refused_of("the same; copies under the old 6 and under 9", &fails, &[(6, value(6)), (9, value(9))], "answer 9");
    let nowhere = [fresh_key(6, 99, &wrap(&value(99), &fresh(6)))];
    run.refused_of("6 under 99, which is no key; a copy under the old 6", &nowhere, &[(6, value(6))], "answer 9");
    let under_old = [fails[0].clone(), fresh_key(8, 6, &wrap(&value(6), &fresh(8)))];
    run.refused_of("8 under the old 6, which is carried", &under_old, &[(8, fresh(8))], "answer 9");
    let both = [fresh_key(6, 7, &wrap(&value(7), &fresh(6)))];
    run.refused_of("6 under 7; a copy under the old 6", &both, &[(6, value(6))], "answer 9");
    let list = [Old(5), Old(6), Old(7)];
    run.taken_of("6 fails; a copy under 5", &fails, &[(5, value(5))], &list);
    run.taken("6 under 7; copies under 5 and under the new 6: 5 has no fresh key", &[(6, 7)], &[5, 6], &list);
    run.taken("a copy under the old 6, which stayed", &[], &[6], &list);
    run.t
}

/// Each number that fresh keys can give.
fn numbers() -> Transcript {
    let mut run = Run::new("fresh-numbers");
    run.member("which holds 5, 6, 7", "p01", &[5, 6, 7]);
    let under_five = [(5, value(5))];
    let zero = |wrapped: &[u8]| [fresh_key(0, 5, wrapped)];
    run.refused_of("Key ID 0", &zero(&wrap(&value(5), &fresh(8))), &under_five, "answer 6");
    run.refused_of("Key ID 0 that is not reached", &zero(&[4; 24]), &under_five, "answer 6");
    run.refused_of("8 under 8", &[fresh_key(8, 8, &wrap(&fresh(8), &fresh(8)))], &under_five, "answer 6");
    run.refused_of("5 under 5", &[fresh_key(5, 5, &wrap(&value(5), &fresh(5)))], &under_five, "answer 6");
    let unreached = |count: usize| vec![fresh_key(8, 99, &[4; 24]); count];
    run.refused_of("129 entries", &unreached(129), &under_five, "answer 7");
    let with_zero = [unreached(128), zero(&[4; 24]).to_vec()].concat();
    run.refused_of("129 entries, one with Key ID 0", &with_zero, &under_five, "answer 6");
    run.refused_of("128 entries and no copy that opens", &unreached(128), &[(8, fresh(8))], "answer 9");
    run.taken_of("128 entries: nothing changes", &unreached(128), &under_five, &[Old(5), Old(6), Old(7)]);
    let other = fresh_key(8, 5, &wrap(&value(5), &[8; 24]));
    run.refused_of("8 of 24 octets, not of the default key's 16", &[other.clone()], &under_five, "answer 8");
    run.refused_of("the same and no copy that opens", &[other], &[(9, value(9))], "answer 8");
    let two = [fresh_key(8, 5, &wrap(&value(5), &fresh(8))), fresh_key(8, 6, &wrap(&value(6), &fresh(9)))];
    run.refused_of("two values of 8", &two, &under_five, "answer 8");
    let unreached_size = [fresh_key(8, 99, &wrap(&value(99), &[8; 24]))];
    run.taken_of("8 of 24 octets, not reached: nothing changes", &unreached_size, &under_five, &[Old(5), Old(6), Old(7)]);
    // The policy has 80 octets, so KD starts at 112, its bag at 116, and the attributes stand from 136 on; a copy has 60 octets.
    let copy = [(5, value(5))];
    run.refused_of("a fresh key in short form", &[Attribute::Short(FRESH_KEY, 8)], &copy, "answer 1 196");
    for size in [0, 8, 23, 25, 280] {
        let attribute = Attribute::long(FRESH_KEY, &vec![4; size]);
        run.refused_of(&format!("a fresh key of {size} octets"), &[attribute], &copy, "answer 1 196");
    }
    let mut low = rekey(0xa0, 0, run.payloads(&[Attribute::Short(FRESH_KEY, 8)], &copy));
    run.t.frame("in short form, over a Rekey SA that is not the live one", 0, &low, "answer 1 196");
    low.payloads = run.payloads(&zero(&[4; 24]), &copy);
    run.t.frame("Key ID 0, over a Rekey SA that is not the live one", 0, &low, "answer 2");
    run.t
}

/// A fresh key has the size of the live Rekey SA's default key, here 32 octets, whatever size the lent key and the held keys have, here 16.
fn sizes() -> Transcript {
    let mut t = Transcript::of_calls("fresh-sizes", LENT);
    let count = 20 + 32;
    let sa = |fill: u8, kwk_id: u32, kwk: &[u8], entries: &[Attribute]| {
        let copy = Attribute::key(0, kwk_id, &wrap(kwk, &rekey_keying(fill, count)));
        Sa { policy: rekey_policy(&rekey_spi(fill), 128, 3), bag: bag(REKEY, &rekey_spi(fill), [&[copy], entries].concat()) }
    };
    let line = |fill: u8, condition: &str| rekey_text_of(fill, &rekey_keying(fill, count), 20, condition);
    t.line("a new member with the profile", b"p01", "done");
    let first = registration(&[sa(0xa0, 5, &value(5), &[])], &[entry(5, 5, 0, &lent())]);
    t.frame("registers, with 5 of 16 octets; the Rekey SA's default key has 32", 0, &first, "answer 0");
    t.then(&[line(0xa0, "live"), held_text(5, &value(5)), least(0)]);
    let (short, long, other) = (fresh(8), vec![8; 32], vec![9; 32]);
    let over = |entries: &[Attribute], kwk_id: u32, kwk: &[u8]| rekey(0xa0, 0, announce(&[sa(0xa1, kwk_id, kwk, entries)]));
    let of_16 = [fresh_key(8, 5, &wrap(&value(5), &short))];
    t.frame("8 of 16 octets under 5, as many as 5 and the lent key have", 0, &over(&of_16, 8, &short), "answer 8");
    let of_24 = [fresh_key(8, 0, &wrap(&rekey_keying(0xa0, count)[20..], &[8; 24]))];
    t.frame("8 of 24 octets under 0", 0, &over(&of_24, 8, &[8; 24]), "answer 8");
    let of_32 = [fresh_key(9, 8, &wrap(&long, &other)), fresh_key(8, 5, &wrap(&value(5), &long))];
    t.frame("9 under 8, 8 under 5, both of 32 octets", 0, &over(&of_32, 9, &other), "answer 0");
    let held = [held_text(9, &other), held_text(8, &long), held_text(5, &value(5))];
    t.then(&[vec![line(0xa0, "retiring 0 0"), line(0xa1, "live")], held.to_vec(), vec![least(0)]].concat());
    t
}

/// The held list has 128 keys at most: 7, judged after 9.
fn long_lists() -> Transcript {
    let mut run = Run::new("fresh-long-lists");
    let ids: Vec<u32> = (1..=127).collect();
    run.member("which holds 127 keys", "p01", &ids);
    run.refused("200 and 201 before the first: 129", &[(200, 201), (201, 1)], &[200], 7);
    let long = run.entries(&[(200, 201), (201, 1)]);
    let mut sa = rekey_sa(run.live + 1, &[(200, fresh(200))]);
    sa.bag.attributes.extend_from_slice(&long);
    let closed = rekey(run.live, 0, announce(&[sa, esp(1, &value(99))]));
    run.t.frame("the same, and an ESP SA whose copy does not open", 0, &closed, "answer 9");
    let two = [fresh_key(202, 1, &wrap(&value(1), &fresh(202))), fresh_key(202, 2, &wrap(&value(2), &fresh(203)))];
    run.refused_of("the same list, and two values of 202", &[&long[..], &two].concat(), &[(200, fresh(200))], "answer 8");
    run.refused("200 before the first, by 129 equal entries", &[(200, 1); 129], &[200], 7);
    let all: Vec<Key> = std::iter::once(New(200)).chain(ids.iter().copied().map(Old)).collect();
    run.taken("200 before the first: 128", &[(200, 1)], &[200], &all);
    run.refused("201 before the first: 129", &[(201, 200)], &[201], 7);
    let second: Vec<Key> = [New(201), Old(1)].into_iter().chain(ids[1..].iter().copied().map(Old)).collect();
    run.taken("201 before the second", &[(201, 1)], &[201], &second);
    run.refused("3 and 202 before the first, the old 3 goes: 129", &[(3, 202), (202, 201)], &[3], 7);
    let others = ids.iter().filter(|id| **id != 3).copied().map(Old);
    let without: Vec<Key> = [New(3), New(202)].into_iter().chain(others).collect();
    run.taken("3 and 202 before the second, the old 3 goes: 128", &[(3, 202), (202, 1)], &[3], &without);
    run.t
}

/// Where the private attribute is skipped, in any form.
fn skipped() -> Transcript {
    let mut run = Run::new("fresh-skipped");
    let broken = [
        Attribute::Short(FRESH_KEY, 8),
        Attribute::long(FRESH_KEY, &[4; 9]),
        fresh_key(0, 0, &[4; 24]),
        fresh_key(8, 8, &[4; 24]),
    ];
    run.member("without the profile", "p00", &[5, 6]);
    let payloads = run.payloads(&broken, &[(5, value(5))]);
    run.t.frame("in any form: the list stays", 0, &rekey(run.live, 0, payloads), "answer 0");
    (run.old, run.live) = (Some(run.live), run.live + 1);
    run.then();
    run.taken("8 under 5, a copy under 5", &[(8, 5)], &[5], &[Old(5), Old(6)]);
    run.refused("a copy under 8, which is no key", &[(8, 5)], &[8], 9);
    run.refused_of("6 carried, a copy under the new 6", &run.entries(&[(6, 5)]), &[(6, fresh(6))], "answer 9");
    let payloads = run.payloads(&run.entries(&[(6, 5)]), &[(6, value(6))]);
    run.t.frame("6 carried, a copy under the old 6", 0, &rekey(run.live, 0, payloads), "answer 0");
    (run.old, run.live) = (Some(run.live), run.live + 1);
    run.then();

    run.t.line("a new member with the profile", b"p01", "done");
    run.t.then(&[least(0)]);
    let mut first = rekey_sa(0xa0, &[(5, value(5))]);
    first.bag.attributes.extend(broken.clone());
    let mut frame = registration(&[first.clone()], &[entry(5, 5, 0, &lent())]);
    if let Some(bag) = frame.payloads[1].parts().iter_mut().find(|part| part.protocol == 0) {
        bag.attributes.extend(broken.clone());
    }
    run.t.frame("in a registration, in the bags of the Rekey SA and of the member", 0, &frame, "answer 0");
    (run.live, run.old, run.held) = (0xa0, None, vec![(5, value(5))]);
    run.then();
    let with_broken = |mut sa: Sa| {
        sa.bag.attributes.extend(broken.clone());
        sa
    };
    let sas = [with_broken(esp(1, &default_key(0xa0))), rekey_sa(0xa1, &[(5, value(5))])];
    run.t.frame("in an ESP bag of a rekey", 0, &rekey(0xa0, 0, announce(&sas)), "answer 0");
    let (one, retiring) = (esp_text(1, "live"), |fill| rekey_text(fill, "retiring 0 0"));
    let five = held_text(5, &value(5));
    run.t.then(&[one.clone(), retiring(0xa0), rekey_text(0xa1, "live"), five.clone(), least(0)]);
    let own = inband(announce(&[with_broken(rekey_sa(0xa2, &[(0, lent())]))]));
    run.t.frame("in a rekey over the own channel", 0, &own, "answer 0");
    run.t.then(&[one, retiring(0xa1), rekey_text(0xa2, "live"), five, least(0)]);

    let next = |bags: Vec<Part>| {
        let sa = rekey_sa(0xa3, &[(5, value(5))]);
        vec![gsa(vec![sa.policy]), kd([vec![sa.bag], bags].concat())]
    };
    let in_ah_bag = next(vec![bag(AH, &spi(1), broken.to_vec())]);
    run.t.frame("in an AH bag of a rekey", 0, &rekey(0xa2, 0, in_ah_bag), "answer 5");
    let in_member_bag = next(vec![Part::unnamed(broken.to_vec())]);
    run.t.frame("in a Member bag of a rekey", 0, &rekey(0xa2, 0, in_member_bag), "answer 4");
    let mut other = rekey(0xa2, 0, announce(&[with_broken(rekey_sa(0xa3, &[(5, value(5))]))]));
    other.exchange = 43;
    run.t.frame("in a frame of exchange type 43", 0, &other, "answer 2");

    run.t.line("leaving keeps the profile", b"l", "done");
    run.t.then(&[least(0)]);
    run.registers(&[5, 6]);
    run.t.line("sweeping keeps it too", b"s00000000", "done");
    run.taken("8 under 5", &[(8, 5)], &[8], &[New(8), Old(5), Old(6)]);
    for line in ["p", "p0", "p1", "p02", "p11", "p001", "p0100", "P01"] {
        run.t.line("no call", line.as_bytes(), "bad");
    }
    run.t
}
