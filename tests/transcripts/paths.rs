//! The working key path (document 02, T-04; RFC 9838, section 3.3): which keys of a tree a member holds after its registration and in which
//! order. A rekey with one copy under each of them is taken, one with a copy under another key of the tree is refused.

use crate::inband::inband;
use crate::lifetimes::{for_seconds, lived};
use crate::parts::*;
use crate::Transcript;
use builder::Attribute;

pub fn all() -> Vec<Transcript> {
    vec![ties(), fewest(), cycles(), closed_entries(), no_path(), key_tree()]
}

/// Every SA is for so many seconds. The next registration comes when they have run out.
pub const LIFE: u32 = 1;

/// A WRAP_KEY by its Key ID and its KWK ID.
pub type Link = (u32, u32);

/// The value of a key; key 0 is the lent one.
pub fn value(id: u32) -> Vec<u8> {
    if id == 0 {
        lent()
    } else {
        key((id % 251) as u8)
    }
}

pub fn tree(links: &[Link]) -> Vec<Attribute> {
    links.iter().map(|(id, kwk_id)| entry(*id, value(*id)[0], *kwk_id, &value(*kwk_id))).collect()
}

/// A Rekey SA with copies of its key under these keys.
pub fn sa_under(fill: u8, ids: &[u32]) -> Sa {
    let under: Vec<_> = ids.iter().map(|id| (*id, value(*id))).collect();
    for_seconds(rekey_sa(fill, &under), LIFE)
}

/// Registrations one after the other.
struct Run {
    t: Transcript,
    tick: u32,
}

impl Run {
    fn new(name: &'static str) -> Run {
        Run { t: Transcript::new(name, LENT), tick: 0 }
    }

    /// Registers with Rekey SA a0, its key under `under`, and these entries: the keys of the path are held.
    fn registers(&mut self, about: &str, entries: &[Attribute], under: u32, path: &[u32]) {
        self.tick += 1000 * LIFE;
        let frame = registration(&[sa_under(0xa0, &[under])], entries);
        self.t.frame(about, self.tick, &frame, &format!("0 1 {}", path.len()));
        self.then(None, 0xa0, path);
    }

    /// The same; then a copy under each of the keys `off` is refused, and one under each key of the path is taken.
    fn holds(&mut self, about: &str, entries: &[Attribute], under: u32, path: &[u32], off: &[u32]) {
        self.registers(about, entries, under, path);
        for id in off {
            let frame = rekey(0xa0, 0, announce(&[sa_under(0xb0, &[*id])]));
            self.t.frame(&format!("a copy under {id}, which is not held"), self.tick, &frame, &format!("9 1 {}", path.len()));
        }
        let mut over = 0xa0;
        for (new, id) in (0xb0..).zip(path) {
            let frame = rekey(over, 0, announce(&[sa_under(new, &[*id])]));
            self.t.frame(&format!("a copy under {id}"), self.tick, &frame, &format!("0 2 {}", path.len()));
            self.then(Some(over), new, path);
            over = new;
        }
    }

    /// The member: the Rekey SA `old` retires without delay, `live` is live, the path is held.
    fn then(&mut self, old: Option<u8>, live: u8, path: &[u32]) {
        let text = |fill: u8, condition: &str| lived(rekey_text(fill, condition), self.tick, LIFE);
        let old = old.map(|fill| text(fill, &format!("retiring {} 0", self.tick)));
        let held = path.iter().map(|id| held_text(*id, &value(*id)));
        let lines: Vec<String> = old.into_iter().chain([text(live, "live")]).chain(held).chain([least(0)]).collect();
        self.t.then(&lines);
    }
}

/// Chains that are as long as each other: the smaller list, number by number from the key that opens the copy on.
fn ties() -> Transcript {
    let mut run = Run::new("paths-ties");
    let mut two = [(1, 3), (3, 0), (1, 7), (7, 0), (1, 2)];
    run.holds("1 under 3 and 7, which are under 0, and under 2, which is not reached", &tree(&two), 1, &[1, 3], &[7, 2]);
    two.reverse();
    run.holds("the same backwards", &tree(&two), 1, &[1, 3], &[7, 2]);
    run.holds("1 under 10 and under 9", &tree(&[(1, 10), (10, 0), (1, 9), (9, 0)]), 1, &[1, 9], &[10]);
    run.holds("1 under 256 and under 2", &tree(&[(1, 256), (256, 0), (1, 2), (2, 0)]), 1, &[1, 2], &[256]);
    let (high, low) = (0x8000_0000, 0x7fff_ffff);
    let halves = [(1, high), (high, 0), (1, low), (low, 0)];
    run.holds("1 under 2,147,483,648 and under one less", &tree(&halves), 1, &[1, low], &[high]);
    let first = [(9, 3), (3, 8), (8, 0), (9, 4), (4, 1), (1, 0)];
    run.holds("9, 3, 8 and 9, 4, 1: the first number that differs counts", &tree(&first), 9, &[9, 3, 8], &[4, 1]);
    let behind = [(9, 5), (5, 6), (6, 0), (5, 4), (4, 0)];
    run.holds("9, 5, 6 and 9, 5, 4", &tree(&behind), 9, &[9, 5, 4], &[6]);
    let four = [(1, 2), (1, 3), (2, 4), (3, 4), (4, 5), (4, 6), (5, 0), (6, 0)];
    run.holds("1 under 2 and 3, these under 4, 4 under 5 and 6", &tree(&four), 1, &[1, 2, 4, 5], &[3, 6]);
    run.t
}

/// Fewest keys come before smaller ones.
fn fewest() -> Transcript {
    let mut run = Run::new("paths-fewest");
    let two = [(1, 3), (3, 0), (1, 7), (7, 0), (1, 2)];
    run.holds("1 under 0, besides under 3 and 7", &tree(&[&two[..], &[(1, 0)]].concat()), 1, &[1], &[3, 7]);
    run.holds("the Rekey SA under 7 of this tree", &tree(&two), 7, &[7], &[1, 3]);
    run.holds("9 under 5, 5 under 0: Key IDs that fall", &tree(&[(5, 0), (9, 5)]), 9, &[9, 5], &[]);
    run.holds("5 under 9, 9 under 0: Key IDs that rise", &tree(&[(9, 0), (5, 9)]), 5, &[5, 9], &[]);
    let smaller = [(9, 1), (1, 2), (2, 0), (9, 8), (8, 0)];
    run.holds("9, 1, 2 is longer than 9, 8", &tree(&smaller), 9, &[9, 8], &[1, 2]);
    let behind = [(1, 2), (2, 3), (3, 4), (4, 0), (2, 5), (5, 0)];
    run.holds("1, 2, 3, 4 is longer than 1, 2, 5", &tree(&behind), 1, &[1, 2, 5], &[3, 4]);
    let both = [(1, 2), (1, 3), (2, 4), (4, 5), (5, 0), (2, 6), (6, 0), (3, 0)];
    run.holds("1, 2, 6 and 1, 2, 4, 5 are longer than 1, 3", &tree(&both), 1, &[1, 3], &[2, 4, 5, 6]);
    run.t
}

/// Chains may come back to a key, the path never does; and an entry that comes twice is one link.
fn cycles() -> Transcript {
    let mut run = Run::new("paths-cycles");
    run.holds("9 under 8, 8 under 0, each twice", &tree(&[(9, 8), (8, 0), (9, 8), (8, 0)]), 9, &[9, 8], &[]);
    run.holds("9 under 8, 8 under 9 and under 0", &tree(&[(9, 8), (8, 9), (8, 0)]), 9, &[9, 8], &[]);
    let back = [(5, 9), (9, 1), (1, 5), (9, 0)];
    run.holds("9 under 0, 5 under 9, 1 under 5, 9 under 1", &tree(&back), 5, &[5, 9], &[1]);
    let whole = [(1, 2), (2, 3), (3, 1), (3, 0)];
    run.holds("1 under 2, 2 under 3, 3 under 1 and under 0", &tree(&whole), 1, &[1, 2, 3], &[]);
    run.holds("the same, the Rekey SA under 3", &tree(&whole), 3, &[3], &[1, 2]);
    let after = [(5, 9), (9, 0), (3, 5), (4, 3), (3, 4)];
    run.holds("3 and 4 wrap each other, 3 under 5, 5 under 9", &tree(&after), 5, &[5, 9], &[3, 4]);
    let beside = [(5, 9), (9, 0), (3, 2), (2, 3)];
    run.holds("2 and 3 wrap each other and are not reached", &tree(&beside), 5, &[5, 9], &[2, 3]);
    run.t
}

/// An entry that fails its check makes no chain.
fn closed_entries() -> Transcript {
    let mut run = Run::new("paths-closed");
    let with_closed = |(id, kwk_id): Link, links: &[Link]| [vec![Attribute::key(id, kwk_id, &[4; 24])], tree(links)].concat();
    let shorter = with_closed((5, 0), &[(5, 9), (9, 0)]);
    run.holds("5 under 0 fails; 5 under 9, 9 under 0", &shorter, 5, &[5, 9], &[]);
    let smaller = with_closed((1, 3), &[(3, 0), (1, 7), (7, 0)]);
    run.holds("1 under 3 fails; 1 under 7, both under 0", &smaller, 1, &[1, 7], &[3]);
    let behind = with_closed((1, 0), &[(9, 1), (9, 8), (8, 0)]);
    run.holds("9 under 1, which fails under 0; 9 under 8, 8 under 0", &behind, 9, &[9, 8], &[1]);
    let twice = with_closed((9, 8), &[(9, 8), (8, 0)]);
    run.holds("9 under 8 fails once and opens once", &twice, 9, &[9, 8], &[]);
    run.t
}

/// No Rekey SA, or one whose key the default key opens: no key is held, whatever was held before.
fn no_path() -> Transcript {
    let mut run = Run::new("paths-none");
    let entries = tree(&[(5, 9), (9, 0)]);
    run.holds("the Rekey SA under 0: 5 and 9 are reached and not held", &entries, 0, &[], &[5, 9]);
    run.registers("the Rekey SA under 5", &entries, 5, &[5, 9]);
    run.holds("the Rekey SA under 0: 5 and 9 are held no longer", &entries, 0, &[], &[5, 9]);
    run.registers("the Rekey SA under 5", &entries, 5, &[5, 9]);
    run.tick += 1000 * LIFE;
    let esp_sa = for_seconds(esp(1, &lent()), LIFE);
    run.t.frame("an ESP SA and no Rekey SA: 5 and 9 are held no longer", run.tick, &registration(&[esp_sa], &entries), "0 1 0");
    let one = lived(esp_text(1, "live"), run.tick, LIFE);
    run.t.then(&[one.clone(), least(0)]);
    let first = inband(announce(&[sa_under(0xa0, &[0])]));
    run.t.frame("the first Rekey SA, over the own channel", run.tick, &first, "0 2 0");
    run.t.then(&[one, lived(rekey_text(0xa0, "live"), run.tick, LIFE), least(0)]);
    for id in [5, 9] {
        let frame = rekey(0xa0, 0, announce(&[sa_under(0xb0, &[id])]));
        run.t.frame(&format!("a copy under {id}, which is not held"), run.tick, &frame, "9 2 0");
    }
    run.t
}

/// RFC 9838, Appendix A.2: the members A to H of one group. Of A.3 the new Rekey SA under the default key; of A.4 the copies under 1 and
/// 15, without the Member bag, which a rekey may not have.
fn key_tree() -> Transcript {
    let mut run = Run::new("key-tree");
    let members = [
        ("A", [1, 3, 7]),
        ("B", [1, 3, 8]),
        ("C", [1, 4, 9]),
        ("D", [1, 4, 10]),
        ("E", [2, 5, 11]),
        ("F", [2, 5, 12]),
        ("G", [2, 6, 13]),
        ("H", [2, 6, 14]),
    ];
    for (name, path) in members {
        let [top, middle, own] = path;
        let entries = tree(&[(top, middle), (middle, own), (own, 0)]);
        run.registers(&format!("{name} registers: {top}, {middle}, {own}"), &entries, top, &path);
        let others: Vec<u32> = (7..=14).filter(|id| *id != own).collect();
        let excluded = rekey(0xa0, 0, announce(&[sa_under(0xb0, &others)]));
        run.t.frame("b0 under the own keys of all others", run.tick, &excluded, "9 1 3");
        let default = for_seconds(rekey_sa(0xb0, &[(0, default_key(0xa0))]), LIFE);
        run.t.frame("b0 under the default key", run.tick, &rekey(0xa0, 0, announce(&[default])), "0 2 3");
        run.then(Some(0xa0), 0xb0, &path);
        let copies = rekey(0xb0, 0, announce(&[sa_under(0xc0, &[1, 15])]));
        let taken = top == 1;
        run.t.frame("c0 under 1 and 15", run.tick, &copies, if taken { "0 2 3" } else { "9 2 3" });
        if taken {
            run.then(Some(0xb0), 0xc0, &path);
        }
    }
    run.t
}
