//! Trees whose path is known (document 02, T-04): which keys a member holds after its registration, from the one that opens the Rekey SA's
//! key on.

use crate::case::Case;
use builder::wrapping::wrap;
use builder::{Attribute, REKEY};

/// A key, and the key that wraps it. Keys are numbered from 1 on, by rising Key ID; 0 is the key that the whole tree is under.
type Link = (usize, usize);

#[derive(Clone, Copy)]
struct Tree {
    links: &'static [Link],
    /// Those whose octets do not open.
    closed: &'static [Link],
    /// The first of these keys is the one that the Rekey SA's key is under.
    path: &'static [usize],
}

const fn open(links: &'static [Link], path: &'static [usize]) -> Tree {
    Tree { links, closed: &[], path }
}

/// Several chains are as long as the path: the smallest Key IDs count, from the first key on.
const TIES: &[Tree] = &[
    open(&[(1, 2), (2, 0), (1, 3), (3, 0)], &[1, 2]),
    open(&[(3, 1), (1, 0), (3, 2), (2, 0)], &[3, 1]),
    open(&[(2, 1), (1, 0), (2, 3), (3, 0)], &[2, 1]),
    open(&[(1, 4), (4, 0), (1, 3), (3, 0), (1, 2), (2, 0)], &[1, 2]),
    open(&[(5, 2), (2, 4), (4, 0), (5, 3), (3, 1), (1, 0)], &[5, 2, 4]),
    open(&[(4, 3), (3, 1), (1, 0), (3, 2), (2, 0)], &[4, 3, 1]),
    open(&[(1, 2), (1, 3), (2, 4), (3, 4), (4, 5), (4, 6), (5, 0), (6, 0)], &[1, 2, 4, 5]),
];

/// Another chain has smaller Key IDs, and more of them.
const SMALLER: &[Tree] = &[
    open(&[(3, 1), (1, 2), (2, 0), (3, 0)], &[3]),
    open(&[(4, 1), (1, 2), (2, 0), (4, 3), (3, 0)], &[4, 3]),
    open(&[(1, 2), (2, 3), (3, 4), (4, 0), (2, 5), (5, 0)], &[1, 2, 5]),
    open(&[(6, 1), (1, 2), (2, 3), (3, 0), (6, 4), (4, 5), (5, 0)], &[6, 4, 5]),
    open(&[(1, 2), (1, 3), (2, 4), (4, 5), (5, 0), (2, 6), (6, 0), (3, 0)], &[1, 3]),
];

const TWICE: &[Tree] = &[
    open(&[(2, 1), (1, 0), (2, 1), (1, 0)], &[2, 1]),
    open(&[(1, 2), (1, 2), (2, 0), (1, 3), (3, 0), (3, 0)], &[1, 2]),
    open(&[(2, 3), (3, 0), (2, 1), (1, 0), (2, 3), (3, 0)], &[2, 1]),
];

/// Chains come back to a key: on the path, behind it, beside it, or where none starts at key 0.
const CYCLES: &[Tree] = &[
    open(&[(2, 1), (1, 2), (1, 0)], &[2, 1]),
    open(&[(2, 3), (3, 1), (1, 2), (3, 0)], &[2, 3]),
    open(&[(1, 2), (2, 3), (3, 1), (3, 0)], &[1, 2, 3]),
    open(&[(2, 3), (3, 0), (1, 2), (4, 1), (1, 4)], &[2, 3]),
    open(&[(1, 2), (1, 3), (2, 4), (3, 4), (4, 1), (4, 0)], &[1, 2, 4]),
    open(&[(3, 4), (4, 0), (1, 2), (2, 1)], &[3, 4]),
];

/// An entry fails its check, or its KWK ID names no reached key: the chain that it would make is shorter, smaller, or the same.
const CLOSED: &[Tree] = &[
    Tree { links: &[(1, 2), (2, 0)], closed: &[(1, 0)], path: &[1, 2] },
    Tree { links: &[(2, 0), (1, 3), (3, 0)], closed: &[(1, 2)], path: &[1, 3] },
    Tree { links: &[(3, 1), (3, 2), (2, 0)], closed: &[(1, 0)], path: &[3, 2] },
    Tree { links: &[(2, 1), (1, 0)], closed: &[(2, 1), (1, 0)], path: &[2, 1] },
    open(&[(2, 1), (2, 3), (3, 0)], &[2, 3]),
];

const ALL: [&[Tree]; 5] = [TIES, SMALLER, TWICE, CYCLES, CLOSED];

/// The whole tree is under a chain of fewer keys than this.
const BELOW: usize = 4;

pub fn ties(c: &mut Case) -> Option<()> {
    planted(c, TIES)
}

pub fn smaller(c: &mut Case) -> Option<()> {
    planted(c, SMALLER)
}

pub fn twice(c: &mut Case) -> Option<()> {
    planted(c, TWICE)
}

pub fn cycles(c: &mut Case) -> Option<()> {
    planted(c, CYCLES)
}

pub fn closed(c: &mut Case) -> Option<()> {
    planted(c, CLOSED)
}

/// Any of these trees, and the Rekey SA's key under key 0.
pub fn under_default(c: &mut Case) -> Option<()> {
    let trees = c.rng.pick(&ALL);
    planted(c, trees)?;
    let key0 = c.key0.clone();
    c.only_copy(0, &key0)?;
    c.path = Some(Vec::new());
    Some(())
}

/// Puts one of the trees into the Member bag, its entries in any order, and the Rekey SA's key under the first key of its path.
fn planted(c: &mut Case, trees: &[Tree]) -> Option<()> {
    c.sa_bag(REKEY)?;
    let tree = c.rng.pick(trees);
    let count = tree.links.iter().chain(tree.closed).map(|link| link.0.max(link.1)).max()?;
    let below = c.rng.below(BELOW);
    let mut keys = fresh_keys(c, count + below);
    keys[..count].sort();
    let mut chain = vec![(0, c.key0.clone())];
    chain.extend_from_slice(&keys[count..]);
    let at = |place: usize| if place == 0 { &chain[below] } else { &keys[place - 1] };
    let entry = |(id, value): &(u32, Vec<u8>), kwk: &(u32, Vec<u8>)| Attribute::key(*id, kwk.0, &wrap(&kwk.1, value));
    let mut entries: Vec<Attribute> = chain.windows(2).map(|two| entry(&two[1], &two[0])).collect();
    entries.extend(tree.links.iter().map(|link| entry(at(link.0), at(link.1))));
    entries.extend(tree.closed.iter().map(|link| Attribute::key(at(link.0).0, at(link.1).0, &c.rng.octets(24))));
    c.rng.shuffle(&mut entries);
    c.bag(0)?.attributes = entries;
    let (first, first_value) = at(tree.path[0]);
    c.only_copy(*first, first_value)?;
    let ids = tree.path.iter().map(|place| at(*place).0).chain(chain[1..].iter().rev().map(|key| key.0));
    c.path = Some(ids.collect());
    c.keys = keys;
    Some(())
}

/// So many keys, each Key ID once.
fn fresh_keys(c: &mut Case, count: usize) -> Vec<(u32, Vec<u8>)> {
    let mut keys: Vec<(u32, Vec<u8>)> = Vec::new();
    while keys.len() < count {
        let id = c.rng.number() as u32 >> c.rng.below(32);
        if id != 0 && keys.iter().all(|key| key.0 != id) {
            keys.push((id, c.rng.octets(c.key0.len())));
        }
    }
    keys
}
