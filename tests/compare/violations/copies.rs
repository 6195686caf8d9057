//! Copies of the Rekey SA's key in a rekey: which held keys they name, how often, and how far apart (document 02, T-10).

use crate::case::Case;
use crate::limits::MOST_SA_KEYS;
use builder::wrapping::wrap;
use builder::{Attribute, REKEY};

/// The skipped attributes between two copies that stand far apart.
const BETWEEN: usize = 200;

/// As many copies as may be, all of which name one held key.
pub fn under_one(c: &mut Case) -> Option<()> {
    let (key, one) = (c.sa_key(REKEY)?, held(c)?);
    c.sa_bag(REKEY)?.attributes = vec![copy(&one, &key); MOST_SA_KEYS];
    Some(())
}

/// Keys are held, and no copy names one of them: some are under key 0; the others name no key, and under key 0 they would give another
/// value.
pub fn under_none(c: &mut Case) -> Option<()> {
    held(c)?;
    let (key, unknown) = (c.sa_key(REKEY)?, c.unknown_id());
    let other = c.rng.octets(key.len());
    let (opens, passed_over) = (copy(&(0, c.key0.clone()), &key), copy(&(unknown, c.key0.clone()), &other));
    c.sa_bag(REKEY)?.attributes = vec![passed_over.clone(), opens.clone(), passed_over, opens];
    Some(())
}

/// The first copy and the last name one held key; between them stand copies under other keys and attributes that are skipped. All give
/// the SA's key but the last, which gives `last`.
pub fn far_apart(c: &mut Case, last: &[u8]) -> Option<()> {
    let (key, one) = (c.sa_key(REKEY)?, held(c)?);
    let mut others: Vec<(u32, Vec<u8>)> = c.keys.iter().filter(|other| other.0 != one.0).cloned().collect();
    c.rng.shuffle(&mut others);
    let mut attributes = vec![copy(&one, &key)];
    attributes.extend(others.iter().take(MOST_SA_KEYS - 2).map(|other| copy(other, &key)));
    attributes.extend(vec![Attribute::Short(0x7fff, 0x0102); BETWEEN]);
    attributes.push(copy(&one, last));
    c.sa_bag(REKEY)?.attributes = attributes;
    Some(())
}

/// A held key by chance.
fn held(c: &mut Case) -> Option<(u32, Vec<u8>)> {
    c.keys.get(c.rng.below(c.keys.len())).cloned()
}

fn copy(kwk: &(u32, Vec<u8>), key: &[u8]) -> Attribute {
    Attribute::key(0, kwk.0, &wrap(&kwk.1, key))
}
