//! Which keys of its tree a registered member holds (document 02, T-04): rekeys with one copy under a key of the tree.

use crate::case::Case;
use crate::lives::without_lifetime;
use crate::scene::Shape;
use crate::script::Writer;
use crate::violations::Exchange;
use builder::typical::lifetime;
use builder::{ESP, REKEY};

/// What must come about in every long run of the comparer: rekeys, of which the first is taken, and a registration.
pub const MET: [&str; 4] = [
    "a copy under a key on the path",
    "a copy under a key off the path",
    "a copy under a key of the tree, after a registration without a Rekey SA",
    "a registration without a Rekey SA that ends a held list",
];

/// How many keys of a tree are tried.
const TRIED: usize = 4;

/// A rekey with a Rekey SA alone.
const REKEY_SA_ALONE: Shape = Shape { rekey: true, esp: 0, group_wide: false, keys: 0, further: 0, deletes: false };

impl Writer<'_> {
    /// A registration that must be accepted, and rekeys that tell which keys are held after it.
    pub fn registers(&mut self, shape: Shape) {
        if let Some(case) = self.taken(Exchange::Registration, shape) {
            self.try_keys(&case);
        }
    }

    /// A rekey for some keys of the registration's tree, each with one copy of the new Rekey SA's key: accepted on the path, 9 off it.
    pub fn try_keys(&mut self, registration: &Case) {
        let without_rekey_sa = registration.sa_key(REKEY).is_none();
        let mut keys = registration.keys.clone();
        self.scene.rng.shuffle(&mut keys);
        for (id, value) in keys.into_iter().take(TRIED) {
            let held = registration.path.clone().unwrap_or_else(|| self.held_ids()).contains(&id);
            let Some(mut case) = self.scene.rekey(REKEY_SA_ALONE) else { return };
            if case.only_copy(id, &value).is_none() {
                return;
            }
            let name = MET[if held { 0 } else { 1 + without_rekey_sa as usize }];
            self.claim(&case, if held { 0 } else { 9 }, name);
            self.tally.path(name);
        }
    }

    /// A registration with a tree and an ESP SA alone, of a member that has run out: no key is held after it. The SA is due at once, so
    /// that the member may register again.
    pub fn ends_held_list(&mut self, shape: Shape) {
        let held = !self.scene.member.held.is_empty();
        let mut case = self.scene.registration(Shape { rekey: false, esp: 1, ..shape });
        let policy = case.policy(ESP).expect("an ESP policy");
        without_lifetime(policy);
        policy.attributes.push(lifetime(0));
        self.claim(&case, 0, MET[3]);
        if held {
            self.tally.path(MET[3]);
        }
    }

    /// Complains where a registration, whose path is known, left another held list.
    pub fn holds_path(&mut self, case: &Case) {
        let held = self.held_ids();
        if let Some(path) = case.path.as_ref().filter(|path| **path != held) {
            let at = format!("seed {}, line {}", self.seed, self.lines.len());
            self.tally.complain(format!("{at}: held {held:?}, not {path:?}"));
        }
    }

    fn held_ids(&self) -> Vec<u32> {
        self.scene.member.held.iter().map(|key| key.0).collect()
    }
}
