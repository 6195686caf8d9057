//! Lifetimes in scripts (document 02, T-07): how many policies have one, the ticks that matter, members that have run out.

use crate::case::Case;
use crate::limits::MOST_SECONDS;
use crate::scene::{Scene, Shape};
use crate::script::Writer;
use crate::violations::Exchange;
use builder::line::hex;
use builder::typical::{lifetime, GSA_INBAND_REKEY};
use builder::{Attribute, Part, REKEY};
use reference::member::{Condition, Member, Sa};

/// What must come about in every long run of the comparer: the first two by refused frames, the others by accepted ones.
pub const MET: [&str; 8] = [
    "a rekey over a Rekey SA that ran out",
    "a rekey over the own channel of a member that ran out",
    "a registration of a member that ran out",
    "a live SA that ran out goes",
    "a retiring SA goes by its lifetime",
    "a retiring SA with a lifetime goes by its delay",
    "an SPI that comes again",
    "a rekey over the own channel once the Rekey SA ran out",
];

/// Of 100 policies so many have a lifetime: none, some, or all, so that members run out.
pub fn share(seed: u64) -> usize {
    [0, 40, 100][(seed / 3 % 3) as usize]
}

/// Which of the others came about by an accepted frame.
pub fn met(case: &Case, after: &Member) -> impl Iterator<Item = &'static str> {
    let due: Vec<&Sa> = case.member.table.iter().filter(|sa| sa.is_due(case.tick)).collect();
    let by_lifetime = |sa: &Sa| Sa { condition: Condition::Live, ..sa.clone() }.is_due(case.tick);
    let by_delay = |sa: &Sa| Sa { lifetime: None, ..sa.clone() }.is_due(case.tick);
    let live = |sa: &Sa| sa.condition == Condition::Live;
    let all = [
        case.member.table.len() == due.len() && !due.is_empty(),
        due.iter().any(|sa| live(sa)),
        due.iter().any(|sa| !live(sa) && by_lifetime(sa) && !by_delay(sa)),
        due.iter().any(|sa| sa.lifetime.is_some() && by_delay(sa) && !by_lifetime(sa)),
        due.iter().any(|sa| after.table.iter().any(|new| new.protocol == sa.protocol && new.spi == sa.spi)),
        case.frame.exchange == GSA_INBAND_REKEY && due.iter().any(|sa| sa.protocol == REKEY && live(sa)),
    ];
    MET.into_iter().skip(2).zip(all).filter(|(_, met)| *met).map(|(name, _)| name)
}

/// Where the delay or the lifetime of an SA has just run.
pub fn borders(member: &Member) -> Vec<u32> {
    let run = |start: u32, seconds: u32| start.wrapping_add(seconds.wrapping_mul(1000));
    let both = |sa: &Sa| {
        let delay = match sa.condition {
            Condition::Retiring { start, delay } => Some(run(start, delay as u32)),
            Condition::Live => None,
        };
        delay.into_iter().chain(sa.lifetime.map(|lifetime| run(lifetime.start, lifetime.seconds)))
    };
    member.table.iter().flat_map(both).collect()
}

/// Takes the lifetimes out of a policy.
pub fn without_lifetime(policy: &mut Part) {
    policy.attributes.retain(|attribute| !matches!(attribute, Attribute::Short(1, _) | Attribute::Long { kind: 1, .. }));
}

impl Scene {
    /// Gives policies of the frame a lifetime. A Rekey SA that is due at once is rare: it takes no rekey.
    pub fn give_lifetimes(&mut self, case: &mut Case) {
        let policies = case.policies().expect("GSA").iter_mut().filter(|policy| policy.protocol != 0);
        for policy in policies {
            if !self.rng.chance(self.lives) {
                continue;
            }
            let at_once = policy.protocol != REKEY || self.rng.chance(10);
            let seconds = self.rng.pick(&[1, 1, 2, 30, 3600, MOST_SECONDS - 1, MOST_SECONDS, 0]);
            let at = self.rng.below(policy.attributes.len() + 1);
            policy.attributes.insert(at, lifetime(if seconds == 0 && !at_once { 1 } else { seconds }));
        }
    }

    /// Whether there is a live Rekey SA that has not run out.
    pub fn takes_rekeys(&self) -> bool {
        self.member.live_rekey().is_some_and(|sa| !sa.is_due(self.tick))
    }

    /// A tick at which every SA is due.
    fn tick_of_empty(&mut self) -> Option<u32> {
        let starts = self.member.table.iter().filter_map(|sa| sa.lifetime).map(|lifetime| lifetime.start.wrapping_sub(1));
        let mut ticks: Vec<u32> = borders(&self.member).into_iter().chain(starts).chain([self.tick]).collect();
        ticks.retain(|tick| self.member.is_empty(*tick));
        (!ticks.is_empty()).then(|| self.rng.pick(&ticks))
    }
}

impl Writer<'_> {
    /// Goes on where the Rekey SA has run out, or was swept. A new one comes over the own channel, or the member registers anew where all
    /// its SAs are due, or the clock goes back, or the member leaves. False if it takes no frame any more.
    pub fn go_on(&mut self, shape: Shape) -> bool {
        if self.scene.takes_rekeys() {
            return true;
        }
        self.over_what_ran_out(shape);
        if self.scene.rng.chance(40) {
            self.taken(Exchange::Inband, shape);
        }
        if self.scene.takes_rekeys() {
            return true;
        }
        let lifetime = self.scene.member.live_rekey().and_then(|sa| sa.lifetime).filter(|lifetime| lifetime.seconds > 0);
        match (self.scene.tick_of_empty(), lifetime) {
            (Some(tick), _) => self.register_anew(tick, shape),
            (None, Some(lifetime)) => {
                let past = self.scene.rng.below(1000 * lifetime.seconds as usize) as u32;
                self.scene.tick = lifetime.start.wrapping_add(past);
            }
            (None, None) if self.tracing => {
                self.leave();
                self.registers(shape);
            }
            (None, None) => return false,
        }
        true
    }

    /// A rekey over a Rekey SA that has run out is 2, and for `trace` sometimes the same once the SA is swept.
    fn over_what_ran_out(&mut self, shape: Shape) {
        let Some(sa) = self.scene.member.live_rekey().cloned() else { return };
        let Some(case) = self.scene.rekey_over(&sa, shape) else { return };
        self.claim(&case, 2, MET[0]);
        self.tally.life(MET[0]);
        if self.tracing && self.scene.rng.chance(20) {
            self.line([b"s", hex(&self.scene.tick.to_be_bytes()).as_slice()].concat(), "sweep of what ran out".to_string());
            self.claim(&case, 2, "a rekey over a Rekey SA that ran out and was swept");
        }
    }

    /// A registration of a member that has run out at that tick, with a lent key that fits. The same over the own channel is 2 before that.
    fn register_anew(&mut self, tick: u32, shape: Shape) {
        self.scene.tick = tick;
        if self.tracing {
            self.fit_lent_key();
        }
        let mut own = self.scene.registration(shape);
        own.frame.exchange = GSA_INBAND_REKEY;
        self.claim(&own, 2, MET[1]);
        self.tally.life(MET[1]);
        if self.scene.rng.chance(30) {
            self.ends_held_list(shape);
        }
        self.registers(shape);
    }
}
