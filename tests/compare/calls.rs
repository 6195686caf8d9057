//! Lines of `trace` between the frames: sweeps, leaving, questions, other lent keys, and lines that are nearly one of these.

use crate::lives::borders;
use crate::scene::Scene;
use crate::script::Writer;
use crate::violations::Exchange;
use builder::line::hex;
use builder::{ESP, REKEY};
use reference::fragments::Collection;
use reference::member::is_wrap_key_size;
use reference::trace;

pub const SEALED: &str = "a line of a sealed frame";
pub const FRAGMENT: &str = "a line of a fragment";

/// What must occur.
pub const ALL: [&str; 12] = [
    "sweep that removes",
    "sweep that removes nothing",
    "leaving",
    "lent key",
    "question: none",
    "question: an SA that is due",
    "question: a live SA",
    "question: a retiring SA",
    "a member with the profile",
    SEALED,
    "journal",
    FRAGMENT,
];

const PERCENT: usize = 25;

impl Writer<'_> {
    /// Sometimes some other calls, before a frame of that exchange. One that comes with a lent key finds one that fits.
    pub fn other_calls(&mut self, exchange: Exchange) {
        if exchange == Exchange::Inband && !is_wrap_key_size(self.scene.lent.len()) {
            self.fit_lent_key();
        }
        while self.scene.rng.chance(PERCENT) {
            match self.scene.rng.below(8) {
                0 | 1 => self.sweep(),
                2 if self.scene.member.is_empty(self.scene.tick) || exchange != Exchange::Rekey => self.fit_lent_key(),
                2 => self.any_lent_key(),
                3 => self.nearly_a_call(),
                _ => self.question(),
            }
        }
    }

    /// A member with the profile in the place of the new one.
    pub fn profile(&mut self) {
        self.line(b"p01".to_vec(), "a member with the profile".to_string());
    }

    /// Leaves, and takes a lent key that fits.
    pub fn leave(&mut self) {
        self.line(b"l".to_vec(), "leaving".to_string());
        self.question();
        self.fit_lent_key();
    }

    /// A registration, or a rekey over the own channel, with a lent key of another size than 16, 24 and 32, and then the one of before.
    pub fn unfit_lent_key(&mut self, exchange: Exchange) {
        let before = self.scene.lent.clone();
        let size = self.scene.rng.pick(&[0, 1, 15, 17, 20, 23, 25, 28, 31, 33, 48, 64, 100]);
        self.lent_key(size);
        let shape = self.scene.full_shape();
        let case = if exchange == Exchange::Inband { self.scene.inband(shape) } else { Some(self.scene.registration(shape)) };
        if let Some(case) = case {
            self.claim(&case, 5, "a frame with an unfit lent key");
        }
        self.line([b"k", hex(&before).as_slice()].concat(), "the lent key of before".to_string());
    }

    fn lent_key(&mut self, size: usize) {
        let octets = self.scene.rng.octets(size);
        self.line([b"k", hex(&octets).as_slice()].concat(), "another lent key".to_string());
    }

    pub fn fit_lent_key(&mut self) {
        let size = self.scene.rng.pick(&[16, 24, 32]);
        self.lent_key(size);
    }

    fn any_lent_key(&mut self) {
        let size = self.scene.rng.pick(&[0, 16, 16, 20, 24, 32, 33, 64]);
        self.lent_key(size);
    }

    /// Now, at the border of being due, or at any time.
    fn sweep(&mut self) {
        let dues = borders(&self.scene.member);
        let tick = match self.scene.rng.below(8) {
            0..=2 => self.scene.tick,
            7 => self.scene.rng.number() as u32,
            _ if dues.is_empty() => self.scene.tick,
            _ => self.scene.rng.pick(&dues).wrapping_add(self.scene.rng.below(3) as u32).wrapping_sub(1),
        };
        self.line([b"s", hex(&tick.to_be_bytes()).as_slice()].concat(), "sweep".to_string());
    }

    /// About an SA of the table, or by a protocol or an SPI that is not quite its own.
    fn question(&mut self) {
        let any = (self.scene.rng.pick(&[0, 2, ESP, REKEY, 255]), self.scene.rng.octets(4));
        let names: Vec<(u8, Vec<u8>)> = self.scene.member.table.iter().map(|sa| (sa.protocol, sa.spi.clone())).collect();
        let (mut protocol, mut spi) = if names.is_empty() { any } else { self.scene.rng.pick(&names) };
        let at = self.scene.rng.below(spi.len());
        match self.scene.rng.below(10) {
            0 => protocol = self.scene.rng.pick(&[0, 1, 2, ESP, REKEY, 7, 131]),
            1 => spi[at] ^= 1 << self.scene.rng.below(8),
            2 => spi.truncate(at),
            3 => spi.resize(self.scene.rng.pick(&[4, 5, 8, 16, 17, 300]), 0),
            _ => {}
        }
        self.line([b"q", hex(&[protocol]).as_slice(), &hex(&spi)].concat(), "question".to_string());
    }

    fn nearly_a_call(&mut self) {
        let letter = self.scene.rng.pick(b"kslqkslqjpxyzKSLQ ");
        let count = self.scene.rng.pick(&[0, 1, 2, 7, 8, 9, 10, 31, 33, 63, 65, 32_776, 32_777, 32_778, 40_000]);
        let mut line = vec![letter];
        line.resize(1 + count, b'0');
        if self.scene.rng.chance(30) {
            let at = self.scene.rng.below(line.len());
            line[at] = self.scene.rng.pick(b"AFgx \r\0\xff");
        }
        // The run goes on with the member and the lent key that it has.
        let is_call = trace::call(&mut self.scene.member.clone(), &mut Vec::new(), &mut Collection::default(), &line).is_some();
        if is_call && matches!(letter, b'k' | b'l' | b'p') {
            return;
        }
        self.line(line, "nearly a call".to_string());
    }

    /// Takes the member and the lent key through a line that is no frame; whether it is a call.
    pub fn other_call(&mut self, line: &[u8]) -> bool {
        let (before, tick) = (self.scene.member.clone(), self.scene.tick);
        let Scene { member, lent, kept, .. } = &mut self.scene;
        let Some(reply) = trace::call(member, lent, kept, line) else { return false };
        let swept = before.table.len() - self.scene.member.table.len();
        let asked = || before.table.iter().find(|sa| line[3..] == hex(&sa.spi)).is_some_and(|sa| sa.is_due(tick));
        self.tally.call(match (line[0], reply.as_str()) {
            (b's', _) if swept > 0 => ALL[0],
            (b's', _) => ALL[1],
            (b'l', _) => ALL[2],
            (b'k', _) => ALL[3],
            (b'p', _) => ALL[8],
            (b'x', _) => SEALED,
            (b'j', _) => ALL[10],
            (b'y', _) => FRAGMENT,
            (_, "none") => ALL[4],
            _ if asked() => ALL[5],
            (_, found) if found.contains(" live ") => ALL[6],
            _ => ALL[7],
        });
        true
    }
}
