//! Sealed frames among the lines of `trace` (document 02, T-05): rekeys that come sealed in the place of opened ones, and sealed frames
//! that break one rule before they are opened, or two.

use crate::calls;
use crate::scene::Scene;
use crate::script::Writer;
use crate::violations::Exchange;
use builder::line::hex;
use builder::rng::Rng;
use builder::{Body, Payload, NOTIFY};
use reference::layout::MOST_FRAME;
use reference::sealing::{seal_frame, seal_plain, Choice};
use reference::trace;

const GSA_REKEY: u8 = 41;
const HEADER: usize = 28;
/// What sealing adds: the payload's header, IV, pad length, tag.
const ADDED: usize = 4 + 8 + 1 + 16;
const PERCENT: usize = 50;
const FULL_PERCENT: usize = 2;

/// What must occur, beside each break.
pub const MET: [&str; 5] = [
    "sealed: accepted",
    "sealed: refused as opened",
    "sealed: pad length above",
    "sealed: nothing but padding",
    "sealed: 16,384 octets",
];

/// A sealed frame in the making, and the room that it will find.
struct Sealed {
    octets: Vec<u8>,
    room: usize,
}

impl Sealed {
    fn set(&mut self, at: usize, octet: u8) {
        self.octets[at] = octet;
    }

    fn flip(&mut self, at: usize, rng: &mut Rng) {
        self.octets[at] ^= 1 << rng.below(8);
    }

    /// Cuts the frame, and sets the header's length and the payload's.
    fn cut(&mut self, to: usize) {
        self.octets.truncate(to);
        self.octets[24..HEADER].copy_from_slice(&(to as u32).to_be_bytes());
        if let Some(length) = self.octets.get_mut(30..32) {
            length.copy_from_slice(&((to - HEADER) as u16).to_be_bytes());
        }
    }
}

/// A rule that a sealed frame breaks before it is opened: the number, and how.
pub struct Break {
    pub name: &'static str,
    number: u8,
    make: fn(&mut Sealed, &mut Rng),
}

const fn of(name: &'static str, number: u8, make: fn(&mut Sealed, &mut Rng)) -> Break {
    Break { name, number, make }
}

pub const BREAKS: [Break; 19] = [
    of("sealed: header length", 1, |sealed, rng| sealed.flip(24 + rng.below(4), rng)),
    of("sealed: major version", 1, |sealed, _| sealed.octets[17] ^= 0x10),
    of("sealed: an Encrypted Fragment", 1, |sealed, _| sealed.set(16, 53)),
    of("sealed: a Delete first", 1, |sealed, _| sealed.set(16, 42)),
    of("sealed: payload length over the end", 1, |sealed, _| sealed.set(30, 0xff)),
    of("sealed: payload length 3", 1, |sealed, _| sealed.octets[30..32].copy_from_slice(&[0, 3])),
    of("sealed: an octet behind", 1, |sealed, rng| {
        sealed.octets.push(rng.number() as u8);
        let length = sealed.octets.len() as u32;
        sealed.octets[24..HEADER].copy_from_slice(&length.to_be_bytes());
    }),
    of("sealed: 31 octets", 1, |sealed, _| sealed.cut(31)),
    of("sealed: GSA_INBAND_REKEY", 2, |sealed, _| sealed.set(18, 42)),
    of("sealed: GSA_AUTH", 2, |sealed, _| sealed.set(18, 39)),
    of("sealed: other SPIs", 2, |sealed, rng| sealed.flip(rng.below(16), rng)),
    of("sealed: a body of 24 octets", 10, |sealed, _| sealed.cut(56)),
    of("sealed: no body", 10, |sealed, _| sealed.cut(32)),
    of("sealed: the tag", 10, |sealed, rng| sealed.flip(sealed.octets.len() - 1 - rng.below(16), rng)),
    of("sealed: the IV", 10, |sealed, rng| sealed.flip(32 + rng.below(8), rng)),
    of("sealed: the ciphertext", 10, |sealed, rng| sealed.flip(40, rng)),
    of("sealed: flags", 10, |sealed, rng| sealed.flip(19, rng)),
    of("sealed: RESERVED", 10, |sealed, rng| sealed.flip(29, rng)),
    of("sealed: room", 10, |sealed, rng| sealed.room = rng.pick(&[0, 1, 27, 28, 4_096, 16_383])),
];

/// What is judged first of the numbers before opening.
fn earlier(a: u8, b: u8) -> u8 {
    a.min(b)
}

impl Writer<'_> {
    pub fn choice(&mut self) -> Choice {
        let rng = &mut self.scene.rng;
        let count = rng.pick(&[0, 0, 0, 1, 2, 15, 16, 254, 255]);
        let iv = rng.octets(8).try_into().expect("eight octets");
        Choice { reserved: rng.pick(&[0, 0, 0x80, 0xff]), iv, padding: rng.octets(count) }
    }

    /// GSK_e of the live Rekey SA.
    pub fn gsk_e(&self) -> Option<Vec<u8>> {
        Some(self.scene.member.live_rekey()?.encryption_key().to_vec())
    }

    /// Whether these are the octets of a GSA_REKEY whose header counts them, in a script of `trace`.
    pub fn may_be_sealed(&self, octets: &[u8]) -> bool {
        let counted = octets.len() >= HEADER && octets[24..HEADER] == (octets.len() as u32).to_be_bytes();
        self.tracing && counted && octets[18] == GSA_REKEY
    }

    /// The sealed form of a frame's octets, sometimes, if it has room to grow.
    pub fn sealed_form(&mut self, octets: &[u8]) -> Option<Vec<u8>> {
        if !self.may_be_sealed(octets) || !self.scene.rng.chance(PERCENT) {
            return None;
        }
        let (gsk_e, choice) = (self.gsk_e()?, self.choice());
        if octets.len() + ADDED + choice.padding.len() > MOST_FRAME {
            return None;
        }
        Some(seal_frame(&gsk_e, octets, &choice))
    }

    /// The line of a sealed frame, and the number of its answer.
    pub fn sealed_line(&mut self, octets: &[u8], room: usize, label: String) -> u8 {
        let tick = self.scene.tick;
        let line = [b"x", hex(&(room as u32).to_be_bytes()).as_slice(), &hex(&tick.to_be_bytes()), &hex(octets)].concat();
        let Scene { member, lent, kept, .. } = &mut self.scene;
        let reply = trace::call(member, lent, kept, &line).expect("a good line");
        let number = reply.split_whitespace().nth(1).and_then(|word| word.parse().ok()).expect("a number");
        let name = match number {
            0 => Some(MET[0]),
            1 if reply.contains("wrote") => Some(MET[1]),
            3..=9 => Some(MET[1]),
            _ => None,
        };
        name.into_iter().for_each(|name| self.tally.sealed(name));
        self.tally.call(calls::SEALED);
        self.push(line, label, None);
        number
    }

    /// Sealed rekeys that break one rule before they are opened, and two.
    pub fn sealed_breaks(&mut self) {
        let at = self.scene.rng.below(BREAKS.len());
        self.sealed_break(&[at]);
        let other = self.scene.rng.below(BREAKS.len());
        self.sealed_break(&[at, other]);
        self.sealed_padding();
        if self.scene.rng.chance(FULL_PERCENT) {
            self.sealed_full();
        }
    }

    /// A sealed frame of as many octets as may be.
    fn sealed_full(&mut self) -> Option<()> {
        let shape = self.scene.full_shape();
        let mut case = self.fit_frame(Exchange::Rekey, shape)?;
        let free = (MOST_FRAME - ADDED).checked_sub(case.frame.octets().len() + 4)?;
        case.insert(Payload::new(NOTIFY, Body::Plain(self.scene.rng.octets(free))));
        let octets = seal_frame(&self.gsk_e()?, &case.frame.octets(), &Choice::default());
        let number = self.sealed_line(&octets, MOST_FRAME, MET[4].to_string());
        self.tally.sealed(MET[4]);
        if number != 0 || octets.len() != MOST_FRAME {
            self.miss(&format!("\"{}\" gave {number}", MET[4]));
        }
        Some(())
    }

    fn sealed_break(&mut self, which: &[usize]) {
        let Some((octets, _)) = self.sealed_rekey() else { return };
        let mut sealed = Sealed { octets, room: MOST_FRAME };
        // What cuts the frame comes last, since the others need their octets.
        let mut which = which.to_vec();
        which.sort_by_key(|&at| BREAKS[at].name.contains("octets") || BREAKS[at].name.contains("no body"));
        which.dedup();
        which.iter().for_each(|&at| (BREAKS[at].make)(&mut sealed, &mut self.scene.rng));
        let names: Vec<&str> = which.iter().map(|&at| BREAKS[at].name).collect();
        let cuts = names.iter().filter(|name| name.contains("octets") || name.contains("no body")).count();
        let claimed = which.iter().map(|&at| BREAKS[at].number).reduce(earlier);
        let number = self.sealed_line(&sealed.octets, sealed.room, names.join(" + "));
        if let ([name], _) = (names.as_slice(), ()) {
            self.tally.sealed(name);
        }
        // A cut sets the lengths right again, and two alike may undo each other.
        let undone = which.len() == 2 && (cuts > 0 || BREAKS[which[0]].number == BREAKS[which[1]].number);
        if Some(number) != claimed && !undone {
            let line = self.lines.len();
            self.tally.complain(format!("seed {}, line {line}: \"{}\" gave {number}", self.seed, names.join(" + ")));
        }
    }

    /// A rekey sealed for this member, and the opened one.
    fn sealed_rekey(&mut self) -> Option<(Vec<u8>, Vec<u8>)> {
        let shape = self.scene.full_shape();
        let opened = self.fit_frame(Exchange::Rekey, shape)?.frame.octets();
        let (gsk_e, choice) = (self.gsk_e()?, self.choice());
        if opened.len() + ADDED + choice.padding.len() > MOST_FRAME {
            return None;
        }
        Some((seal_frame(&gsk_e, &opened, &choice), opened))
    }

    /// A pad length of one more than the octets before it, and one of just these.
    fn sealed_padding(&mut self) {
        let Some((_, opened)) = self.sealed_rekey() else { return };
        let Some(gsk_e) = self.gsk_e() else { return };
        let count = self.scene.rng.below(255);
        let (choice, above) = (self.choice(), self.scene.rng.chance(50));
        let mut plain = self.scene.rng.octets(count);
        plain.push(count as u8 + above as u8);
        let octets = seal_plain(&gsk_e, &opened, &choice, &plain);
        let name = if above { MET[2] } else { MET[3] };
        let number = self.sealed_line(&octets, MOST_FRAME, name.to_string());
        self.tally.sealed(name);
        if (number == 10) != above {
            let line = self.lines.len();
            self.tally.complain(format!("seed {}, line {line}: \"{name}\" gave {number}", self.seed));
        }
    }
}
