//! Fragments that break one rule, or two: refused by the one that is judged earlier, whatever is kept.

use crate::pieces::refused;
use crate::script::Writer;
use builder::rng::Rng;
use reference::aes::Schedule;
use reference::fragments::{seal_fragment, Place};
use reference::gcm::seal;
use reference::layout::MOST_FRAME;
use reference::sealing::{padded, Choice, HEADER};

/// The octets before the IV, those before number and total, the IV's end.
const IV_AT: usize = 36;
const PLACE_AT: usize = 32;
const IV_END: usize = 44;

/// In the order in which they are judged (document 02, T-12).
const JUDGED: [u8; 5] = [1, 2, 10, 3, 7];

/// A fragment in the making.
struct Making {
    /// The header of the opened frame.
    header: Vec<u8>,
    place: Place,
    /// Its last octet is the pad length.
    plain: Vec<u8>,
    choice: Choice,
    gsk_e: Vec<u8>,
    /// How many octets are authenticated.
    authenticated: usize,
    least_id: u32,
    room: usize,
}

impl Making {
    fn sealed(&self) -> Vec<u8> {
        let octets = seal_fragment(&self.gsk_e, &self.header, self.place, &self.choice, &self.plain);
        if self.authenticated == IV_AT {
            return octets;
        }
        let (key, salt) = self.gsk_e.split_at(self.gsk_e.len() - 4);
        let nonce = [salt, &self.choice.iv].concat().try_into().expect("twelve octets");
        let key = Schedule::expand(key).expect("an AES key");
        [&octets[..IV_END], &seal(&key, nonce, &octets[..self.authenticated], &self.plain)].concat()
    }
}

/// What is done to a fragment before it is sealed, or to its octets.
enum How {
    Made(fn(&mut Making, &mut Rng)),
    Cut(usize),
    Sealed(fn(&mut Vec<u8>, &mut Rng)),
}

use How::{Cut, Made, Sealed};

/// A rule that a fragment breaks, and the number.
pub struct Break {
    pub name: &'static str,
    number: u8,
    how: How,
}

const fn of(name: &'static str, number: u8, how: How) -> Break {
    Break { name, number, how }
}

/// What comes later undoes nothing of what comes before it. Two of one number are not done to one fragment.
pub const BREAKS: [Break; 34] = [
    of("fragment: 33 in all, 7", 7, Made(|making, _| making.place.total = 33)),
    of("fragment: 65,535 in all, 7", 7, Made(|making, _| making.place.total = 65_535)),
    of(
        "fragment: Message ID below the least, 3",
        3,
        Made(|making, rng| {
            let id = rng.below(making.least_id as usize) as u32;
            making.header[20..24].copy_from_slice(&id.to_be_bytes());
        }),
    ),
    of(
        "fragment: pad length above, 10",
        10,
        Made(|making, rng| {
            let count = rng.below(255);
            making.plain = [rng.octets(count), vec![count as u8 + 1]].concat();
        }),
    ),
    of("fragment: under another key, 10", 10, Made(|making, rng| making.gsk_e[rng.below(16)] ^= 1)),
    of("fragment: with another salt, 10", 10, Made(|making, _| *making.gsk_e.last_mut().expect("a salt") ^= 1)),
    of("fragment: number and total not authenticated, 10", 10, Made(|making, _| making.authenticated = PLACE_AT)),
    of("fragment: a room too small, 10", 10, Made(|making, rng| making.room = rng.pick(&[0, 1, 28, 8_192]))),
    of("fragment: a room of 16,383, 10", 10, Made(|making, _| making.room = MOST_FRAME - 1)),
    of("fragment: number 0, 1", 1, Made(|making, _| making.place.number = 0)),
    of(
        "fragment: number above its total, 1",
        1,
        Made(|making, _| {
            making.place = Place { number: making.place.total.max(1).saturating_add(1), total: making.place.total.min(65_534) }
        }),
    ),
    of("fragment: number and total 0, 1", 1, Made(|making, _| making.place = Place { number: 0, total: 0 })),
    of("fragment: number 1 and total 0, 1", 1, Made(|making, _| making.place = Place { number: 1, total: 0 })),
    of("fragment: a body of 28 octets, 10", 10, Cut(60)),
    of("fragment: a body of 4 octets, 10", 10, Cut(36)),
    of("fragment: a body of 3 octets, 1", 1, Cut(35)),
    of("fragment: no body, 1", 1, Cut(32)),
    of("fragment: 31 octets, 1", 1, Cut(31)),
    of("fragment: another number, 10", 10, Sealed(|octets, rng| other_place(octets, rng, PLACE_AT))),
    of("fragment: another total, 10", 10, Sealed(|octets, rng| other_place(octets, rng, PLACE_AT + 2))),
    of("fragment: the IV, 10", 10, Sealed(|octets, rng| flip(octets, IV_AT + rng.below(8), rng))),
    of("fragment: the ciphertext, 10", 10, Sealed(|octets, rng| flip(octets, IV_END, rng))),
    of("fragment: the tag, 10", 10, Sealed(|octets, rng| flip_from_end(octets, rng.below(16), rng))),
    of("fragment: flags, 10", 10, Sealed(|octets, rng| flip(octets, 19, rng))),
    of("fragment: next payload, 10", 10, Sealed(|octets, rng| flip(octets, 28, rng))),
    of("fragment: RESERVED, 10", 10, Sealed(|octets, rng| flip(octets, 29, rng))),
    of("fragment: GSA_INBAND_REKEY, 2", 2, Sealed(|octets, _| octets[18] = 42)),
    of("fragment: other SPIs, 2", 2, Sealed(|octets, rng| flip(octets, rng.below(16), rng))),
    of("fragment: an Encrypted payload, 1", 1, Sealed(|octets, _| octets[16] = 46)),
    of("fragment: a Delete payload, 1", 1, Sealed(|octets, _| octets[16] = 42)),
    of("fragment: header length, 1", 1, Sealed(|octets, rng| flip(octets, 24 + rng.below(4), rng))),
    of("fragment: major version, 1", 1, Sealed(|octets, _| octets[17] ^= 0x10)),
    of("fragment: payload length, 1", 1, Sealed(|octets, rng| flip(octets, 30 + rng.below(2), rng))),
    of(
        "fragment: two payloads, 1",
        1,
        Sealed(|octets, rng| {
            octets.extend([&[0, 0, 0, 4 + 8][..], &rng.octets(8)].concat());
            let length = octets.len() as u32;
            octets[24..HEADER].copy_from_slice(&length.to_be_bytes());
        }),
    ),
];

/// Flips a bit of an octet, if the frame has so many.
fn flip(octets: &mut [u8], at: usize, rng: &mut Rng) {
    if let Some(octet) = octets.get_mut(at) {
        *octet ^= 1 << rng.below(8);
    }
}

fn flip_from_end(octets: &mut [u8], at: usize, rng: &mut Rng) {
    octets.reverse();
    flip(octets, at, rng);
    octets.reverse();
}

/// Changes number or total, two octets each, so that they still fit each other; a place that does not fit stays.
fn other_place(octets: &mut [u8], rng: &mut Rng, at: usize) {
    let two = |at: usize| u16::from_be_bytes([octets[at], octets[at + 1]]);
    if octets.len() < IV_AT || two(PLACE_AT) == 0 || two(PLACE_AT) > two(PLACE_AT + 2) {
        return;
    }
    let (number, total) = (two(PLACE_AT), two(PLACE_AT + 2));
    let other = match at {
        PLACE_AT if number == total => 1 + rng.below(number as usize - 1) as u16,
        PLACE_AT => number + 1,
        _ if total == u16::MAX => total - 1,
        _ => total + 1,
    };
    octets[at..at + 2].copy_from_slice(&other.to_be_bytes());
}

/// Cuts the frame, and sets the header's length and the payload's.
fn cut(octets: &mut Vec<u8>, to: usize) {
    octets.truncate(to);
    octets[24..HEADER].copy_from_slice(&(to as u32).to_be_bytes());
    if let Some(length) = octets.get_mut(30..32) {
        length.copy_from_slice(&((to - HEADER) as u16).to_be_bytes());
    }
}

impl Writer<'_> {
    /// Some fragments that break one rule, and two.
    pub fn broken_fragments(&mut self) -> Option<()> {
        for _ in 0..4 {
            let at = self.scene.rng.below(BREAKS.len());
            self.broken_fragment(&[at])?;
            let other = self.scene.rng.below(BREAKS.len());
            if BREAKS[at].number != BREAKS[other].number {
                self.broken_fragment(&[at.min(other), at.max(other)])?;
            }
        }
        Some(())
    }

    fn broken_fragment(&mut self, which: &[usize]) -> Option<()> {
        let mut making = self.fragment_in_the_making()?;
        if making.least_id == 0 && which.iter().any(|&at| BREAKS[at].number == 3) {
            return Some(());
        }
        let rng = &mut self.scene.rng;
        for &at in which {
            if let Made(make) = &BREAKS[at].how {
                make(&mut making, rng);
            }
        }
        let mut octets = making.sealed();
        for &at in which {
            match &BREAKS[at].how {
                Made(_) => {}
                Cut(to) => cut(&mut octets, *to),
                Sealed(change) => change(&mut octets, rng),
            }
        }
        let names: Vec<&str> = which.iter().map(|&at| BREAKS[at].name).collect();
        let number = JUDGED.into_iter().find(|number| which.iter().any(|&at| BREAKS[at].number == *number))?;
        let gathered = self.fragment_in(making.room, &octets, names.join(" + "));
        match names.as_slice() {
            [name] => self.tally.fragment(name),
            _ => self.tally.fragment(PAIR),
        }
        if gathered != refused(number) {
            self.miss(&format!("\"{}\" gave {gathered:?}", names.join(" + ")));
        }
        Some(())
    }

    /// A fragment of a rekey over the live Rekey SA, whole in all.
    fn fragment_in_the_making(&mut self) -> Option<Making> {
        let count = self.scene.rng.between(2, 5);
        let found = self.rekey_in_pieces(count)?;
        let place = found.place(1 + self.scene.rng.below(count) as u16);
        let choice = self.choice();
        let plain = padded(&found.pieces[place.number as usize - 1], &choice);
        let (header, least_id) = (found.opened[..HEADER].to_vec(), self.scene.member.least_id?);
        Some(Making { header, place, plain, choice, gsk_e: found.gsk_e, authenticated: IV_AT, least_id, room: MOST_FRAME })
    }
}

pub const PAIR: &str = "fragment: two rules broken, refused by the one that is judged earlier";
