//! The worst frames of 16,384 octets: as many of the smallest structures as fit, what matters behind them, hundreds of names, as much to
//! open as may be asked for. Most are refused, so that a member answers them alike as often as they come.

mod accepted;
mod attributes;
mod behind;
mod names;
mod openings;
mod payloads;

use crate::group::{announce, Group, Key, Sa};
use crate::Input;
use builder::line::line;
use builder::typical::*;
use builder::{Attribute, Body, Frame, Payload, ESP, NOTIFY, REKEY};

const MOST_FRAME: usize = 16_384;

/// What a member holds at most, and how many of its SAs one frame brings.
const MOST_HELD: u32 = 128;
const MOST_SAS: u32 = 64;
const MOST_ESP_POLICIES: u32 = 24;

/// Of wrapping keys and AES keys: the longest take longest.
const KEY_SIZE: usize = 32;

/// The wrapped octets of the longest key.
const LONGEST: usize = 264;

pub struct Hostile {
    pub name: &'static str,
    number: u8,
    /// Where the layout breaks, printed for number 1 alone.
    offset: usize,
    situation: Situation,
    lines: Lines,
}

/// The member that the frame meets.
enum Situation {
    New,
    /// With a Rekey SA and as many held keys as may be.
    Registered,
    /// With one ESP SA besides, of SPI 1.
    OneEsp,
    /// With 24 of them, as many as a frame brings.
    ManyEsps,
    /// With so many of them that 24 more fit.
    RoomForMany,
    /// With so many of them that the table is full.
    Full,
    /// New, or with an SA that is due: every frame registers anew, with a Rekey SA that is due at once and as many held keys as may be.
    RunOut,
}

enum Lines {
    /// The same refused frame again and again.
    Alike(fn(&mut Group) -> Frame),
    /// A frame by its turn, from 1: accepted ones cannot be alike.
    ByTurn(fn(&mut Group, u32) -> Frame),
}

const fn new(number: u8, name: &'static str, make: fn(&mut Group) -> Frame) -> Hostile {
    Hostile { name, number, offset: 0, situation: Situation::New, lines: Lines::Alike(make) }
}

/// A new member's, whose layout breaks at that offset.
const fn broken(offset: usize, name: &'static str, make: fn(&mut Group) -> Frame) -> Hostile {
    Hostile { name, number: 1, offset, situation: Situation::New, lines: Lines::Alike(make) }
}

const fn registered(number: u8, name: &'static str, make: fn(&mut Group) -> Frame) -> Hostile {
    Hostile { name, number, offset: 0, situation: Situation::Registered, lines: Lines::Alike(make) }
}

const fn full(number: u8, name: &'static str, make: fn(&mut Group) -> Frame) -> Hostile {
    Hostile { name, number, offset: 0, situation: Situation::Full, lines: Lines::Alike(make) }
}

const fn room_for_many(number: u8, name: &'static str, make: fn(&mut Group) -> Frame) -> Hostile {
    Hostile { name, number, offset: 0, situation: Situation::RoomForMany, lines: Lines::Alike(make) }
}

const fn accepted(name: &'static str, situation: Situation, make: fn(&mut Group, u32) -> Frame) -> Hostile {
    Hostile { name, number: 0, offset: 0, situation, lines: Lines::ByTurn(make) }
}

pub fn all() -> impl Iterator<Item = &'static Hostile> {
    let tables = [payloads::TABLE, attributes::TABLE, behind::TABLE, names::TABLE, openings::TABLE, accepted::TABLE];
    tables.into_iter().flatten()
}

impl Hostile {
    pub fn answer(&self) -> String {
        let esp_sas = self.situation.esp_sas();
        match self.lines {
            _ if self.number == 1 => format!("1 0 0 {}", self.offset),
            _ if matches!(self.situation, Situation::New) => format!("{} 0 0", self.number),
            Lines::Alike(_) => format!("{} {} {MOST_HELD}", self.number, 1 + esp_sas),
            Lines::ByTurn(_) if matches!(self.situation, Situation::Full) => format!("{} {MOST_SAS} {MOST_HELD}", self.number),
            // As many ESP SAs come as retire, and those that the frame before retired have gone.
            Lines::ByTurn(_) => format!("{} {} {MOST_HELD}", self.number, 1 + 2 * esp_sas),
        }
    }

    /// So many frames, and lines of the same digits of which only the last is none: the difference of the two is what a frame costs
    /// beyond reading its digits.
    pub fn inputs(&self, count: u32) -> [Input; 2] {
        let mut group = Group::new(KEY_SIZE, MOST_HELD);
        let mut frames = Input::new(&group.lent);
        self.situation.arise(&mut group, &mut frames);
        let mut bad_lines = frames.clone();
        let answer = self.answer();
        for good in self.lines.text(&mut group, count) {
            frames.line(&good, &answer);
            bad_lines.line(&[&good[..good.len() - 1], b"g"].concat(), "bad");
        }
        [frames, bad_lines]
    }
}

impl Lines {
    fn text(&self, group: &mut Group, count: u32) -> Vec<Vec<u8>> {
        match self {
            Lines::Alike(make) => vec![line(0, &padded(make(group)).octets()); count as usize],
            Lines::ByTurn(make) => (1..=count).map(|turn| line(turn, &padded(make(group, turn)).octets())).collect(),
        }
    }
}

impl Situation {
    /// How many ESP SAs the member has before the frames.
    fn esp_sas(&self) -> u32 {
        match self {
            Situation::New | Situation::Registered | Situation::RunOut => 0,
            Situation::OneEsp => 1,
            Situation::ManyEsps => MOST_ESP_POLICIES,
            Situation::Full => MOST_SAS - 1,
            Situation::RoomForMany => MOST_SAS - 1 - MOST_ESP_POLICIES,
        }
    }

    /// The lines that bring a new member there.
    fn arise(&self, group: &mut Group, input: &mut Input) {
        if matches!(self, Situation::New | Situation::RunOut) {
            return;
        }
        input.frame(0, &group.registration(), &format!("0 1 {MOST_HELD}"));
        let spis: Vec<u32> = (1..=self.esp_sas()).collect();
        for spis in spis.chunks(MOST_ESP_POLICIES as usize) {
            let sas = spis.iter().map(|spi| group.esp_sa(*spi)).collect();
            input.frame(0, &group.rekey(announce(sas)), &format!("0 {} {MOST_HELD}", 1 + spis[spis.len() - 1]));
        }
    }
}

/// The frame with a payload in front that is not read, as long as it takes. All that these frames hold comes in fours of octets.
fn padded(mut frame: Frame) -> Frame {
    let room = room(&frame);
    if room > 0 {
        frame.payloads.insert(0, Payload::new(NOTIFY, Body::Plain(vec![0; room - 4])));
    }
    assert_eq!(frame.octets().len(), MOST_FRAME);
    frame
}

fn room(frame: &Frame) -> usize {
    MOST_FRAME - frame.octets().len()
}

/// Where GSA and KD stand in a frame that has them first.
const GSA_AT: usize = 0;
const KD_AT: usize = 1;

/// Adds as many structures of so many octets as fit.
fn fill(mut frame: Frame, octets: usize, add: impl FnOnce(&mut Frame, usize)) -> Frame {
    let count = room(&frame) / octets;
    add(&mut frame, count);
    frame
}

fn registration(payloads: Vec<Payload>) -> Frame {
    frame(GSA_AUTH, &[0; 16], 1, payloads)
}

/// The smallest wrapped octets, and they open under no key: refusal 9 if nothing else is amiss, so that everything else is judged.
fn closed() -> Vec<u8> {
    vec![0x5a; 16]
}

/// An attribute that nobody reads, the smallest.
fn skipped() -> Attribute {
    Attribute::long(99, &[])
}

/// As many of them as fit, in front of the other attributes of a policy or bag.
fn fill_part(frame: Frame, payload: usize, part: usize) -> Frame {
    fill(frame, 4, |frame, count| {
        frame.payloads[payload].parts()[part].attributes.splice(0..0, vec![skipped(); count]);
    })
}

/// As many of the smallest payloads as fit, in front of the others.
fn fill_front(frame: Frame) -> Frame {
    fill(frame, 4, |frame, count| {
        frame.payloads.splice(0..0, vec![Payload::new(NOTIFY, Body::Plain(vec![])); count]);
    })
}

/// An ESP SA whose key does not open.
fn closed_esp(spi: u32) -> Sa {
    let spi = spi.to_be_bytes();
    (esp_policy(&spi, 256), bag(ESP, &spi, vec![Attribute::key(0, 0, &closed())]))
}

/// The last of the keys that a member holds, as many as a bag may have copies.
fn last_held(group: &Group) -> Vec<Key> {
    group.held[group.held.len() - 32..].to_vec()
}

/// A Rekey SA with these copies.
fn rekey_sa(copies: Vec<Attribute>) -> Sa {
    let spi = [0xc5; 16];
    (rekey_policy(&spi, 256, 3), bag(REKEY, &spi, copies))
}

/// A Rekey SA and an ESP SA whose keys do not open: payload 0 is GSA with their policies, payload 1 KD with their bags.
fn closed_sas() -> Vec<Payload> {
    announce(vec![rekey_sa(vec![Attribute::key(0, 0, &closed())]), closed_esp(1)])
}
