//! Fragments that are collected (document 02, T-12): in any order, with copies, other totals, other Message IDs and another Rekey SA in
//! between.

use crate::broken_fragments::{BREAKS, PAIR};
use crate::pieces::{refused, Cut};
use crate::scene::Shape;
use crate::script::Writer;
use crate::violations::Exchange;
use builder::{Body, Payload, NOTIFY};
use reference::fragments::{seal_fragment, Gathered::*};
use reference::layout::MOST_FRAME;
use reference::sealing::{padded, Choice, HEADER};

/// By the number that a complete frame is given.
pub const COMPLETE: [&str; 10] = [
    "complete 0",
    "complete 1",
    "complete 2",
    "complete 3",
    "complete 4",
    "complete 5",
    "complete 6",
    "complete 7",
    "complete 8",
    "complete 9",
];
const WAITS: &str = "waiting";

const ONE: &str = "1 piece";
const TWO: &str = "2 pieces";
const THREE: &str = "3 pieces";
const ALL: &str = "32 pieces";
const EMPTY: &str = "an empty piece";
const COPY: &str = "a copy";
const OTHER_COPY: &str = "a copy with other octets";
const LARGER: &str = "a larger total";
const SMALLER: &str = "a smaller total";
const ONE_OF_ONE: &str = "1 of 1 while a larger total is kept";
const OTHER_ID: &str = "another Message ID, with a smaller total";
const ID_AGAIN: &str = "the first Message ID again";
const OTHER_SA: &str = "another Rekey SA";
const OLD_SA: &str = "the Rekey SA of before, 2";
const BELOW: &str = "a Message ID below the least by then, 3";
const DUE: &str = "the Rekey SA due by then, 2";
const SUM: &str = "16,384 octets";
const FULL: &str = "a fragment of 16,384 octets";
const ALONE: &str = "its octets counted alone, where it starts anew";
const OVER: &str = "16,385 octets so far, 7";
const LARGE_COPY: &str = "a copy that would be too much";
const REFUSED: &str = "a frame that is refused when it is complete";
const AFTER_REFUSED: &str = "a copy after a refused frame";
const AFTER_ACCEPTED: &str = "a copy after an accepted frame, 3";
const AFTER_NEW_SA: &str = "a copy after a new Rekey SA, 2";

/// What a fragment of 16,384 octets holds without padding: both headers, number and total, IV, pad length and tag are the rest.
const FULL_PIECE: usize = MOST_FRAME - (HEADER + 4 + 4 + 8 + 1 + 16);

const MET: [&str; 26] = [
    REFUSED,
    WAITS,
    ONE,
    TWO,
    THREE,
    ALL,
    EMPTY,
    COPY,
    OTHER_COPY,
    LARGER,
    SMALLER,
    ONE_OF_ONE,
    OTHER_ID,
    ID_AGAIN,
    OTHER_SA,
    OLD_SA,
    BELOW,
    DUE,
    SUM,
    FULL,
    ALONE,
    OVER,
    LARGE_COPY,
    AFTER_REFUSED,
    AFTER_ACCEPTED,
    AFTER_NEW_SA,
];

/// Every order of four.
const ORDERS: [&str; 24] = [
    "1 2 3 4", "1 2 4 3", "1 3 2 4", "1 3 4 2", "1 4 2 3", "1 4 3 2", "2 1 3 4", "2 1 4 3", "2 3 1 4", "2 3 4 1", "2 4 1 3",
    "2 4 3 1", "3 1 2 4", "3 1 4 2", "3 2 1 4", "3 2 4 1", "3 4 1 2", "3 4 2 1", "4 1 2 3", "4 1 3 2", "4 2 1 3", "4 2 3 1",
    "4 3 1 2", "4 3 2 1",
];

/// What must occur.
pub fn met() -> impl Iterator<Item = &'static str> {
    // Its last fragment is refused before, where 2 or 3 applies.
    let complete = COMPLETE.into_iter().enumerate().filter(|(number, _)| !matches!(number, 2 | 3)).map(|(_, name)| name);
    MET.into_iter().chain(complete).chain(ORDERS).chain(BREAKS.iter().map(|one| one.name)).chain([PAIR])
}

impl Writer<'_> {
    /// One of the plays below; they take turns.
    pub fn fragments(&mut self, turn: usize) {
        match (self.seed as usize + turn) % 12 {
            0 | 5 => self.orders_of_four(),
            1 | 6 => self.counts(),
            2 | 7 => self.broken_fragments(),
            3 => self.empty_pieces(),
            4 => self.other_totals(),
            8 => self.other_message_ids(),
            9 => self.another_rekey_sa(),
            10 => self.later(),
            _ if self.seed % 4 == 0 => self.sums(),
            _ => self.refused_whole(),
        };
    }

    /// Hands in fragments in this order: all wait but the last, which completes the frame. The number that it is given.
    fn in_order(&mut self, cut: &Cut, numbers: &[u16], name: &'static str) -> Option<u8> {
        let (&last, before) = numbers.split_last()?;
        for &number in before {
            let octets = self.sealed_piece(cut, number);
            self.gets(&octets, WAITS, Waiting);
            if self.scene.rng.chance(15) {
                self.gets(&octets, COPY, PassedOver);
            }
            if self.scene.rng.chance(15) {
                let other = self.scene.rng.octets(9);
                let octets = self.sealed_as(cut, cut.place(number), &other);
                self.gets(&octets, OTHER_COPY, PassedOver);
            }
        }
        let octets = self.sealed_piece(cut, last);
        Some(self.completes(&octets, &cut.opened, name))
    }

    fn orders_of_four(&mut self) -> Option<()> {
        let order = self.scene.rng.pick(&ORDERS);
        let numbers: Vec<u16> = order.split(' ').filter_map(|number| number.parse().ok()).collect();
        let cut = self.rekey_in_pieces(numbers.len())?;
        self.in_order(&cut, &numbers, order).map(|_| ())
    }

    /// Few pieces or as many as may be, in any order; then one of them once more.
    fn counts(&mut self) -> Option<()> {
        let (count, name) = self.scene.rng.pick(&[(1, ONE), (2, TWO), (3, THREE), (32, ALL)]);
        let cut = self.rekey_in_pieces(count)?;
        let mut numbers = cut.numbers();
        match self.scene.rng.below(3) {
            0 => numbers.reverse(),
            1 => self.scene.rng.shuffle(&mut numbers),
            _ => {}
        }
        let number = self.in_order(&cut, &numbers, name)?;
        let same_sa = self.scene.member.live_rekey().is_some_and(|sa| sa.spi == cut.opened[..16]);
        let again = self.scene.rng.pick(&numbers);
        let octets = self.sealed_piece(&cut, again);
        if number == 0 {
            let (name, number) = if same_sa { (AFTER_ACCEPTED, 3) } else { (AFTER_NEW_SA, 2) };
            self.gets(&octets, name, refused(number));
        }
        Some(())
    }

    /// All octets in one piece, or in two with nothing between them.
    fn empty_pieces(&mut self) -> Option<()> {
        let count = self.scene.rng.between(3, 6);
        let mut cut = self.rekey_in_pieces(count)?;
        let at = self.scene.rng.below(count - 1);
        let moved = std::mem::take(&mut cut.pieces[at]);
        cut.pieces[at + 1].splice(..0, moved);
        let mut numbers = cut.numbers();
        self.scene.rng.shuffle(&mut numbers);
        self.in_order(&cut, &numbers, EMPTY).map(|_| ())
    }

    /// A larger total starts anew, a smaller one is passed over.
    fn other_totals(&mut self) -> Option<()> {
        let small = self.rekey_in_pieces(2)?;
        let octets = self.sealed_piece(&small, 2);
        self.gets(&octets, WAITS, Waiting);
        let count = self.scene.rng.pick(&[3, 4, 32]);
        let (large, whole) = (self.cut(&small.opened, count)?, self.cut(&small.opened, 1)?);
        let mut numbers = large.numbers();
        self.scene.rng.shuffle(&mut numbers);
        let octets = self.sealed_piece(&large, numbers[0]);
        self.gets(&octets, LARGER, Waiting);
        self.keeps(&numbers[..1]);
        for number in [1, 2] {
            let octets = self.sealed_piece(&small, number);
            self.gets(&octets, SMALLER, PassedOver);
        }
        let octets = self.sealed_piece(&whole, 1);
        self.gets(&octets, ONE_OF_ONE, PassedOver);
        self.in_order(&large, &numbers[1..], LARGER).map(|_| ())
    }

    /// Another Message ID starts anew, and so does the first one after it.
    fn other_message_ids(&mut self) -> Option<()> {
        let cut = self.rekey_in_pieces(3)?;
        let other = self.with_later_id(&cut, 2)?;
        let octets = self.sealed_piece(&cut, 2);
        self.gets(&octets, WAITS, Waiting);
        let octets = self.sealed_piece(&other, 1);
        self.gets(&octets, OTHER_ID, Waiting);
        self.keeps(&[1]);
        let octets = self.sealed_piece(&cut, 3);
        self.gets(&octets, ID_AGAIN, Waiting);
        self.keeps(&[3]);
        self.in_order(&cut, &[2, 1], THREE).map(|_| ())
    }

    /// A rekey that comes whole while a fragment waits, with a new Rekey SA or without one.
    fn another_rekey_sa(&mut self) -> Option<()> {
        let cut = self.rekey_in_pieces(2)?;
        let octets = self.sealed_piece(&cut, 2);
        self.gets(&octets, WAITS, Waiting);
        let shape = Shape { rekey: self.scene.rng.chance(70), esp: 1, ..self.scene.full_shape() };
        let whole = self.scene.rekey(shape)?;
        self.claim(&whole, 0, "a whole rekey while a fragment waits");
        let octets = self.sealed_piece(&cut, 1);
        if self.scene.member.live_rekey()?.spi == cut.opened[..16] {
            self.gets(&octets, BELOW, refused(3));
            return Some(());
        }
        self.gets(&octets, OLD_SA, refused(2));
        self.keeps(&[2]);
        let next = self.rekey_in_pieces(2)?;
        let octets = self.sealed_piece(&next, 2);
        self.gets(&octets, OTHER_SA, Waiting);
        self.in_order(&next, &[1], OTHER_SA).map(|_| ())
    }

    /// Later fragments: at the last tick of the Rekey SA, and when it is due.
    fn later(&mut self) -> Option<()> {
        let cut = self.rekey_in_pieces(2)?;
        let octets = self.sealed_piece(&cut, 1);
        self.gets(&octets, WAITS, Waiting);
        let (sa, now) = (self.scene.member.live_rekey()?.clone(), self.scene.tick);
        let due = sa.lifetime.map(|lifetime| lifetime.start.wrapping_add(1000 * lifetime.seconds));
        if let Some(due) = due.filter(|due| sa.is_due(*due)) {
            self.scene.tick = due;
            let octets = self.sealed_piece(&cut, 2);
            self.gets(&octets, DUE, refused(2));
        }
        let last = due.map_or(now.wrapping_add(7), |due| due.wrapping_sub(1));
        self.scene.tick = if sa.is_due(last) { now } else { last };
        self.in_order(&cut, &[2], TWO).map(|_| ())
    }

    /// A frame of 16,384 octets, and an octet more, behind a large fragment of another frame, or of the same one with a smaller total.
    fn sums(&mut self) -> Option<()> {
        let shape = Shape { esp: 1, ..self.scene.full_shape() };
        let mut case = self.fit_frame(Exchange::Rekey, shape)?;
        let free = MOST_FRAME.checked_sub(case.frame.octets().len() + 4)?;
        case.insert(Payload::new(NOTIFY, Body::Plain(self.scene.rng.octets(free))));
        let count = self.scene.rng.between(2, 4);
        let cut = self.cut(&case.frame.octets(), count)?;
        self.forget(&cut)?;
        let other = if count == 2 { self.with_later_id(&cut, 2)? } else { self.cut(&cut.opened, 2)? };
        let (full, choice) = ([7; FULL_PIECE], Choice::default());
        let octets = seal_fragment(&other.gsk_e, &other.opened, other.place(2), &choice, &padded(&full, &choice));
        self.gets(&octets, FULL, Waiting);
        let mut numbers = cut.numbers();
        self.scene.rng.shuffle(&mut numbers);
        let (&last, before) = numbers.split_last()?;
        let octets = self.sealed_piece(&cut, before[0]);
        self.gets(&octets, ALONE, Waiting);
        for &number in &before[1..] {
            let octets = self.sealed_piece(&cut, number);
            self.gets(&octets, WAITS, Waiting);
        }
        let longer = [&cut.pieces[last as usize - 1][..], &[7]].concat();
        let octets = self.sealed_as(&cut, cut.place(last), &longer);
        self.gets(&octets, OVER, refused(7));
        let octets = self.sealed_as(&cut, cut.place(before[0]), &longer);
        self.gets(&octets, LARGE_COPY, PassedOver);
        self.in_order(&cut, &[last], SUM).map(|_| ())
    }

    /// A frame that is refused when it is complete, and one of its fragments once more.
    fn refused_whole(&mut self) -> Option<()> {
        let mut cut = self.rekey_in_pieces(2)?;
        let mut opened = cut.opened.clone();
        match self.scene.rng.below(3) {
            0 => opened[16] = 0,
            1 => opened[HEADER + 3] ^= 1,
            _ => opened[16] = 41,
        }
        cut = self.cut(&opened, cut.pieces.len())?;
        let first = 1 + self.scene.rng.below(2) as u16;
        let number = self.in_order(&cut, &[first, 3 - first], REFUSED)?;
        let octets = self.sealed_piece(&cut, first);
        if number != 0 {
            self.gets(&octets, AFTER_REFUSED, Waiting);
        }
        Some(())
    }
}
