//! Rekeys in pieces (document 02, T-12): Encrypted Fragment payloads (RFC 7383), each opened on its own and collected in any order.

use crate::layout::MOST_FRAME;
use crate::member::{Answer, Member};
use crate::sealing::{is_outer, open_payloads, opened_frame, seal_payload, Choice, HEADER, PAYLOAD_HEADER};
use std::collections::BTreeMap;

pub const ENCRYPTED_FRAGMENT: u8 = 53;
pub const MOST_FRAGMENTS: u16 = 32;
const PLACE_AT: usize = HEADER + PAYLOAD_HEADER;
/// Behind number and total, two octets each.
const IV_AT: usize = PLACE_AT + 4;

/// Which fragment it is, and of how many.
#[derive(Clone, Copy, Debug, PartialEq)]
pub struct Place {
    pub number: u16,
    pub total: u16,
}

/// The fragments of one frame that have come. The empty one has no SPIs, so that no fragment is of the same frame.
#[derive(Clone, Debug, Default, PartialEq)]
pub struct Collection {
    /// The two SPIs and the Message ID.
    pub frame: (Vec<u8>, u32),
    total: u16,
    /// The octets of each fragment that is kept, by its number.
    pieces: BTreeMap<u16, Vec<u8>>,
    /// The header of fragment 1 and its next payload, once it is kept.
    first: Option<(Vec<u8>, u8)>,
}

#[derive(Clone, Copy, Debug, PartialEq)]
pub enum Gathered {
    Refused(Answer),
    PassedOver,
    Waiting,
    Complete(Answer),
}

/// Number 1: an Encrypted Fragment alone in the frame, with a number from 1 to its total.
fn place_of(octets: &[u8]) -> Option<Place> {
    let two = |at: usize| Some(u16::from_be_bytes(octets.get(at..at + 2)?.try_into().ok()?));
    let place = Place { number: two(PLACE_AT)?, total: two(PLACE_AT + 2)? };
    (is_outer(octets, ENCRYPTED_FRAGMENT) && (1..=place.total).contains(&place.number)).then_some(place)
}

impl Collection {
    /// The numbers of the fragments that are kept.
    pub fn numbers(&self) -> impl Iterator<Item = u16> + '_ {
        self.pieces.keys().copied()
    }

    /// A copy, by number and total, of one that is kept, or one with a smaller total.
    fn passes_over(&self, frame: &(Vec<u8>, u32), place: Place) -> bool {
        let is_copy = place.total == self.total && self.pieces.contains_key(&place.number);
        self.frame == *frame && (place.total < self.total || is_copy)
    }

    /// Keeps one more fragment or, where it is of another frame or of a larger total, it alone. None: over 16,384 octets so far.
    fn keep(&mut self, frame: (Vec<u8>, u32), place: Place, piece: Vec<u8>) -> Option<()> {
        let goes_on = self.frame == frame && self.total == place.total;
        let so_far: usize = if goes_on { self.pieces.values().map(Vec::len).sum() } else { 0 };
        if HEADER + so_far + piece.len() > MOST_FRAME {
            return None;
        }
        if !goes_on {
            *self = Collection { frame, total: place.total, ..Collection::default() };
        }
        self.pieces.insert(place.number, piece);
        Some(())
    }

    /// The opened frame, if no fragment is missing.
    fn whole(&self) -> Option<Vec<u8>> {
        let (header, next) = self.first.as_ref().filter(|_| self.pieces.len() == self.total as usize)?;
        let payloads: Vec<u8> = self.pieces.values().flatten().copied().collect();
        Some(opened_frame(header, *next, &payloads))
    }
}

impl Member {
    /// Receives a fragment. A refusal changes nothing; the room is written when the frame is complete.
    pub fn take_fragment(&mut self, kept: &mut Collection, room: &mut [u8], tick: u32, octets: &[u8]) -> Gathered {
        match self.gather(kept, room, tick, octets) {
            Err(number) => return Gathered::Refused(Answer { number, offset: 0 }),
            Ok(false) => return Gathered::PassedOver,
            Ok(true) => {}
        }
        let Some(opened) = kept.whole() else { return Gathered::Waiting };
        *kept = Collection::default();
        room[..opened.len()].copy_from_slice(&opened);
        Gathered::Complete(self.take(&[], tick, &opened))
    }

    /// Judges 1, 2, 10, 3, a total over 32 (7), passed over, too many octets so far (7); whether the fragment is now kept.
    fn gather(&self, kept: &mut Collection, room: &[u8], tick: u32, octets: &[u8]) -> Result<bool, u8> {
        let place = place_of(octets).ok_or(1)?;
        let sa = self.rekey_sa_of(tick, octets).ok_or(2)?;
        let piece = open_payloads(sa.encryption_key(), octets, IV_AT).filter(|_| room.len() >= MOST_FRAME).ok_or(10)?;
        let message_id = u32::from_be_bytes([octets[20], octets[21], octets[22], octets[23]]);
        if self.least_id.is_none_or(|least| message_id < least) {
            return Err(3);
        }
        if place.total > MOST_FRAGMENTS {
            return Err(7);
        }
        let frame = (sa.spi.clone(), message_id);
        if kept.passes_over(&frame, place) {
            return Ok(false);
        }
        kept.keep(frame, place, piece).ok_or(7)?;
        if place.number == 1 {
            kept.first = Some((octets[..HEADER].to_vec(), octets[HEADER]));
        }
        Ok(true)
    }
}

/// A fragment with these plain octets, whatever their last one counts, under the header of an opened frame and its next payload.
pub fn seal_fragment(gsk_e: &[u8], opened: &[u8], place: Place, choice: &Choice, plain: &[u8]) -> Vec<u8> {
    let before = [place.number.to_be_bytes(), place.total.to_be_bytes()].concat();
    seal_payload(gsk_e, opened, ENCRYPTED_FRAGMENT, &before, choice, plain)
}
