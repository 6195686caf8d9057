//! Rekeys cut into fragments (document 02, T-12), as lines of `trace`.

use crate::calls;
use crate::fragments::COMPLETE;
use crate::script::Writer;
use crate::violations::Exchange;
use builder::line::hex;
use reference::fragments::{seal_fragment, Collection, Gathered, Place};
use reference::layout::MOST_FRAME;
use reference::member::Answer;
use reference::sealing::{padded, HEADER};

/// A piece and an octet more fit into a frame with the longest padding: both headers, number and total, IV, padding and its length, tag.
const MOST_PIECE: usize = MOST_FRAME - (HEADER + 4 + 4 + 8 + 256 + 16) - 1;
const PERCENT: usize = 20;

/// An opened frame, what follows its header in pieces, and GSK_e of the SA that they come over.
pub struct Cut {
    pub opened: Vec<u8>,
    pub pieces: Vec<Vec<u8>>,
    pub gsk_e: Vec<u8>,
}

impl Cut {
    pub fn place(&self, number: u16) -> Place {
        Place { number, total: self.pieces.len() as u16 }
    }

    pub fn message_id(&self) -> u32 {
        u32::from_be_bytes([self.opened[20], self.opened[21], self.opened[22], self.opened[23]])
    }

    /// The SPIs and the Message ID.
    fn frame(&self) -> (Vec<u8>, u32) {
        (self.opened[..16].to_vec(), self.message_id())
    }

    /// All numbers, from 1 on.
    pub fn numbers(&self) -> Vec<u16> {
        (1..=self.pieces.len() as u16).collect()
    }
}

pub fn refused(number: u8) -> Gathered {
    Gathered::Refused(Answer { number, offset: 0 })
}

impl Writer<'_> {
    /// The frame cut at any places; None if a piece does not fit.
    pub fn cut(&mut self, opened: &[u8], count: usize) -> Option<Cut> {
        let (gsk_e, mut body) = (self.gsk_e()?, &opened[HEADER..]);
        let mut ends: Vec<usize> = (1..count).map(|_| self.scene.rng.below(body.len() + 1)).collect();
        ends.sort();
        let (mut from, mut pieces) = (0, Vec::new());
        for end in ends {
            let (piece, rest) = body.split_at(end - from);
            pieces.push(piece.to_vec());
            (from, body) = (end, rest);
        }
        pieces.push(body.to_vec());
        let fits = pieces.iter().all(|piece| piece.len() <= MOST_PIECE);
        fits.then(|| Cut { opened: opened.to_vec(), pieces, gsk_e })
    }

    /// A rekey that the member will accept, in so many pieces, of a frame of which none is kept.
    pub fn rekey_in_pieces(&mut self, count: usize) -> Option<Cut> {
        let shape = self.scene.any_shape();
        let opened = self.fit_frame(Exchange::Rekey, shape)?.frame.octets();
        let cut = self.cut(&opened, count).filter(|_| opened.len() <= MOST_FRAME)?;
        self.forget(&cut)?;
        Some(cut)
    }

    /// Has the member keep a fragment of another Message ID, where it keeps some of this frame. None if there is no other.
    pub fn forget(&mut self, cut: &Cut) -> Option<()> {
        if self.scene.kept.frame != cut.frame() {
            return Some(());
        }
        let other = self.with_later_id(cut, 2)?;
        let octets = self.sealed_piece(&other, 1);
        self.fragment_line(&octets, "a fragment of another frame".to_string());
        Some(())
    }

    /// The same frame with a later Message ID, cut anew.
    pub fn with_later_id(&mut self, cut: &Cut, count: usize) -> Option<Cut> {
        let later = cut.message_id().checked_add(self.scene.rng.pick(&[1, 2, 1 << 8, 1 << 16, 1 << 24]))?;
        let mut opened = cut.opened.clone();
        opened[20..24].copy_from_slice(&later.to_be_bytes());
        self.cut(&opened, count)
    }

    pub fn sealed_piece(&mut self, cut: &Cut, number: u16) -> Vec<u8> {
        self.sealed_as(cut, cut.place(number), &cut.pieces[number as usize - 1])
    }

    /// A fragment of this place. Another than the first has any flags, minor version and next payload.
    pub fn sealed_as(&mut self, cut: &Cut, place: Place, piece: &[u8]) -> Vec<u8> {
        let (mut header, choice) = (cut.opened[..HEADER].to_vec(), self.choice());
        if place.number != 1 {
            let rng = &mut self.scene.rng;
            header[16] = rng.pick(&[0, 0, header[16], 42, 53, 255]);
            (header[17], header[19]) = (header[17] ^ rng.below(16) as u8, rng.number() as u8);
        }
        seal_fragment(&cut.gsk_e, &header, place, &choice, &padded(piece, &choice))
    }

    /// The line of a fragment with a room that is large enough, and what became of it.
    pub fn fragment_line(&mut self, octets: &[u8], label: String) -> Gathered {
        let room = self.scene.rng.pick(&[MOST_FRAME, MOST_FRAME, MOST_FRAME + 1, 2 * MOST_FRAME]);
        self.fragment_in(room, octets, label)
    }

    pub fn fragment_in(&mut self, room: usize, octets: &[u8], label: String) -> Gathered {
        let tick = self.scene.tick;
        let line = [b"y", hex(&(room as u32).to_be_bytes()).as_slice(), &hex(&tick.to_be_bytes()), &hex(octets)].concat();
        let before = self.scene.kept.clone();
        let gathered = self.scene.member.take_fragment(&mut self.scene.kept, &mut vec![0; room], tick, octets);
        self.tally.call(calls::FRAGMENT);
        self.push(line, label, None);
        if matches!(gathered, Gathered::Refused(_) | Gathered::PassedOver) && before != self.scene.kept {
            self.miss("a fragment that is not kept changed the collection");
        }
        gathered
    }

    /// A fragment of which is known what becomes of it.
    pub fn gets(&mut self, octets: &[u8], name: &'static str, wanted: Gathered) {
        let gathered = self.fragment_line(octets, format!("fragment: {name}"));
        self.tally.fragment(name);
        if gathered != wanted {
            self.miss(&format!("\"{name}\" gave {gathered:?}, not {wanted:?}"));
        }
    }

    /// The fragment that completes a frame: answered, and the member left, as if the frame had come whole and opened.
    pub fn completes(&mut self, octets: &[u8], opened: &[u8], name: &'static str) -> u8 {
        let mut whole = self.scene.member.clone();
        let answer = whole.take(&[], self.scene.tick, opened);
        self.gets(octets, name, Gathered::Complete(answer));
        self.tally.fragment(COMPLETE[answer.number as usize]);
        if whole != self.scene.member || self.scene.kept != Collection::default() {
            self.miss(&format!("\"{name}\" left another member, or a collection"));
        }
        answer.number
    }

    /// Whether these are the fragments that are kept.
    pub fn keeps(&mut self, numbers: &[u16]) {
        if !self.scene.kept.numbers().eq(numbers.iter().copied()) {
            self.miss(&format!("other fragments are kept than {numbers:?}"));
        }
    }

    pub fn miss(&mut self, what: &str) {
        self.tally.complain(format!("seed {}, line {}: {what}", self.seed, self.lines.len()));
    }

    /// A GSA_REKEY in another form than opened, sometimes: sealed, or in pieces. The number that it is given.
    pub fn other_form(&mut self, octets: &[u8], label: &str) -> Option<u8> {
        match self.sealed_form(octets) {
            Some(sealed) => Some(self.sealed_line(&sealed, MOST_FRAME, format!("{label}, sealed"))),
            None => self.in_pieces(octets, label),
        }
    }

    fn in_pieces(&mut self, octets: &[u8], label: &str) -> Option<u8> {
        if !self.may_be_sealed(octets) || !self.scene.rng.chance(PERCENT) {
            return None;
        }
        let count = self.scene.rng.pick(&[1, 2, 2, 3]);
        let cut = self.cut(octets, count)?;
        if self.scene.kept.frame == cut.frame() {
            return None;
        }
        let mut numbers = cut.numbers();
        self.scene.rng.shuffle(&mut numbers);
        let mut given = None;
        for number in numbers {
            let octets = self.sealed_piece(&cut, number);
            match self.fragment_line(&octets, format!("{label}, in pieces")) {
                Gathered::Refused(answer) => given = Some(answer.number),
                Gathered::Complete(answer) => {
                    self.tally.fragment(COMPLETE[answer.number as usize]);
                    given = Some(answer.number);
                }
                Gathered::PassedOver | Gathered::Waiting => {}
            }
        }
        given
    }
}
