//! A frame while it is built, and where its numbers stand.

use reference::layout::Kind;

/// Where a number stands in the built frame, and of which kind of structure it is a field, for those who want to damage it.
#[derive(Clone, Copy)]
pub struct Mark {
    pub at: usize,
    pub size: usize,
    pub kind: Kind,
}

pub struct Built {
    pub octets: Vec<u8>,
    pub marks: Vec<Mark>,
    /// The structure whose fields are being written.
    pub(crate) kind: Kind,
}

impl Default for Built {
    fn default() -> Built {
        Built { octets: Vec::new(), marks: Vec::new(), kind: Kind::Header }
    }
}

impl Built {
    /// Writes a number in so many octets, of which only the low ones fit, and marks it.
    pub(crate) fn number(&mut self, size: usize, value: i64) {
        self.marks.push(Mark { at: self.octets.len(), size, kind: self.kind });
        self.octets.extend_from_slice(&value.to_be_bytes()[8 - size..]);
    }

    /// Sets the 2 octets at `at` to the length since `from`.
    pub(crate) fn set_length(&mut self, at: usize, from: usize, skew: i64) {
        let length = (self.octets.len() - from) as i64 + skew;
        self.octets[at..at + 2].copy_from_slice(&(length as u16).to_be_bytes());
    }
}
