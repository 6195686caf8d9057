//! What a member is, and what it is after an accepted frame, a sweep and leaving.

use crate::judging::{judge, Exchange, Need, Request, MOST_SECONDS};
use crate::layout::{frame, Frame, ESP, MOST_FRAME, REKEY};
use crate::reach::Keys;
use crate::sealing::{is_outer, open_frame, ENCRYPTED};

/// Document 02's figures, T-01.
pub const MOST_SAS: usize = 64;
pub const MOST_HELD: usize = 128;

/// An exchange type (001, section 9).
const GSA_REKEY: u8 = 41;

#[derive(Clone, Debug, PartialEq)]
pub struct Member {
    /// Rising by protocol, then SPI.
    pub table: Vec<Sa>,
    /// Wrapping keys, each Key ID once (document 02, T-04).
    pub held: Vec<(u32, Vec<u8>)>,
    /// The least acceptable Message ID, or none any more.
    pub least_id: Option<u32>,
    /// Fresh tree keys of a rekey are read (document 02, T-11).
    pub profile: bool,
}

#[derive(Clone, Debug, PartialEq)]
pub struct Sa {
    pub protocol: u8,
    pub spi: Vec<u8>,
    pub keying: Vec<u8>,
    /// How many of a Rekey SA's keying octets are for encryption; the key wrap part follows them.
    pub encryption: usize,
    pub condition: Condition,
    /// None: no lifetime.
    pub lifetime: Option<Lifetime>,
}

/// Start tick in milliseconds, seconds from then on.
#[derive(Clone, Copy, Debug, PartialEq)]
pub struct Lifetime {
    pub start: u32,
    pub seconds: u32,
}

#[derive(Clone, Copy, Debug, PartialEq)]
pub enum Condition {
    Live,
    /// Start tick in milliseconds, delay in seconds.
    Retiring {
        start: u32,
        delay: u16,
    },
}

/// Document 01's number, and document 02's figure (T-06): where the layout broke for number 1, else 0.
#[derive(Clone, Copy, Debug, PartialEq)]
pub struct Answer {
    pub number: u8,
    pub offset: usize,
}

impl Answer {
    /// A number, and behind it the figure, which is printed for number 1 alone.
    pub fn with_offset(self, text: String) -> String {
        match self.number {
            1 => format!("{text} {}", self.offset),
            _ => text,
        }
    }
}

pub fn is_wrap_key_size(octets: usize) -> bool {
    matches!(octets, 16 | 24 | 32)
}

impl Sa {
    /// Whichever comes first: the delay of a retiring SA has run, or the lifetime.
    pub fn is_due(&self, now: u32) -> bool {
        let has_run = |start: u32, seconds: u32| now.wrapping_sub(start) as u64 >= 1000 * seconds as u64;
        let retired = match self.condition {
            Condition::Live => false,
            Condition::Retiring { start, delay } => has_run(start, delay as u32),
        };
        retired || self.lifetime.is_some_and(|lifetime| has_run(lifetime.start, lifetime.seconds))
    }

    fn is_live(&self) -> bool {
        self.condition == Condition::Live
    }

    /// GSK_e of a Rekey SA (001, section 3.4).
    pub fn encryption_key(&self) -> &[u8] {
        self.keying.get(..self.encryption).unwrap_or(&[])
    }

    /// GSK_w of a Rekey SA: what follows GSK_e (001, section 3.4; with AES-GCM-16 there is no GSK_a).
    pub fn default_key(&self) -> &[u8] {
        self.keying.get(self.encryption..).unwrap_or(&[])
    }

    fn is_whole(&self) -> bool {
        let encryption_fits = matches!(self.encryption, 20 | 28 | 36);
        let keying_fits = match self.protocol {
            ESP => self.spi.len() == 4 && encryption_fits && self.keying.len() == self.encryption,
            REKEY => self.spi.len() == 16 && encryption_fits && is_wrap_key_size(self.default_key().len()),
            _ => false,
        };
        keying_fits && self.lifetime.is_none_or(|lifetime| lifetime.seconds <= MOST_SECONDS)
    }
}

impl Default for Member {
    fn default() -> Self {
        Member::new()
    }
}

impl Member {
    pub fn new() -> Member {
        Member::with_profile(false)
    }

    pub fn with_profile(profile: bool) -> Member {
        Member { table: Vec::new(), held: Vec::new(), least_id: Some(0), profile }
    }

    /// Whether the value keeps document 01's list of what a member is.
    pub fn is_whole(&self) -> bool {
        self.table.len() <= MOST_SAS
            && self.table.iter().all(Sa::is_whole)
            && self.table.windows(2).all(|two| (two[0].protocol, &two[0].spi) < (two[1].protocol, &two[1].spi))
            && self.table.iter().filter(|sa| sa.protocol == REKEY && sa.is_live()).count() <= 1
            && self.held.len() <= MOST_HELD
            && self.held.iter().all(|(id, value)| *id != 0 && is_wrap_key_size(value.len()))
            && self.held.iter().enumerate().all(|(i, (id, _))| self.held[..i].iter().all(|(other, _)| other != id))
    }

    pub fn is_empty(&self, tick: u32) -> bool {
        self.table.iter().all(|sa| sa.is_due(tick))
    }

    pub fn live_rekey(&self) -> Option<&Sa> {
        self.table.iter().find(|sa| sa.protocol == REKEY && sa.is_live())
    }

    /// The SA of that protocol and SPI, or none.
    pub fn sa(&self, protocol: u8, spi: &[u8]) -> Option<&Sa> {
        self.table.iter().find(|sa| sa.protocol == protocol && sa.spi == spi).filter(|_| self.is_whole())
    }

    /// Registers or rekeys by an opened frame. The number is 0, or that of the refusal, which changes nothing.
    pub fn take(&mut self, lent: &[u8], tick: u32, octets: &[u8]) -> Answer {
        match frame(octets, self.profile) {
            Err(broken) => Answer { number: 1, offset: broken.at },
            Ok(frame) => Answer { number: self.try_take(lent, tick, &frame).err().unwrap_or(0), offset: 0 },
        }
    }

    /// Receives a sealed frame (document 02, T-05): outer 1, 2 and 10, then what was opened, which the room then starts with.
    pub fn take_sealed(&mut self, room: &mut [u8], tick: u32, octets: &[u8]) -> Answer {
        if !is_outer(octets, ENCRYPTED) {
            return Answer { number: 1, offset: 0 };
        }
        let Some(sa) = self.rekey_sa_of(tick, octets) else { return Answer { number: 2, offset: 0 } };
        match open_frame(sa.encryption_key(), octets).filter(|_| room.len() >= MOST_FRAME) {
            None => Answer { number: 10, offset: 0 },
            Some(opened) => {
                room[..opened.len()].copy_from_slice(&opened);
                self.take(&[], tick, &opened)
            }
        }
    }

    /// The SA that a sealed frame of whole header came over; None: number 2.
    pub fn rekey_sa_of(&self, tick: u32, octets: &[u8]) -> Option<&Sa> {
        let over = |sa: &&Sa| self.is_whole() && octets[18] == GSA_REKEY && sa.spi == octets[..16] && !sa.is_due(tick);
        self.live_rekey().filter(over)
    }

    fn try_take(&mut self, lent: &[u8], tick: u32, frame: &Frame) -> Result<(), u8> {
        let request = judge(frame, self, tick, lent)?;
        let mut keys = self.keys(lent, &request)?;
        let sa_keys = keys.sa_keys(&request.announced)?;
        let held = self.held_after(&request, &mut keys)?;
        self.enter(&request, tick, sa_keys);
        self.held = held;
        Ok(())
    }

    /// The held list after acceptance (document 02, T-04 and T-11). A new path goes before the held key it ends on; the keys ahead of that
    /// one go, and so do those that the path has. One over the limit is 7.
    fn held_after(&self, request: &Request, keys: &mut Keys) -> Result<Vec<(u32, Vec<u8>)>, u8> {
        let before: &[(u32, Vec<u8>)] = if request.exchange == Exchange::Registration { &[] } else { &self.held };
        let rekey = request.announced.iter().find(|sa| sa.protocol == REKEY);
        let Some(path) = rekey.and_then(|sa| keys.path(&sa.copies)).filter(|path| !path.keys.is_empty()) else {
            return Ok(before.to_vec());
        };
        let is_on_path = |id: u32| path.keys.iter().any(|(other, _)| *other == id);
        let behind = before.iter().skip_while(|(id, _)| *id != path.end);
        let stays: Vec<_> = behind.filter(|(id, _)| !is_on_path(*id)).cloned().collect();
        let held = [path.keys, stays].concat();
        if held.len() > MOST_HELD {
            return Err(7);
        }
        Ok(held)
    }

    /// The keys under which copies may open.
    fn keys(&self, lent: &[u8], request: &Request) -> Result<Keys, u8> {
        let is_carried = |id: u32| request.entries.iter().any(|entry| entry.key_id == id);
        let mut keys = match request.exchange {
            Exchange::Rekey => {
                let default_key = self.live_rekey().map_or(&[][..], Sa::default_key);
                Keys::starting(default_key, self.held.iter().filter(|(id, _)| !is_carried(*id)))
            }
            // Over the member's own channel there is no entry, so key 0 is the only one.
            Exchange::Registration | Exchange::Inband => Keys::starting(lent, [].iter()),
        };
        keys.follow(&request.entries)?;
        Ok(keys)
    }

    /// The table and the least Message ID after acceptance.
    fn enter(&mut self, request: &Request, tick: u32, sa_keys: Vec<Vec<u8>>) {
        self.remove_due(tick);
        let retiring = Condition::Retiring { start: tick, delay: request.delay };
        let new_rekey = request.announced.iter().any(|sa| sa.protocol == REKEY);
        for sa in self.table.iter_mut().filter(|sa| sa.is_live()) {
            let goes = match sa.protocol {
                ESP => request.deleted.iter().any(|spi| *spi == [0; 4] || *spi == sa.spi),
                _ => new_rekey,
            };
            if goes {
                sa.condition = retiring;
            }
        }
        for (sa, keying) in request.announced.iter().zip(sa_keys) {
            let (Need::Esp(encryption) | Need::Rekey { encryption, .. }) = sa.need;
            let (protocol, spi) = (sa.protocol, sa.spi.to_vec());
            let lifetime = sa.lifetime.map(|seconds| Lifetime { start: tick, seconds });
            self.table.push(Sa { protocol, spi, keying, encryption, condition: Condition::Live, lifetime });
        }
        self.table.sort_by(|a, b| (a.protocol, &a.spi).cmp(&(b.protocol, &b.spi)));
        self.least_id = match (new_rekey, request.exchange) {
            (true, _) => Some(request.initial_id.unwrap_or(0)),
            (false, Exchange::Registration) => Some(0),
            (false, Exchange::Rekey) => request.message_id.checked_add(1),
            (false, Exchange::Inband) => self.least_id,
        };
    }

    fn remove_due(&mut self, tick: u32) {
        self.table.retain(|sa| !sa.is_due(tick));
    }

    /// Removes exactly the SAs due; a value that is no member stays as it is.
    pub fn sweep(&mut self, tick: u32) {
        if self.is_whole() {
            self.remove_due(tick);
        }
    }

    pub fn leave(&mut self) {
        *self = Member::with_profile(self.profile);
    }
}
