//! The limits of number 7 and of what a member is: document 01's, and where it names them those of document 02, T-01.

use crate::case::Case;
use crate::violations::{of_exchange, Exchange, Violation};
use builder::REKEY;
use reference::member::Member;

pub const MOST_SAS: usize = 64;
pub const MOST_ESP_POLICIES: usize = 24;
pub const MOST_WRAP_KEYS: usize = 128;
pub const MOST_HELD: usize = 128;
pub const MOST_SA_KEYS: usize = 32;
pub const MOST_DELETED: usize = 32;
/// Of a frame (T-11).
pub const MOST_FRESH_KEYS: usize = 128;
/// Of a lifetime (T-07).
pub const MOST_SECONDS: u32 = 2_000_000;

/// Document 01's held list, before T-01.
const ONCE_HELD: usize = 32;

/// What an accepted frame must bring about in every long run of the comparer.
pub const MET: [&str; 4] = [
    "a full table",
    "a full table in place of another",
    "a full held list",
    "all the copies that may be, over 33 to 128 held keys",
];

/// Which of these came about: by the frame, from the member of before to the one after it.
pub fn met(case: &Case, after: &Member) -> impl Iterator<Item = &'static str> {
    let full = |member: &Member| member.table.len() == MOST_SAS;
    let copies = case.clone().sa_bag(REKEY).map_or(0, |bag| bag.attributes.len());
    let many_copies = copies == MOST_SA_KEYS && case.keys.len() > ONCE_HELD;
    let announces = !case.sa_keys.is_empty();
    let all = [full(after), full(after) && full(&case.member) && announces, after.held.len() == MOST_HELD, many_copies];
    MET.into_iter().zip(all).filter(|(_, met)| *met).map(|(name, _)| name)
}

/// How large a script lets its member become.
#[derive(Clone, Copy)]
pub struct Sizes {
    pub sas: usize,
    /// From which the ESP SAs and the tree keys of a frame are picked.
    pub esp: &'static [usize],
    pub keys: &'static [usize],
    pub entries: usize,
    /// How many of 100 frames delete, and how many of 100 ESP SAs these name.
    pub deletes: usize,
    pub deleted: usize,
}

impl Sizes {
    /// Within document 01's limits, with many changes.
    pub const SMALL: Sizes =
        Sizes { sas: 16, esp: &[0, 1, 2, 3, 8], keys: &[0, 1, 2, 5, 12, 20, 32], entries: 32, deletes: 50, deleted: 40 };
    /// A plant with many streams: the table fills up in a few rekeys.
    pub const LARGE: Sizes = Sizes {
        sas: MOST_SAS,
        esp: &[0, 1, 5, 12, 20, MOST_ESP_POLICIES],
        keys: &[0, 20, 33, 60, 100, MOST_WRAP_KEYS],
        entries: MOST_WRAP_KEYS,
        deletes: 40,
        deleted: 15,
    };

    /// Besides its share of the violations a run with the largest sizes has all those that a rekey is refused for room by.
    pub fn refused_for_room(self) -> impl Iterator<Item = &'static Violation> {
        of_exchange(Exchange::Rekey).into_iter().filter(move |violation| self.sas == MOST_SAS && violation.number == 7)
    }
}
