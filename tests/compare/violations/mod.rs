//! A named violation of each clause of each refusal, to be done to a frame that would be accepted. Alone it must give its number.

pub mod allowed;
mod attributes;
mod content;
mod copies;
mod keys;
mod layout;
mod order;
mod pairing;
mod trees;

use crate::case::Case;
pub use pairing::one_chain;

/// Does it to the case; None, and the case in any state, if the frame has not what it takes.
pub type Make = fn(&mut Case) -> Option<()>;

/// The exchanges that a member takes.
#[derive(Clone, Copy, PartialEq)]
pub enum Exchange {
    Registration,
    /// GSA_REKEY, over the live Rekey SA.
    Rekey,
    /// GSA_INBAND_REKEY, over the member's own channel.
    Inband,
}

impl Exchange {
    pub fn name(self) -> &'static str {
        match self {
            Exchange::Registration => "registration",
            Exchange::Rekey => "rekey",
            Exchange::Inband => "rekey over the own channel",
        }
    }
}

/// The exchanges to whose frames something can be done.
#[derive(Clone, Copy, PartialEq)]
pub enum Place {
    Any,
    Only(Exchange),
    /// All but one.
    Not(Exchange),
}

impl Place {
    pub fn has(self, exchange: Exchange) -> bool {
        match self {
            Place::Any => true,
            Place::Only(only) => only == exchange,
            Place::Not(other) => other != exchange,
        }
    }
}

pub struct Violation {
    pub number: u8,
    pub name: &'static str,
    pub place: Place,
    pub make: Make,
}

const fn any(number: u8, name: &'static str, make: Make) -> Violation {
    Violation { number, name, place: Place::Any, make }
}

const fn registration(number: u8, name: &'static str, make: Make) -> Violation {
    Violation { number, name, place: Place::Only(Exchange::Registration), make }
}

const fn rekey(number: u8, name: &'static str, make: Make) -> Violation {
    Violation { number, name, place: Place::Only(Exchange::Rekey), make }
}

const fn inband(number: u8, name: &'static str, make: Make) -> Violation {
    Violation { number, name, place: Place::Only(Exchange::Inband), make }
}

/// To a rekey of either kind.
const fn either_rekey(number: u8, name: &'static str, make: Make) -> Violation {
    Violation { number, name, place: Place::Not(Exchange::Registration), make }
}

/// To a frame that comes with a lent key.
const fn with_lent_key(number: u8, name: &'static str, make: Make) -> Violation {
    Violation { number, name, place: Place::Not(Exchange::Rekey), make }
}

/// Those that can be done to a frame of that exchange.
pub fn of_exchange(exchange: Exchange) -> Vec<&'static Violation> {
    all().filter(|violation| violation.place.has(exchange)).collect()
}

pub fn all() -> impl Iterator<Item = &'static Violation> {
    let tables: [&[Violation]; 7] =
        [layout::TABLE, attributes::TABLE, order::TABLE, content::TABLE, pairing::TABLE, keys::TABLE, allowed::TABLE];
    tables.into_iter().flatten().filter(|violation| violation.number != 0)
}
