//! Refusals 2 to 7, on a frame whose layout is whole. Each is judged only when the lower ones do not apply.

use crate::layout::{Bag, Delete, Frame, GroupBag, Payload, Policy, SaPolicy, Selector, Transform, WrappedKey};
use crate::layout::{AH, ENCRYPTION, ESP, GSA_REKEY, REKEY};
use crate::member::{is_wrap_key_size, Member, MOST_HELD, MOST_SAS};

/// Exchange types (001, section 9).
const GSA_AUTH: u8 = 39;
const GSA_REGISTRATION: u8 = 40;
const GSA_INBAND_REKEY: u8 = 42;

/// Further transform types; 13 and 14 are 001's, section 4.4.2.1.
const SEQUENCE_NUMBERS: u8 = 5;
const KEY_WRAP: u8 = 13;
const CONTROLLER_AUTHENTICATION: u8 = 14;

/// Document 02, T-01; a held list takes all that a frame may bring.
const MOST_ESP_POLICIES: usize = 24;
const MOST_WRAP_KEYS: usize = MOST_HELD;
/// Of a lifetime, in seconds (document 02, T-07).
pub const MOST_SECONDS: u32 = 2_000_000;
/// Document 01; T-01 does not name them.
const MOST_SA_KEYS: usize = 32;
const MOST_DELETED: usize = 32;
/// Document 02, T-11.
const MOST_FRESH_KEYS: usize = 128;

/// What a frame that numbers 1 to 7 do not refuse asks for.
pub struct Request<'f> {
    pub exchange: Exchange,
    pub message_id: u32,
    pub announced: Vec<Announced<'f>>,
    /// Of a registration WRAP_KEYs, of a rekey fresh tree keys (document 02, T-11).
    pub entries: Vec<WrappedKey<'f>>,
    pub deleted: Vec<&'f [u8]>,
    pub delay: u16,
    /// GSA_INITIAL_MESSAGE_ID of the Rekey policy.
    pub initial_id: Option<u32>,
}

/// The exchanges that are taken: a registration, a rekey over the live Rekey SA, and (document 02, T-02) one over the member's own channel.
#[derive(Clone, Copy, PartialEq)]
pub enum Exchange {
    Registration,
    Rekey,
    Inband,
}

impl Exchange {
    fn of(number: u8) -> Option<Exchange> {
        match number {
            GSA_AUTH | GSA_REGISTRATION => Some(Exchange::Registration),
            GSA_REKEY => Some(Exchange::Rekey),
            GSA_INBAND_REKEY => Some(Exchange::Inband),
            _ => None,
        }
    }
}

/// An SA that a Group SA policy announces, with the copies of its key.
pub struct Announced<'f> {
    pub protocol: u8,
    pub spi: &'f [u8],
    pub need: Need,
    /// Seconds, or no lifetime.
    pub lifetime: Option<u32>,
    pub copies: Vec<WrappedKey<'f>>,
}

/// The octets that the algorithm table needs.
#[derive(Clone, Copy, PartialEq)]
pub enum Need {
    Esp(usize),
    Rekey { encryption: usize, wrap: usize },
}

impl Need {
    pub fn octets(self) -> usize {
        match self {
            Need::Esp(encryption) => encryption,
            Need::Rekey { encryption, wrap } => encryption + wrap,
        }
    }
}

pub fn judge<'f>(frame: &Frame<'f>, member: &Member, tick: u32, lent: &[u8]) -> Result<Request<'f>, u8> {
    let admitted = |&exchange: &Exchange| member.is_whole() && is_fit_exchange(frame, member, tick, exchange);
    let Some(exchange) = Exchange::of(frame.exchange).filter(admitted) else { return Err(2) };
    if exchange == Exchange::Rekey && member.least_id.is_none_or(|least| frame.message_id < least) {
        return Err(3);
    }
    let parts = Parts::of(frame);
    if parts.break_rules(exchange) {
        return Err(4);
    }
    let lent_key_fits = exchange == Exchange::Rekey || is_wrap_key_size(lent.len());
    let needs: Option<Vec<Need>> = parts.policies.iter().map(|policy| need(policy)).collect();
    let Some(needs) = needs.filter(|_| lent_key_fits && !parts.have_unfit_bag_or_delete()) else { return Err(5) };
    if !parts.are_paired() || parts.name_a_known_sa(member, tick) || !parts.keys_are_named_well(exchange) {
        return Err(6);
    }
    if parts.exceed_limits(member, tick) {
        return Err(7);
    }
    Ok(parts.request(frame, exchange, &needs))
}

/// Number 2, apart from the member value and other exchanges.
fn is_fit_exchange(frame: &Frame, member: &Member, tick: u32, exchange: Exchange) -> bool {
    match exchange {
        Exchange::Registration => member.is_empty(tick),
        Exchange::Rekey => member.live_rekey().is_some_and(|sa| sa.spi == frame.spis && !sa.is_due(tick)),
        Exchange::Inband => !member.is_empty(tick),
    }
}

/// The parts of a frame by kind, in the frame's order.
#[derive(Default)]
struct Parts<'a, 'f> {
    gsa: usize,
    kd: usize,
    critical_unknown: bool,
    policies: Vec<&'a SaPolicy<'f>>,
    /// The deactivation delays of each group-wide policy.
    group_wide: Vec<&'a [u16]>,
    bags: Vec<&'a GroupBag<'f>>,
    /// The WRAP_KEYs of each Member Key Bag.
    member_bags: Vec<&'a [WrappedKey<'f>]>,
    deletes: Vec<&'a Delete<'f>>,
}

impl<'a, 'f> Parts<'a, 'f> {
    fn of(frame: &'a Frame<'f>) -> Self {
        let mut parts = Parts::default();
        for payload in &frame.payloads {
            match payload {
                Payload::Unread => {}
                Payload::Unknown { critical } => parts.critical_unknown |= critical,
                Payload::Delete(delete) => parts.deletes.push(delete),
                Payload::Gsa(policies) => {
                    parts.gsa += 1;
                    policies.iter().for_each(|policy| parts.add_policy(policy));
                }
                Payload::Kd(bags) => {
                    parts.kd += 1;
                    bags.iter().for_each(|bag| parts.add_bag(bag));
                }
            }
        }
        parts
    }

    fn add_policy(&mut self, policy: &'a Policy<'f>) {
        match policy {
            Policy::GroupWide { delays } => self.group_wide.push(delays),
            Policy::Sa(policy) => self.policies.push(policy),
        }
    }

    fn add_bag(&mut self, bag: &'a Bag<'f>) {
        match bag {
            Bag::Member { wrap_keys } => self.member_bags.push(wrap_keys),
            Bag::Group(bag) => self.bags.push(bag),
        }
    }

    fn rekey_policies(&self) -> impl Iterator<Item = &'a SaPolicy<'f>> + '_ {
        self.policies.iter().copied().filter(|policy| policy.protocol == REKEY)
    }

    fn wrap_keys(&self) -> impl Iterator<Item = &'a WrappedKey<'f>> + '_ {
        self.member_bags.iter().copied().flatten()
    }

    fn fresh_keys(&self) -> impl Iterator<Item = &'a WrappedKey<'f>> + '_ {
        self.bags.iter().copied().flat_map(|bag| &bag.fresh_keys)
    }

    /// Number 4.
    fn break_rules(&self, exchange: Exchange) -> bool {
        let only_delete = exchange == Exchange::Rekey && !self.deletes.is_empty();
        self.critical_unknown
            || (exchange != Exchange::Registration && !self.member_bags.is_empty())
            || (exchange != Exchange::Rekey && !self.deletes.is_empty())
            || self.gsa > 1
            || self.kd > 1
            || self.gsa != self.kd
            || (self.gsa == 0 && !only_delete)
            || self.rekey_policies().count() > 1
            || self.group_wide.len() > 1
            || self.member_bags.len() > 1
            || (self.gsa == 1 && self.policies.is_empty())
            || self.policies.iter().flat_map(|policy| &policy.transforms).any(|transform| transform.key_lengths.len() > 1)
            || self.policies.iter().any(|policy| policy.initial_ids.len() > 1 || policy.lifetimes.len() > 1)
            || self.group_wide.iter().any(|delays| delays.len() > 1)
            || self.rekey_policies().any(|policy| !is_one_multicast_port(&policy.destination))
    }

    /// Number 5, apart from the transforms and the lent key.
    fn have_unfit_bag_or_delete(&self) -> bool {
        self.bags.iter().any(|bag| bag.protocol == AH)
            || self.deletes.iter().any(|delete| delete.protocol != ESP || delete.count == 0)
    }

    /// Number 6: each policy has one bag of its protocol and SPI and each bag one policy, and no protocol and SPI comes twice.
    fn are_paired(&self) -> bool {
        let mut policies: Vec<_> = self.policies.iter().map(|policy| (policy.protocol, policy.spi)).collect();
        let mut bags: Vec<_> = self.bags.iter().map(|bag| (bag.protocol, bag.spi)).collect();
        policies.sort();
        bags.sort();
        policies == bags && policies.windows(2).all(|two| two[0] != two[1])
    }

    /// Number 6: already in the table, SAs due at the tick not counted.
    fn name_a_known_sa(&self, member: &Member, tick: u32) -> bool {
        let mut known = member.table.iter().filter(|sa| !sa.is_due(tick));
        known.any(|sa| self.policies.iter().any(|policy| policy.protocol == sa.protocol && policy.spi == sa.spi))
    }

    /// Number 6: counts, Key IDs and KWK IDs. A WRAP_KEY whose Key ID equals its KWK ID is document 02's, T-09; fresh tree keys are T-11's.
    fn keys_are_named_well(&self, exchange: Exchange) -> bool {
        let bag_fits = |bag: &GroupBag| {
            let count = bag.sa_keys.len();
            let count_fits = if bag.protocol == REKEY && exchange == Exchange::Rekey { count > 0 } else { count == 1 };
            count_fits && bag.sa_keys.iter().all(|key| key.key_id == 0 && (bag.protocol == REKEY || key.kwk_id == 0))
        };
        let mut entries = self.wrap_keys().chain(self.fresh_keys());
        self.bags.iter().all(|bag| bag_fits(bag)) && entries.all(|key| key.key_id != 0 && key.key_id != key.kwk_id)
    }

    /// Number 7.
    fn exceed_limits(&self, member: &Member, tick: u32) -> bool {
        let esp_policies = self.policies.len() - self.rekey_policies().count();
        let deleted: usize = self.deletes.iter().map(|delete| delete.count as usize).sum();
        let staying = member.table.iter().filter(|sa| !sa.is_due(tick)).count();
        esp_policies > MOST_ESP_POLICIES
            || self.wrap_keys().count() > MOST_WRAP_KEYS
            || self.fresh_keys().count() > MOST_FRESH_KEYS
            || self.bags.iter().any(|bag| bag.sa_keys.len() > MOST_SA_KEYS)
            || deleted > MOST_DELETED
            || staying + self.policies.len() > MOST_SAS
            || self.policies.iter().flat_map(|policy| &policy.lifetimes).any(|seconds| *seconds > MOST_SECONDS)
    }

    fn request(&self, frame: &Frame, exchange: Exchange, needs: &[Need]) -> Request<'f> {
        let copies = |policy: &SaPolicy| {
            let bag = self.bags.iter().find(|bag| bag.protocol == policy.protocol && bag.spi == policy.spi);
            bag.map_or(Vec::new(), |bag| bag.sa_keys.clone())
        };
        let announced = self.policies.iter().zip(needs);
        Request {
            exchange,
            message_id: frame.message_id,
            announced: announced
                .map(|(policy, &need)| Announced {
                    protocol: policy.protocol,
                    spi: policy.spi,
                    need,
                    lifetime: policy.lifetimes.first().copied(),
                    copies: copies(policy),
                })
                .collect(),
            entries: self.wrap_keys().chain(self.fresh_keys()).copied().collect(),
            deleted: self.deletes.iter().flat_map(|delete| delete.spis.chunks_exact(4)).collect(),
            delay: self.group_wide.iter().copied().flatten().copied().next().unwrap_or(0),
            initial_id: self.rekey_policies().flat_map(|policy| &policy.initial_ids).copied().next(),
        }
    }
}

/// One address, in 224.0.0.0/4 or ff00::/8, and one port.
fn is_one_multicast_port(selector: &Selector) -> bool {
    let is_multicast = match selector.start {
        [first, _, _, _] => first >> 4 == 0xe,
        [first, ..] => *first == 0xff,
        [] => false,
    };
    selector.start == selector.end && is_multicast && selector.start_port == selector.end_port
}

/// The algorithm table, first number: AES-GCM-16 by Key Length in bits; its salt of 4 octets is counted.
pub fn encryption_octets(transform: &Transform) -> Option<usize> {
    match (transform.kind, transform.id, transform.key_lengths.as_slice()) {
        (ENCRYPTION, 20, [128]) => Some(20),
        (ENCRYPTION, 20, [192]) => Some(28),
        (ENCRYPTION, 20, [256]) => Some(36),
        _ => None,
    }
}

/// The algorithm table, second number: KW_5649_128, _192, _256.
fn wrap_octets(transform: &Transform) -> Option<usize> {
    match (transform.kind, transform.id) {
        (KEY_WRAP, 1) => Some(16),
        (KEY_WRAP, 2) => Some(24),
        (KEY_WRAP, 3) => Some(32),
        _ => None,
    }
}

/// What a policy needs; None for AH and for transforms that are not exactly the wanted ones.
fn need(policy: &SaPolicy) -> Option<Need> {
    let of_kind = |kind: u8| policy.transforms.iter().find(|transform| transform.kind == kind);
    match (policy.protocol, policy.transforms.len()) {
        (ESP, 2) => {
            let numbers = of_kind(SEQUENCE_NUMBERS)?;
            matches!(numbers.id, 0 | 2).then_some(())?;
            Some(Need::Esp(encryption_octets(of_kind(ENCRYPTION)?)?))
        }
        (REKEY, 3) => {
            let authentication = of_kind(CONTROLLER_AUTHENTICATION)?;
            matches!(authentication.id, 1 | 2).then_some(())?;
            Some(Need::Rekey { encryption: encryption_octets(of_kind(ENCRYPTION)?)?, wrap: wrap_octets(of_kind(KEY_WRAP)?)? })
        }
        _ => None,
    }
}
