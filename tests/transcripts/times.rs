//! Runs in time: SAs that retire, the table as they go, Message IDs from one Rekey SA to the next.

use crate::parts::*;
use crate::Transcript;
use builder::typical::*;
use builder::{Frame, Payload};

pub fn all() -> Vec<Transcript> {
    vec![full_table(), retiring_rekey_sas(), delays(), message_ids()]
}

/// A frame that changes nothing but takes what is due out of the table.
fn nothing() -> Vec<Payload> {
    vec![delete(&[spi(77)])]
}

fn esps(numbers: std::ops::RangeInclusive<u32>, key0: &[u8]) -> Vec<Sa> {
    numbers.map(|number| esp(number, key0)).collect()
}

fn full_table() -> Transcript {
    let mut t = Transcript::new("full-table", LENT);
    let sas = [vec![rekey_sa(0xa0, &[(0, lent())])], esps(1..=24, &lent())].concat();
    t.frame("Rekey SA a0, ESP SAs 1 to 24", 0, &registration(&sas, &[]), "0 25 0");
    let a0 = default_key(0xa0);
    t.frame("ESP SAs 25 to 48", 0, &rekey(0xa0, 0, announce(&esps(25..=48, &a0))), "0 49 0");
    t.frame("ESP SAs 49 to 62", 0, &rekey(0xa0, 1, announce(&esps(49..=62, &a0))), "0 63 0");
    let last = [announce_with_delay(&[esp(63, &a0)], 5), vec![delete(&[spi(1)])]].concat();
    t.frame("64 SAs, of which 1 retires for 5 s", 1000, &rekey(0xa0, 2, last), "0 64 0");
    let one = || announce(&[esp(64, &a0)]);
    t.frame("after 4,999 ms none is due: one more does not fit", 5999, &rekey(0xa0, 3, one()), "7 64 0");
    t.frame("after 5,000 ms one is due: two more do not fit", 6000, &rekey(0xa0, 3, announce(&esps(64..=65, &a0))), "7 64 0");
    t.frame("one more fits", 6000, &rekey(0xa0, 3, one()), "0 64 0");
    let new = [announce(&[rekey_sa(0xb0, &[(0, a0.clone())])]), vec![delete(&[spi(0)])]].concat();
    t.frame("what the frame itself retires still counts", 6000, &rekey(0xa0, 4, new.clone()), "7 64 0");
    t.frame("2 to 8 retire", 6000, &rekey(0xa0, 4, vec![delete(&(2..=8).map(spi).collect::<Vec<_>>())]), "0 64 0");
    t.frame("they go; b0 comes, a0 and all others retire", 6000, &rekey(0xa0, 5, new), "0 58 0");
    t.frame("b0 alone is left", 6000, &rekey(0xb0, 0, nothing()), "0 1 0");
    t
}

fn retiring_rekey_sas() -> Transcript {
    let mut t = Transcript::new("retiring-rekey-sas", LENT);
    let (a0, b0, c0) = (default_key(0xa0), default_key(0xb0), default_key(0xc0));
    let live = |fill: u8| rekey_text(fill, "live");
    let (old_a, old_b) = (rekey_text(0xa0, "retiring 4294966000 3"), rekey_text(0xb0, "retiring 4294967000 1"));
    t.frame("Rekey SA a0", 4_294_965_000, &first_registration(), "0 1 0");
    t.then(&[live(0xa0), least(0)]);
    let b = announce_with_delay(&[rekey_sa(0xb0, &[(0, a0.clone())])], 3);
    t.frame("b0 comes, a0 retires for 3 s", 4_294_966_000, &rekey(0xa0, 0, b), "0 2 0");
    t.then(&[old_a.clone(), live(0xb0), least(0)]);
    let c = announce_with_delay(&[rekey_sa(0xc0, &[(0, b0.clone())])], 1);
    t.frame("c0 comes, b0 retires for 1 s", 4_294_967_000, &rekey(0xb0, 0, c), "0 3 0");
    t.then(&[old_a.clone(), old_b, live(0xc0), least(0)]);
    t.frame("b0 is not live any more", 4_294_967_000, &rekey(0xb0, 1, nothing()), "2 3 0");
    let again = |fill: u8| rekey(0xc0, 1, announce(&[rekey_sa(fill, &[(0, c0.clone())])]));
    t.frame("at 703 b0 is not due", 703, &again(0xb0), "6 3 0");
    t.frame("at 704 it is, and goes", 704, &rekey(0xc0, 0, nothing()), "0 2 0");
    t.then(&[old_a, live(0xc0), least(1)]);
    t.frame("at 1,703 a0 is not due", 1703, &again(0xa0), "6 2 0");
    t.frame("at 1,704 it is, and another a0 comes; c0 retires without delay", 1704, &again(0xa0), "0 2 0");
    t.then(&[live(0xa0), rekey_text(0xc0, "retiring 1704 0"), least(0)]);
    t.frame("a rekey over c0", 1704, &rekey(0xc0, 2, nothing()), "2 2 0");
    t.frame("over a0; c0 goes", 1704, &rekey(0xa0, 0, announce(&[esp(1, &a0)])), "0 2 0");
    t.then(&[esp_text(1, "live"), live(0xa0), least(1)]);
    t
}

fn delays() -> Transcript {
    let mut t = Transcript::new("delays", LENT);
    let sas = [vec![rekey_sa(0xa0, &[(0, lent())])], esps(1..=3, &lent())].concat();
    t.frame("Rekey SA a0, ESP SAs 1 to 3", 0, &registration(&sas, &[]), "0 4 0");
    let a0 = default_key(0xa0);
    let longest = [announce_with_delay(&[esp(4, &a0)], 65_535), vec![delete(&[spi(1)])]].concat();
    t.frame("1 retires for 65,535 s, 4 comes", 7, &rekey(0xa0, 0, longest), "0 5 0");
    let none = [announce(&[esp(5, &a0)]), vec![delete(&[spi(2)])]].concat();
    t.frame("2 retires: the delay of another frame is not kept", 7, &rekey(0xa0, 1, none), "0 6 0");
    t.frame("2 goes", 7, &rekey(0xa0, 2, nothing()), "0 5 0");
    let mut empty = [announce(&[esp(6, &a0)]), vec![delete(&[spi(3)])]].concat();
    empty[0].parts().push(builder::Part::unnamed(vec![]));
    t.frame("3 retires under a group-wide policy without a delay, 6 comes", 7, &rekey(0xa0, 3, empty), "0 6 0");
    t.frame("3 goes", 7, &rekey(0xa0, 4, nothing()), "0 5 0");
    t.frame("65,534,999 ms: 1 is not due", 65_535_006, &rekey(0xa0, 5, nothing()), "0 5 0");
    t.frame("65,535,000 ms: it goes", 65_535_007, &rekey(0xa0, 6, nothing()), "0 4 0");
    t
}

fn message_ids() -> Transcript {
    let mut t = Transcript::new("message-ids", LENT);
    let starting_at = |fill: u8, under: Vec<u8>, id: u32| {
        let mut sa = rekey_sa(fill, &[(0, under)]);
        sa.policy.attributes = vec![initial_message_id(id)];
        sa
    };
    let (a0, b0) = (default_key(0xa0), default_key(0xb0));
    t.frame("Rekey SA a0, initial Message ID 5", 0, &registration(&[starting_at(0xa0, lent(), 5)], &[]), "0 1 0");
    let closed: Frame = rekey(0xa0, 50, announce(&[esp(1, &lent())]));
    t.frame("Message ID 50, but its key does not open", 0, &closed, "9 1 0");
    t.frame("a refusal does not raise the least: 5", 0, &rekey(0xa0, 5, nothing()), "0 1 0");
    t.frame("a Delete alone did: 5 again", 0, &rekey(0xa0, 5, nothing()), "3 1 0");
    let b = announce(&[starting_at(0xb0, a0, 100)]);
    t.frame("6: Rekey SA b0, initial Message ID 100; a0 retires", 0, &rekey(0xa0, 6, b), "0 2 0");
    t.frame("7 over b0", 0, &rekey(0xb0, 7, nothing()), "3 2 0");
    t.frame("99", 0, &rekey(0xb0, 99, nothing()), "3 2 0");
    t.frame("4,000,000,000", 0, &rekey(0xb0, 4_000_000_000, announce(&[esp(1, &b0)])), "0 2 0");
    t.frame("100", 0, &rekey(0xb0, 100, nothing()), "3 2 0");
    let c = announce(&[rekey_sa(0xc0, &[(0, b0)])]);
    t.frame("4,000,000,001: Rekey SA c0 without an initial Message ID", 0, &rekey(0xb0, 4_000_000_001, c), "0 3 0");
    t.frame("0 over c0", 0, &rekey(0xc0, 0, nothing()), "0 2 0");
    t.frame("0 again", 0, &rekey(0xc0, 0, nothing()), "3 2 0");
    t
}
