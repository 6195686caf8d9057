//! Fragments that are collected to whole frames (document 02, T-12): copies, other totals, Message IDs and Rekey SAs, sizes, the journal.

use crate::fragments::*;
use crate::parts::*;
use crate::sealed::{keying, octets, over, registers, registers_with, rekey_text_here, spi_of_sa, OPENED};
use crate::Transcript;
use builder::typical::*;
use builder::{Body, Payload, NOTIFY};
use reference::fragments::{seal_fragment, Place};
use reference::layout::MOST_FRAME;

pub fn all() -> Vec<Transcript> {
    vec![collected(), frames(), other_sas(), times(), sizes(), journaled()]
}

/// Copies, totals, Message IDs: what is passed over and what starts anew.
fn collected() -> Transcript {
    let mut t = registered("fragments-collected");
    let opened = octets(OPENED);
    let of_three =
        |number: u16| fragment(&opened, number, 3, [&opened[28..33], &opened[33..36], &opened[36..]][number as usize - 1]);
    hand(&mut t, "2 of 3", &of_three(2), "waiting", "2");
    hand(&mut t, "2 of 3 once more", &of_three(2), "passed over", "2");
    hand(&mut t, "2 of 3 with other octets", &fragment(&opened, 2, 3, &[7; 50]), "passed over", "2");
    hand(&mut t, "1 of 2, a smaller total", &fragment(&opened, 1, 2, &[7]), "passed over", "2");
    hand(&mut t, "2 of 2", &fragment(&opened, 2, 2, &[7]), "passed over", "2");
    hand(&mut t, "1 of 1", &fragment(&opened, 1, 1, &opened[28..]), "passed over", "2");
    hand(&mut t, "1 of 3", &of_three(1), "waiting", "1 2");
    hand(&mut t, "2 of 5, a larger total", &fragment(&opened, 2, 5, &[7]), "waiting", "2");
    hand(&mut t, "3 of 3", &of_three(3), "passed over", "2");
    hand(&mut t, "2 of 2 of Message ID 9", &fragment(&deletes(9), 2, 2, &[7]), "waiting", "2");
    hand(&mut t, "3 of 3 of Message ID 7 again", &of_three(3), "waiting", "3");
    t.line("a sweep", b"s00000000", "done");
    hand(&mut t, "1 of 3", &of_three(1), "waiting", "1 3");
    complete(&mut t, "2 of 3", &of_three(2), "complete 0", &opened);
    t.then(&[rekey_text_here("live"), least(8)]);
    hand(&mut t, "3 of 3: its Message ID is below the least", &of_three(3), "refused 3", "");
    hand(&mut t, "2 of 2 of Message ID 8", &fragment(&deletes(8), 2, 2, &[7]), "waiting", "2");
    let at_once = deletes(9);
    complete(&mut t, "1 of 1 of Message ID 9", &fragment(&at_once, 1, 1, &at_once[28..]), "complete 0", &at_once);
    t.then(&[rekey_text_here("live"), least(10)]);
    let last = deletes(u32::MAX);
    hand(&mut t, "2 of 2 of Message ID 4,294,967,295", &fragment(&last, 2, 2, &last[28..]), "waiting", "2");
    complete(&mut t, "1 of 2, an empty piece", &fragment(&last, 1, 2, &[]), "complete 0", &last);
    t.then(&[rekey_text_here("live"), "least none".to_string()]);
    hand(&mut t, "no Message ID is acceptable any more", &fragment(&last, 1, 2, &[]), "refused 3", "");
    t
}

/// What complete frames are answered, and what they are: the header and the next payload of fragment 1, the pieces by number.
fn frames() -> Transcript {
    let mut t = registered("fragments-complete");
    let mut whole = deletes(7);
    (whole[17], whole[19]) = (0x22, 0x5a);
    let other = with(&with(&with(&whole, 16, 99), 17, 0x2f), 19, 0xff);
    hand(&mut t, "3 of 3, with other flags, minor version, next payload", &fragment(&other, 3, 3, &whole[39..]), "waiting", "3");
    hand(&mut t, "1 of 3", &fragment(&whole, 1, 3, &whole[28..29]), "waiting", "1 3");
    complete(&mut t, "2 of 3, with others too", &fragment(&other, 2, 3, &whole[29..39]), "complete 0", &whole);
    t.then(&[rekey_text_here("live"), least(8)]);
    let broken = with(&deletes(8), 35, 9);
    let halves = |opened: &[u8]| [fragment(opened, 1, 2, &opened[28..30]), fragment(opened, 2, 2, &opened[30..])];
    let [first, second] = halves(&broken);
    hand(&mut t, "2 of 2 of a Delete payload that breaks", &second, "waiting", "2");
    complete(&mut t, "1 of 2: it breaks at its own offset", &first, "complete 1 28", &broken);
    hand(&mut t, "1 of 2 once more starts a collection", &first, "waiting", "1");
    let [first, second] = halves(&with(&deletes(8), 16, 0));
    hand(&mut t, "next payload 0, of the same Message ID: a copy", &first, "passed over", "1");
    complete(&mut t, "2 of 2: next payload 42 is kept", &second, "complete 0", &deletes(8));
    t.then(&[rekey_text_here("live"), least(9)]);
    let nothing = over(9, vec![]);
    hand(&mut t, "1 of 2, nothing at all", &fragment(&nothing, 1, 2, &[]), "waiting", "1");
    complete(&mut t, "2 of 2, nothing at all: no payload", &fragment(&nothing, 2, 2, &[]), "complete 4", &nothing);
    let behind = with(&deletes(9), 16, 0);
    let [first, second] = halves(&behind);
    hand(&mut t, "1 of 2, next payload 0", &first, "waiting", "1");
    complete(&mut t, "2 of 2: octets behind next payload 0", &second, "complete 1 0", &behind);
    let all = deletes(9);
    for number in (2..=32).rev() {
        let piece = all.get(27 + number as usize..28 + number as usize).unwrap_or(&[]);
        let waits: Vec<String> = (number..=32).map(|number: u16| number.to_string()).collect();
        hand(&mut t, "32 pieces, backwards", &fragment(&all, number, 32, piece), "waiting", &waits.join(" "));
    }
    complete(&mut t, "the first one comes last", &fragment(&all, 1, 32, &all[28..29]), "complete 0", &all);
    t.then(&[rekey_text_here("live"), least(10)]);
    t
}

/// Another Rekey SA, and a member that left: the collection stays until a fragment starts anew.
fn other_sas() -> Transcript {
    let mut t = registered("fragments-other-sas");
    let (first, second) = (octets(FIRST), octets(SECOND));
    hand(&mut t, "1 of 2 over the first Rekey SA", &first, "waiting", "1");
    let new = over(7, announce(&[rekey_sa(0xb0, &[(0, keying()[20..].to_vec())])]));
    t.octets("Rekey SA b0 comes whole", 0, &new, "answer 0");
    let both = |least_id: u32| [rekey_text_here("retiring 0 0"), rekey_text(0xb0, "live"), least(least_id)];
    t.then(&both(0));
    hand(&mut t, "2 of 2 over the first Rekey SA", &second, "refused 2", "1");
    let opened = rekey(0xb0, 7, vec![delete(&[spi(1)])]).octets();
    let over_b0 = |number: u16, piece: &[u8]| {
        seal_fragment(&rekey_keying(0xb0, 36)[..20], &opened, Place { number, total: 2 }, &choice(), &[piece, &[0]].concat())
    };
    hand(&mut t, "2 of 2 over b0, with the same Message ID", &over_b0(2, &opened[33..]), "waiting", "2");
    complete(&mut t, "1 of 2 over b0", &over_b0(1, &opened[28..33]), "complete 0", &opened);
    t.then(&[rekey_text(0xb0, "live"), least(8)]);
    let later = rekey(0xb0, 8, vec![delete(&[spi(1)])]).octets();
    let place = Place { number: 1, total: 2 };
    let waiting = seal_fragment(&rekey_keying(0xb0, 36)[..20], &later, place, &choice(), &[&later[28..33], &[0]].concat());
    hand(&mut t, "1 of 2 of Message ID 8", &waiting, "waiting", "1");
    t.line("leaves", b"l", "done");
    t.then(&[least(0)]);
    hand(&mut t, "1 of 2 of Message ID 8 once more", &waiting, "refused 2", "1");
    t.frame("registers, the least Message ID is 7", 0, &registers(), "answer 0");
    t.then(&[rekey_text_here("live"), least(7)]);
    hand(&mut t, "over the first Rekey SA again", &second, "waiting", "2");
    t
}

/// The tick of the last fragment is that of the frame.
fn times() -> Transcript {
    let mut t = Transcript::of_calls("fragments-times", LENT);
    let rekey_sa = |condition: &str| rekey_text_here(condition).replace("life none", "life 1000 10");
    t.frame("registers, for 10 s from 1,000 on", 1000, &registers_with(vec![initial_message_id(7), lifetime(10)]), "answer 0");
    t.then(&[rekey_sa("live"), least(7)]);
    let mut sa = esp(1, &keying()[20..]);
    sa.policy.attributes.push(lifetime(100));
    let opened = over(7, announce(&[sa]));
    let (first, second) = (fragment(&opened, 1, 2, &opened[28..60]), fragment(&opened, 2, 2, &opened[60..]));
    hand_at(&mut t, "1 of 2", 1001, &first, "waiting", "1");
    hand_at(&mut t, "2 of 2 when the Rekey SA is due", 11_000, &second, "refused 2", "1");
    hand_at(&mut t, "2 of 2, a millisecond before", 10_999, &second, "complete 0", "");
    t.then(&[wrote(&opened), esp_text(1, "live").replace("life none", "life 10999 100"), rekey_sa("live"), least(8)]);
    t
}

/// 16,384 octets so far, and one more.
fn sizes() -> Transcript {
    let mut t = registered("fragments-sizes");
    let filler = Payload::new(NOTIFY, Body::Plain(vec![0x3c; MOST_FRAME - 28 - 12 - 4]));
    let opened = over(7, vec![delete(&[spi(1)]), filler]);
    let (half, piece) = (28 + 8178, |count: usize| vec![0x3c; count]);
    hand(&mut t, "2 of 3, 8,178 octets", &fragment(&opened, 2, 3, &opened[28..half]), "waiting", "2");
    hand(&mut t, "3 of 3, 8,179 octets: 16,385 with the header", &fragment(&opened, 3, 3, &piece(8179)), "refused 7", "2");
    hand(&mut t, "2 of 3, 8,179 octets: a copy", &fragment(&opened, 2, 3, &piece(8179)), "passed over", "2");
    hand(&mut t, "3 of 3, 8,178 octets: 16,384", &fragment(&opened, 3, 3, &opened[half..]), "waiting", "2 3");
    hand(&mut t, "1 of 3, one octet", &fragment(&opened, 1, 3, &[0x3c]), "refused 7", "2 3");
    complete(&mut t, "1 of 3, no octet", &fragment(&opened, 1, 3, &[]), "complete 0", &opened);
    t.then(&[rekey_text_here("live"), least(8)]);
    t
}

/// Complete frames are journaled as the opened frame (document 02, T-13); what waits is not.
fn journaled() -> Transcript {
    let mut t = registered("fragments-journaled");
    let (first, second, opened) = (octets(FIRST), octets(SECOND), octets(OPENED));
    t.line("journals", b"j", "done");
    hand(&mut t, "1 of 2", &first, "waiting", "1");
    hand(&mut t, "1 of 2 once more", &first, "passed over", "1");
    hand(&mut t, "1 of 33", &fragment(&opened, 1, 33, &[7]), "refused 7", "1");
    hand_at(&mut t, "2 of 2, at tick 258", 258, &second, "complete 0", "");
    t.then(&[wrote(&opened), format!("line 0000000102{OPENED}"), rekey_text_here("live"), least(8)]);
    let broken = with(&deletes(8), 35, 9);
    complete(&mut t, "a frame that is refused", &fragment(&broken, 1, 1, &broken[28..]), "complete 1 28", &broken);
    hand(&mut t, "1 of 2 of Message ID 9", &fragment(&deletes(9), 1, 2, &[7]), "waiting", "1");
    t.line("leaves", b"l", "done");
    t.then(&["line ff".to_string(), least(0)]);
    t.line("no SA is left", format!("q06{}", text(&spi_of_sa())).as_bytes(), "none");
    t
}
