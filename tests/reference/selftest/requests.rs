//! What document 02's requests ask for.

use crate::*;
use reference::member::{Answer, Lifetime};
use reference::sealing::{seal_frame, Choice};

/// T-09: an entry whose Key ID equals its KWK ID gives 6, reached or not.
#[test]
fn keys_that_wrap_themselves() {
    let (five, nine, other) = ([5; 16], [9; 16], [6; 16]);
    let reached = || entry(5, &five, 0, &LENT);
    for itself in [entry(5, &five, 5, &five), entry(5, &other, 5, &five), entry(9, &nine, 9, &nine), entry(5, &five, 5, &LENT)] {
        for entries in [vec![itself.clone()], vec![reached(), itself.clone()], vec![itself.clone(), reached()]] {
            let mut member = Member::new();
            assert_eq!(take(&mut member, &LENT, 0, &registration(entries.clone(), vec![]).octets()), 6);
            assert_eq!(take(&mut member, &[0x11; 28], 0, &registration(entries, vec![]).octets()), 5);
            assert_eq!(member, Member::new());
        }
    }
}

/// T-02: over the member's own channel, under the lent key alone. The SPIs, the Message ID and the held keys are not asked for.
#[test]
fn rekeys_over_the_own_channel() {
    let esp = |spi: u32, kwk: &[u8]| {
        let copy = Attribute::key(0, 0, &wrap(kwk, &keying(20)));
        vec![gsa(vec![esp_policy(&spi.to_be_bytes(), 128)]), kd(vec![bag(ESP, &spi.to_be_bytes(), vec![copy])])]
    };
    let next = |copies: &[(u32, &[u8])]| {
        let copies = copies.iter().map(|(id, kwk)| Attribute::key(0, *id, &wrap(kwk, &keying(36)))).collect();
        vec![gsa(vec![rekey_policy(&[7; 16], 128, 1)]), kd(vec![bag(REKEY, &[7; 16], copies)])]
    };
    let inband = |payloads| frame(GSA_INBAND_REKEY, &[0; 16], u32::MAX, payloads).octets();
    let five = [5; 16];
    let mut member = Member::new();
    assert_eq!(take(&mut member, &LENT, 0, &inband(esp(1, &LENT))), 2);
    let under_five = registration_under(5, &five, vec![entry(5, &five, 0, &LENT)], vec![initial_message_id(9)]);
    assert_eq!(take(&mut member, &LENT, 0, &under_five.octets()), 0);
    let before = member.clone();
    let refused = [
        (4, [esp(1, &LENT), vec![delete(&[vec![0, 0, 0, 1]])]].concat()),
        (4, vec![delete(&[vec![0, 0, 0, 1]])]),
        (4, vec![gsa(vec![]), kd(vec![Part::unnamed(vec![])])]),
        (6, next(&[(0, &LENT), (0, &LENT)])),
        (9, next(&[(5, &five)])),
        (9, next(&[(5, &LENT)])),
        (9, esp(1, &keying(36)[20..])),
    ];
    for (number, payloads) in refused {
        assert_eq!(take(&mut member, &LENT, 0, &inband(payloads)), number);
    }
    assert_eq!(take(&mut member, &[0x11; 20], 0, &inband(esp(1, &LENT))), 5);
    assert_eq!(member, before);
    assert_eq!(take(&mut member, &LENT, 0, &inband(esp(1, &LENT))), 0);
    assert_eq!((member.table.len(), member.least_id, held_ids(&member)), (2, Some(9), vec![5]));
    assert_eq!(take(&mut member, &LENT, 0, &inband(next(&[(0, &LENT)]))), 0);
    assert_eq!((member.table.len(), member.least_id, held_ids(&member)), (3, Some(0), vec![5]));
}

/// What only callers of the library meet: at a tick at which every SA is due the member is empty, and a broken value is 2.
#[test]
fn over_the_own_channel_of_no_member() {
    let frame = frame(GSA_INBAND_REKEY, &[0; 16], 0, esp_sas(&[2])).octets();
    let mut due = Member { table: vec![retiring_sa(0, 1)], ..Member::new() };
    assert_eq!(take(&mut due, &keying(36)[20..], 1000, &frame), 2);
    assert_eq!(take(&mut due, &keying(36)[20..], 999, &frame), 0);
    let mut broken = Member { held: vec![(0, vec![0; 16])], ..registered(vec![]) };
    assert_eq!(take(&mut broken, &keying(36)[20..], 0, &frame), 2);
}

/// T-06: the offset of a broken layout; a refusal by another number, and acceptance, carry 0. Transcript `where` has each place.
#[test]
fn offsets() {
    let mut octets = registration(vec![], vec![]).octets();
    let answer = |octets: &[u8], lent: &[u8]| Member::new().take(lent, 0, octets);
    assert_eq!(answer(&octets, &LENT), Answer { number: 0, offset: 0 });
    assert_eq!(answer(&octets, &[]), Answer { number: 5, offset: 0 });
    octets[52] = 9; // the type of the source selector
    assert_eq!(answer(&octets, &LENT), Answer { number: 1, offset: 52 });
    octets[32] = 9; // the protocol of its policy
    assert_eq!(answer(&octets, &LENT), Answer { number: 1, offset: 32 });
    octets.pop();
    assert_eq!(answer(&octets, &LENT), Answer { number: 1, offset: 0 });
}

fn running_sa(start: u32, seconds: u32) -> Sa {
    Sa { condition: Condition::Live, lifetime: Some(Lifetime { start, seconds }), ..retiring_sa(0, 0) }
}

/// T-07: a lifetime runs by the same rule, whichever comes first; up to 2,000,000 seconds are part of what a member is.
#[test]
fn lifetimes_run_out() {
    let sa = running_sa(4_294_967_000, 1);
    assert!(!sa.is_due(703) && sa.is_due(704) && sa.is_due(4_294_966_999));
    assert!(running_sa(77, 0).is_due(77) && running_sa(77, 0).is_due(76));
    let longest = running_sa(5, 2_000_000);
    assert!(longest.is_due(4), "nearly a whole round has gone by");
    assert!(!longest.is_due(2_000_000_004) && longest.is_due(2_000_000_005) && !longest.is_due(5));
    let both = |delay: u16, seconds: u32| Sa { lifetime: running_sa(1000, seconds).lifetime, ..retiring_sa(1500, delay) };
    assert!(!both(1, 9).is_due(2499) && both(1, 9).is_due(2500), "the delay first");
    assert!(!both(9, 1).is_due(1999) && both(9, 1).is_due(2000), "the lifetime first");
    for (seconds, whole) in [(0, true), (2_000_000, true), (2_000_001, false), (u32::MAX, false)] {
        let value = Member { table: vec![running_sa(0, seconds)], ..Member::new() };
        let mut member = value.clone();
        assert_eq!(member.is_whole(), whole);
        assert_eq!(member.sa(ESP, &[0, 0, 0, 1]).is_some(), whole);
        member.sweep(u32::MAX);
        assert_eq!(member == Member::new(), whole);
    }
}

/// T-07: a rekey over a Rekey SA that ran out gives 2, swept or not; a member whose SAs all ran out may register anew.
#[test]
fn rekey_sa_that_ran_out() {
    let lifetime = |seconds: u32| Attribute::long(1, &seconds.to_be_bytes());
    let frame = registration(vec![], vec![lifetime(2), initial_message_id(7)]).octets();
    let mut member = Member::new();
    assert_eq!(take(&mut member, &LENT, 100, &frame), 0);
    assert_eq!(take(&mut member, &[], 2099, &rekey(7, vec![delete(&[vec![0; 4]])]).octets()), 0);
    assert_eq!(take(&mut member, &LENT, 2099, &frame), 2);
    let over = rekey(8, vec![delete(&[vec![0; 4]])]).octets();
    let mut swept = member.clone();
    swept.sweep(2100);
    assert_eq!(swept.table, []);
    assert_eq!(take(&mut swept, &[], 2100, &over), 2);
    assert_eq!(take(&mut member, &[], 2100, &over), 2);
    assert_eq!((member.table.len(), member.least_id), (1, Some(8)));
    assert_eq!(take(&mut member, &LENT, 2100, &frame), 0);
    assert_eq!(member.table[0].lifetime, Some(Lifetime { start: 2100, seconds: 2 }));
    let mut too_long = Member::new();
    assert_eq!(take(&mut too_long, &LENT, 0, &registration(vec![], vec![lifetime(2_000_001)]).octets()), 7);
    assert_eq!(take(&mut too_long, &LENT, 0, &registration(vec![], vec![lifetime(1), lifetime(1)]).octets()), 4);
    assert_eq!(take(&mut too_long, &LENT, 0, &registration(vec![], vec![Attribute::Short(1, 1)]).octets()), 1);
    assert_eq!(take(&mut too_long, &LENT, 0, &registration(vec![], vec![lifetime(2_000_000)]).octets()), 0);
}

/// The Key IDs that a new member holds after a registration with these entries (Key ID, KWK ID) and the Rekey SA's key under key `under`.
/// Each is held with its value.
fn held_after(links: &[(u32, u32)], under: u32) -> Vec<u32> {
    let key = |id: u32| if id == 0 { LENT } else { [id as u8; 16] };
    let entries = links.iter().map(|(id, kwk_id)| entry(*id, &key(*id), *kwk_id, &key(*kwk_id))).collect();
    let mut member = Member::new();
    assert_eq!(take(&mut member, &LENT, 0, &registration_under(under, &key(under), entries, vec![]).octets()), 0);
    assert!(member.held.iter().all(|(id, value)| *value == key(*id)));
    held_ids(&member)
}

/// T-04: of the chains that open the Rekey SA's key the shortest one, of these the smallest, from the key that opens it on.
#[test]
fn working_key_paths() {
    let held = held_after;
    let tree = [(1, 3), (3, 0), (1, 7), (7, 0), (1, 2)];
    assert_eq!(held(&tree, 1), [1, 3]);
    assert_eq!(held(&[&tree[..], &[(1, 0)]].concat(), 1), [1]);
    assert_eq!(held(&tree, 0), []);
    assert_eq!(held(&tree, 7), [7]);
    assert_eq!(held(&[(5, 0), (9, 5)], 9), [9, 5]);
    // a longer chain of smaller Key IDs, entries twice, a circle beside the path
    assert_eq!(held(&[(9, 1), (1, 2), (2, 0), (9, 8), (8, 0)], 9), [9, 8]);
    assert_eq!(held(&[(9, 8), (8, 0), (9, 8), (8, 0), (8, 9)], 9), [9, 8]);
    // the first key in which they differ decides, not the last
    assert_eq!(held(&[(9, 3), (3, 8), (8, 0), (9, 4), (4, 1), (1, 0)], 9), [9, 3, 8]);
    // RFC 9838, Appendix A.2: members A and E
    assert_eq!(held(&[(1, 3), (3, 7), (7, 0)], 1), [1, 3, 7]);
    assert_eq!(held(&[(2, 5), (5, 11), (11, 0)], 2), [2, 5, 11]);
}

/// T-04, word for word: all chains with no key twice are written down, and of those that end on the key the least is taken, by length and
/// then by list. The entries are made by chance: ties, circles, entries twice and entries that nothing reaches are among them.
#[test]
fn paths_among_all_chains() {
    let mut state = 4_u32;
    let mut below = |n: u32| {
        state = state.wrapping_mul(1_664_525).wrapping_add(1_013_904_223);
        (state >> 16) % n
    };
    let mut ties = 0;
    for _ in 0..1_000 {
        let made: Vec<(u32, u32)> = (0..3 + below(9)).map(|_| (1 + below(5), below(6))).collect();
        let links: Vec<(u32, u32)> = made.into_iter().filter(|(id, kwk_id)| id != kwk_id).collect();
        let mut chains: Vec<Vec<u32>> = vec![vec![]];
        let mut at = 0;
        while at < chains.len() {
            let chain = chains[at].clone();
            let end = chain.first().copied().unwrap_or(0);
            let next = links.iter().filter(|(id, kwk_id)| *kwk_id == end && !chain.contains(id));
            chains.extend(next.map(|(id, _)| [&[*id], &chain[..]].concat()));
            at += 1;
        }
        for under in 1..6 {
            let mut to: Vec<(usize, &Vec<u32>)> =
                chains.iter().filter(|c| c.first() == Some(&under)).map(|c| (c.len(), c)).collect();
            to.sort();
            to.dedup();
            if let Some((keys, least)) = to.first() {
                assert_eq!(held_after(&links, under), **least, "{links:?} to {under}");
                ties += usize::from(to.get(1).is_some_and(|(others, _)| others == keys));
            }
        }
    }
    assert!(ties > 20, "{ties} ties");
}

/// T-04: without a Rekey SA the list is empty though keys are reached, and an entry that fails makes no chain.
#[test]
fn lists_without_a_path() {
    let (five, nine) = ([5; 16], [9; 16]);
    let mut member = Member { held: vec![(7, vec![0; 16])], ..Member::new() };
    let copy = Attribute::key(0, 0, &wrap(&LENT, &keying(20)));
    let bags = vec![bag(ESP, &[0, 0, 0, 1], vec![copy]), Part::unnamed(vec![entry(5, &five, 0, &LENT)])];
    let payloads = vec![gsa(vec![esp_policy(&[0, 0, 0, 1], 128)]), kd(bags)];
    assert_eq!(take(&mut member, &LENT, 0, &frame(GSA_REGISTRATION, &[0; 16], 0, payloads).octets()), 0);
    assert_eq!((member.table.len(), held_ids(&member)), (1, vec![]));

    let mut member = Member::new();
    let entries = vec![entry(5, &five, 0, &nine), entry(5, &five, 9, &nine), entry(9, &nine, 0, &LENT)];
    assert_eq!(take(&mut member, &LENT, 0, &registration_under(5, &five, entries, vec![]).octets()), 0);
    assert_eq!(held_ids(&member), [5, 9]);
}

/// T-11: the path goes before the held key it ends on; with the profile off the same frame changes no list.
#[test]
fn fresh_tree_keys() {
    let (five, six, seven, new) = ([5; 16], [6; 16], [7; 16], [8; 16]);
    let tree = || vec![entry(5, &five, 6, &six), entry(6, &six, 7, &seven), entry(7, &seven, 0, &LENT)];
    let next = |entries: Vec<Attribute>, kwk_id: u32, kwk: &[u8]| {
        let copy = Attribute::key(0, kwk_id, &wrap(kwk, &keying(36)));
        let bag = bag(REKEY, &[7; 16], [entries, vec![copy]].concat());
        rekey(0, vec![gsa(vec![rekey_policy(&[7; 16], 128, 1)]), kd(vec![bag])]).octets()
    };
    let fresh = |id: u32, kwk_id: u32, kwk: &[u8]| fresh_key(id, kwk_id, &wrap(kwk, &new));
    let registered = |profile: bool| {
        let mut member = Member::with_profile(profile);
        assert_eq!(take(&mut member, &LENT, 0, &registration_under(5, &five, tree(), vec![]).octets()), 0);
        member
    };
    let mut member = registered(true);
    assert_eq!(take(&mut member, &[], 0, &next(vec![fresh(8, 6, &six)], 8, &new)), 0);
    assert_eq!((held_ids(&member), member.profile), (vec![8, 6, 7], true));
    let mut member = registered(true);
    assert_eq!(take(&mut member, &[], 0, &next(vec![fresh(6, 7, &seven)], 6, &six)), 9, "the held 6 is hidden");
    assert_eq!(take(&mut member, &[], 0, &next(vec![fresh(0, 7, &seven)], 5, &five)), 6);
    assert_eq!(take(&mut member, &[], 0, &next(vec![fresh(6, 6, &six)], 5, &five)), 6);
    member.leave();
    assert_eq!(member, Member::with_profile(true));
    let mut member = registered(false);
    assert_eq!(take(&mut member, &[], 0, &next(vec![fresh(6, 7, &seven), fresh(0, 0, &five)], 6, &six)), 0);
    assert_eq!(held_ids(&member), [5, 6, 7]);
}

/// T-05: a frame sealed for this member opens to itself; the room is written from 3 on.
#[test]
fn sealed_frames() {
    let mut member = registered(vec![initial_message_id(7)]);
    let opened = rekey(7, vec![delete(&[vec![0; 4]])]).octets();
    let choice = Choice { reserved: 0x80, iv: [1; 8], padding: vec![9; 3] };
    let sealed = seal_frame(&keying(20), &opened, &choice);
    let mut room = vec![0xa5; 16_384];
    assert_eq!(member.clone().take_sealed(&mut room[1..], 0, &sealed).number, 10);
    assert_eq!(member.clone().take_sealed(&mut room, 0, &opened).number, 1);
    assert_eq!(Member::new().take_sealed(&mut room, 0, &sealed).number, 2);
    assert!(room.iter().all(|octet| *octet == 0xa5));
    assert_eq!(member.take_sealed(&mut room, 0, &sealed).number, 0);
    assert_eq!(room[..opened.len()], opened);
    assert!(room[opened.len()..].iter().all(|octet| *octet == 0xa5));
    assert_eq!((member.take_sealed(&mut room, 0, &sealed).number, member.least_id), (3, Some(8)));
}
