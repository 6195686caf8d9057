//! Two fragments computed with OpenSSL, and what document 02, T-12, says of fragments that come in any order.

use crate::{hex, registered};
use reference::fragments::{seal_fragment, Collection, Gathered, Place};
use reference::member::{Answer, Member};
use reference::sealing::{padded, Choice};

/// The sample frame of T-05, cut behind 5 octets.
const OPENED: &str = "a0a1a2a3a4a5a6a7a8a9aaabacadaeaf2a20290000000007000000280000000c0304000111223344";
const FIRST: &str = concat!(
    "a0a1a2a3a4a5a6a7a8a9aaabacadaeaf3520290000000007000000422a000026000100020000000000000001",
    "5e46fa9db8145a89b9a38a376211e4848fc0a26d391e"
);
const SECOND: &str = concat!(
    "a0a1a2a3a4a5a6a7a8a9aaabacadaeaf35202900000000070000004400000028000200020000000000000002",
    "7c35c155e1de4bd0bc27e921353348a40b14f1ff25577d7b"
);
const ROOM: usize = 16_384;

fn refused(number: u8) -> Gathered {
    Gathered::Refused(Answer { number, offset: 0 })
}

fn complete(number: u8) -> Gathered {
    Gathered::Complete(Answer { number, offset: 0 })
}

#[test]
fn sample_fragments() {
    let gsk_e: Vec<u8> = (0..20).collect();
    let opened = hex(OPENED);
    let fragment = |number: u16, next: u8, piece: &[u8]| {
        let header = [&opened[..16], &[next], &opened[17..28]].concat();
        let choice = Choice { iv: (number as u64).to_be_bytes(), ..Choice::default() };
        seal_fragment(&gsk_e, &header, Place { number, total: 2 }, &choice, &padded(piece, &choice))
    };
    assert_eq!(fragment(1, 42, &opened[28..33]), hex(FIRST));
    assert_eq!(fragment(2, 0, &opened[33..]), hex(SECOND));
}

/// A member with the sample's Rekey SA, the fragments that wait, and what the room starts with.
struct Receiver {
    member: Member,
    kept: Collection,
    room: Vec<u8>,
}

impl Receiver {
    fn new() -> Receiver {
        let mut member = registered(vec![]);
        member.table[0].spi = hex(&OPENED[..32]);
        Receiver { member, kept: Collection::default(), room: vec![0xa5; ROOM] }
    }

    fn gets(&mut self, octets: &[u8]) -> Gathered {
        self.member.take_fragment(&mut self.kept, &mut self.room, 0, octets)
    }

    fn numbers(&self) -> Vec<u16> {
        self.kept.numbers().collect()
    }
}

#[test]
fn in_both_orders() {
    for (first, second, number) in [(FIRST, SECOND, 1), (SECOND, FIRST, 2)] {
        let mut receiver = Receiver::new();
        assert_eq!(receiver.gets(&hex(first)), Gathered::Waiting);
        assert_eq!((receiver.numbers(), receiver.room.clone()), (vec![number], vec![0xa5; ROOM]));
        assert_eq!(receiver.gets(&hex(first)), Gathered::PassedOver);
        assert_eq!(receiver.gets(&hex(second)), complete(0));
        assert_eq!((receiver.numbers(), &receiver.room[..40]), (vec![], &hex(OPENED)[..]));
        assert_eq!(receiver.gets(&hex(first)), refused(3));
    }
}

/// A fragment of this place and Message ID, with so many plain octets.
fn fragment(number: u16, total: u16, message_id: u8, octets: usize) -> Vec<u8> {
    let mut header = hex(OPENED);
    header[23] = message_id;
    let plain = padded(&vec![7; octets], &Choice::default());
    seal_fragment(&(0..20).collect::<Vec<u8>>(), &header, Place { number, total }, &Choice::default(), &plain)
}

#[test]
fn totals_and_message_ids() {
    let mut receiver = Receiver::new();
    let steps: [(u16, u16, u8, Gathered, &[u16]); 14] = [
        (2, 3, 7, Gathered::Waiting, &[2]),
        (1, 2, 7, Gathered::PassedOver, &[2]),
        (1, 1, 7, Gathered::PassedOver, &[2]),
        (3, 3, 7, Gathered::Waiting, &[2, 3]),
        (2, 3, 7, Gathered::PassedOver, &[2, 3]),
        (4, 32, 7, Gathered::Waiting, &[4]),
        (1, 33, 7, refused(7), &[4]),
        (0, 32, 7, refused(1), &[4]),
        (33, 32, 7, refused(1), &[4]),
        (0, 0, 7, refused(1), &[4]),
        (2, 2, 8, Gathered::Waiting, &[2]),
        (2, 2, 6, Gathered::Waiting, &[2]),
        (3, 3, 6, Gathered::Waiting, &[3]),
        (1, 1, 9, Gathered::Complete(Answer { number: 1, offset: 28 }), &[]),
    ];
    for (number, total, message_id, gathered, kept) in steps {
        assert_eq!(receiver.gets(&fragment(number, total, message_id, 3)), gathered, "{number} of {total}");
        assert_eq!(receiver.numbers(), kept, "{number} of {total}");
    }
}

/// The header's 28 octets count, whether or not fragment 1 is there; a copy is passed over whatever its octets.
#[test]
fn octets_so_far() {
    let mut receiver = Receiver::new();
    assert_eq!(receiver.gets(&fragment(2, 3, 7, 9_000)), Gathered::Waiting);
    assert_eq!(receiver.gets(&fragment(3, 3, 7, 7_357)), refused(7));
    assert_eq!(receiver.gets(&fragment(2, 3, 7, 9_001)), Gathered::PassedOver);
    assert_eq!(receiver.gets(&fragment(3, 3, 7, 7_356)), Gathered::Waiting);
    assert_eq!(receiver.gets(&fragment(1, 3, 7, 1)), refused(7));
    assert_eq!(receiver.numbers(), [2, 3]);
    assert_eq!(receiver.gets(&fragment(1, 4, 7, 16_000)), Gathered::Waiting);
    assert_eq!(receiver.numbers(), [1]);
}
