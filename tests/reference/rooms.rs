//! The lines of `trace` that come with a room: sealed frames (document 02, T-05) and fragments (T-12).

use crate::fragments::{Collection, Gathered};
use crate::layout::MOST_FRAME;
use crate::member::{Answer, Member};
use crate::trace::hex;

/// What each octet of a room is before a call, the most octets of one, the digits of its length.
const LENT: u8 = 0xa5;
const MOST_ROOM: usize = 2 * MOST_FRAME;
pub const ROOM_DIGITS: usize = 8;

/// A room's length, a tick and a sealed frame: the answer and, if the room changed, the opened frame that it then starts with.
pub fn sealed(member: &mut Member, given: &[u8]) -> Option<String> {
    let (mut room, tick, frame) = room_tick_and_frame(given)?;
    let answer = member.take_sealed(&mut room, tick, frame);
    Some(answered("answer", answer) + &wrote(&room))
}

/// The same for a fragment: the answer, the numbers of the fragments that are kept after it, and the opened frame.
pub fn fragment(member: &mut Member, kept: &mut Collection, given: &[u8]) -> Option<String> {
    let (mut room, tick, frame) = room_tick_and_frame(given)?;
    let text = match member.take_fragment(kept, &mut room, tick, frame) {
        Gathered::Refused(answer) => answered("refused", answer),
        Gathered::PassedOver => "passed over".to_string(),
        Gathered::Waiting => "waiting".to_string(),
        Gathered::Complete(answer) => answered("complete", answer),
    };
    let numbers: String = kept.numbers().map(|number| format!(" {number}")).collect();
    Some(format!("{text}\nwaits{numbers}{}", wrote(&room)))
}

/// The opened frame in what a line printed first, if a sealed frame or the last fragment of one was accepted.
pub fn accepted(said: &str) -> Option<&str> {
    let heads = ["answer 0\nwrote ", "complete 0\nwaits\nwrote "];
    heads.iter().find_map(|head| said.strip_prefix(head)).map(str::trim_end)
}

fn room_tick_and_frame(given: &[u8]) -> Option<(Vec<u8>, u32, &[u8])> {
    let (length, rest) = given.split_first_chunk()?;
    let (tick, frame) = rest.split_first_chunk()?;
    let length = u32::from_be_bytes(*length) as usize;
    (length <= MOST_ROOM).then(|| (vec![LENT; length], u32::from_be_bytes(*tick), frame))
}

fn answered(word: &str, answer: Answer) -> String {
    answer.with_offset(format!("{word} {}", answer.number))
}

/// The line that tells what a room starts with, as many octets as the opened frame counts; nothing if it is as lent.
fn wrote(room: &[u8]) -> String {
    if room.iter().all(|&octet| octet == LENT) {
        return String::new();
    }
    let opened = room.get(24..28).map_or(0, |octets| u32::from_be_bytes([octets[0], octets[1], octets[2], octets[3]]) as usize);
    format!("\nwrote {}", hex(room.get(..opened).unwrap_or(room)))
}
