//! The journal of document 02, T-13: a line for each step that a member took, and the member made again from such lines.

use crate::member::Member;
use crate::text::octets;
use std::io::{Read, Result, Write};

/// The exchange type of GSA_REKEY, and where it stands in a frame.
const GSA_REKEY: u8 = 41;
const EXCHANGE_AT: usize = 18;
const HEADER: usize = 28;
const LEAVING: u8 = 0xff;

fn is_rekey(frame: &[u8]) -> bool {
    frame.get(EXCHANGE_AT) == Some(&GSA_REKEY)
}

/// The line of a frame that was accepted. The lent key of a GSA_REKEY is not read, so its length is 00.
pub fn frame_line(lent: &[u8], tick: u32, frame: &[u8]) -> Vec<u8> {
    let key = if is_rekey(frame) { &[] } else { lent };
    line(&[&[key.len() as u8], key, &tick.to_be_bytes(), frame].concat())
}

pub fn sweep_line(tick: u32) -> Vec<u8> {
    line(&[&[0], &tick.to_be_bytes()[..]].concat())
}

pub fn leaving_line() -> Vec<u8> {
    line(&[LEAVING])
}

fn line(octets: &[u8]) -> Vec<u8> {
    let digits: String = octets.iter().map(|octet| format!("{octet:02x}")).collect();
    [digits.as_bytes(), b"\n"].concat()
}

/// The member that a journal makes, and the number of the line that stopped the reading, from 1.
pub struct ReadBack {
    pub member: Member,
    pub stopped: Option<usize>,
}

/// Reads a journal back onto a new member of the given profile. What stands behind the last newline is not looked at.
pub fn read_back(journal: &[u8], profile: bool) -> ReadBack {
    let mut member = Member::with_profile(profile);
    let whole = journal.iter().rposition(|&octet| octet == b'\n').map_or(0, |at| at + 1);
    for (number, line) in journal[..whole].split_inclusive(|&octet| octet == b'\n').enumerate() {
        if take(&mut member, &line[..line.len() - 1]).is_none() {
            return ReadBack { member, stopped: Some(number + 1) };
        }
    }
    ReadBack { member, stopped: None }
}

/// Takes the step that a line says; None where it says none, or one that the member refuses.
fn take(member: &mut Member, text: &[u8]) -> Option<()> {
    let octets = octets(text)?;
    let (&length, behind) = octets.split_first()?;
    if length == LEAVING {
        return behind.is_empty().then(|| member.leave());
    }
    if length == 0 && behind.len() == 4 {
        member.sweep(u32::from_be_bytes(behind.try_into().ok()?));
        return Some(());
    }
    let key = behind.get(..length as usize)?;
    let tick = behind.get(key.len()..key.len() + 4)?;
    let frame = &behind[key.len() + 4..];
    if frame.len() < HEADER || is_rekey(frame) != key.is_empty() {
        return None;
    }
    let answer = member.take(key, u32::from_be_bytes(tick.try_into().ok()?), frame);
    (answer.number == 0).then_some(())
}

/// What the program `journal` prints: how many SAs and held keys the member has and, where a line stopped the reading, its number.
pub fn report(back: &ReadBack) -> String {
    let counts = format!("{} {}", back.member.table.len(), back.member.held.len());
    back.stopped.map_or(counts.clone(), |line| format!("{counts} {line}")) + "\n"
}

pub fn run(mut input: impl Read, mut output: impl Write) -> Result<()> {
    let mut journal = Vec::new();
    input.read_to_end(&mut journal)?;
    output.write_all(report(&read_back(&journal, false)).as_bytes())
}
