//! The text of the test program `trace`: the calls of the member by lines, and after each the answer and, where the member changed, all of
//! it. The first line is the lent default key, as for the member program.

use crate::fragments::Collection;
use crate::journal::{frame_line, leaving_line, sweep_line};
use crate::layout::REKEY;
use crate::member::{Condition, Lifetime, Member, Sa};
use crate::rooms::{self, ROOM_DIGITS};
use crate::text::{default_key, octets, read_line, tick_and_frame, MOST_DIGITS};
use std::fmt::Write as _;
use std::io::{BufRead, Result, Write};

pub fn run(mut input: impl BufRead, mut output: impl Write) -> Result<()> {
    let mut line = Vec::new();
    if !read_line(&mut input, &mut line)? {
        return Ok(());
    }
    let mut trace = Trace::new(default_key(&line));
    while read_line(&mut input, &mut line)? {
        output.write_all(trace.line(&line).as_bytes())?;
    }
    output.flush()
}

/// The member, the lent key, the fragments that are kept, whether steps are journaled, and the text of the member that was printed last.
pub struct Trace {
    member: Member,
    lent: Vec<u8>,
    kept: Collection,
    journaled: bool,
    last: String,
}

impl Trace {
    pub fn new(lent: Vec<u8>) -> Trace {
        let member = Member::new();
        let last = whole(&member);
        Trace { member, lent, kept: Collection::default(), journaled: false, last }
    }

    /// What a line prints.
    pub fn line(&mut self, line: &[u8]) -> String {
        let said = call(&mut self.member, &mut self.lent, &mut self.kept, line);
        let mut text = said.unwrap_or_else(|| "bad".to_string()) + "\n";
        if self.journaled {
            text += &journaled(&self.lent, line, &text);
        }
        self.journaled |= line == b"j";
        let member = whole(&self.member);
        if member != self.last {
            text += &member;
            self.last = member;
        }
        text
    }
}

/// The line of the journal, if the call took effect that a line asked for: `said` is what it printed first.
fn journaled(lent: &[u8], line: &[u8], said: &str) -> String {
    let step = match (line.first(), said) {
        (Some(b's'), "done\n") => {
            octets(&line[1..]).and_then(|tick| tick.try_into().ok()).map(|tick| sweep_line(u32::from_be_bytes(tick)))
        }
        (Some(b'l'), "done\n") => Some(leaving_line()),
        (Some(b'x' | b'y'), said) => opened_line(line, said),
        (_, "answer 0\n") => tick_and_frame(line).map(|(tick, frame)| frame_line(lent, tick, &frame)),
        _ => None,
    };
    step.map_or(String::new(), |step| format!("line {}", String::from_utf8_lossy(&step)))
}

/// The line of a sealed frame that was accepted, whole or in pieces: that of the opened frame, which the room has.
fn opened_line(line: &[u8], said: &str) -> Option<Vec<u8>> {
    let opened = rooms::accepted(said)?;
    let (tick, _) = tick_and_frame(line.get(1 + ROOM_DIGITS..)?)?;
    Some(frame_line(&[], tick, &octets(opened.as_bytes())?))
}

/// The call that a line asks for, and what it prints first; None for a line that asks for nothing.
pub fn call(member: &mut Member, lent: &mut Vec<u8>, kept: &mut Collection, line: &[u8]) -> Option<String> {
    let done = || Some("done".to_string());
    let (letter, digits) = line.split_first()?;
    let most = if matches!(letter, b'x' | b'y') { MOST_DIGITS + ROOM_DIGITS } else { MOST_DIGITS };
    if digits.len() > most {
        return None;
    }
    match letter {
        b'k' => {
            *lent = octets(digits)?;
            done()
        }
        b's' => {
            let tick: [u8; 4] = octets(digits)?.try_into().ok()?;
            member.sweep(u32::from_be_bytes(tick));
            done()
        }
        b'l' if digits.is_empty() => {
            member.leave();
            done()
        }
        b'p' if matches!(digits, b"00" | b"01") => {
            *member = Member::with_profile(digits == b"01");
            done()
        }
        b'x' => rooms::sealed(member, &octets(digits)?),
        b'y' => rooms::fragment(member, kept, &octets(digits)?),
        b'j' if digits.is_empty() => done(),
        b'q' => {
            let name = octets(digits)?;
            let (protocol, spi) = name.split_first()?;
            Some(member.sa(*protocol, spi).map_or("none".to_string(), found))
        }
        _ => {
            let (tick, frame) = tick_and_frame(line)?;
            let answer = member.take(lent, tick, &frame);
            Some(answer.with_offset(format!("answer {}", answer.number)))
        }
    }
}

fn found(sa: &Sa) -> String {
    format!("found {} {}", hex(&sa.keying), condition(sa))
}

/// The whole member: its SAs, its held keys, the least Message ID, each on a line.
pub fn whole(member: &Member) -> String {
    let mut text = String::new();
    let mut line = |line: String| writeln!(text, "{line}").expect("writing to memory");
    for sa in &member.table {
        let (encryption, wrapping) = if sa.protocol == REKEY { (sa.encryption, sa.default_key().len()) } else { (0, 0) };
        let (spi, keying) = (hex(&sa.spi), hex(&sa.keying));
        line(format!("sa {} {spi} {keying} {encryption} {wrapping} {}", sa.protocol, condition(sa)));
    }
    for (id, value) in &member.held {
        line(format!("held {id} {}", hex(value)));
    }
    line(member.least_id.map_or("least none".to_string(), |id| format!("least {id}")));
    text
}

/// Live or retiring, and the lifetime.
fn condition(sa: &Sa) -> String {
    let condition = match sa.condition {
        Condition::Live => "live".to_string(),
        Condition::Retiring { start, delay } => format!("retiring {start} {delay}"),
    };
    match sa.lifetime {
        None => format!("{condition} life none"),
        Some(Lifetime { start, seconds }) => format!("{condition} life {start} {seconds}"),
    }
}

/// Octets in hexadecimal.
pub fn hex(octets: &[u8]) -> String {
    let digits = b"0123456789abcdef";
    octets.iter().flat_map(|octet| [octet >> 4, octet & 15]).map(|digit| digits[digit as usize] as char).collect()
}
