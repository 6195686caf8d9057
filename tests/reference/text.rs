//! The member program's standard input and output: lines of hexadecimal in, answers out.

use crate::layout::MOST_FRAME;
use crate::member::Member;
use std::io::{BufRead, Result, Write};

const MOST_KEY_DIGITS: usize = 64;
const TICK_DIGITS: usize = 8;
pub const MOST_DIGITS: usize = TICK_DIGITS + 2 * MOST_FRAME;
/// As much of a line as is kept, enough to see that it is too long, also behind the letter and the room's length of a line of `trace`.
const KEPT: usize = MOST_DIGITS + 10;

/// The first line is the default key, each later one a tick and a frame.
pub fn run(mut input: impl BufRead, mut output: impl Write) -> Result<()> {
    let mut line = Vec::new();
    if !read_line(&mut input, &mut line)? {
        return Ok(());
    }
    let lent = default_key(&line);
    let mut member = Member::new();
    while read_line(&mut input, &mut line)? {
        match tick_and_frame(&line) {
            None => writeln!(output, "bad")?,
            Some((tick, frame)) => {
                let answer = member.take(&lent, tick, &frame);
                let counts = format!("{} {} {}", answer.number, member.table.len(), member.held.len());
                writeln!(output, "{}", answer.with_offset(counts))?;
            }
        }
    }
    output.flush()
}

/// The key that the first line gives; any fault in it counts as an empty key.
pub fn default_key(line: &[u8]) -> Vec<u8> {
    if line.len() > MOST_KEY_DIGITS {
        return Vec::new();
    }
    octets(line).unwrap_or_default()
}

/// The tick and the frame of a later line, or None for a bad one.
pub fn tick_and_frame(line: &[u8]) -> Option<(u32, Vec<u8>)> {
    if line.len() < TICK_DIGITS || line.len() > MOST_DIGITS {
        return None;
    }
    let mut tick = octets(line)?;
    let frame = tick.split_off(TICK_DIGITS / 2);
    Some((u32::from_be_bytes(tick.try_into().ok()?), frame))
}

/// Octets from pairs of the digits 0-9 and a-f.
pub fn octets(digits: &[u8]) -> Option<Vec<u8>> {
    if digits.len() % 2 != 0 {
        return None;
    }
    digits.chunks_exact(2).map(|two| Some(digit(two[0])? << 4 | digit(two[1])?)).collect()
}

fn digit(character: u8) -> Option<u8> {
    match character {
        b'0'..=b'9' => Some(character - b'0'),
        b'a'..=b'f' => Some(character - b'a' + 10),
        _ => None,
    }
}

/// Reads up to a newline or the end; false when no line is left. Of a line longer than any good one only the start is kept.
pub fn read_line(input: &mut impl BufRead, line: &mut Vec<u8>) -> Result<bool> {
    line.clear();
    let mut begun = false;
    loop {
        let block = input.fill_buf()?;
        if block.is_empty() {
            return Ok(begun);
        }
        begun = true;
        let end = block.iter().position(|&octet| octet == b'\n');
        let part = &block[..end.unwrap_or(block.len())];
        let room = KEPT - line.len();
        line.extend_from_slice(&part[..part.len().min(room)]);
        let used = end.map_or(block.len(), |end| end + 1);
        input.consume(used);
        if end.is_some() {
            return Ok(true);
        }
    }
}
