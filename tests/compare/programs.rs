//! The programs that are compared: what one printed, how it ended, and where the second member printed something else.

use crate::script::Script;
use reference::{text, trace};
use std::io::{Read, Write};
use std::path::{Path, PathBuf};
use std::process::{Command, Stdio};

#[derive(Clone, Copy, PartialEq)]
pub enum Kind {
    Member,
    Trace,
}

pub struct Program {
    pub path: PathBuf,
    pub kind: Kind,
}

/// What the second member prints for an input, and where a program printed something else.
pub struct Compared {
    pub printed: Vec<u8>,
    pub difference: Option<Difference>,
}

/// Where two outputs differ.
pub struct Difference {
    /// The number of the line, from 0.
    line: usize,
    pub text: String,
}

impl Kind {
    /// The end of the names of its inputs.
    pub fn ending(self) -> &'static str {
        match self {
            Kind::Member => ".in",
            Kind::Trace => ".trace.in",
        }
    }

    pub fn of(path: &Path) -> Kind {
        match path.to_string_lossy().ends_with(Kind::Trace.ending()) {
            true => Kind::Trace,
            false => Kind::Member,
        }
    }

    /// What the second member prints.
    pub fn second(self, input: &[u8]) -> Vec<u8> {
        let mut output = Vec::new();
        let done = match self {
            Kind::Member => text::run(input, &mut output),
            Kind::Trace => trace::run(input, &mut output),
        };
        done.expect("writing to memory");
        output
    }

    /// Whether a reply tells that its line may matter for a later one.
    fn matters(self, reply: &str) -> bool {
        match self {
            Kind::Member => reply.starts_with("0 "),
            Kind::Trace => reply.starts_with("answer 0") || reply.starts_with("done"),
        }
    }
}

impl Program {
    /// Holds the program's output against the second member's; it must end well too.
    pub fn compared(&self, input: &[u8]) -> Result<Compared, String> {
        let fault = |error: std::io::Error| format!("{}: {error}", self.path.display());
        let mut child = Command::new(&self.path).stdin(Stdio::piped()).stdout(Stdio::piped()).spawn().map_err(fault)?;
        let (mut stdin, mut stdout) = (child.stdin.take().expect("piped"), child.stdout.take().expect("piped"));
        let (mut theirs, mut ours) = (Vec::new(), Vec::new());
        std::thread::scope(|scope| {
            // A program that stops reading shows in its output.
            scope.spawn(move || drop(stdin.write_all(input)));
            scope.spawn(|| ours = self.kind.second(input));
            stdout.read_to_end(&mut theirs)
        })
        .map_err(fault)?;
        let status = child.wait().map_err(fault)?;
        match difference("second member", &ours, "program", &theirs) {
            None if !status.success() => Err(format!("{} printed what it must, but ended with {status}", self.path.display())),
            difference => Ok(Compared { printed: ours, difference }),
        }
    }
}

pub fn difference(first: &str, ours: &[u8], second: &str, theirs: &[u8]) -> Option<Difference> {
    if ours == theirs {
        return None;
    }
    let (ours, theirs): (Vec<_>, Vec<_>) =
        (ours.split(|&octet| octet == b'\n').collect(), theirs.split(|&octet| octet == b'\n').collect());
    let line = (0..).find(|&line| ours.get(line) != theirs.get(line))?;
    let shown =
        |lines: &[&[u8]]| lines.get(line).map_or("nothing".to_string(), |text| format!("\"{}\"", String::from_utf8_lossy(text)));
    Some(Difference { line, text: format!("line {}: {first} {}, {second} {}", line + 1, shown(&ours), shown(&theirs)) })
}

/// What the second member prints for each line of the input but the first.
fn replies(kind: Kind, input: &[u8], lines: &[&[u8]]) -> Vec<String> {
    match kind {
        Kind::Member => String::from_utf8_lossy(&kind.second(input)).lines().map(str::to_string).collect(),
        Kind::Trace => {
            let mut trace = trace::Trace::new(text::default_key(lines[0]));
            lines[1..].iter().map(|line| trace.line(line)).collect()
        }
    }
}

/// Writes the script, and a short form of it: the lines before the one that differs that changed something, and that one.
pub fn keep(seed: u64, kind: Kind, script: &Script, at: Difference) -> Result<String, String> {
    let whole = format!("target/tests/differs-{seed}{}", kind.ending());
    let short = format!("target/tests/differs-{seed}-short{}", kind.ending());
    let lines: Vec<&[u8]> = script.input.split(|&octet| octet == b'\n').collect();
    let replies = replies(kind, &script.input, &lines);
    let mut printed = 0;
    let differs = replies.iter().position(|reply| {
        printed += reply.lines().count();
        printed > at.line
    });
    let last = differs.unwrap_or(replies.len());
    let needed =
        lines.iter().enumerate().filter(|(i, _)| *i == 0 || *i == last + 1 || (*i <= last && kind.matters(&replies[i - 1])));
    let short_input: Vec<u8> = needed.flat_map(|(_, line)| [line, b"\n".as_slice()].concat()).collect();
    std::fs::write(&whole, &script.input).map_err(|error| format!("{whole}: {error}"))?;
    std::fs::write(&short, short_input).map_err(|error| format!("{short}: {error}"))?;
    let label = script.labels.get(last).map_or("", String::as_str);
    Ok(format!("seed {seed} differs, {} ({label})\nthe script is in {whole}, the lines that matter in {short}", at.text))
}
