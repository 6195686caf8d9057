//! `journals TRACE JOURNAL SCRIPT..`: makes the calls of each script (the lines of `trace`) journaled, by the program `trace` and by the
//! second member: both must print the same lines. Then hands the journal to the program `journal`: whole; cut at every octet of its last
//! three lines and at a hundred others; with the first, a middle and the last line damaged in each way of `DAMAGES`. It must print what
//! the second member reads back. A journal of a member with the profile is read back whole, with it by the second member, without it by
//! both. At last ends a process that writes a journal to a file, at any place, and reads the file back.
//!
//! `journals --write FILE JOURNAL`: writes a journal to a file, in small parts, until it is ended.

use builder::rng::Rng;
use reference::{journal, trace};
use std::collections::BTreeMap;
use std::fs;
use std::io::{Read, Write};
use std::path::Path;
use std::process::{Command, ExitCode, Stdio};
use std::time::Duration;

/// Cuts at other places than the last three lines, and of a line that is longer than so many octets.
const CUTS: usize = 100;
const LONG: usize = 600;
/// How often the writer is ended.
const ENDS: usize = 1000;

/// Journals of members with the profile (document 02, T-11). The program reads with it off, so that one may stop the reading.
const OF_PROFILE: &str = "of a member with the profile";

type Failure = String;

fn main() -> ExitCode {
    let given: Vec<String> = std::env::args().skip(1).collect();
    let done = match given.as_slice() {
        [option, file, journal] if option == "--write" => write_slowly(file, journal),
        [trace, journal, scripts @ ..] if !scripts.is_empty() => compare(trace, journal, scripts),
        _ => Err("TRACE JOURNAL SCRIPT..".to_string()),
    };
    match done {
        Ok(()) => ExitCode::SUCCESS,
        Err(failure) => {
            println!("journals: {failure}");
            ExitCode::FAILURE
        }
    }
}

/// What a program prints for an input.
fn printed(program: &str, input: &[u8]) -> Result<Vec<u8>, Failure> {
    let failed = |error| format!("{program}: {error}");
    let mut child = Command::new(program).stdin(Stdio::piped()).stdout(Stdio::piped()).spawn().map_err(failed)?;
    let mut stdin = child.stdin.take().expect("a pipe");
    let input = input.to_vec();
    let writer = std::thread::spawn(move || stdin.write_all(&input));
    let mut output = Vec::new();
    child.stdout.take().expect("a pipe").read_to_end(&mut output).map_err(failed)?;
    let status = child.wait().map_err(failed)?;
    writer.join().expect("a thread that ends").map_err(failed)?;
    if !status.success() {
        return Err(format!("{program} ended with {status}"));
    }
    Ok(output)
}

/// A reader of journals, and how often each kind of input was tried and how often one stopped the reading.
struct Tried<'p> {
    program: &'p str,
    counts: BTreeMap<&'static str, (usize, usize)>,
}

impl Tried<'_> {
    fn reads(&mut self, kind: &'static str, journal: &[u8]) -> Result<(), Failure> {
        let back = journal::read_back(journal, false);
        let printed = printed(self.program, journal)?;
        if printed != journal::report(&back).as_bytes() {
            let file = "target/tests/differs.journal";
            fs::write(file, journal).map_err(|error| format!("{file}: {error}"))?;
            let (first, second) = (String::from_utf8_lossy(&printed).into_owned(), journal::report(&back));
            return Err(format!("{kind}: {} prints {first:?}, the second member {second:?}; the journal is in {file}", self.program));
        }
        let count = self.counts.entry(kind).or_default();
        count.0 += 1;
        count.1 += back.stopped.is_some() as usize;
        Ok(())
    }
}

fn compare(trace_program: &str, program: &str, scripts: &[String]) -> Result<(), Failure> {
    let mut tried = Tried { program, counts: BTreeMap::new() };
    let mut longest = Vec::new();
    for (seed, script) in scripts.iter().enumerate() {
        let lines = fs::read(script).map_err(|error| format!("{script}: {error}"))?;
        let written = journal_of(trace_program, &lines).map_err(|failure| format!("{script}: {failure}"))?;
        if with_profile(&lines) {
            reads_with_profile(&written).map_err(|failure| format!("{script}: {failure}"))?;
            tried.reads(OF_PROFILE, &written)?;
            continue;
        }
        let mut rng = Rng::new(seed as u64);
        tried.reads("whole", &written)?;
        cuts(&mut tried, &mut rng, &written)?;
        damages(&mut tried, &mut rng, &written)?;
        if written.len() > longest.len() {
            longest = written;
        }
    }
    ended(&mut tried, &mut Rng::new(0), &longest)?;
    for (kind, (count, stopped)) in &tried.counts {
        println!("journals: {count} {kind}, {stopped} of them stop the reading");
        let stops = !matches!(*kind, "whole" | "cut" | "ended");
        let some = matches!(*kind, "lines that changed places" | OF_PROFILE);
        if stops != (*stopped > 0) || stops && stopped != count && !some {
            return Err(format!("{stopped} of {count} {kind} stop the reading"));
        }
    }
    Ok(())
}

/// Whether the script's member has the profile (document 02, T-11).
fn with_profile(script: &[u8]) -> bool {
    script.split(|&octet| octet == b'\n').any(|line| line == b"p01")
}

/// A journal of a member with the profile reads back whole onto a new member that has it too.
fn reads_with_profile(journal: &[u8]) -> Result<(), Failure> {
    let back = journal::read_back(journal, true);
    back.stopped.map_or(Ok(()), |line| Err(format!("with the profile line {line} stops the reading")))
}

/// The journal of a script: its lines with `j` behind the first. Both traces print the same, and so the same lines of the journal.
fn journal_of(program: &str, script: &[u8]) -> Result<Vec<u8>, Failure> {
    let first = script.iter().position(|&octet| octet == b'\n').map_or(script.len(), |at| at + 1);
    let input = [&script[..first], b"j\n", &script[first..]].concat();
    let mut second = Vec::new();
    trace::run(&input[..], &mut second).expect("writing to memory");
    if printed(program, &input)? != second {
        return Err(format!("{program} and the second member print other lines"));
    }
    let lines = second.split_inclusive(|&octet| octet == b'\n');
    Ok(lines.filter_map(|line| line.strip_prefix(b"line ")).flatten().copied().collect())
}

/// Where each line begins, and the end.
fn starts(journal: &[u8]) -> Vec<usize> {
    let ends = journal.iter().enumerate().filter(|(_, &octet)| octet == b'\n').map(|(at, _)| at + 1);
    [0].into_iter().chain(ends).collect()
}

/// Cuts at every octet of the last three lines, of a long one at both its ends, and at a hundred other octets.
fn cuts(tried: &mut Tried, rng: &mut Rng, journal: &[u8]) -> Result<(), Failure> {
    let starts = starts(journal);
    for line in starts.windows(2).rev().take(3) {
        let (start, end) = (line[0], line[1]);
        let mid = start + LONG.min(end - start);
        for at in (start..=mid).chain(mid.max(end - LONG.min(end - start))..=end) {
            tried.reads("cut", &journal[..at])?;
        }
    }
    for _ in 0..CUTS {
        tried.reads("cut", &journal[..rng.below(journal.len() + 1)])?;
    }
    Ok(())
}

/// What can be wrong with a line, by a name and the line that stands in its place.
type Damage = (&'static str, fn(&[u8]) -> Vec<u8>);

const DAMAGES: &[Damage] = &[
    ("with another character", |line| [&line[..line.len() - 1], b"g"].concat()),
    ("with a capital", |line| [b"A", &line[1..]].concat()),
    ("with a CR", |line| [line, b"\r"].concat()),
    ("of an odd count", |line| line[1..].to_vec()),
    ("that are empty", |_| Vec::new()),
    ("of ff with more", |line| [b"ff", line].concat()),
    ("with a key length beyond their octets", |line| [b"fe", &line[2..]].concat()),
    ("with a key and no frame", |_| b"1000000000000000000000000000000000000000000000000000".to_vec()),
    ("with a frame of 27 octets", |_| [b"00", &[b'0'; 8 + 54][..]].concat()),
    ("with a GSA_REKEY and a key", |_| {
        [&b"10"[..], &[b'0'; 32 + 8 + 36], b"29", &[b'0'; 18]].concat()
    }),
    ("with another exchange and no key", |_| [&b"00"[..], &[b'0'; 8 + 36], b"28", &[b'0'; 18]].concat()),
    ("that are too long", |_| vec![b'0'; 40_000]),
    ("with an opened frame of 16,385 octets", |_| {
        [&b"10"[..], &[b'0'; 32 + 8 + 36], b"28", &vec![b'0'; 2 * (16_385 - 19)]].concat()
    }),
    ("that the member refuses", |_| [&b"10"[..], &[b'0'; 32 + 8 + 36], b"28", &[b'0'; 10], b"0000001c"].concat()),
];

/// Damages the first, a middle and the last line, and lets lines change places.
fn damages(tried: &mut Tried, rng: &mut Rng, journal: &[u8]) -> Result<(), Failure> {
    let starts = starts(journal);
    let count = starts.len() - 1;
    if count == 0 {
        return Ok(());
    }
    for number in [0, count / 2, count - 1] {
        let (before, line, behind) =
            (&journal[..starts[number]], &journal[starts[number]..starts[number + 1] - 1], &journal[starts[number + 1] - 1..]);
        for (name, damage) in DAMAGES {
            tried.reads(name, &[before, &damage(line), behind].concat())?;
        }
    }
    for _ in 0..10 {
        let (a, b) = (rng.below(count), rng.below(count));
        let lines: Vec<&[u8]> = starts.windows(2).map(|line| &journal[line[0]..line[1]]).collect();
        let mut others = lines.clone();
        others.swap(a, b);
        tried.reads("lines that changed places", &others.concat())?;
    }
    Ok(())
}

/// Writes a journal to a file in parts of 1 to 64 octets.
fn write_slowly(file: &str, journal: &str) -> Result<(), Failure> {
    let failed = |error| format!("{file}: {error}");
    let octets = fs::read(journal).map_err(failed)?;
    let mut output = fs::File::create(file).map_err(failed)?;
    let mut rng = Rng::new(octets.len() as u64);
    let mut at = 0;
    while at < octets.len() {
        let next = octets.len().min(at + rng.between(1, 64));
        output.write_all(&octets[at..next]).map_err(failed)?;
        at = next;
    }
    Ok(())
}

/// Ends a process that writes the journal, after any time, and reads back what it wrote.
fn ended(tried: &mut Tried, rng: &mut Rng, journal: &[u8]) -> Result<(), Failure> {
    let directory = Path::new("target/tests");
    let (source, file) = (directory.join("ended.source"), directory.join("ended.journal"));
    let failed = |error| format!("ended: {error}");
    fs::write(&source, journal).map_err(failed)?;
    let own = std::env::current_exe().map_err(failed)?;
    let mut inside = 0;
    for _ in 0..ENDS {
        fs::write(&file, b"").map_err(failed)?;
        let mut child = Command::new(&own).arg("--write").args([&file, &source]).spawn().map_err(failed)?;
        std::thread::sleep(Duration::from_micros(rng.between(500, 6000) as u64));
        child.kill().map_err(failed)?;
        child.wait().map_err(failed)?;
        let written = fs::read(&file).map_err(failed)?;
        if !journal.starts_with(&written) {
            return Err("the writer wrote something else".to_string());
        }
        inside += (0 < written.len() && written.len() < journal.len()) as usize;
        tried.reads("ended", &written)?;
    }
    println!("journals: {inside} of {ENDS} writers were ended within the journal");
    match inside > ENDS / 10 {
        true => Ok(()),
        false => Err("too few writers were ended within the journal".to_string()),
    }
}
