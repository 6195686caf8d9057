//! `streams PROGRAM TRANSCRIPT..`: a member program's standard input and output, as a harness, a full device and a failing input meet
//! them. What it must print is what the second member prints for the same input.

use reference::text;
use std::fs::File;
use std::io::{BufRead, BufReader, Error, Read, Result, Write};
use std::os::fd::OwnedFd;
use std::os::unix::net::UnixStream;
use std::process::{Child, ChildStdin, Command, ExitCode, Stdio};
use std::sync::mpsc::channel;
use std::thread::{sleep, spawn};
use std::time::{Duration, Instant};

/// 64 reads of the most that the program reads at once.
const LONG: usize = 64 * 65_536;
const LINES: usize = 1_000;
/// More output than a socket holds that nobody reads from.
const UNREAD_LINES: usize = 1_000_000;
const PATIENCE: Duration = Duration::from_secs(20);

struct Tried<'a> {
    program: &'a str,
    key: Vec<u8>,
    lines: Vec<Vec<u8>>,
}

fn failed<T>(what: &str) -> Result<T> {
    Err(Error::other(what))
}

fn must(holds: bool, or: &str) -> Result<()> {
    match holds {
        true => Ok(()),
        false => failed(or),
    }
}

/// What the second member prints.
fn output_of(input: &[u8]) -> Result<Vec<u8>> {
    let mut output = Vec::new();
    text::run(input, &mut output)?;
    Ok(output)
}

/// Waits for the program to end by itself.
fn ended(child: &mut Child) -> Result<()> {
    let begun = Instant::now();
    while begun.elapsed() < PATIENCE {
        if let Some(status) = child.try_wait()? {
            return must(status.success(), &format!("it ended with {status}"));
        }
        sleep(Duration::from_millis(2));
    }
    child.kill()?;
    child.wait()?;
    failed("it does not end")
}

fn stdin_of(child: &mut Child) -> Result<ChildStdin> {
    child.stdin.take().ok_or_else(|| Error::other("no standard input"))
}

impl Tried<'_> {
    fn start(&self, stdin: Stdio, stdout: Stdio) -> Result<Child> {
        Command::new(self.program).stdin(stdin).stdout(stdout).spawn()
    }

    /// The key line, and lines of the transcripts over and over.
    fn input(&self, enough: impl Fn(usize, usize) -> bool) -> Vec<u8> {
        let mut input = self.key.clone();
        for (count, line) in self.lines.iter().cycle().enumerate() {
            if enough(count, input.len()) {
                break;
            }
            input.extend_from_slice(line);
        }
        input
    }

    /// Every line of a long input is answered.
    fn long(&self) -> Result<()> {
        let input = self.input(|_, octets| octets >= LONG);
        let path = "target/tests/streams.in";
        std::fs::write(path, &input)?;
        let printed = self.start(Stdio::from(File::open(path)?), Stdio::piped())?.wait_with_output()?.stdout;
        must(printed == output_of(&input)?, "it prints another output")
    }

    /// Each line is answered before the next is sent.
    fn at_once(&self) -> Result<()> {
        let input = self.input(|lines, _| lines == LINES);
        let expected = output_of(&input)?;
        let mut child = self.start(Stdio::piped(), Stdio::piped())?;
        let mut stdin = stdin_of(&mut child)?;
        let stdout = child.stdout.take().ok_or_else(|| Error::other("no standard output"))?;
        let (sender, receiver) = channel();
        spawn(move || BufReader::new(stdout).split(b'\n').try_for_each(|line| sender.send(line)));
        stdin.write_all(&self.key)?;
        let sent = self.lines.iter().cycle();
        for (line, answer) in sent.zip(expected.split(|&octet| octet == b'\n').take(LINES)) {
            stdin.write_all(line)?;
            match receiver.recv_timeout(PATIENCE) {
                Ok(got) if got.as_deref().is_ok_and(|got| got == answer) => (),
                Ok(_) => return failed("it gives another answer"),
                Err(_) => {
                    child.kill()?;
                    child.wait()?;
                    return failed("it does not answer before it is sent more");
                }
            }
        }
        drop(stdin);
        ended(&mut child)?;
        must(receiver.recv_timeout(PATIENCE).is_err(), "it prints more than the answers")
    }

    /// A full device: the program ends, though its input does not.
    fn full_device(&self) -> Result<()> {
        let full = File::options().write(true).open("/dev/full")?;
        let mut child = self.start(Stdio::piped(), Stdio::from(full))?;
        let mut stdin = stdin_of(&mut child)?;
        stdin.write_all(&self.key)?;
        stdin.write_all(&self.lines[0])?;
        ended(&mut child)
    }

    /// An output that fails while nobody reads from it, and would take more later: what was written is the beginning of the output.
    fn failing_output(&self) -> Result<()> {
        let (mut ours, theirs) = UnixStream::pair()?;
        theirs.set_nonblocking(true)?;
        let mut child = self.start(Stdio::piped(), Stdio::from(OwnedFd::from(theirs)))?;
        let mut stdin = stdin_of(&mut child)?;
        let mut input = self.key.clone();
        for count in 0..UNREAD_LINES {
            input.extend_from_slice(if count.count_ones() % 2 == 0 { b"x\n" } else { b"00000000\n" });
        }
        let sent = stdin.write_all(&input);
        ended(&mut child)?;
        drop((sent, stdin));
        let mut printed = Vec::new();
        ours.read_to_end(&mut printed)?;
        let expected = output_of(&input)?;
        must(!printed.is_empty(), "it prints nothing")?;
        must(printed.len() < expected.len(), "no write failed")?;
        must(expected.starts_with(&printed), "what it prints is not the beginning of the output")
    }

    /// An input that fails before it ends: it counts as ended, and the line that has begun is answered.
    fn failing_input(&self) -> Result<()> {
        let (mut ours, theirs) = UnixStream::pair()?;
        theirs.set_nonblocking(true)?;
        let begun = [&self.key[..], self.lines[0].trim_ascii_end()].concat();
        ours.write_all(&begun)?;
        let mut child = self.start(Stdio::from(OwnedFd::from(theirs)), Stdio::piped())?;
        ended(&mut child)?;
        must(child.wait_with_output()?.stdout == output_of(&begun)?, "it prints another output")
    }

    /// An input that cannot be read at all.
    fn no_input(&self) -> Result<()> {
        let mut child = self.start(Stdio::from(File::open("/")?), Stdio::piped())?;
        ended(&mut child)?;
        must(child.wait_with_output()?.stdout.is_empty(), "it prints something")
    }

    fn all(&self) -> Vec<(&str, Result<()>)> {
        vec![
            ("4 MB of input", self.long()),
            ("a line, its answer, the next line", self.at_once()),
            ("a full device", self.full_device()),
            ("an output that fails", self.failing_output()),
            ("an input that fails", self.failing_input()),
            ("an input that cannot be read", self.no_input()),
        ]
    }
}

/// The key line of the first transcript, and all later lines of all of them.
fn read<'a>(program: &'a str, transcripts: &[String]) -> Result<Tried<'a>> {
    let mut tried = Tried { program, key: Vec::new(), lines: Vec::new() };
    for path in transcripts {
        let mut lines = BufReader::new(File::open(path)?).split(b'\n').map(|line| line.map(|line| [&line[..], b"\n"].concat()));
        if let Some(key) = lines.next() {
            tried.key = if tried.key.is_empty() { key? } else { tried.key };
        }
        tried.lines.extend(lines.collect::<Result<Vec<_>>>()?);
    }
    must(!tried.lines.is_empty(), "no lines to send")?;
    Ok(tried)
}

fn main() -> ExitCode {
    let arguments: Vec<String> = std::env::args().skip(1).collect();
    let [program, transcripts @ ..] = arguments.as_slice() else {
        eprintln!("streams PROGRAM TRANSCRIPT..");
        return ExitCode::from(2);
    };
    let results = match read(program, transcripts) {
        Ok(tried) => tried.all().into_iter().map(|(what, result)| (what.to_string(), result)).collect(),
        Err(error) => vec![("transcripts".to_string(), Err(error))],
    };
    let mut status = ExitCode::SUCCESS;
    for (what, result) in results {
        if let Err(error) = result {
            println!("streams: {program}, {what}: {error}");
            status = ExitCode::FAILURE;
        }
    }
    status
}
