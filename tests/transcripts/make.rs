//! `transcripts DIRECTORY` writes the transcripts: NAME.in (what the program member reads), NAME.out (what it must print) and NAME.about
//! (a word on each answer). NAME.trace is what the program trace must print for the same input, or for NAME.trace.in, where that has
//! lines that are no frames. NAME.journal is a journal, and NAME.counts what the program journal must print for it. Answers, SAs and keys are written down here by hand, from document 01 and the keys that were wrapped; no
//! member is asked.

mod calls;
mod collections;
mod fragments;
mod fresh;
mod inband;
mod journals;
mod lifetimes;
mod meanings;
mod orders;
mod parts;
mod paths;
mod places;
mod refusals;
mod runs;
mod sealed;
mod times;

use builder::line::line;
use builder::Frame;
use std::path::Path;
use std::process::ExitCode;

pub struct Transcript {
    name: &'static str,
    input: Vec<u8>,
    /// What the program member prints; None for lines of `trace` that it does not take.
    output: Option<String>,
    about: String,
    /// What the program trace prints; it is written if the member was put down somewhere.
    trace: String,
    traced: bool,
    /// What the program journal prints for the input, where that is a journal.
    counts: Option<String>,
}

impl Transcript {
    pub fn new(name: &'static str, first_line: &str) -> Transcript {
        let (input, output) = (format!("{first_line}\n").into_bytes(), Some(String::new()));
        Transcript { name, input, output, about: String::new(), trace: String::new(), traced: false, counts: None }
    }

    /// Lines of `trace`, for which the program member has no answers.
    pub fn of_calls(name: &'static str, first_line: &str) -> Transcript {
        Transcript { output: None, traced: true, ..Transcript::new(name, first_line) }
    }

    /// An input as it is, and all that is printed.
    pub fn of(name: &'static str, input: &[u8], output: &str, about: &str) -> Transcript {
        let (input, output) = (input.to_vec(), Some(output.to_string()));
        Transcript { input, output, about: format!("{about}\n"), ..Transcript::new(name, "") }
    }

    /// A journal, and what the program journal prints for it.
    pub fn of_journal(name: &'static str, journal: &str, counts: &str, about: &str) -> Transcript {
        let (input, about) = (journal.as_bytes().to_vec(), format!("{about}\n"));
        Transcript { input, output: None, about, counts: Some(counts.to_string()), ..Transcript::new(name, "") }
    }

    pub fn frame(&mut self, about: &str, tick: u32, frame: &Frame, answer: &str) {
        self.octets(about, tick, &frame.octets(), answer);
    }

    pub fn octets(&mut self, about: &str, tick: u32, octets: &[u8], answer: &str) {
        self.line(about, &line(tick, octets), answer);
    }

    /// A line with its answer: the number, with the two counts unless the lines are those of `trace`, for number 1 with the offset behind
    /// these, or another reply.
    pub fn line(&mut self, about: &str, line: &[u8], answer: &str) {
        self.input.extend([line, b"\n"].concat());
        self.about += &format!("{answer}: {about}\n");
        if let Some(output) = &mut self.output {
            *output += &format!("{answer}\n");
        }
        self.trace += &match answer.split(' ').collect::<Vec<_>>()[..] {
            [number, _, _] if self.output.is_some() => format!("answer {number}\n"),
            [number, _, _, offset] => format!("answer {number} {offset}\n"),
            _ => format!("{answer}\n"),
        };
    }

    /// The whole member after the last line, which changed it.
    pub fn then(&mut self, lines: &[String]) {
        self.traced = true;
        self.trace += &lines.iter().map(|line| format!("{line}\n")).collect::<String>();
    }

    fn write(&self, directory: &Path) -> std::io::Result<()> {
        let write = |ending: &str, text: &[u8]| std::fs::write(directory.join(format!("{}.{ending}", self.name)), text);
        if let Some(counts) = &self.counts {
            write("counts", counts.as_bytes())?;
            write("about", self.about.as_bytes())?;
            return write("journal", &self.input);
        }
        write(if self.output.is_some() { "in" } else { "trace.in" }, &self.input)?;
        if let Some(output) = &self.output {
            write("out", output.as_bytes())?;
        }
        if self.traced {
            write("trace", self.trace.as_bytes())?;
        }
        write("about", self.about.as_bytes())
    }
}

fn main() -> ExitCode {
    let Some(directory) = std::env::args().nth(1) else {
        eprintln!("transcripts DIRECTORY");
        return ExitCode::from(2);
    };
    let all = [
        runs::all(),
        times::all(),
        inband::all(),
        lifetimes::all(),
        meanings::all(),
        paths::all(),
        orders::all(),
        fresh::all(),
        sealed::all(),
        fragments::all(),
        collections::all(),
        refusals::all(),
        places::all(),
        calls::all(),
        journals::all(),
    ];
    for transcript in all.iter().flatten() {
        if let Err(error) = transcript.write(Path::new(&directory)) {
            eprintln!("{directory}: {error}");
            return ExitCode::FAILURE;
        }
    }
    ExitCode::SUCCESS
}
