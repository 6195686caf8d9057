//! Inputs to time a member with, each as NAME.in and what a member must print as NAME.out.
//!
//! `inputs rekeys SIZE COUNT NAME`: so many rekeys, all keys of so many octets, a delete after each. `inputs runs SIZE COUNT NAME`: the
//! same with as few deletes as the table allows. `inputs full SIZE COUNT NAME`: as `rekeys`, over 128 held keys. `inputs hostile`: the
//! names of the hostile frames and their answers. `inputs hostile FRAME COUNT NAME`: one of them so many times, and as NAME-bad the lines
//! of the same digits that are "bad" by the last one.

mod group;
mod hostile;
mod rekeys;

use builder::line::{hex, line};
use builder::Frame;
use std::io::{Error, Result, Write};
use std::process::ExitCode;

/// What a program reads, and what it must print.
#[derive(Clone)]
pub struct Input {
    lines: Vec<u8>,
    answers: Vec<u8>,
}

impl Input {
    pub fn new(lent: &[u8]) -> Input {
        let mut input = Input { lines: Vec::new(), answers: Vec::new() };
        add(&mut input.lines, &hex(lent));
        input
    }

    pub fn frame(&mut self, tick: u32, frame: &Frame, answer: &str) {
        self.line(&line(tick, &frame.octets()), answer);
    }

    pub fn line(&mut self, line: &[u8], answer: &str) {
        add(&mut self.lines, line);
        add(&mut self.answers, answer.as_bytes());
    }

    /// The answers come last, so that they are there only if the whole input is.
    fn write(&self, name: &str) -> Result<()> {
        std::fs::File::create(format!("{name}.in"))?.write_all(&self.lines)?;
        std::fs::File::create(format!("{name}.out"))?.write_all(&self.answers)
    }
}

fn add(text: &mut Vec<u8>, line: &[u8]) {
    text.extend_from_slice(line);
    text.push(b'\n');
}

fn run(arguments: &[&str]) -> Result<()> {
    let number = |text: &str| text.parse::<u32>().map_err(|_| Error::other(format!("{text} is no number")));
    match arguments {
        ["rekeys", size @ ("16" | "24" | "32"), count, name] => {
            rekeys::rekeys(number(size)? as usize, rekeys::COPIES, number(count)?).write(name)
        }
        ["full", size @ ("16" | "24" | "32"), count, name] => {
            rekeys::rekeys(number(size)? as usize, rekeys::MOST_HELD, number(count)?).write(name)
        }
        ["runs", size @ ("16" | "24" | "32"), count, name] => rekeys::runs(number(size)? as usize, number(count)?).write(name),
        ["hostile"] => {
            hostile::all().for_each(|hostile| println!("{} {}", hostile.name, hostile.answer()));
            Ok(())
        }
        ["hostile", frame, count, name] => {
            let mut all = hostile::all();
            let hostile = all.find(|hostile| hostile.name == *frame).ok_or_else(|| Error::other(format!("no frame {frame}")))?;
            let [frames, bad_lines] = hostile.inputs(number(count)?);
            frames.write(name)?;
            bad_lines.write(&format!("{name}-bad"))
        }
        _ => Err(Error::other("inputs rekeys|runs|full 16|24|32 COUNT NAME, or inputs hostile [FRAME COUNT NAME]")),
    }
}

fn main() -> ExitCode {
    let arguments: Vec<String> = std::env::args().skip(1).collect();
    match run(&arguments.iter().map(String::as_str).collect::<Vec<_>>()) {
        Ok(()) => ExitCode::SUCCESS,
        Err(error) => {
            eprintln!("{error}");
            ExitCode::FAILURE
        }
    }
}
