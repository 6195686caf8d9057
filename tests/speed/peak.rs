//! `peak PROGRAM INPUT [ARGUMENT..]`: the most memory that the program holds while it reads the input, in kB.
//!
//! The kernel's figure after the end of a program (ru_maxrss) also counts what its parent held when it was started. So the figure of
//! the running program is taken instead, when it has read the whole input and sleeps, waiting for more. Of a program that reads nothing it
//! is the last one seen before its end.

use std::fs::File;
use std::io::{copy, Error, Result};
use std::process::{Command, ExitCode, Stdio};
use std::time::Duration;

fn peak(program: &str, input: &str, arguments: &[String]) -> Result<u64> {
    let mut child = Command::new(program).args(arguments).stdin(Stdio::piped()).stdout(Stdio::null()).spawn()?;
    let mut stdin = child.stdin.take().ok_or_else(|| Error::other("no standard input"))?;
    copy(&mut File::open(input)?, &mut stdin)?;
    let peak = asleep(child.id())?;
    drop(stdin);
    match child.wait()?.success() {
        true => Ok(peak),
        false => Err(Error::other(format!("{program} failed"))),
    }
}

/// VmHWM of the process as soon as it sleeps, or the last one before its end.
fn asleep(id: u32) -> Result<u64> {
    let mut last = None;
    loop {
        let status = std::fs::read_to_string(format!("/proc/{id}/status"))?;
        let field = |name: &str| status.lines().find_map(|line| line.strip_prefix(name)).map(str::trim);
        last = field("VmHWM:").and_then(|text| text.strip_suffix(" kB")?.parse().ok()).or(last);
        match field("State:").and_then(|state| state.chars().next()) {
            Some('S' | 'Z') => return last.ok_or_else(|| Error::other("no VmHWM")),
            Some('R' | 'D') => std::thread::sleep(Duration::from_millis(1)),
            state => return Err(Error::other(format!("the program is in state {state:?}"))),
        }
    }
}

fn main() -> ExitCode {
    let arguments: Vec<String> = std::env::args().skip(1).collect();
    let [program, input, arguments @ ..] = arguments.as_slice() else {
        eprintln!("peak PROGRAM INPUT [ARGUMENT..]");
        return ExitCode::from(2);
    };
    match peak(program, input, arguments) {
        Ok(peak) => {
            println!("{peak}");
            ExitCode::SUCCESS
        }
        Err(error) => {
            eprintln!("{program}: {error}");
            ExitCode::FAILURE
        }
    }
}
