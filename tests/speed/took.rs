//! `took TURNS OUTPUT PROGRAM [ARGUMENT..]`: runs the program so many times and prints the least processor time of a run, user and system
//! together, in microseconds. What it prints in the last run is in the file OUTPUT.

use std::fs::File;
use std::io::{Error, Result};
use std::process::{Command, ExitCode, Stdio};

/// struct rusage of Linux on 64 bits: the user time and the system time, each in seconds and microseconds, then 14 numbers.
#[repr(C)]
struct Usage {
    times: [i64; 4],
    rest: [i64; 14],
}

const CHILDREN: i32 = -1;

extern "C" {
    fn getrusage(who: i32, usage: *mut Usage) -> i32;
}

/// The processor time of all children that have ended, in microseconds.
fn spent() -> i64 {
    let mut usage = Usage { times: [0; 4], rest: [0; 14] };
    // SAFETY: the structure has the size and the layout that the C library writes.
    let answer = unsafe { getrusage(CHILDREN, &mut usage) };
    assert_eq!(answer, 0);
    let [user, user_part, system, system_part] = usage.times;
    (user + system) * 1_000_000 + user_part + system_part
}

fn took(output: &str, program: &str, arguments: &[String]) -> Result<i64> {
    let before = spent();
    let status = Command::new(program).args(arguments).stdin(Stdio::null()).stdout(File::create(output)?).status()?;
    match status.success() {
        true => Ok(spent() - before),
        false => Err(Error::other(format!("{program} ended with {status}"))),
    }
}

fn least(turns: &str, output: &str, program: &str, arguments: &[String]) -> Result<i64> {
    let turns = turns.parse::<u32>().map_err(Error::other)?;
    let times: Vec<i64> = (0..turns).map(|_| took(output, program, arguments)).collect::<Result<_>>()?;
    times.into_iter().min().ok_or_else(|| Error::other("no turn"))
}

fn main() -> ExitCode {
    let words: Vec<String> = std::env::args().skip(1).collect();
    let [turns, output, program, arguments @ ..] = words.as_slice() else {
        eprintln!("took TURNS OUTPUT PROGRAM [ARGUMENT..]");
        return ExitCode::from(2);
    };
    match least(turns, output, program, arguments) {
        Ok(least) => {
            println!("{least}");
            ExitCode::SUCCESS
        }
        Err(error) => {
            eprintln!("{error}");
            ExitCode::FAILURE
        }
    }
}
