//! The second member's `journal`: a journal on standard input to the counts of the member that it makes.

use reference::journal;
use std::io::{stdin, stdout};
use std::process::ExitCode;

fn main() -> ExitCode {
    match journal::run(stdin().lock(), stdout().lock()) {
        Ok(()) => ExitCode::SUCCESS,
        Err(error) => {
            eprintln!("{error}");
            ExitCode::FAILURE
        }
    }
}
