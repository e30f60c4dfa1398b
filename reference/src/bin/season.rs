//! The season's figures of the tables on standard input, on standard output.

#![forbid(unsafe_code)]

use reference::season;
use std::io;
use std::process::ExitCode;

fn main() -> ExitCode {
    match season::PAPER.run(io::stdin().lock(), io::stdout().lock()) {
        Ok(()) => ExitCode::SUCCESS,
        Err(failure) => {
            eprintln!("season: {failure}");
            ExitCode::FAILURE
        }
    }
}
