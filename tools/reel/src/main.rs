//! `reel`: see `reel --help`.

use reel::commands::{run, Status};
use reel::failure::Failure;
use reel::options::parse;
use std::io::Write;
use std::process::ExitCode;

fn main() -> ExitCode {
    match parse(std::env::args_os().skip(1)).and_then(run) {
        Ok(Status::Otherwise) => ExitCode::from(1),
        Ok(Status::Done) | Err(Failure::ClosedPipe) => ExitCode::SUCCESS,
        Err(Failure::Line(line)) => {
            // With standard error closed there is nobody to tell.
            let _ = writeln!(std::io::stderr(), "reel: {line}");
            ExitCode::from(2)
        }
    }
}
