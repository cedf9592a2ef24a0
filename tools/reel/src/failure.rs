//! Why a command ends early.

use std::fmt::Display;
use std::io;

#[derive(Debug)]
pub enum Failure {
    /// Bad usage or an unreadable file: the line that says so.
    Line(String),
    /// Nobody reads the output any more, which is no error.
    ClosedPipe,
}

impl Failure {
    pub fn line(text: impl Into<String>) -> Failure {
        Failure::Line(text.into())
    }

    /// Something wrong with what is read from or written to this place.
    pub fn at(place: impl Display, error: io::Error) -> Failure {
        match error.kind() {
            io::ErrorKind::BrokenPipe => Failure::ClosedPipe,
            _ => Failure::Line(format!("{place}: {error}")),
        }
    }
}

impl From<io::Error> for Failure {
    /// An error on standard output.
    fn from(error: io::Error) -> Failure {
        Failure::at("standard output", error)
    }
}
