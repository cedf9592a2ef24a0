//! Which messages are shown.

use crate::kinds::{Argument, Call};
use crate::run::Answered;

/// The messages from one number to another.
#[derive(Clone, Copy, Debug, PartialEq, Eq)]
pub struct Span {
    pub from: u64,
    pub to: u64,
}

/// What a message that is shown must have.
#[derive(Debug, PartialEq, Eq)]
pub struct Filter {
    pub page: Option<u8>,
    pub station: Option<u8>,
    pub frame: Option<u8>,
    pub refused: bool,
    pub span: Span,
}

impl Filter {
    /// Whether a message passes. What it did to the frame is known where the run watches it.
    pub fn admits(&self, answered: &Answered) -> bool {
        let call = Call::parse(answered.message);
        let names = |wanted: Option<u8>, argument| {
            wanted.is_none() || call.as_ref().and_then(|call| call.argument(argument)) == wanted
        };
        answered.number >= self.span.from
            && names(self.page, Argument::Page)
            && names(self.station, Argument::Station)
            && (!self.refused || answered.reply.number > 0)
            && self.frame.is_none_or(|frame| answered.touches(frame))
    }
}
