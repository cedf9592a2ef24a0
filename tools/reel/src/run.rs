//! A call file taken message by message, with what there is to note about it at its end.

use crate::failure::Failure;
use crate::kinds::{Argument, Call};
use crate::looks::{Reply, Watched};
use crate::options::{Shift, Start, STANDARD};
use crate::output::Out;
use crate::progress::Progress;
use crate::reader::{missing, Messages};
use crate::start::{can_keep, keep, unit};
use crate::words::{self, counted};
use std::ffi::OsStr;
use std::fs::File;
use std::io::{self, BufReader, Read, Write};

/// How a place is named in a line.
pub fn name_of(path: &OsStr) -> String {
    if path == STANDARD {
        return "standard input".into();
    }
    path.display().to_string()
}

/// Opens a file, or standard input; gives its length too where it has one.
pub fn open(path: &OsStr) -> Result<(Box<dyn Read>, Option<u64>), Failure> {
    if path == STANDARD {
        return Ok((Box::new(io::stdin()), None));
    }
    let failed = |error| Failure::at(name_of(path), error);
    let file = File::open(path).map_err(failed)?;
    let length = file.metadata().map_err(failed)?.len();
    Ok((Box::new(file), Some(length)))
}

/// What came of a file.
#[derive(Default)]
pub struct Outcome {
    pub messages: u64,
    /// What there is to say about the file beside what was asked for.
    notes: Vec<String>,
}

impl Outcome {
    fn note_cut(&mut self, cut: Option<usize>) {
        if let Some(missing) = cut {
            let missing = counted(missing as u64, "byte is", "bytes are");
            let last = self.messages;
            self.notes
                .push(format!("message {last} is cut short: {missing} missing"));
        }
    }

    /// At the end of a file: notes that nothing came before it.
    fn note_empty(&mut self) {
        if self.messages == 0 {
            self.notes
                .push("the file is empty, there are no messages".into());
        }
    }

    /// Notes that so many messages, each of which is refused, name frames beyond tables whose size was not given.
    pub fn note_size<Kept>(&mut self, start: &Start<Kept>, outside: u64) {
        let Start::Fresh {
            fast,
            slow,
            is_sized: false,
        } = start
        else {
            return;
        };
        if outside > 0 {
            let messages = counted(outside, "message names", "messages name");
            self.notes.push(format!(
                "{messages} frames beyond {fast} fast and {slow} slow ones; --fast and --slow set the size"
            ));
        }
    }

    /// Tells the notes about this file.
    pub fn tell_notes(&self, path: &OsStr) {
        tell(path, &self.notes);
    }
}

/// Tells notes about a file on standard error.
pub fn tell(path: &OsStr, notes: &[String]) {
    for note in notes {
        // A note that cannot be told is no reason to stop.
        let _ = writeln!(io::stderr(), "reel: {}: {note}", name_of(path));
    }
}

/// How a file is gone through.
#[derive(Clone, Copy)]
pub struct Pass<'a> {
    /// The last message that is read.
    last: u64,
    /// Where lines are printed meanwhile.
    out: Option<&'a Out>,
}

impl<'a> Pass<'a> {
    pub fn up_to(last: u64) -> Pass<'a> {
        Pass { last, out: None }
    }

    pub fn printing(self, out: &'a Out) -> Pass<'a> {
        let out = Some(out);
        Pass { out, ..self }
    }

    pub fn whole() -> Pass<'a> {
        Pass::up_to(u64::MAX)
    }
}

/// Takes each message of a file to `visit`, with its number, and waits for none past the last one.
pub fn each_message(
    path: &OsStr,
    pass: Pass,
    mut visit: impl FnMut(u64, &[u8]) -> Result<(), Failure>,
) -> Result<Outcome, Failure> {
    let (input, length) = open(path)?;
    let mut messages = Messages::new(BufReader::with_capacity(1 << 16, input));
    let mut progress = Progress::new(length, pass.out.is_some());
    let mut outcome = Outcome::default();
    let mut cut = None;
    let failed = |error| Failure::at(name_of(path), error);
    while outcome.messages < pass.last {
        if let Some(out) = pass.out.filter(|_| !messages.is_at_hand()) {
            out.flush()?;
        }
        let Some(message) = messages.next_message().map_err(failed)? else {
            outcome.note_empty();
            break;
        };
        outcome.messages += 1;
        visit(outcome.messages, message)?;
        progress.count(message.len());
        cut = missing(message);
    }
    outcome.note_cut(cut);
    Ok(outcome)
}

/// A message with its reply, and pages and frames as they are after it.
pub struct Answered<'a> {
    pub number: u64,
    pub message: &'a [u8],
    pub reply: &'a Reply,
    pub watched: &'a Watched,
}

impl Answered<'_> {
    /// The line for the message and its reply.
    pub fn line(&self) -> String {
        let (fast, _) = self.watched.frames();
        let message = words::message(self.message);
        let reply = words::reply(self.message, self.reply, fast);
        format!("{:6}  {message}: {reply}", self.number)
    }

    fn argument(&self, wanted: Argument) -> Option<u8> {
        Call::parse(self.message)?.argument(wanted)
    }

    /// Whether the message names the page or changed it.
    pub fn is_about(&self, page: u8) -> bool {
        self.argument(Argument::Page) == Some(page) || self.watched.changed().contains(&page)
    }

    /// Whether the message names the frame, changed what is on it, or laid bytes there.
    pub fn touches(&self, frame: u8) -> bool {
        self.argument(Argument::Frame) == Some(frame) || self.watched.touched().contains(&frame)
    }
}

/// A shift from its start on.
pub struct Run<'a> {
    shift: &'a Shift,
    pub watched: Watched,
    outcome: Outcome,
    refused: u64,
}

impl<'a> Run<'a> {
    pub fn start(shift: &'a Shift) -> Result<Run<'a>, Failure> {
        can_keep(shift)?;
        Ok(Run {
            shift,
            watched: Watched::start(unit(&shift.start)?),
            outcome: Outcome::default(),
            refused: 0,
        })
    }

    /// Without a look at what each message changed.
    pub fn unwatched(mut self) -> Run<'a> {
        self.watched.close_eyes();
        self
    }

    /// Takes each message to `visit`, answered.
    pub fn each(
        &mut self,
        pass: Pass,
        mut visit: impl FnMut(Answered) -> Result<(), Failure>,
    ) -> Result<(), Failure> {
        let mut outside = 0;
        let Run {
            shift,
            watched,
            refused,
            ..
        } = self;
        self.outcome = each_message(&shift.file, pass, |number, message| {
            let reply = &watched.feed(message);
            if reply.number != 0 {
                *refused += 1;
                outside += u64::from(names_frame_outside(watched.frames(), message));
            }
            let watched = &*watched;
            visit(Answered {
                number,
                message,
                reply,
                watched,
            })
        })?;
        self.outcome.note_size(&self.shift.start, outside);
        Ok(())
    }

    /// An error if the file has no message of this number, which an option named.
    pub fn has_message(&self, option: &str, number: u64) -> Result<(), Failure> {
        if number <= self.outcome.messages {
            return Ok(());
        }
        let messages = counted(self.outcome.messages, "message", "messages");
        let name = name_of(&self.shift.file);
        Err(Failure::line(format!(
            "{option} {number}: {name} has {messages}"
        )))
    }

    /// An error if the unit has no such frame.
    pub fn has_frame(&self, frame: u8) -> Result<(), Failure> {
        let (fast, slow) = self.watched.frames();
        match u16::from(frame) < u16::from(fast) + u16::from(slow) {
            true => Ok(()),
            false => Err(Failure::line(format!(
                "frame {frame}: there are {fast} fast and {slow} slow ones"
            ))),
        }
    }

    /// Keeps tables and stores and tells what is left to say; whether it ended as it was asked to.
    pub fn end(&self) -> Result<bool, Failure> {
        keep(self.shift, self.watched.unit())?;
        self.outcome.tell_notes(&self.shift.file);
        Ok(!self.shift.strict || self.refused == 0)
    }
}

/// Whether a message names a frame beyond so many fast and slow ones.
pub fn names_frame_outside((fast, slow): (u8, u8), message: &[u8]) -> bool {
    let frame = Call::parse(message).and_then(|call| call.argument(Argument::Frame));
    frame.is_some_and(|frame| u16::from(frame) >= u16::from(fast) + u16::from(slow))
}
