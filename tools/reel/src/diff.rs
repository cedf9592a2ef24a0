//! Where the runs of two files part.

use crate::failure::Failure;
use crate::looks::{Reply, Watched, PAGES};
use crate::options::Shift;
use crate::reader::Messages;
use crate::run::{name_of, open};
use crate::start::unit;
use crate::words::{copies, counted, message, reply};
use std::ffi::OsStr;
use std::io::{BufReader, Read};

/// One of two runs, a message at a time.
struct Side {
    name: String,
    messages: Messages<BufReader<Box<dyn Read>>>,
    watched: Watched,
    count: u64,
}

/// The last message of a side, with its reply.
struct Last {
    message: Vec<u8>,
    reply: Reply,
}

impl Side {
    fn open(shift: &Shift, file: &OsStr) -> Result<Side, Failure> {
        let (input, _) = open(file)?;
        Ok(Side {
            name: name_of(file),
            messages: Messages::new(BufReader::with_capacity(1 << 16, input)),
            watched: Watched::start(unit(&shift.start)?),
            count: 0,
        })
    }

    fn next(&mut self) -> Result<Option<Last>, Failure> {
        let next = self.messages.next_message();
        let next = next.map_err(|error| Failure::at(&self.name, error))?;
        let Some(message) = next.map(<[u8]>::to_vec) else {
            return Ok(None);
        };
        self.count += 1;
        let reply = self.watched.feed(&message);
        Ok(Some(Last { message, reply }))
    }

    /// The line of what this side has where the other has something else.
    fn line(&self, last: &Option<Last>) -> String {
        let (fast, _) = self.watched.frames();
        let words = match last {
            None => "the file has ended".into(),
            Some(last) => format!(
                "{}: {}",
                message(&last.message),
                reply(&last.message, &last.reply, fast)
            ),
        };
        format!("  {}: {words}", self.name)
    }

    fn page_line(&self, page: u8) -> String {
        let (fast, _) = self.watched.frames();
        let words = match self.watched.copies(page) {
            [] => "it does not stand".into(),
            held => copies(held, fast),
        };
        format!("  {}: {words}", self.name)
    }
}

/// What two runs differ in, as far as it was seen and told.
#[derive(Default)]
struct Parted {
    messages: bool,
    replies: bool,
    tables: bool,
}

/// The lines that tell where the runs of two files part; none where they do not.
pub fn parting(shift: &Shift, other: &OsStr) -> Result<Vec<String>, Failure> {
    let (mut one, mut two) = (Side::open(shift, &shift.file)?, Side::open(shift, other)?);
    let (mut parted, mut lines) = (Parted::default(), Vec::new());
    for turn in 1.. {
        let (last, other) = (one.next()?, two.next()?);
        if last.is_none() && other.is_none() {
            break;
        }
        if let Some(what) = parted.exchange(&last, &other) {
            lines.push(format!("{what} part at message {turn}"));
            lines.extend([one.line(&last), two.line(&other)]);
        }
        if !parted.tables && one.watched.unit().tables != two.watched.unit().tables {
            parted.tables = true;
            lines.extend(tables(turn, &one, &two));
        }
    }
    if parted.messages {
        lines.push(end(&one, &two));
    }
    Ok(lines)
}

impl Parted {
    /// What of messages and replies parts here and did not part before.
    fn exchange(&mut self, one: &Option<Last>, two: &Option<Last>) -> Option<&'static str> {
        let message = |last: &Option<Last>| last.as_ref().map(|last| last.message.clone());
        let reply = |last: &Option<Last>| last.as_ref().map(|last| last.reply.clone());
        let messages = !self.messages && message(one) != message(two);
        let replies = !self.replies && reply(one) != reply(two);
        self.messages |= messages;
        self.replies |= replies;
        match (messages, replies) {
            (true, true) => Some("the messages, and their replies,"),
            (true, false) => Some("the messages"),
            (false, true) => Some("the replies"),
            (false, false) => None,
        }
    }
}

/// Tables that part at a message: the first page with other copies, if there is one.
fn tables(turn: u64, one: &Side, two: &Side) -> Vec<String> {
    let mut pages = 0..PAGES as u8;
    match pages.find(|&page| differs(one, two, page)) {
        Some(page) => vec![
            format!("the tables part at message {turn}, with the copies of page {page}"),
            one.page_line(page),
            two.page_line(page),
        ],
        None => vec![format!(
            "the tables part at message {turn}, with the same copies of every page"
        )],
    }
}

/// Whether a page has other copies, or other marks, in one run than in the other.
fn differs(one: &Side, two: &Side, page: u8) -> bool {
    one.watched.copies(page) != two.watched.copies(page)
}

/// What differs at the end.
fn end(one: &Side, two: &Side) -> String {
    let length = |side: &Side| {
        format!(
            "{} has {}",
            side.name,
            counted(side.count, "message", "messages")
        )
    };
    let (unit, other) = (one.watched.unit(), two.watched.unit());
    let word = |is_same: bool| if is_same { "the same" } else { "other" };
    let tables = word(unit.tables == other.tables);
    let stores = word(unit.fast == other.fast && unit.slow == other.slow);
    let pages = (0..PAGES as u8).filter(|&page| differs(one, two, page));
    let pages: Vec<String> = pages.map(|page| page.to_string()).collect();
    let copies = match pages.is_empty() {
        true => "the same copies of every page".into(),
        false => format!("other copies of page {}", pages.join(", ")),
    };
    let lengths = (length(one), length(two));
    format!(
        "at the end {}, {}: {tables} tables, {copies}, {stores} bytes in the stores",
        lengths.0, lengths.1
    )
}

/// The line for two runs that do not part.
pub fn same(shift: &Shift, other: &OsStr) -> String {
    let names = (name_of(&shift.file), name_of(other));
    format!("the runs of {} and {} are the same", names.0, names.1)
}
