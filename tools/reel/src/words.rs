//! Messages, replies and numbers in words.

use crate::kinds::{Call, Tells};
use crate::looks::{copies_of, PageCopy, Reply};

/// The word of each number 0 to 20.
pub const WORDS: [&str; 21] = [
    "accepted",
    "cut short",
    "foreign version",
    "unknown kind",
    "wrong length",
    "broken tables",
    "misfit store",
    "out of range",
    "page stands",
    "no page",
    "no right",
    "nothing current",
    "no copy",
    "frame held",
    "eight copies",
    "last recent",
    "stale",
    "no frame",
    "short slip",
    "too many frames",
    "retired",
];

/// The word of a number.
pub fn word(number: u8) -> &'static str {
    WORDS
        .get(usize::from(number))
        .copied()
        .unwrap_or("unknown number")
}

/// Bytes in hexadecimal, two digits each.
pub fn hex(bytes: &[u8]) -> String {
    let digits: Vec<String> = bytes.iter().map(|byte| format!("{byte:02X}")).collect();
    digits.join(" ")
}

/// A count with its noun, as `1 copy` and `2 copies`.
pub fn counted(count: u64, one: &str, more: &str) -> String {
    let noun = if count == 1 { one } else { more };
    format!("{count} {noun}")
}

/// A message in words, or its bytes if it falls under 1 to 4.
pub fn message(message: &[u8]) -> String {
    const SHOWN: usize = 12;
    match Call::parse(message) {
        Some(call) => sentence(&call),
        None => {
            let more = if message.len() > SHOWN { " ..." } else { "" };
            let shown = hex(&message[..message.len().min(SHOWN)]);
            let length = counted(message.len() as u64, "byte", "bytes");
            format!("broken message of {length} ({shown}{more})")
        }
    }
}

fn sentence(call: &Call) -> String {
    let mut arguments = call.arguments.iter();
    let mut words = String::new();
    for letter in call.kind.sentence.chars() {
        match letter {
            '#' => words.extend(arguments.next().map(u8::to_string)),
            '*' => words.push_str(&hex(call.bytes)),
            _ => words.push(letter),
        }
    }
    words
}

/// The reply to a message in words: its number, and what else it tells. `fast`, here and below, is
/// the number of fast frames.
pub fn reply(message: &[u8], reply: &Reply, fast: u8) -> String {
    let (number, word) = (reply.number, word(reply.number));
    if number > 0 {
        return format!("refused, {number} {word}");
    }
    let tells = Call::parse(message).map_or(Tells::Bytes, |call| call.kind.tells);
    let mut words = word.to_string();
    if reply.laid > 0 || tells == Tells::BytesLaid {
        let laid = counted(reply.laid.into(), "byte", "bytes");
        words += &format!(", {laid} laid");
    }
    if !reply.data.is_empty() {
        words += &format!(", {}", told(tells, &reply.data, fast));
    }
    words
}

/// The bytes of a read or look in words; those of no known form in hexadecimal.
fn told(tells: Tells, data: &[u8], fast: u8) -> String {
    match (tells, data) {
        (Tells::Page, [n, ..]) => {
            let n = counted((*n).into(), "copy", "copies");
            format!("{n}: {}", copies(&copies_of(data), fast))
        }
        (Tells::Frame, [1, page, copy]) => format!("page {page} copy {copy}"),
        (Tells::Frame, [0, 255, 255]) => "free".into(),
        (Tells::Frame, [2, 255, 255]) => "retired".into(),
        _ => hex(data),
    }
}

/// The copies of a page, each with its number.
pub fn copies(copies: &[PageCopy], fast: u8) -> String {
    listed(copies.iter().map(|copy| copy.in_words(fast)))
}

/// What is said of each copy, with its number before it.
pub fn listed(copies: impl Iterator<Item = String>) -> String {
    let numbered = copies.enumerate();
    let words: Vec<String> = numbered
        .map(|(number, words)| format!("copy {number} {words}"))
        .collect();
    words.join(", ")
}

/// The store that a frame is in.
pub fn store(frame: u8, fast: u8) -> &'static str {
    match frame < fast {
        true => "fast",
        false => "slow",
    }
}

impl PageCopy {
    /// As `frame 3 fast CURRENT`.
    pub fn in_words(&self, fast: u8) -> String {
        format!("{} {}", self.place(fast), self.mark.word())
    }

    /// As `frame 3 fast`.
    pub fn place(&self, fast: u8) -> String {
        match self.frame {
            None => "no frame".into(),
            Some(frame) => format!("frame {frame} {}", store(frame, fast)),
        }
    }
}
