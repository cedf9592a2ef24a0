//! What the page of `reel view` is made of: the messages, the answers, the changes of pages and the
//! retired frames, each packed into bytes that data.js reads.

use crate::looks::{Mark, OnFrame, PageCopy, Watched, NO_FRAME, PAGES};
use crate::run::Answered;
use std::io::{self, Write};

#[derive(Default)]
pub struct Record {
    /// The tables before the first of these messages, as the kernel has their bytes.
    pub tables: Vec<u8>,
    /// The messages as they stand in the call file.
    pub file: Vec<u8>,
    /// For each message the number; if that is 0 also the bytes laid and the length of the data,
    /// as numbers of any size, and the data.
    pub answers: Vec<u8>,
    /// For each page that a message changed: how many messages later than the change before, as a
    /// number of any size, the page, how many copies it has, and for each its frame and mark. Pages
    /// that stand at the start come first, with message 0.
    pub changes: Vec<u8>,
    /// For each frame that a message retired: the message, as a number of any size, and the frame;
    /// first those that are retired at the start, with message 0.
    pub retired: Vec<u8>,
    /// How many messages came before the first of these.
    pub before: u64,
    pub messages: u64,
    last_change: u64,
}

impl Record {
    /// Pages and frames as they are before the first message that is recorded.
    pub fn start(&mut self, before: u64, watched: &Watched) {
        self.before = before;
        self.tables.clone_from(&watched.unit().tables);
        for page in 0..PAGES as u8 {
            if !watched.copies(page).is_empty() {
                self.change(page, watched.copies(page));
            }
        }
        for (frame, on) in (0..).zip(watched.on_frames()) {
            if *on == OnFrame::Retired {
                self.retire(frame);
            }
        }
    }

    /// One more message.
    pub fn turn(&mut self, answered: &Answered) {
        let Answered { reply, watched, .. } = answered;
        self.messages += 1;
        self.file.extend(answered.message);
        self.answers.push(reply.number);
        if reply.number == 0 {
            push_number(&mut self.answers, reply.laid.into());
            push_number(&mut self.answers, reply.data.len() as u64);
            self.answers.extend(&reply.data);
        }
        for &page in watched.changed() {
            self.change(page, watched.copies(page));
        }
        if let Some(frame) = watched.newly_retired() {
            self.retire(frame);
        }
    }

    fn retire(&mut self, frame: u8) {
        push_number(&mut self.retired, self.messages);
        self.retired.push(frame);
    }

    fn change(&mut self, page: u8, copies: &[PageCopy]) {
        push_number(&mut self.changes, self.messages - self.last_change);
        self.last_change = self.messages;
        self.changes.extend([page, copies.len() as u8]);
        for copy in copies {
            let mark = match copy.mark {
                Mark::Stale => 0,
                Mark::Recent => 1,
                Mark::Current => 2,
            };
            self.changes.extend([copy.frame.unwrap_or(NO_FRAME), mark]);
        }
    }
}

/// A number of any size: seven bits a byte, the lowest first, the high bit set in all but the last.
fn push_number(bytes: &mut Vec<u8>, mut number: u64) {
    while number >= 128 {
        bytes.push(number as u8 | 128);
        number >>= 7;
    }
    bytes.push(number as u8);
}

/// Writes the bytes in base64, a part at a time.
pub fn write_base64(out: &mut dyn Write, bytes: &[u8]) -> io::Result<()> {
    // A part of whole groups of three bytes has no padding.
    let mut parts = bytes.chunks(3 << 12);
    parts.try_for_each(|part| out.write_all(base64(part).as_bytes()))
}

/// The bytes in base64.
fn base64(bytes: &[u8]) -> String {
    const DIGITS: &[u8; 64] = b"ABCDEFGHIJKLMNOPQRSTUVWXYZabcdefghijklmnopqrstuvwxyz0123456789+/";
    let mut text = String::with_capacity(bytes.len().div_ceil(3) * 4);
    for part in bytes.chunks(3) {
        let byte = |at: usize| u32::from(part.get(at).copied().unwrap_or(0));
        let bits = byte(0) << 16 | byte(1) << 8 | byte(2);
        for digit in 0..4 {
            let value = bits >> (18 - 6 * digit) & 63;
            let is_used = digit <= part.len();
            text.push(if is_used {
                DIGITS[value as usize].into()
            } else {
                '='
            });
        }
    }
    text
}

#[cfg(test)]
mod tests {
    use super::{base64, push_number, write_base64};

    #[test]
    fn bytes_in_base64() {
        let pairs = [
            ("", ""),
            ("f", "Zg=="),
            ("fo", "Zm8="),
            ("foo", "Zm9v"),
            ("foob", "Zm9vYg=="),
        ];
        for (bytes, due) in pairs {
            assert_eq!(base64(bytes.as_bytes()), due);
        }
        assert_eq!(base64(&[0xFF, 0xEF, 0xBE]), "/+++");
        let long: Vec<u8> = (0..30_001).map(|number| number as u8).collect();
        let mut out = Vec::new();
        write_base64(&mut out, &long).unwrap();
        assert_eq!(out, base64(&long).into_bytes());
    }

    #[test]
    fn numbers_of_any_size() {
        let mut bytes = Vec::new();
        for number in [0, 127, 128, 300] {
            push_number(&mut bytes, number);
        }
        assert_eq!(bytes, [0, 127, 128, 1, 0xAC, 2]);
    }
}
