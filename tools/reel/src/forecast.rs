//! The forecast of a call file, from tables alone. Its figures are the kernel's, and so is the message
//! after which the most frames are held first: it is found by forecasts of parts of the file.

use crate::history::Turn;
use crate::json::Object;
use crate::reader::Messages;
use crate::summary::{number_lines, numbers_json};
use crate::words::{counted, WORDS};
use kernel::{layout, Forecast};

/// What the kernel forecasts of a file on tables that it has called sound.
fn forecast(tables: &[u8], file: &[u8]) -> Forecast {
    Forecast::of(tables, file).expect("sound tables")
}

/// The most frames held.
pub struct Most {
    pub frames: u32,
    /// The message after which so many are held first.
    pub first: Turn,
}

impl Most {
    /// Of a file on sound tables.
    pub fn of(tables: &[u8], file: &[u8]) -> Most {
        Most::found(tables, file, forecast(tables, file).most)
    }

    /// The same where it is known how many frames they are.
    fn found(tables: &[u8], file: &[u8], frames: u32) -> Most {
        let first = last_of(&file[..least(tables, file, frames)]);
        Most { frames, first }
    }

    fn when(&self) -> String {
        match self.first.number {
            0 => "at the start".into(),
            number => format!("first after message {number}, {}", self.first.words),
        }
    }
}

/// The least front part of a file that comes to so many frames held. More of the file never comes to
/// fewer, and a message that is cut short holds none, so the part ends with a whole message.
fn least(tables: &[u8], file: &[u8], frames: u32) -> usize {
    let (mut low, mut high) = (0, file.len());
    while low < high {
        let middle = low + (high - low) / 2;
        match forecast(tables, &file[..middle]).most < frames {
            true => low = middle + 1,
            false => high = middle,
        }
    }
    high
}

/// The last message of a file; the start where there is none.
fn last_of(file: &[u8]) -> Turn {
    let mut messages = Messages::new(file);
    let (mut number, mut end, mut length) = (0, 0, 0);
    // What is in memory can be read.
    while let Ok(Some(message)) = messages.next_message() {
        number += 1;
        length = message.len();
        end += length;
    }
    match number {
        0 => Turn::start(),
        number => Turn::of(number, &file[end - length..end]),
    }
}

/// All that is told of a file before it is run.
pub struct Foretold {
    figures: Forecast,
    most: Most,
    /// How many frames there are, and how many may be held.
    frames: u16,
    limit: Option<u8>,
}

impl Foretold {
    /// Of a file on sound tables, where so many frames may be held.
    pub fn of(tables: &[u8], file: &[u8], limit: Option<u8>) -> Foretold {
        let figures = forecast(tables, file);
        Foretold {
            most: Most::found(tables, file, figures.most),
            figures,
            frames: u16::from(tables[layout::P]) + u16::from(tables[layout::S]),
            limit,
        }
    }

    /// Whether no more frames are held than may be.
    pub fn fits(&self) -> bool {
        let is_within = |limit: u8| self.most.frames <= limit.into();
        self.limit.is_none_or(is_within)
    }

    /// How many messages there are.
    fn messages(&self) -> u32 {
        sum(&self.figures.counts)
    }

    /// How many of them are refused.
    pub fn refused(&self) -> u32 {
        sum(&self.figures.counts[1..])
    }

    /// Each number of the table with how many messages get it.
    fn numbers(&self) -> impl Iterator<Item = (u8, u64)> + '_ {
        let counts = self.figures.counts.iter().take(WORDS.len());
        (0..).zip(counts.map(|&count| count.into()))
    }

    pub fn lines(&self) -> Vec<String> {
        let messages = counted(self.messages().into(), "message", "messages");
        let laid = counted(self.figures.laid.into(), "byte", "bytes");
        let (most, when) = (self.most.frames, self.most.when());
        let mut lines = vec![
            format!("{messages}, {} refused, {laid} laid", self.refused()),
            format!("most frames held: {most} of {}, {when}", self.frames),
        ];
        lines.extend(number_lines(self.numbers().filter(|(_, count)| *count > 0)));
        if let Some(limit) = self.limit {
            let word = if self.fits() { "fits" } else { "does not fit" };
            let frames = counted(limit.into(), "frame", "frames");
            lines.push(format!("{word} on {frames}"));
        }
        lines
    }

    pub fn json(&self) -> String {
        let first = Object::default().with("message", self.most.first.number);
        let first = first.with_text("words", &self.most.first.words).end();
        let object = Object::default().with("messages", self.messages());
        let object = object.with("refused", self.refused());
        let object = object.with("laid", self.figures.laid);
        let object = object.with("frames", self.frames);
        let object = object.with("most", self.most.frames).with("first", first);
        let object = object.with("numbers", numbers_json(self.numbers()));
        match self.limit {
            None => object.end(),
            Some(limit) => object.with("limit", limit).with("fits", self.fits()).end(),
        }
    }
}

/// A sum that stops as the figures do.
fn sum(counts: &[u32]) -> u32 {
    let counts = counts.iter();
    counts.fold(0, |sum: u32, &count| sum.saturating_add(count))
}
