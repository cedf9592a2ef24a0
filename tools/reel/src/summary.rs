//! How many messages there are of each kind and number, and what they leave.

use crate::json::{list, Object};
use crate::kinds::{number_of, Call, KINDS};
use crate::looks::{OnFrame, Watched, PAGES};
use crate::run::Answered;
use crate::words::{counted, word};

pub struct Summary {
    messages: u64,
    refused: u64,
    laid: u64,
    /// Accepted and refused messages of each kind; at 0 those of no kind.
    kinds: [[u64; 2]; KINDS.len() + 1],
    numbers: [u64; 256],
}

impl Default for Summary {
    fn default() -> Summary {
        Summary {
            messages: 0,
            refused: 0,
            laid: 0,
            kinds: [[0; 2]; KINDS.len() + 1],
            numbers: [0; 256],
        }
    }
}

/// Pages and frames as a shift leaves them.
struct Left {
    pages: usize,
    held: usize,
    retired: usize,
    frames: usize,
}

impl Left {
    fn by(watched: &Watched) -> Left {
        let frames = watched.on_frames();
        let is_held = |on: &&OnFrame| matches!(on, OnFrame::Copy { .. });
        let pages = 0..PAGES as u8;
        Left {
            pages: pages
                .filter(|&page| !watched.copies(page).is_empty())
                .count(),
            held: frames.iter().filter(is_held).count(),
            retired: frames.iter().filter(|&&on| on == OnFrame::Retired).count(),
            frames: frames.len(),
        }
    }

    fn line(&self) -> String {
        let Left {
            pages,
            held,
            retired,
            frames,
        } = *self;
        let free = frames - held - retired;
        let pages = counted(pages as u64, "page stands", "pages stand");
        format!(
            "at the end {pages}; of {frames} frames {held} held, {free} free, {retired} retired"
        )
    }

    fn json(&self) -> String {
        let left = Object::default().with("pages", self.pages);
        let left = left.with("frames", self.frames).with("held", self.held);
        left.with("retired", self.retired).end()
    }
}

/// Numbers with how often they were given, a line each below a head; no line where there are none.
pub fn number_lines(given: impl Iterator<Item = (u8, u64)>) -> Vec<String> {
    let mut lines: Vec<String> = given
        .map(|(number, count)| format!("{count:10}  {number} {}", word(number)))
        .collect();
    if !lines.is_empty() {
        lines.insert(0, "     times  number".into());
    }
    lines
}

/// The same as a list in JSON.
pub fn numbers_json(given: impl Iterator<Item = (u8, u64)>) -> String {
    list(given.map(|(number, count)| {
        let object = Object::default().with("number", number);
        object
            .with_text("word", word(number))
            .with("count", count)
            .end()
    }))
}

impl Summary {
    pub fn count(&mut self, answered: &Answered) {
        let (reply, call) = (answered.reply, Call::parse(answered.message));
        let is_refused = reply.number > 0;
        self.messages += 1;
        self.refused += u64::from(is_refused);
        self.laid += u64::from(reply.laid);
        let kind = call.map_or(0, |call| number_of(call.kind));
        self.kinds[usize::from(kind)][usize::from(is_refused)] += 1;
        self.numbers[usize::from(reply.number)] += 1;
    }

    /// The kinds that there are messages of: word, accepted and refused.
    fn kinds(&self) -> impl Iterator<Item = (&'static str, u64, u64)> + '_ {
        let words = KINDS.iter().map(|kind| kind.word);
        let words = words.chain(["broken"]);
        let counts = self.kinds[1..].iter().chain(&self.kinds[..1]);
        let all = words
            .zip(counts)
            .map(|(word, &[accepted, refused])| (word, accepted, refused));
        all.filter(|(_, accepted, refused)| accepted + refused > 0)
    }

    /// The numbers that were given: number and how often.
    fn numbers(&self) -> impl Iterator<Item = (u8, u64)> + '_ {
        let all = (0..=255).zip(self.numbers);
        all.filter(|(_, count)| *count > 0)
    }

    pub fn lines(&self, watched: &Watched) -> Vec<String> {
        let messages = counted(self.messages, "message", "messages");
        let laid = counted(self.laid, "byte", "bytes");
        let mut lines = vec![format!("{messages}, {} refused, {laid} laid", self.refused)];
        if self.messages > 0 {
            lines.push("  accepted   refused  kind".into());
        }
        for (word, accepted, refused) in self.kinds() {
            lines.push(format!("{accepted:10}{refused:10}  {word}"));
        }
        lines.extend(number_lines(self.numbers()));
        lines.push(Left::by(watched).line());
        lines
    }

    pub fn json(&self, watched: &Watched) -> String {
        let kinds = self.kinds().map(|(word, accepted, refused)| {
            let kind = Object::default().with_text("kind", word);
            kind.with("accepted", accepted)
                .with("refused", refused)
                .end()
        });
        let object = Object::default().with("messages", self.messages);
        let object = object.with("refused", self.refused).with("laid", self.laid);
        let object = object
            .with("kinds", list(kinds))
            .with("numbers", numbers_json(self.numbers()));
        object.with("end", Left::by(watched).json()).end()
    }
}
