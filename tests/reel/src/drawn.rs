//! The picture of `reel view` as the model has it: where on the screen which message and which frame
//! are drawn.

use crate::browser::Browser;
use crate::{modelled, printed, random_file, Scratch, Turn};
use reel::looks::{Mark, OnFrame, PageCopy};
use std::path::{Path, PathBuf};

/// The left edge of the messages in the map, and the upper edge of the frames.
const GUTTER: f64 = 70.0;
const AXIS: f64 = 22.0;
/// The least and the greatest height of a row.
const ROW: (f64, f64) = (2.0, 40.0);

/// A shift of the model, and where the page draws it in the window.
pub struct Drawn {
    pub turns: Vec<Turn>,
    /// How many messages come before the first of the page.
    pub before: usize,
    /// How many rows there are: the frames, and so many as pages stand without one at a time.
    pub rows: usize,
    left: f64,
    top: f64,
    width: f64,
    pub row: f64,
}

impl Drawn {
    pub fn new(bytes: &[u8], fast: u8, slow: u8) -> Drawn {
        Drawn::of(modelled(bytes, fast, slow), 0)
    }

    /// A page that begins behind so many messages.
    pub fn of(turns: Vec<Turn>, before: usize) -> Drawn {
        let frameless = turns[before..]
            .iter()
            .map(|turn| frameless(turn).count())
            .max();
        let rows = turns[0].frames.len() + frameless.unwrap_or(0);
        let (left, top, width, row) = (0.0, 0.0, 0.0, 0.0);
        Drawn {
            turns,
            before,
            rows,
            left,
            top,
            width,
            row,
        }
    }

    pub fn frames(&self) -> u8 {
        self.turns[0].frames.len() as u8
    }

    /// How many messages the page has.
    pub fn messages(&self) -> usize {
        self.turns.len() - 1 - self.before
    }

    /// Takes the map's place in the window; the whole shift is shown, as at first.
    pub fn place(&mut self, browser: &mut Browser) {
        let (left, top, width, height) = browser.place_of("#map");
        let fitting = (height - AXIS) / self.rows as f64;
        self.row = fitting.clamp(ROW.0, ROW.1);
        (self.left, self.top, self.width) = (left + GUTTER, top + AXIS, width - GUTTER);
    }

    /// The middle of a message's column.
    pub fn x(&self, turn: usize) -> f64 {
        let turn = (turn - self.before) as f64;
        self.left + (turn - 0.5) * self.width / self.messages() as f64
    }

    /// This share of the way down a frame's row.
    pub fn y(&self, frame: u8, share: f64) -> f64 {
        self.top + (f64::from(frame) + share) * self.row
    }

    /// At the top of a frame's bar, and around the line at its foot, which alone stands for a stale copy.
    pub fn upper_and_lower(&self, frame: u8, turn: usize, scale: u32) -> [(f64, f64); 4] {
        let (x, foot) = (self.x(turn), self.y(frame, 1.0) - 1.5);
        let pixel = 1.0 / f64::from(scale);
        [self.y(frame, 0.2), foot - pixel, foot, foot + pixel].map(|y| (x, y))
    }

    /// The page and the mark on a frame after a message.
    pub fn holder(&self, frame: u8, turn: usize) -> Option<(usize, Mark)> {
        match self.turns[turn].frames[usize::from(frame)] {
            OnFrame::Copy { page, mark, .. } => Some((page.into(), mark)),
            _ => None,
        }
    }
}

/// The pages that stand without a frame.
pub fn frameless(turn: &Turn) -> impl Iterator<Item = usize> + '_ {
    let is_frameless = |copies: &[PageCopy]| copies.iter().any(|copy| copy.frame.is_none());
    let pages = turn.pages.iter().enumerate();
    pages
        .filter(move |(_, copies)| is_frameless(copies))
        .map(|(page, _)| page)
}

/// The page of a random call file for a unit of this size, and the shift that it draws.
pub fn random_view(
    scratch: &Scratch,
    seed: u64,
    (fast, slow): (u8, u8),
    messages: usize,
) -> (PathBuf, Drawn) {
    let bytes = random_file(seed, fast, slow, messages);
    let page = view(scratch, &bytes, fast, slow);
    (page, Drawn::new(&bytes, fast, slow))
}

/// The page of a call file for a unit of this size.
pub fn view(scratch: &Scratch, bytes: &[u8], fast: u8, slow: u8) -> PathBuf {
    let (fast, slow) = (fast.to_string(), slow.to_string());
    view_with(
        scratch,
        &scratch.file("calls", bytes),
        &["--fast", &fast, "--slow", &slow],
    )
}

/// The page of a file with these options.
pub fn view_with(scratch: &Scratch, file: &Path, words: &[&str]) -> PathBuf {
    let page = scratch.path("page.html");
    let page_word = page.display().to_string();
    printed("view", file, &[words, &["-o", &page_word]].concat());
    page
}

/// Message and frame that the panel names, and what it says of the frame.
pub fn named(browser: &mut Browser) -> (String, String, String) {
    let parts = "[...document.querySelectorAll('#place h2, #place h3, #place h3 + p')].map(part => part.textContent)";
    let words = browser.eval(parts);
    let words: Vec<String> = words
        .texts()
        .iter()
        .map(|text| text.replace(',', ""))
        .collect();
    let message = words[0].split(' ').nth(1).expect("its number").into();
    let frame = words[1].split(' ').nth(1).expect("its number").into();
    (message, frame, words[2].clone())
}

/// Whether two colours are the same but for what a soft edge mixes in.
pub fn is_close(one: &str, other: &str) -> bool {
    let part =
        |text: &str, at: usize| i32::from_str_radix(&text[at..at + 2], 16).expect("a colour");
    [1, 3, 5]
        .iter()
        .all(|&at| (part(one, at) - part(other, at)).abs() <= 8)
}

/// Frames and messages around which nothing changes for so long that neither an edge nor the number
/// of a page is drawn there; for each mark a few.
pub fn clear_places(drawn: &Drawn) -> Vec<(u8, usize)> {
    let messages = drawn.messages();
    let around = messages / 12;
    let mut places: Vec<(u8, usize)> = Vec::new();
    let end = drawn.turns.last().expect("the start at least");
    let retired = |frame: u8| end.frames[usize::from(frame)] == OnFrame::Retired;
    for frame in (0..drawn.frames()).filter(|&frame| !retired(frame)) {
        for turn in (2 * around..messages - 4).step_by(7) {
            let due = drawn.holder(frame, turn);
            let is_same = |other: usize| drawn.holder(frame, other) == due;
            let kind =
                |&(frame, turn): &(u8, usize)| drawn.holder(frame, turn).map(|(_, mark)| mark);
            let alike = places
                .iter()
                .filter(|place| kind(place) == due.map(|(_, mark)| mark));
            if alike.count() < 3 && (turn - around..turn + 4).all(is_same) {
                places.push((frame, turn));
            }
        }
    }
    places
}
