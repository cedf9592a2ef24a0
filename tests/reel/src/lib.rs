//! What the tests of the tool share: call files, the tool as a program, and shifts as the
//! independent model has them.

pub mod browser;
pub mod drawn;
pub mod json;

use model::gen::{Moves, Rng};
use model::model::{answer, Lent, Reader, Tables, FRAME, LEAST_BUFFER};
use reel::kinds::{Argument, Call};
use reel::looks::{Mark, OnFrame, PageCopy, Reply};
use reel::words;
use std::path::{Path, PathBuf};
use std::process::{Command, Output};

/// A directory of its own for a test's files, removed with it.
pub struct Scratch(PathBuf);

impl Scratch {
    pub fn new(name: &str) -> Scratch {
        let directory = format!("reel-tests-{name}-{}", std::process::id());
        let path = std::env::temp_dir().join(directory);
        std::fs::create_dir_all(&path).expect("a directory for the test's files");
        Scratch(path)
    }

    pub fn path(&self, name: &str) -> PathBuf {
        self.0.join(name)
    }

    /// A file of these bytes.
    pub fn file(&self, name: &str, bytes: &[u8]) -> PathBuf {
        let path = self.path(name);
        std::fs::write(&path, bytes).expect("the file is written");
        path
    }
}

impl Drop for Scratch {
    fn drop(&mut self) {
        // What is left in the temporary directory does no harm.
        let _ = std::fs::remove_dir_all(&self.0);
    }
}

/// The tool, with these words after the file's name; REEL names the program.
pub fn reel(command: &str, file: &Path, words: &[&str]) -> Output {
    let program = std::env::var("REEL").expect("REEL, the tool");
    let mut tool = Command::new(program);
    tool.arg(command).arg(file).args(words);
    tool.output().expect("the tool starts")
}

/// What the tool prints, where it must end well.
pub fn printed(command: &str, file: &Path, words: &[&str]) -> String {
    let output = reel(command, file, words);
    let errors = String::from_utf8_lossy(&output.stderr);
    assert!(output.status.success(), "{command} {words:?}: {errors}");
    String::from_utf8(output.stdout).expect("text")
}

/// A random call file of so many messages, sensible, broken and refused ones among them, for tables
/// of this size; about every other file has a cut end.
pub fn random_file(seed: u64, fast: u8, slow: u8, messages: usize) -> Vec<u8> {
    random_file_from(&mut Rng::new(seed), fresh(fast, slow), messages)
}

/// The same for a unit as it is.
pub fn random_file_from(rng: &mut Rng, mut lent: Lent, messages: usize) -> Vec<u8> {
    let mut moves = Moves::new(rng);
    let mut file = Vec::new();
    for turn in 1..=messages {
        let tables = Tables::from_raw(&lent.tables).expect("a run keeps the rules");
        let message = moves.next(rng, &tables, &lent, turn == messages);
        answer(&mut lent, &message);
        file.extend(message);
    }
    file
}

pub fn fresh(fast: u8, slow: u8) -> Lent {
    Lent {
        tables: Tables::fresh(fast, slow).to_raw(),
        fast: vec![0; FRAME * usize::from(fast)],
        slow: vec![0; FRAME * usize::from(slow)],
        out: vec![0; LEAST_BUFFER],
    }
}

/// Writes the tables and stores of a unit to files, and gives the words with which the tool starts
/// from them.
pub fn kept(scratch: &Scratch, lent: &Lent) -> Vec<String> {
    let tables = scratch.file("tables", &lent.tables);
    let stores = scratch.file("stores", &[&lent.fast[..], &lent.slow].concat());
    let words = ["--tables".into(), tables.display().to_string()];
    [words, ["--stores".into(), stores.display().to_string()]].concat()
}

/// One message of a shift as the model has it; the first turn is the start, and has none.
pub struct Turn {
    pub message: Vec<u8>,
    pub reply: Reply,
    /// The copies of each page after it.
    pub pages: Vec<Vec<PageCopy>>,
    /// What is on each frame after it.
    pub frames: Vec<OnFrame>,
}

impl Turn {
    fn new(message: &[u8], reply: Reply, tables: &[u8]) -> Turn {
        let tables = Tables::from_raw(tables).expect("a run keeps the rules");
        let frames = 0..tables.frames() as u8;
        let pages: Vec<Vec<PageCopy>> = tables.pages.iter().map(copies).collect();
        Turn {
            message: message.to_vec(),
            reply,
            frames: frames
                .map(|frame| on_frame(&tables, &pages, frame))
                .collect(),
            pages,
        }
    }

    fn argument(&self, wanted: Argument) -> Option<u8> {
        Call::parse(&self.message)?.argument(wanted)
    }

    /// The page that the message names.
    pub fn page(&self) -> Option<u8> {
        self.argument(Argument::Page)
    }

    /// The station that the message comes from.
    pub fn station(&self) -> Option<u8> {
        self.argument(Argument::Station)
    }

    /// Whether the message, which followed on `before`, names the frame, changed what is on it, or
    /// laid bytes there.
    pub fn touches(&self, before: &Turn, frame: u8) -> bool {
        let at = usize::from(frame);
        let is_write = Call::parse(&self.message).is_some_and(|call| call.kind.word == "write");
        let is_current = match self.frames[at] {
            OnFrame::Copy { page, mark, .. } => mark == Mark::Current && Some(page) == self.page(),
            _ => false,
        };
        self.argument(Argument::Frame) == Some(frame)
            || self.frames[at] != before.frames[at]
            || is_write && self.reply.number == 0 && is_current
    }

    /// The line of `reel show` for the message with this number.
    pub fn line(&self, number: usize, fast: u8) -> String {
        let (message, reply) = (
            words::message(&self.message),
            words::reply(&self.message, &self.reply, fast),
        );
        format!("{number:6}  {message}: {reply}")
    }
}

/// How many frames are held after a message.
pub fn held(turn: &Turn) -> usize {
    let is_held = |on: &&OnFrame| matches!(on, OnFrame::Copy { .. });
    turn.frames.iter().filter(is_held).count()
}

/// What is on a frame, by the model's tables.
fn on_frame(tables: &Tables, pages: &[Vec<PageCopy>], frame: u8) -> OnFrame {
    let copies = pages.iter().zip(0..).flat_map(|(copies, page)| {
        copies
            .iter()
            .zip(0..)
            .map(move |(copy, number)| (page, number, copy))
    });
    let held = copies
        .filter(|(_, _, copy)| copy.frame == Some(frame))
        .last();
    match held {
        Some((page, number, copy)) => OnFrame::Copy {
            page,
            number,
            mark: copy.mark,
        },
        None if tables.is_retired(frame) => OnFrame::Retired,
        None => OnFrame::Nothing,
    }
}

/// A file run by the model from fresh tables.
pub fn modelled(file: &[u8], fast: u8, slow: u8) -> Vec<Turn> {
    modelled_from(&mut fresh(fast, slow), file)
}

/// A file run by the model, which leaves the unit as it is after the last message.
pub fn modelled_from(lent: &mut Lent, file: &[u8]) -> Vec<Turn> {
    let none = Reply {
        number: 0,
        laid: 0,
        data: Vec::new(),
    };
    let mut turns = vec![Turn::new(&[], none, &lent.tables)];
    for message in Reader::new(file) {
        let answer = answer(lent, message);
        let reply = Reply {
            number: answer.number,
            laid: answer.laid as u16,
            data: lent.out[6..answer.length].to_vec(),
        };
        turns.push(Turn::new(message, reply, &lent.tables));
    }
    turns
}

fn copies(page: &Option<model::model::Page>) -> Vec<PageCopy> {
    let copies = page.iter().flat_map(|page| &page.copies);
    let seen = copies.map(|copy| PageCopy {
        frame: copy.frame,
        mark: match (copy.current, copy.recent) {
            (true, _) => Mark::Current,
            (_, true) => Mark::Recent,
            _ => Mark::Stale,
        },
    });
    seen.collect()
}

/// The number of the message from which on, up to message `at`, this copy was always there with
/// this mark; 0 if it is so from the start.
pub fn since(turns: &[Turn], at: usize, page: usize, copy: &PageCopy) -> usize {
    so_since(turns, at, |turn| turn.pages[page].contains(copy))
}

/// The number of the message from which on, up to message `at`, this was always so.
pub fn so_since(turns: &[Turn], at: usize, is_so: impl Fn(&Turn) -> bool) -> usize {
    let before = turns[..=at].iter().rev();
    at + 1 - before.take_while(|turn| is_so(turn)).count()
}

/// The number of the message since which a frame has what is on it after message `at`. Numbers of
/// copies may close up meanwhile.
pub fn frame_since(turns: &[Turn], at: usize, frame: u8) -> usize {
    let what = |turn: &Turn| match turn.frames[usize::from(frame)] {
        OnFrame::Copy { page, mark, .. } => (1, page, Some(mark)),
        OnFrame::Retired => (2, 0, None),
        OnFrame::Nothing => (0, 0, None),
    };
    let now = what(&turns[at]);
    so_since(turns, at, |turn| what(turn) == now)
}

/// What the page of `reel view` should say of a frame after a message, by the model.
pub fn frame_due(turns: &[Turn], at: usize, frame: u8) -> String {
    let since = match frame_since(turns, at, frame) {
        0 => "from the start".into(),
        since => format!("since message {since}"),
    };
    match turns[at].frames[usize::from(frame)] {
        OnFrame::Copy { page, mark, .. } => format!("page {page} {} {since}", mark.word()),
        OnFrame::Retired => format!("retired {since}"),
        OnFrame::Nothing => format!("free {since}"),
    }
}

/// Why a copy is stale, by the model.
pub struct Stale {
    /// The message that made its bytes old ones.
    pub since: usize,
    /// The message that made it of a copy that was stale, and that copy's number now if it is there.
    pub made: Option<(usize, Option<usize>)>,
}

impl Stale {
    /// Of the copy of a page on a frame, which is stale after message `at`.
    pub fn of(turns: &[Turn], at: usize, page: usize, copy: &PageCopy) -> Stale {
        let first = since(turns, at, page, copy);
        let is_there = |turn: &Turn, frame| turn.pages[page].iter().any(|held| held.frame == frame);
        let before = first.checked_sub(1).map(|before| &turns[before]);
        let Some(before) = before.filter(|turn| !is_there(turn, copy.frame)) else {
            let (since, made) = (first, None);
            return Stale { since, made };
        };
        let call = Call::parse(&turns[first].message).expect("it made a copy");
        let source = call.argument(Argument::Copy).expect("it names its source");
        let source = before.pages[page][usize::from(source)];
        let stays = turns[first..=at]
            .iter()
            .all(|turn| is_there(turn, source.frame));
        let mut now = turns[at].pages[page].iter();
        let number = now.position(|held| held.frame == source.frame);
        Stale {
            since: Stale::of(turns, first - 1, page, &source).since,
            made: Some((first, number.filter(|_| stays))),
        }
    }

    /// How it was made, as the tool says it.
    pub fn making(&self) -> Option<String> {
        let (by, source) = self.made?;
        let source = source.map_or("a copy that is gone".into(), |number| {
            format!("copy {number}")
        });
        Some(format!("made by message {by} from {source}"))
    }
}
