//! The copies of one page, each with the write that it carries and a stale one with the message that
//! made it stale; and what is on one frame, with the message that brought it about.

use crate::kinds::{Argument, Call};
use crate::looks::{Mark, OnFrame, PageCopy, Watched};
use crate::run::Answered;
use crate::words;
use crate::writes::Writes;

/// A message of the file: its number and its words. Number 0 is the start.
#[derive(Clone, Debug, PartialEq, Eq)]
pub struct Turn {
    pub number: u64,
    pub words: String,
}

impl Turn {
    pub fn start() -> Turn {
        let words = String::new();
        Turn { number: 0, words }
    }

    pub fn of(number: u64, message: &[u8]) -> Turn {
        let words = words::message(message);
        Turn { number, words }
    }

    /// As `since message 7, create station 3 page 5`.
    fn since(&self) -> String {
        match self.number {
            0 => "from the start".into(),
            number => format!("since message {number}, {}", self.words),
        }
    }
}

/// Why a copy is stale.
#[derive(Clone, Debug, PartialEq, Eq)]
pub struct Stale {
    /// The message since which its bytes are not the latest.
    pub since: Turn,
    pub made: Option<Made>,
}

/// A copy that was made of one that was stale already.
#[derive(Clone, Debug, PartialEq, Eq)]
pub struct Made {
    pub by: u64,
    /// Which copy it was made of: its `Held::name`.
    source: u64,
}

/// A copy as it is now.
#[derive(Clone, Debug, PartialEq, Eq)]
pub struct Held {
    pub copy: PageCopy,
    pub stale: Option<Stale>,
    /// Which copy of the page it is, among all that there ever were; its number may change.
    name: u64,
}

/// A page from the start on.
pub struct History {
    /// As looks show them.
    copies: Vec<Held>,
    /// What each of them carries, by the messages alone.
    writes: Writes,
    last_change: Option<Turn>,
    /// How many copies there were.
    named: u64,
}

impl History {
    /// A page as it is at the start.
    pub fn start(page: u8, watched: &Watched) -> History {
        let copies = watched.copies(page);
        let mut history = History {
            copies: Vec::new(),
            writes: Writes::start(copies),
            last_change: None,
            named: 0,
        };
        if !copies.is_empty() {
            history.change(Turn::start(), None, copies);
        }
        history
    }

    /// Follows a page over one message more.
    pub fn follow(&mut self, answered: &Answered, page: u8) {
        let Answered {
            number, message, ..
        } = *answered;
        let is_accepted = answered.reply.number == 0;
        self.writes.follow(page, number, message, is_accepted);
        if answered.watched.changed().contains(&page) {
            let call = Call::parse(message);
            let source = call.and_then(|call| call.argument(Argument::Copy));
            let turn = Turn::of(number, message);
            self.change(turn, source, answered.watched.copies(page));
        }
    }

    /// Another look than before. `source` is the copy that the message names.
    fn change(&mut self, turn: Turn, source: Option<u8>, copies: &[PageCopy]) {
        let before = std::mem::take(&mut self.copies);
        let source = source.and_then(|number| before.get(usize::from(number)));
        // Within a page the frame tells which copy it is, as the numbers close up after a delete.
        let earlier = |copy: &PageCopy| before.iter().find(|held| held.copy.frame == copy.frame);
        for &copy in copies {
            let held = earlier(&copy);
            let name = held.map_or(self.named, |held| held.name);
            self.named = self.named.max(name + 1);
            let stale = (copy.mark == Mark::Stale).then(|| match held {
                Some(held) => held.stale.clone().unwrap_or(Stale::by(&turn)),
                None => source.map_or(Stale::by(&turn), |source| Stale::made(&turn, source)),
            });
            self.copies.push(Held { copy, stale, name });
        }
        self.last_change = Some(turn);
    }

    pub fn copies(&self) -> &[Held] {
        &self.copies
    }

    /// The copies in one line.
    pub fn line(&self, fast: u8) -> String {
        if self.copies.is_empty() {
            return "the page does not stand".into();
        }
        words::listed(self.numbered(|_| true).map(|(number, held)| {
            let copy = held.copy.in_words(fast);
            match &held.stale {
                None => copy,
                Some(Stale { since, made }) => {
                    let made = made
                        .as_ref()
                        .map(|made| format!(" ({})", self.making(made)));
                    let since = match since.number {
                        0 => "from the start".into(),
                        number => format!("since {number}"),
                    };
                    let carried = self.writes.carried(number);
                    format!("{copy} {since} {carried}{}", made.unwrap_or_default())
                }
            }
        }))
    }

    /// What was written last up to message `at`, which copies are the latest, since when the others
    /// are stale, and which write each carries.
    pub fn latest(&self, page: u8, at: u64, fast: u8) -> Vec<String> {
        if self.copies.is_empty() {
            let why = match &self.last_change {
                None => "it was not created".into(),
                Some(turn) => format!("deleted by message {}, {}", turn.number, turn.words),
            };
            return vec![format!(
                "page {page} does not stand after message {at}: {why}"
            )];
        }
        let mut lines = vec![format!("page {page} after message {at}")];
        lines.push(self.writes.last_write());
        for (number, Held { copy, .. }) in self.numbered(|held| held.stale.is_none()) {
            let (place, mark) = (copy.place(fast), copy.mark.word());
            let carried = self.writes.carried(number);
            lines.push(format!("latest: copy {number}, {place}, {mark}, {carried}"));
        }
        let mut current = self.numbered(|held| held.copy.mark == Mark::Current);
        if current.next().is_none() {
            lines.push("no copy is CURRENT".into());
        }
        for (number, Held { copy, stale, .. }) in self.numbered(|_| true) {
            if let Some(stale) = stale {
                let (place, why) = (copy.place(fast), self.why(stale));
                let carried = self.writes.carried(number);
                lines.push(format!("stale: copy {number}, {place}, {carried}, {why}"));
            }
        }
        lines
    }

    /// Since when a copy is stale, and how it was made if it was stale from then on.
    fn why(&self, Stale { since, made }: &Stale) -> String {
        let since = since.since();
        match made {
            None => since,
            Some(made) => format!("{}, stale {since}", self.making(made)),
        }
    }

    /// By which message a copy was made of a stale one, and which number that one has now.
    fn making(&self, Made { by, source }: &Made) -> String {
        match self.copies.iter().position(|held| held.name == *source) {
            Some(number) => format!("made by message {by} from copy {number}"),
            None => format!("made by message {by} from a copy that is gone"),
        }
    }

    /// The copies that pass a test, with their numbers.
    fn numbered(&self, test: fn(&Held) -> bool) -> impl Iterator<Item = (usize, &Held)> {
        let numbered = self.copies.iter().enumerate();
        numbered.filter(move |(_, held)| test(held))
    }
}

impl Stale {
    /// Made stale by this message.
    fn by(turn: &Turn) -> Stale {
        let since = turn.clone();
        Stale { since, made: None }
    }

    /// Made by this message of a copy that was stale already.
    fn made(turn: &Turn, source: &Held) -> Stale {
        let Some(Stale { since, .. }) = source.stale.clone() else {
            return Stale::by(turn);
        };
        let (by, source) = (turn.number, source.name);
        let made = Some(Made { by, source });
        Stale { since, made }
    }
}

/// What is on one frame, and since which message.
pub struct FrameHistory {
    frame: u8,
    now: OnFrame,
    since: Turn,
}

impl FrameHistory {
    /// A frame as it is at the start.
    pub fn start(frame: u8, watched: &Watched) -> FrameHistory {
        FrameHistory {
            frame,
            now: watched.on_frame(frame),
            since: Turn::start(),
        }
    }

    /// Follows the frame over one message more.
    pub fn follow(&mut self, answered: &Answered) {
        let now = answered.watched.on_frame(self.frame);
        if !is_same(self.now, now) {
            self.since = Turn::of(answered.number, answered.message);
        }
        self.now = now;
    }

    /// What is on the frame, in words.
    pub fn line(&self) -> String {
        match self.now {
            OnFrame::Nothing => "free".into(),
            OnFrame::Retired => "retired".into(),
            OnFrame::Copy { page, number, mark } => {
                format!("page {page} copy {number} {}", mark.word())
            }
        }
    }

    /// What is on the frame after message `at`, and since when.
    pub fn at(&self, at: u64, fast: u8) -> String {
        let (frame, store) = (self.frame, words::store(self.frame, fast));
        let (now, since) = (self.line(), self.since.since());
        format!("frame {frame} {store} after message {at}: {now} {since}")
    }
}

/// Whether the same copy is there with the same mark; its number may have closed up.
fn is_same(one: OnFrame, other: OnFrame) -> bool {
    let what = |on| match on {
        OnFrame::Copy { page, mark, .. } => Some((page, mark)),
        _ => None,
    };
    match (what(one), what(other)) {
        (None, None) => one == other,
        (one, other) => one == other,
    }
}
