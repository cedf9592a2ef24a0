//! The histories of pages and frames, as the tool prints them, held against the independent model on
//! random files, from fresh tables and from such as were kept.

use model::gen::{deep_file, lawful, roomy, shaped_sweep, Rng};
use model::history::{History, OLDER};
use model::model::{Lent, NO_FRAME};
use reel::looks::{Mark, OnFrame, PAGES};
use reel::words;
use reel_tests::{
    frame_since, fresh, kept, modelled_from, printed, random_file, random_file_from, so_since,
    Scratch, Stale, Turn,
};

const SIZES: [(u8, u8); 5] = [(4, 4), (3, 9), (20, 20), (127, 127), (9, 0)];

/// A shift by the model and by the tool: its file, and the words that say what it starts from.
struct Both {
    scratch: Scratch,
    turns: Vec<Turn>,
    fast: u8,
    start: Vec<String>,
    /// Which write each copy carries, at the start.
    history: History,
    /// The unit as the model leaves it.
    end: Lent,
}

impl Both {
    fn fresh(name: &str, seed: u64, (fast, slow): (u8, u8), messages: usize) -> Both {
        let start = ["--fast", &fast.to_string(), "--slow", &slow.to_string()].map(String::from);
        let file = random_file(seed, fast, slow, messages);
        Both::of(Scratch::new(name), &file, fresh(fast, slow), start.to_vec())
    }

    /// From tables and stores that were kept.
    fn kept(name: &str, seed: u64, messages: usize) -> Both {
        let rng = &mut Rng::new(seed);
        let lent = lawful(rng);
        let file = random_file_from(rng, lent.clone(), messages);
        let scratch = Scratch::new(name);
        let start = kept(&scratch, &lent);
        Both::of(scratch, &file, lent, start)
    }

    /// A file that comes to every sort of stale copy, whole, and what is left of it where a page first
    /// has copies of three writes.
    fn deep(name: &str, seed: u64) -> [Both; 2] {
        let rng = &mut Rng::new(seed);
        let mut lent = roomy(rng);
        let file = deep_file(rng, lent.tables[0], lent.tables[1]);
        let both = |part: &str, file: &[u8], lent: Lent| {
            let scratch = Scratch::new(&format!("{name}-{part}"));
            let start = kept(&scratch, &lent);
            Both::of(scratch, file, lent, start)
        };
        let whole = both("whole", &file, lent.clone());
        let has_three =
            |history: History| history.pages.iter().any(|page| page.writes_carried() == 3);
        let mut messages = 0..=whole.messages();
        let three = messages.find(|&at| has_three(whole.history_at(at)));
        let (first, rest) = file.split_at(whole.length(three.expect("copies of three writes")));
        modelled_from(&mut lent, first);
        [whole, both("rest", rest, lent)]
    }

    /// A file as `deep` has, with a message of any version, kind, length and bytes before each of its
    /// own.
    fn hostile(name: &str, seed: u64) -> Both {
        let rng = &mut Rng::new(seed);
        let lent = roomy(rng);
        let deep = deep_file(rng, lent.tables[0], lent.tables[1]);
        let own = modelled_from(&mut lent.clone(), &deep);
        let mut any = shaped_sweep(rng);
        any.retain(|bytes| {
            let length = bytes.get(..2).map(|l| u16::from_be_bytes([l[0], l[1]]));
            length.map(usize::from) == bytes.len().checked_sub(2)
        });
        let mut file = Vec::new();
        for turn in &own[1..] {
            file.extend(rng.pick(&any));
            file.extend(&turn.message);
        }
        let scratch = Scratch::new(name);
        let start = kept(&scratch, &lent);
        Both::of(scratch, &file, lent, start)
    }

    fn of(scratch: Scratch, file: &[u8], mut lent: Lent, start: Vec<String>) -> Both {
        scratch.file("calls", file);
        let fast = lent.tables[0];
        let history = History::start(&lent);
        let turns = modelled_from(&mut lent, file);
        Both {
            scratch,
            turns,
            fast,
            start,
            history,
            end: lent,
        }
    }

    /// The histories of the pages after message `at`.
    fn history_at(&self, at: usize) -> History {
        let mut history = self.history.clone();
        for turn in &self.turns[1..=at] {
            history.follow(&turn.message, turn.reply.number == 0);
        }
        history
    }

    fn messages(&self) -> usize {
        self.turns.len() - 1
    }

    /// The bytes of the messages up to this one.
    fn length(&self, at: usize) -> usize {
        let turns = self.turns[..=at].iter();
        turns.map(|turn| turn.message.len()).sum()
    }

    fn printed(&self, command: &str, words: &[&str]) -> String {
        let start = self.start.iter().map(String::as_str);
        let words: Vec<&str> = words.iter().copied().chain(start).collect();
        printed(command, &self.scratch.path("calls"), &words)
    }

    /// The message of this number in words.
    fn words(&self, number: usize) -> String {
        words::message(&self.turns[number].message)
    }

    /// What a copy carries after message `at`, in the tool's words. It has the frame that it has in the
    /// history, is CURRENT where it is so there, and stale where it does not carry the last write.
    fn carried(&self, at: usize, page: usize, history: &History, number: usize) -> String {
        let (history, seen) = (&history.pages[page], &self.turns[at].pages[page][number]);
        let copy = &history.copies[number];
        assert_eq!(seen.frame, (copy.frame != NO_FRAME).then_some(copy.frame));
        assert_eq!(seen.mark == Mark::Current, copy.is_current);
        assert_eq!(seen.mark != Mark::Stale, history.is_latest(copy));
        let write = match (copy.carries.number, self.stands_since(at, page)) {
            (OLDER, _) => "what was stale at the start".into(),
            (0, 0) => "what was latest at the start".into(),
            (0, _) => "no write".into(),
            (number, _) => format!("message {number}"),
        };
        format!("carrying {write}")
    }

    /// The message that created the page, 0 if it stands from the start.
    fn stands_since(&self, at: usize, page: usize) -> usize {
        so_since(&self.turns, at, |turn| !turn.pages[page].is_empty())
    }

    /// The lines of `reel page FILE PAGE`.
    fn history(&self, page: usize) -> String {
        let (mut lines, mut history) = (String::new(), self.history.clone());
        for (at, turn) in self.turns.iter().enumerate().skip(1) {
            history.follow(&turn.message, turn.reply.number == 0);
            if turn.page() != Some(page as u8) {
                continue;
            }
            let copies = turn.pages[page].iter().enumerate().map(|(number, copy)| {
                let words = copy.in_words(self.fast);
                let carried = self.carried(at, page, &history, number);
                match copy.mark {
                    Mark::Stale => {
                        let stale = Stale::of(&self.turns, at, page, copy);
                        let made = stale
                            .making()
                            .map_or(String::new(), |made| format!(" ({made})"));
                        let since = from_start_or(stale.since, "since ", "");
                        format!("{words} {since} {carried}{made}")
                    }
                    _ => words,
                }
            });
            let copies = match turn.pages[page].is_empty() {
                true => "the page does not stand".to_string(),
                false => words::listed(copies),
            };
            lines += &format!("{} | {copies}\n", turn.line(at, self.fast));
        }
        lines
    }

    /// The lines of `reel page FILE PAGE --at K` about the last write and about copies.
    fn latest(&self, at: usize, page: usize) -> Vec<String> {
        let history = &self.history_at(at);
        let copies = self.turns[at].pages[page].iter().enumerate();
        let (stale, recent): (Vec<_>, Vec<_>) =
            copies.partition(|(_, copy)| copy.mark == Mark::Stale);
        let written = (!recent.is_empty()).then(|| self.last_write(at, page, history));
        let recent = recent.iter().map(|&(number, copy)| {
            let (place, mark) = (copy.place(self.fast), copy.mark.word());
            let carried = self.carried(at, page, history, number);
            format!("latest: copy {number}, {place}, {mark}, {carried}")
        });
        let stale = stale.iter().map(|&(number, copy)| {
            let stale = Stale::of(&self.turns, at, page, copy);
            let made = stale
                .making()
                .map_or(String::new(), |made| format!("{made}, stale "));
            let (place, since) = (copy.place(self.fast), self.since(stale.since));
            let carried = self.carried(at, page, history, number);
            format!("stale: copy {number}, {place}, {carried}, {made}{since}")
        });
        written.into_iter().chain(recent).chain(stale).collect()
    }

    fn last_write(&self, at: usize, page: usize, history: &History) -> String {
        let number = history.pages[page].last.number as usize;
        let words = match (number, self.stands_since(at, page)) {
            (0, 0) => "none since the start".into(),
            (0, created) => format!("none {}", self.since(created)),
            (number, _) => format!("message {number}, {}", self.words(number)),
        };
        format!("last write: {words}")
    }

    /// The same lines, after the tool's are found to be just these.
    fn compared(&self, at: usize, page: usize) -> Vec<String> {
        let lines = self.printed("page", &[&page.to_string(), "--at", &at.to_string()]);
        let begins = ["last write: ", "latest: ", "stale: "];
        let told = |line: &&str| begins.iter().any(|begin| line.starts_with(begin));
        let due = self.latest(at, page);
        let lines: Vec<&str> = lines.lines().filter(told).collect();
        assert_eq!(lines, due, "message {at}");
        due
    }

    fn since(&self, number: usize) -> String {
        let words = format!(", {}", self.words(number));
        from_start_or(number, "since message ", &words)
    }

    fn on_frame(&self, at: usize, frame: u8) -> String {
        match self.turns[at].frames[usize::from(frame)] {
            OnFrame::Nothing => "free".into(),
            OnFrame::Retired => "retired".into(),
            OnFrame::Copy { page, number, mark } => {
                format!("page {page} copy {number} {}", mark.word())
            }
        }
    }

    /// The lines of `reel frame FILE FRAME`.
    fn frame_history(&self, frame: u8) -> String {
        let mut lines = String::new();
        for (at, pair) in (1..).zip(self.turns.windows(2)) {
            if pair[1].touches(&pair[0], frame) {
                lines += &format!(
                    "{} | {}\n",
                    pair[1].line(at, self.fast),
                    self.on_frame(at, frame)
                );
            }
        }
        lines
    }

    /// The line of `reel frame FILE FRAME --at K`.
    fn frame_at(&self, at: usize, frame: u8) -> String {
        let store = words::store(frame, self.fast);
        let since = self.since(frame_since(&self.turns, at, frame));
        format!(
            "frame {frame} {store} after message {at}: {} {since}\n",
            self.on_frame(at, frame)
        )
    }
}

/// A message's number between these words, or that it was so from the start.
fn from_start_or(number: usize, before: &str, after: &str) -> String {
    match number {
        0 => "from the start".into(),
        number => format!("{before}{number}{after}"),
    }
}

/// Shifts from fresh tables of several sizes and from kept ones.
fn shifts(name: &str, messages: usize) -> impl Iterator<Item = Both> + '_ {
    let fresh = (1..)
        .zip(SIZES)
        .map(move |(seed, size)| Both::fresh(name, seed, size, messages));
    fresh.chain((101..109).map(move |seed| Both::kept(name, seed, messages)))
}

#[test]
fn every_line_of_a_page_is_what_the_model_says() {
    let (mut lines, mut from_start) = (0, 0);
    for both in shifts("history", 1_500) {
        for page in [63, 62, 60, 55, 0] {
            let due = both.history(page);
            assert_eq!(
                both.printed("page", &[&page.to_string()]),
                due,
                "page {page}"
            );
            lines += due.lines().count();
            from_start += due.matches("stale from the start").count();
        }
    }
    assert!(lines > 2_000, "only {lines} lines were compared");
    assert!(
        from_start > 10,
        "only {from_start} copies were stale from the start"
    );
}

#[test]
fn the_latest_copies_are_those_of_the_model() {
    let mut seen = [
        ("stale: ", 0),
        (" from copy ", 0),
        ("from a copy that is gone", 0),
        ("from the start", 0),
    ];
    for both in shifts("latest", 1_000) {
        for at in (0..=both.messages()).step_by(both.messages() / 40 + 1) {
            for page in [63, 62] {
                for line in both.compared(at, page) {
                    for (words, count) in &mut seen {
                        *count += usize::from(line.contains(*words));
                    }
                }
            }
        }
    }
    assert!(seen.iter().all(|(_, count)| *count > 5), "{seen:?}");
}

/// Each file comes to all of this, whatever its seed.
#[test]
fn every_copy_carries_the_write_that_the_model_says() {
    for seed in 301..304 {
        let mut seen = [
            ("last write: ", "message ", 0),
            ("last write: ", "none since message ", 0),
            ("last write: ", "none since the start", 0),
            ("latest: ", "CURRENT, carrying message ", 0),
            ("latest: ", "MOST RECENT, carrying message ", 0),
            ("latest: ", "carrying no write", 0),
            ("latest: ", "carrying what was latest at the start", 0),
            ("stale: ", "carrying message ", 0),
            ("stale: ", "carrying no write, since ", 0),
            ("stale: ", "carrying no write, made by ", 0),
            ("stale: ", "carrying what was latest at the start", 0),
            ("stale: ", "carrying what was stale at the start", 0),
        ];
        for both in Both::deep("carried", seed) {
            for (at, turn) in both.turns.iter().enumerate().skip(1) {
                let page = turn.page().filter(|&page| usize::from(page) < PAGES);
                let lines = page.map(|page| both.compared(at, page.into()));
                for line in lines.into_iter().flatten() {
                    for (begin, words, count) in &mut seen {
                        *count += usize::from(line.starts_with(*begin) && line.contains(*words));
                    }
                }
            }
        }
        assert!(seen.iter().all(|(_, _, count)| *count > 0), "{seen:?}");
    }
}

#[test]
fn any_messages_in_between_are_followed_as_the_model_says() {
    for seed in 401..403 {
        let both = Both::hostile("hostile", seed);
        let mut stale = 0;
        for (at, turn) in both.turns.iter().enumerate().skip(1) {
            let page = turn.page().filter(|&page| usize::from(page) < PAGES);
            let lines = page.map(|page| both.compared(at, page.into()));
            let lines = lines.into_iter().flatten();
            stale += lines.filter(|line| line.starts_with("stale: ")).count();
        }
        assert!(stale > 5, "seed {seed}: {stale}");
    }
}

#[test]
fn every_line_of_a_frame_is_what_the_model_says() {
    let (mut lines, mut seen) = (
        0,
        [
            ("free", 0),
            ("retired", 0),
            ("CURRENT", 0),
            ("stale", 0),
            ("from the start", 0),
        ],
    );
    for both in shifts("frames", 800) {
        let frames = both.turns[0].frames.len();
        for frame in (0..frames).step_by(frames / 8 + 1) {
            let word = frame.to_string();
            let due = both.frame_history(frame as u8);
            assert_eq!(both.printed("frame", &[&word]), due, "frame {frame}");
            lines += due.lines().count();
            for at in [0, 1, both.messages() / 2, both.messages()] {
                let due = both.frame_at(at, frame as u8);
                assert_eq!(
                    both.printed("frame", &[&word, "--at", &at.to_string()]),
                    due
                );
                for (words, count) in &mut seen {
                    *count += usize::from(due.contains(*words));
                }
            }
        }
    }
    assert!(lines > 1_000, "only {lines} lines were compared");
    assert!(seen.iter().all(|(_, count)| *count > 1), "{seen:?}");
}

#[test]
fn what_is_kept_is_what_the_model_leaves() {
    for both in shifts("kept", 400) {
        let file = |name: &str| both.scratch.path(name).display().to_string();
        let (tables, stores) = (file("tables-after"), file("stores-after"));
        let keep = ["--keep-tables", &tables, "--keep-stores", &stores];
        both.printed("show", &[&keep[..], &["--summary"]].concat());
        let read = |path: &str| std::fs::read(path).expect("it was written");
        assert_eq!(read(&tables), both.end.tables);
        assert_eq!(read(&stores), [&both.end.fast[..], &both.end.slow].concat());
        // Kept half way, over the files that it starts from, and then run to the end.
        let half = both.messages() / 2;
        let bytes = std::fs::read(both.scratch.path("calls")).expect("the file");
        let rest = both.scratch.file("rest", &bytes[both.length(half)..]);
        both.printed(
            "page",
            &[&["0", "--at", &half.to_string()], &keep[..]].concat(),
        );
        let start = ["--tables", &tables, "--stores", &stores];
        printed("show", &rest, &[&start[..], &keep, &["--summary"]].concat());
        assert_eq!(read(&tables), both.end.tables);
        assert_eq!(read(&stores), [&both.end.fast[..], &both.end.slow].concat());
    }
}

#[test]
fn words_give_the_same_file_back() {
    let scratch = Scratch::new("words");
    for seed in 201..206 {
        let bytes = random_file(seed, 4, 4, 500);
        let lines = printed("words", &scratch.file("calls", &bytes), &[]);
        let lines = scratch.file("lines", lines.as_bytes());
        let back = scratch.path("back");
        printed("write", &lines, &["-o", &back.display().to_string()]);
        assert_eq!(std::fs::read(back).unwrap(), bytes, "seed {seed}");
    }
}
