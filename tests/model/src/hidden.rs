//! "Contents stay hidden from placement", request [7] of document 02, checked by execution over
//! pairs of runs: the same messages from the same tables and tally, with other bytes in the writes,
//! in the stores and in the reply buffers as lent. The replies but for the data of reads, the
//! tables, the tally and all that is told beside them are the same in both; and where the tables
//! keep the rules at the start, no message is answered 5.
//!
//! A kernel is held against itself. The model's tables and calls serve to generate and to count;
//! its steps have no part in it.

use crate::compare::{
    add, answer_difference, deleted, file_in_words, first_difference, fresh_start, lent_in_words,
    tally_difference, too_seldom, Sides, LEAST,
};
use crate::forecast::FIGURES;
use crate::gen::{self, Moves, Rng};
use crate::kernel::Kernel;
use crate::model::{
    frame_bytes, message, Call, Lent, Page, Reader, Refusal, Tables, FRAME, LEAST_BUFFER, PAGES,
    STATIONS, VERSION,
};
use reel::words::{self, hex};

// ---- What may differ ----

const READ: u8 = 4;
const WRITE: u8 = 5;

/// The bytes that a message carries as a write: all behind its offset, also where it is refused.
pub fn carried(message: &[u8]) -> &[u8] {
    match message {
        [_, _, VERSION, WRITE, _, _, _, carried @ ..] => carried,
        _ => &[],
    }
}

fn carried_mut(message: &mut [u8]) -> &mut [u8] {
    let count = carried(message).len();
    let front = message.len() - count;
    &mut message[front..]
}

/// How many bytes at the end of a reply are the data of an accepted read.
fn data_read(message: &[u8], reply: &[u8]) -> usize {
    match (message, reply) {
        ([_, _, VERSION, READ, ..], [_, _, _, 0, _, _, data @ ..]) => data.len(),
        _ => 0,
    }
}

/// Which bytes of a reply buffer may differ: those that differed as lent, until a reply lies there,
/// and the data of reads.
struct Mask(Vec<bool>);

impl Mask {
    fn lent([one, other]: &[Lent; 2]) -> Mask {
        let bytes = one.out.iter().zip(&other.out);
        Mask(bytes.map(|(one, other)| one != other).collect())
    }

    /// A reply laid from a place on.
    fn lay(&mut self, from: usize, message: &[u8], reply: &[u8]) {
        let data = reply.len() - data_read(message, reply);
        let bytes = self.0.iter_mut().skip(from).take(reply.len());
        for (at, may_differ) in bytes.enumerate() {
            *may_differ = at >= data;
        }
    }

    /// What a buffer shows: the bytes that may not differ, and zeros for the others.
    fn shown(&self, out: &[u8]) -> Vec<u8> {
        let bytes = self.0.iter().zip(out);
        let shown = bytes.map(|(&may_differ, &byte)| if may_differ { 0 } else { byte });
        shown.collect()
    }
}

// ---- The check ----

/// The names of the two runs.
const RUNS: Sides = ["first run", "second run"];

/// How the two sorts of errors begin: the runs differ in what they show, or 5 is given.
pub const SHOWN: &str = "contents shown";
pub const FIVE: &str = "5 on sound tables";

/// Where tables and replies differ.
fn difference(lents: &[Lent; 2], mask: &Mask) -> String {
    let [one, other] = lents;
    let parts = [
        first_difference("tables", RUNS, &one.tables, &other.tables),
        first_difference(
            "reply buffer",
            RUNS,
            &mask.shown(&one.out),
            &mask.shown(&other.out),
        ),
    ];
    parts.into_iter().flatten().collect()
}

/// Two runs of the same messages, side by side.
struct Twins<'k> {
    kernel: &'k dyn Kernel,
    /// Whether the tables keep the rules at the start.
    is_sound: bool,
    starts: [Lent; 2],
    lents: [Lent; 2],
    files: [Vec<u8>; 2],
    /// The first run's replies.
    replies: Vec<Vec<u8>>,
}

/// What a message found, and its number.
struct Turned {
    before: [Lent; 2],
    number: u8,
}

impl Twins<'_> {
    fn new(kernel: &dyn Kernel, starts: [Lent; 2], is_sound: bool) -> Twins<'_> {
        Twins {
            kernel,
            is_sound,
            lents: starts.clone(),
            starts,
            files: Default::default(),
            replies: Vec::new(),
        }
    }

    /// The next message, at the front of some bytes for each run.
    fn turn(&mut self, bytes: [&[u8]; 2]) -> Result<Turned, String> {
        let before = self.lents.clone();
        let [one, other] = &mut self.lents;
        let answers = [
            self.kernel.answer(one, bytes[0]),
            self.kernel.answer(other, bytes[1]),
        ];
        let messages = bytes.map(|bytes| Reader::new(bytes).next().unwrap_or_default());
        let [number, length, ..] = answers[0].to_le_bytes();
        let reply = self.lents[0].out.get(..length.into()).unwrap_or_default();
        let mut mask = Mask::lent(&before);
        mask.lay(0, messages[0], reply);
        let mut difference = difference(&self.lents, &mask);
        if answers[0] != answers[1] {
            difference.insert_str(0, &answer_difference(RUNS, answers));
        }
        let on = || {
            let [one, other] = messages.map(|message| hex(&message[..message.len().min(80)]));
            format!(
                "message {}, {}\n  bytes: {one}\n  and: {other}{}",
                self.replies.len() + 1,
                words::message(messages[0]),
                lent_in_words(&before[0])
            )
        };
        self.judge(&difference, &[number], on)?;
        for (file, message) in self.files.iter_mut().zip(messages) {
            file.extend(message);
        }
        self.replies.push(reply.to_vec());
        Ok(Turned { before, number })
    }

    /// Fails where there is a difference, or where 5 is among the numbers on sound tables.
    fn judge(
        &self,
        difference: &str,
        numbers: &[u8],
        on: impl Fn() -> String,
    ) -> Result<(), String> {
        if !difference.is_empty() {
            return Err(format!("{SHOWN}: {}{difference}", on()));
        }
        if self.is_sound && numbers.contains(&Refusal::BrokenTables.number()) {
            return Err(format!("{FIVE}: {}", on()));
        }
        Ok(())
    }

    /// The files so far, run at once, part by part and forecast.
    fn whole(&self, rng: &mut Rng) -> Result<(), String> {
        self.run(&gen::tally(rng))?;
        self.forecast()?;
        let room = rng.pick(&[69, 70, 71, 140, 210, 1000]);
        self.parts(rng, room)
    }

    fn run(&self, tally: &[u32]) -> Result<(), String> {
        let mut mask = Mask::lent(&self.starts);
        for (message, reply) in Reader::new(&self.files[0]).zip(&self.replies) {
            mask.lay(0, message, reply);
        }
        let mut lents = self.starts.clone();
        let mut tallies = [tally.to_vec(), tally.to_vec()];
        for run in 0..2 {
            let (lent, tally) = (&mut lents[run], &mut tallies[run]);
            self.kernel.run(lent, &self.files[run], tally);
        }
        let mut difference = difference(&lents, &mask);
        difference += &tally_difference(RUNS, tally, [&tallies[0], &tallies[1]]);
        let last = self.replies.last().filter(|reply| !reply.is_empty());
        let number = last.and_then(|_| lents[0].out.get(3).copied());
        self.judge(&difference, number.as_slice(), || {
            format!("run of {}", self.in_words())
        })
    }

    /// The forecasts of the two files, from the tables alone.
    fn forecast(&self) -> Result<(), String> {
        let [one, other] = [0, 1].map(|run| {
            let mut figures = [0; FIGURES];
            let (tables, file) = (&self.starts[run].tables, &self.files[run]);
            (self.kernel.forecast(tables, file, &mut figures), figures)
        });
        let (number, figures) = one;
        let mut difference = String::new();
        if one != other {
            let [name, other_name] = RUNS;
            difference = format!("\n  forecasts: {name} {one:?}, {other_name} {other:?}");
        }
        let five = Refusal::BrokenTables.number();
        let counted = figures[2 + usize::from(five)] > 0;
        let numbers = [number, if counted { five } else { 0 }];
        self.judge(&difference, &numbers, || {
            format!("forecast of {}", self.in_words())
        })
    }

    /// The replies in a buffer of this length, which holds other bytes for each part.
    fn parts(&self, rng: &mut Rng, room: usize) -> Result<(), String> {
        let mut lents = self.starts.clone();
        let tally = gen::tally(rng);
        let mut tallies = [tally.clone(), tally.clone()];
        let mut at = 0;
        loop {
            lend_buffers(rng, &mut lents, room);
            let mut mask = Mask::lent(&lents);
            let reached = [0, 1].map(|run| {
                let (lent, tally) = (&mut lents[run], &mut tallies[run]);
                self.kernel.replies(lent, &self.files[run], at, tally)
            });
            let used = lents[0].out.get(..reached[0].used).unwrap_or_default();
            let (mut from, mut numbers) = (0, Vec::new());
            for (message, reply) in Reader::at(&self.files[0], at).zip(Reader::new(used)) {
                mask.lay(from, message, reply);
                from += reply.len();
                numbers.extend(reply.get(3));
            }
            let mut difference = difference(&lents, &mask);
            difference += &tally_difference(RUNS, &tally, [&tallies[0], &tallies[1]]);
            if reached[0] != reached[1] {
                let [one, other] = RUNS;
                difference += &format!("\n  {one} {:?}, {other} {:?}", reached[0], reached[1]);
            }
            self.judge(&difference, &numbers, || {
                format!(
                    "replies from {at} on in {room} bytes of {}",
                    self.in_words()
                )
            })?;
            // A part that comes no further is the last.
            if reached[0].at <= at {
                return Ok(());
            }
            at = reached[0].at;
        }
    }

    fn in_words(&self) -> String {
        file_in_words(&self.starts[0], &self.files[0])
    }
}

/// Checks two files of the same messages from two starts with the same sound tables: message by
/// message, run at once, part by part and forecast.
pub fn check_files(
    kernel: &dyn Kernel,
    starts: [Lent; 2],
    files: [&[u8]; 2],
) -> Result<(), String> {
    let mut twins = Twins::new(kernel, starts, true);
    for (one, other) in Reader::new(files[0]).zip(Reader::new(files[1])) {
        twins.turn([one, other])?;
    }
    twins.run(&[0; 3])?;
    twins.forecast()?;
    let mut rooms = [69, 70, 1000].into_iter();
    rooms.try_for_each(|room| twins.parts(&mut Rng::new(1), room))
}

// ---- Twins ----

/// Makes every byte another one: its complement, or any.
fn change_all(rng: &mut Rng, bytes: &mut [u8]) {
    let by_complement = rng.once_in(2);
    for byte in bytes {
        *byte ^= if by_complement {
            255
        } else {
            rng.within(1, 255)
        };
    }
}

/// Reply buffers of this length, which hold the same bytes or differ in every one.
fn lend_buffers(rng: &mut Rng, [one, other]: &mut [Lent; 2], room: usize) {
    one.out = rng.bytes(room);
    other.out = one.out.clone();
    if rng.once_in(2) {
        change_all(rng, &mut other.out);
    }
}

/// Two to be lent with the same tables: stores that are equal, or differ in every byte.
fn twin(rng: &mut Rng, lent: Lent) -> [Lent; 2] {
    let mut lents = [lent.clone(), lent];
    match rng.below(4) {
        0 => {}
        1 => zeros_beside(rng, &mut lents),
        _ => {
            change_all(rng, &mut lents[1].fast);
            change_all(rng, &mut lents[1].slow);
        }
    }
    let room = lents[0].out.len();
    lend_buffers(rng, &mut lents, room);
    lents
}

/// All zeros in the stores of one of the two, and no zero in those of the other.
fn zeros_beside(rng: &mut Rng, lents: &mut [Lent; 2]) {
    let [zeros, other] = lents;
    zeros.fast.fill(0);
    zeros.slow.fill(0);
    for byte in other.fast.iter_mut().chain(&mut other.slow) {
        *byte = (*byte).max(1);
    }
    if rng.once_in(2) {
        lents.swap(0, 1);
    }
}

fn is_cut(message: &[u8]) -> bool {
    Call::decode(message) == Err(Refusal::CutShort)
}

/// The message for the second run: other bytes carried, now and then those that stand there in this
/// run. One that is cut short may be any other of its length that is cut short.
fn twin_message(rng: &mut Rng, message: &[u8], tables: &Tables, lent: &Lent) -> Vec<u8> {
    let mut twin = message.to_vec();
    if is_cut(message) && rng.once_in(2) {
        recut(rng, &mut twin);
        return twin;
    }
    let stored = match Call::decode(message) {
        Ok(Call::Write {
            page,
            offset,
            bytes,
            ..
        }) => page_of(tables, page)
            .and_then(|page| gen::stored(tables, lent, page, offset.into(), bytes.len())),
        _ => None,
    };
    let carried = carried_mut(&mut twin);
    match (rng.below(6), stored) {
        (0, _) => {}
        (1, _) => carried.fill(0),
        (2, Some(stored)) => carried.copy_from_slice(&stored),
        (3, _) => rng.fill(carried),
        _ => change_all(rng, carried),
    }
    twin
}

/// Any bytes that are a message cut short.
fn recut(rng: &mut Rng, cut: &mut [u8]) {
    rng.fill(cut);
    if let [high, low, rest @ ..] = cut {
        let least = rest.len() + 1;
        let length = least + rng.below(1 + usize::from(u16::MAX) - least);
        [*high, *low] = (length as u16).to_be_bytes();
    }
}

// ---- What came up ----

/// States and events of pairs, counted message by message.
pub const EVENTS: [&str; 18] = [
    "other bytes written",
    "bytes as stored in one run only",
    "other bytes in a write refused 10",
    "other bytes in a write refused 11",
    "other bytes in a write refused 4",
    "other bytes in a write cut short",
    "another message cut short",
    "other data read",
    "a read refused 11, other contents",
    "zeros copied in one run only",
    "zeros freed in one run only",
    "zeros retired in one run only",
    "zeros looked at in one run only",
    "a look at stale copies since then",
    "a look at copies equal in one run",
    "a stale copy equal in one run",
    "a copy equal in one run set",
    "a copy equal in one run deleted",
];

/// What pairs begin with.
pub const STARTS: [&str; 5] = [
    "a pair from fresh tables",
    "a pair from other sound tables",
    "a pair on broken tables",
    "a pair with misfit stores",
    "a pair with a short buffer",
];

#[derive(Default)]
pub struct Counts {
    pub pairs: u64,
    /// Messages given to both runs.
    pub messages: u64,
    events: [u64; EVENTS.len()],
    starts: [u64; STARTS.len()],
}

impl Counts {
    /// The states and events with how often they came up.
    pub fn reached(&self) -> impl Iterator<Item = (&'static str, u64)> + '_ {
        let events = EVENTS.into_iter().zip(self.events);
        events.chain(STARTS.into_iter().zip(self.starts))
    }

    /// Those that came up too seldom.
    pub fn too_few(&self) -> Vec<String> {
        too_seldom(self.reached())
    }

    fn count_start(&mut self, start: &Lent) {
        let tables = Tables::from_raw(&start.tables);
        let is_fresh = |tables: &Tables| *tables == Tables::fresh(tables.fast, tables.slow);
        let reached = [
            tables.as_ref().is_some_and(is_fresh),
            tables.as_ref().is_some_and(|tables| !is_fresh(tables)),
            tables.is_none(),
            tables.is_some_and(|tables| !gen::stores_fit(&tables, start)),
            start.out.len() < LEAST_BUFFER,
        ];
        add(&mut self.starts, reached);
        self.pairs += 1;
    }
}

/// The page, if it stands.
fn page_of(tables: &Tables, page: u8) -> Option<&Page> {
    tables.pages.get(usize::from(page))?.as_ref()
}

/// The frames of a page's copies.
fn frames_of(tables: &Tables, page: u8) -> Vec<u8> {
    let copies = page_of(tables, page).map_or(&[][..], |page| &page.copies);
    copies.iter().filter_map(|copy| copy.frame).collect()
}

/// A message of twin runs on sound tables with stores that fit, by what each found and left.
struct Seen<'a> {
    tables: &'a Tables,
    messages: [&'a [u8]; 2],
    call: Option<Call>,
    number: u8,
    before: &'a [Lent; 2],
    after: &'a [Lent; 2],
}

/// Whether something is so in one run and not in the other.
fn in_one(is_so: impl Fn(usize) -> bool) -> bool {
    is_so(0) != is_so(1)
}

impl Seen<'_> {
    fn accepted(&self) -> Option<&Call> {
        self.call.as_ref().filter(|_| self.number == 0)
    }

    /// The call, if it was refused with this number.
    fn refused(&self, refusal: Refusal) -> Option<&Call> {
        let is_refused = self.number == refusal.number();
        self.call.as_ref().filter(|_| is_refused)
    }

    /// The bytes at a frame before the message.
    fn held(&self, run: usize, frame: u8) -> &[u8] {
        let Lent { fast, slow, .. } = &self.before[run];
        frame_bytes(self.tables, fast, slow, frame)
    }

    fn is_zeros_in_one(&self, frame: u8) -> bool {
        in_one(|run| self.held(run, frame) == [0; FRAME])
    }

    fn are_equal_in_one(&self, one: u8, other: u8) -> bool {
        in_one(|run| self.held(run, one) == self.held(run, other))
    }

    /// The page of an accepted write whose bytes stood there already in one run only.
    fn page_written_in_one(&self) -> Option<u8> {
        let Call::Write { page, .. } = *self.accepted()? else {
            return None;
        };
        let is_unchanged = |run: usize| {
            let (before, after) = (&self.before[run], &self.after[run]);
            (&before.fast, &before.slow) == (&after.fast, &after.slow)
        };
        in_one(is_unchanged).then_some(page)
    }

    fn has_read_other_data(&self) -> bool {
        let Some(Call::Read { count, .. }) = self.accepted() else {
            return false;
        };
        let [one, other] = self.after;
        let data = 6..6 + usize::from(*count);
        one.out.get(data.clone()) != other.out.get(data)
    }

    /// Whether a read found nothing current in a page whose copies hold other bytes.
    fn has_read_nothing(&self) -> bool {
        let Some(Call::Read { page, .. }) = self.refused(Refusal::NothingCurrent) else {
            return false;
        };
        let mut frames = frames_of(self.tables, *page).into_iter();
        frames.any(|frame| self.held(0, frame) != self.held(1, frame))
    }

    /// The frame that was copied.
    fn frame_copied(&self) -> Option<u8> {
        let Call::MakeCopy { page, copy, .. } = *self.accepted()? else {
            return None;
        };
        let page = page_of(self.tables, page)?;
        page.copies.get(usize::from(copy))?.frame
    }

    fn frames_freed(&self) -> Vec<u8> {
        let gone = self.accepted().map(|call| deleted(self.tables, call));
        let copies = gone.into_iter().flatten();
        copies.filter_map(|copy| copy.frame).collect()
    }

    /// The frame that was retired; none past the last one.
    fn frame_retired(&self) -> Option<u8> {
        match *self.accepted()? {
            Call::Retire { frame } => {
                Some(frame).filter(|_| usize::from(frame) < self.tables.frames())
            }
            _ => None,
        }
    }

    fn free_frame_looked_at(&self) -> Option<u8> {
        match *self.accepted()? {
            Call::LookFrame { frame } => Some(frame).filter(|_| self.tables.is_free(frame)),
            _ => None,
        }
    }

    fn page_looked_at(&self) -> Option<u8> {
        match *self.accepted()? {
            Call::LookPage { page } => Some(page),
            _ => None,
        }
    }

    /// Whether a page has stale copies.
    fn has_stale(&self, page: u8) -> bool {
        let page = page_of(self.tables, page);
        page.is_some_and(|page| page.copies.iter().any(|copy| !copy.recent))
    }

    /// Whether a page's first copy has the bytes of another one in one run only.
    fn has_copies_equal_in_one(&self, page: u8) -> bool {
        let frames = frames_of(self.tables, page);
        let mut others = frames.iter().skip(1);
        others.any(|&other| self.are_equal_in_one(frames[0], other))
    }

    /// Whether a call is of set current on a copy with the bytes of the CURRENT one in one run
    /// only.
    fn sets_equal_in_one(&self, call: Option<&Call>) -> bool {
        let Some(&Call::SetCurrent { page, copy }) = call else {
            return false;
        };
        let page = page_of(self.tables, page);
        let frames = page.and_then(|page| {
            let set = page.copies.get(usize::from(copy))?.frame?;
            Some((*page.current_frames().first()?, set))
        });
        frames.is_some_and(|(current, set)| self.are_equal_in_one(current, set))
    }

    /// Whether a copy was deleted that had the bytes of another one in one run only.
    fn has_deleted_equal_in_one(&self) -> bool {
        let Some(&Call::DeleteCopy { page, .. }) = self.accepted() else {
            return false;
        };
        let frames = frames_of(self.tables, page);
        let mut freed = self.frames_freed().into_iter();
        freed.any(|gone| {
            frames
                .iter()
                .any(|&other| self.are_equal_in_one(gone, other))
        })
    }

    /// Which of `EVENTS` the message reached. Marked are the pages with a write whose bytes stood
    /// there already in one run only.
    fn reached(&self, marked: &[bool; 256]) -> [bool; EVENTS.len()] {
        let [one, other] = self.messages;
        let carries_other = carried(one) != carried(other);
        let is_refused = |refusal: Refusal| self.number == refusal.number();
        let is_zeros_in_one = |frame: u8| self.is_zeros_in_one(frame);
        let looked_at = self.page_looked_at();
        [
            carries_other && self.number == 0,
            self.page_written_in_one().is_some(),
            carries_other && is_refused(Refusal::NoRight),
            carries_other && is_refused(Refusal::NothingCurrent),
            carries_other && is_refused(Refusal::WrongLength),
            carries_other && is_refused(Refusal::CutShort),
            carried(one).is_empty() && one != other && is_refused(Refusal::CutShort),
            self.has_read_other_data(),
            self.has_read_nothing(),
            self.frame_copied().is_some_and(is_zeros_in_one),
            self.frames_freed().into_iter().any(is_zeros_in_one),
            self.frame_retired().is_some_and(is_zeros_in_one),
            self.free_frame_looked_at().is_some_and(is_zeros_in_one),
            looked_at.is_some_and(|page| marked[usize::from(page)] && self.has_stale(page)),
            looked_at.is_some_and(|page| self.has_copies_equal_in_one(page)),
            self.sets_equal_in_one(self.refused(Refusal::Stale)),
            self.sets_equal_in_one(self.accepted()),
            self.has_deleted_equal_in_one(),
        ]
    }
}

// ---- Pairs of files ----

/// Checks pairs of files, at least so many messages of each; an error tells the first difference.
pub fn check(kernel: &dyn Kernel, seed: u64, messages: u64) -> Result<Counts, String> {
    let mut pairs = Pairs::new(kernel, seed);
    pairs.files_with_every_event()?;
    pairs.sweep()?;
    while pairs.counts.messages < messages {
        pairs.trial()?;
    }
    Ok(pairs.counts)
}

/// Checks the pairs alone that every check begins with.
pub fn check_events(kernel: &dyn Kernel, seed: u64) -> Result<Counts, String> {
    let mut pairs = Pairs::new(kernel, seed);
    pairs.files_with_every_event()?;
    Ok(pairs.counts)
}

struct Pairs<'k> {
    kernel: &'k dyn Kernel,
    rng: Rng,
    counts: Counts,
}

/// A pair of files in the making.
struct Pair<'k> {
    twins: Twins<'k>,
    /// The pages with a write whose bytes stood there already in one run only.
    marked: [bool; 256],
}

impl<'k> Pair<'k> {
    fn new(kernel: &'k dyn Kernel, starts: [Lent; 2], is_sound: bool) -> Pair<'k> {
        Pair {
            twins: Twins::new(kernel, starts, is_sound),
            marked: [false; 256],
        }
    }
}

impl Pairs<'_> {
    fn new(kernel: &dyn Kernel, seed: u64) -> Pairs<'_> {
        Pairs {
            kernel,
            rng: Rng::new(seed),
            counts: Counts::default(),
        }
    }

    /// The next message of a pair, now and then with other bytes behind it in each run.
    fn turn(&mut self, pair: &mut Pair, messages: [&[u8]; 2]) -> Result<(), String> {
        let mut bytes = messages.map(<[u8]>::to_vec);
        if !is_cut(messages[0]) && self.rng.once_in(4) {
            for bytes in &mut bytes {
                bytes.extend(self.rng.bytes(8));
            }
        }
        let room = pair.twins.lents[0].out.len();
        lend_buffers(&mut self.rng, &mut pair.twins.lents, room);
        let Turned { before, number } = pair.twins.turn([&bytes[0], &bytes[1]])?;
        self.counts.messages += 1;
        let tables = Tables::from_raw(&before[0].tables);
        let Some(tables) = tables.filter(|tables| gen::stores_fit(tables, &before[0])) else {
            return Ok(());
        };
        let seen = Seen {
            tables: &tables,
            messages,
            call: Call::decode(messages[0]).ok(),
            number,
            before: &before,
            after: &pair.twins.lents,
        };
        add(&mut self.counts.events, seen.reached(&pair.marked));
        if let Some(page) = seen.page_written_in_one() {
            pair.marked[usize::from(page)] = true;
        }
        if let Some(Call::DeletePage { page, .. }) = seen.accepted() {
            pair.marked[usize::from(*page)] = false;
        }
        Ok(())
    }

    /// The messages of the first run, each with a twin of it for the second.
    fn turns(&mut self, pair: &mut Pair, bytes: &[u8]) -> Result<(), String> {
        for message in Reader::new(bytes) {
            let [one, other] = &pair.twins.lents;
            let twin = twin_message(&mut self.rng, message, &gen::tables_of(one), other);
            self.turn(pair, [message, &twin])?;
        }
        Ok(())
    }

    /// Files that come to every state and event, as often as these must come up, so that no floor
    /// hangs on the seed; and to every number, and every kind on shaped tables.
    fn files_with_every_event(&mut self) -> Result<(), String> {
        for _ in 0..LEAST {
            for of_write in [true, false] {
                let start = gen::roomy(&mut self.rng);
                let (fast, slow) = (start.tables[0], start.tables[1]);
                let mut messages = messages_with_every_event(&mut self.rng, fast, slow);
                messages.push(cut_ends(&mut self.rng, of_write));
                self.hindered_and_not(&start, |pairs, pair| {
                    let mut messages = messages.iter();
                    messages.try_for_each(|[one, other]| pairs.turn(pair, [one, other]))
                })?;
            }
            let start = gen::roomy(&mut self.rng);
            let file = gen::deep_file(&mut self.rng, start.tables[0], start.tables[1]);
            let starts = twin(&mut self.rng, start);
            self.file(starts, true, |pairs, pair| pairs.turns(pair, &file))?;
            let start = gen::shaped(&mut self.rng);
            let calls = gen::shaped_calls(&mut self.rng);
            // Copy 2 is CURRENT, and this one MOST RECENT.
            let set = Call::SetCurrent { page: 2, copy: 1 };
            let file: Vec<u8> = calls.iter().chain([&set]).flat_map(Call::encode).collect();
            self.hindered_and_not(&start, |pairs, pair| pairs.turns(pair, &file))?;
        }
        Ok(())
    }

    /// A pair of files from sound tables, where the stores are zeros in one run only; and with each
    /// hindrance.
    fn hindered_and_not(
        &mut self,
        start: &Lent,
        turns: impl Fn(&mut Self, &mut Pair) -> Result<(), String>,
    ) -> Result<(), String> {
        let mut zeros = [start.clone(), start.clone()];
        zeros_beside(&mut self.rng, &mut zeros);
        self.file(zeros, true, &turns)?;
        for hindered in gen::hindered(&mut self.rng, start) {
            let is_sound = hindered.tables == start.tables;
            let starts = twin(&mut self.rng, hindered);
            self.file(starts, is_sound, &turns)?;
        }
        Ok(())
    }

    /// A pair of files by its turns, and then at once.
    fn file(
        &mut self,
        starts: [Lent; 2],
        is_sound: bool,
        turns: impl FnOnce(&mut Self, &mut Pair) -> Result<(), String>,
    ) -> Result<(), String> {
        self.counts.count_start(&starts[0]);
        let mut pair = Pair::new(self.kernel, starts, is_sound);
        turns(self, &mut pair)?;
        pair.twins.whole(&mut self.rng)
    }

    /// Every sort of message on shaped tables, each from the same state.
    fn sweep(&mut self) -> Result<(), String> {
        let start = gen::shaped(&mut self.rng);
        let starts = twin(&mut self.rng, start);
        for message in gen::shaped_sweep(&mut self.rng) {
            let mut pair = Pair::new(self.kernel, starts.clone(), true);
            self.turns(&mut pair, &message)?;
        }
        Ok(())
    }

    /// A pair of files from fresh tables, from other sound ones, or with some hindrance.
    fn trial(&mut self) -> Result<(), String> {
        let rng = &mut self.rng;
        let mut start = match rng.below(8) {
            0..=3 => fresh_start(self.kernel, rng),
            4 => gen::shaped(rng),
            _ => gen::lawful(rng),
        };
        let sound = start.tables.clone();
        let mut length = rng.pick(&[3, 30, 100, 300]);
        if rng.once_in(4) {
            gen::hinder(rng, &mut start);
            length = 12;
        }
        let is_sound = start.tables == sound;
        let starts = twin(rng, start);
        if rng.once_in(8) {
            let file = gen::nonsense(rng);
            return self.file(starts, is_sound, |pairs, pair| pairs.turns(pair, &file));
        }
        let mut moves = Moves::new(rng);
        self.file(starts, is_sound, |pairs, pair| {
            (1..=length).try_for_each(|turn| {
                let one = &pair.twins.lents[0];
                let (tables, is_last) = (gen::tables_of(one), turn == length);
                let message = moves.next(&mut pairs.rng, &tables, one, is_last);
                pairs.turns(pair, &message)
            })
        })
    }
}

/// The messages of a pair of files for `roomy` tables with stores that are zeros in one run only,
/// which come to every event but those of a cut end and that of a copy set CURRENT: from fresh
/// tables all MOST RECENT copies of a page are equal. Page, stations, frames and bytes are drawn.
fn messages_with_every_event(rng: &mut Rng, fast: u8, slow: u8) -> Vec<[Vec<u8>; 2]> {
    let page = rng.within(0, PAGES as u8 - 1);
    let stations = rng.shuffled(STATIONS as u8);
    let frames = rng.shuffled(fast + slow);
    let (station, guest) = (stations[0], stations[1]);
    let within = rng.within(0, FRAME as u8 - 1);
    let offset = rng.pick(&[0, within]);
    let byte = rng.within(1, 255);
    // The longest makes a message of the greatest L.
    let length = rng.pick(&[FRAME + 1, FRAME + 1, 255, usize::from(u16::MAX) - 5]);
    let too_long = rng.bytes(length);
    let mut other_too_long = too_long.clone();
    change_all(rng, &mut other_too_long);

    let same = |call: Call| [call.encode(), call.encode()];
    let write = |station, bytes: [&[u8]; 2]| {
        let arguments = bytes.map(|bytes| [&[station, page, offset], bytes].concat());
        arguments.map(|arguments| message(VERSION, WRITE, &arguments))
    };
    let zero_or_not = |station| write(station, [&[0], &[byte]]);
    let read = || {
        same(Call::Read {
            station,
            page,
            offset,
            count: 1,
        })
    };
    let copy_to = |frame| {
        same(Call::MakeCopy {
            page,
            copy: 0,
            frame,
        })
    };
    let set_current = |copy| same(Call::SetCurrent { page, copy });
    let look = || same(Call::LookPage { page });
    vec![
        same(Call::LookFrame { frame: frames[0] }),
        same(Call::Retire { frame: frames[0] }),
        same(Call::Retire { frame: fast + slow }),
        same(Call::Create { station, page }),
        zero_or_not(station),
        copy_to(frames[1]),
        copy_to(frames[2]),
        set_current(0),
        // The first run writes the zero that stands there already; copy 1 is stale in both.
        zero_or_not(station),
        look(),
        set_current(1),
        read(),
        copy_to(frames[3]),
        same(Call::DeleteCopy { page, copy: 2 }),
        same(Call::DeleteCopy { page, copy: 1 }),
        zero_or_not(guest),
        write(station, [&too_long, &other_too_long]),
        same(Call::Grant {
            station,
            page,
            other: guest,
            right: 0,
        }),
        same(Call::RemoveCurrent { page, copy: 0 }),
        read(),
        same(Call::DeletePage { station, page }),
        look(),
    ]
}

/// The end of a pair of files: a write cut short that carries other bytes, or any two messages of
/// one length cut short.
fn cut_ends(rng: &mut Rng, of_write: bool) -> [Vec<u8>; 2] {
    let mut end = match of_write {
        true => message(VERSION, WRITE, &rng.bytes(3 + FRAME)),
        false => Call::LookPage { page: 0 }.encode(),
    };
    end.pop();
    let mut other = end.clone();
    match of_write {
        true => change_all(rng, carried_mut(&mut other)),
        false => recut(rng, &mut other),
    }
    [end, other]
}
