//! The comparison of a kernel with the model, on every call and every byte.

use crate::clean::Clean;
use crate::exchange::Turns;
use crate::flat::Demand3;
use crate::forecast::{self, Course, Forecast, FIGURES};
use crate::frames::Frames;
use crate::gen::{self, Moves, Rng, BUFFERS, DAMAGES, SHORT_BUFFERS};
use crate::history::{self, History};
use crate::kernel::{packed, Kernel, Modelled};
use crate::model::{
    self, frame_bytes, Call, Lent, Page, PageCopy, Reached, Reader, Refusal, Tables, ENTRIES,
    FRAME, LEAST_BUFFER, RAW, RECORD, REGISTER,
};
use reel::words::{self, hex, WORDS};
use std::fmt::Display;

/// Each number, and each other case that is counted, must come up this often.
pub const LEAST: u64 = 100;

/// States and events that a run should reach, counted message by message.
pub const DEPTHS: [&str; 26] = [
    "eight copies",
    "stale copies",
    "several current copies",
    "all frames held",
    "owner's right lowered",
    "frames used anew",
    "pages used anew",
    "fast frames freed by delete copy",
    "slow frames freed by delete copy",
    "a page of several frames deleted",
    "a page in both stores deleted",
    "a page of eight frames deleted",
    "a null copy's page deleted",
    "a frame of zeros freed",
    "a delete refused",
    "a free fast frame retired",
    "a free slow frame retired",
    "a frame that was held retired",
    "a retired frame retired again",
    "a retire of a held frame refused",
    "a look at a retired frame",
    "a copy to a retired frame refused",
    "a null copy to one refused",
    "a ninth copy to one refused",
    "a page deleted beside one",
    "no frame free, some retired",
];

/// The same of rights: those of reads and writes, and pages whose rights are as a create or the
/// fifteen grants of right 0 leave them.
pub const RIGHTS: [&str; 9] = [
    "a read with right 0",
    "a read with right 1",
    "a write with right 0",
    "a write with right 1",
    "a page as created read by another",
    "a new page closed by grants",
    "a closed page read by its owner",
    "a closed page read by another",
    "a create on a closed page",
];

#[derive(Default)]
pub struct Counts {
    pub messages: u64,
    /// How often each number was given: 19 by fresh tables, the others by answers.
    pub numbers: [u64; WORDS.len()],
    pub depths: [u64; DEPTHS.len()],
    pub rights: [u64; RIGHTS.len()],
    /// What came up of copies by the writes that they carry.
    pub histories: [u64; history::EVENTS.len()],
    /// Whole files run, those of them on which demand 3, the clean cards and the histories of pages were
    /// checked, and those on which the three sorts of frames were.
    pub runs: u64,
    pub runs_from_fresh: u64,
    pub runs_from_sound: u64,
    /// Calls that keep the replies of a part of a file.
    pub parts: u64,
    pub forecasts: forecast::Counts,
    /// Messages written again, and replies read back.
    pub turns: Turns,
}

impl Counts {
    /// The states and events with how often they came up.
    pub fn reached(&self) -> impl Iterator<Item = (&'static str, u64)> + '_ {
        let depths = DEPTHS.into_iter().zip(self.depths);
        let reached = depths.chain(RIGHTS.into_iter().zip(self.rights));
        let reached = reached.chain(history::EVENTS.into_iter().zip(self.histories));
        reached.chain(self.forecasts.reached())
    }

    /// The numbers, states and events that came up too seldom.
    pub fn too_few(&self) -> Vec<String> {
        let numbers = WORDS.into_iter().zip(self.numbers);
        too_seldom(numbers.chain(self.reached()))
    }
}

/// Of some cases, each with how often it came up, those that came up too seldom.
pub(crate) fn too_seldom<Word: Display>(
    cases: impl IntoIterator<Item = (Word, u64)>,
) -> Vec<String> {
    let few = cases.into_iter().filter(|(_, count)| *count < LEAST);
    few.map(|(word, count)| format!("\"{word}\" came up {count} times only"))
        .collect()
}

/// Compares the kernel with the model on at least so many messages; an error tells the first
/// difference.
pub fn compare(kernel: &dyn Kernel, seed: u64, messages: u64) -> Result<Counts, String> {
    let mut compare = Compare {
        kernel,
        rng: Rng::new(seed),
        limit: messages,
        counts: Counts::default(),
    };
    compare.sweeps()?;
    compare.fresh_tables()?;
    compare.deep_files()?;
    while compare.counts.messages < messages {
        compare.trial()?;
    }
    Ok(compare.counts)
}

struct Compare<'k> {
    kernel: &'k dyn Kernel,
    rng: Rng,
    limit: u64,
    counts: Counts,
}

impl Compare<'_> {
    // ---- Single calls ----

    /// `reel_fresh` with every P and S, and with buffers of wrong lengths.
    fn fresh_tables(&mut self) -> Result<(), String> {
        for sizes in 0..=u16::MAX {
            let [fast, slow] = sizes.to_be_bytes();
            let length = match self.rng.below(64) {
                0 => self
                    .rng
                    .pick(&[0, 1, 2, REGISTER, RAW - 1, RAW + 1, 2 * RAW]),
                _ => RAW,
            };
            let mut by_kernel = self.rng.bytes(length);
            let mut by_model = by_kernel.clone();
            let number = self.kernel.fresh(fast, slow, &mut by_kernel);
            let due = Modelled.fresh(fast, slow, &mut by_model);
            if number != due || by_kernel != by_model {
                return Err(format!(
                    "fresh tables of P {fast}, S {slow} in {length} bytes: number {number}, \
                     by the model {due}{}",
                    first_difference("tables", BESIDE, &by_kernel, &by_model).unwrap_or_default()
                ));
            }
            if number == Refusal::TooManyFrames.number() {
                self.counts.numbers[usize::from(number)] += 1;
            }
        }
        Ok(())
    }

    /// Now and then the test of the tables, and the message as a read that needs no reply buffer.
    fn looks(&mut self, lent: &Lent, bytes: &[u8]) -> String {
        let mut difference = String::new();
        if self.rng.once_in(8) {
            let (given, due) = (self.kernel.rules(lent), Modelled.rules(lent));
            if given != due {
                difference += &format!("\n  test of the tables: kernel {given}, model {due}");
            }
        }
        if let [_, _, 1, 4, station, page, offset, count] = *bytes {
            let arguments = [station, page, offset, count];
            let given = self.kernel.read(lent, arguments);
            let due = Modelled.read(lent, arguments);
            if given != due {
                let [given, due] = [given, due].map(place_in_words);
                difference += &format!("\n  place of the read: kernel {given}; model {due}");
            }
        }
        difference
    }

    /// One message's bytes given to kernel and model; what the kernel left.
    fn answer(&mut self, lent: &Lent, bytes: &[u8]) -> Result<Lent, String> {
        let mut by_kernel = lent.clone();
        let mut by_model = lent.clone();
        let given = self.kernel.answer(&mut by_kernel, bytes);
        let answer = model::answer(&mut by_model, bytes);
        let due = packed(answer);
        self.counts.messages += 1;
        self.counts.numbers[usize::from(answer.number)] += 1;
        let mut difference = difference(&by_kernel, &by_model);
        if given != due {
            difference.insert_str(0, &answer_difference(BESIDE, [given, due]));
        }
        difference += &self.looks(lent, bytes);
        let is_refused = given.to_le_bytes()[0] != 0;
        if is_refused && is_changed(lent, &by_kernel) {
            difference.push_str("\n  a refused message changed the tables or a store");
        }
        if difference.is_empty() {
            let (turns, out) = (&mut self.counts.turns, &by_kernel.out);
            if let Err(error) = turns.check(self.kernel, bytes, out, answer.length) {
                difference = format!("\n  {error}");
            }
        }
        if difference.is_empty() {
            return Ok(by_kernel);
        }
        Err(format!(
            "message {}, {}\n  bytes: {}{}{difference}",
            self.counts.messages,
            words::message(bytes),
            hex(&bytes[..bytes.len().min(80)]),
            lent_in_words(lent)
        ))
    }

    /// A whole file given to kernel and model, to be run and forecast; what the kernel's run left.
    fn run(&mut self, lent: &Lent, file: &[u8]) -> Result<Lent, String> {
        let tally = gen::tally(&mut self.rng);
        let (mut kernels, mut models) = (tally.clone(), tally.clone());
        let mut by_kernel = lent.clone();
        let mut by_model = lent.clone();
        self.kernel.run(&mut by_kernel, file, &mut kernels);
        Modelled.run(&mut by_model, file, &mut models);
        self.counts.runs += 1;
        let mut difference = difference(&by_kernel, &by_model);
        difference += &tally_difference(BESIDE, &tally, [&kernels, &models]);
        if difference.is_empty() {
            self.forecast(lent, file)?;
            return Ok(by_kernel);
        }
        Err(format!("run of {}{difference}", file_in_words(lent, file)))
    }

    /// The forecast of a file by kernel and model, and where it can be run on the stores lent the tally
    /// that the kernel's run leaves from zeros.
    fn forecast_into(&mut self, room: Vec<u32>, lent: &Lent, file: &[u8]) -> Result<(), String> {
        let course = Course::from_tables(&lent.tables, file);
        let forecast = course.as_ref().map(Forecast::of);
        self.counts.forecasts.count(course.as_ref(), room.len());
        let (mut given, mut due) = (room.clone(), room);
        let number = self.kernel.forecast(&lent.tables, file, &mut given);
        let due_number = forecast::tell(forecast.clone(), &mut due);
        let mut difference = String::new();
        if (number, &given) != (due_number, &due) {
            difference =
                format!("\n  forecast: kernel {number} {given:?}\n  model {due_number} {due:?}");
        }
        let is_run = Modelled.rules(lent) == 0 && lent.out.len() >= LEAST_BUFFER;
        if let Some(forecast) = forecast.filter(|_| is_run) {
            let mut tally = [0; 3];
            self.kernel.run(&mut lent.clone(), file, &mut tally);
            difference += &tally_difference(FORETOLD, &[0; 3], [&tally, &forecast.tally()]);
        }
        match difference.is_empty() {
            true => Ok(()),
            false => Err(format!(
                "forecast of {}{difference}",
                file_in_words(lent, file)
            )),
        }
    }

    /// The same with figures of any length.
    fn forecast(&mut self, lent: &Lent, file: &[u8]) -> Result<(), String> {
        let room = gen::figures(&mut self.rng);
        self.forecast_into(room, lent, file)
    }

    /// A file from a place on given to kernel and model, its replies kept: where they came to.
    /// What the kernel left is in `lent` and in `tally`.
    fn part(
        &mut self,
        lent: &mut Lent,
        file: &[u8],
        at: usize,
        tally: &mut Vec<u32>,
    ) -> Result<Reached, String> {
        let (mut kernels, mut models) = (tally.clone(), tally.clone());
        let mut by_kernel = lent.clone();
        let mut by_model = lent.clone();
        let given = self.kernel.replies(&mut by_kernel, file, at, &mut kernels);
        let due = Modelled.replies(&mut by_model, file, at, &mut models);
        self.counts.parts += 1;
        let mut difference = difference(&by_kernel, &by_model);
        difference += &tally_difference(BESIDE, tally, [&kernels, &models]);
        if given != due {
            difference += &format!("\n  kernel {given:?}, model {due:?}");
        }
        if difference.is_empty() {
            *lent = by_kernel;
            *tally = kernels;
            return Ok(given);
        }
        Err(format!(
            "replies from {at} on of {}{difference}",
            file_in_words(lent, file)
        ))
    }

    /// All replies of a file, part after part in a buffer of this length, which is emptied
    /// between. Gives what the kernel left, and the replies.
    fn parts(&mut self, start: &Lent, file: &[u8], room: usize) -> Result<(Lent, Vec<u8>), String> {
        let mut lent = start.clone();
        let mut tally = gen::tally(&mut self.rng);
        let (mut replies, mut at) = (Vec::new(), 0);
        loop {
            lent.out = self.rng.bytes(room);
            let reached = self.part(&mut lent, file, at, &mut tally)?;
            replies.extend(&lent.out[..reached.used]);
            if reached.at >= file.len() {
                return Ok((lent, replies));
            }
            if reached.at <= at {
                return Err(format!(
                    "replies from {at} on come no further than {reached:?}"
                ));
            }
            at = reached.at;
        }
    }

    // ---- Sweeps ----

    /// Every sort of message on shaped tables, every hindrance with every kind of message.
    fn sweeps(&mut self) -> Result<(), String> {
        let lent = gen::shaped(&mut self.rng);
        for message in gen::shaped_sweep(&mut self.rng) {
            self.answer(&lent, &message)?;
        }
        let zeros = Lent {
            fast: vec![0; lent.fast.len()],
            slow: vec![0; lent.slow.len()],
            ..lent.clone()
        };
        for lent in [&lent, &zeros] {
            for message in gen::shaped_deletes() {
                self.answer(lent, &message)?;
                self.run(lent, &message)?;
            }
        }
        for length in SHORT_BUFFERS.into_iter().chain(BUFFERS) {
            let out = self.rng.bytes(length);
            self.every_kind(&Lent {
                out,
                ..lent.clone()
            })?;
        }
        for (name, damage) in DAMAGES {
            let named = |difference| format!("damage: {name}\n{difference}");
            for _ in 0..8 {
                let mut damaged = lent.clone();
                damage(&mut self.rng, &mut damaged);
                self.every_kind(&damaged).map_err(named)?;
            }
        }
        for doubled in gen::doubled(&lent) {
            let calls = gen::shaped_calls(&mut self.rng);
            let call = self.rng.pick(&calls);
            self.answer(&doubled, &call.encode())?;
        }
        for at in 0..RAW {
            let mut damaged = lent.clone();
            damaged.tables[at] ^= self.rng.within(1, 255);
            if at < REGISTER {
                gen::register_anew(&mut damaged.tables);
            }
            let calls = gen::shaped_calls(&mut self.rng);
            let call = self.rng.pick(&calls);
            self.answer(&damaged, &call.encode())?;
        }
        for flipped in gen::flipped_marks(&lent) {
            let calls = gen::shaped_calls(&mut self.rng);
            let call = self.rng.pick(&calls).encode();
            self.answer(&flipped, &call)?;
            self.run(&flipped, &call)?;
            self.run(&flipped, &[])?;
        }
        for _ in 0..64 {
            let mut hindered = lent.clone();
            match self.rng.below(4) {
                0 => gen::misfit_tables(&mut self.rng, &mut hindered),
                1 => gen::odd_marks(&mut self.rng, &mut hindered),
                _ => gen::misfit(&mut self.rng, &mut hindered),
            }
            self.every_kind(&hindered)?;
        }
        Ok(())
    }

    /// A call of every kind, a broken and a cut message, one by one and as a file.
    fn every_kind(&mut self, lent: &Lent) -> Result<(), String> {
        let calls = gen::shaped_calls(&mut self.rng);
        let mut messages: Vec<Vec<u8>> = calls.iter().map(Call::encode).collect();
        messages.push(vec![0, 0]);
        messages.push(vec![0, 3, 1, 1, 0]);
        messages.push(gen::cut(&mut self.rng, &calls[0].encode()));
        for message in &messages {
            self.answer(lent, message)?;
        }
        self.answer(lent, &[])?;
        let file = messages.concat();
        for file in [&[], &file[..]] {
            self.run(lent, file)?;
            for at in [0, 1, file.len(), file.len() + 1, usize::MAX] {
                let mut tally = gen::tally(&mut self.rng);
                self.part(&mut lent.clone(), file, at, &mut tally)?;
            }
        }
        Ok(())
    }

    // ---- Trials ----

    /// Files that come to every depth and every number, as often as these must come up: no floor hangs
    /// on the seed. At last a long one is forecast.
    fn deep_files(&mut self) -> Result<(), String> {
        for _ in 0..LEAST {
            let start = gen::roomy(&mut self.rng);
            let file = gen::deep_file(&mut self.rng, start.tables[0], start.tables[1]);
            for hindered in gen::hindered(&mut self.rng, &start) {
                self.answer(&hindered, &file)?;
            }
            let mut trial = Trial::from_fresh(start);
            self.turns(&mut trial, &file)?;
            self.whole_run(&trial)?;
            self.forecasts(&trial)?;
        }
        let start = gen::roomy(&mut self.rng);
        let file = gen::long_file(&mut self.rng);
        self.forecast_into(vec![0; FIGURES], &start, &file)
    }

    /// Forecasts from the states that a trial begins and ends with: of no message, of its file cut short
    /// and on broken tables; of copies and deletes, and of deletes alone.
    fn forecasts(&mut self, trial: &Trial) -> Result<(), String> {
        let [_, broken, _] = gen::hindered(&mut self.rng, &trial.start);
        self.forecast(&broken, &trial.file)?;
        self.forecast(&broken, &[])?;
        self.forecast(&trial.start, &[])?;
        let cut = self.rng.below(trial.file.len());
        self.forecast(&trial.start, &trial.file[..cut])?;
        let [copies, deletes] = gen::copies_and_deletes(&mut self.rng, &trial.lent);
        self.forecast(&trial.lent, &copies)?;
        self.forecast(&trial.lent, &[&copies[..], &deletes].concat())?;
        let copied = self.run(&trial.lent, &copies)?;
        self.forecast(&copied, &deletes)
    }

    /// One whole file, message by message and then at once.
    fn trial(&mut self) -> Result<(), String> {
        let rng = &mut self.rng;
        match rng.below(16) {
            0..=9 => {
                let start = fresh_start(self.kernel, rng);
                let length = self.rng.pick(&[0, 3, 30, 300, 1500]);
                self.moves(Trial::from_fresh(start), length)
            }
            10 | 11 => {
                let start = fresh_start(self.kernel, rng);
                let file = gen::nonsense(&mut self.rng);
                let mut trial = Trial::from_fresh(start);
                self.turns(&mut trial, &file)?;
                self.whole_run(&trial)
            }
            12 | 13 => {
                let start = gen::lawful(rng);
                let length = rng.pick(&[10, 100]);
                self.moves(Trial::new(start), length)
            }
            _ => {
                let mut start = match rng.below(2) {
                    0 => gen::shaped(rng),
                    _ => gen::lawful(rng),
                };
                gen::hinder(rng, &mut start);
                let length = rng.below(12);
                self.moves(Trial::new(start), length)
            }
        }
    }

    fn moves(&mut self, mut trial: Trial, length: usize) -> Result<(), String> {
        let mut moves = Moves::new(&mut self.rng);
        for turn in 0..length {
            if self.counts.messages >= self.limit {
                break;
            }
            let tables = gen::tables_of(&trial.lent);
            let last = turn + 1 == length;
            let bytes = moves.next(&mut self.rng, &tables, &trial.lent, last);
            self.turns(&mut trial, &bytes)?;
        }
        self.whole_run(&trial)
    }

    /// The next messages of a trial.
    fn turns(&mut self, trial: &mut Trial, bytes: &[u8]) -> Result<(), String> {
        for message in Reader::new(bytes) {
            if self.rng.once_in(12) {
                self.probe(&trial.lent, message)?;
            }
            let mut bytes = message.to_vec();
            let is_cut = Call::decode(message) == Err(Refusal::CutShort);
            if !is_cut && self.rng.once_in(4) {
                let past = self.rng.below(9);
                bytes.extend(self.rng.bytes(past));
            }
            self.rng.fill(&mut trial.lent.out);
            let (before, lent) = (gen::tables_of(&trial.lent), trial.lent.clone());
            trial.lent = self.answer(&lent, &bytes)?;
            trial.file.extend(message);
            trial.replies.extend(reply_in(&trial.lent.out));
            if let Some(frames) = &mut trial.frames {
                let checked = frames.turn(&lent, &trial.lent);
                checked.map_err(|error| format!("{}\n  {error}", words::message(message)))?;
            }
            let after = gen::tables_of(&trial.lent);
            if let Some(promises) = &mut trial.promises {
                let reply = reply_in(&trial.lent.out);
                let number = reply[3];
                let Promises {
                    demand3,
                    clean,
                    history,
                } = promises;
                history.count(&mut self.counts.histories, message, number);
                let checked = demand3.turn(&before, message, reply);
                let checked =
                    checked.and_then(|()| history.turn(self.kernel, message, reply, &trial.lent));
                checked.map_err(|error| format!("{}\n  {error}", words::message(message)))?;
                clean.turn(&after);
                trial.reach(&mut self.counts, &before, &lent, message, number);
            }
        }
        Ok(())
    }

    /// A message with some hindrance, or cut short; the trial does not go on from it.
    fn probe(&mut self, lent: &Lent, message: &[u8]) -> Result<(), String> {
        if self.rng.once_in(4) && message.len() > 2 {
            let cut = gen::cut(&mut self.rng, message);
            self.answer(lent, &cut)?;
        } else {
            let mut hindered = lent.clone();
            gen::hinder(&mut self.rng, &mut hindered);
            self.answer(&hindered, message)?;
        }
        Ok(())
    }

    /// The file of a trial run at once and part by part, which must come to the same end.
    fn whole_run(&mut self, trial: &Trial) -> Result<(), String> {
        let end = self.run(&trial.start, &trial.file)?;
        if is_changed(&trial.lent, &end) {
            return Err("a run came to another end than its messages one by one".into());
        }
        self.whole_replies(trial)?;
        self.counts.runs_from_sound += u64::from(trial.frames.is_some());
        if let Some(promises) = &trial.promises {
            self.counts.runs_from_fresh += 1;
            let tables = Tables::from_raw(&end.tables).ok_or("a run left broken tables")?;
            promises.demand3.end(&tables, &end.fast, &end.slow)?;
            promises.clean.end(&tables, &end.fast, &end.slow)?;
            promises.history.end(self.kernel, &end)?;
        }
        Ok(())
    }

    /// The replies of a trial's file part by part, and from some place on.
    fn whole_replies(&mut self, trial: &Trial) -> Result<(), String> {
        let length = trial.replies.len();
        let lengths = [
            69,
            70,
            71,
            139,
            140,
            210,
            1000,
            length.max(LEAST_BUFFER),
            length + LEAST_BUFFER,
        ];
        let room = self.rng.pick(&lengths);
        let (end, replies) = self.parts(&trial.start, &trial.file, room)?;
        if room >= LEAST_BUFFER && trial.start.out.len() >= LEAST_BUFFER {
            if is_changed(&trial.lent, &end) {
                return Err(format!("parts in {room} bytes came to another end"));
            }
            if replies != trial.replies {
                return Err(format!(
                    "parts in {room} bytes are other replies than the run's"
                ));
            }
        }
        let at = self.rng.below(trial.file.len() + 3);
        let mut lent = Lent {
            out: self.rng.bytes(room),
            ..trial.start.clone()
        };
        let mut tally = gen::tally(&mut self.rng);
        self.part(&mut lent, &trial.file, at, &mut tally).map(drop)
    }
}

/// Fresh tables of a kernel.
pub(crate) fn fresh_start(kernel: &dyn Kernel, rng: &mut Rng) -> Lent {
    let mut start = gen::fresh(rng);
    let (fast, slow) = (start.tables[0], start.tables[1]);
    rng.fill(&mut start.tables);
    kernel.fresh(fast, slow, &mut start.tables);
    start
}

/// What is checked of a run from fresh tables.
struct Promises {
    demand3: Demand3,
    clean: Clean,
    history: History,
}

/// A whole file in the making.
struct Trial {
    start: Lent,
    lent: Lent,
    file: Vec<u8>,
    /// The replies to it, one behind the other.
    replies: Vec<u8>,
    /// For a run from fresh tables.
    promises: Option<Promises>,
    /// For a run on sound tables.
    frames: Option<Frames>,
    frames_used: [bool; 256],
    pages_used: [bool; 256],
}

impl Trial {
    fn new(start: Lent) -> Trial {
        Trial {
            lent: start.clone(),
            frames: Tables::from_raw(&start.tables).map(|_| Frames::start(&start)),
            start,
            file: Vec::new(),
            replies: Vec::new(),
            promises: None,
            frames_used: [false; 256],
            pages_used: [false; 256],
        }
    }

    fn from_fresh(start: Lent) -> Trial {
        let promises = Promises {
            demand3: Demand3::start(),
            clean: Clean::start(&start),
            history: History::start(&start),
        };
        Trial {
            promises: Some(promises),
            ..Trial::new(start)
        }
    }

    /// Counts the depths that a message found or reached.
    fn reach(
        &mut self,
        counts: &mut Counts,
        before: &Tables,
        lent: &Lent,
        message: &[u8],
        number: u8,
    ) {
        let accepted = number == 0;
        let pages = || before.pages.iter().flatten();
        let anew = |used: &mut [bool; 256], number: u8| {
            accepted && std::mem::replace(&mut used[usize::from(number)], true)
        };
        let call = Call::decode(message);
        let (frame_anew, page_anew) = match call {
            Ok(Call::MakeCopy { frame, .. }) => (anew(&mut self.frames_used, frame), false),
            Ok(Call::Create { page, .. }) => (false, anew(&mut self.pages_used, page)),
            _ => (false, false),
        };
        let is_delete = matches!(call, Ok(Call::DeletePage { .. } | Call::DeleteCopy { .. }));
        let by_copy = matches!(call, Ok(Call::DeleteCopy { .. }));
        let gone = match &call {
            Ok(call) if accepted => deleted(before, call),
            _ => Vec::new(),
        };
        let freed: Vec<u8> = gone.iter().filter_map(|copy| copy.frame).collect();
        let fast = freed.iter().filter(|&&f| f < before.fast).count();
        let slow = freed.len() - fast;
        let is_zeros = |&frame: &u8| {
            let held = frame_bytes(before, &lent.fast, &lent.slow, frame);
            held.iter().all(|&byte| byte == 0)
        };
        let held = before.held();
        let retired = before.retired_frames().count();
        let (retires, looks_at, copies_to) = match call {
            Ok(Call::Retire { frame }) => (Some(frame), None, None),
            Ok(Call::LookFrame { frame }) => (None, Some(frame), None),
            Ok(Call::MakeCopy { page, copy, frame }) => (None, None, Some((page, copy, frame))),
            _ => (None, None, None),
        };
        let newly = retires.filter(|&frame| accepted && before.is_free(frame));
        let worn = |frame: u8| before.is_retired(frame);
        // The source page of a copy to a retired frame that is refused for the frame.
        let source = copies_to.and_then(|(page, copy, frame)| {
            let page = before.pages.get(usize::from(page))?.as_ref()?;
            (worn(frame) && usize::from(copy) < page.copies.len()).then_some(page)
        });
        let reached = [
            pages().any(|page| page.copies.len() == ENTRIES),
            pages().any(|page| page.copies.iter().any(|copy| !copy.recent)),
            pages().any(|page| page.current_frames().len() > 1),
            before.frames() > 0 && held == before.frames(),
            pages().any(|page| page.rights[usize::from(page.owner)] < 2),
            frame_anew,
            page_anew,
            by_copy && fast > 0,
            by_copy && slow > 0,
            freed.len() > 1,
            fast > 0 && slow > 0,
            freed.len() == ENTRIES,
            gone.len() > freed.len(),
            freed.iter().any(is_zeros),
            is_delete && !accepted,
            newly.is_some_and(|frame| frame < before.fast),
            newly.is_some_and(|frame| frame >= before.fast),
            newly.is_some_and(|frame| self.frames_used[usize::from(frame)]),
            accepted && retires.is_some_and(worn),
            retires.is_some_and(|frame| before.is_held(frame)),
            looks_at.is_some_and(worn),
            source.is_some(),
            source.is_some_and(|page| page.copies[0].frame.is_none()),
            source.is_some_and(|page| page.copies.len() == ENTRIES),
            retired > 0 && !freed.is_empty() && !by_copy,
            retired > 0 && held + retired == before.frames(),
        ];
        add(&mut counts.depths, reached);
        if let Ok(call) = call {
            add(&mut counts.rights, rights_reached(before, &call, number));
        }
    }
}

/// Counts what was reached.
pub(crate) fn add<const N: usize>(counts: &mut [u64; N], reached: [bool; N]) {
    for (count, reached) in counts.iter_mut().zip(reached) {
        *count += u64::from(reached);
    }
}

/// A read or a write as its right is tested.
struct Asked<'a> {
    is_read: bool,
    page: &'a Page,
    station: u8,
    right: u8,
}

impl<'a> Asked<'a> {
    /// Of a call on a page that stands; None if it is refused before its right is looked at.
    fn of(before: &'a Tables, call: &Call, number: u8) -> Option<Asked<'a>> {
        let (is_read, station, page) = match *call {
            Call::Read { station, page, .. } => (true, station, page),
            Call::Write { station, page, .. } => (false, station, page),
            _ => return None,
        };
        if number == Refusal::OutOfRange.number() {
            return None;
        }
        let page = before.pages[usize::from(page)].as_ref()?;
        Some(Asked {
            is_read,
            page,
            station,
            right: page.rights[usize::from(station)],
        })
    }
}

/// Which of `RIGHTS` a call found or reached.
fn rights_reached(before: &Tables, call: &Call, number: u8) -> [bool; RIGHTS.len()] {
    let asked = Asked::of(before, call, number);
    let asks = |is_read: bool, right: u8| {
        asked
            .as_ref()
            .is_some_and(|asked| (asked.is_read, asked.right) == (is_read, right))
    };
    // A read of a page on which every station but the owner has this right, by the owner or by
    // another.
    let reads = |others: u8, by_owner: bool, due: u8| {
        number == due
            && asked.as_ref().is_some_and(|asked| {
                let is_owner = asked.station == asked.page.owner;
                asked.is_read && is_owner == by_owner && others_have(asked.page, others)
            })
    };
    let no_right = Refusal::NoRight.number();
    [
        asks(true, 0),
        asks(true, 1),
        asks(false, 0),
        asks(false, 1),
        reads(1, false, 0),
        number == 0 && closes(before, call),
        reads(0, true, 0),
        reads(0, false, no_right),
        number == Refusal::PageStands.number() && is_closed(before, call),
    ]
}

/// Whether every station but the owner has this right on a page.
fn others_have(page: &Page, right: u8) -> bool {
    let mut others = (0..).zip(page.rights).filter(|(s, _)| *s != page.owner);
    others.all(|(_, has)| has == right)
}

/// Whether an accepted call is the last grant of right 0 that a page without a frame needs to be
/// closed.
fn closes(before: &Tables, call: &Call) -> bool {
    let Call::Grant {
        page,
        other,
        right: 0,
        ..
    } = *call
    else {
        return false;
    };
    let page = before.pages[usize::from(page)].as_ref();
    page.is_some_and(|page| {
        let mut closed = page.clone();
        closed.rights[usize::from(other)] = 0;
        page.copies[0].frame.is_none() && !others_have(page, 0) && others_have(&closed, 0)
    })
}

/// Whether a create names a page that is closed to every station but its owner.
fn is_closed(before: &Tables, call: &Call) -> bool {
    let Call::Create { page, .. } = *call else {
        return false;
    };
    let page = before.pages[usize::from(page)].as_ref();
    page.is_some_and(|page| others_have(page, 0))
}

/// The copies that an accepted delete takes away.
pub(crate) fn deleted(before: &Tables, call: &Call) -> Vec<PageCopy> {
    let copies = |page: u8| {
        let page = before.pages.get(usize::from(page)).and_then(Option::as_ref);
        page.map_or(&[][..], |page| &page.copies)
    };
    match *call {
        Call::DeletePage { page, .. } => copies(page).to_vec(),
        Call::DeleteCopy { page, copy } => {
            Vec::from_iter(copies(page).get(usize::from(copy)).copied())
        }
        _ => Vec::new(),
    }
}

// ---- Differences ----

/// Whose two results are held against each other.
pub(crate) type Sides = [&'static str; 2];

const BESIDE: Sides = ["kernel", "model"];
const FORETOLD: Sides = ["run", "forecast"];

fn difference(kernel: &Lent, model: &Lent) -> String {
    let parts = [
        first_difference("tables", BESIDE, &kernel.tables, &model.tables),
        first_difference("fast store", BESIDE, &kernel.fast, &model.fast),
        first_difference("slow store", BESIDE, &kernel.slow, &model.slow),
        first_difference("reply buffer", BESIDE, &kernel.out, &model.out),
    ];
    parts.into_iter().flatten().collect()
}

pub(crate) fn tally_difference(sides: Sides, from: &[u32], tallies: [&[u32]; 2]) -> String {
    let ([one, other], [of_one, of_other]) = (sides, tallies);
    if of_one == of_other {
        return String::new();
    }
    format!("\n  tally from {from:?}: {one} {of_one:?}, {other} {of_other:?}")
}

pub(crate) fn first_difference(
    name: &str,
    sides: Sides,
    of_one: &[u8],
    of_other: &[u8],
) -> Option<String> {
    if of_one == of_other {
        return None;
    }
    let at = of_one
        .iter()
        .zip(of_other)
        .position(|(one, other)| one != other)?;
    let place = match name {
        "tables" if at >= REGISTER => {
            let (frame, byte) = ((at - REGISTER) / 2, (at - REGISTER) % 2);
            format!("byte {at} (the register, frame {frame}, byte {byte} of its entry)")
        }
        "tables" if at >= 2 => {
            let (page, byte) = ((at - 2) / RECORD, (at - 2) % RECORD);
            format!("byte {at} (page {page}, byte {byte} of its record)")
        }
        "fast store" | "slow store" => format!("byte {at} (frame {} of it)", at / FRAME),
        _ => format!("byte {at}"),
    };
    let [one, other] = sides;
    Some(format!(
        "\n  {name}, {place}: {one} {:02X}, {other} {:02X}",
        of_one[at], of_other[at]
    ))
}

/// Whether tables or stores differ in any byte.
fn is_changed(before: &Lent, after: &Lent) -> bool {
    (&before.tables, &before.fast, &before.slow) != (&after.tables, &after.fast, &after.slow)
}

/// The reply at the front of a buffer; none in a buffer that is too short for one.
fn reply_in(out: &[u8]) -> &[u8] {
    match *out {
        [high, low, ..] if out.len() >= LEAST_BUFFER => {
            &out[..2 + usize::from(u16::from_be_bytes([high, low]))]
        }
        _ => &[],
    }
}

pub(crate) fn answer_difference(sides: Sides, answers: [u32; 2]) -> String {
    let ([one, other], [by_one, by_other]) = (sides, answers.map(in_words));
    format!("\n  answer: {one} {by_one}; {other} {by_other}")
}

fn in_words(answer: u32) -> String {
    let (number, length, laid) = (answer % 256, answer / 256 % 256, answer / 65536);
    let word = WORDS.get(number as usize).unwrap_or(&"unknown");
    format!("{number} {word}, reply of {length}, {laid} laid")
}

fn place_in_words(place: u32) -> String {
    let (length, store, from) = (place % 256, place / 256 % 256, place / 65536);
    format!("{length} bytes from {from} on of store {store}")
}

pub(crate) fn file_in_words(lent: &Lent, file: &[u8]) -> String {
    format!(
        "a file of {} bytes, {} messages\n  bytes: {}{}",
        file.len(),
        Reader::new(file).count(),
        hex(&file[..file.len().min(400)]),
        lent_in_words(lent)
    )
}

pub(crate) fn lent_in_words(lent: &Lent) -> String {
    let mut words = format!(
        "\n  lent: tables of {} bytes, stores of {} and {}, a reply buffer of {}",
        lent.tables.len(),
        lent.fast.len(),
        lent.slow.len(),
        lent.out.len()
    );
    match Tables::from_raw(&lent.tables) {
        None => words.push_str(", broken tables"),
        Some(tables) => {
            for (number, page) in tables.pages.iter().enumerate() {
                if let Some(page) = page {
                    words.push_str(&format!("\n  page {number}: {page:?}"));
                }
            }
            let retired: Vec<u8> = tables.retired_frames().collect();
            words.push_str(&format!("\n  retired frames: {retired:?}"));
        }
    }
    words
}
