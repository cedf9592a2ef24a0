//! The harness tried on itself: `compare` must catch every one of these wrong kernels, each the
//! model with one flaw.

use ::model::cases::{
    bytes, in_parts, unit, Case, StoreCase, CREATES, DELETES, EXPOSING, HIDDEN, PAIRS, RETIRES,
    RETIRES_ON_SHAPED,
};
use ::model::clean::Clean;
use ::model::compare::compare;
use ::model::flat::Demand3;
use ::model::forecast::{self, Course, Forecast, State, Turn as Counted, FIGURES};
use ::model::frames::Frames;
use ::model::gen::{self, Moves, Rng};
use ::model::hidden::{self, carried};
use ::model::history::History;
use ::model::kernel::{packed, Embedded, Kernel, Modelled, Stations};
use ::model::model::{
    self, frame_bytes, Answer, Call, Lent, Page, PageCopy, Reached, Reader, Tables, ENTRIES, FRAME,
    FREE_ENTRY, LEAST_BUFFER, NO_FRAME, RAW, RECORD, REGISTER, REGISTERED, RETIRED, STATIONS,
};
use ::model::stations::{Sent, Told};
use reel::words::hex;

/// One message answered by the model, to be spoiled.
struct Turn<'a> {
    message: &'a [u8],
    call: Option<Call>,
    before: &'a Lent,
    after: &'a mut Lent,
    answer: &'a mut Answer,
}

enum Flaw {
    /// Spoils an answer.
    Answer(fn(&mut Turn)),
    /// Takes a station's right for another one, at reads (kind 4) or at writes (kind 5).
    Right { kind: u8, has: u8, taken: u8 },
    /// Mends broken tables that it should refuse.
    Mend(fn(&mut [u8])),
    /// Takes this much of a file.
    File(fn(&[u8]) -> usize),
    /// Counts in its own way, by what a message found and left too.
    Tally(fn(&mut [u32], Answer, [&Lent; 2])),
    /// Spoils fresh tables of too many frames.
    Fresh(fn(&mut [u8]) -> u8),
    /// Spoils what a run leaves.
    Run(fn(&mut Lent)),
    /// Keeps replies while so many bytes of the buffer are left.
    Least(usize),
    /// Keeps the replies of a file in its own way.
    Replies(fn(&mut Lent, &[u8], usize, &mut [u32]) -> Reached),
    /// Gives another number where the tables are tested.
    Rules(fn(u8) -> u8),
    /// Gives another place of a read.
    Read(fn(&Lent, u32) -> u32),
    /// Takes another figure from each state of a run for the frames held.
    Held(fn(State) -> usize),
    /// Takes the most frames held from the states at the start and after each message in its own way.
    Most(fn(&[usize]) -> usize),
    /// Counts a message in its own way.
    Foresees(fn(&mut Forecast, &Counted)),
    /// Spoils the number and the figures of a forecast, by the bytes of the tables, the file and the
    /// figures as lent.
    Forecast(fn(&mut u8, &mut [u32], &[u8], &[u8], &[u32])),
}

struct Mutant(Flaw);

/// The wrong writers and readers of replies stand in tests/stations.rs.
impl Stations for Mutant {
    fn write(&self, sent: &Sent, out: &mut [u8]) -> Result<usize, u8> {
        Modelled.write(sent, out)
    }

    fn read_reply(&self, kind: u8, reply: &[u8]) -> Result<Told, u8> {
        Modelled.read_reply(kind, reply)
    }
}

impl Kernel for Mutant {
    fn fresh(&self, fast: u8, slow: u8, tables: &mut [u8]) -> u8 {
        let number = Modelled.fresh(fast, slow, tables);
        match self.0 {
            Flaw::Fresh(spoil) if number == 19 => spoil(tables),
            _ => number,
        }
    }

    fn answer(&self, lent: &mut Lent, message: &[u8]) -> u32 {
        packed(self.turn(lent, message))
    }

    fn run(&self, lent: &mut Lent, file: &[u8], tally: &mut [u32]) {
        for message in Reader::new(self.taken(file)) {
            self.counted_turn(lent, message, tally);
        }
        if let Flaw::Run(spoil) = self.0 {
            spoil(lent);
        }
    }

    fn replies(&self, lent: &mut Lent, file: &[u8], at: usize, tally: &mut [u32]) -> Reached {
        match self.0 {
            Flaw::Replies(replies) => replies(lent, file, at, tally),
            Flaw::Least(least) => self.part(least, lent, file, at, tally),
            _ => self.part(LEAST_BUFFER, lent, file, at, tally),
        }
    }

    fn rules(&self, lent: &Lent) -> u8 {
        match self.0 {
            Flaw::Rules(other) => other(Modelled.rules(lent)),
            _ => Modelled.rules(lent),
        }
    }

    fn read(&self, lent: &Lent, arguments: [u8; 4]) -> u32 {
        let place = Modelled.read(lent, arguments);
        match self.0 {
            Flaw::Read(other) => other(lent, place),
            _ => place,
        }
    }

    fn forecast(&self, tables: &[u8], file: &[u8], figures: &mut [u32]) -> u8 {
        let lent = figures.to_vec();
        let course = Course::from_tables(tables, file);
        let mut number = forecast::tell(course.map(|course| self.foresee(&course)), figures);
        if let Flaw::Forecast(spoil) = self.0 {
            spoil(&mut number, figures, tables, file, &lent);
        }
        number
    }
}

impl Mutant {
    fn foresee(&self, course: &Course) -> Forecast {
        let mut forecast = Forecast::of(course);
        let by = |held: fn(State) -> usize| course.states().map(held).collect::<Vec<usize>>();
        match self.0 {
            Flaw::Held(held) => forecast.most = by(held).into_iter().max().unwrap_or(0),
            Flaw::Most(most) => forecast.most = most(&by(|state| state.held)),
            Flaw::Foresees(count) => {
                let most = forecast.most;
                forecast = Forecast::default();
                course
                    .turns
                    .iter()
                    .for_each(|turn| count(&mut forecast, turn));
                forecast.most = most;
            }
            _ => {}
        }
        forecast
    }

    fn taken<'a>(&self, file: &'a [u8]) -> &'a [u8] {
        match self.0 {
            Flaw::File(taken) => &file[..taken(file)],
            _ => file,
        }
    }

    fn counted_turn(&self, lent: &mut Lent, message: &[u8], tally: &mut [u32]) -> Answer {
        let before = lent.clone();
        let answer = self.turn(lent, message);
        match (&self.0, tally) {
            (Flaw::Tally(count), tally) if tally.len() == 3 => {
                count(tally, answer, [&before, lent])
            }
            (_, [messages, refusals, laid]) => {
                *messages = messages.saturating_add(1);
                *refusals = refusals.saturating_add((answer.number != 0).into());
                *laid = laid.saturating_add(answer.laid as u32);
            }
            _ => {}
        }
        answer
    }

    /// A part that goes on while so many bytes of the buffer are left; a message that finds fewer
    /// than 70 is answered 18.
    fn part(
        &self,
        least: usize,
        lent: &mut Lent,
        file: &[u8],
        at: usize,
        tally: &mut [u32],
    ) -> Reached {
        let mut filled = std::mem::take(&mut lent.out);
        let (length, mut reached) = (filled.len(), Reached { at, used: 0 });
        for message in Reader::at(self.taken(file), at) {
            if length >= LEAST_BUFFER && length - reached.used < least {
                break;
            }
            lent.out = filled.split_off(reached.used);
            let answer = self.counted_turn(lent, message, tally);
            filled.append(&mut lent.out);
            reached.at += message.len();
            reached.used += answer.length;
        }
        lent.out = filled;
        reached
    }

    fn turn(&self, lent: &mut Lent, message: &[u8]) -> Answer {
        let before = lent.clone();
        match self.0 {
            Flaw::Mend(mend) if lent.tables.len() == RAW => {
                mend(&mut lent.tables);
                let answer = model::answer(lent, message);
                if answer.number != 0 {
                    lent.tables = before.tables;
                }
                answer
            }
            Flaw::Right { kind, has, taken } => match right_asked(lent, message, kind) {
                Some(at) if lent.tables[at] == has => {
                    lent.tables[at] = taken;
                    let answer = model::answer(lent, message);
                    lent.tables[at] = has;
                    answer
                }
                _ => model::answer(lent, message),
            },
            Flaw::Answer(spoil) => {
                let mut answer = model::answer(lent, message);
                spoil(&mut Turn {
                    message,
                    call: Call::decode(message).ok(),
                    before: &before,
                    after: lent,
                    answer: &mut answer,
                });
                answer
            }
            _ => model::answer(lent, message),
        }
    }
}

impl<'a> Turn<'a> {
    /// The page of the call as it was before, if the call was accepted.
    fn accepted_page(&self) -> Option<(usize, Page)> {
        let call = self.call.as_ref()?;
        if matches!(call, Call::Create { .. }) {
            return None;
        }
        let page = usize::from(call.page()?);
        let before = Tables::from_raw(&self.before.tables)?;
        (self.answer.number == 0).then(|| (page, before.pages[page].clone().expect("a page")))
    }

    /// The station and the page of a create, by the number that it got.
    fn creates(&self, number: u8) -> Option<(usize, usize)> {
        match self.call {
            Some(Call::Create { station, page }) if self.answer.number == number => {
                Some((station.into(), page.into()))
            }
            _ => None,
        }
    }

    /// Another right for a station on a page that is created, unless it is the owner.
    fn create_with(&mut self, other: usize, right: u8) {
        if let Some((station, page)) = self.creates(0) {
            if station != other {
                self.change_page(page, |page| page.rights[other] = right);
            }
        }
    }

    /// The same for every station but the owner.
    fn create_with_all(&mut self, right: u8) {
        for other in 0..STATIONS {
            self.create_with(other, right);
        }
    }

    /// The copies that an accepted delete took away.
    fn gone(&self) -> Vec<PageCopy> {
        match (&self.call, self.accepted_page()) {
            (Some(Call::DeletePage { .. }), Some((_, page))) => page.copies,
            (Some(Call::DeleteCopy { copy, .. }), Some((_, page))) => {
                vec![page.copies[usize::from(*copy)]]
            }
            _ => Vec::new(),
        }
    }

    /// The frames of those of them that pass get their bytes back.
    fn leave_frames(&mut self, passes: impl Fn(usize, &PageCopy) -> bool) {
        for (number, copy) in self.gone().iter().enumerate() {
            if let (Some(frame), true) = (copy.frame, passes(number, copy)) {
                self.put_back(frame);
            }
        }
    }

    /// States other bytes laid in the reply to an accepted delete, and counts them.
    fn state_laid(&mut self, laid: usize) {
        if !self.gone().is_empty() {
            self.accept_laying(laid);
        }
    }

    fn accept_laying(&mut self, laid: usize) {
        let [high, low] = (laid as u16).to_be_bytes();
        self.reply(&[0, 4, 1, 0, high, low]);
        self.answer.number = 0;
        self.answer.laid = laid;
    }

    /// The frame of an accepted make copy's source, unless that is a null copy; and the frame
    /// copied to.
    fn copies(&self) -> Option<[u8; 2]> {
        let (Some(Call::MakeCopy { copy, frame, .. }), Some((_, page))) =
            (&self.call, self.accepted_page())
        else {
            return None;
        };
        Some([page.copies[usize::from(*copy)].frame?, *frame])
    }

    /// The number and the record of the page that an accepted look was at.
    fn looks_at(&self) -> Option<(usize, Page)> {
        let is_look = matches!(self.call, Some(Call::LookPage { .. }));
        self.accepted_page().filter(|_| is_look)
    }

    /// The same of an accepted write.
    fn writes(&self) -> Option<(usize, Page)> {
        let is_write = matches!(self.call, Some(Call::Write { .. }));
        self.accepted_page().filter(|_| is_write)
    }

    /// A refused write's first byte in its reply.
    fn tell_carried(&mut self, refusal: u8) {
        if let (true, Some(&byte)) = (self.answer.number == refusal, carried(self.message).first())
        {
            self.after.out[5] = byte;
        }
    }

    /// Whether the last byte that a message carries as a write is odd.
    fn carries_odd(&self) -> bool {
        carried(self.message)
            .last()
            .is_some_and(|byte| byte % 2 == 1)
    }

    /// Whether the first byte of a store is odd.
    fn holds_odd(&self) -> bool {
        let mut bytes = self.before.fast.iter().chain(&self.before.slow);
        bytes.next().is_some_and(|byte| byte % 2 == 1)
    }

    /// The bytes that a frame had before.
    fn held(&self, frame: u8) -> &'a [u8] {
        let tables = self.tables_before();
        frame_bytes(&tables, &self.before.fast, &self.before.slow, frame)
    }

    fn held_zeros(&self, frame: u8) -> bool {
        self.held(frame) == [0; FRAME]
    }

    /// The frame of a retire, by the number that it got.
    fn retires(&self, number: u8) -> Option<u8> {
        match self.call {
            Some(Call::Retire { frame }) if self.answer.number == number => Some(frame),
            _ => None,
        }
    }

    /// The same of an accepted one that changed nothing, the frame being retired already.
    fn retires_again(&self) -> Option<u8> {
        let frame = self.retires(0)?;
        (self.after.tables == self.before.tables).then_some(frame)
    }

    /// Accepts, and lays or takes away the mark of a frame; all else as before.
    fn accept_with_mark(&mut self, frame: u8, mark: u8) {
        self.refuse(0);
        self.mark(frame, mark);
    }

    fn mark(&mut self, frame: u8, mark: u8) {
        let entry = if mark == 0 { FREE_ENTRY } else { RETIRED };
        gen::set_holder(&mut self.after.tables, frame, entry);
    }

    /// Makes a copy to a retired frame, which is free for once; the frame where it does.
    fn copy_as_if_free(&mut self) -> Option<u8> {
        let (Some(Call::MakeCopy { frame, .. }), 20) = (&self.call, self.answer.number) else {
            return None;
        };
        let (frame, call) = (*frame, self.call.as_ref()?.encode());
        let mut lent = self.before.clone();
        gen::set_holder(&mut lent.tables, frame, FREE_ENTRY);
        *self.answer = model::answer(&mut lent, &call);
        if self.answer.number != 0 {
            lent.tables = self.before.tables.clone();
        }
        *self.after = lent;
        (self.answer.number == 0).then_some(frame)
    }

    /// The marks before an accepted delete are gone after it.
    fn lose_marks(&mut self) {
        if !self.gone().is_empty() {
            unretire(&mut self.after.tables, 0);
        }
    }

    /// Gives 20 in the place of a number where a copy would go to a retired frame.
    fn retired_before(&mut self, number: u8) {
        if let (Some(Call::MakeCopy { frame, .. }), true) =
            (&self.call, self.answer.number == number)
        {
            if self.tables_before().is_retired(*frame) {
                self.refuse(20);
            }
        }
    }

    fn tables_before(&self) -> Tables {
        Tables::from_raw(&self.before.tables).expect("lawful tables")
    }

    fn change_page(&mut self, page: usize, change: impl FnOnce(&mut Page)) {
        let mut tables = Tables::from_raw(&self.after.tables).expect("lawful tables");
        change(tables.pages[page].as_mut().expect("a page"));
        self.after.tables = tables.to_raw();
    }

    /// The register as it was before.
    fn keep_register(&mut self) {
        let register = REGISTER..RAW;
        self.after.tables[register.clone()].copy_from_slice(&self.before.tables[register]);
    }

    /// Refuses to delete the only CURRENT copy.
    fn spare_last_current(&mut self) {
        if let (Some(Call::DeleteCopy { copy, .. }), Some((_, page))) =
            (self.call.clone(), self.accepted_page())
        {
            let only_current = page.current_frames().len() == 1;
            if page.copies[usize::from(copy)].current && only_current {
                self.refuse(15);
            }
        }
    }

    /// Deletes the only MOST RECENT copy of several where it is not CURRENT.
    fn delete_last_recent(&mut self) {
        let (Some(Call::DeleteCopy { page, copy }), 15) = (self.call.clone(), self.answer.number)
        else {
            return;
        };
        let tables = self.tables_before();
        let record = tables.pages[usize::from(page)].as_ref().expect("a page");
        let gone = record.copies[usize::from(copy)];
        if let (true, Some(frame)) = (record.copies.len() > 1 && !gone.current, gone.frame) {
            self.change_page(page.into(), |page| {
                page.copies.remove(copy.into());
            });
            self.lay(&tables, frame, &[0; FRAME]);
            self.accept_laying(FRAME);
        }
    }

    /// Deletes the only copy of a page, and the page with it.
    fn delete_only_copy(&mut self) {
        let (Some(Call::DeleteCopy { page, .. }), 15) = (self.call.clone(), self.answer.number)
        else {
            return;
        };
        let mut tables = self.tables_before();
        let record = tables.pages[usize::from(page)].take().expect("a page");
        if let [PageCopy {
            frame: Some(frame), ..
        }] = record.copies[..]
        {
            self.lay(&tables, frame, &[0; FRAME]);
            self.after.tables = tables.to_raw();
            self.accept_laying(FRAME);
        }
    }

    /// Sets a stale copy CURRENT, and MOST RECENT too or not.
    fn set_stale(&mut self, recent: bool) {
        let (Some(Call::SetCurrent { page, copy }), 16) = (self.call.clone(), self.answer.number)
        else {
            return;
        };
        self.change_page(page.into(), |page| {
            let copy = &mut page.copies[usize::from(copy)];
            (copy.current, copy.recent) = (true, recent);
        });
        self.accept_laying(0);
    }

    /// Gives a number, with all as before.
    fn refuse(&mut self, number: u8) {
        let out = std::mem::take(&mut self.after.out);
        *self.after = self.before.clone();
        self.after.out = out;
        self.reply(&[0, 4, 1, number, 0, 0]);
        self.answer.number = number;
        self.answer.laid = 0;
    }

    /// Gives another number where one was given.
    fn swap(&mut self, given: u8, other: u8) {
        if self.answer.number == given {
            self.refuse(other);
        }
    }

    fn reply(&mut self, reply: &[u8]) {
        let tail = self.before.out[reply.len()..].to_vec();
        self.after.out = [reply, &tail].concat();
        self.answer.length = reply.len();
    }

    /// Puts back the bytes that a frame had before.
    fn put_back(&mut self, frame: u8) {
        let tables = self.tables_before();
        self.lay(&tables, frame, self.held(frame));
    }

    fn lay(&mut self, tables: &Tables, frame: u8, bytes: &[u8]) {
        let (store, frame) = match frame.checked_sub(tables.fast) {
            None => (&mut self.after.fast, frame),
            Some(slow) => (&mut self.after.slow, slow),
        };
        store[FRAME * usize::from(frame)..][..bytes.len()].copy_from_slice(bytes);
    }
}

/// Where the tables' bytes have the right that a call of this kind asks for, on a page that stands.
fn right_asked(lent: &Lent, message: &[u8], kind: u8) -> Option<usize> {
    let (station, page) = match (Call::decode(message).ok()?, kind) {
        (Call::Read { station, page, .. }, 4) | (Call::Write { station, page, .. }, 5) => {
            (usize::from(station), usize::from(page))
        }
        _ => return None,
    };
    let tables = Tables::from_raw(&lent.tables)?;
    tables.pages.get(page)?.as_ref()?;
    (station < STATIONS).then_some(2 + RECORD * page + station)
}

/// The raw record's entries in use.
fn used(record: &mut [u8]) -> std::slice::ChunksMut<'_, u8> {
    let n = usize::from(record[RECORD - 1]).min(ENTRIES);
    record[STATIONS..STATIONS + 3 * n].chunks_mut(3)
}

fn records(tables: &mut [u8]) -> std::slice::ChunksMut<'_, u8> {
    tables[2..REGISTER].chunks_mut(RECORD)
}

/// Puts right those entries of the register that pass, by the frame, the entry and the one due.
fn mend_entries(tables: &mut [u8], passes: impl Fn(u8, u16, u16) -> bool) {
    let mut right = tables.to_vec();
    gen::register_anew(&mut right);
    for frame in 0..REGISTERED as u8 {
        let due = gen::holder(&right, frame);
        if passes(frame, gen::holder(tables, frame), due) {
            gen::set_holder(tables, frame, due);
        }
    }
}

/// Makes marks of 1 of all that are not 0, in tables of any length.
fn even_marks(tables: &mut [u8]) {
    if tables.len() == RAW {
        for record in records(tables) {
            used(record).for_each(|entry| entry[1..].iter_mut().for_each(|m| *m = (*m).min(1)));
        }
    }
}

/// The wrong kernels.
const MUTANTS: [(&str, Flaw); 89] = [
    // The traps of the paper.
    (
        "a new copy takes its source's CURRENT mark",
        Flaw::Answer(|turn| {
            if let (Some(Call::MakeCopy { copy, .. }), Some((number, page))) =
                (turn.call.clone(), turn.accepted_page())
            {
                let current = page.copies[usize::from(copy)].current;
                turn.change_page(number, |page| {
                    page.copies.last_mut().expect("a copy").current = current;
                });
            }
        }),
    ),
    (
        "stale marks spared when equal bytes are written",
        Flaw::Answer(|turn| {
            if let (Some(Call::Write { .. }), Some((number, page))) =
                (&turn.call, turn.accepted_page())
            {
                if turn.after.fast == turn.before.fast && turn.after.slow == turn.before.slow {
                    turn.change_page(number, |after| *after = page);
                }
            }
        }),
    ),
    (
        "one current copy of two written",
        Flaw::Answer(|turn| {
            if let (Some(Call::Write { .. }), Some((_, page))) = (&turn.call, turn.accepted_page())
            {
                for &frame in &page.current_frames()[1..] {
                    turn.put_back(frame);
                }
            }
        }),
    ),
    (
        "last current spared for last recent",
        Flaw::Answer(|turn| turn.spare_last_current()),
    ),
    (
        "last recent deleted where it is not current",
        Flaw::Answer(|turn| turn.delete_last_recent()),
    ),
    (
        "last current spared, and last recent not",
        Flaw::Answer(|turn| {
            turn.spare_last_current();
            turn.delete_last_recent();
        }),
    ),
    (
        "the only copy deleted, and the page with it",
        Flaw::Answer(|turn| turn.delete_only_copy()),
    ),
    (
        "a free frame's old bytes taken for zeros",
        Flaw::Answer(|turn| {
            if let (Some(Call::MakeCopy { frame, .. }), Some((_, page))) =
                (turn.call.clone(), turn.accepted_page())
            {
                if page.copies[0].frame.is_none() {
                    turn.put_back(frame);
                }
            }
        }),
    ),
    // The impostors of the paper.
    (
        "nothing current before looking",
        Flaw::Answer(|turn| {
            if let Some(Call::Read { .. } | Call::Write { .. }) = turn.call {
                turn.swap(0, 11);
            }
        }),
    ),
    ("refuses all", Flaw::Answer(|turn| turn.swap(0, 9))),
    (
        "a constant reply",
        Flaw::Answer(|turn| {
            if turn.answer.number == 0 {
                turn.reply(&[0, 4, 1, 0, 0, 0]);
            }
        }),
    ),
    (
        "drops moves",
        Flaw::Answer(|turn| {
            if let Some(Call::MakeCopy { .. }) = turn.call {
                turn.after.tables = turn.before.tables.clone();
            }
        }),
    ),
    (
        "serves the first message and then only acknowledges",
        Flaw::Answer(|turn| {
            let begun = Tables::from_raw(&turn.before.tables)
                .is_some_and(|tables| tables.copies().count() > 0);
            if begun && turn.answer.number == 0 {
                turn.refuse(0);
            }
        }),
    ),
    (
        "invents bytes laid",
        Flaw::Answer(|turn| {
            if turn.answer.laid == 64 {
                turn.answer.laid = 63;
                turn.reply(&[0, 4, 1, 0, 0, 63]);
            }
        }),
    ),
    (
        "a reader that reports the end too early",
        Flaw::File(|file| {
            let last = Reader::new(file).last().unwrap_or_default();
            file.len() - last.len()
        }),
    ),
    // Other steps gone wrong.
    (
        "reads zeros where nothing is current",
        Flaw::Answer(|turn| {
            if let (Some(Call::Read { count, .. }), 11) = (&turn.call, turn.answer.number) {
                let zeros = vec![0; usize::from(*count)];
                turn.reply(&[&[0, 4 + count, 1, 0, 0, 0], zeros.as_slice()].concat());
                turn.answer.number = 0;
            }
        }),
    ),
    (
        "reads the last current copy",
        Flaw::Answer(|turn| {
            if let (Some(Call::Read { offset, count, .. }), Some((_, page))) =
                (turn.call.clone(), turn.accepted_page())
            {
                let tables = Tables::from_raw(&turn.before.tables).expect("lawful tables");
                let last = *page.current_frames().last().expect("a current copy");
                let bytes = frame_bytes(&tables, &turn.before.fast, &turn.before.slow, last);
                let bytes = bytes[offset.into()..][..count.into()].to_vec();
                turn.reply(&[&[0, 4 + count, 1, 0, 0, 0], bytes.as_slice()].concat());
            }
        }),
    ),
    (
        "a new copy is always recent",
        Flaw::Answer(|turn| {
            if let (Some(Call::MakeCopy { .. }), Some((number, _))) =
                (&turn.call, turn.accepted_page())
            {
                turn.change_page(number, |page| {
                    page.copies.last_mut().expect("a copy").recent = true;
                });
            }
        }),
    ),
    (
        "a new copy goes to the front",
        Flaw::Answer(|turn| {
            if let (Some(Call::MakeCopy { .. }), Some((number, _))) =
                (&turn.call, turn.accepted_page())
            {
                turn.change_page(number, |page| page.copies.rotate_right(1));
            }
        }),
    ),
    (
        "the last copy fills the gap",
        Flaw::Answer(|turn| {
            if let (Some(Call::DeleteCopy { copy, .. }), Some((number, mut page))) =
                (turn.call.clone(), turn.accepted_page())
            {
                page.copies.swap_remove(copy.into());
                turn.change_page(number, |after| *after = page);
            }
        }),
    ),
    (
        "set current takes the mark from the others",
        Flaw::Answer(|turn| {
            if let (Some(Call::SetCurrent { copy, .. }), Some((number, _))) =
                (turn.call.clone(), turn.accepted_page())
            {
                turn.change_page(number, |page| {
                    for (other, entry) in page.copies.iter_mut().enumerate() {
                        entry.current &= other == usize::from(copy);
                    }
                });
            }
        }),
    ),
    (
        "set current without the test for stale",
        Flaw::Answer(|turn| turn.set_stale(false)),
    ),
    (
        "a stale copy set CURRENT and MOST RECENT",
        Flaw::Answer(|turn| turn.set_stale(true)),
    ),
    (
        "a write laid into stale copies too",
        Flaw::Answer(|turn| {
            if let (Some(Call::Write { offset, bytes, .. }), Some((_, page))) =
                (turn.call.clone(), turn.accepted_page())
            {
                let tables = turn.tables_before();
                let stale = page.copies.iter().filter(|copy| !copy.current);
                for frame in stale.filter_map(|copy| copy.frame) {
                    let mut laid = turn.held(frame).to_vec();
                    laid[offset.into()..][..bytes.len()].copy_from_slice(&bytes);
                    turn.lay(&tables, frame, &laid);
                }
            }
        }),
    ),
    (
        "set current twice refused",
        Flaw::Answer(|turn| {
            if let Some(Call::SetCurrent { .. }) = turn.call {
                if turn.after.tables == turn.before.tables {
                    turn.swap(0, 16);
                }
            }
        }),
    ),
    (
        "remove current without effect refused",
        Flaw::Answer(|turn| {
            if let Some(Call::RemoveCurrent { .. }) = turn.call {
                if turn.after.tables == turn.before.tables {
                    turn.swap(0, 11);
                }
            }
        }),
    ),
    (
        "remove current takes MOST RECENT too",
        Flaw::Answer(|turn| {
            if let (Some(Call::RemoveCurrent { copy, .. }), Some((number, _))) =
                (turn.call.clone(), turn.accepted_page())
            {
                turn.change_page(number, |page| {
                    let recent = page.copies.iter().filter(|copy| copy.recent).count();
                    page.copies[usize::from(copy)].recent &= recent == 1;
                });
            }
        }),
    ),
    (
        "an owner needs right 2 to grant",
        Flaw::Answer(|turn| {
            if let (Some(Call::Grant { station, .. }), Some((_, page))) =
                (turn.call.clone(), turn.accepted_page())
            {
                if page.rights[usize::from(station)] < 2 {
                    turn.refuse(10);
                }
            }
        }),
    ),
    (
        "a grant of right 2 gives the page away",
        Flaw::Answer(|turn| {
            if let (
                Some(Call::Grant {
                    other, right: 2, ..
                }),
                Some((number, _)),
            ) = (turn.call.clone(), turn.accepted_page())
            {
                turn.change_page(number, |page| page.owner = other);
            }
        }),
    ),
    (
        "the owner's own right stays",
        Flaw::Answer(|turn| {
            if let (Some(Call::Grant { station, other, .. }), Some((number, page))) =
                (turn.call.clone(), turn.accepted_page())
            {
                if station == other {
                    turn.change_page(number, |after| *after = page);
                }
            }
        }),
    ),
    (
        "bytes laid counted once for several copies",
        Flaw::Answer(|turn| {
            if let (Some(Call::Write { bytes, .. }), Some(_)) =
                (turn.call.clone(), turn.accepted_page())
            {
                turn.answer.laid = bytes.len();
                turn.reply(&[0, 4, 1, 0, 0, bytes.len() as u8]);
            }
        }),
    ),
    (
        "a read of 64 bytes refused",
        Flaw::Answer(|turn| {
            if let Some(Call::Read { count: 64, .. }) = turn.call {
                turn.swap(0, 7);
            }
        }),
    ),
    (
        "the last frame out of range",
        Flaw::Answer(|turn| {
            if let Some(Call::LookFrame { frame } | Call::MakeCopy { frame, .. }) = turn.call {
                let tables = Tables::from_raw(&turn.before.tables);
                if tables.is_some_and(|tables| usize::from(frame) + 1 == tables.frames()) {
                    turn.swap(0, 7);
                }
            }
        }),
    ),
    (
        "a free frame told as held",
        Flaw::Answer(|turn| {
            if turn.after.out.get(6..9) == Some(&[0, 255, 255]) && turn.answer.length == 9 {
                turn.after.out[6] = 1;
            }
        }),
    ),
    (
        "the register not renumbered after a delete",
        Flaw::Answer(|turn| {
            if let (Some(Call::DeleteCopy { copy, .. }), Some((_, page))) =
                (turn.call.clone(), turn.accepted_page())
            {
                let freed = page.copies[usize::from(copy)].frame.expect("a frame");
                turn.keep_register();
                gen::set_holder(&mut turn.after.tables, freed, FREE_ENTRY);
            }
        }),
    ),
    (
        "a deleted page's frames stay in the register",
        Flaw::Answer(|turn| {
            if let (Some(Call::DeletePage { .. }), Some(_)) = (&turn.call, turn.accepted_page()) {
                turn.keep_register();
            }
        }),
    ),
    (
        "the first copy in place of a null copy not entered in the register",
        Flaw::Answer(|turn| {
            if let (Some(Call::MakeCopy { frame, .. }), Some((_, page))) =
                (turn.call.clone(), turn.accepted_page())
            {
                if page.copies[0].frame.is_none() {
                    gen::set_holder(&mut turn.after.tables, frame, FREE_ENTRY);
                }
            }
        }),
    ),
    (
        "a new copy's frame gets the register entry of its source",
        Flaw::Answer(|turn| {
            if let (Some(Call::MakeCopy { copy, frame, .. }), Some((_, page))) =
                (turn.call.clone(), turn.accepted_page())
            {
                if let Some(source) = page.copies[usize::from(copy)].frame {
                    let held = gen::holder(&turn.before.tables, source);
                    gen::set_holder(&mut turn.after.tables, frame, held);
                }
            }
        }),
    ),
    // Refusals and their order.
    (
        "eight copies before frame held",
        Flaw::Answer(|turn| {
            if let Some(Call::MakeCopy { page, .. }) = turn.call {
                let n = turn
                    .before
                    .tables
                    .get(2 + RECORD * usize::from(page) + RECORD - 1);
                if n == Some(&8) {
                    turn.swap(13, 14);
                }
            }
        }),
    ),
    (
        "frame held before no copy",
        Flaw::Answer(|turn| {
            if let (Some(Call::MakeCopy { frame, .. }), 12) = (&turn.call, turn.answer.number) {
                let tables = Tables::from_raw(&turn.before.tables).expect("lawful tables");
                if tables.is_held(*frame) {
                    turn.refuse(13);
                }
            }
        }),
    ),
    (
        "nothing current before no right",
        Flaw::Answer(|turn| {
            if let (Some(Call::Read { page, .. }), 10) = (&turn.call, turn.answer.number) {
                let tables = Tables::from_raw(&turn.before.tables).expect("lawful tables");
                let page = tables.pages[usize::from(*page)].as_ref();
                if page.is_some_and(|page| page.current_frames().is_empty()) {
                    turn.refuse(11);
                }
            }
        }),
    ),
    (
        "no page before out of range",
        Flaw::Answer(|turn| {
            if let Some(Call::Read { page, .. }) = turn.call {
                let n = turn
                    .before
                    .tables
                    .get(2 + RECORD * usize::from(page) + RECORD - 1);
                if page < 64 && n == Some(&0) {
                    turn.swap(7, 9);
                }
            }
        }),
    ),
    (
        "misfit store before broken tables",
        Flaw::Answer(|turn| {
            let due = turn.before.tables.first().map(|&p| FRAME * usize::from(p));
            if due != Some(turn.before.fast.len()) {
                turn.swap(5, 6);
            }
        }),
    ),
    (
        "broken tables before wrong length",
        Flaw::Answer(|turn| {
            if Tables::from_raw(&turn.before.tables).is_none() {
                turn.swap(4, 5);
            }
        }),
    ),
    (
        "a foreign version taken for cut short",
        Flaw::Answer(|turn| {
            if turn.call.is_none() {
                turn.swap(2, 1);
            }
        }),
    ),
    (
        "a store of more than 127 frames out of range",
        Flaw::Answer(|turn| {
            if turn.before.fast.len() > 64 * 127 {
                turn.swap(6, 7);
            }
        }),
    ),
    (
        "only the sum of the stores tested",
        Flaw::Answer(|turn| {
            let Some(tables) = Tables::from_raw(&turn.before.tables) else {
                return;
            };
            if turn.before.fast.len() + turn.before.slow.len() == FRAME * tables.frames() {
                turn.swap(6, 7);
            }
        }),
    ),
    (
        "a refused write leaves marks",
        Flaw::Answer(|turn| {
            if let (Some(Call::Write { page, .. }), 11) = (turn.call.clone(), turn.answer.number) {
                turn.change_page(page.into(), |page| page.rights[0] ^= 1);
            }
        }),
    ),
    // Replies.
    (
        "the reply's tail wiped",
        Flaw::Answer(|turn| {
            if let Some(byte) = turn.after.out.get_mut(turn.answer.length) {
                *byte = 0;
            }
        }),
    ),
    (
        "a short buffer written on",
        Flaw::Answer(|turn| {
            if turn.answer.number == 18 && turn.after.out.len() >= 6 {
                turn.after.out[..6].copy_from_slice(&[0, 4, 1, 18, 0, 0]);
            }
        }),
    ),
    (
        "a buffer of 70 refused",
        Flaw::Answer(|turn| {
            if turn.before.out.len() == 70 {
                *turn.after = turn.before.clone();
                *turn.answer = Answer {
                    number: 18,
                    length: 0,
                    laid: 0,
                };
            }
        }),
    ),
    // Table rules let pass.
    (
        "CURRENT without MOST RECENT let pass",
        Flaw::Mend(|tables| {
            for record in records(tables) {
                used(record).for_each(|entry| entry[2] = entry[2].max(entry[1]));
            }
        }),
    ),
    (
        "no MOST RECENT let pass",
        Flaw::Mend(|tables| {
            for record in records(tables) {
                if used(record).all(|entry| entry[2] == 0) {
                    used(record).take(1).for_each(|entry| entry[2] = 1);
                }
            }
        }),
    ),
    (
        "unused entries let pass",
        Flaw::Mend(|tables| {
            for record in records(tables).filter(|record| record[RECORD - 1] > 0) {
                let n = used(record).count();
                for entry in record[STATIONS + 3 * n..RECORD - 2].chunks_mut(3) {
                    entry.copy_from_slice(&[NO_FRAME, 0, 0]);
                }
            }
        }),
    ),
    (
        "absent pages let pass",
        Flaw::Mend(|tables| {
            for record in records(tables).filter(|record| record[RECORD - 1] == 0) {
                record.copy_from_slice(&Tables::fresh(0, 0).to_raw()[2..2 + RECORD]);
            }
        }),
    ),
    (
        "an absent page's owner let pass",
        Flaw::Mend(|tables| {
            for record in records(tables).filter(|record| record[RECORD - 1] == 0) {
                record[RECORD - 2] = 0;
            }
        }),
    ),
    (
        "rights above 2 let pass",
        Flaw::Mend(|tables| {
            for record in records(tables) {
                record[..STATIONS]
                    .iter_mut()
                    .for_each(|right| *right = (*right).min(2));
            }
        }),
    ),
    (
        "an owner above 15 let pass",
        Flaw::Mend(|tables| {
            for record in records(tables) {
                record[RECORD - 2] &= 15;
            }
        }),
    ),
    (
        "n above 8 let pass",
        Flaw::Mend(|tables| {
            for record in records(tables) {
                record[RECORD - 1] = record[RECORD - 1].min(8);
            }
        }),
    ),
    (
        "a null copy with a mark let pass",
        Flaw::Mend(|tables| {
            for record in records(tables) {
                for entry in used(record).filter(|entry| entry[0] == NO_FRAME) {
                    entry[1] = 0;
                }
            }
        }),
    ),
    ("any mark but 0 let pass", Flaw::Mend(even_marks)),
    (
        "any CURRENT mark but 0 let pass",
        Flaw::Mend(|tables| {
            for record in records(tables) {
                used(record).for_each(|entry| entry[1] = entry[1].min(1));
            }
        }),
    ),
    (
        "a refused message puts marks back as 1",
        Flaw::Answer(|turn| {
            if turn.answer.number != 0 {
                even_marks(&mut turn.after.tables);
            }
        }),
    ),
    (
        "a run puts marks back as 1",
        Flaw::Run(|lent| even_marks(&mut lent.tables)),
    ),
    ("a wrong register let pass", Flaw::Mend(gen::register_anew)),
    (
        "a free frame's entry let pass",
        Flaw::Mend(|tables| mend_entries(tables, |_, _, due| due == FREE_ENTRY)),
    ),
    (
        "a held frame's entry let pass where it names nobody",
        Flaw::Mend(|tables| mend_entries(tables, |_, entry, _| entry == FREE_ENTRY)),
    ),
    (
        "an entry past the last frame let pass",
        Flaw::Mend(|tables| {
            let frames = u16::from(tables[0]) + u16::from(tables[1]);
            mend_entries(tables, |frame, _, _| u16::from(frame) >= frames);
        }),
    ),
    (
        "an entry of 512 or more taken for none",
        Flaw::Mend(|tables| {
            mend_entries(tables, |_, entry, due| entry >= 512 && due == FREE_ENTRY);
        }),
    ),
    // Runs, tallies, fresh tables.
    (
        "a cut end passed over",
        Flaw::File(|file| {
            let last = Reader::new(file).last().unwrap_or_default();
            let cut = Call::decode(last) == Err(model::Refusal::CutShort);
            file.len() - if cut { last.len() } else { 0 }
        }),
    ),
    (
        "a tally that wraps",
        Flaw::Tally(|tally, answer, _| {
            tally[0] = tally[0].wrapping_add(1);
            tally[1] = tally[1].wrapping_add((answer.number != 0).into());
            tally[2] = tally[2].wrapping_add(answer.laid as u32);
        }),
    ),
    (
        "short buffers not counted",
        Flaw::Tally(|tally, answer, _| {
            if answer.number != 18 {
                tally[0] = tally[0].saturating_add(1);
                tally[1] = tally[1].saturating_add((answer.number != 0).into());
                tally[2] = tally[2].saturating_add(answer.laid as u32);
            }
        }),
    ),
    (
        "a tally stopped one by one, bytes laid all or nothing",
        Flaw::Tally(|tally, answer, _| {
            tally[0] = tally[0].saturating_add(1);
            tally[1] = tally[1].saturating_add((answer.number != 0).into());
            tally[2] = tally[2].checked_add(answer.laid as u32).unwrap_or(tally[2]);
        }),
    ),
    ("too many frames accepted", Flaw::Fresh(|_| 0)),
    (
        "too many frames cut to 127",
        Flaw::Fresh(|tables| {
            tables[..2].fill(127);
            19
        }),
    ),
    // Runs that keep their replies.
    ("a part stops with 70 bytes left", Flaw::Least(71)),
    ("a part goes on with 69 bytes left", Flaw::Least(69)),
    (
        "a part begins at the file's start",
        Flaw::Replies(|lent, file, _, tally| Modelled.replies(lent, file, 0, tally)),
    ),
    (
        "a part tells the place before its last message",
        Flaw::Replies(|lent, file, at, tally| {
            let reached = Modelled.replies(lent, file, at, tally);
            let messages = Reader::at(&file[..reached.at.min(file.len())], at);
            let last = messages.last().map_or(0, <[u8]>::len);
            Reached {
                at: reached.at - last,
                ..reached
            }
        }),
    ),
    (
        "a part beyond the end tells the end",
        Flaw::Replies(|lent, file, at, tally| {
            let mut reached = Modelled.replies(lent, file, at, tally);
            reached.at = reached.at.min(file.len());
            reached
        }),
    ),
    (
        "a part counts the whole buffer as used",
        Flaw::Replies(|lent, file, at, tally| Reached {
            used: lent.out.len(),
            ..Modelled.replies(lent, file, at, tally)
        }),
    ),
    (
        "a part wipes the buffer behind its replies",
        Flaw::Replies(|lent, file, at, tally| {
            let reached = Modelled.replies(lent, file, at, tally);
            lent.out[reached.used..].fill(0);
            reached
        }),
    ),
    (
        "a part in a short buffer stops where it began",
        Flaw::Replies(|lent, file, at, tally| {
            if lent.out.len() < 70 {
                return Reached { at, used: 0 };
            }
            Modelled.replies(lent, file, at, tally)
        }),
    ),
    (
        "a part counts anew",
        Flaw::Replies(|lent, file, at, tally| {
            if tally.len() == 3 {
                tally.fill(0);
            }
            Modelled.replies(lent, file, at, tally)
        }),
    ),
    (
        "a part passes over a cut end",
        Flaw::Replies(|lent, file, at, tally| {
            let messages = Reader::at(file, at);
            let cut = messages
                .last()
                .filter(|last| Call::decode(last) == Err(model::Refusal::CutShort));
            let end = file.len() - cut.map_or(0, <[u8]>::len);
            Modelled.replies(lent, &file[..end], at, tally)
        }),
    ),
    (
        "a part's replies go to the front",
        Flaw::Replies(|lent, file, at, tally| {
            let reached = Modelled.replies(lent, file, at, tally);
            if reached.used > 6 {
                lent.out.copy_within(reached.used - 6..reached.used, 0);
            }
            reached
        }),
    ),
    // The test of the tables, and the read as a place.
    (
        "misfit stores pass the test of the tables",
        Flaw::Rules(|number| if number == 6 { 0 } else { number }),
    ),
    (
        "the place of a read in the other store",
        Flaw::Read(|_, place| if place == 0 { 0 } else { place ^ 256 }),
    ),
    (
        "the place of a read refused for a short buffer",
        Flaw::Read(|lent, place| if lent.out.len() < 70 { 0 } else { place }),
    ),
];

/// Each pair of right and act the other way, request [3] of document 02.
const WRONG_PAIRS: [(&str, Flaw); 6] = [
    (
        "a read with right 0 accepted",
        Flaw::Right {
            kind: 4,
            has: 0,
            taken: 2,
        },
    ),
    (
        "a write with right 0 accepted",
        Flaw::Right {
            kind: 5,
            has: 0,
            taken: 2,
        },
    ),
    (
        "a read with right 1 refused",
        Flaw::Right {
            kind: 4,
            has: 1,
            taken: 0,
        },
    ),
    (
        "a write with right 1 accepted",
        Flaw::Right {
            kind: 5,
            has: 1,
            taken: 2,
        },
    ),
    (
        "a read with right 2 refused",
        Flaw::Right {
            kind: 4,
            has: 2,
            taken: 0,
        },
    ),
    (
        "a write with right 2 refused",
        Flaw::Right {
            kind: 5,
            has: 2,
            taken: 0,
        },
    ),
];

/// Wrong creates: the rights of a new page, of one that stands, and of one that is closed, request
/// [6] of document 02.
const WRONG_CREATES: [(&str, Flaw); 9] = [
    (
        "the owner of a new page gets right 1",
        Flaw::Answer(|turn| {
            if let Some((station, page)) = turn.creates(0) {
                turn.change_page(page, |page| page.rights[station] = 1);
            }
        }),
    ),
    (
        "the last station left with right 0 on a new page",
        Flaw::Answer(|turn| turn.create_with(15, 0)),
    ),
    (
        "a station in the middle left with right 0 on a new page",
        Flaw::Answer(|turn| turn.create_with(8, 0)),
    ),
    (
        "the first station left with right 0 on a new page",
        Flaw::Answer(|turn| turn.create_with(0, 0)),
    ),
    (
        "every station gets right 2 on a new page",
        Flaw::Answer(|turn| turn.create_with_all(2)),
    ),
    (
        "the others get right 0 on a new page, as document 01 had it",
        Flaw::Answer(|turn| turn.create_with_all(0)),
    ),
    (
        "a create that is refused opens the page",
        Flaw::Answer(|turn| {
            if let Some((_, page)) = turn.creates(8) {
                turn.change_page(page, |page| {
                    let owner = usize::from(page.owner);
                    let others = (0..).zip(&mut page.rights).filter(|(s, _)| *s != owner);
                    others.for_each(|(_, right)| *right = 1);
                });
            }
        }),
    ),
    (
        "a create that is refused opens the page to its station",
        Flaw::Answer(|turn| {
            if let Some((station, page)) = turn.creates(8) {
                turn.change_page(page, |page| {
                    page.rights[station] = page.rights[station].max(1);
                });
            }
        }),
    ),
    (
        "a grant of right 0 to the last station lost",
        Flaw::Answer(|turn| {
            let lost = matches!(
                turn.call,
                Some(Call::Grant {
                    other: 15,
                    right: 0,
                    ..
                })
            );
            if lost {
                turn.after.tables = turn.before.tables.clone();
            }
        }),
    ),
];

/// Wrong deletes: what a kernel lays, fills and counts where a frame is freed, request [2] of
/// document 02.
const WRONG_DELETES: [(&str, Flaw); 21] = [
    (
        "freed bytes remain, as document 01 had it",
        Flaw::Answer(|turn| {
            turn.leave_frames(|_, _| true);
            turn.state_laid(0);
        }),
    ),
    (
        "freed frames counted and not filled",
        Flaw::Answer(|turn| turn.leave_frames(|_, _| true)),
    ),
    (
        "freed frames filled and not counted",
        Flaw::Answer(|turn| turn.state_laid(0)),
    ),
    (
        "freed frames filled and counted by delete copy alone",
        Flaw::Answer(|turn| {
            if let Some(Call::DeletePage { .. }) = turn.call {
                turn.leave_frames(|_, _| true);
                turn.state_laid(0);
            }
        }),
    ),
    (
        "freed frames filled and counted by delete page alone",
        Flaw::Answer(|turn| {
            if let Some(Call::DeleteCopy { .. }) = turn.call {
                turn.leave_frames(|_, _| true);
                turn.state_laid(0);
            }
        }),
    ),
    (
        "only slow frames filled",
        Flaw::Answer(|turn| {
            if !turn.gone().is_empty() {
                let fast = turn.tables_before().fast;
                turn.leave_frames(|_, copy| copy.frame.is_some_and(|frame| frame < fast));
            }
        }),
    ),
    (
        "only fast frames filled",
        Flaw::Answer(|turn| {
            if !turn.gone().is_empty() {
                let fast = turn.tables_before().fast;
                turn.leave_frames(|_, copy| copy.frame.is_some_and(|frame| frame >= fast));
            }
        }),
    ),
    (
        "only the first frame of a deleted page filled",
        Flaw::Answer(|turn| turn.leave_frames(|number, _| number > 0)),
    ),
    (
        "the eighth frame of a deleted page not filled",
        Flaw::Answer(|turn| turn.leave_frames(|number, _| number == 7)),
    ),
    (
        "stale copies' frames not filled",
        Flaw::Answer(|turn| turn.leave_frames(|_, copy| !copy.recent)),
    ),
    (
        "only CURRENT copies' frames filled",
        Flaw::Answer(|turn| turn.leave_frames(|_, copy| !copy.current)),
    ),
    (
        "the last byte of a freed frame not filled",
        Flaw::Answer(|turn| {
            let frames = turn.gone().into_iter().filter_map(|copy| copy.frame);
            for frame in frames.collect::<Vec<_>>() {
                let tables = turn.tables_before();
                turn.put_back(frame);
                turn.lay(&tables, frame, &[0; FRAME - 1]);
            }
        }),
    ),
    (
        "64 counted once for a page of several frames",
        Flaw::Answer(|turn| turn.state_laid(turn.answer.laid.min(64))),
    ),
    (
        "64 counted for each copy of a deleted page, a null copy too",
        Flaw::Answer(|turn| turn.state_laid(64 * turn.gone().len())),
    ),
    (
        "a frame that was all zeros not counted",
        Flaw::Answer(|turn| {
            if !turn.gone().is_empty() {
                let (tables, before) = (turn.tables_before(), turn.before);
                let frames = turn.gone().into_iter().filter_map(|copy| copy.frame);
                let held = frames.map(|f| frame_bytes(&tables, &before.fast, &before.slow, f));
                let counted = held.filter(|bytes| bytes.iter().any(|&byte| byte != 0));
                turn.state_laid(64 * counted.count());
            }
        }),
    ),
    (
        "the bytes laid by a delete in one byte",
        Flaw::Answer(|turn| turn.state_laid(turn.answer.laid % 256)),
    ),
    (
        "the frame of the copy that closed the gap filled",
        Flaw::Answer(|turn| {
            if let (Some(Call::DeleteCopy { copy, .. }), Some((_, page))) =
                (turn.call.clone(), turn.accepted_page())
            {
                let closes = page.copies.get(usize::from(copy) + 1);
                if let Some(frame) = closes.and_then(|closes| closes.frame) {
                    let tables = turn.tables_before();
                    turn.leave_frames(|_, _| true);
                    turn.lay(&tables, frame, &[0; FRAME]);
                }
            }
        }),
    ),
    (
        "zeros laid by a delete copy refused 15",
        Flaw::Answer(|turn| {
            if let (Some(Call::DeleteCopy { page, copy }), 15) =
                (turn.call.clone(), turn.answer.number)
            {
                let tables = turn.tables_before();
                let page = tables.pages[usize::from(page)].as_ref().expect("a page");
                if let Some(frame) = page.copies[usize::from(copy)].frame {
                    turn.lay(&tables, frame, &[0; FRAME]);
                }
            }
        }),
    ),
    (
        "zeros laid by a delete page refused 10",
        Flaw::Answer(|turn| {
            if let (Some(Call::DeletePage { page, .. }), 10) =
                (turn.call.clone(), turn.answer.number)
            {
                let tables = turn.tables_before();
                let page = tables.pages[usize::from(page)].as_ref().expect("a page");
                for frame in page.copies.iter().filter_map(|copy| copy.frame) {
                    turn.lay(&tables, frame, &[0; FRAME]);
                }
            }
        }),
    ),
    (
        "64 stated by a delete copy refused 15",
        Flaw::Answer(|turn| {
            if let (Some(Call::DeleteCopy { .. }), 15) = (&turn.call, turn.answer.number) {
                turn.reply(&[0, 4, 1, 15, 0, 64]);
                turn.answer.laid = 64;
            }
        }),
    ),
    (
        "zeros laid into frame 0 for a null copy",
        Flaw::Answer(|turn| {
            if turn.gone().iter().any(|copy| copy.frame.is_none()) {
                let tables = turn.tables_before();
                if tables.frames() > 0 {
                    turn.lay(&tables, 0, &[0; FRAME]);
                }
            }
        }),
    ),
];

/// Wrong retires: what a kernel does with kind 12, and with retired frames since, request [5] of
/// document 02. That 13 is tested before 20 is none of these: no frame of sound tables is held and
/// retired, so nothing shows it.
const WRONG_RETIRES: [(&str, Flaw); 27] = [
    (
        "kind 12 unknown, as document 01 had it",
        Flaw::Answer(|turn| {
            if let Some(Call::Retire { .. }) = turn.call {
                if !matches!(turn.answer.number, 5 | 6 | 18) {
                    turn.refuse(3);
                }
            }
        }),
    ),
    (
        "a held frame retired",
        Flaw::Answer(|turn| {
            if let Some(frame) = turn.retires(13) {
                turn.accept_with_mark(frame, 1);
            }
        }),
    ),
    (
        "20 for a retire of a held frame",
        Flaw::Answer(|turn| {
            if turn.retires(13).is_some() {
                turn.refuse(20);
            }
        }),
    ),
    (
        "the frame past the last retired",
        Flaw::Answer(|turn| {
            if let Some(frame @ 0..=253) = turn.retires(7) {
                if usize::from(frame) == turn.tables_before().frames() {
                    turn.accept_with_mark(frame, 1);
                }
            }
        }),
    ),
    (
        "the last frame not retired",
        Flaw::Answer(|turn| {
            if let Some(frame) = turn.retires(0) {
                if usize::from(frame) + 1 == turn.tables_before().frames() {
                    turn.refuse(7);
                }
            }
        }),
    ),
    (
        "a retire only acknowledged",
        Flaw::Answer(|turn| {
            if turn.retires(0).is_some() {
                turn.refuse(0);
            }
        }),
    ),
    (
        "a retire of a slow frame marks the fast frame of its place",
        Flaw::Answer(|turn| {
            if let Some(frame) = turn.retires(0) {
                let fast = turn.tables_before().fast;
                if (fast..2 * fast).contains(&frame) {
                    turn.accept_with_mark(frame - fast, 1);
                }
            }
        }),
    ),
    (
        "a frame retired again refused 20",
        Flaw::Answer(|turn| {
            if turn.retires_again().is_some() {
                turn.refuse(20);
            }
        }),
    ),
    (
        "a frame retired again refused 13",
        Flaw::Answer(|turn| {
            if turn.retires_again().is_some() {
                turn.refuse(13);
            }
        }),
    ),
    (
        "a frame retired again is free again",
        Flaw::Answer(|turn| {
            if let Some(frame) = turn.retires_again() {
                turn.mark(frame, 0);
            }
        }),
    ),
    (
        "a retired frame filled with zeros",
        Flaw::Answer(|turn| {
            if let Some(frame) = turn.retires(0) {
                let tables = turn.tables_before();
                turn.lay(&tables, frame, &[0; FRAME]);
            }
        }),
    ),
    (
        "64 bytes laid stated by a retire",
        Flaw::Answer(|turn| {
            if turn.retires(0).is_some() {
                turn.reply(&[0, 4, 1, 0, 0, 64]);
                turn.answer.laid = 64;
            }
        }),
    ),
    (
        "a retire tells what a look at the frame shows",
        Flaw::Answer(|turn| {
            if turn.retires(0).is_some() {
                turn.reply(&[0, 7, 1, 0, 0, 0, 2, 255, 255]);
            }
        }),
    ),
    (
        "a retired frame shown as free",
        Flaw::Answer(|turn| {
            if turn.after.out.get(3..9) == Some(&[0, 0, 0, 2, 255, 255]) && turn.answer.length == 9
            {
                turn.after.out[6] = 0;
            }
        }),
    ),
    (
        "a retired frame shown as held",
        Flaw::Answer(|turn| {
            if turn.after.out.get(3..9) == Some(&[0, 0, 0, 2, 255, 255]) && turn.answer.length == 9
            {
                turn.after.out[6] = 1;
            }
        }),
    ),
    (
        "a retired frame taken for a held one",
        Flaw::Answer(|turn| turn.swap(20, 13)),
    ),
    (
        "a retired frame takes a copy and stays retired",
        Flaw::Answer(|turn| {
            if let Some(frame) = turn.copy_as_if_free() {
                turn.mark(frame, 1);
            }
        }),
    ),
    (
        "a retired frame takes a copy and is retired no more",
        Flaw::Answer(|turn| {
            turn.copy_as_if_free();
        }),
    ),
    (
        "a retired frame takes a null copy",
        Flaw::Answer(|turn| {
            if let (Some(Call::MakeCopy { page, .. }), 20) = (&turn.call, turn.answer.number) {
                let tables = turn.tables_before();
                let page = tables.pages[usize::from(*page)].as_ref().expect("a page");
                if page.copies[0].frame.is_none() {
                    turn.copy_as_if_free();
                }
            }
        }),
    ),
    (
        "retired before no page",
        Flaw::Answer(|turn| turn.retired_before(9)),
    ),
    (
        "retired before no copy",
        Flaw::Answer(|turn| turn.retired_before(12)),
    ),
    (
        "eight copies before retired",
        Flaw::Answer(|turn| {
            if let (Some(Call::MakeCopy { page, .. }), 20) = (&turn.call, turn.answer.number) {
                let tables = turn.tables_before();
                let page = tables.pages[usize::from(*page)].as_ref().expect("a page");
                if page.copies.len() == ENTRIES {
                    turn.refuse(14);
                }
            }
        }),
    ),
    (
        "the marks lost when a page is deleted",
        Flaw::Answer(|turn| {
            if let Some(Call::DeletePage { .. }) = turn.call {
                turn.lose_marks();
            }
        }),
    ),
    (
        "the marks lost when a copy is deleted",
        Flaw::Answer(|turn| {
            if let Some(Call::DeleteCopy { .. }) = turn.call {
                turn.lose_marks();
            }
        }),
    ),
    (
        "frames freed by a delete are retired",
        Flaw::Answer(|turn| {
            for frame in turn.gone().into_iter().filter_map(|copy| copy.frame) {
                turn.mark(frame, 1);
            }
        }),
    ),
    (
        "a retired frame's bytes changed by a write",
        Flaw::Answer(|turn| {
            if let (Some(Call::Write { bytes, .. }), Some(_)) =
                (turn.call.clone(), turn.accepted_page())
            {
                let tables = turn.tables_before();
                if let Some(frame) = tables.retired_frames().next() {
                    turn.lay(&tables, frame, &bytes);
                }
            }
        }),
    ),
    (
        "a retire enters the frame in the register",
        Flaw::Answer(|turn| {
            if let Some(frame) = turn.retires(0) {
                gen::set_holder(&mut turn.after.tables, frame, 0);
            }
        }),
    ),
];

/// Frees the retired frames from one on.
fn unretire(tables: &mut [u8], from: usize) {
    for frame in from..REGISTERED {
        if tables.len() == RAW && gen::holder(tables, frame as u8) == RETIRED {
            gen::set_holder(tables, frame as u8, FREE_ENTRY);
        }
    }
}

/// Retired frames that break a table rule and are let pass, and fresh tables with some.
const WRONG_STATES: [(&str, Flaw); 4] = [
    (
        "a retired frame past the last one let pass",
        Flaw::Mend(|tables| {
            let frames = usize::from(tables[0]) + usize::from(tables[1]);
            unretire(tables, frames);
        }),
    ),
    (
        "a copy on a retired frame let pass",
        Flaw::Mend(|tables| {
            let mut anew = tables.to_vec();
            gen::register_anew(&mut anew);
            for frame in 0..REGISTERED as u8 {
                if gen::holder(tables, frame) == RETIRED {
                    gen::set_holder(tables, frame, gen::holder(&anew, frame));
                }
            }
        }),
    ),
    (
        "a run leaves no frame retired",
        Flaw::Run(|lent| unretire(&mut lent.tables, 0)),
    ),
    (
        "tables of too many frames with every frame retired",
        Flaw::Fresh(|tables| {
            for frame in 0..REGISTERED as u8 {
                gen::set_holder(tables, frame, RETIRED);
            }
            19
        }),
    ),
];

/// Contents shown to placement, request [7] of document 02: in a number, a reply, what lies behind
/// it, a length, the tables, the tally or the place that a run reaches.
const LEAKS: [(&str, Flaw); 32] = [
    // Bytes laid.
    (
        "a copy of zeros lays nothing",
        Flaw::Answer(|turn| {
            if let Some([source, _]) = turn.copies() {
                if turn.held_zeros(source) {
                    turn.accept_laying(0);
                }
            }
        }),
    ),
    (
        "a copy to a frame that has the bytes already lays nothing",
        Flaw::Answer(|turn| {
            if let Some([source, frame]) = turn.copies() {
                if turn.held(source) == turn.held(frame) {
                    turn.accept_laying(0);
                }
            }
        }),
    ),
    (
        "the bytes of a write that change counted as laid",
        Flaw::Answer(|turn| {
            if turn.writes().is_some() {
                turn.accept_laying(changed(turn.before, turn.after));
            }
        }),
    ),
    // The tables.
    (
        "a new copy of zeros is stale",
        Flaw::Answer(|turn| {
            let (Some([source, _]), Some((number, _))) = (turn.copies(), turn.accepted_page())
            else {
                return;
            };
            if turn.held_zeros(source) {
                turn.change_page(number, |page| {
                    page.copies.last_mut().expect("a copy").recent = false;
                });
            }
        }),
    ),
    (
        "a page of zeros has a null copy again",
        Flaw::Answer(|turn| {
            if let Some((number, page)) = turn.writes() {
                let tables = turn.tables_before();
                let Lent { fast, slow, .. } = &*turn.after;
                let frames = page.current_frames();
                if frame_bytes(&tables, fast, slow, frames[0]) == [0; FRAME] {
                    turn.change_page(number, |page| {
                        page.copies = vec![PageCopy {
                            frame: None,
                            current: false,
                            recent: true,
                        }];
                    });
                }
            }
        }),
    ),
    (
        "a write's first byte in the rights of the page",
        Flaw::Answer(|turn| {
            if let Some((number, _)) = turn.writes() {
                let right = carried(turn.message)[0] % 3;
                turn.change_page(number, |page| page.rights[15] = right);
            }
        }),
    ),
    (
        "a stale copy with the CURRENT copy's bytes set current",
        Flaw::Answer(|turn| {
            let (Some(Call::SetCurrent { page, copy }), 16) = (&turn.call, turn.answer.number)
            else {
                return;
            };
            let (number, copy) = (usize::from(*page), usize::from(*copy));
            let tables = turn.tables_before();
            let page = tables.pages[number].as_ref().expect("a page");
            let (current, stale) = (page.current_frames(), page.copies[copy].frame);
            if let (Some(&current), Some(stale)) = (current.first(), stale) {
                if turn.held(current) == turn.held(stale) {
                    turn.change_page(number, |page| {
                        (page.copies[copy].current, page.copies[copy].recent) = (true, true);
                    });
                    turn.accept_laying(0);
                }
            }
        }),
    ),
    // Numbers.
    (
        "a MOST RECENT copy with other bytes than the CURRENT one refused as stale",
        Flaw::Answer(|turn| {
            let (Some(Call::SetCurrent { copy, .. }), Some((_, page))) =
                (&turn.call, turn.accepted_page())
            else {
                return;
            };
            let set = page.copies[usize::from(*copy)].frame;
            if let (Some(&current), Some(set)) = (page.current_frames().first(), set) {
                if turn.held(current) != turn.held(set) {
                    turn.refuse(16);
                }
            }
        }),
    ),
    (
        "a frame that is not zeros not copied to",
        Flaw::Answer(|turn| {
            if let Some([_, frame]) = turn.copies() {
                if !turn.held_zeros(frame) {
                    turn.refuse(13);
                }
            }
        }),
    ),
    (
        "a frame that is not zeros not retired",
        Flaw::Answer(|turn| {
            if let Some(frame) = turn.retires(0) {
                if !turn.held_zeros(frame) {
                    turn.refuse(13);
                }
            }
        }),
    ),
    (
        "a copy whose bytes no other copy has not deleted",
        Flaw::Answer(|turn| {
            let (Some(Call::DeleteCopy { copy, .. }), Some((_, page))) =
                (&turn.call, turn.accepted_page())
            else {
                return;
            };
            let held = |copy: &PageCopy| copy.frame.map(|frame| turn.held(frame).to_vec());
            let gone = held(&page.copies[usize::from(*copy)]);
            let with_them = page.copies.iter().filter(|copy| held(copy) == gone);
            if with_them.count() == 1 {
                turn.refuse(15);
            }
        }),
    ),
    (
        "a page of zeros not deleted",
        Flaw::Answer(|turn| {
            if let Some(Call::DeletePage { .. }) = turn.call {
                let frames: Vec<u8> = turn.gone().iter().filter_map(|copy| copy.frame).collect();
                if !frames.is_empty() && frames.iter().all(|&frame| turn.held_zeros(frame)) {
                    turn.refuse(10);
                }
            }
        }),
    ),
    (
        "a write of zeros refused",
        Flaw::Answer(|turn| {
            if turn.writes().is_some() && carried(turn.message).iter().all(|&byte| byte == 0) {
                turn.refuse(7);
            }
        }),
    ),
    (
        "a write refused 4 or 7 by its last byte",
        Flaw::Answer(|turn| {
            if turn.carries_odd() {
                turn.swap(4, 7);
            }
        }),
    ),
    (
        "a short buffer refused 18 or 4 by a write's last byte",
        Flaw::Answer(|turn| {
            if turn.answer.number == 18 && turn.carries_odd() {
                turn.answer.number = 4;
            }
        }),
    ),
    (
        "misfit stores refused 6 or 7 by a stored byte",
        Flaw::Answer(|turn| {
            if turn.holds_odd() {
                turn.swap(6, 7);
            }
        }),
    ),
    (
        "broken tables refused 5 or 6 by a stored byte",
        Flaw::Answer(|turn| {
            if turn.holds_odd() {
                turn.swap(5, 6);
            }
        }),
    ),
    // Replies.
    (
        "a byte of a write refused 4 told in its reply",
        Flaw::Answer(|turn| turn.tell_carried(4)),
    ),
    (
        "a byte of a write refused 10 told in its reply",
        Flaw::Answer(|turn| turn.tell_carried(10)),
    ),
    (
        "a byte of a write cut short told in its reply",
        Flaw::Answer(|turn| turn.tell_carried(1)),
    ),
    (
        "a stored byte told in the reply to a grant",
        Flaw::Answer(|turn| {
            if let (Some(Call::Grant { .. }), Some((_, page))) = (&turn.call, turn.accepted_page())
            {
                if let Some(frame) = page.copies[0].frame {
                    turn.after.out[5] = turn.held(frame)[0];
                }
            }
        }),
    ),
    (
        "a stored byte laid behind the reply to a read refused 11",
        Flaw::Answer(|turn| {
            let (Some(Call::Read { page, .. }), 11) = (&turn.call, turn.answer.number) else {
                return;
            };
            let tables = turn.tables_before();
            let page = tables.pages[usize::from(*page)].as_ref().expect("a page");
            if let Some(frame) = page.copies[0].frame {
                turn.after.out[6] = turn.held(frame)[0];
            }
        }),
    ),
    (
        "a stale copy with the CURRENT copy's bytes shown as MOST RECENT",
        Flaw::Answer(|turn| {
            let Some((_, page)) = turn.looks_at() else {
                return;
            };
            let Some(&current) = page.current_frames().first() else {
                return;
            };
            for (number, copy) in page.copies.iter().enumerate() {
                let frame = copy.frame.expect("a frame beside a CURRENT copy");
                if turn.held(frame) == turn.held(current) {
                    turn.after.out[7 + 3 * number + 2] = 1;
                }
            }
        }),
    ),
    (
        "a look at a page a byte longer where its first two copies are equal",
        Flaw::Answer(|turn| {
            let frames = turn.looks_at().map(|(_, page)| page.copies);
            let frames: Vec<u8> = frames
                .iter()
                .flatten()
                .filter_map(|copy| copy.frame)
                .collect();
            if let [one, other, ..] = frames[..] {
                if turn.held(one) == turn.held(other) {
                    let mut reply = turn.after.out[..turn.answer.length].to_vec();
                    reply[1] += 1;
                    reply.push(1);
                    turn.reply(&reply);
                }
            }
        }),
    ),
    (
        "a free frame of zeros shown as another",
        Flaw::Answer(|turn| {
            if let (Some(Call::LookFrame { frame }), 0) = (&turn.call, turn.answer.number) {
                if turn.tables_before().is_free(*frame) && turn.held_zeros(*frame) {
                    turn.after.out[7] = 0;
                }
            }
        }),
    ),
    (
        "a read of zeros told without its data",
        Flaw::Answer(|turn| {
            if let (Some(Call::Read { .. }), 0) = (&turn.call, turn.answer.number) {
                if turn.after.out[6..turn.answer.length]
                    .iter()
                    .all(|&byte| byte == 0)
                {
                    turn.accept_laying(0);
                }
            }
        }),
    ),
    (
        "a read tells as laid its first byte",
        Flaw::Answer(|turn| {
            if let (Some(Call::Read { .. }), 0) = (&turn.call, turn.answer.number) {
                turn.after.out[5] = turn.after.out[6];
            }
        }),
    ),
    // Runs.
    (
        "a tally of the bytes that change",
        Flaw::Tally(|tally, answer, [before, after]| {
            tally[0] = tally[0].saturating_add(1);
            tally[1] = tally[1].saturating_add((answer.number != 0).into());
            tally[2] = tally[2].saturating_add(changed(before, after) as u32);
        }),
    ),
    (
        "a message that lays the bytes that stand there counted as refused",
        Flaw::Tally(|tally, answer, [before, after]| {
            let is_idle = answer.laid > 0 && changed(before, after) == 0;
            tally[0] = tally[0].saturating_add(1);
            tally[1] = tally[1].saturating_add((answer.number != 0 || is_idle).into());
            tally[2] = tally[2].saturating_add(answer.laid as u32);
        }),
    ),
    (
        "a stored byte told in the last reply of a run",
        Flaw::Run(|lent| {
            if let (Some(told), Some(&byte)) = (lent.out.get_mut(5), lent.fast.first()) {
                *told = byte;
            }
        }),
    ),
    (
        "a run ends behind a write of a zero",
        Flaw::File(|file| behind_zero(file, 0)),
    ),
    (
        "a part ends behind a write of a zero",
        Flaw::Replies(|lent, file, at, tally| {
            Modelled.replies(lent, &file[..behind_zero(file, at)], at, tally)
        }),
    ),
];

/// How many bytes of the stores differ.
fn changed(before: &Lent, after: &Lent) -> usize {
    let bytes = |lent: &Lent| [&lent.fast[..], &lent.slow].concat();
    let (before, after) = (bytes(before), bytes(after));
    before.iter().zip(after).filter(|(b, a)| *b != a).count()
}

/// From a place on, the end of the first write whose first byte is 0, or of the file.
fn behind_zero(file: &[u8], mut at: usize) -> usize {
    for message in Reader::at(file, at) {
        at += message.len();
        if carried(message).first() == Some(&0) {
            return at;
        }
    }
    file.len()
}

/// 5 on sound tables, alike whatever the contents are.
const FIVES: [(&str, Flaw); 6] = [
    (
        "5 for a page that does not stand where none does",
        Flaw::Answer(|turn| {
            if turn.answer.number == 9 && turn.tables_before().copies().count() == 0 {
                turn.refuse(5);
            }
        }),
    ),
    (
        "5 where no frame is free",
        Flaw::Answer(|turn| {
            if turn.answer.number == 13 {
                let tables = turn.tables_before();
                if tables.held() == tables.frames() {
                    turn.refuse(5);
                }
            }
        }),
    ),
    (
        "5 for a retired frame",
        Flaw::Answer(|turn| turn.swap(20, 5)),
    ),
    ("5 for misfit stores", Flaw::Answer(|turn| turn.swap(6, 5))),
    (
        "5 in the last reply of a run whose file is cut short",
        Flaw::Run(|lent| {
            if lent.out.get(..4) == Some(&[0, 4, 1, 1]) {
                lent.out[3] = 5;
            }
        }),
    ),
    (
        "5 in the parts of a run for a page that stands",
        Flaw::Replies(|lent, file, at, tally| {
            let reached = Modelled.replies(lent, file, at, tally);
            let mut at = 0;
            while at < reached.used {
                let reply = &mut lent.out[at..];
                if reply[3] == 8 {
                    reply[3] = 5;
                }
                at += 2 + usize::from(reply[1]);
            }
            reached
        }),
    ),
];

/// Wrong forecasts; the answers, the run and its parts are right.
const WRONG_FORECASTS: [(&str, Flaw); 21] = [
    (
        "the most frames after messages, not at the start",
        Flaw::Most(|held| held[1..].iter().copied().max().unwrap_or(0)),
    ),
    (
        "the most frames at the end alone",
        Flaw::Most(|held| *held.last().expect("a start")),
    ),
    (
        "the most frames at the start alone",
        Flaw::Most(|held| held[0]),
    ),
    (
        "the most frames before the last message",
        Flaw::Most(|held| {
            let before = &held[..(held.len() - 1).max(1)];
            before.iter().copied().max().expect("a start")
        }),
    ),
    (
        "null copies counted as frames held",
        Flaw::Held(|state| state.held + state.null),
    ),
    (
        "retired frames counted as held",
        Flaw::Held(|state| state.held + state.retired),
    ),
    (
        "refused messages left out of a forecast",
        Flaw::Foresees(|forecast, turn| {
            if turn.answer.number == 0 {
                forecast.lay(turn.answer.laid);
                forecast.count(0);
            }
        }),
    ),
    (
        "a cut end counted twice",
        Flaw::Foresees(|forecast, turn| {
            forecast.lay(turn.answer.laid);
            forecast.count(turn.answer.number);
            if turn.answer.number == 1 {
                forecast.count(1);
            }
        }),
    ),
    (
        "a cut end not counted",
        Flaw::Foresees(|forecast, turn| {
            forecast.lay(turn.answer.laid);
            if turn.answer.number != 1 {
                forecast.count(turn.answer.number);
            }
        }),
    ),
    (
        "a broken message counted under 2",
        Flaw::Foresees(|forecast, turn| {
            forecast.lay(turn.answer.laid);
            let number = turn.answer.number;
            forecast.count(if number == 3 { 2 } else { number });
        }),
    ),
    (
        "bytes laid of refused writes",
        Flaw::Foresees(|forecast, turn| {
            forecast.lay(match turn.answer.number {
                0 => turn.answer.laid,
                _ => carried(turn.message).len(),
            });
            forecast.count(turn.answer.number);
        }),
    ),
    (
        "bytes laid of writes once, not for each copy",
        Flaw::Foresees(|forecast, turn| {
            let is_write = !carried(turn.message).is_empty();
            forecast.lay(match (turn.answer.number, is_write) {
                (0, true) => carried(turn.message).len(),
                _ => turn.answer.laid,
            });
            forecast.count(turn.answer.number);
        }),
    ),
    (
        "bytes laid of deletes left out of a forecast",
        Flaw::Foresees(|forecast, turn| {
            let is_delete = matches!(turn.message, [_, _, _, 2 | 7, ..]);
            forecast.lay(if is_delete { 0 } else { turn.answer.laid });
            forecast.count(turn.answer.number);
        }),
    ),
    (
        "bytes laid of zeros left out of a forecast",
        Flaw::Foresees(|forecast, turn| {
            let is_zeros = carried(turn.message).starts_with(&[0]);
            forecast.lay(if is_zeros { 0 } else { turn.answer.laid });
            forecast.count(turn.answer.number);
        }),
    ),
    (
        "a count of 16 bits that wraps",
        Flaw::Forecast(|_, figures, _, _, lent| {
            if lent.len() == FIGURES {
                figures[2..].iter_mut().for_each(|count| *count %= 65536);
            }
        }),
    ),
    (
        "bytes laid of 16 bits that wrap",
        Flaw::Forecast(|_, figures, _, _, lent| {
            if lent.len() == FIGURES {
                figures[1] %= 65536;
            }
        }),
    ),
    (
        "the count under 5 set to 1 for broken tables",
        Flaw::Forecast(|number, figures, _, _, lent| {
            if *number == 5 && lent.len() == FIGURES {
                figures[2 + 5] = 1;
            }
        }),
    ),
    (
        "the figures left alone for broken tables",
        Flaw::Forecast(|number, figures, _, _, lent| {
            if *number == 5 {
                figures.copy_from_slice(lent);
            }
        }),
    ),
    (
        "0 for an empty file on broken tables",
        Flaw::Forecast(|number, _, _, file, _| {
            if file.is_empty() {
                *number = 0;
            }
        }),
    ),
    (
        "the frames that the register of broken tables has",
        Flaw::Forecast(|number, figures, tables, _, lent| {
            if *number == 5 && tables.len() == RAW && lent.len() == FIGURES {
                let entries = tables[REGISTER..].chunks(2);
                let held = entries.filter(|entry| entry[1] < 2);
                figures[0] = held.count() as u32;
            }
        }),
    ),
    (
        "figures of another length written",
        Flaw::Forecast(|_, figures, _, _, lent| {
            if lent.len() != FIGURES {
                figures.fill(0);
            }
        }),
    ),
];

fn mutants() -> impl Iterator<Item = (&'static str, Flaw)> {
    let of_document_2 = WRONG_PAIRS.into_iter().chain(WRONG_CREATES);
    let of_document_2 = of_document_2.chain(WRONG_DELETES).chain(WRONG_RETIRES);
    let of_document_2 = of_document_2.chain(WRONG_STATES);
    let of_document_2 = of_document_2.chain(LEAKS).chain(FIVES);
    let of_document_2 = of_document_2.chain(WRONG_FORECASTS);
    MUTANTS.into_iter().chain(of_document_2)
}

const SEED: u64 = 1;
const MESSAGES: u64 = 200_000;

#[test]
fn the_model_passes() {
    let counts = compare(&Modelled, SEED, MESSAGES).expect("no difference");
    assert!(counts.too_few().is_empty(), "{:?}", counts.too_few());
}

/// The floors are reached by what every comparison begins with, whatever its seed.
#[test]
fn no_floor_hangs_on_the_seed() {
    for seed in 2..6 {
        let counts = compare(&Modelled, seed, 0).expect("no difference");
        assert!(counts.too_few().is_empty(), "{:?}", counts.too_few());
    }
}

/// Those of the mutants whose names pass that a check does not catch.
fn missed(
    named: impl Fn(&str) -> bool,
    check: impl Fn(&Mutant) -> Result<(), String> + Sync,
) -> Vec<&'static str> {
    let check = &check;
    std::thread::scope(|scope| {
        let tried = mutants().filter(|(name, _)| named(name));
        let checks: Vec<_> = tried
            .map(|(name, flaw)| (name, scope.spawn(move || check(&Mutant(flaw)).is_ok())))
            .collect();
        let joined = checks
            .into_iter()
            .map(|(name, check)| (name, check.join().expect("a check")));
        let missed = joined.filter(|(_, passed)| *passed);
        missed.map(|(name, _)| name).collect()
    })
}

#[test]
fn every_mutant_is_caught() {
    let missed = missed(|_| true, |mutant| compare(mutant, SEED, MESSAGES).map(drop));
    assert_eq!(missed, Vec::<&str>::new());
}

/// Each trap and each impostor of document 01, each wrong pair of right and act and each wrong
/// create gets a reply of its file wrong.
#[test]
fn traps_impostors_wrong_pairs_and_wrong_creates_are_exposed() {
    for case in EXPOSING.iter().chain(&PAIRS).chain(&CREATES) {
        let flaw = mutants().find(|(name, _)| *name == case.name);
        let (_, flaw) = flaw.unwrap_or_else(|| panic!("no mutant: {}", case.name));
        let served = in_parts(&Mutant(flaw), &case.file(), 1000);
        assert_ne!(served.replies, case.replies(), "{}", case.name);
    }
}

/// Each wrong delete gets a reply wrong, or a byte in the stores, in one of the worked cases.
#[test]
fn wrong_deletes_are_exposed() {
    for (name, flaw) in WRONG_DELETES {
        assert!(is_exposed(&Mutant(flaw), &DELETES), "{name}");
    }
}

fn is_exposed(mutant: &Mutant, cases: &[StoreCase]) -> bool {
    cases.iter().any(|store_case| {
        let served = in_parts(mutant, &store_case.case.file(), 1000);
        let stores = [served.left.fast, served.left.slow];
        served.replies != store_case.case.replies() || stores != store_case.stores()
    })
}

/// Each wrong retire too, in one of its own worked cases or of those on shaped tables.
#[test]
fn wrong_retires_are_exposed() {
    let shaped = gen::shaped(&mut Rng::new(SEED));
    for (name, flaw) in WRONG_RETIRES {
        let mutant = Mutant(flaw);
        let mut on_shaped = RETIRES_ON_SHAPED.iter().filter(|(line, reply)| {
            let mut left = shaped.clone();
            let length = mutant.answer(&mut left, &bytes(line)) as usize / 256 % 256;
            hex(&left.out[..length]) != *reply
        });
        let exposed = is_exposed(&mutant, &RETIRES) || on_shaped.next().is_some();
        assert!(exposed, "{name}");
    }
}

/// One message of a run.
struct Answered<'a> {
    before: &'a Lent,
    /// Those lent before.
    tables: &'a Tables,
    message: &'a [u8],
    after: &'a Lent,
    reply: &'a [u8],
}

/// Runs with what is looked at in them: message by message, and at the end what was left.
fn runs<Looked>(
    kernel: &dyn Kernel,
    lend: fn(&mut Rng) -> Lent,
    start: impl Fn(&Lent) -> Looked,
    turn: impl Fn(&mut Looked, &Answered) -> Result<(), String>,
    end: impl Fn(Looked, &Tables, &Lent) -> Result<(), String>,
) -> Result<(), String> {
    let mut rng = Rng::new(SEED);
    for _ in 0..100 {
        let mut lent = lend(&mut rng);
        let mut looked = start(&lent);
        let mut moves = Moves::new(&mut rng);
        for _ in 0..300 {
            let tables = Tables::from_raw(&lent.tables).ok_or("broken tables")?;
            let message = moves.next(&mut rng, &tables, &lent, false);
            let before = lent.clone();
            let length = kernel.answer(&mut lent, &message) as usize / 256 % 256;
            let answered = Answered {
                before: &before,
                tables: &tables,
                message: &message,
                after: &lent,
                reply: &lent.out[..length],
            };
            turn(&mut looked, &answered)?;
        }
        let tables = Tables::from_raw(&lent.tables).ok_or("broken tables")?;
        end(looked, &tables, &lent)?;
    }
    Ok(())
}

/// What every check of pairs of files begins with, whatever its seed, without the model; an error
/// is of this sort.
fn pairs(kernel: &dyn Kernel, sort: &str) -> Result<(), String> {
    of_sort(hidden::check_events(kernel, SEED).map(drop), sort)
}

/// Panics at an error that does not begin so.
fn of_sort(checked: Result<(), String>, sort: &str) -> Result<(), String> {
    match checked {
        Err(error) if !error.starts_with(sort) => panic!("{error}"),
        checked => checked,
    }
}

/// Runs from fresh tables on which demand 3 alone looks.
fn demand3(kernel: &dyn Kernel) -> Result<(), String> {
    runs(
        kernel,
        gen::fresh,
        |_| Demand3::start(),
        |demand3, turn| demand3.turn(turn.tables, turn.message, turn.reply),
        |demand3, tables, lent| demand3.end(tables, &lent.fast, &lent.slow),
    )
}

/// Runs from fresh tables on whose free frames alone is looked.
fn clean(kernel: &dyn Kernel) -> Result<(), String> {
    runs(
        kernel,
        gen::fresh,
        Clean::start,
        |clean, turn| {
            clean.turn(turn.tables);
            Ok(())
        },
        |mut clean, tables, lent| {
            clean.turn(tables);
            clean.end(tables, &lent.fast, &lent.slow)
        },
    )
}

/// Runs on sound tables on whose free, held and retired frames alone is looked.
fn frames(kernel: &dyn Kernel) -> Result<(), String> {
    runs(
        kernel,
        gen::lawful,
        Frames::start,
        |frames, turn| frames.turn(turn.before, turn.after),
        |_, _, _| Ok(()),
    )
}

/// Runs from fresh tables on whose copies alone is looked, by the writes that they carry.
fn histories(kernel: &dyn Kernel) -> Result<(), String> {
    runs(
        kernel,
        gen::fresh,
        History::start,
        |history, turn| history.turn(kernel, turn.message, turn.reply, turn.after),
        |history, _, lent| history.end(kernel, lent),
    )
}

const DEMAND_3: [&str; 20] = [
    "one current copy of two written",
    "a free frame's old bytes taken for zeros",
    "nothing current before looking",
    "refuses all",
    "a constant reply",
    "reads zeros where nothing is current",
    "a grant of right 2 gives the page away",
    "the owner's own right stays",
    "a read with right 0 accepted",
    "a write with right 0 accepted",
    "a read with right 1 refused",
    "a write with right 1 accepted",
    "a read with right 2 refused",
    "a write with right 2 refused",
    "a read of 64 bytes refused",
    "nothing current before no right",
    "the frame of the copy that closed the gap filled",
    "zeros laid by a delete copy refused 15",
    "zeros laid by a delete page refused 10",
    "zeros laid into frame 0 for a null copy",
];

/// What deletes leave in frames that no copy has, and what they state as laid, is no part of the
/// flat memory: demand 3 passes all of these.
const NOT_DEMAND_3: [&str; 17] = [
    "freed bytes remain, as document 01 had it",
    "freed frames counted and not filled",
    "freed frames filled and not counted",
    "freed frames filled and counted by delete copy alone",
    "freed frames filled and counted by delete page alone",
    "only slow frames filled",
    "only fast frames filled",
    "only the first frame of a deleted page filled",
    "the eighth frame of a deleted page not filled",
    "stale copies' frames not filled",
    "only CURRENT copies' frames filled",
    "the last byte of a freed frame not filled",
    "64 counted once for a page of several frames",
    "64 counted for each copy of a deleted page, a null copy too",
    "a frame that was all zeros not counted",
    "the bytes laid by a delete in one byte",
    "64 stated by a delete copy refused 15",
];

/// Those that leave other bytes than zeros in a freed frame, or zeros in one that was never held.
const NOT_CLEAN: [&str; 12] = [
    "freed bytes remain, as document 01 had it",
    "freed frames counted and not filled",
    "freed frames filled and counted by delete copy alone",
    "freed frames filled and counted by delete page alone",
    "only slow frames filled",
    "only fast frames filled",
    "only the first frame of a deleted page filled",
    "the eighth frame of a deleted page not filled",
    "stale copies' frames not filled",
    "only CURRENT copies' frames filled",
    "the last byte of a freed frame not filled",
    "the frame of the copy that closed the gap filled",
];

/// Those that leave a frame free, held or retired at once, a mark gone, or other bytes in a retired
/// frame than it had.
const NOT_ONE_STATE: [&str; 12] = [
    "a held frame retired",
    "the frame past the last retired",
    "a retire of a slow frame marks the fast frame of its place",
    "a frame retired again is free again",
    "a retired frame filled with zeros",
    "a retired frame takes a copy and stays retired",
    "a retired frame takes a copy and is retired no more",
    "a retired frame takes a null copy",
    "the marks lost when a page is deleted",
    "the marks lost when a copy is deleted",
    "frames freed by a delete are retired",
    "a retired frame's bytes changed by a write",
];

/// Numbers, their order, what a look shows and what is stated as laid say nothing of the three states:
/// all of these are seen beside the model only.
const ONE_STATE: [&str; 14] = [
    "kind 12 unknown, as document 01 had it",
    "20 for a retire of a held frame",
    "the last frame not retired",
    "a retire only acknowledged",
    "a frame retired again refused 20",
    "a frame retired again refused 13",
    "64 bytes laid stated by a retire",
    "a retire tells what a look at the frame shows",
    "a retired frame shown as free",
    "a retired frame shown as held",
    "a retired frame taken for a held one",
    "retired before no page",
    "retired before no copy",
    "eight copies before retired",
];

/// Those of the wrong retires that leave broken tables, which end a run.
const BREAKING: [&str; 5] = [
    "a held frame retired",
    "the frame past the last retired",
    "a retire of a slow frame marks the fast frame of its place",
    "a retired frame takes a copy and stays retired",
    "a retire enters the frame in the register",
];

/// Those that take an old copy for the latest or the latest for an old one, lose the last write, put
/// copies in another order, or leave or show other bytes.
const NOT_THE_HISTORY: [&str; 24] = [
    "a new copy takes its source's CURRENT mark",
    "stale marks spared when equal bytes are written",
    "one current copy of two written",
    "last recent deleted where it is not current",
    "last current spared, and last recent not",
    "the only copy deleted, and the page with it",
    "a new copy is always recent",
    "set current without the test for stale",
    "a stale copy set CURRENT and MOST RECENT",
    "a write laid into stale copies too",
    "a free frame's old bytes taken for zeros",
    "drops moves",
    "reads zeros where nothing is current",
    "a new copy goes to the front",
    "the last copy fills the gap",
    "set current takes the mark from the others",
    "remove current takes MOST RECENT too",
    "the frame of the copy that closed the gap filled",
    "zeros laid by a delete copy refused 15",
    "zeros laid by a delete page refused 10",
    "a new copy of zeros is stale",
    "a page of zeros has a null copy again",
    "a stale copy with the CURRENT copy's bytes set current",
    "a stale copy with the CURRENT copy's bytes shown as MOST RECENT",
];

/// A history goes by what was accepted, rightly or not, and speaks of copies alone. All CURRENT ones
/// carry the last write, so that it is the same which of them is read.
const THE_HISTORY: [&str; 5] = [
    "last current spared for last recent",
    "refuses all",
    "reads the last current copy",
    "a write with right 1 accepted",
    "freed bytes remain, as document 01 had it",
];

/// Which of the mutants on a list a check does not catch; each on it is a mutant.
fn missed_of(
    list: &[&str],
    check: impl Fn(&Mutant) -> Result<(), String> + Sync,
) -> Vec<&'static str> {
    let named = |name: &str| list.contains(&name);
    let tried = mutants().filter(|(name, _)| named(name));
    assert_eq!(tried.count(), list.len());
    missed(named, check)
}

#[test]
fn demand_3_catches_what_breaks_it() {
    demand3(&Modelled).expect("demand 3");
    let missed = missed_of(&DEMAND_3, |mutant| demand3(mutant));
    assert_eq!(missed, Vec::<&str>::new());
    let missed = missed_of(&NOT_DEMAND_3, |mutant| demand3(mutant));
    assert_eq!(missed, NOT_DEMAND_3);
}

/// The flat memory's create is that of request [6] too, and owners and rights are compared at the
/// end: demand 3 sees every wrong create.
#[test]
fn demand_3_catches_every_wrong_create() {
    let names = WRONG_CREATES.map(|(name, _)| name);
    let missed = missed_of(&names, |mutant| demand3(mutant));
    assert_eq!(missed, Vec::<&str>::new());
}

/// The flat memory passes over kind 12, and over the copies and looks that retired frames bear on:
/// demand 3 sees no wrong retire that leaves the tables sound.
#[test]
fn demand_3_passes_over_retires() {
    let names = WRONG_RETIRES.iter().map(|(name, _)| *name);
    let sound: Vec<&str> = names.filter(|name| !BREAKING.contains(name)).collect();
    assert_eq!(sound.len(), WRONG_RETIRES.len() - BREAKING.len());
    let missed = missed_of(&sound, |mutant| demand3(mutant));
    assert_eq!(missed, sound);
}

/// The check of the three states of a frame sees what the request promises of them alone.
#[test]
fn the_check_of_frames_catches_what_breaks_it() {
    frames(&Modelled).expect("frames");
    frames(&Embedded).expect("frames");
    let by_the_check = |mutant: &Mutant| of_sort(frames(mutant), "frames:");
    let missed = missed_of(&NOT_ONE_STATE, by_the_check);
    assert_eq!(missed, Vec::<&str>::new());
    let missed = missed_of(&ONE_STATE, by_the_check);
    assert_eq!(missed, ONE_STATE);
}

/// The check of the free frames at a run's end sees what a delete leaves, and no count.
#[test]
fn the_check_of_clean_cards_catches_what_breaks_it() {
    clean(&Modelled).expect("clean cards");
    let missed = missed_of(&NOT_CLEAN, |mutant| clean(mutant));
    assert_eq!(missed, Vec::<&str>::new());
}

/// The check of histories sees these without the model's steps.
#[test]
fn the_check_of_histories_catches_what_breaks_it() {
    histories(&Modelled).expect("histories");
    histories(&Embedded).expect("histories");
    let by_the_check = |mutant: &Mutant| of_sort(histories(mutant), "history:");
    let missed = missed_of(&NOT_THE_HISTORY, by_the_check);
    assert_eq!(missed, Vec::<&str>::new());
    let missed = missed_of(&THE_HISTORY, by_the_check);
    assert_eq!(missed, THE_HISTORY);
}

/// The floors are reached by what every check of pairs begins with, whatever its seed.
#[test]
fn pairs_of_files_pass() {
    hidden::check(&Modelled, SEED, MESSAGES / 2).expect("contents hidden");
    for seed in 2..6 {
        let counts = hidden::check_events(&Embedded, seed).expect("contents hidden");
        assert!(counts.too_few().is_empty(), "{:?}", counts.too_few());
    }
}

/// Three wrong kernels of other requests show contents too.
const OTHER_LEAKS: [&str; 3] = [
    "stale marks spared when equal bytes are written",
    "a frame that was all zeros not counted",
    "bytes laid of zeros left out of a forecast",
];

/// Pairs of files find every leak without the model; `every_mutant_is_caught` has the same kernels
/// beside it.
#[test]
fn pairs_of_files_catch_every_leak() {
    let leaks = LEAKS.iter().map(|(name, _)| *name).chain(OTHER_LEAKS);
    let missed = missed_of(&Vec::from_iter(leaks), |leak| pairs(leak, hidden::SHOWN));
    assert_eq!(missed, Vec::<&str>::new());
}

/// Each worked pair exposes the leak that it is named after.
#[test]
fn leaks_are_exposed() {
    let starts = [unit(LEAST_BUFFER), unit(LEAST_BUFFER)];
    for pair in &HIDDEN {
        let files = pair.each_ref().map(Case::file);
        let missed = missed_of(&[pair[0].name], |leak| {
            let checked = hidden::check_files(leak, starts.clone(), [&files[0], &files[1]]);
            of_sort(checked, hidden::SHOWN)
        });
        assert_eq!(missed, Vec::<&str>::new());
    }
}

/// Of what is wrong in both runs alike, pairs see 5 on sound tables alone: given at once, or
/// because a message has left broken ones.
#[test]
fn pairs_of_files_catch_5_and_nothing_else_that_is_alike() {
    let fives = FIVES.iter().map(|(name, _)| *name).chain(BREAKING);
    let missed = missed_of(&Vec::from_iter(fives), |five| pairs(five, hidden::FIVE));
    assert_eq!(missed, Vec::<&str>::new());
    let missed = missed_of(&ALIKE, |alike| pairs(alike, hidden::SHOWN));
    assert_eq!(missed, ALIKE);
}

/// Wrong numbers, replies, bytes laid, tables and stores, none by the contents.
const ALIKE: [&str; 6] = [
    "one current copy of two written",
    "drops moves",
    "invents bytes laid",
    "a write with right 1 accepted",
    "freed bytes remain, as document 01 had it",
    "a retired frame's bytes changed by a write",
];
