//! The kernel beside plain Rust, on the same calls.
//!
//! `bench` prints every figure. `bench WORK SIDE`, with SIDE kernel, unchecked, registered or checked,
//! does that work once on that side, for a count of instructions, and `bench WORK count` prints how
//! many messages, tests or calls it has. WORK is run, answer or sound, or frames1, frames8 or
//! frames64, looks at frames on so many pages, or copies, pages, copydeletes or pagedeletes, the
//! deletes, or retires or retired, frames retired and calls on retired ones, or forecast, that of the
//! file of run; on the kernel's side alone kept or parts, a run with its replies, and refused, look,
//! grant or empty, the C call by itself. no-copydeletes, no-pagedeletes and no-retires are the same
//! files without the deletes or retires, to be taken off. WORK is also write or read-reply, with SIDE
//! kernel or rust.

mod exchange;
mod timing;

use bench::calls::{Calls, Counts};
use bench::peer::Peer;
use bench::{FAST, MIX, SLOW};
use exchange::Exchange;
use kernel::Unit;
use std::hint::black_box;
use std::time::Instant;

const TESTS: u32 = 5_000;
/// How often a call is made by itself.
const CALLS: usize = 1_000;
/// A reply buffer that is emptied between the parts of a run.
const PART: usize = 4096;
/// On so many pages there are deletes and retired frames; with eight copies each they hold 248 of the
/// 254 frames.
const SOME_PAGES: u8 = 31;

/// Who answers a call file, and how.
#[derive(Clone, Copy)]
enum Side {
    /// The kernel: the rules are tested once.
    Run,
    /// The kernel: the same, with every reply kept in one buffer.
    Kept,
    /// The kernel: the same, part by part in a buffer that is emptied between.
    Parts,
    /// The kernel: each message by itself, the rules tested at each.
    Answers,
    /// The kernel: the forecast, from the tables alone.
    Forecast,
    /// Plain Rust that searches the pages for a frame's holder, without any test of the rules.
    Unchecked,
    /// Plain Rust with a register of holders, without any test.
    Registered,
    /// Plain Rust with a register, and the test at each message.
    Checked,
    /// The forecast of plain Rust with a register, without any test.
    ForecastByRust,
}

/// A state, and a call file to be answered from there.
struct Work {
    start: Peer<true>,
    file: Vec<u8>,
    counts: Counts,
    /// Where the work is told apart from the rest of its file: the bytes and the messages that stand
    /// before it. Else none.
    before: (usize, usize),
}

impl Work {
    fn of(start: Peer<true>, calls: Calls) -> Work {
        Work {
            start,
            file: calls.file,
            counts: calls.counts,
            before: (0, 0),
        }
    }

    /// A shift of 40,000 moves from fresh tables, which it fills first.
    fn shift() -> Work {
        Work::of(Peer::fresh(FAST, SLOW), bench::shift())
    }

    /// Calls on full tables: one frame is free at the most.
    fn full() -> Work {
        let mut calls = Calls::new(FAST, SLOW);
        calls.fill();
        assert_eq!(calls.held(), 254, "frames held on full tables");
        calls.begin();
        let start = calls.peer.clone();
        calls.shift(4_000, 253, &MIX);
        Work::of(start, calls)
    }

    /// Calls on so many pages with so many copies each.
    fn steady(pages: u8, copies: u8) -> Work {
        let mut calls = Calls::new(FAST, SLOW);
        calls.spread(pages, copies);
        calls.begin();
        let start = calls.peer.clone();
        calls.steady(usize::from(pages), 500);
        assert_eq!(calls.counts.refused, 0, "calls refused on steady tables");
        Work::of(start, calls)
    }

    /// Looks at frames, on so many pages with three copies each.
    fn frames(pages: u8) -> Work {
        let mut calls = Calls::new(FAST, SLOW);
        calls.spread(pages, 3);
        calls.begin();
        let start = calls.peer.clone();
        calls.frames(20_000);
        Work::of(start, calls)
    }

    /// Accepted calls on pages with so many copies each, in the file that is made there.
    fn accepted(copies: u8, make: impl Fn(&mut Calls)) -> Work {
        let mut calls = Calls::new(FAST, SLOW);
        calls.spread(SOME_PAGES, copies);
        calls.begin();
        let start = calls.peer.clone();
        make(&mut calls);
        assert_eq!(calls.counts.refused, 0, "deletes or retires refused");
        Work::of(start, calls)
    }

    /// A copy made and one deleted in turn, on pages with seven copies.
    fn copies_in_turn() -> Work {
        Work::accepted(7, |calls| {
            calls.copies_in_turn(SOME_PAGES.into(), 10_000);
        })
    }

    /// A page created, copied to eight frames and deleted in turn, beside pages with seven copies.
    fn pages_in_turn() -> Work {
        Work::accepted(7, |calls| calls.pages_in_turn(63, 8, 2_000))
    }

    /// Deletes alone, behind a grant: pages with eight copies come down to one each.
    fn copy_deletes() -> Work {
        Work::alone(8, |calls| calls.delete_copies(SOME_PAGES))
    }

    /// Deletes alone, behind a grant: of pages with eight copies each.
    fn page_deletes() -> Work {
        Work::alone(8, |calls| calls.delete_pages(SOME_PAGES))
    }

    /// Retires alone, behind a grant: of every free frame, beside pages with one copy each.
    fn retires() -> Work {
        Work::alone(1, Calls::retire_free)
    }

    /// Looks at retired frames, copies to them, which are refused, and retires of them again in turn,
    /// beside pages with four copies each.
    fn retired() -> Work {
        const TIMES: usize = 5_000;
        let mut calls = Calls::new(FAST, SLOW);
        calls.spread(SOME_PAGES, 4);
        calls.retire_free();
        calls.begin();
        let start = calls.peer.clone();
        calls.retired_in_turn(SOME_PAGES.into(), TIMES);
        assert_eq!(calls.counts.refused, TIMES, "copies to retired frames");
        Work::of(start, calls)
    }

    /// Calls that are told apart from a grant before them. It changes the tables, so that a run without
    /// these calls also puts them back.
    fn alone(copies: u8, make: impl Fn(&mut Calls)) -> Work {
        let work = Work::accepted(copies, |calls| {
            calls.grant_anew();
            make(calls);
        });
        let before = (2 + usize::from(work.file[1]), 1);
        Work { before, ..work }
    }

    /// The file without the work that is told apart.
    fn rest(&self) -> &[u8] {
        &self.file[..self.before.0]
    }

    /// How many messages the work has.
    fn count(&self) -> usize {
        self.counts.messages - self.before.1
    }

    /// The kernel with a reply buffer of this length.
    fn unit(&self, room: usize) -> Unit {
        Unit {
            out: vec![0; room],
            ..unit_of(self.start.clone())
        }
    }

    fn calls(&self) -> [Call; 4] {
        Call::all(self.start.tables.pages[0].owner)
    }

    fn sides(&self) -> Sides {
        Sides {
            last: self.unit(kernel::LEAST_BUFFER),
            kept: self.unit(kernel::LEAST_BUFFER * self.counts.messages),
            parts: self.unit(PART),
            searching: self.start.searching(),
            registered: self.start.clone(),
        }
    }

    /// All sides leave the same: every reply, the tables, the stores, the tally and the count.
    fn check(&self) {
        let (mut one, mut run, mut each) = (self.unit(70), self.unit(70), self.unit(70));
        let mut single = self.start.clone();
        let (mut rest, mut replies) = (&self.file[..], Vec::<u8>::new());
        while !rest.is_empty() {
            let (message, after) =
                rest.split_at(2 + usize::from(rest[0]) * 256 + usize::from(rest[1]));
            replies.extend(one.answer(message).reply);
            single.message::<true>(Some(&message[2..]));
            assert!(one.out == single.out, "replies differ");
            rest = after;
        }
        run.run(&self.file);
        let count = timing::answers(&mut each, &self.file);
        assert_eq!(count, run.tally[0], "counts differ");
        let Sides {
            mut kept,
            mut parts,
            ..
        } = self.sides();
        for unit in [&mut kept, &mut parts] {
            unit.replies(&self.file, |part| {
                black_box(part);
            });
            assert!(unit.tally == run.tally, "tallies differ");
        }
        assert!(kept.out.starts_with(&replies), "kept replies differ");
        let peers = [
            run_of::<false, false>(self.start.searching(), &self.file),
            run_of::<true, false>(self.start.clone(), &self.file),
            run_of::<true, true>(self.start.clone(), &self.file),
        ];
        for peer in &peers {
            assert!(run.tally == peer.tally, "tallies differ");
            for unit in [&one, &run, &each] {
                assert!(unit.out == peer.out, "last replies differ");
            }
            for unit in [&one, &run, &each, &kept, &parts] {
                assert!(unit.tables == peer.tables, "tables differ");
                assert!(
                    unit.fast == peer.fast && unit.slow == peer.slow,
                    "stores differ"
                );
            }
        }
    }

    /// Both forecasts are the same, and that of the run.
    fn check_forecast(&self) {
        let mut unit = self.unit(kernel::LEAST_BUFFER);
        let mut figures = [0; kernel::FIGURES];
        let number = kernel::forecast(&unit.tables, &self.file, &mut figures);
        assert_eq!(number, 0, "sound tables");
        let mut tables = self.start.tables.clone();
        assert_eq!(figures, tables.forecast_by_rust(&self.file), "forecasts");
        unit.run(&self.file);
        let [_, laid, accepted, refused @ ..] = figures;
        let refused: u32 = refused.iter().sum();
        assert_eq!(unit.tally, [accepted + refused, refused, laid], "tallies");
    }

    /// The times of each side, round by round, for each message.
    fn times<const N: usize>(&self, rounds: usize, sides: [Side; N]) -> [Vec<f64>; N] {
        self.times_of(rounds, &self.file, self.counts.messages, sides)
    }

    /// What the work adds to the rest of its file, for each message: by the best times of the file
    /// with it and without.
    fn added<const N: usize>(&self, rounds: usize, sides: [Side; N]) -> [f64; N] {
        let with = self.times_of(rounds, &self.file, 1, sides);
        let without = self.times_of(rounds, self.rest(), 1, sides);
        let added = |i: usize| best(&with[i]) - best(&without[i]);
        std::array::from_fn(|i| added(i) / self.count() as f64)
    }

    /// The times of each side for a file from the work's start, round by round, by `count`.
    fn times_of<const N: usize>(
        &self,
        rounds: usize,
        file: &[u8],
        count: usize,
        sides: [Side; N],
    ) -> [Vec<f64>; N] {
        let mut on = self.sides();
        let bytes = self.start.tables.bytes();
        let mut times = [const { vec![] }; N];
        for _ in 0..rounds {
            for (side, times) in sides.iter().zip(&mut times) {
                for unit in [&mut on.last, &mut on.kept, &mut on.parts] {
                    unit.tables.copy_from_slice(&bytes);
                }
                on.searching.tables = self.start.tables.searching();
                on.registered.tables.clone_from(&self.start.tables);
                times.push(time(count, || on.answer(*side, file)));
            }
        }
        times
    }

    fn describe(&self) -> String {
        let c = &self.counts;
        let rest = c.messages - c.moves - c.reads - c.writes - c.looks;
        format!(
            "{} messages: {} moves, {} reads, {} writes, {} looks, {rest} others; {} refused",
            c.messages, c.moves, c.reads, c.writes, c.looks, c.refused
        )
    }
}

/// What a peer works on, in bytes.
fn unit_of<const REGISTER: bool>(peer: Peer<REGISTER>) -> Unit {
    Unit {
        tables: peer.tables.bytes(),
        fast: peer.fast,
        slow: peer.slow,
        out: peer.out,
        tally: peer.tally,
    }
}

/// What a run of plain Rust leaves.
fn run_of<const REGISTER: bool, const CHECKED: bool>(
    mut peer: Peer<REGISTER>,
    file: &[u8],
) -> Unit {
    peer.run_by_rust::<CHECKED>(file);
    unit_of(peer)
}

/// The kernel with reply buffers of three lengths, and the peer without its register and with it.
struct Sides {
    last: Unit,
    kept: Unit,
    parts: Unit,
    searching: Peer<false>,
    registered: Peer<true>,
}

impl Sides {
    fn answer(&mut self, side: Side, file: &[u8]) {
        match side {
            Side::Run => self.last.run(file),
            Side::Kept => self.kept.replies(file, |part| {
                black_box(part);
            }),
            Side::Parts => self.parts.replies(file, |part| {
                black_box(part);
            }),
            Side::Answers => {
                timing::answers(&mut self.last, file);
            }
            Side::Forecast => {
                black_box(self.last.forecast(file)).expect("sound tables");
            }
            Side::Unchecked => self.searching.run_by_rust::<false>(file),
            Side::Registered => self.registered.run_by_rust::<false>(file),
            Side::Checked => self.registered.run_by_rust::<true>(file),
            Side::ForecastByRust => {
                black_box(self.registered.tables.forecast_by_rust(file));
            }
        }
    }
}

/// A call of a C function by itself, on full tables.
struct Call {
    name: &'static str,
    what: &'static str,
    /// The messages that take turns, one a call; none for a run over an empty file.
    messages: Vec<Vec<u8>>,
    /// The number that they get.
    number: u8,
}

impl Call {
    /// The calls on tables whose page 0 has this owner.
    fn all(owner: u8) -> [Call; 4] {
        let grant = |right| vec![0, 6, 1, 3, owner, 0, (owner + 1) % 16, right];
        [
            Call {
                name: "refused",
                what: "`reel_answer`, a refused message of two bytes",
                messages: vec![vec![0, 0]],
                number: 2,
            },
            Call {
                name: "look",
                what: "`reel_answer`, a look at a page",
                messages: vec![vec![0, 3, 1, 10, 0]],
                number: 0,
            },
            Call {
                name: "grant",
                what: "`reel_answer`, a grant that changes the tables",
                // Right 2 first: a new page gives right 1.
                messages: vec![grant(2), grant(1)],
                number: 0,
            },
            Call {
                name: "empty",
                what: "`reel_run`, an empty file",
                messages: vec![],
                number: 0,
            },
        ]
    }

    /// Calls it again and again.
    fn repeat(&self, unit: &mut Unit) {
        for i in 0..CALLS {
            match &self.messages[..] {
                [] => unit.run(&[]),
                turns => {
                    let answer = unit.answer(&turns[i % turns.len()]);
                    assert_eq!(answer.number, self.number, "{}", self.what);
                }
            }
        }
    }
}

/// Nanoseconds for each of `count`.
fn time(count: usize, work: impl FnOnce()) -> f64 {
    let start = Instant::now();
    work();
    start.elapsed().as_nanos() as f64 / count as f64
}

fn best(times: &[f64]) -> f64 {
    times.iter().copied().fold(f64::MAX, f64::min)
}

/// The median over the rounds of the ratio in a round.
fn median_ratio(a: &[f64], b: &[f64]) -> f64 {
    let mut ratios: Vec<f64> = a.iter().zip(b).map(|(a, b)| a / b).collect();
    ratios.sort_by(f64::total_cmp);
    ratios[ratios.len() / 2]
}

/// A row of the table of times.
fn row(what: &str, kernel: &[f64], other: &[f64]) {
    let (k, o) = (best(kernel), best(other));
    let (ratio, median) = (k / o, median_ratio(kernel, other));
    println!("| {what} | {k:.1} | {o:.1} | {ratio:.2} | {median:.2} |");
}

/// Prints the tables of docs/SPEED.md that have times.
fn report() {
    let (shift, full) = (Work::shift(), Work::full());
    shift.check();
    shift.check_forecast();
    full.check();
    println!("(a) a shift from fresh tables, {}", shift.describe());
    println!("(b) single messages on full tables, {}", full.describe());

    println!("\n| Nanoseconds a message or test | kernel | beside it | ratio | median |");
    println!("|---|---|---|---|---|");
    let sides = [Side::Run, Side::Unchecked, Side::Registered, Side::Checked];
    let [run, unchecked, registered, checked] = shift.times(100, sides);
    let searching = "(a) run; Rust that searches, without any test of the rules";
    row(searching, &run, &unchecked);
    let without = "(a) run; Rust with the register, without any test of the rules";
    row(without, &run, &registered);
    let with = "(a) run; Rust with the register and the test before every message";
    row(with, &run, &checked);
    let [kept, parts, run] = shift.times(100, [Side::Kept, Side::Parts, Side::Run]);
    let whole = "(a) every reply kept in one buffer; run";
    row(whole, &kept, &run);
    let emptied = "(a) every reply kept, 4096 bytes at a time; run";
    row(emptied, &parts, &run);
    let [forecast, run, by_rust] = shift.times(100, [Side::Forecast, Side::Run, Side::ForecastByRust]);
    row("(a) forecast; run", &forecast, &run);
    let beside_rust = "(a) forecast; that of Rust with the register, without any test of the rules";
    row(beside_rust, &forecast, &by_rust);
    let [answers, checked] = full.times(400, [Side::Answers, Side::Checked]);
    let single = "(b) answer; Rust with the test before the message";
    row(single, &answers, &checked);
    let (kernel, rust) = tests(&full);
    row("the test of the rules alone; Rust", &kernel, &rust);

    println!("\n| The C call by itself, on full tables | nanoseconds |");
    println!("|---|---|");
    for call in full.calls() {
        let mut unit = full.unit(70);
        let rounds = (0..200).map(|_| time(CALLS, || call.repeat(&mut unit)));
        let times: Vec<f64> = rounds.collect();
        println!("| {} | {:.1} |", call.what, best(&times));
    }
    by_size();
    by_pages();
    deletes();
    stations();
    retired_frames();
}

/// The times of the test of the rules, by the kernel and by Rust.
fn tests(full: &Work) -> (Vec<f64>, Vec<f64>) {
    let (unit, mut peer) = (full.unit(70), full.start.clone());
    let rounds = (0..200).map(|_| {
        let kernel = time(TESTS as usize, || {
            assert_eq!(timing::sound(&unit, TESTS), TESTS)
        });
        let rust = time(TESTS as usize, || {
            assert_eq!(peer.sound_by_rust(TESTS), TESTS)
        });
        (kernel, rust)
    });
    rounds.unzip()
}

/// (c) Accepted calls by pages and copies a page.
fn by_size() {
    println!("\n| pages | copies | run | Rust that searches | ratio | answer | Rust with the test | ratio |");
    println!("|---|---|---|---|---|---|---|---|");
    for pages in [1, 8, 32, 64] {
        for copies in [1, 2, 4, 8] {
            if u16::from(pages) * u16::from(copies) >= u16::from(FAST + SLOW) {
                continue;
            }
            let work = Work::steady(pages, copies);
            work.check();
            let sides = [Side::Run, Side::Unchecked, Side::Answers, Side::Checked];
            let [run, unchecked, answers, checked] = work.times(150, sides).map(|t| best(&t));
            println!(
                "| {pages} | {copies} | {run:.1} | {unchecked:.1} | {:.2} | {answers:.1} | {checked:.1} | {:.2} |",
                run / unchecked,
                answers / checked
            );
        }
    }
}

/// (d) Looks at frames by pages.
fn by_pages() {
    println!("\n| pages | run | Rust that searches | ratio | Rust with the register | ratio |");
    println!("|---|---|---|---|---|---|");
    for pages in [1, 8, 64] {
        let work = Work::frames(pages);
        work.check();
        let sides = [Side::Run, Side::Unchecked, Side::Registered];
        row_of_three(&pages.to_string(), work.times(150, sides).map(|t| best(&t)));
    }
}

/// A row of the run beside Rust that searches and Rust with the register.
fn row_of_three(what: &str, [run, unchecked, registered]: [f64; 3]) {
    println!(
        "| {what} | {run:.1} | {unchecked:.1} | {:.2} | {registered:.1} | {:.2} |",
        run / unchecked,
        run / registered
    );
}

/// (e) Deletes: within files that also make what is deleted, and by themselves.
fn deletes() {
    println!("\n| (e) | run | Rust that searches | ratio | Rust with the register | ratio |");
    println!("|---|---|---|---|---|---|");
    let sides = [Side::Run, Side::Unchecked, Side::Registered];
    let in_turn = [
        (
            "a copy made and one deleted in turn, a message",
            Work::copies_in_turn(),
        ),
        (
            "a page created, copied to eight frames and deleted in turn, a message",
            Work::pages_in_turn(),
        ),
    ];
    for (what, work) in in_turn {
        work.check();
        row_of_three(what, work.times(150, sides).map(|times| best(&times)));
    }
    let alone = [
        ("delete copy alone", Work::copy_deletes()),
        (
            "delete page of eight copies alone, 512 bytes laid",
            Work::page_deletes(),
        ),
    ];
    for (what, work) in alone {
        work.check();
        row_of_three(what, work.added(1_000, sides));
    }
}

/// (g) Frames retired, and calls on retired ones.
fn retired_frames() {
    println!("\n| (g) | run | Rust that searches | ratio | Rust with the register | ratio |");
    println!("|---|---|---|---|---|---|");
    let sides = [Side::Run, Side::Unchecked, Side::Registered];
    let (alone, retired) = (Work::retires(), Work::retired());
    for work in [&alone, &retired] {
        work.check();
        Exchange::of(work.unit(kernel::LEAST_BUFFER), work.file.clone()).check();
    }
    row_of_three("retire of a free frame alone", alone.added(1_000, sides));
    row_of_three(
        "a retired frame looked at, copied to, which is refused, and retired again in turn, a message",
        retired.times(150, sides).map(|times| best(&times)),
    );
}

/// (f) Calls written and replies read.
fn stations() {
    let exchange = Exchange::of_shift();
    exchange.check();
    println!("\n| (f) | kernel | Rust | ratio | median |");
    println!("|---|---|---|---|---|");
    let works: [(&str, Exchanging); 2] = [
        ("a call written", Exchange::write),
        ("a reply read", Exchange::read),
    ];
    for (what, work) in works {
        let rounds = (0..200).map(|_| {
            let times = [exchange::Side::Kernel, exchange::Side::Rust];
            times.map(|side| {
                time(exchange.count(), || {
                    black_box(work(&exchange, side));
                })
            })
        });
        let (kernel, rust): (Vec<f64>, Vec<f64>) = rounds.map(|[k, r]| (k, r)).unzip();
        row(what, &kernel, &rust);
    }
}

/// One side's work on every call or every reply.
type Exchanging = fn(&Exchange, exchange::Side) -> usize;

/// The same once.
fn exchange_once(work: Exchanging, side: &str) {
    let exchange = Exchange::of_shift();
    let side = match side {
        "count" => return println!("{}", exchange.count()),
        "kernel" => exchange::Side::Kernel,
        _ => exchange::Side::Rust,
    };
    black_box(work(&exchange, side));
}

/// One piece of work, once.
fn once(work: &str, side: &str) {
    match work {
        "write" => return exchange_once(Exchange::write, side),
        "read-reply" => return exchange_once(Exchange::read, side),
        _ => (),
    }
    let (work, is_whole) = match work.strip_prefix("no-") {
        Some(work) => (work, false),
        None => (work, true),
    };
    let pages = work.strip_prefix("frames").and_then(|n| n.parse().ok());
    let given = match (work, pages) {
        (_, Some(pages)) => Work::frames(pages),
        ("run" | "kept" | "parts" | "forecast", _) => Work::shift(),
        ("copies", _) => Work::copies_in_turn(),
        ("pages", _) => Work::pages_in_turn(),
        ("copydeletes", _) => Work::copy_deletes(),
        ("pagedeletes", _) => Work::page_deletes(),
        ("retires", _) => Work::retires(),
        ("retired", _) => Work::retired(),
        _ => Work::full(),
    };
    let mut sides = given.sides();
    if let Some(call) = given.calls().iter().find(|call| call.name == work) {
        return match side {
            "count" => println!("{CALLS}"),
            _ => call.repeat(&mut sides.last),
        };
    }
    let side = match (work, side) {
        ("sound", "count") => return println!("{TESTS}"),
        (_, "count") => return println!("{}", given.count()),
        ("sound", "kernel") => return assert_eq!(timing::sound(&sides.last, TESTS), TESTS),
        ("sound", _) => return assert_eq!(sides.registered.sound_by_rust(TESTS), TESTS),
        ("kept", _) => Side::Kept,
        ("parts", _) => Side::Parts,
        ("answer", "kernel") => Side::Answers,
        ("forecast", "kernel") => Side::Forecast,
        ("forecast", _) => Side::ForecastByRust,
        (_, "kernel") => Side::Run,
        (_, "unchecked") => Side::Unchecked,
        (_, "registered") => Side::Registered,
        _ => Side::Checked,
    };
    let file = if is_whole { &given.file } else { given.rest() };
    sides.answer(side, file);
}

fn main() {
    let words: Vec<String> = std::env::args().skip(1).collect();
    match &words[..] {
        [work, side] => once(work, side),
        _ => report(),
    }
}
