//! "Forecast of a call file", request [8] of document 02. The model foresees nothing: it runs the
//! file, with stores, and takes the figures from each state on the way.

use crate::compare::{add, too_seldom};
use crate::model::{self, Answer, Lent, Reader, Refusal, Tables, Tally, FRAME, LEAST_BUFFER};

/// Messages are counted under the numbers 0 to 31.
pub const NUMBERS: usize = 32;
/// How many figures are laid out: the most frames held, the bytes laid, and the counts.
pub const FIGURES: usize = 2 + NUMBERS;

// ---- The run ----

/// A state on the way of a run.
#[derive(Clone, Copy)]
pub struct State {
    /// How many frames a copy is on.
    pub held: usize,
    /// How many copies have no frame.
    pub null: usize,
    /// How many frames are retired.
    pub retired: usize,
}

impl State {
    fn of(tables: &Tables) -> State {
        let held = tables.held();
        State {
            held,
            null: tables.copies().count() - held,
            retired: tables.retired_frames().count(),
        }
    }
}

/// A message of a run, what it was answered, and the state after it.
pub struct Turn<'a> {
    pub message: &'a [u8],
    pub answer: Answer,
    pub after: State,
}

impl Turn<'_> {
    fn is_cut(&self) -> bool {
        self.answer.number == Refusal::CutShort.number()
    }
}

/// A whole run.
pub struct Course<'a> {
    pub start: State,
    pub turns: Vec<Turn<'a>>,
}

impl<'a> Course<'a> {
    /// The file run by the model; None if the tables are broken. Stores and reply buffer serve.
    pub fn run(mut lent: Lent, file: &'a [u8]) -> Option<Course<'a>> {
        let start = State::of(&Tables::from_raw(&lent.tables)?);
        let (mut after, mut turns) = (start, Vec::new());
        for message in Reader::new(file) {
            let before = lent.tables.clone();
            let answer = model::answer(&mut lent, message);
            if lent.tables != before {
                after = State::of(&Tables::from_raw(&lent.tables)?);
            }
            turns.push(Turn {
                message,
                answer,
                after,
            });
        }
        Some(Course { start, turns })
    }

    /// The same from tables alone: on stores of zeros that fit them.
    pub fn from_tables(tables: &[u8], file: &'a [u8]) -> Option<Course<'a>> {
        let Tables { fast, slow, .. } = Tables::from_raw(tables)?;
        let store = |frames: u8| vec![0; FRAME * usize::from(frames)];
        let lent = Lent {
            tables: tables.to_vec(),
            fast: store(fast),
            slow: store(slow),
            out: vec![0; LEAST_BUFFER],
        };
        Course::run(lent, file)
    }

    /// The state at the start and the one after each message.
    pub fn states(&self) -> impl Iterator<Item = State> + '_ {
        let after = self.turns.iter().map(|turn| turn.after);
        [self.start].into_iter().chain(after)
    }

    /// After which messages the most frames are held, in order, counted from 1; 0 is the start.
    pub fn with_most(&self) -> Vec<usize> {
        let most = self.states().map(|state| state.held).max();
        let states = self.states().enumerate();
        let with_most = states.filter(|(_, state)| Some(state.held) == most);
        with_most.map(|(message, _)| message).collect()
    }
}

// ---- The forecast ----

/// What is forecast of a file; each figure stops at 4294967295.
#[derive(Clone, Debug, Default, PartialEq, Eq)]
pub struct Forecast {
    /// The most frames held at the start or after any message.
    pub most: usize,
    /// The bytes laid in all.
    pub laid: u32,
    /// How many messages get each number.
    pub counts: [u32; NUMBERS],
}

impl Forecast {
    /// The figures of a run.
    pub fn of(course: &Course) -> Forecast {
        let mut forecast = Forecast::default();
        let held = course.states().map(|state| state.held);
        forecast.most = held.max().unwrap_or(0);
        for turn in &course.turns {
            forecast.lay(turn.answer.laid);
            forecast.count(turn.answer.number);
        }
        forecast
    }

    pub fn lay(&mut self, laid: usize) {
        self.laid = self.laid.saturating_add(laid as u32);
    }

    pub fn count(&mut self, number: u8) {
        let count = &mut self.counts[usize::from(number)];
        *count = count.saturating_add(1);
    }

    /// The figures in their order.
    pub fn figures(&self) -> [u32; FIGURES] {
        let mut figures = [0; FIGURES];
        figures[0] = self.most as u32;
        figures[1] = self.laid;
        figures[2..].copy_from_slice(&self.counts);
        figures
    }

    /// The tally that the run leaves from one of zeros.
    pub fn tally(&self) -> Tally {
        let sum = |counts: &[u32]| {
            let all = counts.iter();
            all.fold(0, |sum: u32, &count| sum.saturating_add(count))
        };
        [sum(&self.counts), sum(&self.counts[1..]), self.laid]
    }
}

/// Gives a number and lays figures out: 0 and those of the forecast, or 5 and zeros where there is
/// none. Another number of figures than there are is left alone.
pub fn tell(forecast: Option<Forecast>, figures: &mut [u32]) -> u8 {
    let number = match forecast {
        Some(_) => 0,
        None => Refusal::BrokenTables.number(),
    };
    if let Ok(figures) = <&mut [u32; FIGURES]>::try_from(figures) {
        *figures = forecast.unwrap_or_default().figures();
    }
    number
}

// ---- What came up ----

/// Sorts of forecasts.
pub const EVENTS: [&str; 9] = [
    "most frames held at the start",
    "most frames held on the way",
    "most frames held at the end",
    "a forecast with retired frames",
    "a forecast with null copies",
    "a forecast of a file cut short",
    "a forecast of an empty file",
    "a forecast on broken tables",
    "figures of another length",
];

#[derive(Default)]
pub struct Counts {
    pub forecasts: u64,
    events: [u64; EVENTS.len()],
}

impl Counts {
    /// The sorts with how often they came up.
    pub fn reached(&self) -> impl Iterator<Item = (&'static str, u64)> + '_ {
        EVENTS.into_iter().zip(self.events)
    }

    /// Those that came up too seldom.
    pub fn too_few(&self) -> Vec<String> {
        too_seldom(self.reached())
    }

    /// One forecast, by the run of its file, with so many figures lent.
    pub fn count(&mut self, course: Option<&Course>, lent: usize) {
        let is = |so: fn(&Course) -> bool| course.is_some_and(so);
        let reached = [
            is(|course| course.with_most() == [0] && !course.turns.is_empty()),
            is(|course| {
                let with_most = course.with_most();
                !with_most.contains(&0) && !with_most.contains(&course.turns.len())
            }),
            is(|course| course.with_most() == [course.turns.len()] && !course.turns.is_empty()),
            is(|course| course.states().any(|state| state.retired > 0)),
            is(|course| course.states().any(|state| state.null > 0)),
            is(|course| course.turns.iter().any(Turn::is_cut)),
            is(|course| course.turns.is_empty()),
            course.is_none(),
            lent != FIGURES,
        ];
        add(&mut self.events, reached);
        self.forecasts += 1;
    }
}
