//! `reel forecast` in words, as JSON and by its exit status, from fresh tables and from kept ones: each
//! held against a run of the independent model.

use model::forecast::{Course, Forecast};
use model::gen::{lawful, Rng};
use model::model::Lent;
use reel::words::{self, counted, WORDS};
use reel_tests::json::Json;
use reel_tests::{fresh, held, modelled_from, random_file_from, reel, Scratch, Turn};
use std::path::PathBuf;

/// A call file, the words with which the tool starts where it does, and what the model comes to.
struct Plan {
    file: PathBuf,
    start: Vec<String>,
    forecast: Forecast,
    turns: Vec<Turn>,
}

impl Plan {
    /// A random file from fresh tables of 9 fast and 12 slow frames.
    fn fresh(scratch: &Scratch, seed: u64, messages: usize) -> Plan {
        let size = ["--fast", "9", "--slow", "12"].map(Into::into);
        let bytes = random_file_from(&mut Rng::new(seed), fresh(9, 12), messages);
        Plan::of(scratch, fresh(9, 12), size.into(), &bytes)
    }

    /// One from kept tables; no store is given to the tool.
    fn kept(scratch: &Scratch, seed: u64, messages: usize) -> Plan {
        let rng = &mut Rng::new(seed);
        let lent = lawful(rng);
        let tables = scratch.file("tables", &lent.tables);
        let start = ["--tables".into(), tables.display().to_string()];
        let bytes = random_file_from(rng, lent.clone(), messages);
        Plan::of(scratch, lent, start.into(), &bytes)
    }

    fn of(scratch: &Scratch, lent: Lent, start: Vec<String>, bytes: &[u8]) -> Plan {
        let course = Course::run(lent.clone(), bytes).expect("sound tables");
        Plan {
            file: scratch.file("calls", bytes),
            start,
            forecast: Forecast::of(&course),
            turns: modelled_from(&mut lent.clone(), bytes),
        }
    }

    /// The first message after which the most frames are held, by the frames that the model has; 0 for
    /// the start.
    fn first(&self) -> usize {
        let mut turns = self.turns.iter();
        let first = turns.position(|turn| held(turn) == self.forecast.most);
        first.expect("a turn with the most")
    }

    /// What the tool prints with more words, and its exit status.
    fn told(&self, more: &[&str]) -> (String, i32) {
        let start: Vec<&str> = self.start.iter().map(String::as_str).collect();
        let output = reel("forecast", &self.file, &[&start, more].concat());
        let text = String::from_utf8(output.stdout).expect("text");
        (text, output.status.code().expect("an exit status"))
    }

    /// The lines that are due.
    fn lines(&self) -> String {
        let [messages, refused, laid] = self.forecast.tally();
        let (messages, laid) = (
            counted(messages.into(), "message", "messages"),
            counted(laid.into(), "byte", "bytes"),
        );
        let when = match self.first() {
            0 => "at the start".into(),
            first => {
                let words = words::message(&self.turns[first].message);
                format!("first after message {first}, {words}")
            }
        };
        let (most, frames) = (self.forecast.most, self.turns[0].frames.len());
        let mut lines = format!(
            "{messages}, {refused} refused, {laid} laid\nmost frames held: {most} of {frames}, {when}\n"
        );
        let given = self.forecast.counts.iter().zip(WORDS).enumerate();
        let given: Vec<String> = given
            .filter(|(_, (&count, _))| count > 0)
            .map(|(number, (count, word))| format!("{count:10}  {number} {word}\n"))
            .collect();
        if !given.is_empty() {
            lines += "     times  number\n";
        }
        lines + &given.concat()
    }
}

/// Files from fresh tables and from kept ones, short and long.
fn plans(scratch: &Scratch) -> impl Iterator<Item = Plan> + '_ {
    (1..40).map(|seed| {
        let messages = [0, 1, 5, 30, 300][seed as usize % 5];
        match seed % 3 {
            0 => Plan::fresh(scratch, seed, messages),
            _ => Plan::kept(scratch, seed, messages),
        }
    })
}

#[test]
fn words_and_json_are_what_the_model_comes_to() {
    let scratch = Scratch::new("forecast");
    let (mut at_start, mut on_the_way) = (0, 0);
    for plan in plans(&scratch) {
        assert_eq!(plan.told(&[]), (plan.lines(), 0));
        let (line, status) = plan.told(&["--json"]);
        assert_eq!(status, 0);
        in_json(&Json::parse(&line), &plan);
        match plan.first() {
            0 => at_start += 1,
            _ => on_the_way += 1,
        }
    }
    assert!(at_start > 5 && on_the_way > 5, "{at_start} {on_the_way}");
}

fn in_json(line: &Json, plan: &Plan) {
    let [messages, refused, laid] = plan.forecast.tally();
    let count = |name: &str| line[name].number() as usize;
    assert_eq!(
        ["messages", "refused", "laid", "most", "frames"].map(count),
        [
            messages as usize,
            refused as usize,
            laid as usize,
            plan.forecast.most,
            plan.turns[0].frames.len()
        ]
    );
    let first = plan.first();
    let words = match first {
        0 => String::new(),
        first => words::message(&plan.turns[first].message),
    };
    assert_eq!(line["first"]["message"].number() as usize, first);
    assert_eq!(line["first"]["words"].text(), words);
    let numbers = line["numbers"].list().iter();
    let numbers: Vec<(usize, &str, u32)> = numbers
        .map(|row| {
            let (number, count) = (row["number"].number(), row["count"].number());
            (number as usize, row["word"].text(), count as u32)
        })
        .collect();
    let due = WORDS.into_iter().zip(plan.forecast.counts).enumerate();
    let due: Vec<_> = due
        .map(|(number, (word, count))| (number, word, count))
        .collect();
    assert_eq!(numbers, due);
}

#[test]
fn what_fits_ends_with_0() {
    let scratch = Scratch::new("fits");
    for plan in plans(&scratch) {
        let most = plan.forecast.most;
        for limit in [0, most.saturating_sub(1), most, most + 1, 254] {
            let fits = most <= limit;
            let (told, status) = plan.told(&["--frames", &limit.to_string()]);
            let words = if fits { "fits" } else { "does not fit" };
            let frames = counted(limit as u64, "frame", "frames");
            assert_eq!(told, plan.lines() + &format!("{words} on {frames}\n"));
            assert_eq!(status, i32::from(!fits));
            let (line, status) = plan.told(&["--json", "--frames", &limit.to_string()]);
            let line = Json::parse(&line);
            assert_eq!(line["limit"].number() as usize, limit);
            assert_eq!(line["fits"], Json::Bool(fits));
            assert_eq!(status, i32::from(!fits));
        }
        let (_, status) = plan.told(&["--strict", "--frames", "254"]);
        assert_eq!(status, i32::from(plan.forecast.tally()[1] > 0));
    }
}
