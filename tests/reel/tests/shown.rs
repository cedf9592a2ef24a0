//! `reel show` with its filters, as lines, as JSON and in sum, `reel diff`, and tables that are broken:
//! each held against the independent model.

use model::gen::{
    damage_byte, damage_register, damage_retired, lawful, misfit_tables, odd_marks, Rng,
};
use model::model::{rules, Lent};
use reel::kinds::Call;
use reel::looks::OnFrame;
use reel::rules::broken;
use reel::words;
use reel_tests::json::Json;
use reel_tests::{
    fresh, held, kept, modelled, modelled_from, printed, random_file, reel, Scratch, Turn,
};
use std::collections::BTreeMap;
use std::path::PathBuf;

const SIZE: [&str; 4] = ["--fast", "9", "--slow", "12"];

fn with_size<'a>(words: &[&'a str]) -> Vec<&'a str> {
    [words, &SIZE].concat()
}

/// A random call file for a unit of that size, and what the model answers.
fn shift(scratch: &Scratch, seed: u64, messages: usize) -> (PathBuf, Vec<Turn>) {
    let bytes = random_file(seed, 9, 12, messages);
    (scratch.file("calls", &bytes), modelled(&bytes, 9, 12))
}

/// Whether a message passes the filter that these words give.
fn passes(turns: &[Turn], number: usize, words: &[&str]) -> bool {
    let (before, turn) = (&turns[number - 1], &turns[number]);
    let mut words = words.iter();
    while let Some(&word) = words.next() {
        if word == "--refused" {
            if turn.reply.number == 0 {
                return false;
            }
            continue;
        }
        let value: usize = words.next().expect("a value").parse().expect("a number");
        let is_met = match word {
            "--page" => turn.page() == Some(value as u8),
            "--station" => turn.station() == Some(value as u8),
            "--frame" => turn.touches(before, value as u8),
            "--from" => number >= value,
            "--to" => number <= value,
            _ => panic!("{word}"),
        };
        if !is_met {
            return false;
        }
    }
    true
}

const FILTERS: [&[&str]; 9] = [
    &[],
    &["--refused"],
    &["--page", "63"],
    &["--station", "3"],
    &["--frame", "4"],
    &["--frame", "15", "--page", "62"],
    &["--from", "200", "--to", "350"],
    &["--page", "63", "--station", "2", "--refused"],
    &["--from", "400", "--frame", "9", "--refused"],
];

#[test]
fn filters_pass_what_the_model_says() {
    let scratch = Scratch::new("filters");
    for seed in 1..5 {
        let (file, turns) = shift(&scratch, seed, 700);
        for words in FILTERS {
            let numbers: Vec<usize> = (1..turns.len())
                .filter(|&number| passes(&turns, number, words))
                .collect();
            let due: String = numbers
                .iter()
                .map(|&number| turns[number].line(number, 9) + "\n")
                .collect();
            assert_eq!(printed("show", &file, &with_size(words)), due, "{words:?}");
            let lines = printed("show", &file, &with_size(&[words, &["--json"]].concat()));
            let lines: Vec<Json> = lines.lines().map(Json::parse).collect();
            assert_eq!(lines.len(), numbers.len(), "{words:?}");
            for (line, &number) in lines.iter().zip(&numbers) {
                in_json(line, number, &turns[number]);
            }
            sums(
                &printed(
                    "show",
                    &file,
                    &with_size(&[words, &["--summary", "--json"]].concat()),
                ),
                &turns,
                &numbers,
            );
        }
    }
}

/// A line of JSON has all that the model knows of the message.
fn in_json(line: &Json, number: usize, turn: &Turn) {
    let reply = &turn.reply;
    assert_eq!(line["message"].number() as usize, number);
    assert_eq!(line["number"].number() as u8, reply.number);
    assert_eq!(line["word"].text(), words::word(reply.number));
    match Call::parse(&turn.message) {
        None => assert_eq!(line["raw"].text(), words::hex(&turn.message)),
        Some(call) => {
            assert_eq!(line["kind"].text(), call.kind.word);
            for (argument, &value) in call.kind.arguments.iter().zip(call.arguments) {
                let name = argument.name().replace(' ', "_");
                assert_eq!(line[&name[..]].number() as u8, value, "{name}");
            }
            if !call.bytes.is_empty() {
                assert_eq!(line["bytes"].text(), words::hex(call.bytes));
            }
            assert_eq!(
                told(line, &call),
                (reply.number == 0).then(|| reply.data.clone()),
                "{line:?}"
            );
        }
    }
    if reply.number == 0 {
        assert_eq!(line["laid"].number() as u16, reply.laid);
    }
}

/// The data of a reply, from what a line of JSON tells of it; None of a refusal.
fn told(line: &Json, call: &Call) -> Option<Vec<u8>> {
    if line["laid"] == Json::Null {
        return None;
    }
    let byte = |value: &Json| value.number() as u8;
    let frame = &line["frame_is"];
    Some(match (call.kind.word, &frame["state"]) {
        ("read", _) => {
            let bytes = line["data"].text().split(' ');
            bytes
                .map(|byte| u8::from_str_radix(byte, 16).unwrap())
                .collect()
        }
        ("look-page", _) => {
            let copies = line["copies"].list();
            let count = [copies.len() as u8];
            count
                .into_iter()
                .chain(copies.iter().flat_map(copy_told))
                .collect()
        }
        ("look-frame", Json::Text(state)) if state == "held" => {
            vec![1, byte(&frame["page"]), byte(&frame["copy"])]
        }
        ("look-frame", Json::Text(state)) if state == "free" => vec![0, 255, 255],
        ("look-frame", _) => vec![2, 255, 255],
        _ => Vec::new(),
    })
}

/// The three bytes of a copy that a line of JSON tells.
fn copy_told(copy: &Json) -> [u8; 3] {
    let frame = match &copy["frame"] {
        Json::Null => 255,
        frame => frame.number() as u8,
    };
    let mark = |name: &str| u8::from(copy[name] == Json::Bool(true));
    [frame, mark("current"), mark("recent")]
}

/// The summary counts these messages, and has what the last turn leaves.
fn sums(line: &str, turns: &[Turn], numbers: &[usize]) {
    let sum = Json::parse(line);
    let chosen = || numbers.iter().map(|&number| &turns[number]);
    let refused = chosen().filter(|turn| turn.reply.number > 0).count();
    let laid: usize = chosen().map(|turn| usize::from(turn.reply.laid)).sum();
    let count = |name: &str| sum[name].number() as usize;
    assert_eq!(
        [count("messages"), count("refused"), count("laid")],
        [numbers.len(), refused, laid]
    );
    let mut by_number: BTreeMap<u8, usize> = BTreeMap::new();
    let mut by_kind: BTreeMap<&str, [usize; 2]> = BTreeMap::new();
    for turn in chosen() {
        *by_number.entry(turn.reply.number).or_default() += 1;
        let kind = Call::parse(&turn.message).map_or("broken", |call| call.kind.word);
        by_kind.entry(kind).or_default()[usize::from(turn.reply.number > 0)] += 1;
    }
    let told = sum["numbers"].list().iter();
    let told = told.map(|row| (row["number"].number() as u8, row["count"].number() as usize));
    assert_eq!(told.collect::<BTreeMap<_, _>>(), by_number);
    let told = sum["kinds"].list().iter();
    let told = told.map(|row| {
        (
            row["kind"].text(),
            ["accepted", "refused"].map(|name| row[name].number() as usize),
        )
    });
    assert_eq!(told.collect::<BTreeMap<_, _>>(), by_kind);
}

#[test]
fn the_summary_has_what_is_left_at_the_end() {
    let scratch = Scratch::new("left");
    for seed in 11..16 {
        let (file, turns) = shift(&scratch, seed, 400);
        let end = turns.last().expect("the start at least");
        let sum = Json::parse(&printed(
            "show",
            &file,
            &with_size(&["--summary", "--json"]),
        ));
        let pages = end.pages.iter().filter(|copies| !copies.is_empty()).count();
        let retired = end
            .frames
            .iter()
            .filter(|&&on| on == OnFrame::Retired)
            .count();
        let held = held(end);
        let told =
            ["pages", "frames", "held", "retired"].map(|name| sum["end"][name].number() as usize);
        assert_eq!(told, [pages, 21, held, retired]);
        let words = format!(
            "at the end {}; of 21 frames {held} held",
            words::counted(pages as u64, "page stands", "pages stand")
        );
        assert!(
            printed("show", &file, &with_size(&["--summary"])).contains(&words),
            "{words}"
        );
    }
}

#[test]
fn runs_part_where_the_model_parts() {
    let scratch = Scratch::new("diff");
    let mut parted = [0; 3];
    for seed in 21..61 {
        let (one, turns) = shift(&scratch, seed, 120);
        let other = edited(&mut Rng::new(seed), &turns);
        let others = modelled(&other, 9, 12);
        let two = scratch.file("other", &other);
        let output = reel("diff", &one, &with_size(&[&two.display().to_string()]));
        let lines = String::from_utf8(output.stdout).expect("text");
        let last = turns.len().max(others.len());
        let message = |turns: &[Turn], at: usize| turns.get(at).map(|turn| turn.message.clone());
        let reply = |turns: &[Turn], at: usize| turns.get(at).map(|turn| turn.reply.clone());
        let messages = (1..last).find(|&at| message(&turns, at) != message(&others, at));
        let replies = (1..last).find(|&at| reply(&turns, at) != reply(&others, at));
        assert_eq!(
            output.status.code(),
            Some(messages.is_some().into()),
            "{lines}"
        );
        assert_eq!(
            (said(&lines, "the messages"), said(&lines, "replies")),
            (messages, replies),
            "{lines}"
        );
        let tables = lines
            .lines()
            .any(|line| line.starts_with("the tables part"));
        let mut pairs = turns.iter().zip(&others);
        assert!(
            tables || pairs.all(|(one, two)| one.pages == two.pages),
            "{lines}"
        );
        for (count, has) in parted
            .iter_mut()
            .zip([messages.is_some(), replies.is_some(), tables])
        {
            *count += usize::from(has);
        }
    }
    assert!(parted.iter().all(|&count| count > 10), "{parted:?}");
}

/// The file of these turns with one message taken out, another, or one put in.
fn edited(rng: &mut Rng, turns: &[Turn]) -> Vec<u8> {
    let messages = turns[1..].iter().map(|turn| turn.message.clone());
    let mut messages: Vec<Vec<u8>> = messages.collect();
    let at = rng.below(messages.len() - 1);
    match rng.below(3) {
        0 => drop(messages.remove(at)),
        1 => messages[at] = vec![0, 4, 1, 8, 63, rng.within(0, 2)],
        _ => messages.insert(at, vec![0, 3, 1, 11, rng.within(0, 20)]),
    }
    messages.concat()
}

/// The message at which, by the lines of `reel diff`, this parts.
fn said(lines: &str, what: &str) -> Option<usize> {
    let mut lines = lines.lines();
    let line = lines.find(|line| line.contains(what) && line.contains(" part at message "))?;
    line.rsplit(' ').next()?.parse().ok()
}

/// Tables that may be broken.
fn damaged(rng: &mut Rng) -> Lent {
    let mut lent = lawful(rng);
    match rng.below(6) {
        0 | 1 => damage_byte(rng, &mut lent),
        2 => damage_register(rng, &mut lent),
        3 => damage_retired(rng, &mut lent),
        4 => odd_marks(rng, &mut lent),
        _ => misfit_tables(rng, &mut lent),
    }
    lent
}

#[test]
fn broken_tables_break_a_rule_that_is_told() {
    let rng = &mut Rng::new(31);
    let mut told: BTreeMap<String, usize> = BTreeMap::new();
    for round in 0..4_000 {
        let lent = damaged(rng);
        let rule = broken(&lent.tables);
        assert_eq!(rule.is_some(), rules(&lent) == 5, "round {round}: {rule:?}");
        // What is told, without its numbers.
        let words = rule.unwrap_or("sound".into());
        let words: String = words
            .chars()
            .filter(|letter| !letter.is_ascii_digit())
            .collect();
        *told.entry(words).or_default() += 1;
    }
    assert!(told.len() > 15, "{told:#?}");
}

/// Where the record of page 5 stands in the tables' bytes, and where the register, whose entries have the low
/// byte first.
const PAGE: usize = 2 + 42 * 5;
const REGISTER: usize = 2690;

/// A byte of the tables that is changed, and the rule that breaks. Page 5 has a CURRENT copy on frame 0
/// and a stale one on frame 1.
const BROKEN: [(usize, u8, &str); 12] = [
    (0, 128, "128 fast and 4 slow frames: at most 127 of each"),
    (PAGE, 3, "page 5: station 0 has right 3: rights are 0 to 2"),
    (
        PAGE + 16,
        9,
        "page 5: copy 0 is on frame 9: there are 8 frames",
    ),
    (
        PAGE + 16,
        1,
        "frame 1: copy 0 of page 5 and copy 1 of page 5 are on it",
    ),
    (
        PAGE + 16,
        255,
        "page 5: copy 0 has no frame: only the one copy of a page, MOST RECENT and not CURRENT",
    ),
    (
        PAGE + 18,
        0,
        "page 5: copy 0 is CURRENT and not MOST RECENT",
    ),
    (
        PAGE + 18,
        2,
        "page 5: copy 0 has the marks 1 and 2: marks are 0 or 1",
    ),
    (
        PAGE + 22,
        7,
        "page 5: entry 2 is not in use, and is not as in fresh tables",
    ),
    (
        PAGE + 40,
        16,
        "page 5: its owner is station 16: stations are 0 to 15",
    ),
    (PAGE + 41, 9, "page 5: 9 copies: at most 8"),
    (
        PAGE + 42,
        1,
        "page 6: it does not stand, and its record is not as in fresh tables",
    ),
    (
        REGISTER,
        0,
        "frame 0: the register says copy 0 of page 0 is on it, and copy 0 of page 5 is on it",
    ),
];

/// A unit with that page 5.
fn with_page() -> Lent {
    let messages: [&[u8]; 5] = [
        &[0, 4, 1, 1, 3, 5],
        &[0, 5, 1, 6, 5, 0, 0],
        &[0, 5, 1, 6, 5, 0, 1],
        &[0, 4, 1, 8, 5, 0],
        &[0, 6, 1, 5, 3, 5, 0, 7],
    ];
    let mut lent = fresh(4, 4);
    modelled_from(&mut lent, &messages.concat());
    lent
}

/// The tool refuses to start from this unit, with just this line.
fn refuses(lent: &Lent, due: &str) {
    let scratch = Scratch::new("broken");
    let calls = scratch.file("calls", &[0, 4, 1, 1, 3, 5]);
    let start = kept(&scratch, lent);
    let start: Vec<&str> = start.iter().map(String::as_str).collect();
    for (command, words) in [("show", &[][..]), ("page", &["5"]), ("frame", &["0"])] {
        let output = reel(command, &calls, &[words, &start].concat());
        let error = String::from_utf8_lossy(&output.stderr);
        assert!(
            error.ends_with(due) && error.lines().count() == 1,
            "{error} is not {due}"
        );
        assert_eq!((output.status.code(), output.stdout.len()), (Some(2), 0));
    }
}

#[test]
fn a_start_that_is_broken_is_refused_with_its_rule() {
    for (at, byte, rule) in BROKEN {
        let mut lent = with_page();
        lent.tables[at] = byte;
        assert_eq!(rules(&lent), 5, "{rule}");
        refuses(
            &lent,
            &format!("tables: refused, 5 broken tables: {rule}\n"),
        );
    }
    let mut lent = with_page();
    lent.slow.pop();
    assert_eq!(rules(&lent), 6);
    refuses(
        &lent,
        "stores: refused, 6 misfit store: 511 bytes, and 4 fast and 4 slow frames take 512\n",
    );
}
