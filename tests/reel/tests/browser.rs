//! The page of `reel view` in a browser that is driven by pointer and keys: no script error, and what
//! it draws and says is what the replies say.

use reel::looks::Mark;
use reel_tests::browser::Browser;
use reel_tests::{frame_due, modelled, printed, random_file, since, Scratch, Stale};
use std::collections::BTreeMap;
use std::path::{Path, PathBuf};
use std::time::Instant;

/// The document of a page at the place that the fragment names.
fn document(browser: &mut Browser, page: &Path, fragment: &str) -> String {
    browser.open(page, fragment);
    browser.document()
}

/// The values of an attribute, in the order of the document.
fn attributes<'a>(document: &'a str, name: &'a str) -> impl Iterator<Item = &'a str> {
    let parts = document
        .split(&format!(" {name}=\""))
        .skip(1)
        .collect::<Vec<_>>();
    parts
        .into_iter()
        .map(|part| part.split('"').next().unwrap_or_default())
}

/// How often each number was given, by the document.
fn counts(document: &str) -> BTreeMap<usize, usize> {
    let number = |text: &str| text.parse().expect("a number");
    let numbers = attributes(document, "data-number").map(number);
    let counts = attributes(document, "data-count").map(number);
    numbers.zip(counts).collect()
}

/// How often each number was given, by the lines of `reel show`.
fn shown_counts(lines: &str) -> BTreeMap<usize, usize> {
    let mut counts = BTreeMap::new();
    for line in lines.lines() {
        let refusal = line.rsplit_once(": refused, ").map(|(_, words)| words);
        let number = refusal.and_then(|words| words.split(' ').next());
        let number = number.map_or(0, |number| number.parse().expect("a number"));
        *counts.entry(number).or_insert(0) += 1;
    }
    counts
}

/// Makes the page of a file and compares its counts with the replies; gives the page.
fn viewed(browser: &mut Browser, scratch: &Scratch, file: &Path, size: &[&str]) -> PathBuf {
    let page = scratch.path("page.html");
    printed(
        "view",
        file,
        &[size, &["-o", &page.display().to_string()]].concat(),
    );
    let document = document(browser, &page, "");
    let due = shown_counts(&printed("show", file, size));
    assert_eq!(counts(&document), due);
    page
}

/// The text of the cells of a page's table in the panel: copy, place, mark and since when.
fn copies_in_panel(document: &str, page: usize) -> Vec<[String; 4]> {
    let (_, panel) = document.split_once("id=\"place\"").expect("the panel");
    let (panel, _) = panel.split_once("</section>").expect("its end");
    let Some((_, table)) = panel.split_once(&format!("Page {page}, ")) else {
        return Vec::new();
    };
    let (table, _) = table.split_once("</table>").unwrap_or(("", ""));
    let rows = table.split("<tr").skip(2);
    rows.map(|row| {
        let cells: Vec<String> = row.split("<td").skip(1).map(text).collect();
        [0, 1, 3, 4].map(|cell| cells[cell].clone())
    })
    .collect()
}

/// What the panel says of the frame that is pointed at.
fn frame_in_panel(document: &str) -> String {
    let (_, title) = document.split_once("<h3>Frame ").expect("the frame");
    let (_, words) = title.split_once("<p").expect("who is on it");
    text(words.split("</p>").next().unwrap_or_default())
}

/// The text between the tags of a part that begins within a tag.
fn text(part: &str) -> String {
    let between = part
        .split('>')
        .skip(1)
        .filter_map(|piece| piece.split('<').next());
    between.collect::<String>().replace(',', "")
}

#[test]
fn short_files() {
    let scratch = Scratch::new("short");
    let browser = &mut Browser::start("short");
    let lines = Path::new("../../sample/calls");
    let sample = scratch.path("sample");
    printed("write", lines, &["-o", &sample.display().to_string()]);
    viewed(browser, &scratch, &sample, &[]);
    viewed(browser, &scratch, &scratch.file("empty", &[]), &[]);
    viewed(
        browser,
        &scratch,
        &scratch.file("cut", &[0, 4, 1, 1, 3, 5, 0]),
        &[],
    );
    viewed(
        browser,
        &scratch,
        &scratch.file("no frames", &[0, 4, 1, 1, 3, 5]),
        &["--fast", "0", "--slow", "0"],
    );
    viewed(
        browser,
        &scratch,
        &scratch.file("<b>&amp;", &(0..=255).collect::<Vec<u8>>()),
        &[],
    );
}

#[test]
fn a_retired_frame() {
    let scratch = Scratch::new("retired");
    let browser = &mut Browser::start("retired");
    let lines = Path::new("../../sample/calls");
    let sample = scratch.path("sample");
    printed("write", lines, &["-o", &sample.display().to_string()]);
    let page = viewed(browser, &scratch, &sample, &[]);
    // Message 17 frees the frame, and 22 retires it.
    for (at, due) in [
        (16, "page 5 stale since message 14"),
        (21, "free since message 17"),
        (22, "retired since message 22"),
        (34, "retired since message 22"),
    ] {
        let document = document(browser, &page, &format!("#at={at}&frame=4"));
        assert_eq!(frame_in_panel(&document), due, "at {at}");
    }
}

/// Since when a copy is stale, as the panel says it.
fn in_short(stale: &Stale) -> String {
    match stale.made {
        None => stale.since.to_string(),
        Some((by, _)) => format!("{} made {by}", stale.since),
    }
}

#[test]
fn pages_are_shown_as_the_model_has_them() {
    let scratch = Scratch::new("places");
    let browser = &mut Browser::start("places");
    let (fast, slow) = (20, 30);
    let bytes = random_file(5, fast, slow, 1_500);
    let turns = modelled(&bytes, fast, slow);
    let page = viewed(
        browser,
        &scratch,
        &scratch.file("calls", &bytes),
        &["--fast", "20", "--slow", "30"],
    );
    let (mut compared, mut retired) = (0, 0);
    let places = (1..turns.len()).step_by(turns.len() / 16);
    for (at, wanted) in places.zip(["free since", "retired since"].into_iter().cycle()) {
        // The page with the most stale copies, and of those the one with the most copies.
        let number = (0..64).max_by_key(|&page: &usize| {
            let copies = &turns[at].pages[page];
            let stale = copies.iter().filter(|copy| copy.mark == Mark::Stale);
            (stale.count(), copies.len())
        });
        let number = number.expect("a page");
        // By turns a frame that was held before and one that is retired, where there is one; else
        // any.
        let is_wanted = |frame: &u8| frame_due(&turns, at, *frame).starts_with(wanted);
        let frame = (0..50).find(is_wanted).unwrap_or((at * 7 % 50) as u8);
        let fragment = format!("#at={at}&page={number}&frame={frame}");
        let document = document(browser, &page, &fragment);
        assert_eq!(
            frame_in_panel(&document),
            frame_due(&turns, at, frame),
            "frame {frame} at {at}"
        );
        retired += usize::from(frame_due(&turns, at, frame).starts_with("retired since"));
        let copies = turns[at].pages[number].iter().enumerate();
        let due: Vec<[String; 4]> = copies
            .map(|(copy, held)| {
                let place = match held.frame {
                    None => "none".into(),
                    Some(_) => held.place(fast).replace("frame ", ""),
                };
                let since = match held.mark {
                    Mark::Stale => in_short(&Stale::of(&turns, at, number, held)),
                    _ => since(&turns, at, number, held).to_string(),
                };
                [copy.to_string(), place, held.mark.word().into(), since]
            })
            .collect();
        compared += due
            .iter()
            .filter(|copy| copy[2] == Mark::Stale.word())
            .count();
        assert_eq!(
            copies_in_panel(&document, number),
            due,
            "page {number} at {at}"
        );
    }
    assert!(compared > 3, "only {compared} stale copies were compared");
    assert!(retired > 3, "only {retired} retired frames were compared");
}

#[test]
fn the_shift_of_the_benchmark() {
    let scratch = Scratch::new("shift");
    let browser = &mut Browser::start("shift");
    let shift = bench::shift();
    let file = scratch.file("shift", &shift.file);
    let size = ["--fast", "127", "--slow", "127"];
    let page = scratch.path("shift.html");
    let start = Instant::now();
    printed(
        "view",
        &file,
        &[&size[..], &["-o", &page.display().to_string()]].concat(),
    );
    let written = start.elapsed().as_millis();
    let length = std::fs::metadata(&page).expect("the page").len();
    let document = document(browser, &page, "");
    assert_eq!(
        counts(&document),
        shown_counts(&printed("show", &file, &size))
    );
    let [messages, refused, laid] = shift.peer.tally;
    let summary = format!("{messages} messages {refused} refused {laid} bytes laid;");
    let (_, shown) = document.split_once("id=\"summary\"").expect("the summary");
    assert!(text(shown).starts_with(&summary), "not {summary}");
    let first = attributes(&document, "data-first-picture").next();
    let first: u64 = first.expect("the time").parse().expect("a number");
    println!("written in {written} ms, {length} bytes, first picture after {first} ms");
    assert!(length < 10_000_000);
    close_up(browser, &file, &page);
}

/// Single messages of the shift: the copies of a page in the panel are those of `reel page --at`.
fn close_up(browser: &mut Browser, file: &Path, page: &Path) {
    let words = ["12", "--at", "50020", "--fast", "127", "--slow", "127"];
    let lines = printed("page", file, &words);
    for choice in ["page=12", "station=5", "page=12&station=5"] {
        let fragment = format!("#at=50020&from=50000&span=40&frame=102&{choice}");
        let document = document(browser, page, &fragment);
        assert!(document.contains("Message 50,020 of 102,000"));
        let copies = copies_in_panel(&document, 12);
        assert_eq!(
            copies.len(),
            lines.lines().filter(|line| line.contains("copy ")).count()
        );
        for [copy, place, mark, since] in copies {
            let begin = match mark.as_str() {
                "stale" => format!("stale: copy {copy}, frame {place}, "),
                _ => format!("latest: copy {copy}, frame {place}, {mark}, "),
            };
            let line = lines.lines().find(|line| line.starts_with(&begin));
            let line = line.unwrap_or_else(|| panic!("{begin} is not in\n{lines}"));
            let told = match (mark.as_str(), since.split_once(" made ")) {
                ("stale", Some((since, by))) => vec![
                    format!(", made by message {by} "),
                    format!(", stale since message {since}, "),
                ],
                ("stale", None) => vec![format!(", since message {since}, ")],
                _ => Vec::new(),
            };
            for words in told {
                assert!(line.contains(&words), "{words} is not in\n{line}");
            }
        }
    }
}
