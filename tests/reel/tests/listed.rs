//! The list of messages, the figures, ticks, colours, pages without a frame, parts and paper of the page
//! of `reel view`: each beside the model.

use model::gen::{lawful, Rng};
use reel::kinds::{number_of, Call, KINDS};
use reel::looks::{Mark, OnFrame};
use reel_tests::browser::{Browser, SHIFT};
use reel_tests::drawn::{clear_places, frameless, is_close, named, random_view, view_with, Drawn};
use reel_tests::{
    frame_due, frame_since, held, kept, modelled_from, random_file_from, so_since, Scratch, Turn,
};
use std::path::PathBuf;

/// The number of a message's kind; 0 for a broken one.
fn kind(turn: &Turn) -> u8 {
    Call::parse(&turn.message).map_or(0, |call| number_of(call.kind))
}

/// Messages that pass each part of an address.
fn passing(turns: &[Turn], parts: &[(&str, &str)]) -> Vec<usize> {
    let passes = |at: usize, (name, value): (&str, &str)| {
        let (turn, number) = (&turns[at], value.parse::<u8>().ok());
        match name {
            "page" => turn.page() == number,
            "station" => turn.station() == number,
            "kind" => Some(kind(turn)) == number,
            "number" if value == "refused" => turn.reply.number > 0,
            "number" => Some(turn.reply.number) == number,
            _ => turn.touches(&turns[at - 1], number.expect("a frame")),
        }
    };
    (1..turns.len())
        .filter(|&at| parts.iter().all(|&part| passes(at, part)))
        .collect()
}

const FILTERS: [&[(&str, &str)]; 8] = [
    &[],
    &[("number", "refused")],
    &[("number", "0"), ("kind", "5")],
    &[("page", "63"), ("number", "16")],
    &[("station", "2"), ("kind", "4")],
    &[("list-frame", "3")],
    &[("list-frame", "17"), ("page", "63")],
    &[("kind", "0")],
];

#[test]
fn the_list_has_what_passes_and_moves_with_the_picture() {
    let scratch = Scratch::new("list");
    let mut browser = Browser::start("list");
    browser.size(1300, 850, 1);
    let (page, drawn) = random_view(&scratch, 8, (9, 12), 700);
    for parts in FILTERS {
        let due = passing(&drawn.turns, parts);
        let words = parts.iter().map(|(name, value)| format!("{name}={value}"));
        let address = format!("#{}", words.collect::<Vec<_>>().join("&"));
        browser.open(&page, &address);
        assert_eq!(
            browser.text("#message-count"),
            format!("({})", due.len()),
            "{address}"
        );
        if !due.is_empty() {
            walked(&mut browser, &due);
            clicked(&mut browser, &drawn, &due);
        }
    }
    browser.assert_sound();
}

/// Keys walk through the list of these messages: to its end, a step back, to its start, a step on; and
/// in the map N goes on from there.
fn walked(browser: &mut Browser, due: &[usize]) {
    let last = due.len() - 1;
    let steps = [
        ("messages", "End", last),
        ("messages", "ArrowUp", last.saturating_sub(1)),
        ("messages", "Home", 0),
        ("messages", "ArrowDown", 1.min(last)),
        ("map", "n", 2.min(last)),
    ];
    for (id, key, place) in steps {
        browser.eval(&format!("document.getElementById('{id}').focus()"));
        browser.key(key);
        let turn = due[place];
        assert_eq!(at(browser), turn, "{key} in {id}");
        let row = format!("#messages [aria-selected][data-turn='{turn}']");
        let (row, list) = (browser.place_of(&row), browser.place_of("#messages"));
        let is_in_sight = row.1 >= list.1 - 1.0 && row.1 + row.3 <= list.1 + list.3 + 1.0;
        assert!(is_in_sight, "message {turn} is out of sight after {key}");
    }
}

/// A click on the first row goes to its message, and the row has its words.
fn clicked(browser: &mut Browser, drawn: &Drawn, due: &[usize]) {
    browser.click_on("#messages [role='option']");
    let turn =
        browser.eval("Number(document.querySelector('#messages [aria-selected]').dataset.turn)");
    let turn = turn.number() as usize;
    assert!(due.contains(&turn) && at(browser) == turn, "{turn}");
    let (row, line) = (
        browser.text("#messages [aria-selected]"),
        drawn.turns[turn].line(turn, 9),
    );
    let (sentence, _) = line
        .trim_start()
        .split_once(": ")
        .expect("a sentence and a reply");
    assert!(row.starts_with(sentence), "{row} is not {line}");
}

/// The message that the panel names.
fn at(browser: &mut Browser) -> usize {
    let title = browser.text("#place h2").replace(',', "");
    title
        .split(' ')
        .nth(1)
        .expect("a number")
        .parse()
        .expect("a number")
}

#[test]
fn the_figures_of_a_span_are_those_of_the_model() {
    let scratch = Scratch::new("figures");
    let mut browser = Browser::start("figures");
    browser.size(1300, 850, 1);
    let (page, mut drawn) = random_view(&scratch, 12, (9, 12), 500);
    browser.open(&page, "");
    drawn.place(&mut browser);
    figures(&mut browser, &drawn, 1, drawn.messages());
    // Marked by the pointer, in either direction.
    for (from, to) in [(120, 260), (400, 33)] {
        browser.drag(
            (drawn.x(from), drawn.y(3, 0.5)),
            (drawn.x(to), drawn.y(5, 0.5)),
            SHIFT,
        );
        figures(&mut browser, &drawn, from.min(to), from.max(to));
    }
    // Its first message by a key, and typed.
    browser.click((drawn.x(77), drawn.y(2, 0.5)));
    browser.key("s");
    figures(&mut browser, &drawn, 77, 400);
    browser.click_on("#no-span");
    figures(&mut browser, &drawn, 1, drawn.messages());
    // A span up to here, by a key, which Escape takes away.
    browser.click((drawn.x(90), drawn.y(2, 0.5)));
    browser.key_with("S", SHIFT);
    figures(&mut browser, &drawn, 1, 90);
    browser.key("Escape");
    figures(&mut browser, &drawn, 1, drawn.messages());
    browser.open(&page, "#first=200&last=200");
    figures(&mut browser, &drawn, 200, 200);
    browser.click_on("#zoom-span");
    assert!(browser.eval("location.hash").text().contains("first=200"));
    browser.assert_sound();
}

/// The figures that are shown are those of the messages from one to another.
fn figures(browser: &mut Browser, drawn: &Drawn, first: usize, last: usize) {
    let turns = &drawn.turns[first..=last];
    let refused = turns.iter().filter(|turn| turn.reply.number > 0).count();
    let laid: usize = turns.iter().map(|turn| usize::from(turn.reply.laid)).sum();
    let bytes = if laid == 1 { "byte" } else { "bytes" };
    let (count, held) = (turns.len(), held_in_words(turns));
    let due = format!("{count}, {refused} refused, {laid} {bytes} laid, {held} of 21 frames held.");
    let given = browser.text("#figures-words");
    let (ends, rest) = given.split_once(": ").expect("a sentence");
    assert_eq!(
        (ends, without_groups(rest)),
        (&format!("Messages {first} to {last}")[..], due)
    );
    let rows = "[...document.querySelectorAll('#kinds [data-kind]')].map(({ dataset }) =>
      `${dataset.kind} ${dataset.accepted} ${dataset.refused}`)";
    assert_eq!(browser.eval(rows).texts(), kind_rows(turns));
    let rows = "[...document.querySelectorAll('#counts [data-number]')].map(({ dataset }) =>
      `${dataset.number} ${dataset.count}`)";
    let count = |number: u8| {
        turns
            .iter()
            .filter(|turn| turn.reply.number == number)
            .count()
    };
    let given = (0..=255).filter(|&number| count(number) > 0);
    let due: Vec<String> = given
        .map(|number| format!("{number} {}", count(number)))
        .collect();
    assert_eq!(browser.eval(rows).texts(), due);
}

/// How many frames are held after each of these messages, from the fewest to the most.
fn held_in_words(turns: &[Turn]) -> String {
    let held = || turns.iter().map(held);
    let (least, most) = (
        held().min().expect("a message"),
        held().max().expect("a message"),
    );
    match least == most {
        true => least.to_string(),
        false => format!("{least} to {most}"),
    }
}

/// The kinds of these messages, with how many of each were accepted and refused.
fn kind_rows(turns: &[Turn]) -> Vec<String> {
    let words = KINDS.iter().map(|kind| (number_of(kind), kind.word));
    let mut rows = Vec::new();
    for (number, word) in words.chain([(0, "broken")]) {
        let of_kind = || turns.iter().filter(|turn| kind(turn) == number);
        let refused = of_kind().filter(|turn| turn.reply.number > 0).count();
        let accepted = of_kind().count() - refused;
        if accepted + refused > 0 {
            rows.push(format!("{word} {accepted} {refused}"));
        }
    }
    rows
}

/// A text whose numbers have no commas within.
fn without_groups(text: &str) -> String {
    let letters: Vec<char> = text.chars().collect();
    let is_group =
        |at: usize| letters[at] == ',' && letters.get(at + 1).is_some_and(char::is_ascii_digit);
    (0..letters.len())
        .filter(|&at| !is_group(at))
        .map(|at| letters[at])
        .collect()
}

#[test]
fn reads_and_writes_have_their_ticks() {
    let scratch = Scratch::new("ticks");
    let mut browser = Browser::start("ticks");
    browser.size(1400, 900, 1);
    let mut seen = [0; 3];
    for seed in 9..15 {
        let (page, mut drawn) = random_view(&scratch, seed, (4, 5), 150);
        // The kept place is drawn over the first message.
        browser.open(&page, "#at=1");
        drawn.place(&mut browser);
        let due = ticks(&drawn);
        let places = due.iter().flat_map(|&(turn, frame, _, _)| {
            // In the upper tenth and in the lower fifth of the bar.
            [0.12, 0.8].map(|share| (drawn.x(turn), drawn.y(frame, share)))
        });
        let pixels = browser.pixels(&places.collect::<Vec<_>>(), 1);
        for (&(turn, frame, is_read, is_write), pixels) in due.iter().zip(pixels.chunks(2)) {
            let is_paper = |pixel: &String| is_close(pixel, "#ffffff");
            let given = (is_paper(&pixels[0]), is_paper(&pixels[1]));
            assert_eq!(
                given,
                (is_read, is_write),
                "message {turn}, frame {frame}: {pixels:?}"
            );
            seen[usize::from(is_read) + 2 * usize::from(is_write)] += 1;
        }
    }
    assert!(seen.iter().all(|&count| count > 5), "{seen:?}");
}

/// For each message that names a page, and each CURRENT copy of that page: the message, the frame, and
/// whether it was read from there, or written there.
fn ticks(drawn: &Drawn) -> Vec<(usize, u8, bool, bool)> {
    let mut ticks = Vec::new();
    for (turn, now) in drawn.turns.iter().enumerate().skip(3) {
        let word = Call::parse(&now.message).map_or("", |call| call.kind.word);
        let word = if now.reply.number == 0 { word } else { "" };
        let copies = now.page().and_then(|page| now.pages.get(usize::from(page)));
        let current = copies
            .into_iter()
            .flatten()
            .filter(|copy| copy.mark == Mark::Current);
        for (place, frame) in current.filter_map(|copy| copy.frame).enumerate() {
            ticks.push((turn, frame, word == "read" && place == 0, word == "write"));
        }
    }
    ticks
}

#[test]
fn a_colour_stands_for_the_mark_or_the_age() {
    let scratch = Scratch::new("colours");
    let mut browser = Browser::start("colours");
    browser.size(1400, 900, 1);
    let (page, mut drawn) = random_view(&scratch, 9, (10, 12), 400);
    for colouring in ["mark", "age"] {
        browser.open(&page, &format!("#colour={colouring}"));
        drawn.place(&mut browser);
        let ages = browser
            .eval("AGES.map((_, age) => ageColour(age, false))")
            .texts();
        let mut clear = clear_places(&drawn);
        clear.retain(|&(frame, turn)| drawn.holder(frame, turn).is_some());
        let places = clear
            .iter()
            .flat_map(|&(frame, turn)| drawn.upper_and_lower(frame, turn, 1));
        let pixels = browser.pixels(&places.collect::<Vec<_>>(), 1);
        for (&(frame, turn), pixels) in clear.iter().zip(pixels.chunks(4)) {
            let due = match drawn.holder(frame, turn) {
                _ if colouring == "age" => &ages[age(&drawn, frame, turn).max(1).ilog10() as usize],
                Some((_, Mark::Current)) => "#146c2e",
                Some((_, Mark::Recent)) => "#9a6700",
                _ => "#b3261e",
            };
            let is_due = pixels[1..].iter().any(|pixel| is_close(pixel, due));
            assert!(is_due, "frame {frame} at {turn}: {pixels:?}, not {due}");
        }
        assert!(
            clear.len() > 6,
            "only {} places by {colouring}",
            clear.len()
        );
    }
}

/// For how many messages the page on a frame is there.
fn age(drawn: &Drawn, frame: u8, turn: usize) -> usize {
    let page = |turn: &Turn| match turn.frames[usize::from(frame)] {
        OnFrame::Copy { page, .. } => Some(page),
        _ => None,
    };
    let now = page(&drawn.turns[turn]);
    turn - so_since(&drawn.turns, turn, |turn| page(turn) == now)
}

#[test]
fn pages_without_a_frame_have_a_row() {
    let scratch = Scratch::new("frameless");
    let mut browser = Browser::start("frameless");
    browser.size(1200, 800, 1);
    let (page, mut drawn) = random_view(&scratch, 14, (4, 4), 300);
    browser.open(&page, "");
    drawn.place(&mut browser);
    let mut seen = 0;
    for turn in (5..drawn.turns.len()).step_by(37) {
        let mut due: Vec<String> = frameless(&drawn.turns[turn])
            .map(|page| page.to_string())
            .collect();
        let mut given = Vec::new();
        for row in drawn.frames()..drawn.rows as u8 {
            browser.point((drawn.x(turn), drawn.y(row, 0.5)));
            let (message, _, words) = named(&mut browser);
            assert_eq!(message, turn.to_string());
            if let Some(words) = words.strip_prefix("page ") {
                given.push(words.split(' ').next().expect("a page").to_string());
            }
        }
        given.sort();
        due.sort();
        assert_eq!(given, due, "message {turn}");
        seen += due.len();
    }
    assert!(seen > 3, "only {seen} pages stood without a frame");
}

/// The page of a random file from kept tables, behind so many messages of it and up to message 280.
fn part(scratch: &Scratch, seed: u64, before: usize) -> (PathBuf, Drawn) {
    let rng = &mut Rng::new(seed);
    let mut lent = lawful(rng);
    let bytes = random_file_from(rng, lent.clone(), 300);
    let first = (before + 1).to_string();
    let start = kept(scratch, &lent);
    let start = start.iter().map(String::as_str);
    let words: Vec<&str> = start.chain(["--from", &first, "--to", "280"]).collect();
    let page = view_with(scratch, &scratch.file("calls", &bytes), &words);
    let mut turns = modelled_from(&mut lent, &bytes);
    turns.truncate(281);
    (page, Drawn::of(turns, before))
}

#[test]
fn a_start_that_was_kept_and_a_part_of_a_file() {
    let scratch = Scratch::new("parts");
    let mut browser = Browser::start("parts");
    browser.size(1200, 900, 1);
    for (seed, before) in [(41, 0), (42, 0), (43, 120)] {
        let (page, mut drawn) = part(&scratch, seed, before);
        browser.open(&page, "");
        drawn.place(&mut browser);
        assert!(browser.text("#place h2").ends_with(" of 280"));
        for part in 0..20 {
            let frame = (part * 7 % usize::from(drawn.frames().min(60))) as u8;
            let turn = before + 1 + part * (drawn.messages() - 1) / 19;
            browser.point((drawn.x(turn), drawn.y(frame, 0.5)));
            let due = (
                turn.to_string(),
                frame.to_string(),
                in_part(&drawn, turn, frame, before),
            );
            assert_eq!(named(&mut browser), due, "seed {seed}");
        }
        browser.assert_sound();
    }
}

/// What a page that begins behind so many messages says of a frame: what was so before is not told
/// closer.
fn in_part(drawn: &Drawn, turn: usize, frame: u8, before: usize) -> String {
    let due = frame_due(&drawn.turns, turn, frame);
    let since = frame_since(&drawn.turns, turn, frame);
    if before == 0 || since > before {
        return due;
    }
    let when = if since > 0 {
        " since"
    } else {
        " from the start"
    };
    let (state, _) = due.split_once(when).expect("when");
    format!("{state} since before message {}", before + 1)
}

#[test]
fn the_most_frames_held_are_marked() {
    let scratch = Scratch::new("most");
    let mut browser = Browser::start("most");
    browser.size(1300, 850, 1);
    let mut seen = [0; 2];
    for seed in 51..57 {
        let (page, mut drawn) = match seed % 3 {
            0 => part(&scratch, seed, 0),
            1 => part(&scratch, seed, 120),
            _ => random_view(&scratch, seed, (9, 12), 200),
        };
        let before = drawn.before;
        browser.open(&page, "");
        drawn.place(&mut browser);
        let most = drawn.turns[before..].iter().map(held).max();
        let mut turns = drawn.turns[before..].iter();
        let first = turns.position(|turn| Some(held(turn)) == most);
        let first = first.expect("a turn with the most");
        let when = match (first, before) {
            (0, 0) => "at the start".into(),
            (0, _) => format!("before message {}", before + 1),
            _ => format!("first after message {}", before + first),
        };
        let (most, frames) = (most.unwrap_or(0), drawn.frames());
        let due = format!("Most frames held: {most} of {frames}, {when}.");
        assert_eq!(browser.text("#most"), due, "seed {seed}");
        seen[usize::from(first > 0)] += 1;
        if first > 0 {
            marked(&mut browser, &drawn, before + first);
        }
    }
    assert!(seen[0] > 1 && seen[1] > 1, "{seen:?}");
    browser.assert_sound();
}

/// A line in the lane of the frames held stands at a message, and the words lead there.
fn marked(browser: &mut Browser, drawn: &Drawn, turn: usize) {
    let (_, top, _, _) = browser.place_of("#lanes");
    let places = [125.0, 145.0, 160.0].map(|down| (drawn.x(turn), top + down));
    let accent = "getComputedStyle(document.documentElement).getPropertyValue('--accent').trim()";
    let accent = browser.eval(accent).text().to_string();
    assert_eq!(
        browser.pixels(&places, 1),
        [&accent[..]; 3],
        "message {turn}"
    );
    browser.click_on("#most button");
    assert_eq!(at(browser), turn);
    let words = "frames held, the most, for the first time.";
    assert!(browser.text("#place").contains(words), "message {turn}");
}

#[test]
fn the_page_prints_on_one_sheet() {
    let scratch = Scratch::new("paper");
    let mut browser = Browser::start("paper");
    for (width, height) in [(1300, 850), (700, 900)] {
        browser.size(width, height, 1);
        let (page, _) = random_view(&scratch, 15, (127, 127), 600);
        browser.open(&page, "#colour=age");
        let paper = browser.send(
            "Page.printToPDF",
            "{\"preferCSSPageSize\":true,\"printBackground\":true}",
        );
        let paper = base64(paper["data"].text());
        let count = |words: &[u8]| {
            paper
                .windows(words.len())
                .filter(|part| *part == words)
                .count()
        };
        // The list of sheets counts one.
        assert_eq!((count(b"/Count 1"), count(b"/Type /Pages")), (1, 1));
        assert!(count(b"/Subtype /Image") > 0, "no picture on the sheet");
        // On the screen all is as before.
        browser.settle();
        assert_eq!(
            browser.eval("document.documentElement.className").text(),
            ""
        );
        browser.assert_sound();
    }
}

/// The bytes that a text in base64 stands for.
fn base64(text: &str) -> Vec<u8> {
    let digit = |letter: u8| match letter {
        b'A'..=b'Z' => letter - b'A',
        b'a'..=b'z' => letter - b'a' + 26,
        b'0'..=b'9' => letter - b'0' + 52,
        b'+' => 62,
        _ => 63,
    };
    let mut bytes = Vec::new();
    for group in text.trim_end_matches('=').as_bytes().chunks(4) {
        let bits = group
            .iter()
            .fold(0u32, |bits, &letter| bits << 6 | u32::from(digit(letter)));
        let bits = bits << (6 * (4 - group.len()));
        bytes.extend(&bits.to_be_bytes()[1..group.len()]);
    }
    bytes
}
