//! The picture of `reel view` beside the model: what is drawn at known places of the screen, and what
//! pointing there names, at several sizes of the window; and the page walked through by keys.

use reel::looks::Mark;
use reel_tests::browser::{Browser, SHIFT};
use reel_tests::drawn::{clear_places, is_close, named, random_view, view, Drawn};
use reel_tests::json::quoted;
use reel_tests::{frame_due, Scratch};

/// Width, height, and pixels of the screen for each of the page.
const SIZES: [(u32, u32, u32); 6] = [
    (1100, 800, 1),
    (1400, 900, 1),
    (1920, 1080, 2),
    (1000, 560, 1),
    (760, 900, 1),
    (2560, 1440, 1),
];

#[test]
fn pointing_names_what_the_model_has_there() {
    let scratch = Scratch::new("pointing");
    let mut browser = Browser::start("pointing");
    for (seed, fast, slow, messages) in [(5, 20, 30, 300), (6, 127, 127, 400)] {
        let (page, mut drawn) = random_view(&scratch, seed, (fast, slow), messages);
        for (width, height, scale) in SIZES {
            browser.size(width, height, scale);
            browser.open(&page, "");
            // Before and after the window has another size.
            for (width, height) in [(width, height), (width - 150, height - 90), (width, height)] {
                browser.size(width, height, scale);
                browser.settle();
                drawn.place(&mut browser);
                pointed(&mut browser, &drawn, height.into());
            }
        }
    }
}

/// Points at places all over the map that are in sight.
fn pointed(browser: &mut Browser, drawn: &Drawn, height: f64) {
    let (_, top, _, map) = browser.place_of("#map");
    let end = (top + map).min(height);
    let frames = (0..drawn.frames()).filter(|&frame| drawn.y(frame, 1.0) < end);
    let frames: Vec<u8> = frames.collect();
    let messages = drawn.messages();
    for part in 0..12 {
        let frame = frames[part * (frames.len() - 1) / 11];
        let turn = drawn.before + 1 + (part * 5 % 12) * (messages - 1) / 11;
        browser.point((drawn.x(turn), drawn.y(frame, 0.5)));
        let due = (
            turn.to_string(),
            frame.to_string(),
            frame_due(&drawn.turns, turn, frame),
        );
        assert_eq!(named(browser), due, "part {part} of {height}");
    }
}

#[test]
fn what_is_drawn_is_what_the_model_has_there() {
    let scratch = Scratch::new("drawn");
    let mut browser = Browser::start("drawn");
    // So many that no arrow of a single copy is drawn.
    let (page, mut drawn) = random_view(&scratch, 9, (10, 12), 400);
    let (mut seen, mut free) = ([0; 3], 0);
    for (width, height, scale) in SIZES {
        browser.size(width, height, scale);
        browser.open(&page, "");
        drawn.place(&mut browser);
        let colours = browser
            .eval("Array.from({ length: 64 }, (_, page) => pageColour(page, false))")
            .texts();
        let clear = clear_places(&drawn);
        let places = clear
            .iter()
            .flat_map(|&(frame, turn)| drawn.upper_and_lower(frame, turn, scale));
        let pixels = browser.pixels(&places.collect::<Vec<_>>(), scale);
        for (&(frame, turn), given) in clear.iter().zip(pixels.chunks(4)) {
            let due = drawn.holder(frame, turn);
            let place = format!("frame {frame} at {turn}, {width} x {height}");
            assert!(
                is_drawn(given, due, &colours),
                "{place}: {given:?}, not {due:?}"
            );
            match due {
                None => free += 1,
                Some((_, mark)) => seen[mark as usize] += 1,
            }
        }
    }
    assert!(
        free > 5 && seen.iter().all(|&count| count > 5),
        "{free} free, {seen:?}"
    );
}

/// Whether the pixels at the top of a bar, and those around the line at its foot, are due.
fn is_drawn(given: &[String], due: Option<(usize, Mark)>, colours: &[String]) -> bool {
    const PAPER: &str = "#ffffff";
    let upper = |due: &str| is_close(&given[0], due);
    let lower = |due: &str| given[1..].iter().any(|pixel| is_close(pixel, due));
    match due {
        None => given.iter().all(|pixel| is_close(pixel, PAPER)),
        Some((page, Mark::Current)) => upper(&colours[page]) && lower(&colours[page]),
        Some((page, Mark::Stale)) => upper(PAPER) && lower(&colours[page]),
        // Lines over a tint, with a border.
        Some((page, Mark::Recent)) => !upper(PAPER) && lower(&colours[page]),
    }
}

/// What a walk by Tab stands on, in words.
const ACTIVE: &str = "(() => {
  const active = document.activeElement;
  if (!active || active === document.body) return '';
  return active.tagName + ' ' + (active.id || active.title || active.textContent);
})()";

/// What a walk by Tab has to stand on, in the order of the document.
const STOPS: &str = "[...document.querySelectorAll('button, input, select, summary, [tabindex]')]
  .filter(part => part.tabIndex >= 0 && !part.disabled && part.offsetParent !== null)
  .map(part => part.tagName + ' ' + (part.id || part.title || part.textContent))";

#[test]
fn tab_walks_through_the_whole_page() {
    let scratch = Scratch::new("tab");
    let mut browser = Browser::start("tab");
    browser.size(1100, 800, 1);
    let (page, _) = random_view(&scratch, 3, (9, 9), 900);
    for fragment in ["", "#page=63&at=400&frame=2"] {
        browser.open(&page, fragment);
        let stops = browser.eval(STOPS).texts();
        assert!(stops.len() > 12, "{stops:?}");
        let walk = |browser: &mut Browser, modifiers: u32| -> Vec<String> {
            let step = |_| {
                browser.key_with("Tab", modifiers);
                browser.eval(ACTIVE).text().to_string()
            };
            (0..stops.len()).map(step).collect()
        };
        assert_eq!(walk(&mut browser, 0), stops);
        // One step on leaves the page, and from there the way leads back.
        browser.key("Tab");
        assert_eq!(browser.eval(ACTIVE).text(), "");
        let back = walk(&mut browser, SHIFT);
        assert_eq!(back, stops.iter().rev().cloned().collect::<Vec<_>>());
        browser.assert_sound();
    }
}

#[test]
fn the_address_has_every_setting_and_back_leads_to_the_last() {
    let scratch = Scratch::new("address");
    let mut browser = Browser::start("address");
    browser.size(1100, 800, 1);
    let (page, _) = random_view(&scratch, 3, (40, 40), 900);
    let settings =
        "#at=400&from=300&span=200&frame=7&page=63&station=2&number=7&all=1&rows=20&top=60";
    browser.open(&page, settings);
    assert_eq!(address(&mut browser), settings);
    // A page, all pages, a message of the list: three steps, and Back takes one after the other.
    browser.open(&page, "");
    let first = address(&mut browser);
    let mut steps = vec![first.clone()];
    for selector in [
        "#pages button:not(:disabled)",
        "#pages [aria-pressed='true']",
        "#messages [role='option']:nth-child(5)",
    ] {
        browser.click_on(selector);
        steps.push(address(&mut browser));
    }
    let page_chosen = steps[1].contains("&page=") && !steps[2].contains("&page=");
    assert!(page_chosen && steps[3] != steps[2], "{steps:?}");
    for due in steps.iter().rev().skip(1) {
        browser.eval(BACK);
        assert_eq!(&address(&mut browser), due);
    }
    browser.assert_sound();
}

/// Goes back, and waits until that is done.
const BACK: &str = "new Promise(done => {
  addEventListener('popstate', () => done(1), { once: true });
  history.back();
})";

/// The address after `#`, as soon as what is shown is written there.
fn address(browser: &mut Browser) -> String {
    browser.settle();
    browser
        .eval("new Promise(done => setTimeout(done, 400)).then(() => location.hash)")
        .text()
        .into()
}

/// Notes every text that is drawn on a canvas, and where it is drawn.
const NOTING: &str = "window.drawn = [];
const fillText = CanvasRenderingContext2D.prototype.fillText;
CanvasRenderingContext2D.prototype.fillText = function (words, x, y, most = Infinity) {
  const width = Math.min(most, this.measureText(words).width);
  const left = { left: x, center: x - width / 2, right: x - width }[this.textAlign];
  const corners = [[left, y - 5], [left + width, y + 5]].map(([x, y]) => this.getTransform().transformPoint({ x, y }));
  const scale = this.canvas.width / this.canvas.clientWidth;
  const sides = [...corners.map(corner => corner.x / scale), ...corners.map(corner => corner.y / scale)];
  const [width_, height_] = [this.canvas.clientWidth, this.canvas.clientHeight];
  const isIn = sides.every((side, i) => side > -0.5 && side < (i < 2 ? width_ : height_) + 0.5);
  window.drawn.push({ id: this.canvas.id, words, sides, isIn });
  return fillText.call(this, words, x, y, most === Infinity ? undefined : most);
};";

/// The texts that are not wholly on their canvas.
const CUT: &str = "drawn.filter(({ isIn }) => !isIn).map(({ id, words, sides }) => `${id}: ${words} at ${sides}`)";

#[test]
fn no_label_is_cut_off() {
    let scratch = Scratch::new("labels");
    let mut browser = Browser::start("labels");
    let noting = format!("{{\"source\":{}}}", quoted(NOTING));
    browser.send("Page.addScriptToEvaluateOnNewDocument", &noting);
    let (page, _) = random_view(&scratch, 4, (127, 127), 1_200);
    for (width, height, scale) in SIZES {
        browser.size(width, height, scale);
        for fragment in ["", "#from=700&span=30", "#from=1100&span=100&rows=20"] {
            browser.open(&page, fragment);
            let cut = browser.eval(CUT);
            assert_eq!(
                cut.texts(),
                Vec::<String>::new(),
                "{width} x {height} {fragment}"
            );
            assert!(browser.eval("drawn.length").number() > 20.0);
        }
    }
}

#[test]
fn messages_that_come_evenly_are_drawn_evenly() {
    let scratch = Scratch::new("even");
    let mut browser = Browser::start("even");
    browser.size(1100, 800, 1);
    // Looks at a page that does not stand, and at a frame: refused and accepted by turns.
    let pair: [u8; 10] = [0, 3, 1, 10, 5, 0, 3, 1, 11, 0];
    let bytes = [&[0, 3, 1, 11, 0][..], &pair.repeat(1_100)].concat();
    let page = view(&scratch, &bytes, 4, 4);
    for fragment in ["", "#from=300&span=1500", "#from=0&span=1000"] {
        browser.open(&page, fragment);
        let (left, top, width, _) = browser.place_of("#lanes");
        // Two thirds of the way up from the middle of the lane, and as far down.
        let columns: Vec<f64> = (75..width as u32 - 5).map(f64::from).collect();
        let places = |y: f64| {
            columns
                .iter()
                .map(|x| (left + x, top + y))
                .collect::<Vec<_>>()
        };
        let (upper, lower) = (
            browser.pixels(&places(18.0), 1),
            browser.pixels(&places(98.0), 1),
        );
        let share = |pixels: &[String]| pixels.iter().filter(|&pixel| pixel != "#ffffff").count();
        if fragment.is_empty() {
            assert_eq!(
                [share(&upper), share(&lower)],
                [columns.len(); 2],
                "{fragment}"
            );
        }
    }
}
