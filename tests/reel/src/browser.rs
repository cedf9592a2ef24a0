//! A browser that is driven: chromium, which CHROMIUM names, by its DevTools protocol over two
//! pipes. Pointer and keys are events of the browser, and pixels are those of the screen.

use crate::json::{quoted, Json};
use crate::Scratch;
use std::io::{BufRead, BufReader, Write};
use std::path::Path;
use std::process::{Child, ChildStdin, ChildStdout, Command, Stdio};

pub struct Browser {
    child: Child,
    input: ChildStdin,
    output: BufReader<ChildStdout>,
    session: Option<String>,
    sent: u64,
    /// What the browser told beside the answers: its method and its parameters.
    events: Vec<(String, Json)>,
    // Its profile; it goes when the browser is gone.
    _scratch: Scratch,
}

/// A key as the browser wants it: its name, its code, its number, and the text that it types.
fn key_of(key: &str) -> (String, String, u32, String) {
    let named = |code: u32| (key.into(), key.into(), code, String::new());
    match key {
        "Tab" => named(9),
        "Escape" => named(27),
        "PageUp" => named(33),
        "PageDown" => named(34),
        "End" => named(35),
        "Home" => named(36),
        "ArrowLeft" => named(37),
        "ArrowUp" => named(38),
        "ArrowRight" => named(39),
        "ArrowDown" => named(40),
        "Enter" => (key.into(), key.into(), 13, "\r".into()),
        " " => (key.into(), "Space".into(), 32, key.into()),
        letter => {
            let upper = letter.to_uppercase();
            let code = format!("Key{upper}");
            (
                letter.into(),
                code,
                upper.as_bytes()[0].into(),
                letter.into(),
            )
        }
    }
}

/// Starts the browser. It reads commands from its descriptor 3 and answers to 4.
fn spawn(scratch: &Scratch) -> Child {
    let program = std::env::var("CHROMIUM").expect("CHROMIUM, the browser");
    let profile = scratch.path("profile");
    let script = "exec \"$@\" 3<&0 4>&1 </dev/null >/dev/null 2>&1";
    let mut command = Command::new("sh");
    command.args(["-c", script, "sh", &program]);
    command.args([
        "--headless",
        "--no-sandbox",
        "--disable-gpu",
        "--no-first-run",
    ]);
    command.args(["--remote-debugging-pipe", "--hide-scrollbars"]);
    command.arg(format!("--user-data-dir={}", profile.display()));
    let command = command.stdin(Stdio::piped()).stdout(Stdio::piped());
    command.spawn().expect("the browser starts")
}

/// The shift key, as the protocol counts it.
pub const SHIFT: u32 = 8;

impl Browser {
    pub fn start(name: &str) -> Browser {
        let scratch = Scratch::new(&format!("browser-{name}"));
        let mut child = spawn(&scratch);
        let mut browser = Browser {
            input: child.stdin.take().expect("a pipe"),
            output: BufReader::new(child.stdout.take().expect("a pipe")),
            child,
            session: None,
            sent: 0,
            events: Vec::new(),
            _scratch: scratch,
        };
        let target = browser.send("Target.createTarget", "{\"url\":\"about:blank\"}");
        let target = quoted(target["targetId"].text());
        let words = format!("{{\"targetId\":{target},\"flatten\":true}}");
        let session = browser.send("Target.attachToTarget", &words);
        browser.session = Some(session["sessionId"].text().into());
        browser.send("Page.enable", "{}");
        browser.send("Runtime.enable", "{}");
        browser
    }

    /// Sends a command and waits for its answer.
    pub fn send(&mut self, method: &str, parameters: &str) -> Json {
        self.sent += 1;
        let session = match &self.session {
            Some(session) => format!(",\"sessionId\":{}", quoted(session)),
            None => String::new(),
        };
        let id = self.sent;
        let message =
            format!("{{\"id\":{id},\"method\":\"{method}\",\"params\":{parameters}{session}}}\0");
        self.input
            .write_all(message.as_bytes())
            .expect("the browser listens");
        loop {
            let told = self.told();
            if told["id"] == Json::Number(id as f64) {
                assert_eq!(told["error"], Json::Null, "{method} {parameters:.200}");
                return told["result"].clone();
            }
        }
    }

    /// What the browser tells next; an event is kept too.
    fn told(&mut self) -> Json {
        let mut bytes = Vec::new();
        self.output
            .read_until(0, &mut bytes)
            .expect("the browser answers");
        assert_eq!(bytes.pop(), Some(0), "the browser has ended");
        let told = Json::parse(std::str::from_utf8(&bytes).expect("text"));
        if let Json::Text(method) = &told["method"] {
            self.events.push((method.clone(), told["params"].clone()));
        }
        told
    }

    /// Waits for an event that was not taken before.
    fn wait(&mut self, method: &str) {
        loop {
            if let Some(place) = self.events.iter().position(|(name, _)| name == method) {
                self.events.remove(place);
                return;
            }
            self.told();
        }
    }

    /// The window's size, with so many pixels of the screen for each of the page.
    pub fn size(&mut self, width: u32, height: u32, scale: u32) {
        let words = format!(
            "{{\"width\":{width},\"height\":{height},\"deviceScaleFactor\":{scale},\"mobile\":false}}"
        );
        self.send("Emulation.setDeviceMetricsOverride", &words);
    }

    /// Opens a page anew, at the place that the fragment names, and waits for its picture.
    pub fn open(&mut self, page: &Path, fragment: &str) {
        let address = format!("file://{}{fragment}", page.display());
        for address in ["about:blank", &address] {
            self.events.clear();
            self.send("Page.navigate", &format!("{{\"url\":{}}}", quoted(address)));
            self.wait("Page.loadEventFired");
        }
        self.settle();
        assert_ne!(
            self.eval("document.documentElement.dataset.firstPicture || ''")
                .text(),
            ""
        );
        self.assert_sound();
    }

    /// No script error and no word on the console so far.
    pub fn assert_sound(&mut self) {
        let wrong =
            |name: &str| name == "Runtime.exceptionThrown" || name == "Runtime.consoleAPICalled";
        let wrong: Vec<_> = self.events.iter().filter(|(name, _)| wrong(name)).collect();
        assert!(wrong.is_empty(), "{wrong:?}");
        assert_eq!(
            self.eval("document.documentElement.dataset.error || ''")
                .text(),
            ""
        );
    }

    /// The value of an expression in the page.
    pub fn eval(&mut self, expression: &str) -> Json {
        let expression = quoted(expression);
        let words =
            format!("{{\"expression\":{expression},\"awaitPromise\":true,\"returnByValue\":true}}");
        let told = self.send("Runtime.evaluate", &words);
        assert_eq!(told["exceptionDetails"], Json::Null, "{expression:.300}");
        told["result"]["value"].clone()
    }

    /// Waits until what was asked for is drawn.
    pub fn settle(&mut self) {
        self.eval("new Promise(done => requestAnimationFrame(() => requestAnimationFrame(() => done(1))))");
    }

    pub fn document(&mut self) -> String {
        self.eval("document.documentElement.outerHTML")
            .text()
            .into()
    }

    /// The text of an element.
    pub fn text(&mut self, selector: &str) -> String {
        let expression = format!("document.querySelector({}).textContent", quoted(selector));
        self.eval(&expression).text().into()
    }

    fn mouse(&mut self, kind: &str, (x, y): (f64, f64), more: &str) {
        let words = format!("{{\"type\":\"{kind}\",\"x\":{x},\"y\":{y}{more}}}");
        self.send("Input.dispatchMouseEvent", &words);
    }

    pub fn point(&mut self, place: (f64, f64)) {
        self.mouse("mouseMoved", place, "");
        self.settle();
    }

    pub fn click(&mut self, place: (f64, f64)) {
        self.drag(place, place, 0);
    }

    /// Drags from one place to another while keys, as SHIFT, are down.
    pub fn drag(&mut self, from: (f64, f64), to: (f64, f64), modifiers: u32) {
        let held = format!(
            ",\"button\":\"left\",\"buttons\":1,\"clickCount\":1,\"modifiers\":{modifiers}"
        );
        self.mouse("mouseMoved", from, "");
        self.mouse("mousePressed", from, &held);
        if from != to {
            self.mouse(
                "mouseMoved",
                ((from.0 + to.0) / 2.0, (from.1 + to.1) / 2.0),
                &held,
            );
            self.mouse("mouseMoved", to, &held);
        }
        self.mouse(
            "mouseReleased",
            to,
            &held.replace("\"buttons\":1", "\"buttons\":0"),
        );
        self.settle();
    }

    /// Turns the wheel at a place, downwards where the way is above 0.
    pub fn wheel(&mut self, place: (f64, f64), way: f64) {
        self.mouse(
            "mouseWheel",
            place,
            &format!(",\"deltaX\":0,\"deltaY\":{way}"),
        );
        self.settle();
    }

    /// Clicks in the middle of an element.
    pub fn click_on(&mut self, selector: &str) {
        let quoted = quoted(selector);
        self.eval(&format!(
            "document.querySelector({quoted}).scrollIntoView({{block: 'nearest'}})"
        ));
        let (left, top, width, height) = self.place_of(selector);
        self.click((left + width / 2.0, top + height / 2.0));
    }

    /// Where an element is in the window: left, top, width, height.
    pub fn place_of(&mut self, selector: &str) -> (f64, f64, f64, f64) {
        let expression = format!(
            "(({{ left, top, width, height }}) => [left, top, width, height])(
               document.querySelector({}).getBoundingClientRect())",
            quoted(selector)
        );
        let place = self.eval(&expression);
        let [left, top, width, height] = [0, 1, 2, 3].map(|i: usize| place.list()[i].number());
        (left, top, width, height)
    }

    pub fn key(&mut self, key: &str) {
        self.key_with(key, 0);
    }

    pub fn key_with(&mut self, key: &str, modifiers: u32) {
        let (name, code, number, text) = key_of(key);
        let typed = match text.is_empty() {
            true => String::new(),
            false => format!(",\"text\":{}", quoted(&text)),
        };
        let (name, code) = (quoted(&name), quoted(&code));
        for (kind, typed) in [("keyDown", &typed[..]), ("keyUp", "")] {
            let words = format!(
                "{{\"type\":\"{kind}\",\"key\":{name},\"code\":{code},
                   \"windowsVirtualKeyCode\":{number},\"modifiers\":{modifiers}{typed}}}"
            );
            self.send("Input.dispatchKeyEvent", &words);
        }
        self.settle();
    }

    /// The pixels of the screen at these places of the window, each as #rrggbb. The browser itself
    /// unpacks its picture of the screen.
    pub fn pixels(&mut self, places: &[(f64, f64)], scale: u32) -> Vec<String> {
        let screen = self.send("Page.captureScreenshot", "{\"format\":\"png\"}");
        let places: Vec<String> = places
            .iter()
            .map(|(x, y)| {
                format!(
                    "[{},{}]",
                    (x * f64::from(scale)).floor(),
                    (y * f64::from(scale)).floor()
                )
            })
            .collect();
        let expression = format!(
            "(async () => {{
               const image = new Image();
               image.src = 'data:image/png;base64,{}';
               await image.decode();
               const canvas = document.createElement('canvas');
               [canvas.width, canvas.height] = [image.width, image.height];
               const context = canvas.getContext('2d', {{ willReadFrequently: true }});
               context.drawImage(image, 0, 0);
               const hex = byte => byte.toString(16).padStart(2, '0');
               const pixel = (x, y) => Array.from(context.getImageData(x, y, 1, 1).data.slice(0, 3), hex);
               return [{}].map(([x, y]) => '#' + pixel(x, y).join(''));
             }})()",
            screen["data"].text(),
            places.join(",")
        );
        self.eval(&expression).texts()
    }
}

impl Drop for Browser {
    fn drop(&mut self) {
        // A browser that is gone already does no harm.
        let _ = self.child.kill();
        let _ = self.child.wait();
    }
}
