//! The command line.

use crate::failure::Failure;
use crate::filter::{Filter, Span};
use crate::kinds::KINDS;
use crate::looks::{MOST_FRAMES_OF_BOTH, PAGES, STATIONS};
use crate::view::MOST_MESSAGES;
use kernel::MOST_FRAMES;
use std::ffi::{OsStr, OsString};
use std::fmt::Display;
use std::str::FromStr;

const COMMANDS: &str = "\
reel: call files of the reel page kernel, seen through the kernel's own replies

  reel write [LINES] [-o FILE]   turn lines of words into a call file
  reel words FILE                turn a call file into lines of words
  reel show FILE                 each message with its reply
  reel page FILE PAGE            the history of a page: each message that names it, with the
                                 page's copies after it
  reel page FILE PAGE --at K     which copies are the latest after message K, which message made
                                 each of the others stale, and which accepted write each carries
  reel frame FILE FRAME          the history of a frame: each message that names it, changes what
                                 is on it or lays bytes there, with what is on it after it
  reel frame FILE FRAME --at K   what is on it after message K, and since when
  reel view FILE -o OUT.html     the whole file as a picture for a browser, with no network
  reel diff FILE OTHER           where the runs of two files part
  reel forecast FILE             what the file comes to, from tables alone: the most frames held, and
                                 after which message first; the bytes laid; how many messages get
                                 each number
  reel --version                 the versions of reel and of its kernel

show, page, frame, view and diff take
  --fast P, --slow S             fresh tables of so many frames, 0 to 127 each; 4 each if not given
  --tables FILE --stores FILE    tables and stores that were kept, as the kernel has their bytes: the
                                 tables, and the fast store with the slow one behind it
and show, page, frame and view also
  --keep-tables FILE --keep-stores FILE
                                 write both as they are after the last message read, for the next
                                 shift to start from; may be the files that this one started from
  --strict                       exit status 1 if a message was refused

show takes only messages that pass each of
  --page P, --station S          that name the page, that come from the station
  --frame F                      that name the frame, change what is on it or lay bytes there
  --refused                      that were refused
  --from K, --to L               from message K on, up to message L; nothing is read after it
and prints, in the place of sentences, with
  --json                         a line of JSON for each message
  --summary                      how many there are of each kind and number, and what they leave
";

const REST: &str = "
forecast takes --fast and --slow, or --tables without stores, and
  --frames N                     whether the file fits: exit status 1 if more than N frames are held
  --strict                       exit status 1 if a message would be refused
  --json                         one line of JSON, with every number

Messages are numbered from 1. `-` stands for standard input or output.

Exit status: 0 done; 1 with --strict, the file was read and a message was refused, or for forecast
would be, or for diff the runs part, or for forecast the file does not fit; 2 bad usage, a file that
cannot be read or written, or tables or stores that the kernel refuses.

A line of words is one of these, with decimal numbers 0 to 255; BYTES are hexadecimal, two digits
each. What follows a `#` is a comment. A call that the kernel's writer refuses, as one with a number
out of range, is written all the same, with a warning on standard error. A create-closed stands for
sixteen calls, a create and fifteen grants, and `reel words` gives it back as these.
";

/// Lines of words that are no kind's.
const OTHER_LINES: [&str; 2] = [
    "  create-closed STATION PAGE (create, and grant right 0 to every other station)\n",
    "  raw BYTES (laid as they are)\n",
];

/// All that `reel --help` says.
pub fn help() -> String {
    let view =
        format!("view takes --from K and --to L too, and has room for {MOST_MESSAGES} messages.\n");
    let mut text = [COMMANDS, &view, REST].concat();
    for kind in &KINDS {
        text += &format!("  {}", kind.word);
        for argument in kind.arguments {
            text += &format!(" {}", argument.name().to_uppercase().replace(' ', "-"));
        }
        if kind.has_bytes() {
            text += " BYTES (1 to 64)";
        }
        text.push('\n');
    }
    text + &OTHER_LINES.concat()
}

/// Where tables and stores are kept.
#[derive(Debug, PartialEq, Eq)]
pub struct Files {
    pub tables: OsString,
    pub stores: OsString,
}

/// What a shift starts from, or with the tables' file alone what a forecast does.
#[derive(Debug, PartialEq, Eq)]
pub enum Start<Kept = Files> {
    Fresh {
        fast: u8,
        slow: u8,
        /// Whether a size was given.
        is_sized: bool,
    },
    Kept(Kept),
}

/// A call file, what it starts from, and what is kept at its end.
#[derive(Debug, PartialEq, Eq)]
pub struct Shift {
    pub file: OsString,
    pub start: Start,
    pub keep: Option<Files>,
    pub strict: bool,
}

/// A call file to be forecast.
#[derive(Debug, PartialEq, Eq)]
pub struct Plan {
    pub file: OsString,
    pub start: Start<OsString>,
    /// So many frames may be held.
    pub frames: Option<u8>,
    pub strict: bool,
    pub json: bool,
}

/// How `reel show` tells what it shows.
#[derive(Clone, Copy, Debug, PartialEq, Eq)]
pub struct Form {
    pub json: bool,
    pub summary: bool,
}

#[derive(Debug, PartialEq, Eq)]
pub enum Command {
    Help,
    Version,
    Write {
        lines: OsString,
        out: OsString,
    },
    Words {
        file: OsString,
    },
    Show {
        shift: Shift,
        filter: Filter,
        form: Form,
    },
    Page {
        shift: Shift,
        page: u8,
        at: Option<u64>,
    },
    Frame {
        shift: Shift,
        frame: u8,
        at: Option<u64>,
    },
    View {
        shift: Shift,
        span: Span,
        out: OsString,
    },
    Diff {
        shift: Shift,
        other: OsString,
    },
    Forecast(Plan),
}

/// Standard input or output.
pub const STANDARD: &str = "-";

const DEFAULT_FRAMES: u8 = 4;

/// Options that stand alone; a value follows each of the others.
const FLAGS: [&str; 4] = ["--strict", "--refused", "--summary", "--json"];
const SIZE: &[&str] = &["--fast", "--slow"];
const START: &[&str] = &["--fast", "--slow", "--tables", "--stores"];
const SHIFT: &[&str] = &["--strict", "--keep-tables", "--keep-stores"];
const FILTER: &[&str] = &["--page", "--station", "--frame", "--refused"];
const SPAN: &[&str] = &["--from", "--to"];

pub fn parse(words: impl IntoIterator<Item = OsString>) -> Result<Command, Failure> {
    let words: Vec<OsString> = words.into_iter().collect();
    let Some((name, rest)) = words.split_first() else {
        return Err(Failure::line("no command (`reel --help` lists them)"));
    };
    let asks_help = |word: &OsString| word == "--help" || word == "-h";
    if name == "help" || words.iter().any(asks_help) {
        return Ok(Command::Help);
    }
    let given = |allowed: &[&[&str]]| Given::parse(rest, &allowed.concat());
    match name.to_str() {
        Some("--version" | "-V") => Ok(Command::Version),
        Some("write") => write(given(&[&["-o"]])?),
        Some("words") => words_of(given(&[])?),
        Some("show") => show(given(&[
            START,
            SHIFT,
            FILTER,
            SPAN,
            &["--json", "--summary"],
        ])?),
        Some("page") => page(given(&[START, SHIFT, &["--at"]])?),
        Some("frame") => frame(given(&[START, SHIFT, &["--at"]])?),
        Some("view") => view(given(&[START, SHIFT, SPAN, &["-o"]])?),
        Some("diff") => diff(given(&[START])?),
        Some("forecast") => forecast(given(&[
            SIZE,
            &["--tables", "--frames", "--strict", "--json"],
        ])?),
        _ => Err(unknown("command", name)),
    }
}

fn unknown(what: &str, word: &OsStr) -> Failure {
    let word = word.display();
    Failure::line(format!("unknown {what}: {word} (`reel --help` lists them)"))
}

fn write(given: Given) -> Result<Command, Failure> {
    let out = given.path("-o").unwrap_or_else(|| STANDARD.into());
    let lines = match &given.operands[..] {
        [] => STANDARD.into(),
        [lines] => lines.clone(),
        _ => return Err(Failure::line("write takes one file of lines at the most")),
    };
    Ok(Command::Write { lines, out })
}

fn words_of(given: Given) -> Result<Command, Failure> {
    let [file] = given.operands("words takes FILE")?;
    Ok(Command::Words { file })
}

fn show(given: Given) -> Result<Command, Failure> {
    let [file] = given.operands("show takes FILE")?;
    let filter = Filter {
        page: given.number("--page", PAGES as u8 - 1)?,
        station: given.number("--station", STATIONS - 1)?,
        frame: given.number("--frame", MOST_FRAMES_OF_BOTH - 1)?,
        refused: given.has("--refused"),
        span: given.span()?,
    };
    let form = Form {
        json: given.has("--json"),
        summary: given.has("--summary"),
    };
    let shift = given.shift(file)?;
    Ok(Command::Show {
        shift,
        filter,
        form,
    })
}

fn page(given: Given) -> Result<Command, Failure> {
    let [file, page] = given.operands("page takes FILE and PAGE")?;
    let page = number("PAGE", &page, PAGES as u8 - 1)?;
    let at = given.number("--at", u64::MAX)?;
    let shift = given.shift(file)?;
    Ok(Command::Page { shift, page, at })
}

fn frame(given: Given) -> Result<Command, Failure> {
    let [file, frame] = given.operands("frame takes FILE and FRAME")?;
    let frame = number("FRAME", &frame, MOST_FRAMES_OF_BOTH - 1)?;
    let at = given.number("--at", u64::MAX)?;
    let shift = given.shift(file)?;
    Ok(Command::Frame { shift, frame, at })
}

fn view(given: Given) -> Result<Command, Failure> {
    let [file] = given.operands("view takes FILE and -o OUT.html")?;
    let Some(out) = given.path("-o") else {
        return Err(Failure::line("view takes -o OUT.html, where the page goes"));
    };
    let (span, shift) = (given.span()?, given.shift(file)?);
    Ok(Command::View { shift, span, out })
}

fn diff(given: Given) -> Result<Command, Failure> {
    let [file, other] = given.operands("diff takes FILE and OTHER")?;
    if file == STANDARD && other == STANDARD {
        return Err(Failure::line(
            "diff takes one file at the most from standard input",
        ));
    }
    let shift = given.shift(file)?;
    Ok(Command::Diff { shift, other })
}

fn forecast(given: Given) -> Result<Command, Failure> {
    let [file] = given.operands("forecast takes FILE")?;
    Ok(Command::Forecast(Plan {
        file,
        start: given.start(given.path("--tables"))?,
        frames: given.number("--frames", MOST_FRAMES_OF_BOTH)?,
        strict: given.has("--strict"),
        json: given.has("--json"),
    }))
}

/// The words after a command's name.
#[derive(Default)]
struct Given {
    operands: Vec<OsString>,
    /// Each option with its value; the last one counts.
    options: Vec<(String, OsString)>,
}

impl Given {
    fn parse(words: &[OsString], allowed: &[&str]) -> Result<Given, Failure> {
        let mut given = Given::default();
        let mut words = words.iter();
        while let Some(word) = words.next() {
            let text = word.to_str().unwrap_or_default();
            if !text.starts_with('-') || text == STANDARD {
                given.operands.push(word.clone());
                continue;
            }
            if !allowed.contains(&text) {
                return Err(unknown("option", word));
            }
            let value = match FLAGS.contains(&text) {
                true => OsString::new(),
                false => {
                    let missing = || Failure::line(format!("{text} needs a value"));
                    words.next().ok_or_else(missing)?.clone()
                }
            };
            given.options.push((text.into(), value));
        }
        Ok(given)
    }

    /// As many operands as are due.
    fn operands<const N: usize>(&self, due: &str) -> Result<[OsString; N], Failure> {
        let operands = self.operands.clone();
        operands.try_into().map_err(|_| Failure::line(due))
    }

    fn path(&self, name: &str) -> Option<OsString> {
        let mut options = self.options.iter().rev();
        let option = options.find(|(option, _)| option == name);
        option.map(|(_, value)| value.clone())
    }

    fn has(&self, name: &str) -> bool {
        self.path(name).is_some()
    }

    fn number<T>(&self, name: &str, most: T) -> Result<Option<T>, Failure>
    where
        T: FromStr + PartialOrd + Display,
    {
        let value = self.path(name);
        value.map(|value| number(name, &value, most)).transpose()
    }

    fn span(&self) -> Result<Span, Failure> {
        let from = self.number("--from", u64::MAX)?.unwrap_or(1);
        let to = self.number("--to", u64::MAX)?.unwrap_or(u64::MAX);
        match from > to || from == 0 {
            true => Err(Failure::line(format!(
                "--from {from} --to {to}: no message"
            ))),
            false => Ok(Span { from, to }),
        }
    }

    /// Two files that are given together, or neither.
    fn files(&self, tables: &str, stores: &str) -> Result<Option<Files>, Failure> {
        match (self.path(tables), self.path(stores)) {
            (Some(tables), Some(stores)) => Ok(Some(Files { tables, stores })),
            (None, None) => Ok(None),
            _ => Err(Failure::line(format!("{tables} and {stores} go together"))),
        }
    }

    /// What was kept, or else fresh tables.
    fn start<Kept>(&self, kept: Option<Kept>) -> Result<Start<Kept>, Failure> {
        let (fast, slow) = (
            self.number("--fast", MOST_FRAMES)?,
            self.number("--slow", MOST_FRAMES)?,
        );
        let is_sized = fast.is_some() || slow.is_some();
        match kept {
            Some(_) if is_sized => Err(Failure::line(
                "--tables has the size: no --fast and no --slow beside it",
            )),
            Some(kept) => Ok(Start::Kept(kept)),
            None => Ok(Start::Fresh {
                fast: fast.unwrap_or(DEFAULT_FRAMES),
                slow: slow.unwrap_or(DEFAULT_FRAMES),
                is_sized,
            }),
        }
    }

    fn shift(self, file: OsString) -> Result<Shift, Failure> {
        Ok(Shift {
            file,
            start: self.start(self.files("--tables", "--stores")?)?,
            keep: self.files("--keep-tables", "--keep-stores")?,
            strict: self.has("--strict"),
        })
    }
}

/// The number that a word stands for, 0 to `most`.
fn number<T>(name: &str, word: &OsStr, most: T) -> Result<T, Failure>
where
    T: FromStr + PartialOrd + Display,
{
    let value = word.to_str().and_then(|word| word.parse().ok());
    value.filter(|value| *value <= most).ok_or_else(|| {
        let word = word.display();
        Failure::line(format!("{name}: not a number 0 to {most}: {word}"))
    })
}

#[cfg(test)]
mod tests {
    use super::{parse, Command, Files, Form, Plan, Shift, Start};
    use crate::failure::Failure;
    use crate::filter::{Filter, Span};

    fn parsed(line: &str) -> Result<Command, Failure> {
        parse(line.split_whitespace().map(Into::into))
    }

    #[test]
    fn a_page_at_a_message() {
        let due = Command::Page {
            shift: Shift {
                file: "calls".into(),
                start: Start::Fresh {
                    fast: 127,
                    slow: 4,
                    is_sized: true,
                },
                keep: None,
                strict: true,
            },
            page: 63,
            at: Some(7),
        };
        let line = "page --fast 127 calls --strict 63 --at 7";
        assert_eq!(parsed(line).unwrap(), due);
        assert_eq!(parsed("view calls --help").unwrap(), Command::Help);
        assert_eq!(parsed("--version").unwrap(), Command::Version);
    }

    #[test]
    fn a_part_of_a_shift_that_goes_on() {
        let files = |tables: &str, stores: &str| Files {
            tables: tables.into(),
            stores: stores.into(),
        };
        let due = Command::Show {
            shift: Shift {
                file: "-".into(),
                start: Start::Kept(files("t", "s")),
                keep: Some(files("t", "u")),
                strict: false,
            },
            filter: Filter {
                page: Some(5),
                station: None,
                frame: Some(253),
                refused: true,
                span: Span {
                    from: 7,
                    to: u64::MAX,
                },
            },
            form: Form {
                json: true,
                summary: false,
            },
        };
        let line = "show - --tables t --stores s --keep-tables t --keep-stores u \
                    --page 6 --page 5 --frame 253 --refused --from 7 --json";
        assert_eq!(parsed(line).unwrap(), due);
    }

    #[test]
    fn a_forecast_from_tables_alone() {
        let due = Plan {
            file: "calls".into(),
            start: Start::Kept("t".into()),
            frames: Some(254),
            strict: true,
            json: false,
        };
        let line = "forecast calls --tables t --frames 254 --strict";
        assert_eq!(parsed(line).unwrap(), Command::Forecast(due));
    }

    #[test]
    fn bad_usage() {
        for line in [
            "",
            "turn calls",
            "show",
            "show a b",
            "show calls --at 3",
            "show calls --fast",
            "show calls --fast 128",
            "show calls --slow x",
            "show calls --station 16",
            "show calls --frame 254",
            "show calls --from 0",
            "show calls --from 8 --to 7",
            "show calls --tables t",
            "show calls --keep-stores t",
            "show calls --tables t --stores s --fast 4",
            "page calls",
            "page calls 64",
            "page calls 5 --at -1",
            "page calls 5 --refused",
            "frame calls",
            "frame calls 254",
            "view calls",
            "view calls -o x --page 5",
            "diff calls",
            "diff - -",
            "diff a b --strict",
            "forecast",
            "forecast a b",
            "forecast calls --frames 255",
            "forecast calls --tables t --stores s",
            "forecast calls --tables t --slow 4",
            "forecast calls --keep-tables t",
            "write a b",
            "words calls -o x",
        ] {
            assert!(parsed(line).is_err(), "{line}");
        }
    }
}
