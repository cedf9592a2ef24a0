//! JSON: a message with its reply as one line, and a text that may stand within a script tag.

use crate::kinds::{Call, Tells};
use crate::looks::{copies_of, Mark, NO_FRAME};
use crate::run::Answered;
use crate::words::{hex, word};

/// A JSON string that may stand within a script tag.
pub fn string(text: &str) -> String {
    let mut quoted = String::from('"');
    for letter in text.chars() {
        match letter {
            '"' | '\\' | '<' | '\0'..='\x1F' | '\u{2028}' | '\u{2029}' => {
                quoted += &format!("\\u{:04X}", u32::from(letter));
            }
            _ => quoted.push(letter),
        }
    }
    quoted.push('"');
    quoted
}

/// An object, member after member.
#[derive(Default)]
pub struct Object(String);

impl Object {
    /// A member whose value is JSON already, as a number is.
    pub fn with(mut self, name: &str, value: impl std::fmt::Display) -> Object {
        let comma = if self.0.is_empty() { "" } else { "," };
        self.0 += &format!("{comma}{}:{value}", string(name));
        self
    }

    pub fn with_text(self, name: &str, text: &str) -> Object {
        self.with(name, string(text))
    }

    pub fn end(self) -> String {
        format!("{{{}}}", self.0)
    }
}

/// A list of values that are JSON already.
pub fn list(values: impl Iterator<Item = String>) -> String {
    let values: Vec<String> = values.collect();
    format!("[{}]", values.join(","))
}

/// A message with its reply. The arguments have their names; bytes are hexadecimal.
pub fn line(answered: &Answered) -> String {
    let object = Object::default().with("message", answered.number);
    let (reply, call) = (answered.reply, Call::parse(answered.message));
    let mut object = match &call {
        None => object
            .with("kind", "null")
            .with_text("raw", &hex(answered.message)),
        Some(call) => object.with_text("kind", call.kind.word),
    };
    if let Some(call) = &call {
        for (argument, value) in call.kind.arguments.iter().zip(call.arguments) {
            object = object.with(&argument.name().replace(' ', "_"), value);
        }
        if call.kind.has_bytes() {
            object = object.with_text("bytes", &hex(call.bytes));
        }
    }
    object = object
        .with("number", reply.number)
        .with_text("word", word(reply.number));
    if reply.number == 0 {
        object = object.with("laid", reply.laid);
        let tells = call.map_or(Tells::Bytes, |call| call.kind.tells);
        object = told(object, tells, &reply.data);
    }
    object.end()
}

/// What the data of a read or look tell.
fn told(object: Object, tells: Tells, data: &[u8]) -> Object {
    match (tells, data) {
        (_, []) => object,
        (Tells::Page, _) => object.with("copies", copies(data)),
        (Tells::Frame, [1, page, copy]) => {
            let held = Object::default()
                .with_text("state", "held")
                .with("page", page);
            object.with("frame_is", held.with("copy", copy).end())
        }
        (Tells::Frame, [0, NO_FRAME, NO_FRAME]) => object.with("frame_is", state("free")),
        (Tells::Frame, [2, NO_FRAME, NO_FRAME]) => object.with("frame_is", state("retired")),
        _ => object.with_text("data", &hex(data)),
    }
}

fn state(word: &str) -> String {
    Object::default().with_text("state", word).end()
}

/// The copies that a look at a page told.
fn copies(data: &[u8]) -> String {
    list(copies_of(data).into_iter().map(|copy| {
        let frame = copy.frame.map_or("null".into(), |frame| frame.to_string());
        let object = Object::default().with("frame", frame);
        let object = object.with("current", copy.mark == Mark::Current);
        object.with("recent", copy.mark != Mark::Stale).end()
    }))
}
