//! JSON, as the browser and `reel show --json` write it.

use std::collections::BTreeMap;
use std::ops::Index;

#[derive(Clone, Debug, PartialEq)]
pub enum Json {
    Null,
    Bool(bool),
    Number(f64),
    Text(String),
    List(Vec<Json>),
    Object(BTreeMap<String, Json>),
}

impl Json {
    /// The value that a text stands for, all of it.
    pub fn parse(text: &str) -> Json {
        let mut parser = Parser { text, at: 0 };
        let value = parser.value();
        parser.space();
        assert_eq!(parser.at, text.len(), "more than one value: {text}");
        value
    }

    pub fn text(&self) -> &str {
        match self {
            Json::Text(text) => text,
            other => panic!("not a text: {other:?}"),
        }
    }

    pub fn number(&self) -> f64 {
        match self {
            Json::Number(number) => *number,
            other => panic!("not a number: {other:?}"),
        }
    }

    pub fn list(&self) -> &[Json] {
        match self {
            Json::List(list) => list,
            other => panic!("not a list: {other:?}"),
        }
    }

    pub fn texts(&self) -> Vec<String> {
        self.list().iter().map(|text| text.text().into()).collect()
    }
}

/// The value at a key; Null where there is none.
impl Index<&str> for Json {
    type Output = Json;

    fn index(&self, key: &str) -> &Json {
        match self {
            Json::Object(members) => members.get(key).unwrap_or(&Json::Null),
            _ => &Json::Null,
        }
    }
}

/// A text as JSON.
pub fn quoted(text: &str) -> String {
    let mut quoted = String::from('"');
    for letter in text.chars() {
        match letter {
            '"' | '\\' | '\0'..='\x1F' => quoted += &format!("\\u{:04x}", u32::from(letter)),
            _ => quoted.push(letter),
        }
    }
    quoted + "\""
}

struct Parser<'a> {
    text: &'a str,
    at: usize,
}

impl Parser<'_> {
    fn rest(&self) -> &str {
        &self.text[self.at..]
    }

    fn space(&mut self) {
        self.at = self.text.len() - self.rest().trim_start().len();
    }

    /// Passes over this text if it comes next.
    fn eat(&mut self, text: &str) -> bool {
        self.space();
        let is_next = self.rest().starts_with(text);
        self.at += if is_next { text.len() } else { 0 };
        is_next
    }

    fn due(&mut self, text: &str) {
        assert!(self.eat(text), "no {text} at {:.40}", self.rest());
    }

    fn value(&mut self) -> Json {
        let words = [
            ("null", Json::Null),
            ("true", Json::Bool(true)),
            ("false", Json::Bool(false)),
        ];
        for (word, value) in words {
            if self.eat(word) {
                return value;
            }
        }
        match self.rest().as_bytes().first() {
            Some(b'"') => Json::Text(self.string()),
            Some(b'[') => self.array(),
            Some(b'{') => self.object(),
            _ => self.decimal(),
        }
    }

    fn decimal(&mut self) -> Json {
        let is_part = |letter: char| letter.is_ascii_digit() || "+-.eE".contains(letter);
        let length = self.rest().find(|letter| !is_part(letter));
        let number = &self.rest()[..length.unwrap_or(self.rest().len())];
        let value = number.parse().expect("a number");
        self.at += number.len();
        Json::Number(value)
    }

    fn array(&mut self) -> Json {
        let mut list = Vec::new();
        self.due("[");
        while !self.eat("]") {
            list.push(self.value());
            let _ = self.eat(",");
        }
        Json::List(list)
    }

    fn object(&mut self) -> Json {
        let mut members = BTreeMap::new();
        self.due("{");
        while !self.eat("}") {
            let key = self.string();
            self.due(":");
            members.insert(key, self.value());
            let _ = self.eat(",");
            self.space();
        }
        Json::Object(members)
    }

    fn string(&mut self) -> String {
        self.due("\"");
        let mut units: Vec<u16> = Vec::new();
        loop {
            let letter = self.rest().chars().next().expect("the end of a text");
            self.at += letter.len_utf8();
            match letter {
                '"' => return String::from_utf16(&units).expect("text"),
                '\\' => units.push(self.escaped()),
                _ => units.extend(letter.encode_utf16(&mut [0; 2]).iter()),
            }
        }
    }

    fn escaped(&mut self) -> u16 {
        let letter = self.rest().as_bytes()[0];
        self.at += 1;
        match letter {
            b'u' => {
                self.at += 4;
                u16::from_str_radix(&self.text[self.at - 4..self.at], 16).expect("four digits")
            }
            b'n' => 10,
            b't' => 9,
            b'r' => 13,
            b'b' => 8,
            b'f' => 12,
            other => other.into(),
        }
    }
}

#[cfg(test)]
mod tests {
    use super::{quoted, Json};

    #[test]
    fn values_and_texts() {
        let text =
            r#" {"a": [1, -2.5e1, "x\n\u00e9\ud83d\ude00"], "b": {}, "c": null, "d": true} "#;
        let value = Json::parse(text);
        assert_eq!(value["a"].list()[1].number(), -25.0);
        assert_eq!(value["a"].list()[2].text(), "x\né😀");
        assert_eq!(value["b"]["x"], Json::Null);
        assert_eq!(value["d"], Json::Bool(true));
        let text = "a\"\\\n</b>é";
        assert_eq!(Json::parse(&quoted(text)).text(), text);
    }
}
