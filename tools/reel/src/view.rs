//! The page of `reel view`: one HTML file with its data, style and script inside.

use crate::forecast::Most;
use crate::json::{list, string, Object};
use crate::kinds::{Kind, Tells, KINDS};
use crate::record::{write_base64, Record};
use crate::words::WORDS;
use std::io::{self, Write};

const TEMPLATE: &str = include_str!("view/view.html");
const STYLE: &str = include_str!("view/view.css");
const SCRIPTS: [&str; 9] = [
    include_str!("view/data.js"),
    include_str!("view/choice.js"),
    include_str!("view/colours.js"),
    include_str!("view/picture.js"),
    include_str!("view/lanes.js"),
    include_str!("view/list.js"),
    include_str!("view/figures.js"),
    include_str!("view/panel.js"),
    include_str!("view/main.js"),
];

/// A page has room for so many messages: more than any screen can show, and few enough for a browser.
pub const MOST_MESSAGES: u64 = 1_000_000;

/// Writes the page for a file of this name, run on so many fast and slow frames; the most of them that
/// are held are marked.
pub fn write(
    out: &mut dyn Write,
    name: &str,
    frames: (u8, u8),
    record: &Record,
    most: &Most,
) -> io::Result<()> {
    let (facts, scripts) = (facts(name, frames, record, most), SCRIPTS.concat());
    let title = escaped(name);
    let parts = [
        ("{{title}}", Part::Text(&title)),
        ("{{style}}", Part::Text(STYLE)),
        ("{{facts}}", Part::Text(&facts)),
        ("{{file}}", Part::Bytes(&record.file)),
        ("{{answers}}", Part::Bytes(&record.answers)),
        ("{{changes}}", Part::Bytes(&record.changes)),
        ("{{retired}}", Part::Bytes(&record.retired)),
        ("{{script}}", Part::Text(&scripts)),
    ];
    // In the template's order and each once, so that nothing put in is taken for a place.
    let mut rest = TEMPLATE;
    for (place, part) in parts {
        let (before, after) = rest.split_once(place).expect("a place of the template");
        out.write_all(before.as_bytes())?;
        match part {
            Part::Text(text) => out.write_all(text.as_bytes())?,
            Part::Bytes(bytes) => write_base64(out, bytes)?,
        }
        rest = after;
    }
    out.write_all(rest.as_bytes())?;
    out.flush()
}

/// What is put into a place of the template.
enum Part<'a> {
    Text(&'a str),
    /// Bytes for the script to unpack.
    Bytes(&'a [u8]),
}

/// Text for a place between tags.
fn escaped(text: &str) -> String {
    let text = text.replace('&', "&amp;");
    text.replace('<', "&lt;").replace('>', "&gt;")
}

/// What the script has to know beside the packed bytes, as JSON.
fn facts(name: &str, (fast, slow): (u8, u8), record: &Record, most: &Most) -> String {
    let object = Object::default().with_text("name", name);
    let object = object.with("fast", fast).with("slow", slow);
    let object = object
        .with("before", record.before)
        .with("messages", record.messages);
    let object = object
        .with("most", most.frames)
        .with("mostAt", most.first.number);
    let object = object.with("kinds", list(KINDS.iter().map(kind)));
    object
        .with("words", list(WORDS.iter().map(|word| string(word))))
        .end()
}

fn kind(kind: &Kind) -> String {
    let tells = match kind.tells {
        Tells::Nothing => "nothing",
        Tells::BytesLaid => "bytes laid",
        Tells::Bytes => "bytes",
        Tells::Page => "page",
        Tells::Frame => "frame",
    };
    let names = kind
        .arguments
        .iter()
        .map(|argument| string(argument.name()));
    let (least, most) = kind.bytes();
    let object = Object::default().with_text("word", kind.word);
    let object = object
        .with_text("sentence", kind.sentence)
        .with("arguments", list(names));
    let object = object.with("bytes", format_args!("[{least},{most}]"));
    object.with_text("tells", tells).end()
}

#[cfg(test)]
mod tests {
    use super::{write, Most, Record};
    use crate::history::Turn;

    #[test]
    fn a_name_that_looks_like_markup() {
        let name = "</script><b>\"\\{{file}}";
        let mut page = Vec::new();
        let most = Most {
            frames: 0,
            first: Turn::start(),
        };
        write(&mut page, name, (4, 4), &Record::default(), &most).unwrap();
        let page = String::from_utf8(page).unwrap();
        assert!(!page.contains("</script><b>"));
        assert!(page.contains("\"name\":\"\\u003C/script>\\u003Cb>\\u0022\\u005C{{file}}\""));
        assert!(page.contains("&lt;/script&gt;&lt;b&gt;"));
    }
}
