//! Lines of words to the bytes of a call file, and back.

use crate::kinds::{number_of, Call, Kind, KINDS, VERSION};
use crate::looks::STATIONS;
use crate::words::hex;
use kernel::MESSAGE;

/// The word of a line whose bytes are laid as they are.
const RAW: &str = "raw";
/// The word of a line that stands for the messages of a closed page.
const CLOSED: &str = "create-closed";
/// So many bytes behind version, kind and four arguments go into any message: its length has two.
const MOST_BYTES: usize = 65535 - 6;

/// What a line stands for.
#[derive(Debug, Default, PartialEq, Eq)]
pub struct Written {
    pub bytes: Vec<u8>,
    /// The number with which the kernel's writer refuses the call.
    pub refused: Option<u8>,
}

/// What a line stands for; an error names the word that is wrong.
pub fn written(line: &str) -> Result<Written, String> {
    let line = line.split('#').next().unwrap_or_default();
    let words: Vec<&str> = line.split_whitespace().collect();
    let Some((&name, rest)) = words.split_first() else {
        return Ok(Written::default());
    };
    match name {
        RAW => Ok(Written {
            bytes: bytes_of(rest)?,
            refused: None,
        }),
        CLOSED => closed(rest),
        _ => {
            let kind = named(name)?;
            let (arguments, bytes) = parts(name, kind, rest)?;
            Ok(message(kind, &arguments, &bytes))
        }
    }
}

/// The kind of this word.
fn named(word: &str) -> Result<&'static Kind, String> {
    let kind = KINDS.iter().find(|kind| kind.word == word);
    kind.ok_or_else(|| format!("unknown word: {word}"))
}

/// A create, and grants of right 0 to every station but its own; refused as the first of them is.
fn closed(words: &[&str]) -> Result<Written, String> {
    let (create, grant) = (named("create")?, named("grant")?);
    let (arguments, _) = parts(CLOSED, create, words)?;
    let mut all = message(create, &arguments, &[]);
    for other in (0..STATIONS).filter(|&other| other != arguments[0]) {
        let granted = message(grant, &[&arguments[..], &[other, 0]].concat(), &[]);
        all.bytes.extend(granted.bytes);
        all.refused = all.refused.or(granted.refused);
    }
    Ok(all)
}

/// The bytes alone that a line stands for.
pub fn bytes(line: &str) -> Result<Vec<u8>, String> {
    written(line).map(|written| written.bytes)
}

/// The arguments and the bytes of this kind that the words name, behind the word `name`.
fn parts(name: &str, kind: &Kind, words: &[&str]) -> Result<(Vec<u8>, Vec<u8>), String> {
    let mut arguments = Vec::new();
    let mut words = words.iter();
    for argument in kind.arguments {
        let argument = argument.name();
        let word = words.next();
        let word = word.ok_or_else(|| format!("{name}: the {argument} is missing"))?;
        arguments.push(decimal(word, argument)?);
    }
    let rest = words.as_slice();
    if let (false, [word, ..]) = (kind.has_bytes(), rest) {
        return Err(format!("{name}: one word too many: {word}"));
    }
    if rest.len() > MOST_BYTES {
        let count = rest.len();
        return Err(format!("{name}: {count} bytes are more than a message has"));
    }
    Ok((arguments, bytes_of(rest)?))
}

/// The message of a call by the kernel's writer. One that it refuses is put together all the same:
/// wrong calls are wanted too, to see them answered.
fn message(kind: &Kind, arguments: &[u8], bytes: &[u8]) -> Written {
    let mut four = [0; 4];
    four[..arguments.len()].copy_from_slice(arguments);
    let mut out = [0; MESSAGE];
    let length = kernel::write(number_of(kind), four, bytes, &mut out);
    Written {
        bytes: match length {
            Ok(length) => out[..length].to_vec(),
            Err(_) => put_together(kind, arguments, bytes),
        },
        refused: length.err(),
    }
}

/// A message of these arguments and bytes, whatever they are.
fn put_together(kind: &Kind, arguments: &[u8], bytes: &[u8]) -> Vec<u8> {
    let body = [&[VERSION, number_of(kind)], arguments, bytes].concat();
    [&(body.len() as u16).to_be_bytes()[..], &body].concat()
}

fn decimal(word: &str, name: &str) -> Result<u8, String> {
    let is_plain = word.bytes().all(|letter| letter.is_ascii_digit());
    let number = word.parse().ok().filter(|_| is_plain);
    number.ok_or_else(|| format!("{name}: not a number 0 to 255: {word}"))
}

fn bytes_of(words: &[&str]) -> Result<Vec<u8>, String> {
    words.iter().map(|word| hexadecimal(word)).collect()
}

fn hexadecimal(word: &str) -> Result<u8, String> {
    let is_plain = word.len() <= 2 && word.bytes().all(|letter| letter.is_ascii_hexdigit());
    let byte = u8::from_str_radix(word, 16).ok().filter(|_| is_plain);
    byte.ok_or_else(|| format!("not a hexadecimal byte: {word}"))
}

/// The line that stands for a message.
pub fn line(message: &[u8]) -> String {
    let Some(call) = Call::parse(message) else {
        return format!("{RAW} {}", hex(message));
    };
    let mut words = vec![call.kind.word.to_string()];
    words.extend(call.arguments.iter().map(u8::to_string));
    words.extend(call.bytes.iter().map(|byte| format!("{byte:02X}")));
    words.join(" ")
}

#[cfg(test)]
mod tests {
    use super::{bytes, line, written, Written};

    #[test]
    fn lines_and_their_messages() {
        let pairs: [(&str, &[u8]); 8] = [
            ("create 3 5", &[0, 4, 1, 1, 3, 5]),
            ("copy 5 0 0", &[0, 5, 1, 6, 5, 0, 0]),
            ("current 5 0", &[0, 4, 1, 8, 5, 0]),
            ("write 3 5 0 41 37", &[0, 7, 1, 5, 3, 5, 0, 0x41, 0x37]),
            ("read 3 5 0 3", &[0, 6, 1, 4, 3, 5, 0, 3]),
            ("look-page 255", &[0, 3, 1, 10, 255]),
            ("retire 7", &[0, 3, 1, 12, 7]),
            ("raw 00 0A", &[0, 10]),
        ];
        for (words, message) in pairs {
            assert_eq!(bytes(words).unwrap(), message);
            assert_eq!(line(message), words);
        }
        assert_eq!(bytes("  look-page 5 # a look").unwrap(), [0, 3, 1, 10, 5]);
        assert_eq!(bytes(" # nothing").unwrap(), []);
    }

    #[test]
    fn calls_that_the_writer_refuses_are_written_all_the_same() {
        let longest = format!("write 3 5 0{}", " 00".repeat(65));
        let message = [&[0, 70, 1, 5, 3, 5, 0][..], &[0; 65]].concat();
        let pairs: [(&str, &[u8]); 11] = [
            ("create 16 5", &[0, 4, 1, 1, 16, 5]),
            ("look-page 64", &[0, 3, 1, 10, 64]),
            ("grant 3 5 16 1", &[0, 6, 1, 3, 3, 5, 16, 1]),
            ("grant 3 5 4 3", &[0, 6, 1, 3, 3, 5, 4, 3]),
            ("read 3 5 0 0", &[0, 6, 1, 4, 3, 5, 0, 0]),
            ("read 3 5 63 2", &[0, 6, 1, 4, 3, 5, 63, 2]),
            ("write 3 5 64 41", &[0, 6, 1, 5, 3, 5, 64, 0x41]),
            ("look-frame 254", &[0, 3, 1, 11, 254]),
            ("retire 254", &[0, 3, 1, 12, 254]),
            ("write 3 5 0", &[0, 5, 1, 5, 3, 5, 0]),
            (&longest, &message),
        ];
        for (words, message) in pairs {
            let written = written(words).unwrap();
            assert_eq!(written.bytes, message);
            assert_eq!(written.refused, Some(7), "{words}");
        }
    }

    #[test]
    fn a_closed_page_is_the_calls_that_the_binding_writes() {
        let mut due = [0; kernel::CLOSED];
        for call in 0..16 * 64 {
            let (station, page) = ((call / 64) as u8, (call % 64) as u8);
            kernel::write_create_closed(station, page, &mut due).unwrap();
            let written = written(&format!("create-closed {station} {page} # closed")).unwrap();
            assert_eq!((&written.bytes[..], written.refused), (&due[..], None));
        }
    }

    #[test]
    fn a_closed_page_that_the_writer_refuses_is_written_all_the_same() {
        // Stations 16 and 255 are none of the sixteen, so each of these has its grant.
        for (station, page) in [(3, 64), (16, 5), (255, 255)] {
            let others = (0..16).filter(|&other| other != station);
            let grants = others.flat_map(|other| [0, 6, 1, 3, station, page, other, 0]);
            let mut bytes = vec![0, 4, 1, 1, station, page];
            bytes.extend(grants);
            let refused = Some(7);
            let given = written(&format!("create-closed {station} {page}"));
            assert_eq!(given, Ok(Written { bytes, refused }));
        }
    }

    #[test]
    fn calls_at_the_ends_of_the_ranges_are_not_refused() {
        let longest = format!("write 15 63 0{}", " FF".repeat(64));
        for words in [
            "grant 15 63 15 2",
            "create-closed 15 63",
            "read 15 63 63 1",
            "copy 63 255 253",
            "look-frame 253",
            "retire 253",
            &longest,
            "raw 00 03 01 0B FE",
            "",
        ] {
            assert_eq!(written(words).unwrap().refused, None, "{words}");
        }
    }

    #[test]
    fn lines_that_stand_for_nothing() {
        let write = format!("write 3 5 0{}", " 00".repeat(65_530));
        let pairs = [
            ("turn 3", "turn"),
            ("create 3", "page"),
            ("create 3 5 7", "7"),
            ("create-closed", "create-closed: the station"),
            ("create-closed 3", "create-closed: the page"),
            ("create-closed 3 5 7", "create-closed: one word too many: 7"),
            ("create-closed 3 256", "256"),
            ("look-page x", "x"),
            ("look-page 256", "256"),
            ("look-page +5", "+5"),
            ("write 3 5 0 4G", "4G"),
            ("write 3 5 0 +4", "+4"),
            (&write, "65530"),
            ("raw 100", "100"),
        ];
        for (words, named) in pairs {
            let error = bytes(words).unwrap_err();
            assert!(error.contains(named), "{words}: {error}");
        }
    }
}
