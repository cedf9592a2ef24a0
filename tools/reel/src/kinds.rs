//! The kinds of message, in one table from which every line of words and the page of `reel view`
//! are made. It decides nothing: whether a message is sound is for the kernel to say.

/// The version byte of every message.
pub const VERSION: u8 = 1;

/// What an argument of one byte names.
#[derive(Clone, Copy, Debug, PartialEq, Eq)]
pub enum Argument {
    Station,
    Page,
    OtherStation,
    Right,
    Offset,
    Count,
    Copy,
    Frame,
}

impl Argument {
    pub fn name(self) -> &'static str {
        match self {
            Argument::Station => "station",
            Argument::Page => "page",
            Argument::OtherStation => "other station",
            Argument::Right => "right",
            Argument::Offset => "offset",
            Argument::Count => "count",
            Argument::Copy => "copy",
            Argument::Frame => "frame",
        }
    }
}

/// What an accepted reply tells beyond its number.
#[derive(Clone, Copy, Debug, PartialEq, Eq)]
pub enum Tells {
    Nothing,
    BytesLaid,
    Bytes,
    Page,
    Frame,
}

pub struct Kind {
    /// The word that begins its line in a file for `reel write`.
    pub word: &'static str,
    /// Its sentence: `#` stands for the next argument, `*` for the bytes that follow them.
    pub sentence: &'static str,
    pub arguments: &'static [Argument],
    pub tells: Tells,
    /// Whether it may change what a look shows.
    pub changes: bool,
}

impl Kind {
    /// Whether bytes follow the arguments.
    pub fn has_bytes(&self) -> bool {
        self.sentence.ends_with('*')
    }

    /// How many bytes follow the arguments at the least and at the most.
    pub fn bytes(&self) -> (usize, usize) {
        match self.has_bytes() {
            true => (1, kernel::FRAME),
            false => (0, 0),
        }
    }

    /// Whether so many bytes may follow the arguments.
    pub fn admits(&self, count: usize) -> bool {
        let (least, most) = self.bytes();
        (least..=most).contains(&count)
    }
}

/// The kinds 1 to 12, in this order.
pub const KINDS: [Kind; 12] = [
    Kind {
        word: "create",
        sentence: "create station # page #",
        arguments: &[Argument::Station, Argument::Page],
        tells: Tells::Nothing,
        changes: true,
    },
    Kind {
        word: "delete-page",
        sentence: "delete page station # page #",
        arguments: &[Argument::Station, Argument::Page],
        tells: Tells::BytesLaid,
        changes: true,
    },
    Kind {
        word: "grant",
        sentence: "grant station # page # to station # right #",
        arguments: &[
            Argument::Station,
            Argument::Page,
            Argument::OtherStation,
            Argument::Right,
        ],
        tells: Tells::Nothing,
        changes: true,
    },
    Kind {
        word: "read",
        sentence: "read station # page # offset # count #",
        arguments: &[
            Argument::Station,
            Argument::Page,
            Argument::Offset,
            Argument::Count,
        ],
        tells: Tells::Bytes,
        changes: false,
    },
    Kind {
        word: "write",
        sentence: "write station # page # offset # bytes *",
        arguments: &[Argument::Station, Argument::Page, Argument::Offset],
        tells: Tells::BytesLaid,
        changes: true,
    },
    Kind {
        word: "copy",
        sentence: "make copy page # copy # -> frame #",
        arguments: &[Argument::Page, Argument::Copy, Argument::Frame],
        tells: Tells::BytesLaid,
        changes: true,
    },
    Kind {
        word: "delete-copy",
        sentence: "delete copy page # copy #",
        arguments: &[Argument::Page, Argument::Copy],
        tells: Tells::BytesLaid,
        changes: true,
    },
    Kind {
        word: "current",
        sentence: "set current page # copy #",
        arguments: &[Argument::Page, Argument::Copy],
        tells: Tells::Nothing,
        changes: true,
    },
    Kind {
        word: "remove-current",
        sentence: "remove current page # copy #",
        arguments: &[Argument::Page, Argument::Copy],
        tells: Tells::Nothing,
        changes: true,
    },
    Kind {
        word: "look-page",
        sentence: "look at page #",
        arguments: &[Argument::Page],
        tells: Tells::Page,
        changes: false,
    },
    Kind {
        word: "look-frame",
        sentence: "look at frame #",
        arguments: &[Argument::Frame],
        tells: Tells::Frame,
        changes: false,
    },
    Kind {
        word: "retire",
        sentence: "retire frame #",
        arguments: &[Argument::Frame],
        tells: Tells::Nothing,
        changes: true,
    },
];

/// The number of a kind, 1 to 12.
pub fn number_of(kind: &Kind) -> u8 {
    let before = KINDS.iter().take_while(|other| other.word != kind.word);
    before.count() as u8 + 1
}

/// The kind byte of a message; 0, which is no kind, where it ends before.
pub fn kind_byte(message: &[u8]) -> u8 {
    message.get(3).copied().unwrap_or(0)
}

/// A message of a known kind and of a length that the kind has.
pub struct Call<'a> {
    pub kind: &'static Kind,
    pub arguments: &'a [u8],
    pub bytes: &'a [u8],
}

impl<'a> Call<'a> {
    /// None for a message that falls under numbers 1 to 4.
    pub fn parse(message: &'a [u8]) -> Option<Call<'a>> {
        let (&length, body) = message.split_first_chunk()?;
        let (&[VERSION, kind], rest) = body.split_first_chunk()? else {
            return None;
        };
        let kind = KINDS.get(usize::from(kind).checked_sub(1)?)?;
        let (arguments, bytes) = rest.split_at_checked(kind.arguments.len())?;
        let is_whole = usize::from(u16::from_be_bytes(length)) == body.len();
        (is_whole && kind.admits(bytes.len())).then_some(Call {
            kind,
            arguments,
            bytes,
        })
    }

    /// The first argument that names such a thing.
    pub fn argument(&self, wanted: Argument) -> Option<u8> {
        let mut pairs = self.kind.arguments.iter().zip(self.arguments);
        pairs
            .find(|(name, _)| **name == wanted)
            .map(|(_, &value)| value)
    }
}

#[cfg(test)]
mod tests {
    use super::{number_of, Argument, Call, KINDS};
    use kernel::MESSAGE;

    #[test]
    fn a_message_and_its_arguments() {
        let call = Call::parse(&[0, 7, 1, 5, 3, 5, 0, 0x41, 0x37]).unwrap();
        assert_eq!(number_of(call.kind), 5);
        assert_eq!(call.argument(Argument::Page), Some(5));
        assert_eq!(call.argument(Argument::Frame), None);
        assert_eq!(call.bytes, [0x41, 0x37]);
    }

    #[test]
    fn broken_messages() {
        let broken: [&[u8]; 8] = [
            &[],
            &[0],
            &[0, 1, 1],
            &[0, 4, 2, 1, 3, 5],
            &[0, 4, 1, 0, 3, 5],
            &[0, 4, 1, 13, 3, 5],
            &[0, 5, 1, 5, 3, 5, 0],
            &[0, 5, 1, 1, 3, 5],
        ];
        for message in broken {
            assert!(Call::parse(message).is_none(), "{message:?}");
        }
    }

    #[test]
    fn the_kernels_writer_has_the_same_kinds() {
        let arguments = [1, 2, 1, 1];
        let mut out = [0; MESSAGE];
        for kind in &KINDS {
            let bytes = &[0x41, 0x37][..kind.bytes().1.min(2)];
            let length = kernel::write(number_of(kind), arguments, bytes, &mut out).unwrap();
            let call = Call::parse(&out[..length]).unwrap();
            assert_eq!(call.kind.word, kind.word);
            assert_eq!(call.arguments, &arguments[..kind.arguments.len()]);
            assert_eq!(call.bytes, bytes);
        }
        let next = KINDS.len() as u8 + 1;
        assert_eq!(kernel::write(next, arguments, &[], &mut out), Err(3));
    }

    #[test]
    fn every_argument_has_its_place_in_the_sentence() {
        for kind in &KINDS {
            let places = kind.sentence.matches('#').count();
            assert_eq!(places, kind.arguments.len(), "{}", kind.word);
        }
    }
}
