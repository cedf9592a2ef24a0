//! The writer for calls and the reader for replies, which stations use: request [4] of document 02.

use crate::model::{
    body, message, page_in_range, part_in_range, require, right_in_range, station_in_range, Call,
    Refusal, ENTRIES, FRAME, KINDS, MOST_FRAMES, VERSION,
};

// ---- The kinds ----

/// What an argument of one byte names, and so its range.
#[derive(Clone, Copy, PartialEq, Eq)]
enum Name {
    Station,
    Page,
    Right,
    Offset,
    Count,
    Copy,
    Frame,
}

/// The data of an accepted reply.
#[derive(Clone, Copy)]
enum Data {
    Nothing,
    OfRead,
    OfPageLook,
    OfFrameLook,
}

/// A kind of message.
struct Form {
    /// Its arguments, in the order of the paper.
    names: &'static [Name],
    /// Whether bytes follow them.
    has_bytes: bool,
    data: Data,
}

const fn form(names: &'static [Name], data: Data) -> Form {
    Form {
        names,
        has_bytes: false,
        data,
    }
}

impl Form {
    const fn with_bytes(self) -> Form {
        Form {
            has_bytes: true,
            ..self
        }
    }
}

/// The kinds from 1 on.
const FORMS: [Form; KINDS] = {
    use Data::{Nothing, OfFrameLook, OfPageLook, OfRead};
    use Name::{Copy, Count, Frame, Offset, Page, Right, Station};
    [
        form(&[Station, Page], Nothing),
        form(&[Station, Page], Nothing),
        form(&[Station, Page, Station, Right], Nothing),
        form(&[Station, Page, Offset, Count], OfRead),
        form(&[Station, Page, Offset], Nothing).with_bytes(),
        form(&[Page, Copy, Frame], Nothing),
        form(&[Page, Copy], Nothing),
        form(&[Page, Copy], Nothing),
        form(&[Page, Copy], Nothing),
        form(&[Page], OfPageLook),
        form(&[Frame], OfFrameLook),
        form(&[Frame], Nothing),
    ]
};

impl Form {
    fn of(kind: u8) -> Result<&'static Form, Refusal> {
        let place = usize::from(kind).checked_sub(1);
        let form = place.and_then(|place| FORMS.get(place));
        form.ok_or(Refusal::UnknownKind)
    }

    /// The tests of 7.
    fn in_range(&self, sent: &Sent) -> Result<(), Refusal> {
        let named = || self.names.iter().zip(sent.arguments);
        for (name, argument) in named() {
            match name {
                Name::Station => station_in_range(argument)?,
                Name::Page => page_in_range(argument)?,
                Name::Right => right_in_range(argument)?,
                Name::Frame => frame_in_range(argument)?,
                // An offset is tested with its count; any copy number may be sent.
                Name::Offset | Name::Count | Name::Copy => {}
            }
        }
        let argument = |wanted| named().find(|(name, _)| **name == wanted);
        match (argument(Name::Offset), argument(Name::Count)) {
            (Some((_, offset)), Some((_, count))) => part_in_range(offset, count.into()),
            (Some((_, offset)), None) => part_in_range(offset, sent.bytes.len()),
            (None, _) => Ok(()),
        }
    }
}

/// How many arguments a kind has; none has an unknown one.
pub fn arguments(kind: u8) -> usize {
    Form::of(kind).map_or(0, |form| form.names.len())
}

/// A station does not know P and S: the frames of the largest unit are in range.
fn frame_in_range(frame: u8) -> Result<(), Refusal> {
    let frames = 2 * usize::from(MOST_FRAMES);
    require(usize::from(frame) < frames, Refusal::OutOfRange)
}

// ---- The writer ----

/// The writer refuses a buffer below this length, which is that of the longest message.
pub const MESSAGE: usize = 71;

/// A call as the writer takes it.
#[derive(Clone, Debug, PartialEq, Eq)]
pub struct Sent {
    pub kind: u8,
    /// In the order of the paper; those past the kind's last one play no part.
    pub arguments: [u8; 4],
    /// The bytes of a write; those of other kinds play no part.
    pub bytes: Vec<u8>,
}

impl Sent {
    pub fn of(call: &Call) -> Sent {
        let message = call.encode();
        let kind = message[3];
        let (given, bytes) = message[4..].split_at(arguments(kind));
        let mut arguments = [0; 4];
        arguments[..given.len()].copy_from_slice(given);
        Sent {
            kind,
            arguments,
            bytes: bytes.to_vec(),
        }
    }

    /// The same call with zeros and no bytes for what plays no part; none of an unknown kind.
    pub fn plain(&self) -> Option<Sent> {
        let form = Form::of(self.kind).ok()?;
        let mut plain = self.clone();
        plain.arguments[form.names.len()..].fill(0);
        if !form.has_bytes {
            plain.bytes.clear();
        }
        Some(plain)
    }

    /// Whether it is a call within the ranges of the paper.
    pub fn is_in_range(&self) -> bool {
        Form::of(self.kind).is_ok_and(|form| form.in_range(self).is_ok())
    }
}

/// Writes the message of a call to the front of a buffer; its length.
pub fn write(sent: &Sent, out: &mut [u8]) -> Result<usize, Refusal> {
    require(out.len() >= MESSAGE, Refusal::ShortSlip)?;
    let form = Form::of(sent.kind)?;
    form.in_range(sent)?;
    let mut arguments = sent.arguments[..form.names.len()].to_vec();
    if form.has_bytes {
        arguments.extend(&sent.bytes);
    }
    let message = message(VERSION, sent.kind, &arguments);
    out[..message.len()].copy_from_slice(&message);
    Ok(message.len())
}

// ---- The reader for replies ----

/// What a reply tells.
#[derive(Clone, Debug, PartialEq, Eq, Hash)]
pub struct Told {
    /// 0 accepted, else the number of the refusal that the reply carries.
    pub number: u8,
    /// The bytes laid.
    pub laid: u16,
    /// The bytes of a read or look.
    pub data: Vec<u8>,
}

impl Data {
    fn is(self, data: &[u8]) -> bool {
        match self {
            Data::Nothing => data.is_empty(),
            Data::OfRead => (1..=FRAME).contains(&data.len()),
            Data::OfPageLook => data.split_first().is_some_and(|(&n, copies)| {
                let n = usize::from(n);
                let marks = copies.chunks(3).flat_map(|copy| &copy[1..]);
                (1..=ENTRIES).contains(&n) && copies.len() == 3 * n && marks.max() <= Some(&1)
            }),
            Data::OfFrameLook => data.len() == 3,
        }
    }
}

/// Reads the reply at the front of some bytes, to a message of this kind. A refusal is the reader's
/// own, and not one that the reply carries.
pub fn read_reply(kind: u8, bytes: &[u8]) -> Result<Told, Refusal> {
    let body = body(bytes)?;
    let form = Form::of(kind)?;
    let [number, high, low, ref data @ ..] = *body else {
        return Err(Refusal::WrongLength);
    };
    let laid = u16::from_be_bytes([high, low]);
    let is_sound = match number {
        0 => form.data.is(data),
        1..=Refusal::LAST => laid == 0 && data.is_empty(),
        _ => false,
    };
    require(is_sound, Refusal::WrongLength)?;
    Ok(Told {
        number,
        laid,
        data: data.to_vec(),
    })
}
