//! The exchange between a station and the kernel, request [4] of document 02: a writer for calls and
//! a reader for replies beside the model's, and what the request promises of them, checked by
//! execution.
//!
//! The promises are checked by the model's ranges and by what it takes a message for, without its
//! writer and reader. What they leave open is for these to say: the numbers and their order, and what
//! is accepted beyond the calls of the ranges and the replies of the kernel.

use crate::compare::too_seldom;
use crate::gen::{self, Moves, Rng};
use crate::kernel::{Modelled, Stations};
use crate::model::{
    self, Call, Lent, Reader, Refusal, Tables, ENTRIES, KINDS, LEAST_BUFFER, VERSION,
};
use crate::stations::{Sent, Told, MESSAGE};
use reel::kinds;
use reel::words::{hex, WORDS};
use std::collections::HashMap;
use std::fmt;

// ---- The checks ----

/// What a writer or a reader is held against.
#[derive(Clone, Copy, Debug, PartialEq, Eq)]
pub enum Check {
    /// "Refused, it writes nothing."
    Untouched,
    /// "Bytes past a message remain as lent."
    PastMessage,
    /// "Every call within document 01's ranges, written and read, is the same call."
    SameCall,
    /// "Every message of those ranges that isn't refused 1 to 4, written again, has the same bytes."
    SameBytes,
    /// "Every reply of the kernel [...] gives back its number, bytes laid and data."
    ReadBack,
    /// "For one kind no two different replies that it accepts read alike."
    Alike,
    /// "The reply reader looks at no byte past the reply."
    PastReply,
    /// The model's writer.
    Writer,
    /// The model's reader.
    Reader,
}

/// A check that was not passed, and on what.
#[derive(Debug)]
pub struct Difference {
    pub check: Check,
    on: String,
}

impl fmt::Display for Difference {
    fn fmt(&self, f: &mut fmt::Formatter) -> fmt::Result {
        write!(f, "{:?}: {}", self.check, self.on)
    }
}

impl Check {
    fn require(self, met: bool, on: impl FnOnce() -> String) -> Result<(), Difference> {
        let check = self;
        met.then_some(())
            .ok_or_else(|| Difference { check, on: on() })
    }
}

/// The bytes at the front of a buffer, if a length was given.
fn front(given: Result<usize, u8>, out: &[u8]) -> Option<&[u8]> {
    given.ok().and_then(|length| out.get(..length))
}

/// A call given to the writer in a buffer, by what it gave and left.
fn check_written(
    sent: &Sent,
    lent: &[u8],
    given: Result<usize, u8>,
    out: &[u8],
) -> Result<(), Difference> {
    let on = || format!("{sent:?} in {} bytes: {given:?}, {}", lent.len(), hex(out));
    match given {
        Err(_) => Check::Untouched.require(out == lent, on)?,
        Ok(length) => {
            let past = length <= out.len() && out[length..] == lent[length..];
            Check::PastMessage.require(past, on)?;
        }
    }
    if sent.is_in_range() && lent.len() >= MESSAGE {
        let call = front(given, out).and_then(|message| Call::decode(message).ok());
        let read = call.map(|call| Sent::of(&call));
        Check::SameCall.require(read == sent.plain(), on)?;
    }
    Ok(())
}

/// Writes a message again, where it is of the ranges and isn't refused 1 to 4; whether it is.
fn check_again(stations: &dyn Stations, message: &[u8]) -> Result<bool, Difference> {
    let sent = Call::decode(message).map(|call| Sent::of(&call));
    let Some(sent) = sent.ok().filter(Sent::is_in_range) else {
        return Ok(false);
    };
    let mut out = [0xAA; MESSAGE];
    let given = stations.write(&sent, &mut out);
    let is_same = front(given, &out) == Reader::new(message).next();
    let on = || format!("{}: {given:?}, {}", hex(message), hex(&out));
    Check::SameBytes.require(is_same, on)?;
    Ok(true)
}

/// Reads a reply of the kernel, by itself and in its buffer, for the kind of its message.
fn check_back(
    stations: &dyn Stations,
    kind: u8,
    reply: &[u8],
    out: &[u8],
) -> Result<(), Difference> {
    let due = Told {
        number: reply[3],
        laid: u16::from_be_bytes([reply[4], reply[5]]),
        data: reply[6..].to_vec(),
    };
    for lent in [reply, out] {
        let given = stations.read_reply(kind, lent);
        let on = || format!("kind {kind}, {}: {given:?}", hex(lent));
        Check::ReadBack.require(given.as_ref() == Ok(&due), on)?;
    }
    Ok(())
}

/// How many messages were written again, and how many replies read back.
#[derive(Default)]
pub struct Turns {
    pub written_again: u64,
    pub read_back: u64,
}

impl Turns {
    /// A message, and the kernel's reply of this length in its buffer.
    pub fn check(
        &mut self,
        stations: &dyn Stations,
        message: &[u8],
        out: &[u8],
        length: usize,
    ) -> Result<(), Difference> {
        self.written_again += u64::from(check_again(stations, message)?);
        if let (Some(kind), 1..) = (known_kind(message), length) {
            check_back(stations, kind, &out[..length], out)?;
            self.read_back += 1;
        }
        Ok(())
    }
}

/// The kind that a message names, refused or not.
fn known_kind(message: &[u8]) -> Option<u8> {
    let kind = message.get(3).copied();
    kind.filter(|&kind| (1..=KINDS).contains(&kind.into()))
}

// ---- What came up ----

#[derive(Default)]
pub struct Counts {
    /// Calls given to the writer, and bytes to the reader.
    pub calls: u64,
    pub replies: u64,
    pub turns: Turns,
    /// Calls written, of each kind, and calls refused, by number.
    written: [u64; KINDS],
    not_written: [u64; WORDS.len()],
    /// Accepted replies read, of each kind, and page looks of each n.
    read: [u64; KINDS],
    looks: [u64; ENTRIES],
    /// Refusals that replies carry, and those of the reader, by number.
    carried: [u64; WORDS.len()],
    not_read: [u64; WORDS.len()],
}

impl Counts {
    fn count_call(&mut self, sent: &Sent, due: Result<usize, u8>) {
        self.calls += 1;
        match due {
            Ok(_) => self.written[usize::from(sent.kind) - 1] += 1,
            Err(number) => self.not_written[usize::from(number)] += 1,
        }
    }

    fn count_reply(&mut self, kind: u8, due: &Result<Told, u8>) {
        self.replies += 1;
        match due {
            Ok(told) if told.number == 0 => {
                self.read[usize::from(kind) - 1] += 1;
                if let (10, [n, ..]) = (kind, &told.data[..]) {
                    self.looks[usize::from(*n) - 1] += 1;
                }
            }
            Ok(told) => self.carried[usize::from(told.number)] += 1,
            Err(number) => self.not_read[usize::from(*number)] += 1,
        }
    }

    /// Each case with how often it came up.
    pub fn rows(&self) -> Vec<(String, u64)> {
        let turns = [
            ("messages written again", self.turns.written_again),
            ("replies read back", self.turns.read_back),
        ];
        let looks = (1..).zip(self.looks);
        let refusals: Vec<u8> = (1..=Refusal::LAST).collect();
        let rows = [
            turns.map(|(word, count)| (word.into(), count)).to_vec(),
            by_kind("written", &self.written),
            by_number("writer", &self.not_written, &[3, 7, 18]),
            by_kind("reply read", &self.read),
            looks
                .map(|(n, count)| (format!("page look of n {n} read"), count))
                .collect(),
            by_number("reply read", &self.carried, &refusals),
            by_number("reader", &self.not_read, &[1, 2, 3, 4]),
        ];
        rows.concat()
    }

    /// The cases that came up too seldom.
    pub fn too_few(&self) -> Vec<String> {
        too_seldom(self.rows())
    }
}

fn by_kind(word: &str, counts: &[u64; KINDS]) -> Vec<(String, u64)> {
    let rows = kinds::KINDS.iter().zip(counts);
    rows.map(|(kind, &count)| (format!("{}: {word}", kind.word), count))
        .collect()
}

fn by_number(word: &str, counts: &[u64], numbers: &[u8]) -> Vec<(String, u64)> {
    let rows = numbers.iter().map(|&number| usize::from(number));
    rows.map(|number| (format!("{word}: {}", WORDS[number]), counts[number]))
        .collect()
}

// ---- The comparison ----

/// Compares a writer and a reader with the model's, and checks the promises; an error tells the
/// first difference.
pub fn compare(stations: &dyn Stations, seed: u64) -> Result<Counts, Difference> {
    Exchange::new(stations, seed, true).whole()
}

/// Checks the promises alone.
pub fn promises(stations: &dyn Stations, seed: u64) -> Result<Counts, Difference> {
    Exchange::new(stations, seed, false).whole()
}

struct Exchange<'s> {
    stations: &'s dyn Stations,
    rng: Rng,
    /// Whether the model's writer and reader stand beside.
    is_beside: bool,
    counts: Counts,
    /// By kind and what was told, the reply that was accepted.
    met: HashMap<(u8, Told), Vec<u8>>,
}

/// Buffers that take a message, and those that are too short for any.
const ROOMS: [usize; 4] = [MESSAGE, 72, 80, 200];
const SHORT_ROOMS: [usize; 6] = [0, 1, 6, 8, 69, 70];

/// Counts of bytes of which one byte, or two, would tell 1 to 64, and their neighbours.
const WRAPPED: [usize; 7] = [255, 256, 257, 320, 321, 65537, 65600];

/// The kinds that the reader is told, known and not.
fn kinds_told() -> impl Iterator<Item = u8> {
    (0..=KINDS as u8 + 2).chain([255])
}

/// The largest L of the sweeps.
const LONGEST: usize = 80;

/// The bytes of a reply, and as many behind it as come: L, version, number, bytes laid, data.
fn reply(length: usize, version: u8, number: u8, laid: [u8; 2], data: &[u8]) -> Vec<u8> {
    let [high, low] = u16::to_be_bytes(length as u16);
    [&[high, low, version, number, laid[0], laid[1]], data].concat()
}

impl Exchange<'_> {
    fn new(stations: &dyn Stations, seed: u64, is_beside: bool) -> Exchange<'_> {
        Exchange {
            stations,
            rng: Rng::new(seed),
            is_beside,
            counts: Counts::default(),
            met: HashMap::new(),
        }
    }

    fn whole(mut self) -> Result<Counts, Difference> {
        self.calls()?;
        self.replies()?;
        self.heads()?;
        self.lengths()?;
        self.page_looks()?;
        self.long_lengths()?;
        Ok(self.counts)
    }

    // ---- Calls ----

    /// One call given to both writers, in a buffer of this length.
    fn write(&mut self, sent: &Sent, room: usize) -> Result<(), Difference> {
        let lent = self.rng.bytes(room);
        let (mut out, mut models) = (lent.clone(), lent.clone());
        let given = self.stations.write(sent, &mut out);
        check_written(sent, &lent, given, &out)?;
        let due = Modelled.write(sent, &mut models);
        let on = || format!("{sent:?} in {room} bytes: {given:?}, by the model {due:?}");
        let is_same = given == due && out == models;
        Check::Writer.require(is_same || !self.is_beside, on)?;
        self.counts.count_call(sent, due);
        Ok(())
    }

    fn write_in_any(&mut self, sent: &Sent) -> Result<(), Difference> {
        let room = self.rng.pick(&ROOMS);
        self.write(sent, room)
    }

    fn calls(&mut self) -> Result<(), Difference> {
        for kind in 0..=255 {
            for room in ROOMS.into_iter().chain(SHORT_ROOMS) {
                for _ in 0..4 {
                    let any = gen::any_sent(&mut self.rng);
                    self.write(&Sent { kind, ..any }, room)?;
                }
            }
        }
        for call in gen::shaped_calls(&mut self.rng) {
            for room in 0..=LONGEST {
                self.write(&Sent::of(&call), room)?;
            }
            for at in 0..4 {
                for value in 0..=255 {
                    let mut sent = gen::with_idle(&mut self.rng, &call);
                    sent.arguments[at] = value;
                    self.write_in_any(&sent)?;
                }
            }
        }
        self.parts()?;
        for _ in 0..50_000 {
            let sent = gen::any_sent(&mut self.rng);
            self.write_in_any(&sent)?;
        }
        Ok(())
    }

    /// Reads and writes of every part of a page, and of more.
    fn parts(&mut self) -> Result<(), Difference> {
        for offset in 0..=255 {
            for count in 0..=255 {
                let read = Sent {
                    kind: 4,
                    arguments: [0, 63, offset, count],
                    bytes: Vec::new(),
                };
                self.write_in_any(&read)?;
            }
            for count in (0..=LONGEST).chain(WRAPPED) {
                let write = Sent {
                    kind: 5,
                    arguments: [15, 0, offset, self.rng.byte()],
                    bytes: self.rng.bytes(count),
                };
                self.write_in_any(&write)?;
            }
        }
        Ok(())
    }

    // ---- Replies ----

    /// Some bytes given to both readers, for a kind.
    fn read(&mut self, kind: u8, lent: &[u8]) -> Result<(), Difference> {
        let given = self.stations.read_reply(kind, lent);
        let on = || format!("kind {kind}, {}: {given:?}", hex(lent));
        // A reply tells its length as a message does.
        let reply = Reader::new(lent).next().unwrap_or_default();
        if reply.len() < lent.len() {
            let mut other = lent.to_vec();
            other[reply.len()..]
                .iter_mut()
                .for_each(|byte| *byte ^= 255);
            for bytes in [reply, &other] {
                let is_same = self.stations.read_reply(kind, bytes) == given;
                Check::PastReply.require(is_same, on)?;
            }
        }
        if let Ok(told) = &given {
            let met = self.met.entry((kind, told.clone()));
            let first = met.or_insert_with(|| reply.to_vec());
            Check::Alike.require(first == reply, on)?;
        }
        let due = Modelled.read_reply(kind, lent);
        let beside = || format!("{}, by the model {due:?}", on());
        Check::Reader.require(given == due || !self.is_beside, beside)?;
        self.counts.count_reply(kind, &due);
        Ok(())
    }

    /// The model's replies to a look at eight copies and to a copy that is refused 20, which random
    /// calls seldom get, and to calls on lawful tables of all sorts.
    fn replies(&mut self) -> Result<(), Difference> {
        let mut shaped = gen::shaped(&mut self.rng);
        let refused = Call::MakeCopy {
            page: 0,
            copy: 0,
            frame: gen::WORN,
        };
        for call in [Call::LookPage { page: 2 }, refused] {
            self.turn(&mut shaped, &call.encode())?;
        }
        for _ in 0..100 {
            let mut lent = gen::lawful(&mut self.rng);
            let mut moves = Moves::new(&mut self.rng);
            for _ in 0..60 {
                let tables = Tables::from_raw(&lent.tables).expect("a run keeps the rules");
                let message = moves.next(&mut self.rng, &tables, &lent, false);
                self.turn(&mut lent, &message)?;
            }
        }
        Ok(())
    }

    /// A message answered by the model; the reply is read whole and damaged.
    fn turn(&mut self, lent: &mut Lent, message: &[u8]) -> Result<(), Difference> {
        let room = LEAST_BUFFER + self.rng.below(9);
        lent.out = self.rng.bytes(room);
        let answer = model::answer(lent, message);
        let (turns, out) = (&mut self.counts.turns, &lent.out);
        turns.check(self.stations, message, out, answer.length)?;
        if let Some(kind) = known_kind(message) {
            self.variants(kind, answer.length, out)?;
        }
        Ok(())
    }

    /// A reply of this length in its buffer: read for every kind, cut everywhere, and with one byte
    /// or more of it damaged.
    fn variants(&mut self, kind: u8, length: usize, out: &[u8]) -> Result<(), Difference> {
        for told in kinds_told() {
            self.read(told, out)?;
        }
        for cut in 0..=length {
            self.read(kind, &out[..cut])?;
        }
        for at in 0..length {
            let mut damaged = out.to_vec();
            damaged[at] ^= 1 << self.rng.below(8);
            self.read(kind, &damaged)?;
            damaged[at] = self.rng.pick(&[0, 1, 2, 4, 20, 21, 255]);
            self.read(kind, &damaged)?;
            damaged[self.rng.below(length)] = self.rng.byte();
            self.read(kind, &damaged)?;
        }
        Ok(())
    }

    /// Every kind told with every number, and with every version.
    fn heads(&mut self) -> Result<(), Difference> {
        for kind in 0..=255 {
            for value in 0..=255 {
                self.read(kind, &reply(4, VERSION, value, [0, 0], &[]))?;
                self.read(kind, &reply(4, value, 0, [0, 0], &[]))?;
            }
        }
        Ok(())
    }

    /// Every kind told, number and L, with every length of the bytes lent; around the end of the reply
    /// also with bytes laid and with a foreign version.
    fn lengths(&mut self) -> Result<(), Difference> {
        for kind in kinds_told() {
            for number in (0..=30).chain([255]) {
                for length in 0..=LONGEST {
                    let data = self.rng.bytes(LONGEST);
                    let other = [self.rng.byte(), self.rng.within(1, 255)];
                    let foreign = self.rng.pick(&[0, 2, 129, 255]);
                    let whole = reply(length, VERSION, number, [0, 0], &data);
                    for lent in 0..=LONGEST + 2 {
                        self.read(kind, &whole[..lent])?;
                    }
                    for lent in length..=length + 3 {
                        let laid = reply(length, VERSION, number, other, &data);
                        self.read(kind, &laid[..lent])?;
                        let turned = [other[1], other[0]];
                        let laid = reply(length, VERSION, number, turned, &data);
                        self.read(kind, &laid[..lent])?;
                        let foreign = reply(length, foreign, number, [0, 0], &data);
                        self.read(kind, &foreign[..lent])?;
                    }
                }
            }
        }
        Ok(())
    }

    /// Page looks of n from 0 to 10 and of 255 in every L, right and with one wrong mark; and in the
    /// right L with every value of each byte after n.
    fn page_looks(&mut self) -> Result<(), Difference> {
        for n in (0..=10).chain([255]) {
            for length in 0..=LONGEST {
                let right = self.look(n);
                for lent in length..=length + 3 {
                    let whole = reply(length, VERSION, 0, [0, 0], &right);
                    self.read(10, &whole[..lent])?;
                }
                for at in 0..2 * usize::from(n).min(10) {
                    let mut wrong = right.clone();
                    wrong[2 + 3 * (at / 2) + at % 2] = self.rng.pick(&[2, 255]);
                    self.read(10, &reply(length, VERSION, 0, [0, 0], &wrong))?;
                }
            }
        }
        for n in 1..=ENTRIES as u8 {
            let length = 5 + 3 * usize::from(n);
            for at in 1..=3 * usize::from(n) {
                for value in 0..=255 {
                    let mut look = self.look(n);
                    look[at] = value;
                    let laid = [self.rng.byte(), self.rng.byte()];
                    self.read(10, &reply(length, VERSION, 0, laid, &look))?;
                }
            }
        }
        Ok(())
    }

    /// The data of a page look with this n: copies with marks of 0 and 1, as many as a sweep needs.
    fn look(&mut self, n: u8) -> Vec<u8> {
        let mut look = vec![n];
        while look.len() < LONGEST {
            look.extend([
                self.rng.byte(),
                self.rng.within(0, 1),
                self.rng.within(0, 1),
            ]);
        }
        look
    }

    /// Lengths whose high byte is not 0, whole and cut.
    fn long_lengths(&mut self) -> Result<(), Difference> {
        for kind in kinds_told() {
            for high in [1, 2, 255] {
                for low in 0..=LONGEST {
                    let length = 256 * high + low;
                    let mut data = self.look((low / 3) as u8);
                    data.resize(length, 0);
                    let number = self.rng.pick(&[0, 0, 9, 20, 21]);
                    let whole = reply(length, VERSION, number, [0, 0], &data);
                    for lent in [low + 2, 255, length + 1, length + 2, length + 3] {
                        self.read(kind, &whole[..lent])?;
                    }
                }
            }
        }
        Ok(())
    }
}
