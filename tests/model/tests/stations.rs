//! The writer for calls and the reader for replies, request [4] of document 02: fixed cases on the
//! kernel and on the model, and wrong writers and readers that the comparison must catch, each the
//! model's with one flaw.

use ::model::cases::{bytes, one_by_one, CALLS, READ, REPLIES, WRITTEN};
use ::model::exchange::{compare, promises, Check};
use ::model::gen::{self, Rng};
use ::model::kernel::{Embedded, Kernel, Modelled, Stations};
use ::model::model::{Call, Refusal, KINDS};
use ::model::stations::{Sent, Told, MESSAGE};
use reel::words::hex;

// ---- Cases ----

const BOTH: [&dyn Kernel; 2] = [&Modelled, &Embedded];

#[test]
fn calls_written_and_refused() {
    for stations in BOTH {
        for case in &WRITTEN {
            let mut out = vec![0xAA; case.room];
            let given = stations.write(&case.sent(), &mut out);
            assert_eq!((out, given), case.due(), "{}", case.name);
        }
    }
}

#[test]
fn replies_read_and_refused() {
    for stations in BOTH {
        for case in &READ {
            let given = stations.read_reply(case.kind, &case.bytes());
            assert_eq!(given, case.due(), "{}", case.name);
        }
    }
}

/// The worked example by a station: its calls written one behind the other are the call file, and
/// of each reply just what it tells is told.
#[test]
fn worked_example_written_and_read() {
    for kernel in BOTH {
        let written = WRITTEN[..CALLS.len()].iter().map(|case| {
            let mut out = [0; MESSAGE];
            let length = kernel.write(&case.sent(), &mut out).expect("a call");
            out[..length].to_vec()
        });
        let file = written.collect::<Vec<_>>().concat();
        assert_eq!(file, CALLS.map(bytes).concat());
        let replies = one_by_one(kernel, &file).replies;
        assert_eq!(replies.iter().map(|r| hex(r)).collect::<Vec<_>>(), REPLIES);
        for (reply, case) in replies.iter().zip(&READ) {
            assert_eq!(kernel.read_reply(case.kind, reply), case.due());
        }
    }
}

/// Every length of a read and of a write, and no other.
#[test]
fn lengths_of_reads_and_writes() {
    for stations in BOTH {
        for count in 0..=100 {
            let write = Sent {
                kind: 5,
                arguments: [3, 5, 0, 0],
                bytes: vec![9; count],
            };
            let mut out = [0; 200];
            let due = if (1..=64).contains(&count) {
                Ok(7 + count)
            } else {
                Err(7)
            };
            assert_eq!(stations.write(&write, &mut out), due);
            let reply = [&[0, 4 + count as u8, 1, 0, 0, 0], &write.bytes[..]].concat();
            let told = stations.read_reply(4, &reply).map(|told| told.data.len());
            assert_eq!(told, due.map(|_| count).map_err(|_| 4));
        }
    }
}

/// Page looks of every n in every length.
#[test]
fn page_looks_of_every_n() {
    for stations in BOTH {
        for n in 0..=255 {
            for copies in 0..=20 {
                let length = 5 + 3 * copies;
                let look = [[0, length, 1, 0, 0, 0, n].to_vec(), vec![1; 60]].concat();
                let is_accepted = (1..=8).contains(&n) && n == copies;
                assert_eq!(stations.read_reply(10, &look).is_ok(), is_accepted);
            }
        }
    }
}

/// The model's table of kinds for the writer is that of its messages.
#[test]
fn the_models_messages_are_those_of_its_calls() {
    for call in gen::shaped_calls(&mut Rng::new(1)) {
        let mut out = [0; MESSAGE];
        let length = Modelled.write(&Sent::of(&call), &mut out).expect("a call");
        assert_eq!(out[..length], call.encode());
        assert_eq!(Call::decode(&out), Ok(call));
    }
}

// ---- Wrong writers and readers ----

enum Flaw {
    Write(fn(&Sent, &mut [u8]) -> Result<usize, u8>),
    Read(fn(u8, &[u8]) -> Result<Told, u8>),
}

struct Mutant(Flaw);

impl Stations for Mutant {
    fn write(&self, sent: &Sent, out: &mut [u8]) -> Result<usize, u8> {
        match self.0 {
            Flaw::Write(write) => write(sent, out),
            Flaw::Read(_) => Modelled.write(sent, out),
        }
    }

    fn read_reply(&self, kind: u8, reply: &[u8]) -> Result<Told, u8> {
        match self.0 {
            Flaw::Write(_) => Modelled.read_reply(kind, reply),
            Flaw::Read(read) => read(kind, reply),
        }
    }
}

fn is_known(kind: u8) -> bool {
    (1..=KINDS).contains(&kind.into())
}

/// The place of the frame among the arguments of a kind.
fn frame_at(kind: u8) -> Option<usize> {
    match kind {
        6 => Some(2),
        11 | 12 => Some(0),
        _ => None,
    }
}

/// Writes a call as it is where the same with this argument is written.
fn let_pass(sent: &Sent, at: usize, sound: u8, out: &mut [u8]) -> Result<usize, u8> {
    let mut mended = sent.clone();
    mended.arguments[at] = sound;
    let length = Modelled.write(&mended, out)?;
    out[4 + at] = sent.arguments[at];
    Ok(length)
}

/// Writes a message whatever is in it, in a buffer that has room for it.
fn lay(sent: &Sent, out: &mut [u8]) -> Result<usize, u8> {
    let plain = sent.plain().ok_or(3)?;
    let count = ::model::stations::arguments(sent.kind);
    let body = [&[1, sent.kind], &plain.arguments[..count], &plain.bytes[..]].concat();
    let length = (body.len() as u16).to_be_bytes();
    let message = [&length[..], &body].concat();
    let front = out.get_mut(..message.len()).ok_or(18)?;
    front.copy_from_slice(&message);
    Ok(message.len())
}

/// Reads a reply as it is where the same with this byte is read.
fn read_mended(kind: u8, reply: &[u8], at: usize, sound: u8) -> Result<Told, u8> {
    let mut mended = reply.to_vec();
    if let Some(byte) = mended.get_mut(at) {
        *byte = sound;
    }
    Modelled.read_reply(kind, &mended)
}

/// Puts 1 for every mark above 1 that passes, by its place in a page look's data, and reads.
fn read_marks(kind: u8, reply: &[u8], passes: fn(usize) -> bool) -> Result<Told, u8> {
    let mut mended = reply.to_vec();
    if kind == 10 {
        for (at, byte) in mended.iter_mut().enumerate().skip(7) {
            if at % 3 != 1 && passes(at - 6) {
                *byte = (*byte).min(1);
            }
        }
    }
    let mut told = Modelled.read_reply(kind, &mended)?;
    let length = told.data.len();
    told.data.copy_from_slice(&reply[6..][..length]);
    Ok(told)
}

/// The reply's own bytes, if it is whole.
fn whole(reply: &[u8]) -> Option<&[u8]> {
    let (&length, _) = reply.split_first_chunk()?;
    reply.get(..2 + usize::from(u16::from_be_bytes(length)))
}

/// Accepts whole replies of this number and kind that the model refuses 4, where they pass.
fn accept(kind: u8, reply: &[u8], passes: fn(u8, u8, u16, &[u8]) -> bool) -> Result<Told, u8> {
    let given = Modelled.read_reply(kind, reply);
    match (given, whole(reply)) {
        (Err(4), Some(&[_, _, _, number, high, low, ref data @ ..])) => {
            let laid = u16::from_be_bytes([high, low]);
            let data = data.to_vec();
            let told = Told { number, laid, data };
            match passes(kind, number, laid, &told.data) {
                true => Ok(told),
                false => Err(4),
            }
        }
        (given, _) => given,
    }
}

/// Refuses 4 what passes.
fn refuse(kind: u8, reply: &[u8], passes: fn(u8, &Told) -> bool) -> Result<Told, u8> {
    let told = Modelled.read_reply(kind, reply)?;
    match passes(kind, &told) {
        true => Err(4),
        false => Ok(told),
    }
}

/// Each with the promise that it breaks, or the model's writer or reader where it breaks none.
const MUTANTS: [(&str, Check, Flaw); 83] = [
    // Rooms.
    (
        "70 bytes taken as room",
        Check::Writer,
        Flaw::Write(|sent, out| {
            if out.len() == 70 && sent.is_in_range() {
                return lay(sent, out);
            }
            Modelled.write(sent, out)
        }),
    ),
    (
        "room for the message itself suffices",
        Check::Writer,
        Flaw::Write(|sent, out| {
            if out.len() < MESSAGE && sent.is_in_range() {
                return lay(sent, out);
            }
            Modelled.write(sent, out)
        }),
    ),
    (
        "71 bytes refused",
        Check::SameCall,
        Flaw::Write(|sent, out| {
            if out.len() == 71 {
                return Err(18);
            }
            Modelled.write(sent, out)
        }),
    ),
    // What is written.
    (
        "the first bytes laid, then refused 7",
        Check::Untouched,
        Flaw::Write(|sent, out| {
            let given = Modelled.write(sent, out);
            if given == Err(7) {
                out[..4].copy_from_slice(&[0, 4, 1, sent.kind]);
            }
            given
        }),
    ),
    (
        "a write's bytes laid, then refused 7",
        Check::Untouched,
        Flaw::Write(|sent, out| {
            let given = Modelled.write(sent, out);
            if given == Err(7) && sent.kind == 5 {
                let count = sent.bytes.len().min(out.len() - 7);
                out[7..][..count].copy_from_slice(&sent.bytes[..count]);
            }
            given
        }),
    ),
    (
        "a short buffer wiped",
        Check::Untouched,
        Flaw::Write(|sent, out| {
            if out.len() < MESSAGE {
                out.fill(0);
            }
            Modelled.write(sent, out)
        }),
    ),
    (
        "the buffer wiped past the message",
        Check::PastMessage,
        Flaw::Write(|sent, out| {
            let length = Modelled.write(sent, out)?;
            out[length..].fill(0);
            Ok(length)
        }),
    ),
    (
        "71 bytes laid, whatever the message",
        Check::PastMessage,
        Flaw::Write(|sent, out| {
            let length = Modelled.write(sent, out)?;
            out[length..MESSAGE].fill(0);
            Ok(length)
        }),
    ),
    (
        "71 told for every message's length",
        Check::SameBytes,
        Flaw::Write(|sent, out| Modelled.write(sent, out).map(|_| MESSAGE)),
    ),
    (
        "L told for the message's length",
        Check::PastMessage,
        Flaw::Write(|sent, out| Modelled.write(sent, out).map(|length| length - 2)),
    ),
    (
        "L with its low byte first",
        Check::SameCall,
        Flaw::Write(|sent, out| {
            let length = Modelled.write(sent, out)?;
            out.swap(0, 1);
            Ok(length)
        }),
    ),
    (
        "station and page exchanged",
        Check::SameCall,
        Flaw::Write(|sent, out| {
            let length = Modelled.write(sent, out)?;
            if sent.kind <= 5 {
                out.swap(4, 5);
            }
            Ok(length)
        }),
    ),
    (
        "a grant's other station and right exchanged",
        Check::SameCall,
        Flaw::Write(|sent, out| {
            let length = Modelled.write(sent, out)?;
            if sent.kind == 3 {
                out.swap(6, 7);
            }
            Ok(length)
        }),
    ),
    (
        "set current written as remove current",
        Check::SameCall,
        Flaw::Write(|sent, out| {
            let length = Modelled.write(sent, out)?;
            if sent.kind == 8 {
                out[3] = 9;
            }
            Ok(length)
        }),
    ),
    (
        "the 64th byte of a write lost",
        Check::SameCall,
        Flaw::Write(|sent, out| {
            let last = out.get(70).copied();
            let length = Modelled.write(sent, out)?;
            if length == 71 {
                out[70] = last.expect("71 bytes");
            }
            Ok(length)
        }),
    ),
    // What is refused.
    (
        "frame 254 written",
        Check::Writer,
        Flaw::Write(|sent, out| match frame_at(sent.kind) {
            Some(at) if sent.arguments[at] == 254 => let_pass(sent, at, 253, out),
            _ => Modelled.write(sent, out),
        }),
    ),
    (
        "frame 253 refused",
        Check::SameCall,
        Flaw::Write(|sent, out| match frame_at(sent.kind) {
            Some(at) if sent.arguments[at] == 253 && out.len() >= MESSAGE => Err(7),
            _ => Modelled.write(sent, out),
        }),
    ),
    (
        "kind 12 not written",
        Check::SameCall,
        Flaw::Write(|sent, out| match sent.kind {
            12 if out.len() >= MESSAGE => Err(3),
            _ => Modelled.write(sent, out),
        }),
    ),
    (
        "a retire written as a look at the frame",
        Check::SameCall,
        Flaw::Write(|sent, out| {
            let length = Modelled.write(sent, out)?;
            if sent.kind == 12 {
                out[3] = 11;
            }
            Ok(length)
        }),
    ),
    (
        "a retire's frame not tested",
        Check::Writer,
        Flaw::Write(|sent, out| match sent.kind {
            12 => let_pass(sent, 0, 0, out),
            _ => Modelled.write(sent, out),
        }),
    ),
    (
        "a retire of frame 253 refused",
        Check::SameCall,
        Flaw::Write(|sent, out| match (sent.kind, sent.arguments[0]) {
            (12, 253) if out.len() >= MESSAGE => Err(7),
            _ => Modelled.write(sent, out),
        }),
    ),
    (
        "kind 13 written",
        Check::Writer,
        Flaw::Write(|sent, out| match sent.kind {
            13 => Modelled.write(
                &Sent {
                    kind: 12,
                    ..sent.clone()
                },
                out,
            ),
            _ => Modelled.write(sent, out),
        }),
    ),
    (
        "copy number 8 refused",
        Check::SameCall,
        Flaw::Write(|sent, out| match sent.kind {
            6..=9 if sent.arguments[1] >= 8 && out.len() >= MESSAGE => Err(7),
            _ => Modelled.write(sent, out),
        }),
    ),
    (
        "a grant's other station not tested",
        Check::Writer,
        Flaw::Write(|sent, out| match sent.kind {
            3 => let_pass(sent, 2, 0, out),
            _ => Modelled.write(sent, out),
        }),
    ),
    (
        "right 3 written",
        Check::Writer,
        Flaw::Write(|sent, out| match (sent.kind, sent.arguments[3]) {
            (3, 3) => let_pass(sent, 3, 2, out),
            _ => Modelled.write(sent, out),
        }),
    ),
    (
        "a read of no byte written",
        Check::Writer,
        Flaw::Write(|sent, out| match (sent.kind, sent.arguments) {
            (4, [_, _, ..64, 0]) => let_pass(sent, 3, 1, out),
            _ => Modelled.write(sent, out),
        }),
    ),
    (
        "offset and count added in one byte",
        Check::Writer,
        Flaw::Write(|sent, out| match (sent.kind, sent.arguments) {
            (4, [_, _, offset, count]) if count > 0 && offset.wrapping_add(count) <= 64 => {
                let mut mended = sent.clone();
                mended.arguments[2..].copy_from_slice(&[0, 1]);
                let length = Modelled.write(&mended, out)?;
                out[6..8].copy_from_slice(&sent.arguments[2..]);
                Ok(length)
            }
            _ => Modelled.write(sent, out),
        }),
    ),
    (
        "a write's bytes counted in one byte",
        Check::Writer,
        Flaw::Write(|sent, out| {
            let mut mended = sent.clone();
            mended.bytes.truncate(sent.bytes.len() % 256);
            Modelled.write(&mended, out)
        }),
    ),
    (
        "a write of more than 64 bytes cut to 64",
        Check::Writer,
        Flaw::Write(|sent, out| {
            let mut mended = sent.clone();
            mended.bytes.truncate(64);
            Modelled.write(&mended, out)
        }),
    ),
    (
        "a write of no byte written",
        Check::Writer,
        Flaw::Write(|sent, out| {
            if out.len() >= MESSAGE && sent.kind == 5 && sent.bytes.is_empty() {
                let one = Sent {
                    bytes: vec![0],
                    ..sent.clone()
                };
                if one.is_in_range() {
                    return lay(sent, out);
                }
            }
            Modelled.write(sent, out)
        }),
    ),
    (
        "4 for a write of no byte or of more than 64",
        Check::Writer,
        Flaw::Write(|sent, out| match sent.bytes.len() {
            0 | 65.. if sent.kind == 5 && out.len() >= MESSAGE => Err(4),
            _ => Modelled.write(sent, out),
        }),
    ),
    (
        "an argument past the last tested",
        Check::SameCall,
        Flaw::Write(|sent, out| match sent.kind {
            1 | 2 if sent.arguments[2] > 63 && out.len() >= MESSAGE => Err(7),
            _ => Modelled.write(sent, out),
        }),
    ),
    (
        "the bytes of every kind counted",
        Check::SameCall,
        Flaw::Write(|sent, out| {
            let given = Modelled.write(sent, &mut out.to_vec());
            if given.is_ok() && sent.bytes.len() > 64 {
                return Err(7);
            }
            Modelled.write(sent, out)
        }),
    ),
    (
        "7 before 3",
        Check::Writer,
        Flaw::Write(|sent, out| match Modelled.write(sent, out) {
            Err(3) if sent.arguments[0] > 63 => Err(7),
            given => given,
        }),
    ),
    (
        "3 before 18",
        Check::Writer,
        Flaw::Write(|sent, out| match Modelled.write(sent, out) {
            Err(18) if !is_known(sent.kind) => Err(3),
            given => given,
        }),
    ),
    (
        "7 before 18",
        Check::Writer,
        Flaw::Write(|sent, out| match Modelled.write(sent, out) {
            Err(18) if !sent.is_in_range() => Err(7),
            given => given,
        }),
    ),
    (
        "7 for an unknown kind",
        Check::Writer,
        Flaw::Write(|sent, out| match Modelled.write(sent, out) {
            Err(3) => Err(7),
            given => given,
        }),
    ),
    // What replies are read.
    (
        "any n of a page look",
        Check::Reader,
        Flaw::Read(|kind, reply| {
            accept(kind, reply, |kind, number, _, data| {
                let marks = || data.iter().skip(1).enumerate().filter(|(at, _)| at % 3 > 0);
                (kind, number, data.len() % 3) == (10, 0, 1) && marks().all(|(_, &mark)| mark <= 1)
            })
        }),
    ),
    (
        "a page look of n 0 accepted",
        Check::Reader,
        Flaw::Read(|kind, reply| {
            accept(kind, reply, |kind, number, _, data| {
                (kind, number, data) == (10, 0, &[0])
            })
        }),
    ),
    (
        "a page look of n 9 accepted",
        Check::Reader,
        Flaw::Read(|kind, reply| {
            accept(kind, reply, |kind, number, _, data| {
                (kind, number, data.first(), data.len()) == (10, 0, Some(&9), 28)
            })
        }),
    ),
    (
        "a page look's data may be longer than n",
        Check::Reader,
        Flaw::Read(|kind, reply| {
            accept(kind, reply, |kind, number, _, data| {
                let n = usize::from(*data.first().unwrap_or(&0));
                let is_longer = (1..=8).contains(&n) && data.len() == 2 + 3 * n;
                kind == 10 && number == 0 && is_longer
            })
        }),
    ),
    (
        "a page look of n 8 refused",
        Check::ReadBack,
        Flaw::Read(|kind, reply| {
            refuse(kind, reply, |kind, told| {
                kind == 10 && told.data.first() == Some(&8)
            })
        }),
    ),
    (
        "a CURRENT byte of 2 accepted",
        Check::Reader,
        Flaw::Read(|kind, reply| read_marks(kind, reply, |at| at % 3 == 2)),
    ),
    (
        "a MOST RECENT byte of 2 accepted",
        Check::Reader,
        Flaw::Read(|kind, reply| read_marks(kind, reply, |at| at % 3 == 0)),
    ),
    (
        "the first copy's marks tested alone",
        Check::Reader,
        Flaw::Read(|kind, reply| read_marks(kind, reply, |at| at > 3)),
    ),
    (
        "the eighth copy's marks not tested",
        Check::Reader,
        Flaw::Read(|kind, reply| read_marks(kind, reply, |at| at > 21)),
    ),
    (
        "a null copy's frame refused",
        Check::ReadBack,
        Flaw::Read(|kind, reply| {
            refuse(kind, reply, |kind, told| {
                kind == 10 && told.data.get(1) == Some(&255)
            })
        }),
    ),
    (
        "a frame look's values tested",
        Check::Reader,
        Flaw::Read(|kind, reply| {
            refuse(kind, reply, |kind, told| {
                kind == 11 && told.data.first().is_some_and(|&held| held > 2)
            })
        }),
    ),
    (
        "a look at a retired frame refused",
        Check::ReadBack,
        Flaw::Read(|kind, reply| {
            refuse(kind, reply, |kind, told| {
                kind == 11 && told.data.first() == Some(&2)
            })
        }),
    ),
    (
        "a read of no byte accepted",
        Check::Reader,
        Flaw::Read(|kind, reply| {
            accept(kind, reply, |kind, number, _, data| {
                kind == 4 && number == 0 && data.is_empty()
            })
        }),
    ),
    (
        "a read of 65 bytes accepted",
        Check::Reader,
        Flaw::Read(|kind, reply| {
            accept(kind, reply, |kind, number, _, data| {
                kind == 4 && number == 0 && data.len() == 65
            })
        }),
    ),
    (
        "a read of 64 bytes refused",
        Check::ReadBack,
        Flaw::Read(|kind, reply| refuse(kind, reply, |_, told| told.data.len() == 64)),
    ),
    (
        "a refusal with bytes laid accepted",
        Check::Reader,
        Flaw::Read(|kind, reply| {
            accept(kind, reply, |_, number, laid, data| {
                (1..=Refusal::LAST).contains(&number) && laid > 0 && data.is_empty()
            })
        }),
    ),
    (
        "a refusal's bytes laid passed over",
        Check::Alike,
        Flaw::Read(|kind, reply| {
            let mut told = accept(kind, reply, |_, number, _, data| {
                (1..=Refusal::LAST).contains(&number) && data.is_empty()
            })?;
            if told.number > 0 {
                told.laid = 0;
            }
            Ok(told)
        }),
    ),
    (
        "a refusal's bytes laid looked for in the low byte",
        Check::Reader,
        Flaw::Read(|kind, reply| {
            accept(kind, reply, |_, number, laid, data| {
                (1..=Refusal::LAST).contains(&number) && laid % 256 == 0 && data.is_empty()
            })
        }),
    ),
    (
        "a refusal with data accepted",
        Check::Reader,
        Flaw::Read(|kind, reply| {
            accept(kind, reply, |kind, number, laid, data| {
                kind == 4 && (1..=Refusal::LAST).contains(&number) && laid == 0 && data.len() <= 64
            })
        }),
    ),
    (
        "number 21 accepted",
        Check::Reader,
        Flaw::Read(|kind, reply| {
            accept(kind, reply, |_, number, laid, data| {
                number == 21 && laid == 0 && data.is_empty()
            })
        }),
    ),
    (
        "number 20 refused",
        Check::ReadBack,
        Flaw::Read(|kind, reply| refuse(kind, reply, |_, told| told.number == 20)),
    ),
    (
        "number 20 told as 13",
        Check::ReadBack,
        Flaw::Read(|kind, reply| {
            let mut told = Modelled.read_reply(kind, reply)?;
            if told.number == 20 {
                told.number = 13;
            }
            Ok(told)
        }),
    ),
    (
        "number 20 taken for a make copy alone",
        Check::Reader,
        Flaw::Read(|kind, reply| refuse(kind, reply, |kind, told| kind != 6 && told.number == 20)),
    ),
    (
        "a retire's reply refused",
        Check::ReadBack,
        Flaw::Read(|kind, reply| refuse(kind, reply, |kind, told| kind == 12 && told.number == 0)),
    ),
    (
        "a retire's reply with the data of a frame look accepted",
        Check::Reader,
        Flaw::Read(|kind, reply| {
            accept(kind, reply, |kind, number, _, data| {
                kind == 12 && number == 0 && data.len() == 3
            })
        }),
    ),
    (
        "kind 12 told to the reader refused 3",
        Check::ReadBack,
        Flaw::Read(|kind, reply| Modelled.read_reply(if kind == 12 { 13 } else { kind }, reply)),
    ),
    (
        "number 18 refused",
        Check::Reader,
        Flaw::Read(|kind, reply| refuse(kind, reply, |_, told| told.number == 18)),
    ),
    (
        "number 19 refused",
        Check::Reader,
        Flaw::Read(|kind, reply| refuse(kind, reply, |_, told| told.number == 19)),
    ),
    (
        "4 for a number that does not suit the kind",
        Check::Reader,
        Flaw::Read(|kind, reply| refuse(kind, reply, |kind, told| kind != 1 && told.number == 8)),
    ),
    (
        "bytes laid of more than 512 refused",
        Check::Reader,
        Flaw::Read(|kind, reply| refuse(kind, reply, |_, told| told.laid > 512)),
    ),
    // What is told.
    (
        "the bytes laid with their low byte first",
        Check::ReadBack,
        Flaw::Read(|kind, reply| {
            let mut told = Modelled.read_reply(kind, reply)?;
            told.laid = told.laid.swap_bytes();
            Ok(told)
        }),
    ),
    (
        "the bytes laid told in ten bits",
        Check::Alike,
        Flaw::Read(|kind, reply| {
            let mut told = Modelled.read_reply(kind, reply)?;
            told.laid %= 1024;
            Ok(told)
        }),
    ),
    (
        "the reader's refusal told as a reply's number",
        Check::Alike,
        Flaw::Read(|kind, reply| {
            Modelled
                .read_reply(kind, reply)
                .or_else(|number| match number {
                    1 => Ok(Told {
                        number,
                        laid: 0,
                        data: Vec::new(),
                    }),
                    _ => Err(number),
                })
        }),
    ),
    // The bytes past the reply.
    (
        "the byte after the reply taken for data",
        Check::PastReply,
        Flaw::Read(|kind, reply| {
            let mut told = Modelled.read_reply(kind, reply)?;
            if let (4, 0, Some(&next)) = (kind, told.number, reply.get(6 + told.data.len())) {
                told.data.push(next);
            }
            Ok(told)
        }),
    ),
    (
        // No reply of the kernel carries 19, so that none is given back wrong before.
        "the byte after a refusal of 19 looked at",
        Check::PastReply,
        Flaw::Read(
            |kind, reply| match (Modelled.read_reply(kind, reply)?, reply.get(6)) {
                (told, Some(128..)) if told.number == 19 => Err(4),
                (told, _) => Ok(told),
            },
        ),
    ),
    // Lengths, versions and the order of the refusals.
    (
        "L taken from its low byte",
        Check::Alike,
        Flaw::Read(|kind, reply| read_mended(kind, reply, 0, 0)),
    ),
    (
        "version 0 accepted",
        Check::Alike,
        Flaw::Read(|kind, reply| match reply.get(2) {
            Some(0) => read_mended(kind, reply, 2, 1),
            _ => Modelled.read_reply(kind, reply),
        }),
    ),
    (
        "no byte refused 2",
        Check::Reader,
        Flaw::Read(|kind, reply| match reply {
            [] => Err(2),
            _ => Modelled.read_reply(kind, reply),
        }),
    ),
    (
        "bytes after the reply refused",
        Check::ReadBack,
        Flaw::Read(|kind, reply| match whole(reply) {
            Some(own) if own.len() < reply.len() => Err(4),
            _ => Modelled.read_reply(kind, reply),
        }),
    ),
    (
        "L of 1 refused 3, as of a message",
        Check::Reader,
        Flaw::Read(|kind, reply| match Modelled.read_reply(kind, reply) {
            Err(4) if reply[1] == 1 => Err(3),
            given => given,
        }),
    ),
    (
        "L of 0 refused 4",
        Check::Reader,
        Flaw::Read(|kind, reply| match Modelled.read_reply(kind, reply) {
            Err(2) if reply[..2] == [0, 0] => Err(4),
            given => given,
        }),
    ),
    (
        "kind 13 taken for one without data",
        Check::Reader,
        Flaw::Read(|kind, reply| Modelled.read_reply(if kind == 13 { 1 } else { kind }, reply)),
    ),
    (
        "3 before 1",
        Check::Reader,
        Flaw::Read(|kind, reply| match Modelled.read_reply(kind, reply) {
            Err(1) if !is_known(kind) => Err(3),
            given => given,
        }),
    ),
    (
        "3 before 2",
        Check::Reader,
        Flaw::Read(|kind, reply| match Modelled.read_reply(kind, reply) {
            Err(2) if !is_known(kind) => Err(3),
            given => given,
        }),
    ),
    (
        "4 before 3",
        Check::Reader,
        Flaw::Read(|kind, reply| match Modelled.read_reply(kind, reply) {
            Err(3) if whole(reply).is_some_and(|own| own.len() < 6) => Err(4),
            given => given,
        }),
    ),
    (
        "4 before 2",
        Check::Reader,
        Flaw::Read(|kind, reply| match Modelled.read_reply(kind, reply) {
            Err(2) if whole(reply).is_some_and(|own| own.len() == 5) => Err(4),
            given => given,
        }),
    ),
];

const SEED: u64 = 1;

#[test]
fn the_model_and_the_kernel_pass() {
    for stations in BOTH {
        let counts = compare(stations, SEED).expect("no difference");
        assert!(counts.too_few().is_empty(), "{:?}", counts.too_few());
    }
}

/// The comparison catches each. Where a promise is broken, the promises alone catch it too; the
/// others are seen beside the model only.
#[test]
fn every_wrong_writer_and_reader_is_caught() {
    std::thread::scope(|scope| {
        let tried = MUTANTS.map(|(name, check, flaw)| {
            let caught = scope.spawn(move || {
                let mutant = Mutant(flaw);
                [compare(&mutant, SEED), promises(&mutant, SEED)].map(Result::err)
            });
            (name, check, caught)
        });
        for (name, check, caught) in tried {
            let caught = caught.join().expect("a comparison");
            let [compared, broken] = caught.map(|difference| difference.map(|d| d.check));
            match check {
                Check::Writer | Check::Reader => {
                    assert_eq!((compared, broken), (Some(check), None), "{name}");
                }
                _ => {
                    assert!(compared.is_some(), "{name}");
                    assert_eq!(broken, Some(check), "{name}");
                }
            }
        }
    });
}
