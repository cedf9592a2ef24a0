//! (f) The calls of a file, such as a shift's, written, and the replies to them read: by the kernel's
//! binding and by plain Rust.

use bench::stations::{read_reply_by_rust, write_by_rust, Told, MESSAGE};
use bench::{FAST, SLOW};
use kernel::Unit;
use std::hint::black_box;
use std::ops::Range;

/// A call as the writer takes it, with its reply.
struct Turn {
    kind: u8,
    arguments: [u8; 4],
    /// A write's bytes, in the call file.
    bytes: Range<usize>,
    /// In the replies.
    reply: Range<usize>,
}

/// The calls of a file and the kernel's replies to them; messages that are refused 1 to 4 are no
/// calls.
pub struct Exchange {
    file: Vec<u8>,
    replies: Vec<u8>,
    turns: Vec<Turn>,
}

fn by_kernel(kind: u8, reply: &[u8]) -> Result<Told, u8> {
    let told = kernel::read_reply(kind, reply)?;
    Ok(Told {
        number: told.number,
        laid: told.laid,
        start: told.start,
        length: told.length,
    })
}

impl Exchange {
    pub fn of_shift() -> Exchange {
        let unit = Unit::fresh(FAST, SLOW).expect("a unit");
        Exchange::of(unit, bench::shift().file)
    }

    /// The calls of a file, answered by this unit.
    pub fn of(mut unit: Unit, file: Vec<u8>) -> Exchange {
        let mut exchange = Exchange {
            file,
            replies: vec![],
            turns: vec![],
        };
        let (mut at, replies) = (0, &mut exchange.replies);
        while let [high, low, rest @ ..] = &exchange.file[at..] {
            let body = &rest[..usize::from(u16::from_be_bytes([*high, *low]))];
            let end = at + 2 + body.len();
            let answer = unit.answer(&exchange.file[at..end]);
            if !(1..=4).contains(&answer.number) {
                let kind = body[1];
                let count = if kind == 5 { 3 } else { body.len() - 2 };
                let mut arguments = [0; 4];
                arguments[..count].copy_from_slice(&body[2..][..count]);
                let from = replies.len();
                replies.extend(answer.reply);
                exchange.turns.push(Turn {
                    kind,
                    arguments,
                    bytes: at + 4 + count..end,
                    reply: from..replies.len(),
                });
            }
            at = end;
        }
        exchange
    }

    pub fn count(&self) -> usize {
        self.turns.len()
    }

    /// Both sides give and leave the same for every call and every reply.
    pub fn check(&self) {
        for turn in &self.turns {
            let bytes = &self.file[turn.bytes.clone()];
            let mut outs = [[0xAA; MESSAGE + 1]; 2];
            let [one, other] = &mut outs;
            let given = kernel::write(turn.kind, turn.arguments, bytes, one);
            let by_rust = write_by_rust(turn.kind, turn.arguments, bytes, other);
            assert!(given == by_rust && one == other, "calls differ");
            let reply = &self.replies[turn.reply.clone()];
            let given = by_kernel(turn.kind, reply);
            let by_rust = read_reply_by_rust(turn.kind, reply);
            assert_eq!(given, by_rust, "replies differ");
        }
    }

    /// Writes every call; the bytes of their messages.
    pub fn write(&self, side: Side) -> usize {
        match side {
            Side::Kernel => self.write_by(kernel::write),
            Side::Rust => self.write_by(write_by_rust),
        }
    }

    fn write_by(
        &self,
        write: impl Fn(u8, [u8; 4], &[u8], &mut [u8]) -> Result<usize, u8>,
    ) -> usize {
        let mut out = [0; MESSAGE];
        let lengths = self.turns.iter().map(|turn| {
            let bytes = &self.file[turn.bytes.clone()];
            let given = write(turn.kind, turn.arguments, bytes, black_box(&mut out[..]));
            given.unwrap_or(0)
        });
        lengths.sum()
    }

    /// Reads every reply; the bytes of their data.
    pub fn read(&self, side: Side) -> usize {
        match side {
            Side::Kernel => self.read_by(by_kernel),
            Side::Rust => self.read_by(read_reply_by_rust),
        }
    }

    fn read_by(&self, read: impl Fn(u8, &[u8]) -> Result<Told, u8>) -> usize {
        let lengths = self.turns.iter().map(|turn| {
            let told = black_box(read(turn.kind, &self.replies[turn.reply.clone()]));
            told.map_or(0, |told| told.length)
        });
        lengths.sum()
    }
}

/// Who writes and reads.
#[derive(Clone, Copy)]
pub enum Side {
    Kernel,
    Rust,
}
