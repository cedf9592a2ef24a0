//! What can be compared with the model: the kernel of `libembed_c.a`, and the model itself, on which
//! the tests of the comparison build.

use crate::forecast::{self, Course, Forecast};
use crate::model::{self, Answer, Lent, Part, Reached, Refusal, RAW};
use crate::stations::{self, Sent, Told};

/// The functions that stations use.
pub trait Stations {
    /// Writes a call's message to the front of a buffer: its length, or the number of the refusal.
    fn write(&self, sent: &Sent, out: &mut [u8]) -> Result<usize, u8>;
    /// Reads the reply to a message of a kind: what it tells, or the number of the reader's own
    /// refusal.
    fn read_reply(&self, kind: u8, reply: &[u8]) -> Result<Told, u8>;
}

/// The functions of the kernel.
pub trait Kernel: Stations {
    /// Writes fresh tables: 0, or 19; 5 for a buffer of another length than raw tables have.
    fn fresh(&self, fast: u8, slow: u8, tables: &mut [u8]) -> u8;
    /// Answers one message: number + 256 * (length of the reply) + 65536 * (bytes laid).
    fn answer(&self, lent: &mut Lent, message: &[u8]) -> u32;
    /// Runs a whole call file; a tally of another length than 3 is left alone.
    fn run(&self, lent: &mut Lent, file: &[u8], tally: &mut [u32]);
    /// Runs a call file from a place on and keeps its replies, as long as the reply buffer serves.
    fn replies(&self, lent: &mut Lent, file: &[u8], at: usize, tally: &mut [u32]) -> Reached;
    /// Tests tables and stores: 0, 5 or 6.
    fn rules(&self, lent: &Lent) -> u8;
    /// The place of a read: its length + 256 * (0 fast, 1 slow) + 65536 * (its offset in the
    /// store); 0 where the read would be refused. The arguments are those of the message.
    fn read(&self, lent: &Lent, arguments: [u8; 4]) -> u32;
    /// Forecasts a call file on tables: 0, or 5 for broken ones, and lays out the figures.
    fn forecast(&self, tables: &[u8], file: &[u8], figures: &mut [u32]) -> u8;
}

/// An answer as `reel_answer` packs it.
pub fn packed(answer: Answer) -> u32 {
    u32::from(answer.number) + 256 * answer.length as u32 + 65536 * answer.laid as u32
}

/// The place of a read as `reel_read` packs it.
pub fn placed(part: Option<Part>) -> u32 {
    part.map_or(0, |part| {
        part.count as u32 + 256 * u32::from(!part.is_fast) + 65536 * part.from as u32
    })
}

/// The model behind the kernel's functions.
pub struct Modelled;

impl Kernel for Modelled {
    fn fresh(&self, fast: u8, slow: u8, tables: &mut [u8]) -> u8 {
        if tables.len() != RAW {
            return Refusal::BrokenTables.number();
        }
        let (number, fresh) = model::fresh(fast, slow);
        tables.copy_from_slice(&fresh.to_raw());
        number
    }

    fn answer(&self, lent: &mut Lent, message: &[u8]) -> u32 {
        packed(model::answer(lent, message))
    }

    fn run(&self, lent: &mut Lent, file: &[u8], tally: &mut [u32]) {
        let unasked = &mut [0; 3];
        model::run(lent, file, tally.try_into().unwrap_or(unasked));
    }

    fn replies(&self, lent: &mut Lent, file: &[u8], at: usize, tally: &mut [u32]) -> Reached {
        let unasked = &mut [0; 3];
        model::replies(lent, file, at, tally.try_into().unwrap_or(unasked))
    }

    fn rules(&self, lent: &Lent) -> u8 {
        model::rules(lent)
    }

    fn read(&self, lent: &Lent, [station, page, offset, count]: [u8; 4]) -> u32 {
        placed(model::read(lent, station, page, offset, count))
    }

    fn forecast(&self, tables: &[u8], file: &[u8], figures: &mut [u32]) -> u8 {
        let course = Course::from_tables(tables, file);
        forecast::tell(course.as_ref().map(Forecast::of), figures)
    }
}

impl Stations for Modelled {
    fn write(&self, sent: &Sent, out: &mut [u8]) -> Result<usize, u8> {
        stations::write(sent, out).map_err(Refusal::number)
    }

    fn read_reply(&self, kind: u8, reply: &[u8]) -> Result<Told, u8> {
        stations::read_reply(kind, reply).map_err(Refusal::number)
    }
}

/// The kernel of `libembed_c.a`.
pub struct Embedded;

impl Stations for Embedded {
    fn write(&self, sent: &Sent, out: &mut [u8]) -> Result<usize, u8> {
        kernel::write(sent.kind, sent.arguments, &sent.bytes, out)
    }

    fn read_reply(&self, kind: u8, reply: &[u8]) -> Result<Told, u8> {
        kernel::read_reply(kind, reply).map(|told| Told {
            number: told.number,
            laid: told.laid,
            data: told.data(reply).to_vec(),
        })
    }
}

impl Kernel for Embedded {
    fn fresh(&self, fast: u8, slow: u8, tables: &mut [u8]) -> u8 {
        kernel::fresh(fast, slow, tables)
    }

    fn answer(&self, lent: &mut Lent, message: &[u8]) -> u32 {
        kernel::answer(
            &mut lent.tables,
            &mut lent.fast,
            &mut lent.slow,
            message,
            &mut lent.out,
        )
    }

    fn run(&self, lent: &mut Lent, file: &[u8], tally: &mut [u32]) {
        kernel::run(
            &mut lent.tables,
            &mut lent.fast,
            &mut lent.slow,
            file,
            &mut lent.out,
            tally,
        );
    }

    fn replies(&self, lent: &mut Lent, file: &[u8], at: usize, tally: &mut [u32]) -> Reached {
        let kernel::Reached { at, used } = kernel::replies(
            &mut lent.tables,
            &mut lent.fast,
            &mut lent.slow,
            file,
            at,
            &mut lent.out,
            tally,
        );
        Reached { at, used }
    }

    fn rules(&self, lent: &Lent) -> u8 {
        kernel::rules(&lent.tables, lent.fast.len(), lent.slow.len())
    }

    fn read(&self, lent: &Lent, arguments: [u8; 4]) -> u32 {
        kernel::read(&lent.tables, lent.fast.len(), lent.slow.len(), arguments)
    }

    fn forecast(&self, tables: &[u8], file: &[u8], figures: &mut [u32]) -> u8 {
        kernel::forecast(tables, file, figures)
    }
}
