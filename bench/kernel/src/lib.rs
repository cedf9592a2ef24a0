//! The kernel's C functions, the only binding of its library in Rust: over lent slices, and behind
//! a unit that owns all it lends.

pub mod layout;

/// The version of the library that this binding is for: 65536 * major + 256 * minor + patch.
pub const VERSION: u32 = 5 * 65536 + 256;
/// How many bytes the tables take; `layout` says what stands where.
pub const TABLES: usize = 3198;
/// The bytes of a frame, and so of a page.
pub const FRAME: usize = 64;
/// The most fast frames, and the most slow ones.
pub const MOST_FRAMES: u8 = 127;
/// The shortest reply buffer that serves.
pub const LEAST_BUFFER: usize = 70;
/// The shortest buffer that `write` lays a message into: the length of the longest one.
pub const MESSAGE: usize = 71;
/// The length of what `write_create_closed` lays: a create of 6 bytes and fifteen grants of 8.
pub const CLOSED: usize = 126;
/// A forecast counts messages under so many numbers, 0 to 31.
pub const NUMBERS: usize = 32;
/// How many figures `forecast` lays: the most frames held, the bytes laid, and the counts.
pub const FIGURES: usize = 2 + NUMBERS;

const CREATE: u8 = 1;
const GRANT: u8 = 3;
const SHORT_BUFFER: u8 = 18;

// A slice passes as pointer and length.
#[link(name = "embed_c", kind = "static")]
extern "C" {
    fn reel_version() -> u32;

    fn reel_fresh(fast: u8, slow: u8, tables: *mut u8, tables_len: usize) -> u8;

    fn reel_rules(tables: *const u8, tables_len: usize, fast: usize, slow: usize) -> u8;

    fn reel_read(
        tables: *const u8,
        tables_len: usize,
        fast: usize,
        slow: usize,
        station: u8,
        page: u8,
        offset: u8,
        count: u8,
    ) -> u32;

    fn reel_answer(
        tables: *mut u8,
        tables_len: usize,
        fast: *mut u8,
        fast_len: usize,
        slow: *mut u8,
        slow_len: usize,
        message: *const u8,
        message_len: usize,
        out: *mut u8,
        out_len: usize,
    ) -> u32;

    fn reel_run(
        tables: *mut u8,
        tables_len: usize,
        fast: *mut u8,
        fast_len: usize,
        slow: *mut u8,
        slow_len: usize,
        file: *const u8,
        file_len: usize,
        out: *mut u8,
        out_len: usize,
        tally: *mut u32,
        tally_len: usize,
    );

    fn reel_replies(
        tables: *mut u8,
        tables_len: usize,
        fast: *mut u8,
        fast_len: usize,
        slow: *mut u8,
        slow_len: usize,
        file: *const u8,
        file_len: usize,
        at: usize,
        out: *mut u8,
        out_len: usize,
        tally: *mut u32,
        tally_len: usize,
        used: *mut usize,
    ) -> usize;

    fn reel_forecast(
        tables: *const u8,
        tables_len: usize,
        file: *const u8,
        file_len: usize,
        figures: *mut u32,
        figures_len: usize,
    ) -> u8;

    fn reel_write(
        kind: u8,
        first: u8,
        second: u8,
        third: u8,
        fourth: u8,
        bytes: *const u8,
        bytes_len: usize,
        out: *mut u8,
        out_len: usize,
    ) -> u32;

    fn reel_read_reply(kind: u8, reply: *const u8, reply_len: usize) -> u64;
}

/// A C function with the parameters of `reel_answer`: tables, both stores, the message's or file's
/// bytes and the reply buffer, each as pointer and length.
pub type Answering = unsafe extern "C" fn(
    *mut u8,
    usize,
    *mut u8,
    usize,
    *mut u8,
    usize,
    *const u8,
    usize,
    *mut u8,
    usize,
) -> u32;

// SAFETY, for all functions below: each pointer comes with its length from a live slice, and the
// borrow checker keeps the slices lent for writing apart from all others.

/// The version of the library that is linked, to be compared with `VERSION`.
pub fn version() -> u32 {
    unsafe { reel_version() }
}

/// Writes fresh tables: 5 for a buffer of another length than tables have, then 19, else 0.
pub fn fresh(fast: u8, slow: u8, tables: &mut [u8]) -> u8 {
    unsafe { reel_fresh(fast, slow, tables.as_mut_ptr(), tables.len()) }
}

/// Tests tables with stores of so many bytes: 5 where a table rule fails, 6 where a store does not
/// fit, else 0.
pub fn rules(tables: &[u8], fast: usize, slow: usize) -> u8 {
    unsafe { reel_rules(tables.as_ptr(), tables.len(), fast, slow) }
}

/// Where the bytes of a read lie in stores of so many bytes: length + 256 * (0 fast, 1 slow) +
/// 65536 * (offset in that store), or 0 where the read would be refused. The arguments are station,
/// page, offset and count.
pub fn read(tables: &[u8], fast: usize, slow: usize, arguments: [u8; 4]) -> u32 {
    let [station, page, offset, count] = arguments;
    let (at, length) = (tables.as_ptr(), tables.len());
    unsafe { reel_read(at, length, fast, slow, station, page, offset, count) }
}

/// Answers one message: number + 256 * (length of the reply) + 65536 * (bytes laid).
pub fn answer(
    tables: &mut [u8],
    fast: &mut [u8],
    slow: &mut [u8],
    message: &[u8],
    out: &mut [u8],
) -> u32 {
    unsafe { answer_by(reel_answer, tables, fast, slow, message, out) }
}

/// What a C function with the parameters of `reel_answer` gives.
///
/// # Safety
///
/// The function reads and writes nothing but the slices that it is lent, and reads the bytes alone.
pub unsafe fn answer_by(
    function: Answering,
    tables: &mut [u8],
    fast: &mut [u8],
    slow: &mut [u8],
    bytes: &[u8],
    out: &mut [u8],
) -> u32 {
    function(
        tables.as_mut_ptr(),
        tables.len(),
        fast.as_mut_ptr(),
        fast.len(),
        slow.as_mut_ptr(),
        slow.len(),
        bytes.as_ptr(),
        bytes.len(),
        out.as_mut_ptr(),
        out.len(),
    )
}

/// Runs a whole call file; a tally of another length than 3 is left alone.
pub fn run(
    tables: &mut [u8],
    fast: &mut [u8],
    slow: &mut [u8],
    file: &[u8],
    out: &mut [u8],
    tally: &mut [u32],
) {
    unsafe {
        reel_run(
            tables.as_mut_ptr(),
            tables.len(),
            fast.as_mut_ptr(),
            fast.len(),
            slow.as_mut_ptr(),
            slow.len(),
            file.as_ptr(),
            file.len(),
            out.as_mut_ptr(),
            out.len(),
            tally.as_mut_ptr(),
            tally.len(),
        )
    }
}

/// What a run that keeps its replies has reached.
#[derive(Clone, Copy, Debug, PartialEq, Eq)]
pub struct Reached {
    /// The place of the file after the last message answered.
    pub at: usize,
    /// How many bytes of the reply buffer the replies take.
    pub used: usize,
}

/// Runs a call file from a place on, reply after reply, until the file ends or fewer than 70 bytes
/// of the reply buffer are left. In a buffer below 70 every message is answered 18, to the file's
/// end. From a place past the file's end nothing is answered, and the place stays. A tally of
/// another length than 3 is left alone.
pub fn replies(
    tables: &mut [u8],
    fast: &mut [u8],
    slow: &mut [u8],
    file: &[u8],
    at: usize,
    out: &mut [u8],
    tally: &mut [u32],
) -> Reached {
    let mut used = 0;
    let at = unsafe {
        reel_replies(
            tables.as_mut_ptr(),
            tables.len(),
            fast.as_mut_ptr(),
            fast.len(),
            slow.as_mut_ptr(),
            slow.len(),
            file.as_ptr(),
            file.len(),
            at,
            out.as_mut_ptr(),
            out.len(),
            tally.as_mut_ptr(),
            tally.len(),
            &mut used,
        )
    };
    Reached { at, used }
}

/// Forecasts a call file on tables, without any store: 5 for broken tables, else 0. Lays the figures:
/// the most frames held at the start or after any message, the bytes laid in all, and how many
/// messages get each number from 0 to 31. With 5 all of them are 0. Another number of figures than
/// `FIGURES` is left alone.
pub fn forecast(tables: &[u8], file: &[u8], figures: &mut [u32]) -> u8 {
    unsafe {
        reel_forecast(
            tables.as_ptr(),
            tables.len(),
            file.as_ptr(),
            file.len(),
            figures.as_mut_ptr(),
            figures.len(),
        )
    }
}

/// What is forecast of a call file. Each figure stops at 4294967295.
#[derive(Clone, Copy, Debug, PartialEq, Eq)]
pub struct Forecast {
    /// The most frames held at the start or after any message.
    pub most: u32,
    /// The bytes laid in all.
    pub laid: u32,
    /// How many messages get each number.
    pub counts: [u32; NUMBERS],
}

impl Forecast {
    /// The forecast of a call file on tables, or 5 for broken ones.
    pub fn of(tables: &[u8], file: &[u8]) -> Result<Forecast, u8> {
        let mut figures = [0; FIGURES];
        match forecast(tables, file, &mut figures) {
            0 => {
                let [most, laid, counts @ ..] = figures;
                Ok(Forecast { most, laid, counts })
            }
            number => Err(number),
        }
    }
}

/// Writes the message of a call to the front of `out`, and gives its length: the kind, its arguments
/// in their order, of which those past the last play no part, and a write's bytes, which play none
/// for other kinds. Refused 18 in a buffer below `MESSAGE` bytes, then 3 for an unknown kind, then
/// 7; then nothing is written. Bytes past the message remain as lent.
pub fn write(kind: u8, arguments: [u8; 4], bytes: &[u8], out: &mut [u8]) -> Result<usize, u8> {
    let [first, second, third, fourth] = arguments;
    let (from, length) = (bytes.as_ptr(), bytes.len());
    let (to, room) = (out.as_mut_ptr(), out.len());
    let packed = unsafe { reel_write(kind, first, second, third, fourth, from, length, to, room) };
    match packed.to_le_bytes() {
        [0, length, ..] => Ok(length.into()),
        [number, ..] => Err(number),
    }
}

/// Writes the messages of a closed page to the front of `out`, one behind the other, and gives their
/// length, `CLOSED`: the create of the page by the station, and its grants of right 0 to the fifteen
/// others in ascending order. Refused 18 in a buffer below `CLOSED` bytes, then 7 as `write` gives
/// it; then nothing is written. Bytes past the messages remain as lent.
///
/// For a page that no other station may read: a create alone gives each of them right 1. The kernel
/// checks none of this, so the station writes to the page only once every grant was accepted. On a
/// page that stands the create is answered 8 and changes no right; the grants are then accepted from
/// the owner, and close it, and answered 10 to any other station.
pub fn write_create_closed(station: u8, page: u8, out: &mut [u8]) -> Result<usize, u8> {
    let out = out.get_mut(..CLOSED).ok_or(SHORT_BUFFER)?;
    // `write` asks for `MESSAGE` bytes for the last one too.
    let mut file = [0; CLOSED + MESSAGE];
    let mut length = write(CREATE, [station, page, 0, 0], &[], &mut file)?;
    for other in (0..layout::STATIONS as u8).filter(|&other| other != station) {
        length += write(GRANT, [station, page, other, 0], &[], &mut file[length..])?;
    }
    out.copy_from_slice(&file[..CLOSED]);
    Ok(length)
}

/// What a reply tells.
#[derive(Clone, Copy, Debug, PartialEq, Eq)]
pub struct Told {
    /// 0 accepted, else the number of the refusal that the reply carries.
    pub number: u8,
    /// The bytes laid.
    pub laid: u16,
    /// Where the data of a read or look stand in the bytes that were lent, and how many they are.
    pub start: usize,
    pub length: usize,
}

impl Told {
    /// The data, in the bytes that were read.
    pub fn data<'a>(&self, reply: &'a [u8]) -> &'a [u8] {
        &reply[self.start..][..self.length]
    }
}

/// Reads the reply to a message of this kind; bytes past the reply are not looked at. An error is
/// the reader's own refusal, 1 to 4, and not a number that a reply carries.
pub fn read_reply(kind: u8, reply: &[u8]) -> Result<Told, u8> {
    let packed = unsafe { reel_read_reply(kind, reply.as_ptr(), reply.len()) };
    let [refused, number, low, high, start, length, ..] = packed.to_le_bytes();
    match refused {
        0 => Ok(Told {
            number,
            laid: u16::from_le_bytes([low, high]),
            start: start.into(),
            length: length.into(),
        }),
        number => Err(number),
    }
}

/// A tracking unit: all that a caller lends to the kernel.
#[derive(Clone)]
pub struct Unit {
    pub tables: Vec<u8>,
    pub fast: Vec<u8>,
    pub slow: Vec<u8>,
    pub out: Vec<u8>,
    /// Messages, refusals and bytes laid, as `run` and `replies` count them.
    pub tally: [u32; 3],
}

/// The answer to one message.
#[derive(Clone, Copy, Debug, PartialEq, Eq)]
pub struct Answer<'a> {
    /// 0 accepted, else the number of the refusal.
    pub number: u8,
    /// The bytes laid; by a delete 64 for each frame freed, which is filled with zeros.
    pub laid: u16,
    /// The whole reply, its length first.
    pub reply: &'a [u8],
}

impl<'a> Answer<'a> {
    /// The bytes of a read or look, which follow the six of the head.
    pub fn data(&self) -> &'a [u8] {
        self.reply.get(6..).unwrap_or_default()
    }
}

impl Unit {
    /// A unit with fresh tables, or the number of the refusal.
    pub fn fresh(fast: u8, slow: u8) -> Result<Unit, u8> {
        let mut tables = vec![0; TABLES];
        let store = |frames: u8| vec![0; FRAME * usize::from(frames)];
        match fresh(fast, slow, &mut tables) {
            0 => Ok(Unit::lending(tables, store(fast), store(slow))),
            number => Err(number),
        }
    }

    /// A unit with tables and stores that were kept, or 5 or 6 where they break a rule or do not fit.
    pub fn kept(tables: Vec<u8>, fast: Vec<u8>, slow: Vec<u8>) -> Result<Unit, u8> {
        match rules(&tables, fast.len(), slow.len()) {
            0 => Ok(Unit::lending(tables, fast, slow)),
            number => Err(number),
        }
    }

    fn lending(tables: Vec<u8>, fast: Vec<u8>, slow: Vec<u8>) -> Unit {
        Unit {
            tables,
            fast,
            slow,
            out: vec![0; LEAST_BUFFER],
            tally: [0; 3],
        }
    }

    /// How many fast and slow frames there are.
    pub fn frames(&self) -> (u8, u8) {
        let frames = |store: &[u8]| (store.len() / FRAME) as u8;
        (frames(&self.fast), frames(&self.slow))
    }

    /// 0 where the tables keep the rules and the stores fit them, else 5 or 6.
    pub fn rules(&self) -> u8 {
        rules(&self.tables, self.fast.len(), self.slow.len())
    }

    /// The bytes of a read where they lie, in the fast store or in the slow one; None where the
    /// read would be refused.
    pub fn read(&self, station: u8, page: u8, offset: u8, count: u8) -> Option<&[u8]> {
        let arguments = [station, page, offset, count];
        let place = read(&self.tables, self.fast.len(), self.slow.len(), arguments);
        let [length, store, from @ ..] = place.to_le_bytes();
        let store = match store {
            0 => &self.fast,
            _ => &self.slow,
        };
        let from = usize::from(u16::from_le_bytes(from));
        (length != 0).then(|| &store[from..][..usize::from(length)])
    }

    /// Answers one message, its length first.
    pub fn answer(&mut self, message: &[u8]) -> Answer<'_> {
        let packed = answer(
            &mut self.tables,
            &mut self.fast,
            &mut self.slow,
            message,
            &mut self.out,
        );
        let [number, length, laid @ ..] = packed.to_le_bytes();
        Answer {
            number,
            laid: u16::from_le_bytes(laid),
            reply: &self.out[..usize::from(length)],
        }
    }

    /// The forecast of a call file from here on, or 5 where the tables break a rule.
    pub fn forecast(&self, file: &[u8]) -> Result<Forecast, u8> {
        Forecast::of(&self.tables, file)
    }

    /// Runs a call file; the rules are tested once. The buffer has the last reply, and behind it what
    /// that did not cover of longer ones before.
    pub fn run(&mut self, file: &[u8]) {
        run(
            &mut self.tables,
            &mut self.fast,
            &mut self.slow,
            file,
            &mut self.out,
            &mut self.tally,
        );
    }

    /// Runs a call file and keeps its replies: hands them over whenever the reply buffer is full,
    /// and at the end.
    pub fn replies(&mut self, file: &[u8], mut keep: impl FnMut(&[u8])) {
        let mut at = 0;
        while at < file.len() {
            let reached = replies(
                &mut self.tables,
                &mut self.fast,
                &mut self.slow,
                file,
                at,
                &mut self.out,
                &mut self.tally,
            );
            keep(&self.out[..reached.used]);
            at = reached.at;
        }
    }
}

#[cfg(test)]
mod tests {
    use super::{
        read_reply, write, write_create_closed, Answer, Forecast, Unit, CLOSED, FIGURES, MESSAGE,
        NUMBERS, TABLES,
    };

    /// The worked example of document 01, and its replies.
    const FILE: [&[u8]; 6] = [
        &[0, 4, 1, 1, 3, 5],
        &[0, 5, 1, 6, 5, 0, 0],
        &[0, 4, 1, 8, 5, 0],
        &[0, 7, 1, 5, 3, 5, 0, 0x41, 0x37],
        &[0, 6, 1, 4, 3, 5, 0, 3],
        &[0, 3, 1, 10, 5],
    ];
    const REPLIES: [&[u8]; 6] = [
        &[0, 4, 1, 0, 0, 0],
        &[0, 4, 1, 0, 0, 64],
        &[0, 4, 1, 0, 0, 0],
        &[0, 4, 1, 0, 0, 2],
        &[0, 7, 1, 0, 0, 0, 0x41, 0x37, 0],
        &[0, 8, 1, 0, 0, 0, 1, 0, 1, 1],
    ];

    #[test]
    fn a_look_at_a_new_page() {
        let mut unit = Unit::fresh(4, 4).unwrap();
        assert_eq!(unit.answer(&[0, 4, 1, 1, 3, 5]).number, 0);
        let answer = unit.answer(&[0, 3, 1, 10, 5]);
        assert_eq!(answer.data(), [1, 255, 0, 1]);
        unit.run(&[0, 5, 1, 6, 5, 0, 7, 0]);
        assert_eq!(unit.tally, [2, 1, 64]);
        let refused = unit.answer(&[0]);
        let due = Answer {
            number: 1,
            laid: 0,
            reply: &[0, 4, 1, 1, 0, 0],
        };
        assert_eq!(refused, due);
        assert_eq!(refused.data(), []);
    }

    #[test]
    fn the_library_is_of_this_version() {
        assert_eq!(super::version(), super::VERSION);
    }

    #[test]
    fn too_many_frames() {
        assert_eq!(Unit::fresh(128, 0).err(), Some(19));
        let mut short = [7; super::TABLES - 1];
        assert_eq!(super::fresh(128, 0, &mut short), 5);
        assert_eq!(short, [7; super::TABLES - 1]);
    }

    #[test]
    fn every_reply_in_buffers_of_any_length() {
        for (length, parts) in [(70, 6), (76, 4), (82, 3), (1000, 1)] {
            let mut unit = Unit::fresh(4, 4).unwrap();
            unit.out = vec![0xAA; length];
            let mut kept = Vec::new();
            unit.replies(&FILE.concat(), |part| kept.push(part.to_vec()));
            assert_eq!(kept.len(), parts, "in {length} bytes");
            assert_eq!(kept.concat(), REPLIES.concat());
            assert_eq!(unit.tally, [6, 0, 66]);
        }
        let mut unit = Unit::fresh(4, 4).unwrap();
        unit.out = vec![0xAA; 69];
        unit.replies(&FILE.concat(), |part| assert_eq!(part, []));
        assert_eq!((unit.tally, unit.out), ([6, 6, 0], vec![0xAA; 69]));
    }

    #[test]
    fn a_read_where_the_bytes_lie() {
        let mut unit = Unit::fresh(1, 2).unwrap();
        for message in FILE {
            unit.answer(message);
        }
        assert_eq!(unit.read(3, 5, 0, 3), Some(&[0x41, 0x37, 0][..]));
        assert_eq!(unit.read(3, 5, 1, 1).unwrap().as_ptr(), &unit.fast[1]);
        // Every station reads a new page, until its owner takes the right away.
        assert_eq!(unit.read(4, 5, 0, 3), Some(&[0x41, 0x37, 0][..]));
        assert_eq!(unit.answer(&[0, 6, 1, 3, 3, 5, 4, 0]).number, 0);
        assert_eq!(unit.read(4, 5, 0, 3), None);
        // The same bytes on the second slow frame.
        for message in [&[0, 5, 1, 6, 5, 0, 2][..], &[0, 4, 1, 7, 5, 0], FILE[2]] {
            assert_eq!(unit.answer(message).number, 0);
        }
        assert_eq!(unit.read(3, 5, 1, 63).unwrap().as_ptr(), &unit.slow[65]);
        assert_eq!(unit.read(3, 5, 0, 2), Some(&[0x41, 0x37][..]));
    }

    #[test]
    fn deletes_leave_zeros_where_the_bytes_were() {
        let mut unit = Unit::fresh(1, 2).unwrap();
        unit.slow.fill(0xDD);
        for message in FILE {
            unit.answer(message);
        }
        assert_eq!(unit.answer(&[0, 5, 1, 6, 5, 0, 2]).laid, 64);
        assert_eq!(unit.answer(&[0, 4, 1, 7, 5, 0]).laid, 64);
        assert_eq!(unit.fast, [0; 64]);
        assert_eq!(unit.slow[64..66], [0x41, 0x37]);
        assert_eq!(unit.answer(&[0, 4, 1, 2, 4, 5]).number, 10);
        assert_eq!(unit.slow[64..66], [0x41, 0x37]);
        assert_eq!(unit.answer(&[0, 4, 1, 2, 3, 5]).laid, 64);
        assert_eq!(unit.slow, [[0xDD; 64], [0; 64]].concat());
    }

    #[test]
    fn a_call_is_written_answered_and_its_reply_read() {
        let mut unit = Unit::fresh(4, 4).unwrap();
        let calls = [
            (1, [3, 5, 0, 0], &[][..]),
            (6, [5, 0, 0, 0], &[]),
            (8, [5, 0, 0, 0], &[]),
            (5, [3, 5, 0, 0], &[0x41, 0x37]),
            (4, [3, 5, 0, 3], &[]),
            (10, [5, 0, 0, 0], &[]),
        ];
        for ((kind, arguments, bytes), (message, reply)) in
            calls.into_iter().zip(FILE.into_iter().zip(REPLIES))
        {
            let mut out = [0xAA; 80];
            let length = write(kind, arguments, bytes, &mut out).unwrap();
            assert_eq!(out[..length], *message);
            assert_eq!(out[length..], [0xAA; 80][length..]);
            let answer = unit.answer(&out[..length]);
            let told = read_reply(kind, answer.reply).unwrap();
            let due = (answer.number, answer.laid, answer.data());
            assert_eq!((told.number, told.laid, told.data(reply)), due);
        }
    }

    #[test]
    fn calls_and_replies_that_are_refused() {
        let mut out = [0xAA; 71];
        assert_eq!(write(13, [0; 4], &[], &mut out[..70]), Err(18));
        assert_eq!(write(13, [0; 4], &[], &mut out), Err(3));
        assert_eq!(write(0, [0; 4], &[], &mut out), Err(3));
        assert_eq!(write(11, [254, 0, 0, 0], &[], &mut out), Err(7));
        assert_eq!(write(12, [254, 0, 0, 0], &[], &mut out), Err(7));
        assert_eq!(write(5, [3, 5, 0, 0], &[], &mut out), Err(7));
        assert_eq!(out, [0xAA; 71]);
        assert_eq!(read_reply(1, &[]), Err(1));
        assert_eq!(read_reply(13, &[0, 4, 1, 0, 0]), Err(1));
        assert_eq!(read_reply(13, &[0, 4, 2, 0, 0, 0]), Err(2));
        assert_eq!(read_reply(13, &[0, 4, 1, 0, 0, 0]), Err(3));
        assert_eq!(read_reply(1, &[0, 4, 1, 21, 0, 0]), Err(4));
        assert_eq!(read_reply(12, &[0, 7, 1, 0, 0, 0, 2, 255, 255]), Err(4));
        let told = read_reply(1, &[0, 4, 1, 1, 0, 0, 9]).unwrap();
        assert_eq!((told.number, told.laid, told.length), (1, 0, 0));
        let told = read_reply(1, &[0, 4, 1, 20, 0, 0]).unwrap();
        assert_eq!((told.number, told.laid, told.length), (20, 0, 0));
    }

    /// The messages of a closed page, byte by byte.
    fn closing(station: u8, page: u8) -> Vec<u8> {
        let mut file = vec![0, 4, 1, 1, station, page];
        for other in [0, 1, 2, 3, 4, 5, 6, 7, 8, 9, 10, 11, 12, 13, 14, 15] {
            if other != station {
                file.extend([0, 6, 1, 3, station, page, other, 0]);
            }
        }
        file
    }

    #[test]
    fn the_messages_of_every_closed_page() {
        for call in 0..16 * 64 {
            let (station, page) = ((call / 64) as u8, (call % 64) as u8);
            for room in [126, 135] {
                let mut out = [0xAA; 135];
                let given = write_create_closed(station, page, &mut out[..room]);
                assert_eq!(given, Ok(126), "{station} {page} in {room} bytes");
                assert_eq!(out[..126], closing(station, page));
                assert_eq!(out[126..], [0xAA; 9]);
            }
        }
    }

    #[test]
    fn closed_pages_that_are_refused() {
        let mut out = [0xAA; 135];
        for (station, page, room, number) in [
            (16, 64, 0, 18),
            (3, 5, 70, 18),
            (3, 5, 125, 18),
            (16, 5, 125, 18),
            (16, 5, 126, 7),
            (255, 5, 135, 7),
            (3, 64, 126, 7),
            (3, 255, 135, 7),
        ] {
            let given = write_create_closed(station, page, &mut out[..room]);
            assert_eq!(given, Err(number), "{station} {page} in {room} bytes");
            assert_eq!(out, [0xAA; 135]);
        }
    }

    /// How each station's read is answered, once page 5 of station 3 has a CURRENT copy and is written.
    fn reads(unit: &mut Unit) -> Vec<u8> {
        for message in &FILE[1..4] {
            assert_eq!(unit.answer(message).number, 0);
        }
        let read = |station| unit.answer(&[0, 6, 1, 4, station, 5, 0, 1]).number;
        (0..16).map(read).collect()
    }

    #[test]
    fn a_closed_page_is_read_by_its_owner_alone() {
        let mut file = [0; CLOSED];
        write_create_closed(3, 5, &mut file).unwrap();
        let mut unit = Unit::fresh(4, 4).unwrap();
        unit.run(&file);
        assert_eq!(unit.tally, [16, 0, 0]);
        let mut due = [10; 16];
        due[3] = 0;
        assert_eq!(reads(&mut unit), due);
        // On the page that stands: 8, and the grants close it again; by another station 8 and then 10.
        let tables = unit.tables.clone();
        assert_eq!(unit.answer(&[0, 6, 1, 3, 3, 5, 15, 2]).number, 0);
        unit.run(&file);
        assert_eq!((unit.tally, &unit.tables), ([32, 1, 0], &tables));
        write_create_closed(4, 5, &mut file).unwrap();
        unit.run(&file);
        assert_eq!((unit.tally, &unit.tables), ([48, 17, 0], &tables));

        let mut unit = Unit::fresh(4, 4).unwrap();
        assert_eq!(unit.answer(FILE[0]).number, 0);
        assert_eq!(reads(&mut unit), [0; 16]);
    }

    #[test]
    fn a_retired_frame_takes_no_copy() {
        let mut unit = Unit::fresh(4, 4).unwrap();
        unit.slow.fill(0xDD);
        for message in FILE {
            unit.answer(message);
        }
        let mut out = [0; MESSAGE];
        for (frame, number) in [(8, 7), (0, 13), (5, 0), (5, 0)] {
            let length = write(12, [frame, 0, 0, 0], &[], &mut out).unwrap();
            assert_eq!(out[..length], [0, 3, 1, 12, frame]);
            let answer = unit.answer(&out[..length]);
            let told = read_reply(12, answer.reply).unwrap();
            assert_eq!((told.number, told.laid, told.length), (number, 0, 0));
        }
        assert_eq!(unit.slow, [0xDD; 4 * 64]);
        assert_eq!(unit.answer(&[0, 3, 1, 11, 4]).data(), [0, 255, 255]);
        assert_eq!(unit.answer(&[0, 3, 1, 11, 5]).data(), [2, 255, 255]);
        // No page and no copy come before 20.
        for (page, copy, number) in [(6, 0, 9), (5, 1, 12), (5, 0, 20)] {
            assert_eq!(unit.answer(&[0, 5, 1, 6, page, copy, 5]).number, number);
        }
        assert_eq!((unit.rules(), &unit.slow[..]), (0, &[0xDD; 4 * 64][..]));
    }

    /// What is forecast with these counts, and no other message.
    fn foretold(most: u32, laid: u32, given: &[(usize, u32)]) -> Result<Forecast, u8> {
        let mut counts = [0; NUMBERS];
        for &(number, count) in given {
            counts[number] = count;
        }
        Ok(Forecast { most, laid, counts })
    }

    #[test]
    fn a_forecast_is_what_the_run_gives() {
        let mut unit = Unit::fresh(4, 4).unwrap();
        assert_eq!(unit.forecast(&[]), foretold(0, 0, &[]));
        let file = [&FILE.concat()[..], &[0, 5, 1, 6, 5, 0, 8], &[0]].concat();
        let tables = unit.tables.clone();
        assert_eq!(
            unit.forecast(&file),
            foretold(1, 66, &[(0, 6), (7, 1), (1, 1)])
        );
        assert_eq!(unit.tables, tables);
        unit.run(&file);
        assert_eq!(unit.tally, [8, 2, 66]);
        // From here on the most frames are held at the start.
        let delete = [0, 4, 1, 2, 3, 5];
        assert_eq!(unit.forecast(&delete), foretold(1, 64, &[(0, 1)]));
    }

    #[test]
    fn broken_tables_have_no_forecast() {
        let mut unit = Unit::fresh(4, 4).unwrap();
        unit.tables[TABLES - 1] = 254;
        for (tables, file) in [
            (&unit.tables[..], &FILE.concat()[..]),
            (&unit.tables, &[]),
            (&unit.tables[1..], &[]),
        ] {
            let mut figures = [7; FIGURES];
            assert_eq!(super::forecast(tables, file, &mut figures), 5);
            assert_eq!(figures, [0; FIGURES]);
            assert_eq!(Forecast::of(tables, file), Err(5));
        }
        for length in [0, 1, FIGURES - 1, FIGURES + 1] {
            let mut figures = vec![7; length];
            assert_eq!(super::forecast(&unit.tables, &[], &mut figures), 5);
            assert_eq!(figures, vec![7; length]);
        }
    }

    #[test]
    fn the_test_of_tables_and_stores() {
        let mut unit = Unit::fresh(4, 4).unwrap();
        assert_eq!(unit.rules(), 0);
        // The last entry is that of a frame that the unit does not have.
        unit.tables[TABLES - 1] = 254;
        assert_eq!(unit.rules(), 5);
        unit.tables[TABLES - 1] = 255;
        assert_eq!(unit.frames(), (4, 4));
        let kept = |unit: &Unit| {
            let Unit {
                tables, fast, slow, ..
            } = unit.clone();
            Unit::kept(tables, fast, slow).map(|unit| unit.tables)
        };
        assert_eq!(kept(&unit), Ok(unit.tables.clone()));
        unit.slow.pop();
        assert_eq!((unit.rules(), kept(&unit)), (6, Err(6)));
        unit.tables[0] = 128;
        assert_eq!(unit.rules(), 5);
    }
}
