//! That no old copy ever becomes current, checked by execution over a run: which accepted write each
//! copy of each page carries, by the messages and by which of them were accepted. The marks in the
//! tables, the looks, the stores and the data of reads are held against it. Nothing of the model's
//! steps is used.

use crate::compare::add;
use crate::frames::bytes_at;
use crate::gen::tables_of;
use crate::kernel::Kernel;
use crate::model::{Call, Lent, Refusal, FRAME, LEAST_BUFFER, NO_FRAME, PAGES, RECORD, STATIONS};

/// What a page holds after an accepted write: the number of its message, 1 for the first one of the
/// file, and the 64 bytes. Before any write the number is 0.
#[derive(Clone, Copy, Debug, PartialEq, Eq)]
pub struct PageWrite {
    pub number: u64,
    pub bytes: [u8; FRAME],
}

/// The number of what was stale at the start, and so is older than all that is known.
pub const OLDER: u64 = u64::MAX;

impl PageWrite {
    const NONE: PageWrite = PageWrite {
        number: 0,
        bytes: [0; FRAME],
    };

    /// The page write after this one.
    fn written(mut self, number: u64, offset: u8, bytes: &[u8]) -> PageWrite {
        self.number = number;
        let part = self.bytes.iter_mut().skip(offset.into());
        part.zip(bytes).for_each(|(byte, &written)| *byte = written);
        self
    }
}

#[derive(Clone, Copy, Debug, PartialEq, Eq)]
pub struct CopyHistory {
    /// The frame that it was made on; 255 for a null copy.
    pub frame: u8,
    pub is_current: bool,
    /// The write that its bytes carry.
    pub carries: PageWrite,
}

#[derive(Clone, Debug, PartialEq, Eq)]
pub struct PageHistory {
    /// It was created, and not deleted since.
    pub stands: bool,
    pub copies: Vec<CopyHistory>,
    /// The last accepted write.
    pub last: PageWrite,
}

impl PageHistory {
    const ABSENT: PageHistory = PageHistory {
        stands: false,
        copies: Vec::new(),
        last: PageWrite::NONE,
    };

    fn created() -> PageHistory {
        let null = CopyHistory {
            frame: NO_FRAME,
            is_current: false,
            carries: PageWrite::NONE,
        };
        PageHistory {
            stands: true,
            copies: vec![null],
            last: PageWrite::NONE,
        }
    }

    /// An accepted call that names the page.
    fn follow(&mut self, number: u64, call: &Call) {
        match *call {
            Call::Create { .. } => *self = PageHistory::created(),
            Call::DeletePage { .. } => *self = PageHistory::ABSENT,
            Call::Write {
                offset, ref bytes, ..
            } => self.write(number, offset, bytes),
            Call::MakeCopy { copy, frame, .. } => self.make_copy(copy.into(), frame),
            Call::DeleteCopy { copy, .. } => drop(self.copies.remove(copy.into())),
            Call::SetCurrent { copy, .. } => self.copies[usize::from(copy)].is_current = true,
            Call::RemoveCurrent { copy, .. } => self.copies[usize::from(copy)].is_current = false,
            _ => {}
        }
    }

    fn write(&mut self, number: u64, offset: u8, bytes: &[u8]) {
        self.last = self.last.written(number, offset, bytes);
        for copy in self.copies.iter_mut().filter(|copy| copy.is_current) {
            copy.carries = self.last;
        }
    }

    fn make_copy(&mut self, source: usize, frame: u8) {
        let source = self.copies[source];
        if source.frame == NO_FRAME {
            self.copies.clear();
        }
        self.copies.push(CopyHistory {
            frame,
            is_current: false,
            carries: source.carries,
        });
    }

    /// Whether a copy carries the last write. Equal bytes do not make it one that does.
    pub fn is_latest(&self, copy: &CopyHistory) -> bool {
        copy.carries.number == self.last.number
    }

    /// What tables and looks show of each copy: its frame, CURRENT, and MOST RECENT just where it
    /// carries the last write.
    fn entries(&self) -> impl Iterator<Item = [u8; 3]> + '_ {
        let copies = self.copies.iter();
        copies.map(|copy| {
            let (current, recent) = (copy.is_current, self.is_latest(copy));
            [copy.frame, current.into(), recent.into()]
        })
    }

    /// Holds the page's record in the tables against its history.
    fn check_record(&self, record: &[u8]) -> Result<(), String> {
        let entries = record[STATIONS..].chunks(3).take(self.copies.len());
        if usize::from(record[RECORD - 1]) != self.copies.len() || !entries.eq(self.entries()) {
            return Err(format!("other copies or marks than {:?}", self.shown()));
        }
        Ok(())
    }

    /// A page that stands has a copy that carries its last write, and no other one is CURRENT.
    fn check_current(&self) -> Result<(), String> {
        let mut copies = self.copies.iter();
        if let Some(old) = copies.position(|copy| copy.is_current && !self.is_latest(copy)) {
            return Err(format!("copy {old} is an old one, and CURRENT"));
        }
        match !self.stands || self.copies.iter().any(|copy| self.is_latest(copy)) {
            true => Ok(()),
            false => Err("no copy carries the last write".into()),
        }
    }

    /// Each copy, a stale one too, holds the bytes of its write; a null copy is zeros.
    fn check_bytes(&self, lent: &Lent) -> Result<(), String> {
        for (number, copy) in self.copies.iter().enumerate() {
            let held = match copy.frame {
                NO_FRAME => &[0; FRAME][..],
                frame => bytes_at(lent, frame.into()),
            };
            if held != copy.carries.bytes {
                let write = copy.carries.number;
                return Err(format!("copy {number} has other bytes than write {write}"));
            }
        }
        Ok(())
    }

    /// What a look at the page shows.
    fn shown(&self) -> Vec<u8> {
        let n = self.copies.len() as u8;
        [n].into_iter().chain(self.entries().flatten()).collect()
    }
}

/// Every page from the start of a run on.
#[derive(Clone)]
pub struct History {
    pub pages: Vec<PageHistory>,
    messages: u64,
}

impl History {
    /// At the start of a run. What was written before to a page that stands there is not known: its MOST
    /// RECENT copies carry what it has, number 0, and its stale ones something older.
    pub fn start(lent: &Lent) -> History {
        let mut pages = vec![PageHistory::ABSENT; PAGES];
        for (page, _, copy) in tables_of(lent).copies() {
            let held = copy.frame.map(|frame| bytes_at(lent, frame.into()));
            let write = PageWrite {
                number: if copy.recent { 0 } else { OLDER },
                bytes: held.map_or([0; FRAME], |held| held.try_into().expect("a frame")),
            };
            if copy.recent {
                pages[page].last = write;
            }
            pages[page].stands = true;
            pages[page].copies.push(CopyHistory {
                frame: copy.frame.unwrap_or(NO_FRAME),
                is_current: copy.current,
                carries: write,
            });
        }
        History { pages, messages: 0 }
    }

    /// One message more, and whether it was accepted.
    pub fn follow(&mut self, message: &[u8], is_accepted: bool) {
        self.messages += 1;
        if let (true, Ok(call)) = (is_accepted, Call::decode(message)) {
            let page = call
                .page()
                .and_then(|page| self.pages.get_mut(usize::from(page)));
            if let Some(page) = page {
                page.follow(self.messages, &call);
            }
        }
    }

    /// The same in a run from fresh tables, by the reply; what the message left is held against it:
    /// every page in tables and stores, and of an accepted one the data of a read or look, or a look at
    /// the page that it may have changed.
    pub fn turn(
        &mut self,
        kernel: &dyn Kernel,
        message: &[u8],
        reply: &[u8],
        after: &Lent,
    ) -> Result<(), String> {
        let is_accepted = reply.get(3) == Some(&0);
        self.follow(message, is_accepted);
        let records = after.tables[2..].chunks(RECORD);
        for ((number, page), record) in self.pages.iter().enumerate().zip(records) {
            let checked = page.check_record(record);
            let checked = checked.and_then(|()| page.check_current());
            let checked = checked.and_then(|()| page.check_bytes(after));
            checked.map_err(|error| format!("history: page {number}, {error}"))?;
        }
        let call = Call::decode(message).ok().filter(|_| is_accepted);
        match (call.as_ref(), call.as_ref().and_then(Call::page)) {
            (Some(Call::Read { offset, count, .. }), Some(page)) => {
                self.check_read(page, *offset, *count, &reply[6..])
            }
            (Some(Call::LookPage { .. }), Some(page)) => self.check_shown(page, 0, &reply[6..]),
            (_, Some(page)) => self.check_look(kernel, page, after),
            (_, None) => Ok(()),
        }
    }

    /// At the end of a run from fresh tables, every page as looks show it.
    pub fn end(&self, kernel: &dyn Kernel, lent: &Lent) -> Result<(), String> {
        let mut pages = 0..PAGES as u8;
        pages.try_for_each(|page| self.check_look(kernel, page, lent))
    }

    /// An accepted read shows bytes of the last write.
    fn check_read(&self, page: u8, offset: u8, count: u8, data: &[u8]) -> Result<(), String> {
        let last = &self.pages[usize::from(page)].last.bytes;
        let part = usize::from(offset)..usize::from(offset) + usize::from(count);
        match last.get(part) == Some(data) {
            true => Ok(()),
            false => Err(format!(
                "history: a read of page {page} shows other bytes than the last write's"
            )),
        }
    }

    /// Looks at a page through the kernel.
    fn check_look(&self, kernel: &dyn Kernel, page: u8, lent: &Lent) -> Result<(), String> {
        let mut lent = Lent {
            out: vec![0; LEAST_BUFFER],
            ..lent.clone()
        };
        let answer = kernel.answer(&mut lent, &Call::LookPage { page }.encode());
        let [number, length, ..] = answer.to_le_bytes();
        let data = lent.out.get(6..length.into()).unwrap_or_default();
        self.check_shown(page, number, data)
    }

    /// A look at a page has this number and these data.
    fn check_shown(&self, page: u8, number: u8, data: &[u8]) -> Result<(), String> {
        let history = &self.pages[usize::from(page)];
        let (due_number, due) = match history.stands {
            true => (0, history.shown()),
            false => (Refusal::NoPage.number(), Vec::new()),
        };
        match (number, data) == (due_number, &due) {
            true => Ok(()),
            false => Err(format!(
                "history: a look at page {page} shows {number} {data:?}, not {due_number} {due:?}"
            )),
        }
    }
}

// ---- What came up ----

/// What messages found and came to, counted one by one.
pub const EVENTS: [&str; 13] = [
    "a null copy's place taken",
    "a copy made of a stale one",
    "a write to several current copies",
    "a write that leaves copies stale",
    "a write of the same bytes, so too",
    "a stale copy with the last bytes",
    "such a one not set current",
    "copies of three writes",
    "a gap closed by a delete",
    "a stale copy then in its place",
    "the last current copy deleted",
    "the last recent kept beside stale",
    "a read beside stale copies",
];

impl History {
    /// Counts what a message came to that got this number; it is not followed yet.
    pub fn count(&self, counts: &mut [u64; EVENTS.len()], message: &[u8], number: u8) {
        let Ok(call) = Call::decode(message) else {
            return;
        };
        let page = call
            .page()
            .and_then(|page| self.pages.get(usize::from(page)));
        if let Some(page) = page {
            add(counts, page.reached(&call, number));
        }
    }
}

impl PageHistory {
    fn is_stale(&self, copy: &CopyHistory) -> bool {
        !self.is_latest(copy)
    }

    /// Whether a copy is stale though it has the bytes of the last write.
    fn is_equal(&self, copy: &CopyHistory) -> bool {
        self.is_stale(copy) && copy.carries.bytes == self.last.bytes
    }

    fn currents(&self) -> usize {
        self.copies.iter().filter(|copy| copy.is_current).count()
    }

    /// How many different writes the copies carry.
    pub fn writes_carried(&self) -> usize {
        let mut numbers: Vec<u64> = self.copies.iter().map(|copy| copy.carries.number).collect();
        numbers.sort_unstable();
        numbers.dedup();
        numbers.len()
    }

    /// Whether a write finds its bytes there.
    fn has(&self, call: &Call) -> bool {
        match call {
            Call::Write { offset, bytes, .. } => {
                self.last.written(self.last.number, *offset, bytes) == self.last
            }
            _ => false,
        }
    }

    /// Which of `EVENTS` a call that names the page came to.
    fn reached(&self, call: &Call, number: u8) -> [bool; EVENTS.len()] {
        let copy = |copy: Option<u8>| self.copies.get(usize::from(copy?));
        let (mut source, mut gone, mut kept, mut set) = (None, None, None, None);
        match (call, number) {
            (Call::MakeCopy { copy, .. }, 0) => source = Some(*copy),
            (Call::DeleteCopy { copy, .. }, 0) => gone = Some(*copy),
            (Call::DeleteCopy { copy, .. }, 15) => kept = Some(*copy),
            (Call::SetCurrent { copy, .. }, 16) => set = Some(*copy),
            _ => {}
        }
        let next = copy(gone.map(|gone| gone + 1));
        let writes = number == 0 && matches!(call, Call::Write { .. });
        let reads = number == 0 && matches!(call, Call::Read { .. });
        let has_stale = self.copies.iter().any(|copy| self.is_stale(copy));
        let leaves = |copy: &CopyHistory| !copy.is_current && self.is_latest(copy);
        let leaves_stale = writes && self.copies.iter().any(leaves);
        [
            copy(source).is_some_and(|source| source.frame == NO_FRAME),
            copy(source).is_some_and(|source| self.is_stale(source)),
            writes && self.currents() > 1,
            leaves_stale,
            leaves_stale && self.has(call),
            self.copies.iter().any(|copy| self.is_equal(copy)),
            copy(set).is_some_and(|set| self.is_equal(set)),
            self.writes_carried() > 2,
            next.is_some(),
            next.is_some_and(|next| self.is_stale(next)),
            copy(gone).is_some_and(|gone| gone.is_current) && self.currents() == 1,
            kept.is_some() && has_stale,
            reads && has_stale,
        ]
    }
}
