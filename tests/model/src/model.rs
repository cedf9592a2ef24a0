//! The model of document 01, with the deletes of request [2], the retired frames of request [5] and
//! the rights of new pages of request [6] of document 02, in the order of the paper: tables and
//! stores, steps, call files and replies, refusals, the run, the program.

pub const PAGES: usize = 64;
pub const STATIONS: usize = 16;
/// The copy entries of a page record.
pub const ENTRIES: usize = 8;
/// The bytes of a frame, and so of a page.
pub const FRAME: usize = 64;
/// The most fast frames, and the most slow ones.
pub const MOST_FRAMES: u8 = 127;

// ---- The tables and the two stores ----

#[derive(Clone, Debug, PartialEq, Eq)]
pub struct Tables {
    /// P, the number of fast frames.
    pub fast: u8,
    /// S, the number of slow frames.
    pub slow: u8,
    /// The 64 pages; an absent one is None.
    pub pages: Vec<Option<Page>>,
    /// The marks of retired frames, one for each frame number whatever P and S are.
    pub retired: [bool; REGISTERED],
}

#[derive(Clone, Debug, PartialEq, Eq)]
pub struct Page {
    pub owner: u8,
    /// For each station 0 none, 1 read, 2 read and write.
    pub rights: [u8; STATIONS],
    pub copies: Vec<PageCopy>,
}

#[derive(Clone, Copy, Debug, PartialEq, Eq)]
pub struct PageCopy {
    /// None for a null copy.
    pub frame: Option<u8>,
    pub current: bool,
    pub recent: bool,
}

/// The length of raw tables: P, S, 64 page records and the register.
pub const RAW: usize = REGISTER + 2 * REGISTERED;
/// Where in raw tables the register begins.
pub const REGISTER: usize = 2 + PAGES * RECORD;
/// So many frames have an entry in the register, whatever P and S are.
pub const REGISTERED: usize = 2 * MOST_FRAMES as usize;
/// The entry of a frame that no copy is on; of others it is 8 * page + copy.
pub const FREE_ENTRY: u16 = 65535;
/// The entry of a retired frame: eight bits from that one, and four or more from any copy's.
pub const RETIRED: u16 = 0xF0F0;
/// A raw page record: 16 rights, 8 entries (frame, CURRENT, MOST RECENT), owner, n.
pub const RECORD: usize = STATIONS + 3 * ENTRIES + 2;
/// The raw frame of a null copy.
pub const NO_FRAME: u8 = 255;
const FRESH_ENTRY: [u8; 3] = [NO_FRAME, 0, 0];

/// The raw record of an absent page.
fn fresh_record() -> [u8; RECORD] {
    let mut record = [0; RECORD];
    for entry in 0..ENTRIES {
        record[STATIONS + 3 * entry] = NO_FRAME;
    }
    record
}

/// The mark that a raw byte stands for; None if it is neither 0 nor 1.
fn mark(byte: u8) -> Option<bool> {
    match byte {
        0 => Some(false),
        1 => Some(true),
        _ => None,
    }
}

impl Tables {
    /// Fresh tables: no pages, and no frame retired.
    pub fn fresh(fast: u8, slow: u8) -> Tables {
        Tables {
            fast,
            slow,
            pages: vec![None; PAGES],
            retired: [false; REGISTERED],
        }
    }

    /// P + S.
    pub fn frames(&self) -> usize {
        usize::from(self.fast) + usize::from(self.slow)
    }

    /// Every copy in the order of the pages and of each one's copies: page, copy number, copy.
    pub fn copies(&self) -> impl Iterator<Item = (usize, usize, &PageCopy)> {
        self.pages.iter().enumerate().flat_map(|(number, page)| {
            let copies = page.iter().flat_map(|page| page.copies.iter().enumerate());
            copies.map(move |(copy, entry)| (number, copy, entry))
        })
    }

    /// How many frames are held: on sound tables no two copies are on one.
    pub fn held(&self) -> usize {
        let held = self.copies().filter(|(_, _, copy)| copy.frame.is_some());
        held.count()
    }

    /// A frame is held if a copy has it.
    pub fn is_held(&self, frame: u8) -> bool {
        self.holder(frame).is_some()
    }

    pub fn is_retired(&self, frame: u8) -> bool {
        self.retired.get(usize::from(frame)) == Some(&true)
    }

    pub fn retired_frames(&self) -> impl Iterator<Item = u8> {
        let marks = (0..).zip(self.retired);
        marks.filter_map(|(frame, mark)| mark.then_some(frame))
    }

    /// A frame is free if it is neither held nor retired.
    pub fn is_free(&self, frame: u8) -> bool {
        !self.is_held(frame) && !self.is_retired(frame)
    }

    /// The search: page and number of the copy on a frame.
    fn holder(&self, frame: u8) -> Option<(usize, usize)> {
        let mut copies = self.copies();
        let held = copies.find(|(_, _, copy)| copy.frame == Some(frame));
        held.map(|(page, copy, _)| (page, copy))
    }

    /// The raw register. The model keeps none: it is what the search gives of each frame, for all
    /// of them in one pass, and of the others which are retired.
    fn register(&self) -> Vec<u8> {
        let mut register = [FREE_ENTRY; REGISTERED];
        for (page, number, copy) in self.copies() {
            let entry = copy.frame.and_then(|f| register.get_mut(usize::from(f)));
            if let Some(free @ &mut FREE_ENTRY) = entry {
                *free = (ENTRIES * page + number) as u16;
            }
        }
        for (entry, retired) in register.iter_mut().zip(self.retired) {
            if retired && *entry == FREE_ENTRY {
                *entry = RETIRED;
            }
        }
        register.into_iter().flat_map(u16::to_le_bytes).collect()
    }

    /// The tables that raw bytes stand for; None if a table rule fails.
    pub fn from_raw(raw: &[u8]) -> Option<Tables> {
        if raw.len() != RAW {
            return None;
        }
        let mut tables = Tables::fresh(raw[0], raw[1]);
        for (page, record) in raw[2..REGISTER].chunks(RECORD).enumerate() {
            tables.pages[page] = Page::from_raw(record)?;
        }
        for (retired, entry) in tables.retired.iter_mut().zip(raw[REGISTER..].chunks(2)) {
            *retired = entry == RETIRED.to_le_bytes();
        }
        let is_sound = tables.keep_the_rules() && tables.register() == raw[REGISTER..];
        is_sound.then_some(tables)
    }

    /// The table rules that the form of `Tables` leaves open.
    fn keep_the_rules(&self) -> bool {
        let in_range = self.fast <= MOST_FRAMES && self.slow <= MOST_FRAMES;
        let mut held = [false; 256];
        let frames_kept = self
            .copies()
            .filter_map(|(_, _, copy)| copy.frame)
            .all(|f| {
                let frame = usize::from(f);
                frame < self.frames()
                    && !std::mem::replace(&mut held[frame], true)
                    && !self.is_retired(f)
            });
        let none_past = self.retired.iter().skip(self.frames()).all(|mark| !mark);
        in_range
            && frames_kept
            && none_past
            && self.pages.iter().flatten().all(Page::keeps_the_rules)
    }

    pub fn to_raw(&self) -> Vec<u8> {
        let mut raw = Vec::with_capacity(RAW);
        raw.extend([self.fast, self.slow]);
        for page in &self.pages {
            let mut record = fresh_record();
            if let Some(page) = page {
                record[..STATIONS].copy_from_slice(&page.rights);
                for (copy, entry) in page.copies.iter().zip(record[STATIONS..].chunks_mut(3)) {
                    entry.copy_from_slice(&copy.bytes());
                }
                record[RECORD - 2] = page.owner;
                record[RECORD - 1] = page.copies.len() as u8;
            }
            raw.extend_from_slice(&record);
        }
        raw.extend(self.register());
        raw
    }

    /// The page, if it stands.
    fn page(&self, page: u8) -> Result<&Page, Refusal> {
        self.pages[usize::from(page)]
            .as_ref()
            .ok_or(Refusal::NoPage)
    }

    fn page_mut(&mut self, page: u8) -> Result<&mut Page, Refusal> {
        self.pages[usize::from(page)]
            .as_mut()
            .ok_or(Refusal::NoPage)
    }
}

impl Page {
    /// The page that a raw record stands for, Some(None) if it is absent; None if n is out of
    /// range, a mark is neither 0 nor 1, or an absent page or an unused entry is not as in fresh
    /// tables.
    fn from_raw(record: &[u8]) -> Option<Option<Page>> {
        let n = usize::from(record[RECORD - 1]);
        if n == 0 {
            return (record == fresh_record()).then_some(None);
        }
        let entries = &record[STATIONS..STATIONS + 3 * ENTRIES];
        let (used, unused) = entries.split_at_checked(3 * n)?;
        let copies: Option<Vec<PageCopy>> = used.chunks(3).map(PageCopy::from_raw).collect();
        let page = Page {
            owner: record[RECORD - 2],
            rights: record[..STATIONS].try_into().expect("sixteen rights"),
            copies: copies?,
        };
        let is_fresh = unused.chunks(3).all(|entry| entry == FRESH_ENTRY);
        is_fresh.then_some(Some(page))
    }

    fn keeps_the_rules(&self) -> bool {
        usize::from(self.owner) < STATIONS
            && self.rights.iter().all(|&right| right <= 2)
            && (1..=ENTRIES).contains(&self.copies.len())
            && self.copies.iter().all(|copy| copy.recent || !copy.current)
            && self.copies.iter().any(|copy| copy.recent)
            && self.copies.iter().all(|copy| {
                copy.frame.is_some() || self.copies.len() == 1 && copy.recent && !copy.current
            })
    }

    fn copy(&self, copy: u8) -> Result<&PageCopy, Refusal> {
        self.copies.get(usize::from(copy)).ok_or(Refusal::NoCopy)
    }

    fn right(&self, station: u8) -> u8 {
        self.rights[usize::from(station)]
    }

    /// The frames of the CURRENT copies, in the order of the copies.
    pub fn current_frames(&self) -> Vec<u8> {
        let current = self.copies.iter().filter(|copy| copy.current);
        current.filter_map(|copy| copy.frame).collect()
    }
}

impl PageCopy {
    const NULL: PageCopy = PageCopy {
        frame: None,
        current: false,
        recent: true,
    };

    /// The copy that a raw entry stands for; None if a mark is neither 0 nor 1.
    fn from_raw(entry: &[u8]) -> Option<PageCopy> {
        Some(PageCopy {
            frame: (entry[0] != NO_FRAME).then_some(entry[0]),
            current: mark(entry[1])?,
            recent: mark(entry[2])?,
        })
    }

    /// Frame (255 for null), CURRENT and MOST RECENT: as in raw tables and in a look at a page.
    fn bytes(&self) -> [u8; 3] {
        [
            self.frame.unwrap_or(NO_FRAME),
            self.current.into(),
            self.recent.into(),
        ]
    }
}

/// Where frame f lies: in the fast store or not, and from which byte on.
fn place(tables: &Tables, frame: u8) -> (bool, usize) {
    match frame.checked_sub(tables.fast) {
        None => (true, FRAME * usize::from(frame)),
        Some(slow) => (false, FRAME * usize::from(slow)),
    }
}

/// The 64 bytes at a frame.
pub fn frame_bytes<'a>(tables: &Tables, fast: &'a [u8], slow: &'a [u8], frame: u8) -> &'a [u8] {
    let (is_fast, from) = place(tables, frame);
    let store = if is_fast { fast } else { slow };
    &store[from..from + FRAME]
}

/// A part of the fast store or of the slow one.
#[derive(Clone, Copy, Debug, PartialEq, Eq)]
pub struct Part {
    pub is_fast: bool,
    pub from: usize,
    pub count: usize,
}

impl Part {
    pub fn bytes<'a>(&self, fast: &'a [u8], slow: &'a [u8]) -> &'a [u8] {
        let store = if self.is_fast { fast } else { slow };
        &store[self.from..][..self.count]
    }
}

// ---- The steps ----

/// The bytes of a read: those of the lowest-numbered CURRENT copy.
fn read_part(
    tables: &Tables,
    station: u8,
    page: u8,
    offset: u8,
    count: u8,
) -> Result<Part, Refusal> {
    station_in_range(station)?;
    page_in_range(page)?;
    part_in_range(offset, count.into())?;
    let page = tables.page(page)?;
    require(page.right(station) >= 1, Refusal::NoRight)?;
    let frames = page.current_frames();
    let lowest = *frames.first().ok_or(Refusal::NothingCurrent)?;
    let (is_fast, from) = place(tables, lowest);
    Ok(Part {
        is_fast,
        from: from + usize::from(offset),
        count: count.into(),
    })
}

/// Tables that keep the rules, and the two stores that fit them.
struct Reel<'a> {
    tables: Tables,
    fast: &'a mut [u8],
    slow: &'a mut [u8],
}

/// What an accepted step gives: the bytes of a read or look, and the bytes laid.
#[derive(Default)]
struct Done {
    bytes: Vec<u8>,
    laid: usize,
}

impl Done {
    fn plain() -> Done {
        Done::default()
    }

    fn told(bytes: Vec<u8>) -> Done {
        Done { bytes, laid: 0 }
    }

    fn laid(laid: usize) -> Done {
        let bytes = Vec::new();
        Done { bytes, laid }
    }
}

pub(crate) fn require(met: bool, otherwise: Refusal) -> Result<(), Refusal> {
    met.then_some(()).ok_or(otherwise)
}

pub(crate) fn station_in_range(station: u8) -> Result<(), Refusal> {
    require(usize::from(station) < STATIONS, Refusal::OutOfRange)
}

pub(crate) fn page_in_range(page: u8) -> Result<(), Refusal> {
    require(usize::from(page) < PAGES, Refusal::OutOfRange)
}

pub(crate) fn right_in_range(right: u8) -> Result<(), Refusal> {
    require(right <= 2, Refusal::OutOfRange)
}

/// The part of a page from the offset on.
pub(crate) fn part_in_range(offset: u8, count: usize) -> Result<(), Refusal> {
    let offset = usize::from(offset);
    let met = offset < FRAME && count > 0 && offset + count <= FRAME;
    require(met, Refusal::OutOfRange)
}

impl Reel<'_> {
    fn frame_in_range(&self, frame: u8) -> Result<(), Refusal> {
        let met = usize::from(frame) < self.tables.frames();
        require(met, Refusal::OutOfRange)
    }

    fn frame(&self, frame: u8) -> &[u8] {
        frame_bytes(&self.tables, self.fast, self.slow, frame)
    }

    /// Lays bytes at a frame from an offset on.
    fn lay(&mut self, frame: u8, offset: usize, bytes: &[u8]) {
        let (is_fast, from) = place(&self.tables, frame);
        let store = if is_fast {
            &mut *self.fast
        } else {
            &mut *self.slow
        };
        store[from + offset..][..bytes.len()].copy_from_slice(bytes);
    }

    /// Fills the frames of copies that are gone with zeros; a null copy has no frame.
    fn clear(&mut self, gone: Vec<PageCopy>) -> Done {
        let frames: Vec<u8> = gone.into_iter().filter_map(|copy| copy.frame).collect();
        for &frame in &frames {
            self.lay(frame, 0, &[0; FRAME]);
        }
        Done::laid(FRAME * frames.len())
    }

    fn step(&mut self, call: &Call) -> Result<Done, Refusal> {
        match *call {
            Call::Create { station, page } => self.create(station, page),
            Call::DeletePage { station, page } => self.delete_page(station, page),
            Call::Grant {
                station,
                page,
                other,
                right,
            } => self.grant(station, page, other, right),
            Call::Read {
                station,
                page,
                offset,
                count,
            } => self.read(station, page, offset, count),
            Call::Write {
                station,
                page,
                offset,
                ref bytes,
            } => self.write(station, page, offset, bytes),
            Call::MakeCopy { page, copy, frame } => self.make_copy(page, copy, frame),
            Call::DeleteCopy { page, copy } => self.delete_copy(page, copy),
            Call::SetCurrent { page, copy } => self.set_current(page, copy),
            Call::RemoveCurrent { page, copy } => self.remove_current(page, copy),
            Call::LookPage { page } => self.look_page(page),
            Call::LookFrame { frame } => self.look_frame(frame),
            Call::Retire { frame } => self.retire(frame),
        }
    }

    /// The station is owner with right 2; by request [6] every other station has right 1.
    fn create(&mut self, station: u8, page: u8) -> Result<Done, Refusal> {
        station_in_range(station)?;
        page_in_range(page)?;
        let place = &mut self.tables.pages[usize::from(page)];
        require(place.is_none(), Refusal::PageStands)?;
        let mut rights = [1; STATIONS];
        rights[usize::from(station)] = 2;
        *place = Some(Page {
            owner: station,
            rights,
            copies: vec![PageCopy::NULL],
        });
        Ok(Done::plain())
    }

    fn delete_page(&mut self, station: u8, page: u8) -> Result<Done, Refusal> {
        station_in_range(station)?;
        page_in_range(page)?;
        require(self.tables.page(page)?.owner == station, Refusal::NoRight)?;
        let gone = self.tables.pages[usize::from(page)].take();
        Ok(self.clear(gone.map_or(Vec::new(), |page| page.copies)))
    }

    fn grant(&mut self, station: u8, page: u8, other: u8, right: u8) -> Result<Done, Refusal> {
        station_in_range(station)?;
        page_in_range(page)?;
        station_in_range(other)?;
        right_in_range(right)?;
        let page = self.tables.page_mut(page)?;
        require(page.owner == station, Refusal::NoRight)?;
        page.rights[usize::from(other)] = right;
        Ok(Done::plain())
    }

    fn read(&self, station: u8, page: u8, offset: u8, count: u8) -> Result<Done, Refusal> {
        let part = read_part(&self.tables, station, page, offset, count)?;
        Ok(Done::told(part.bytes(self.fast, self.slow).to_vec()))
    }

    fn write(&mut self, station: u8, page: u8, offset: u8, bytes: &[u8]) -> Result<Done, Refusal> {
        station_in_range(station)?;
        page_in_range(page)?;
        part_in_range(offset, bytes.len())?;
        let page = self.tables.page_mut(page)?;
        require(page.right(station) == 2, Refusal::NoRight)?;
        let frames = page.current_frames();
        require(!frames.is_empty(), Refusal::NothingCurrent)?;
        for copy in &mut page.copies {
            copy.recent = copy.current;
        }
        for &frame in &frames {
            self.lay(frame, offset.into(), bytes);
        }
        Ok(Done::laid(bytes.len() * frames.len()))
    }

    fn make_copy(&mut self, page: u8, copy: u8, frame: u8) -> Result<Done, Refusal> {
        page_in_range(page)?;
        self.frame_in_range(frame)?;
        let source = *self.tables.page(page)?.copy(copy)?;
        require(!self.tables.is_retired(frame), Refusal::Retired)?;
        require(!self.tables.is_held(frame), Refusal::FrameHeld)?;
        let copies = &mut self.tables.page_mut(page)?.copies;
        require(copies.len() < ENTRIES, Refusal::EightCopies)?;
        if source.frame.is_none() {
            copies.clear();
        }
        copies.push(PageCopy {
            frame: Some(frame),
            current: false,
            recent: source.recent,
        });
        let bytes = match source.frame {
            Some(from) => self.frame(from).to_vec(),
            None => vec![0; FRAME],
        };
        self.lay(frame, 0, &bytes);
        Ok(Done::laid(FRAME))
    }

    fn delete_copy(&mut self, page: u8, copy: u8) -> Result<Done, Refusal> {
        page_in_range(page)?;
        let page = self.tables.page_mut(page)?;
        let recent = page.copies.iter().filter(|copy| copy.recent).count();
        let only_recent = page.copy(copy)?.recent && recent == 1;
        require(!only_recent, Refusal::LastRecent)?;
        let gone = page.copies.remove(copy.into());
        Ok(self.clear(vec![gone]))
    }

    fn set_current(&mut self, page: u8, copy: u8) -> Result<Done, Refusal> {
        page_in_range(page)?;
        let page = self.tables.page_mut(page)?;
        require(page.copy(copy)?.frame.is_some(), Refusal::NoFrame)?;
        require(page.copy(copy)?.recent, Refusal::Stale)?;
        page.copies[usize::from(copy)].current = true;
        Ok(Done::plain())
    }

    fn remove_current(&mut self, page: u8, copy: u8) -> Result<Done, Refusal> {
        page_in_range(page)?;
        let page = self.tables.page_mut(page)?;
        page.copy(copy)?;
        page.copies[usize::from(copy)].current = false;
        Ok(Done::plain())
    }

    fn look_page(&self, page: u8) -> Result<Done, Refusal> {
        page_in_range(page)?;
        let copies = &self.tables.page(page)?.copies;
        let mut bytes = vec![copies.len() as u8];
        bytes.extend(copies.iter().flat_map(PageCopy::bytes));
        Ok(Done::told(bytes))
    }

    fn look_frame(&self, frame: u8) -> Result<Done, Refusal> {
        self.frame_in_range(frame)?;
        Ok(Done::told(match self.tables.holder(frame) {
            Some((page, copy)) => vec![1, page as u8, copy as u8],
            None if self.tables.is_retired(frame) => vec![2, 255, 255],
            None => vec![0, 255, 255],
        }))
    }

    fn retire(&mut self, frame: u8) -> Result<Done, Refusal> {
        self.frame_in_range(frame)?;
        require(!self.tables.is_held(frame), Refusal::FrameHeld)?;
        self.tables.retired[usize::from(frame)] = true;
        Ok(Done::plain())
    }
}

// ---- Call files and replies ----

/// A message with its arguments in the order of the paper.
#[derive(Clone, Debug, PartialEq, Eq)]
#[rustfmt::skip]
pub enum Call {
    Create { station: u8, page: u8 },
    DeletePage { station: u8, page: u8 },
    Grant { station: u8, page: u8, other: u8, right: u8 },
    Read { station: u8, page: u8, offset: u8, count: u8 },
    Write { station: u8, page: u8, offset: u8, bytes: Vec<u8> },
    MakeCopy { page: u8, copy: u8, frame: u8 },
    DeleteCopy { page: u8, copy: u8 },
    SetCurrent { page: u8, copy: u8 },
    RemoveCurrent { page: u8, copy: u8 },
    LookPage { page: u8 },
    LookFrame { frame: u8 },
    Retire { frame: u8 },
}

pub const VERSION: u8 = 1;
/// The kinds of message, numbered 1 to 12.
pub const KINDS: usize = 12;

/// A message of this version, kind and arguments.
pub fn message(version: u8, kind: u8, arguments: &[u8]) -> Vec<u8> {
    let length = u16::try_from(2 + arguments.len()).expect("a length of two bytes");
    let mut message = length.to_be_bytes().to_vec();
    message.extend([version, kind]);
    message.extend(arguments);
    message
}

/// What follows the version byte of the message or reply at the front of some bytes, or which of 1
/// and 2 it falls under.
pub(crate) fn body(bytes: &[u8]) -> Result<&[u8], Refusal> {
    let (&length, rest) = bytes.split_first_chunk().ok_or(Refusal::CutShort)?;
    let length = usize::from(u16::from_be_bytes(length));
    let whole = rest.get(..length).ok_or(Refusal::CutShort)?;
    let (&version, body) = whole.split_first().ok_or(Refusal::ForeignVersion)?;
    require(version == VERSION, Refusal::ForeignVersion)?;
    Ok(body)
}

impl Call {
    /// The page that it names.
    pub fn page(&self) -> Option<u8> {
        match *self {
            Call::Create { page, .. }
            | Call::DeletePage { page, .. }
            | Call::Grant { page, .. }
            | Call::Read { page, .. }
            | Call::Write { page, .. }
            | Call::MakeCopy { page, .. }
            | Call::DeleteCopy { page, .. }
            | Call::SetCurrent { page, .. }
            | Call::RemoveCurrent { page, .. }
            | Call::LookPage { page } => Some(page),
            Call::LookFrame { .. } | Call::Retire { .. } => None,
        }
    }

    /// The message at the front of some bytes, or which of 1 to 4 it falls under.
    pub fn decode(bytes: &[u8]) -> Result<Call, Refusal> {
        let (&kind, arguments) = body(bytes)?.split_first().ok_or(Refusal::UnknownKind)?;
        require((1..=KINDS).contains(&kind.into()), Refusal::UnknownKind)?;
        Call::from_arguments(kind, arguments).ok_or(Refusal::WrongLength)
    }

    #[rustfmt::skip]
    fn from_arguments(kind: u8, arguments: &[u8]) -> Option<Call> {
        Some(match (kind, arguments) {
            (1, &[station, page]) => Call::Create { station, page },
            (2, &[station, page]) => Call::DeletePage { station, page },
            (3, &[station, page, other, right]) => Call::Grant { station, page, other, right },
            (4, &[station, page, offset, count]) => Call::Read { station, page, offset, count },
            (5, &[station, page, offset, ref bytes @ ..]) if (1..=FRAME).contains(&bytes.len()) => {
                let bytes = bytes.to_vec();
                Call::Write { station, page, offset, bytes }
            }
            (6, &[page, copy, frame]) => Call::MakeCopy { page, copy, frame },
            (7, &[page, copy]) => Call::DeleteCopy { page, copy },
            (8, &[page, copy]) => Call::SetCurrent { page, copy },
            (9, &[page, copy]) => Call::RemoveCurrent { page, copy },
            (10, &[page]) => Call::LookPage { page },
            (11, &[frame]) => Call::LookFrame { frame },
            (12, &[frame]) => Call::Retire { frame },
            _ => return None,
        })
    }

    /// The message's bytes.
    #[rustfmt::skip]
    pub fn encode(&self) -> Vec<u8> {
        let (kind, arguments) = match *self {
            Call::Create { station, page } => (1, vec![station, page]),
            Call::DeletePage { station, page } => (2, vec![station, page]),
            Call::Grant { station, page, other, right } => (3, vec![station, page, other, right]),
            Call::Read { station, page, offset, count } => (4, vec![station, page, offset, count]),
            Call::Write { station, page, offset, ref bytes } => {
                (5, [&[station, page, offset], bytes.as_slice()].concat())
            }
            Call::MakeCopy { page, copy, frame } => (6, vec![page, copy, frame]),
            Call::DeleteCopy { page, copy } => (7, vec![page, copy]),
            Call::SetCurrent { page, copy } => (8, vec![page, copy]),
            Call::RemoveCurrent { page, copy } => (9, vec![page, copy]),
            Call::LookPage { page } => (10, vec![page]),
            Call::LookFrame { frame } => (11, vec![frame]),
            Call::Retire { frame } => (12, vec![frame]),
        };
        message(VERSION, kind, &arguments)
    }
}

/// The reader: one message a turn, passed over by its L. One cut short is the rest of the file
/// and so ends it.
pub struct Reader<'a> {
    file: &'a [u8],
    at: usize,
}

impl<'a> Reader<'a> {
    pub fn new(file: &'a [u8]) -> Reader<'a> {
        Reader { file, at: 0 }
    }

    /// A reader that has come to a place already.
    pub fn at(file: &'a [u8], at: usize) -> Reader<'a> {
        Reader { file, at }
    }
}

impl<'a> Iterator for Reader<'a> {
    type Item = &'a [u8];

    fn next(&mut self) -> Option<&'a [u8]> {
        let rest = self.file.get(self.at..).unwrap_or_default();
        let whole = match *rest {
            [] => return None,
            [high, low, ..] => 2 + usize::from(u16::from_be_bytes([high, low])),
            [_] => 2,
        };
        let message = rest.get(..whole).unwrap_or(rest);
        self.at += message.len();
        Some(message)
    }
}

/// A reply's number, the bytes laid and the bytes of a read or look, laid out.
fn reply(number: u8, done: &Done) -> Vec<u8> {
    let [high, low] = (done.laid as u16).to_be_bytes();
    let arguments = [&[high, low], done.bytes.as_slice()].concat();
    message(VERSION, number, &arguments)
}

// ---- Why a message is turned back ----

#[derive(Clone, Copy, Debug, PartialEq, Eq)]
pub enum Refusal {
    CutShort = 1,
    ForeignVersion,
    UnknownKind,
    WrongLength,
    BrokenTables,
    MisfitStore,
    OutOfRange,
    PageStands,
    NoPage,
    NoRight,
    NothingCurrent,
    NoCopy,
    FrameHeld,
    EightCopies,
    LastRecent,
    Stale,
    NoFrame,
    ShortSlip,
    TooManyFrames,
    Retired,
}

impl Refusal {
    /// The last number of the table, whose first is 1.
    pub const LAST: u8 = Refusal::Retired as u8;

    pub fn number(self) -> u8 {
        self as u8
    }
}

/// A reply buffer below this length is too short for any reply: 18.
pub const LEAST_BUFFER: usize = 70;

/// All that a caller lends for a message or a run.
#[derive(Clone, Debug, PartialEq, Eq)]
pub struct Lent {
    /// Raw tables.
    pub tables: Vec<u8>,
    pub fast: Vec<u8>,
    pub slow: Vec<u8>,
    /// The reply buffer.
    pub out: Vec<u8>,
}

#[derive(Clone, Copy, Debug, PartialEq, Eq)]
pub struct Answer {
    /// 0 accepted, else the number of the refusal.
    pub number: u8,
    /// The length of the reply.
    pub length: usize,
    /// The bytes laid.
    pub laid: usize,
}

/// Fresh tables of P and S: 0, or 19 and those of P = S = 0.
pub fn fresh(fast: u8, slow: u8) -> (u8, Tables) {
    if fast > MOST_FRAMES || slow > MOST_FRAMES {
        return (Refusal::TooManyFrames.number(), Tables::fresh(0, 0));
    }
    (0, Tables::fresh(fast, slow))
}

/// Answers one message; bytes past it are ignored.
pub fn answer(lent: &mut Lent, message: &[u8]) -> Answer {
    answer_at(lent, 0, message)
}

/// The same with so many bytes of the reply buffer used already.
fn answer_at(lent: &mut Lent, used: usize, message: &[u8]) -> Answer {
    if lent.out.len() - used < LEAST_BUFFER {
        return Answer {
            number: Refusal::ShortSlip.number(),
            length: 0,
            laid: 0,
        };
    }
    let (number, done) = match serve(lent, message) {
        Ok(done) => (0, done),
        Err(refusal) => (refusal.number(), Done::plain()),
    };
    let reply = reply(number, &done);
    lent.out[used..][..reply.len()].copy_from_slice(&reply);
    Answer {
        number,
        length: reply.len(),
        laid: done.laid,
    }
}

/// The tests 1 to 6 in the order of the paper, then the step with its own.
fn serve(lent: &mut Lent, message: &[u8]) -> Result<Done, Refusal> {
    let call = Call::decode(message)?;
    let mut reel = Reel {
        tables: sound(lent)?,
        fast: &mut lent.fast,
        slow: &mut lent.slow,
    };
    let done = reel.step(&call)?;
    lent.tables = reel.tables.to_raw();
    Ok(done)
}

/// The lent tables, if they keep the rules and the stores fit them.
fn sound(lent: &Lent) -> Result<Tables, Refusal> {
    let tables = Tables::from_raw(&lent.tables).ok_or(Refusal::BrokenTables)?;
    let fits = |store: &[u8], frames: u8| store.len() == FRAME * usize::from(frames);
    let both_fit = fits(&lent.fast, tables.fast) && fits(&lent.slow, tables.slow);
    require(both_fit, Refusal::MisfitStore)?;
    Ok(tables)
}

/// 5 or 6, or 0 for tables that keep the rules with stores that fit them.
pub fn rules(lent: &Lent) -> u8 {
    sound(lent).map_or_else(Refusal::number, |_| 0)
}

/// A read had as a part of one store: None where it would be refused. The reply buffer plays no
/// part.
pub fn read(lent: &Lent, station: u8, page: u8, offset: u8, count: u8) -> Option<Part> {
    read_part(&sound(lent).ok()?, station, page, offset, count).ok()
}

/// Messages, refusals, bytes laid; each stops at 4294967295.
pub type Tally = [u32; 3];

fn count(tally: &mut Tally, answer: Answer) {
    let more = [1, u32::from(answer.number != 0), answer.laid as u32];
    for (counter, more) in tally.iter_mut().zip(more) {
        *counter = counter.saturating_add(more);
    }
}

/// Runs a whole call file, each reply written over the one before.
pub fn run(lent: &mut Lent, file: &[u8], tally: &mut Tally) {
    for message in Reader::new(file) {
        let answer = answer(lent, message);
        count(tally, answer);
    }
}

/// A turn of a run that keeps its replies: where in the file it ended, and how many bytes of the
/// reply buffer are used.
#[derive(Clone, Copy, Debug, PartialEq, Eq)]
pub struct Reached {
    pub at: usize,
    pub used: usize,
}

/// Answers the messages from a place of the file on, reply after reply, until the file ends or
/// fewer than 70 bytes of the reply buffer are left; in a buffer below 70, until the file ends.
pub fn replies(lent: &mut Lent, file: &[u8], at: usize, tally: &mut Tally) -> Reached {
    let mut reached = Reached { at, used: 0 };
    for message in Reader::at(file, at) {
        let room = lent.out.len() - reached.used;
        if lent.out.len() >= LEAST_BUFFER && room < LEAST_BUFFER {
            break;
        }
        let answer = answer_at(lent, reached.used, message);
        count(tally, answer);
        reached.at += message.len();
        reached.used += answer.length;
    }
    reached
}

// ---- The program of the paper's cases ----

/// The program takes this much of its input; the rest is treated as absent.
pub const PROGRAM_INPUT: usize = 60000;
/// The program's P, and its S.
pub const PROGRAM_FRAMES: u8 = 4;

/// The program's output: the replies one after another.
pub fn program(input: &[u8]) -> Vec<u8> {
    let store = vec![0; FRAME * usize::from(PROGRAM_FRAMES)];
    let mut lent = Lent {
        tables: Tables::fresh(PROGRAM_FRAMES, PROGRAM_FRAMES).to_raw(),
        fast: store.clone(),
        slow: store,
        out: vec![0; LEAST_BUFFER],
    };
    let mut output = Vec::new();
    for message in Reader::new(&input[..input.len().min(PROGRAM_INPUT)]) {
        let answer = answer(&mut lent, message);
        output.extend(&lent.out[..answer.length]);
    }
    output
}
