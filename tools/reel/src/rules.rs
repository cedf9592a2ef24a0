//! Which table rule broken tables break, in words. Whether they are broken is for the kernel to say:
//! this is only asked where it says so. The bytes are read as `kernel::layout` has them.

use kernel::layout::*;
use kernel::{MOST_FRAMES, TABLES};

const MOST_RIGHT: u8 = 2;

/// The first table rule that these bytes break; None where none is known that they break.
pub fn broken(tables: &[u8]) -> Option<String> {
    if tables.len() != TABLES {
        return Some(format!("{} bytes, and tables have {TABLES}", tables.len()));
    }
    let tables = Tables(tables);
    size(&tables)
        .or_else(|| (0..MOST_PAGES).find_map(|page| record(&tables, page)))
        .or_else(|| twice(&tables))
        .or_else(|| register(&tables))
}

struct Tables<'a>(&'a [u8]);

/// A page's record.
struct Record<'a>(&'a [u8]);

/// A copy entry.
#[derive(Clone, Copy)]
struct Entry<'a>(&'a [u8]);

impl<'a> Tables<'a> {
    fn frames(&self) -> usize {
        usize::from(self.0[P]) + usize::from(self.0[S])
    }

    fn record(&self, page: usize) -> Record<'a> {
        Record(&self.0[PAGES + PAGE_SIZE * page..][..PAGE_SIZE])
    }

    fn registered(&self, frame: usize) -> u16 {
        let at = REGISTER + ENTRY_SIZE * frame;
        u16::from_le_bytes([self.0[at], self.0[at + 1]])
    }

    /// Every copy that has a frame: page, number and frame.
    fn copies(&self) -> impl Iterator<Item = (usize, usize, usize)> + '_ {
        (0..MOST_PAGES).flat_map(move |page| {
            let record = self.record(page);
            let framed =
                (0..record.n().min(MOST_COPIES)).map(move |copy| (copy, record.entry(copy)));
            let framed = framed.filter(|(_, entry)| !entry.is_null());
            framed.map(move |(copy, entry)| (page, copy, usize::from(entry.frame())))
        })
    }
}

impl<'a> Record<'a> {
    fn n(&self) -> usize {
        self.0[PAGE_N].into()
    }

    fn entry(&self, copy: usize) -> Entry<'a> {
        Entry(&self.0[PAGE_COPIES + COPY_SIZE * copy..][..COPY_SIZE])
    }

    fn rights(&self) -> &'a [u8] {
        &self.0[PAGE_RIGHTS..][..STATIONS]
    }
}

impl Entry<'_> {
    fn frame(&self) -> u8 {
        self.0[COPY_FRAME]
    }

    fn is_null(&self) -> bool {
        self.frame() == NULL_FRAME
    }

    fn current(&self) -> u8 {
        self.0[COPY_CURRENT]
    }

    fn recent(&self) -> u8 {
        self.0[COPY_RECENT]
    }

    fn is_fresh(&self) -> bool {
        self.is_null() && self.current() == 0 && self.recent() == 0
    }
}

fn size(tables: &Tables) -> Option<String> {
    let (fast, slow) = (tables.0[P], tables.0[S]);
    let is_wrong = fast > MOST_FRAMES || slow > MOST_FRAMES;
    is_wrong.then(|| format!("{fast} fast and {slow} slow frames: at most {MOST_FRAMES} of each"))
}

/// The rules of one page.
fn record(tables: &Tables, page: usize) -> Option<String> {
    let record = tables.record(page);
    let (n, owner) = (record.n(), record.0[PAGE_OWNER]);
    let wrong = |words: String| Some(format!("page {page}: {words}"));
    if n == 0 {
        let entries = (0..MOST_COPIES).all(|copy| record.entry(copy).is_fresh());
        let is_fresh = entries && owner == 0 && record.rights().iter().all(|&right| right == 0);
        let words = "it does not stand, and its record is not as in fresh tables";
        return if is_fresh { None } else { wrong(words.into()) };
    }
    if n > MOST_COPIES {
        return wrong(format!("{n} copies: at most {MOST_COPIES}"));
    }
    if usize::from(owner) >= STATIONS {
        return wrong(format!(
            "its owner is station {owner}: stations are 0 to 15"
        ));
    }
    if let Some(station) = record.rights().iter().position(|&right| right > MOST_RIGHT) {
        let right = record.rights()[station];
        return wrong(format!(
            "station {station} has right {right}: rights are 0 to 2"
        ));
    }
    let copy = (0..n)
        .find_map(|copy| entry(record.entry(copy), n, tables.frames()).map(|words| (copy, words)));
    if let Some((copy, words)) = copy {
        return wrong(format!("copy {copy} {words}"));
    }
    if (0..n).all(|copy| record.entry(copy).recent() == 0) {
        return wrong("no copy is MOST RECENT: at least one is".into());
    }
    let unused = (n..MOST_COPIES).find(|&copy| !record.entry(copy).is_fresh())?;
    wrong(format!(
        "entry {unused} is not in use, and is not as in fresh tables"
    ))
}

/// The rules of a copy entry in use, of n.
fn entry(entry: Entry, n: usize, frames: usize) -> Option<String> {
    let (frame, current, recent) = (entry.frame(), entry.current(), entry.recent());
    if current > 1 || recent > 1 {
        return Some(format!(
            "has the marks {current} and {recent}: marks are 0 or 1"
        ));
    }
    if entry.is_null() && (n > 1 || current == 1 || recent == 0) {
        return Some(
            "has no frame: only the one copy of a page, MOST RECENT and not CURRENT".into(),
        );
    }
    if !entry.is_null() && usize::from(frame) >= frames {
        return Some(format!("is on frame {frame}: there are {frames} frames"));
    }
    (current == 1 && recent == 0).then(|| "is CURRENT and not MOST RECENT".into())
}

/// No frame is under two copies.
fn twice(tables: &Tables) -> Option<String> {
    let mut holders = vec![None; 256];
    tables.copies().find_map(|(page, copy, frame)| {
        let before = holders[frame].replace((page, copy));
        let (other_page, other_copy) = before?;
        Some(format!(
            "frame {frame}: copy {other_copy} of page {other_page} and copy {copy} of page {page} are on it"
        ))
    })
}

/// The register says of each frame which copy is on it, or that it is free or retired.
fn register(tables: &Tables) -> Option<String> {
    let mut due = [FREE_ENTRY; 256];
    for (page, copy, frame) in tables.copies() {
        due[frame] = (MOST_COPIES * page + copy) as u16;
    }
    let is_right = |frame: usize| {
        let is_bare = due[frame] == FREE_ENTRY && frame < tables.frames();
        let entry = tables.registered(frame);
        entry == due[frame] || is_bare && entry == RETIRED_ENTRY
    };
    let frame = (0..REGISTER_ENTRIES).find(|&frame| !is_right(frame))?;
    let said = entry_words(tables.registered(frame));
    let is = match frame < tables.frames() {
        true => entry_words(due[frame]),
        false => format!("it is past the last of {} frames", tables.frames()),
    };
    Some(format!("frame {frame}: the register says {said}, and {is}"))
}

/// What a register entry says.
fn entry_words(entry: u16) -> String {
    let (page, copy) = (
        usize::from(entry) / MOST_COPIES,
        usize::from(entry) % MOST_COPIES,
    );
    match entry {
        FREE_ENTRY => "no copy is on it".into(),
        RETIRED_ENTRY => "it is retired".into(),
        _ if page < MOST_PAGES => format!("copy {copy} of page {page} is on it"),
        _ => format!("{entry}, which is no entry"),
    }
}
