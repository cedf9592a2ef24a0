//! Generators of messages, call files, tables and stores, all from one seed.

use crate::forecast::FIGURES;
use crate::model::{
    frame_bytes, message, Call, Lent, Page, PageCopy, Tables, ENTRIES, FRAME, FREE_ENTRY, KINDS,
    LEAST_BUFFER, MOST_FRAMES, NO_FRAME, PAGES, RAW, RECORD, REGISTER, REGISTERED, RETIRED,
    STATIONS, VERSION,
};
use crate::stations::{arguments, Sent};
use std::collections::VecDeque;

/// A small generator of random numbers (splitmix64).
pub struct Rng(u64);

impl Rng {
    pub fn new(seed: u64) -> Rng {
        Rng(seed)
    }

    fn draw(&mut self) -> u64 {
        self.0 = self.0.wrapping_add(0x9E37_79B9_7F4A_7C15);
        let mut z = self.0;
        z = (z ^ (z >> 30)).wrapping_mul(0xBF58_476D_1CE4_E5B9);
        z = (z ^ (z >> 27)).wrapping_mul(0x94D0_49BB_1331_11EB);
        z ^ (z >> 31)
    }

    /// A number below `bound`.
    pub fn below(&mut self, bound: usize) -> usize {
        (self.draw() % bound as u64) as usize
    }

    /// A number from `low` to `high`.
    pub fn within(&mut self, low: u8, high: u8) -> u8 {
        low + self.below(usize::from(high - low) + 1) as u8
    }

    pub fn byte(&mut self) -> u8 {
        self.draw() as u8
    }

    /// True once in `times`.
    pub fn once_in(&mut self, times: usize) -> bool {
        self.below(times) == 0
    }

    pub fn pick<T: Clone>(&mut self, from: &[T]) -> T {
        from[self.below(from.len())].clone()
    }

    pub fn fill(&mut self, bytes: &mut [u8]) {
        for part in bytes.chunks_mut(8) {
            part.copy_from_slice(&self.draw().to_le_bytes()[..part.len()]);
        }
    }

    pub fn bytes(&mut self, length: usize) -> Vec<u8> {
        let mut bytes = vec![0; length];
        self.fill(&mut bytes);
        bytes
    }

    /// The numbers below `count` in any order.
    pub fn shuffled(&mut self, count: u8) -> Vec<u8> {
        let mut numbers: Vec<u8> = (0..count).collect();
        for last in (1..numbers.len()).rev() {
            numbers.swap(last, self.below(last + 1));
        }
        numbers
    }
}

// ---- What a caller lends ----

/// Reply buffers that serve, and those that are too short.
pub const BUFFERS: [usize; 3] = [LEAST_BUFFER, 71, 200];
pub const SHORT_BUFFERS: [usize; 4] = [0, 1, 6, 69];

/// P or S: mostly of the four named sizes.
fn size(rng: &mut Rng) -> u8 {
    match rng.below(8) {
        0 => rng.within(0, MOST_FRAMES),
        _ => rng.pick(&[0, 1, 4, MOST_FRAMES]),
    }
}

/// Tables with stores that fit them; stores and reply buffer hold random bytes.
fn lend(rng: &mut Rng, tables: &Tables) -> Lent {
    let room = rng.pick(&BUFFERS);
    Lent {
        tables: tables.to_raw(),
        fast: rng.bytes(FRAME * usize::from(tables.fast)),
        slow: rng.bytes(FRAME * usize::from(tables.slow)),
        out: rng.bytes(room),
    }
}

/// The lent tables, or fresh ones instead of broken ones.
pub(crate) fn tables_of(lent: &Lent) -> Tables {
    Tables::from_raw(&lent.tables).unwrap_or_else(|| Tables::fresh(4, 4))
}

/// A tally to count on in, now and then of a wrong length.
pub fn tally(rng: &mut Rng) -> Vec<u32> {
    match rng.below(8) {
        0 => vec![7; rng.pick(&[0, 1, 2, 4])],
        1 => (0..3).map(|_| u32::MAX - rng.below(9) as u32).collect(),
        2 => (0..3).map(|_| rng.below(1 << 32) as u32).collect(),
        _ => vec![0; 3],
    }
}

/// Room for figures that holds any numbers, now and then for too few or too many.
pub fn figures(rng: &mut Rng) -> Vec<u32> {
    let length = match rng.below(8) {
        0 => rng.pick(&[0, 1, 2, FIGURES - 1, FIGURES + 1, 2 * FIGURES]),
        _ => FIGURES,
    };
    let bytes = rng.bytes(4 * length);
    let numbers = bytes.chunks_exact(4);
    numbers
        .map(|bytes| u32::from_le_bytes(bytes.try_into().expect("four bytes")))
        .collect()
}

pub fn fresh(rng: &mut Rng) -> Lent {
    let tables = Tables::fresh(size(rng), size(rng));
    lend(rng, &tables)
}

/// Any tables that keep the rules, reached by a run or not: copies that should be equal have
/// different bytes.
pub fn lawful(rng: &mut Rng) -> Lent {
    let mut tables = Tables::fresh(size(rng), size(rng));
    let mut free = rng.shuffled(tables.frames() as u8);
    let share = rng.within(1, 4);
    for page in &mut tables.pages {
        if rng.within(1, 4) <= share {
            let n = rng.below(ENTRIES + 1).min(free.len());
            let frames = free.split_off(free.len() - n);
            *page = Some(lawful_page(rng, &frames));
        }
    }
    let worn = rng.below(5);
    for frame in free {
        tables.retired[usize::from(frame)] = rng.below(4) < worn;
    }
    lend(rng, &tables)
}

/// A page with copies on these frames, or with a null copy if there are none.
fn lawful_page(rng: &mut Rng, frames: &[u8]) -> Page {
    let mut copies: Vec<PageCopy> = Vec::new();
    for &frame in frames {
        let recent = rng.once_in(2);
        copies.push(PageCopy {
            frame: Some(frame),
            current: recent && rng.once_in(2),
            recent,
        });
    }
    if copies.is_empty() {
        copies.push(PageCopy {
            frame: None,
            current: false,
            recent: true,
        });
    }
    let sure = rng.below(copies.len());
    copies[sure].recent = true;
    Page {
        owner: rng.within(0, 15),
        rights: std::array::from_fn(|_| rng.within(0, 2)),
        copies,
    }
}

/// Lawful tables with every shape of page, for the sweeps: page 0 with two CURRENT copies and a
/// stale one, page 1 with a null copy, page 2 with eight copies, page 5 with one CURRENT copy,
/// page 63 with a MOST RECENT one that is not CURRENT, the rest absent; frames 12 and 13 free, frame
/// 14 retired.
pub fn shaped(rng: &mut Rng) -> Lent {
    let copy = |frame, current, recent| PageCopy {
        frame,
        current,
        recent,
    };
    let page = |owner, copies| {
        let rights = std::array::from_fn(|station| (station % 3) as u8);
        Some(Page {
            owner,
            rights,
            copies,
        })
    };
    let eight = EIGHT.into_iter();
    let mut tables = Tables::fresh(7, 9);
    tables.pages[0] = page(
        5,
        vec![
            copy(Some(3), false, false),
            copy(Some(8), true, true),
            copy(Some(0), true, true),
        ],
    );
    tables.pages[1] = page(2, vec![copy(None, false, true)]);
    tables.pages[2] = page(
        15,
        eight.map(|f| copy(Some(f), f == 4, f % 2 == 0)).collect(),
    );
    tables.pages[5] = page(0, vec![copy(Some(11), true, true)]);
    tables.pages[63] = page(3, vec![copy(Some(15), false, true)]);
    tables.retired[usize::from(WORN)] = true;
    lend(rng, &tables)
}

// ---- Damage ----

fn record(page: usize) -> usize {
    2 + RECORD * page
}

fn entry(page: usize, copy: usize) -> usize {
    record(page) + STATIONS + 3 * copy
}

fn owner(page: usize) -> usize {
    record(page) + RECORD - 2
}

fn n(page: usize) -> usize {
    record(page) + RECORD - 1
}

/// The register's entry of a frame.
pub fn holder(tables: &[u8], frame: u8) -> u16 {
    let place = REGISTER + 2 * usize::from(frame);
    u16::from_le_bytes([tables[place], tables[place + 1]])
}

pub fn set_holder(tables: &mut [u8], frame: u8, holder: u16) {
    let place = REGISTER + 2 * usize::from(frame);
    tables[place..][..2].copy_from_slice(&holder.to_le_bytes());
}

fn exchange_holders(tables: &mut [u8], one: u8, other: u8) {
    let holders = [holder(tables, one), holder(tables, other)];
    set_holder(tables, one, holders[1]);
    set_holder(tables, other, holders[0]);
}

/// Makes the register right for the page records as they are, sound or not: for each frame the
/// first copy on it, or that it is retired, if it was.
pub fn register_anew(tables: &mut [u8]) {
    for frame in 0..REGISTERED as u8 {
        if holder(tables, frame) != RETIRED {
            set_holder(tables, frame, FREE_ENTRY);
        }
    }
    for page in (0..PAGES).rev() {
        for copy in (0..ENTRIES.min(tables[n(page)].into())).rev() {
            let frame = tables[entry(page, copy)];
            if usize::from(frame) < REGISTERED {
                set_holder(tables, frame, (ENTRIES * page + copy) as u16);
            }
        }
    }
}

/// How many copies the page records have on each frame.
pub(crate) fn copies_on(tables: &[u8]) -> [usize; 256] {
    let mut on = [0; 256];
    for page in 0..PAGES {
        for copy in 0..ENTRIES.min(tables[n(page)].into()) {
            on[usize::from(tables[entry(page, copy)])] += 1;
        }
    }
    on[usize::from(NO_FRAME)] = 0;
    on
}

/// Whether a frame is retired.
pub(crate) fn is_retired(tables: &[u8], frame: usize) -> bool {
    holder(tables, frame as u8) == RETIRED
}

/// A number above `limit` up to `most`, often the next one.
fn above(rng: &mut Rng, limit: u8, most: u8) -> u8 {
    match rng.below(2) {
        0 => limit + 1,
        _ => rng.within(limit + 1, most),
    }
}

/// A way to break one table rule of `shaped` tables.
pub type Damage = (&'static str, fn(&mut Rng, &mut Lent));

/// Frames of `shaped` tables: those of page 2's copies, those of all copies, the free ones, and the
/// retired one.
const EIGHT: [u8; 8] = [1, 2, 4, 5, 6, 7, 9, 10];
const HELD: [u8; 13] = [0, 1, 2, 3, 4, 5, 6, 7, 8, 9, 10, 11, 15];
const FREE: [u8; 2] = [12, 13];
pub(crate) const WORN: u8 = 14;

/// Every table rule broken in turn, and no other: where frames or n change, the register follows.
pub const DAMAGES: [Damage; 56] = [
    ("P above 127", |rng, lent| {
        lent.tables[0] = above(rng, MOST_FRAMES, 255);
        lent.fast = rng.bytes(FRAME * usize::from(lent.tables[0]));
    }),
    ("S above 127", |rng, lent| {
        lent.tables[1] = above(rng, MOST_FRAMES, 255);
        lent.slow = rng.bytes(FRAME * usize::from(lent.tables[1]));
    }),
    ("owner above 15", |rng, lent| {
        lent.tables[owner(5)] = above(rng, 15, 255);
    }),
    ("right above 2", |rng, lent| {
        lent.tables[record(0) + rng.below(STATIONS)] = above(rng, 2, 255);
    }),
    ("n above 8, eight copies", |rng, lent| {
        lent.tables[n(2)] = above(rng, 8, 255);
    }),
    ("n above 8, one copy", |rng, lent| {
        lent.tables[n(5)] = above(rng, 8, 255);
    }),
    ("n too small", |_, lent| {
        lent.tables[n(0)] = 2;
        register_anew(&mut lent.tables);
    }),
    ("n too large", |_, lent| lent.tables[n(0)] = 4),
    ("n 0 on a standing page", |_, lent| {
        lent.tables[n(5)] = 0;
        register_anew(&mut lent.tables);
    }),
    ("n 1 on an absent page", |_, lent| lent.tables[n(9)] = 1),
    ("frame out of range", |rng, lent| {
        lent.tables[entry(5, 0)] = above(rng, 15, 254);
        register_anew(&mut lent.tables);
    }),
    ("a frame twice in one page", |_, lent| {
        lent.tables[entry(0, 0)] = 8;
        register_anew(&mut lent.tables);
    }),
    ("a frame under two pages", |_, lent| {
        lent.tables[entry(63, 0)] = 10;
        register_anew(&mut lent.tables);
    }),
    ("the same frame under neighbours", |_, lent| {
        lent.tables[entry(2, 7)] = 9;
        register_anew(&mut lent.tables);
    }),
    ("CURRENT without MOST RECENT", |_, lent| {
        lent.tables[entry(0, 0) + 1] = 1;
    }),
    ("no MOST RECENT", |_, lent| {
        lent.tables[entry(63, 0) + 2] = 0;
    }),
    ("no MOST RECENT of three", |_, lent| {
        for copy in 0..3 {
            lent.tables[entry(0, copy) + 1] = 0;
            lent.tables[entry(0, copy) + 2] = 0;
        }
    }),
    ("a null copy not alone, recent", |_, lent| {
        lent.tables[entry(0, 1)] = NO_FRAME;
        lent.tables[entry(0, 1) + 1] = 0;
        register_anew(&mut lent.tables);
    }),
    ("a null copy not alone, stale", |_, lent| {
        lent.tables[entry(0, 0)] = NO_FRAME;
        register_anew(&mut lent.tables);
    }),
    ("two null copies", |_, lent| {
        lent.tables[n(1)] = 2;
        lent.tables[entry(1, 1) + 2] = 1;
    }),
    ("a null copy not recent", |_, lent| {
        lent.tables[entry(1, 0) + 2] = 0;
    }),
    ("a null copy current", |_, lent| {
        lent.tables[entry(1, 0) + 1] = 1;
    }),
    ("CURRENT neither 0 nor 1", |rng, lent| {
        lent.tables[entry(0, rng.below(3)) + 1] = above(rng, 1, 255);
    }),
    ("MOST RECENT neither 0 nor 1", |rng, lent| {
        lent.tables[entry(2, rng.below(ENTRIES)) + 2] = above(rng, 1, 255);
    }),
    ("both marks of a copy neither 0 nor 1", |rng, lent| {
        lent.tables[entry(5, 0) + 1..][..2].fill(above(rng, 1, 255));
    }),
    ("a null copy's mark neither 0 nor 1", |rng, lent| {
        lent.tables[entry(1, 0) + 2] = above(rng, 1, 255);
    }),
    ("a frame in an unused entry", |rng, lent| {
        lent.tables[entry(0, rng.within(3, 7).into())] = rng.within(0, 254);
    }),
    ("a mark in an unused entry", |rng, lent| {
        let mark = 1 + rng.below(2);
        lent.tables[entry(0, rng.within(3, 7).into()) + mark] = rng.within(1, 255);
    }),
    ("an absent page's owner", |rng, lent| {
        lent.tables[owner(62)] = rng.within(1, 255);
    }),
    ("an absent page's right", |rng, lent| {
        lent.tables[record(4) + rng.below(STATIONS)] = rng.within(1, 255);
    }),
    ("an absent page's frame", |rng, lent| {
        lent.tables[entry(3, rng.below(ENTRIES))] = rng.within(0, 254);
    }),
    ("an absent page's mark", |rng, lent| {
        let mark = 1 + rng.below(2);
        lent.tables[entry(3, rng.below(ENTRIES)) + mark] = rng.within(1, 255);
    }),
    ("an entry names another copy of the page", |rng, lent| {
        let frame = rng.pick(&EIGHT);
        let other = holder(&lent.tables, frame) ^ u16::from(rng.within(1, 7));
        set_holder(&mut lent.tables, frame, other);
    }),
    ("an entry names a copy of another page", |rng, lent| {
        let frame = rng.pick(&HELD);
        let other = holder(&lent.tables, frame) ^ (8 << rng.below(6));
        set_holder(&mut lent.tables, frame, other);
    }),
    ("a free frame's entry set", |rng, lent| {
        set_holder(&mut lent.tables, rng.pick(&FREE), any_holder(rng));
    }),
    ("a copy named by a free frame too", |rng, lent| {
        let held = holder(&lent.tables, rng.pick(&HELD));
        set_holder(&mut lent.tables, rng.pick(&FREE), held);
    }),
    ("a null copy named by a free frame", |rng, lent| {
        set_holder(&mut lent.tables, rng.pick(&FREE), 8);
    }),
    ("a held frame's entry cleared", |rng, lent| {
        set_holder(&mut lent.tables, rng.pick(&HELD), FREE_ENTRY);
    }),
    ("an entry moved to a free frame", |rng, lent| {
        exchange_holders(&mut lent.tables, rng.pick(&HELD), rng.pick(&FREE));
    }),
    ("an entry moved past the last frame", |rng, lent| {
        exchange_holders(&mut lent.tables, rng.pick(&HELD), rng.within(16, 253));
    }),
    ("two entries exchanged", |rng, lent| {
        let one = rng.below(HELD.len());
        let other = (one + 1 + rng.below(HELD.len() - 1)) % HELD.len();
        exchange_holders(&mut lent.tables, HELD[one], HELD[other]);
    }),
    ("an entry past the last frame set", |rng, lent| {
        set_holder(&mut lent.tables, above(rng, 15, 253), any_holder(rng));
    }),
    ("the last entry set", |rng, lent| {
        set_holder(&mut lent.tables, 253, any_holder(rng));
    }),
    ("a held frame's entry 512 or more", |rng, lent| {
        let frame = rng.pick(&HELD);
        let high = 512 * u16::from(rng.within(1, 127));
        let held = holder(&lent.tables, frame);
        set_holder(&mut lent.tables, frame, high + held);
    }),
    ("a free frame's entry 512 or more", |rng, lent| {
        let high = 512 + rng.below(usize::from(FREE_ENTRY) - 513) as u16;
        let neither = high + u16::from(high >= RETIRED);
        set_holder(&mut lent.tables, rng.pick(&FREE), neither);
    }),
    ("an entry with its low byte first", |rng, lent| {
        let frame = rng.pick(&EIGHT);
        let turned = holder(&lent.tables, frame).swap_bytes();
        set_holder(&mut lent.tables, frame, turned);
    }),
    ("a bit of the register flipped", |rng, lent| {
        let at = REGISTER + rng.below(2 * REGISTERED);
        lent.tables[at] ^= 1 << rng.below(8);
    }),
    ("a register of zeros", |_, lent| {
        lent.tables[REGISTER..].fill(0);
    }),
    ("a fresh register", |_, lent| {
        lent.tables[REGISTER..].fill(255);
    }),
    ("a retired frame's entry set", |rng, lent| {
        set_holder(&mut lent.tables, WORN, any_holder(rng));
    }),
    ("an entry moved to a retired frame", |rng, lent| {
        exchange_holders(&mut lent.tables, rng.pick(&HELD), WORN);
    }),
    ("a copy on a retired frame", |_, lent| {
        lent.tables[entry(5, 0)] = WORN;
        register_anew(&mut lent.tables);
        set_holder(&mut lent.tables, WORN, RETIRED);
    }),
    ("a held frame retired", |rng, lent| {
        set_holder(&mut lent.tables, rng.pick(&HELD), RETIRED);
    }),
    ("a frame past the last one retired", |rng, lent| {
        set_holder(&mut lent.tables, above(rng, 15, 253), RETIRED);
    }),
    ("the last number retired", |_, lent| {
        set_holder(&mut lent.tables, 253, RETIRED);
    }),
    ("every frame retired", |_, lent| {
        for frame in 0..REGISTERED as u8 {
            set_holder(&mut lent.tables, frame, RETIRED);
        }
    }),
];

/// What an entry names: any page and copy.
fn any_holder(rng: &mut Rng) -> u16 {
    rng.below(ENTRIES * PAGES) as u16
}

/// Tables with two copies on one frame, for every two copies of lawful tables; the frame's entry
/// names the second of them.
pub fn doubled(lent: &Lent) -> Vec<Lent> {
    let tables = Tables::from_raw(&lent.tables).expect("lawful tables");
    let with_frames = tables.copies().filter(|(_, _, copy)| copy.frame.is_some());
    let places: Vec<(usize, usize)> = with_frames.map(|(p, c, _)| (p, c)).collect();
    let mut doubled = Vec::new();
    for &from in &places {
        for &to in places.iter().filter(|&&to| to != from) {
            let mut lent = lent.clone();
            let frame = lent.tables[entry(from.0, from.1)];
            lent.tables[entry(to.0, to.1)] = frame;
            register_anew(&mut lent.tables);
            set_holder(&mut lent.tables, frame, (ENTRIES * to.0 + to.1) as u16);
            doubled.push(lent);
        }
    }
    doubled
}

/// One byte of the tables set to another value, often a small one; the register may follow.
pub fn damage_byte(rng: &mut Rng, lent: &mut Lent) {
    let at = rng.below(lent.tables.len());
    lent.tables[at] = match rng.below(3) {
        0 => rng.byte(),
        1 => lent.tables[at] ^ (1 << rng.below(8)),
        _ => rng.within(0, 9),
    };
    if at < REGISTER && rng.once_in(2) {
        register_anew(&mut lent.tables);
    }
}

/// An entry of the register set or cleared, or two exchanged.
pub fn damage_register(rng: &mut Rng, lent: &mut Lent) {
    let frames = REGISTERED.min(1 + usize::from(lent.tables[0]) + usize::from(lent.tables[1]));
    let [one, other] = [rng.below(frames), rng.below(frames)].map(|frame| frame as u8);
    match rng.below(4) {
        0 => set_holder(&mut lent.tables, one, any_holder(rng)),
        1 => set_holder(&mut lent.tables, one, FREE_ENTRY),
        2 => set_holder(&mut lent.tables, one, FREE_ENTRY - 1 - any_holder(rng)),
        _ => exchange_holders(&mut lent.tables, one, other),
    }
}

/// Where the marks of every entry stand.
fn marks() -> impl Iterator<Item = usize> {
    let entries = (0..PAGES).flat_map(|page| (0..ENTRIES).map(move |copy| entry(page, copy)));
    entries.flat_map(|entry| [entry + 1, entry + 2])
}

/// Lent tables with each bit of each mark flipped, one at a time.
pub fn flipped_marks(lent: &Lent) -> impl Iterator<Item = Lent> + '_ {
    let bits = marks().flat_map(|mark| (0..8).map(move |bit| (mark, bit)));
    bits.map(|(mark, bit)| {
        let mut flipped = lent.clone();
        flipped.tables[mark] ^= 1 << bit;
        flipped
    })
}

/// Marks of 1 as other bytes than 0 and 1, as many as come.
pub fn odd_marks(rng: &mut Rng, lent: &mut Lent) {
    for at in marks() {
        if lent.tables[at] != 0 && rng.once_in(2) {
            lent.tables[at] = rng.within(1, 255);
        }
    }
}

/// A frame retired, of those of the tables or past the last one, or its entry one that names nothing.
pub fn damage_retired(rng: &mut Rng, lent: &mut Lent) {
    let frames = usize::from(lent.tables[0]) + usize::from(lent.tables[1]);
    let frame = match rng.below(3) {
        0 => rng.below(REGISTERED),
        1 => frames.min(REGISTERED - 1),
        _ => rng.below(frames.clamp(1, REGISTERED)),
    };
    let entry = match rng.below(4) {
        0 => RETIRED ^ (1 << rng.below(16)),
        _ => RETIRED,
    };
    set_holder(&mut lent.tables, frame as u8, entry);
}

/// A store of a wrong length, or the two stores exchanged.
pub fn misfit(rng: &mut Rng, lent: &mut Lent) {
    if rng.once_in(5) {
        std::mem::swap(&mut lent.fast, &mut lent.slow);
        return;
    }
    let store = if rng.once_in(2) {
        &mut lent.fast
    } else {
        &mut lent.slow
    };
    let length = store.len();
    let wrong = [0, 1, length.saturating_sub(FRAME), length.saturating_sub(1)];
    let wrong = [&wrong[..], &[length + 1, length + FRAME, 2 * length]].concat();
    let length = rng.pick(&wrong);
    *store = rng.bytes(length);
}

/// Tables of another length.
pub fn misfit_tables(rng: &mut Rng, lent: &mut Lent) {
    let length = rng.pick(&[
        0,
        1,
        2,
        REGISTER,
        REGISTER + REGISTERED,
        RAW - RECORD,
        RAW - 1,
        RAW + 1,
        RAW + RECORD,
        2 * RAW,
    ]);
    lent.tables.resize(length, 0);
}

/// What is lent, with a reply buffer that is too short, with broken tables and with a misfit store.
pub fn hindered(rng: &mut Rng, lent: &Lent) -> [Lent; 3] {
    let mut short = lent.clone();
    short.out.truncate(rng.pick(&SHORT_BUFFERS));
    let mut broken = lent.clone();
    broken.tables[0] = MOST_FRAMES + 1;
    let mut misfit = lent.clone();
    misfit.fast.pop();
    [short, broken, misfit]
}

/// A hindrance of any sort, one that may turn every message back; none on top of tables of a
/// wrong length.
pub fn hinder(rng: &mut Rng, lent: &mut Lent) {
    if lent.tables.len() != RAW {
        return;
    }
    match rng.below(12) {
        0 | 1 => {
            let room = rng.pick(&SHORT_BUFFERS);
            lent.out = rng.bytes(room);
        }
        2..=4 => damage_byte(rng, lent),
        5 | 6 => damage_register(rng, lent),
        7 | 8 => damage_retired(rng, lent),
        9 => odd_marks(rng, lent),
        10 => misfit(rng, lent),
        _ => misfit_tables(rng, lent),
    }
}

// ---- Messages ----

/// How much each kind of message is wanted, before a phase sets its own weights.
const WEIGHTS: [usize; KINDS] = [1, 2, 6, 12, 16, 20, 6, 20, 5, 4, 4, 3];

/// The moves of one run, in phases that each have pages, stations and kinds of their own.
pub struct Moves {
    pages: Vec<u8>,
    stations: Vec<u8>,
    weights: [usize; KINDS],
    left: usize,
    /// So many quarters of the frames may be retired.
    worn: usize,
    /// What is left of the grants that close a new page.
    closing: VecDeque<Call>,
}

impl Moves {
    pub fn new(rng: &mut Rng) -> Moves {
        let mut moves = Moves {
            pages: Vec::new(),
            stations: Vec::new(),
            weights: WEIGHTS,
            left: 0,
            worn: rng.pick(&[0, 1, 1, 2, 4]),
            closing: VecDeque::new(),
        };
        moves.new_phase(rng);
        moves
    }

    fn new_phase(&mut self, rng: &mut Rng) {
        self.left = rng.pick(&[20, 60, 200, 400]);
        let pages = rng.pick(&[1, 2, 4, 12, PAGES]);
        let stations = rng.pick(&[1, 2, 3, STATIONS]);
        // The hot pages and stations of every run overlap, so that phases build on each other.
        self.pages = (0..pages as u8).map(|page| 63 - page).collect();
        self.stations = (0..stations as u8).collect();
        self.weights = WEIGHTS.map(|weight| weight * rng.pick(&[0, 1, 1, 2, 4]));
        self.weights[3] += 1;
    }

    /// The next bytes of the file: one message, broken or not; if `last`, perhaps one cut short.
    pub fn next(&mut self, rng: &mut Rng, tables: &Tables, lent: &Lent, last: bool) -> Vec<u8> {
        if self.left == 0 {
            self.new_phase(rng);
        }
        self.left -= 1;
        let call = match self.closing.pop_front() {
            Some(grant) => grant,
            None => {
                let call = match rng.below(12) {
                    0 => any_call(rng),
                    _ => self.sensible(rng, tables, lent),
                };
                self.spared(tables, call)
            }
        };
        if last && rng.once_in(2) {
            return cut(rng, &call.encode());
        }
        if rng.once_in(24) {
            return broken(rng, &call);
        }
        self.close(rng, tables, &call);
        call.encode()
    }

    /// Now and then a page is closed to all but its owner as soon as it is created.
    fn close(&mut self, rng: &mut Rng, tables: &Tables, call: &Call) {
        if let Call::Create { station, page } = *call {
            let is_absent = tables.pages.get(usize::from(page)) == Some(&None);
            if is_absent && usize::from(station) < STATIONS && rng.once_in(4) {
                self.closing = closing(station, page).collect();
            }
        }
    }

    /// A call that mostly makes sense on these tables.
    fn sensible(&self, rng: &mut Rng, tables: &Tables, lent: &Lent) -> Call {
        let page = rng.pick(&self.pages);
        let any_station = rng.pick(&self.stations);
        let Some(record) = &tables.pages[usize::from(page)] else {
            if rng.once_in(8) {
                return any_call(rng);
            }
            let station = any_station;
            return Call::Create { station, page };
        };
        let owner = match rng.below(8) {
            0 => any_station,
            _ => record.owner,
        };
        let guest = barred(rng, record).unwrap_or(any_station);
        let reader = entitled(rng, record, 1).unwrap_or(guest);
        let writer = entitled(rng, record, 2).unwrap_or(guest);
        let copy = rng.below(record.copies.len()) as u8;
        // A page with nothing current is often brought forward first.
        if record.current_frames().is_empty() && rng.once_in(3) {
            let frame = frame(rng, tables);
            return match record.copies[0].frame {
                None => Call::MakeCopy { page, copy, frame },
                Some(_) => Call::SetCurrent {
                    page,
                    copy: recent(rng, record).unwrap_or(copy),
                },
            };
        }
        match weighted(rng, &self.weights) {
            0 => Call::Create {
                station: any_station,
                page,
            },
            1 => self.delete_page(rng, tables, page),
            2 => Call::Grant {
                station: owner,
                page,
                other: rng.pick(&self.stations),
                // Right 0 comes by grants alone, so it is granted more often than the others.
                right: rng.pick(&[0, 0, 1, 2]),
            },
            3 => {
                let (offset, count) = part(rng);
                Call::Read {
                    station: reader,
                    page,
                    offset,
                    count,
                }
            }
            4 => {
                let (offset, count) = part(rng);
                Call::Write {
                    station: writer,
                    page,
                    offset,
                    bytes: written(rng, tables, lent, record, offset.into(), count.into()),
                }
            }
            // Of a ninth copy only the refusals and their order are left to see.
            5 if record.copies.len() == ENTRIES => Call::MakeCopy {
                page,
                copy,
                frame: any_frame(rng, tables),
            },
            5 => match frame(rng, tables) {
                // In full stores a copy rather makes room.
                frame if tables.is_held(frame) && rng.once_in(2) => Call::DeleteCopy { page, copy },
                frame => Call::MakeCopy { page, copy, frame },
            },
            6 => Call::DeleteCopy { page, copy },
            7 => Call::SetCurrent {
                page,
                copy: recent(rng, record).unwrap_or(copy),
            },
            8 => Call::RemoveCurrent { page, copy },
            9 => Call::LookPage { page },
            10 => Call::LookFrame {
                frame: any_frame(rng, tables),
            },
            _ => Call::Retire {
                frame: match rng.below(2) {
                    0 => frame(rng, tables),
                    _ => any_frame(rng, tables),
                },
            },
        }
    }

    /// Retired frames never come back: a run that has retired its share of them looks at the next one
    /// instead, so that it still has frames to copy to.
    fn spared(&self, tables: &Tables, call: Call) -> Call {
        let retired = tables.retired_frames().count();
        match call {
            Call::Retire { frame }
                if usize::from(frame) < tables.frames()
                    && tables.is_free(frame)
                    && 4 * retired >= self.worn * tables.frames() =>
            {
                Call::LookFrame { frame }
            }
            call => call,
        }
    }

    /// Deletes this page or, more often, one of those with the most copies, which frees many frames;
    /// now and then not by the owner.
    fn delete_page(&self, rng: &mut Rng, tables: &Tables, page: u8) -> Call {
        let copies = |page: u8| {
            let page = tables.pages[usize::from(page)].as_ref();
            page.map_or(0, |page| page.copies.len())
        };
        let widest = self.pages.iter().copied().max_by_key(|&page| copies(page));
        let page = match (rng.below(3), widest) {
            (1.., Some(widest)) => widest,
            _ => page,
        };
        let owner = tables.pages[usize::from(page)].as_ref().map(|p| p.owner);
        let station = match (rng.below(8), owner) {
            (1.., Some(owner)) => owner,
            _ => rng.pick(&self.stations),
        };
        Call::DeletePage { station, page }
    }
}

fn weighted(rng: &mut Rng, weights: &[usize]) -> usize {
    let mut left = rng.below(weights.iter().sum());
    weights
        .iter()
        .position(|&weight| {
            let found = left < weight;
            left = left.saturating_sub(weight);
            found
        })
        .expect("a draw below the sum")
}

/// An offset and a count that fit a page, often up to its ends.
fn part(rng: &mut Rng) -> (u8, u8) {
    let inner = rng.within(0, 63);
    let offset = rng.pick(&[0, inner, inner, 63]);
    let count = rng.within(1, 64 - offset);
    (offset, rng.pick(&[1, count, count, 64 - offset]))
}

/// The fifteen grants of right 0 that close a page to every station but its owner, in ascending
/// order.
pub fn closing(owner: u8, page: u8) -> impl Iterator<Item = Call> {
    let others = (0..STATIONS as u8).filter(move |&other| other != owner);
    others.map(move |other| Call::Grant {
        station: owner,
        page,
        other,
        right: 0,
    })
}

/// The stations whose right on the page passes.
fn stations(page: &Page, passes: impl Fn(u8) -> bool) -> Vec<u8> {
    let stations = (0..).zip(page.rights).filter(|&(_, has)| passes(has));
    stations.map(|(station, _)| station).collect()
}

/// Mostly a station with this right on the page or a higher one.
fn entitled(rng: &mut Rng, page: &Page, right: u8) -> Option<u8> {
    let stations = stations(page, |has| has >= right);
    (!stations.is_empty() && !rng.once_in(6)).then(|| rng.pick(&stations))
}

/// Mostly a station without any right on the page.
fn barred(rng: &mut Rng, page: &Page) -> Option<u8> {
    let stations = stations(page, |has| has == 0);
    (!stations.is_empty() && !rng.once_in(6)).then(|| rng.pick(&stations))
}

/// Mostly a MOST RECENT copy.
fn recent(rng: &mut Rng, page: &Page) -> Option<u8> {
    let copies = (0..page.copies.len() as u8).filter(|&c| page.copies[usize::from(c)].recent);
    let copies: Vec<u8> = copies.collect();
    (!rng.once_in(4)).then(|| rng.pick(&copies))
}

/// Mostly a free frame, and rather the lowest or the highest, so that frames are used anew and pages
/// stand in both stores.
fn frame(rng: &mut Rng, tables: &Tables) -> u8 {
    let mut taken = [false; 256];
    for (_, _, copy) in tables.copies() {
        taken[usize::from(copy.frame.unwrap_or(NO_FRAME))] = true;
    }
    for frame in tables.retired_frames() {
        taken[usize::from(frame)] = true;
    }
    let all = tables.frames().min(255) as u8;
    let free: Vec<u8> = (0..all).filter(|&f| !taken[usize::from(f)]).collect();
    match rng.below(12) {
        0 | 1 => any_frame(rng, tables),
        2..=4 if !free.is_empty() => free[0],
        5 | 6 if !free.is_empty() => free[free.len() - 1],
        _ if !free.is_empty() => rng.pick(&free),
        _ => any_frame(rng, tables),
    }
}

/// Any frame, now and then a retired one or the one past the last.
fn any_frame(rng: &mut Rng, tables: &Tables) -> u8 {
    let retired: Vec<u8> = tables.retired_frames().collect();
    match rng.below(16) {
        0 => tables.frames() as u8,
        1..=6 if !retired.is_empty() => rng.pick(&retired),
        _ => rng.below(tables.frames().max(1)) as u8,
    }
}

/// Bytes to write: random ones, zeros, or the very bytes that stand there.
fn written(
    rng: &mut Rng,
    tables: &Tables,
    lent: &Lent,
    page: &Page,
    offset: usize,
    count: usize,
) -> Vec<u8> {
    match rng.below(4) {
        0 => stored(tables, lent, page, offset, count).unwrap_or_else(|| rng.bytes(count)),
        1 => vec![0; count],
        _ => rng.bytes(count),
    }
}

/// The bytes that stand in a part of a page; None where there are none.
pub(crate) fn stored(
    tables: &Tables,
    lent: &Lent,
    page: &Page,
    offset: usize,
    count: usize,
) -> Option<Vec<u8>> {
    let frame = *page.current_frames().first()?;
    if !stores_fit(tables, lent) {
        return None;
    }
    let held = frame_bytes(tables, &lent.fast, &lent.slow, frame);
    held.get(offset..offset + count).map(<[u8]>::to_vec)
}

pub(crate) fn stores_fit(tables: &Tables, lent: &Lent) -> bool {
    lent.fast.len() == FRAME * usize::from(tables.fast)
        && lent.slow.len() == FRAME * usize::from(tables.slow)
}

/// A call with any arguments, mostly such as lie at a border.
fn any_call(rng: &mut Rng) -> Call {
    let station = border(rng, &[0, 1, 2, 15, 16, 17, 255]);
    let page = border(rng, &[0, 1, 62, 63, 63, 63, 64, 65, 128, 255]);
    let copy = border(rng, &[0, 0, 1, 2, 7, 8, 9, 255]);
    let frame = border(rng, &[0, 1, 2, 4, 5, 7, 8, 9, 126, 127, 128, 253, 254, 255]);
    let offset = border(rng, &[0, 1, 31, 32, 62, 63, 64, 65, 255]);
    match 1 + rng.below(KINDS) {
        1 => Call::Create { station, page },
        2 => Call::DeletePage { station, page },
        3 => Call::Grant {
            station,
            page,
            other: border(rng, &[0, 1, 2, 15, 16, 17, 255]),
            right: border(rng, &[0, 1, 2, 3, 255]),
        },
        4 => Call::Read {
            station,
            page,
            offset,
            count: border(rng, &[0, 1, 2, 32, 33, 63, 64, 65, 192, 193, 255]),
        },
        5 => {
            let count = rng.pick(&[1, 2, 32, 33, 63, 64]);
            Call::Write {
                station,
                page,
                offset,
                bytes: rng.bytes(count),
            }
        }
        6 => Call::MakeCopy { page, copy, frame },
        7 => Call::DeleteCopy { page, copy },
        8 => Call::SetCurrent { page, copy },
        9 => Call::RemoveCurrent { page, copy },
        10 => Call::LookPage { page },
        11 => Call::LookFrame { frame },
        _ => Call::Retire { frame },
    }
}

/// A call for the writer, of any kind, known or not, with arguments mostly at a border. What plays no
/// part is there too.
pub fn any_sent(rng: &mut Rng) -> Sent {
    let call = any_call(rng);
    let mut sent = with_idle(rng, &call);
    if sent.kind == 5 {
        let count = rng.pick(&WRITTEN);
        sent.bytes = rng.bytes(count);
    }
    if rng.once_in(8) {
        sent.kind = rng.byte();
    }
    sent
}

/// So many bytes are given to a write, in range or not.
const WRITTEN: [usize; 12] = [0, 1, 2, 31, 32, 33, 62, 63, 64, 65, 66, 70];

/// A call for the writer, with arguments and bytes that play no part where the kind has room for
/// them.
pub fn with_idle(rng: &mut Rng, call: &Call) -> Sent {
    let mut sent = Sent::of(call);
    rng.fill(&mut sent.arguments[arguments(sent.kind)..]);
    if sent.bytes.is_empty() {
        let count = rng.pick(&[0, 1, 64, 65, 300]);
        sent.bytes = rng.bytes(count);
    }
    sent
}

fn border(rng: &mut Rng, values: &[u8]) -> u8 {
    match rng.below(10) {
        0 => rng.byte(),
        _ => rng.pick(values),
    }
}

/// A whole message that is mostly broken.
fn broken(rng: &mut Rng, call: &Call) -> Vec<u8> {
    let mut body = call.encode().split_off(2);
    match rng.below(8) {
        0 => body[0] = rng.byte(),
        1 => body[1] = rng.pick(&[0, 13, 14, 128, 255, body[0].wrapping_add(12)]),
        2 => body[1] = rng.within(0, 13),
        3 => body.truncate(rng.below(body.len())),
        4 => {
            let more = rng.within(1, 70).into();
            body.extend(rng.bytes(more));
        }
        5 => body = of_length(rng, 75),
        6 if rng.once_in(8) => body = of_length(rng, usize::from(u16::MAX)),
        _ => {
            let at = rng.below(body.len());
            body[at] = rng.byte();
        }
    }
    with_length(&body)
}

/// A body of a length up to `most`, with a sound version and kind where it reaches so far.
fn of_length(rng: &mut Rng, most: usize) -> Vec<u8> {
    let length = rng.below(most + 1);
    let mut body = rng.bytes(length);
    let front = [VERSION, rng.within(1, KINDS as u8)];
    for (byte, sound) in body.iter_mut().zip(front) {
        *byte = sound;
    }
    body
}

fn with_length(body: &[u8]) -> Vec<u8> {
    let length = u16::try_from(body.len()).expect("a length of two bytes");
    [&length.to_be_bytes(), body].concat()
}

/// A message cut short: somewhere in it, or by an L that is too large.
pub fn cut(rng: &mut Rng, message: &[u8]) -> Vec<u8> {
    match rng.below(4) {
        0 => vec![rng.byte()],
        1 => {
            let more = rng.pick(&[1, 2, 64, 255, 256, 60000]);
            let length = (message.len() - 2 + more) as u16;
            [&length.to_be_bytes(), &message[2..]].concat()
        }
        _ => message[..1 + rng.below(message.len() - 1)].to_vec(),
    }
}

/// A file of no sense: small bytes at random, so that some pass for lengths.
pub fn nonsense(rng: &mut Rng) -> Vec<u8> {
    let length = rng.pick(&[0, 1, 2, 3, 30, 300, 1000]);
    let most = rng.pick(&[1, 6, 13, 70, 255]);
    (0..length).map(|_| rng.within(0, most)).collect()
}

/// Fresh tables of five to eight fast frames and as many slow ones.
pub fn roomy(rng: &mut Rng) -> Lent {
    let tables = Tables::fresh(rng.within(5, 8), rng.within(5, 8));
    lend(rng, &tables)
}

/// A file for `roomy` tables that comes to every state and event that the comparison counts, and to
/// every number that a message gets on sound tables with a reply buffer that serves; pages, stations,
/// frames and bytes are drawn.
pub fn deep_file(rng: &mut Rng, fast: u8, slow: u8) -> Vec<u8> {
    let pages = rng.shuffled(PAGES as u8);
    let stations = rng.shuffled(STATIONS as u8);
    let mut frames = rng.shuffled(fast + slow);
    // A fast frame comes first and a slow one second.
    frames.sort_by_key(|&frame| frame >= fast);
    frames.swap(1, usize::from(fast));
    let (page, other) = (pages[0], pages[1]);
    let (station, guest) = (stations[0], stations[1]);
    let (eight, rest) = frames.split_at(ENTRIES);

    let copy_to = |page, frame| Call::MakeCopy {
        page,
        copy: 0,
        frame,
    };
    let read = |page| Call::Read {
        station,
        page,
        offset: 0,
        count: 1,
    };
    let mut write = |count| Call::Write {
        station,
        page,
        offset: 0,
        bytes: rng.bytes(count),
    };
    let last = ENTRIES as u8 - 1;
    let (whole, one) = (write(FRAME), write(1));

    let mut calls = closed_and_open([station, guest], pages[2], eight[0]);
    calls.extend(latest_and_stale(station, pages[3], eight, rng.bytes(3)));
    // Eight CURRENT copies; then one that is not, and is stale after the next write.
    calls.push(Call::Create { station, page });
    calls.extend(eight.iter().map(|&frame| copy_to(page, frame)));
    calls.extend((0..=last).map(|copy| Call::SetCurrent { page, copy }));
    calls.extend([
        whole,
        copy_to(page, rest[0]),
        copy_to(page, eight[0]),
        Call::RemoveCurrent { page, copy: last },
        one.clone(),
        Call::SetCurrent { page, copy: last },
        Call::SetCurrent {
            page,
            copy: last + 1,
        },
    ]);
    // A page with a null copy, which then takes every frame that is left.
    calls.extend([
        Call::Create {
            station,
            page: other,
        },
        read(other),
        Call::SetCurrent {
            page: other,
            copy: 0,
        },
        Call::DeleteCopy {
            page: other,
            copy: 0,
        },
        Call::DeletePage {
            station,
            page: other,
        },
        read(other),
        Call::Create {
            station,
            page: other,
        },
        Call::Create {
            station,
            page: other,
        },
    ]);
    calls.extend(rest.iter().map(|&frame| copy_to(other, frame)));
    // Both pages deleted: of the first one a fast and a slow frame by themselves, and used anew.
    calls.extend([
        Call::LookPage { page },
        Call::Grant {
            station,
            page,
            other: station,
            right: 1,
        },
        one,
        Call::DeletePage {
            station: guest,
            page,
        },
        Call::Retire { frame: eight[0] },
        Call::DeleteCopy { page, copy: 0 },
        Call::DeleteCopy { page, copy: 0 },
        copy_to(page, eight[0]),
        copy_to(page, eight[1]),
        Call::DeletePage { station, page },
        Call::DeletePage {
            station,
            page: other,
        },
        Call::LookPage { page: PAGES as u8 },
    ]);
    // The two frames retired, and copies on all others.
    calls.extend([
        Call::Create {
            station,
            page: other,
        },
        Call::Retire { frame: eight[0] },
        Call::Retire { frame: eight[1] },
        Call::Retire { frame: eight[0] },
        Call::LookFrame { frame: eight[0] },
        copy_to(other, eight[0]),
        Call::Create { station, page },
    ]);
    let (eight_more, left) = frames[2..].split_at(ENTRIES);
    calls.extend(eight_more.iter().map(|&frame| copy_to(page, frame)));
    calls.push(copy_to(page, eight[0]));
    calls.extend(left.iter().map(|&frame| copy_to(other, frame)));
    calls.extend([Call::LookPage { page }, Call::DeletePage { station, page }]);
    // Broken messages, and one cut short at the end.
    let broken = [&[0, 2, 2, 1][..], &[0, 2, 1, 13], &[0, 3, 1, 1, 0], &[0]];
    let calls: Vec<Vec<u8>> = calls.iter().map(Call::encode).collect();
    [calls.concat(), broken.concat()].concat()
}

/// A file for `roomy` tables that has more messages of one number, and lays more bytes, than 16 bits
/// can count.
pub fn long_file(rng: &mut Rng) -> Vec<u8> {
    let (page, station) = (
        rng.within(0, PAGES as u8 - 1),
        rng.within(0, STATIONS as u8 - 1),
    );
    let write = Call::Write {
        station,
        page,
        offset: 0,
        bytes: rng.bytes(FRAME),
    };
    let (frames, more) = (rng.shuffled(ENTRIES as u8), rng.below(1000));
    let mut calls = vec![Call::Create { station, page }];
    calls.extend(frames.into_iter().map(|frame| Call::MakeCopy {
        page,
        copy: 0,
        frame,
    }));
    calls.extend((0..ENTRIES as u8).map(|copy| Call::SetCurrent { page, copy }));
    let calls = calls.iter().flat_map(Call::encode);
    let writes = write.encode().repeat((1 << 16) / (FRAME * ENTRIES) + more);
    let broken = vec![0; 2 * ((1 << 16) + more)];
    calls.chain(writes).chain(broken).collect()
}

/// For tables with a free frame and an absent page: a file that creates the page and copies it to the
/// frame, and one that then deletes it.
pub fn copies_and_deletes(rng: &mut Rng, lent: &Lent) -> [Vec<u8>; 2] {
    let tables = tables_of(lent);
    let frames = rng.shuffled(tables.frames() as u8);
    let frame = frames.into_iter().find(|&frame| tables.is_free(frame));
    let absent = tables.pages.iter().position(Option::is_none);
    let (frame, page) = (
        frame.expect("a free frame"),
        absent.expect("an absent page") as u8,
    );
    let station = rng.within(0, STATIONS as u8 - 1);
    let copy = Call::MakeCopy {
        page,
        copy: 0,
        frame,
    };
    let create = Call::Create { station, page };
    let delete = Call::DeletePage { station, page };
    [[create.encode(), copy.encode()].concat(), delete.encode()]
}

/// A page that is closed as soon as it is created, then read by its owner and in vain by a guest,
/// who may not write it and cannot create it anew; deleted, created again and left open, it is read
/// by the guest.
fn closed_and_open([owner, guest]: [u8; 2], page: u8, frame: u8) -> Vec<Call> {
    let create = |station| Call::Create { station, page };
    let forward = [
        Call::MakeCopy {
            page,
            copy: 0,
            frame,
        },
        Call::SetCurrent { page, copy: 0 },
    ];
    let [by_owner, by_guest] = [owner, guest].map(|station| Call::Read {
        station,
        page,
        offset: 0,
        count: 1,
    });
    let write = Call::Write {
        station: guest,
        page,
        offset: 0,
        bytes: vec![1],
    };
    let delete = Call::DeletePage {
        station: owner,
        page,
    };
    let mut calls = vec![create(owner)];
    calls.extend(closing(owner, page));
    calls.extend(forward.clone());
    calls.extend([by_owner, by_guest.clone(), write.clone(), create(guest)]);
    calls.extend([by_guest.clone(), delete.clone(), create(owner)]);
    calls.extend(forward);
    calls.extend([by_guest, write, delete]);
    calls
}

/// A page with copies of three writes: none, a write into two copies, and the same bytes again into
/// one of them, so that the other is stale with the last bytes. At last it is deleted.
fn latest_and_stale(station: u8, page: u8, frames: &[u8], bytes: Vec<u8>) -> Vec<Call> {
    let copy_to = |copy, to: usize| Call::MakeCopy {
        page,
        copy,
        frame: frames[to],
    };
    let set_current = |copy| Call::SetCurrent { page, copy };
    let write = Call::Write {
        station,
        page,
        offset: 0,
        bytes,
    };
    let read = Call::Read {
        station,
        page,
        offset: 0,
        count: 3,
    };
    let mut calls = vec![Call::Create { station, page }];
    calls.extend([copy_to(0, 0), copy_to(0, 1), copy_to(0, 2)]);
    calls.extend([set_current(0), set_current(1), write.clone()]);
    // Copy 3 is made of copy 2, which is stale; copy 1 has the last bytes, and is refused.
    let remove = Call::RemoveCurrent { page, copy: 1 };
    calls.extend([copy_to(2, 3), remove, write.clone()]);
    calls.extend([set_current(1), read.clone(), copy_to(0, 4)]);
    // The one CURRENT copy goes, and stale ones close the gap; then but one is MOST RECENT, and stays.
    calls.extend([0, 3].map(|copy| Call::DeleteCopy { page, copy }));
    calls.extend([set_current(3), copy_to(3, 0), write, read]);
    calls.push(Call::DeletePage { station, page });
    calls
}

/// One accepted call of each kind for `shaped` tables.
pub fn shaped_calls(rng: &mut Rng) -> [Call; KINDS] {
    let bytes = rng.bytes(7);
    #[rustfmt::skip]
    let calls = [
        Call::Create { station: 9, page: 7 },
        Call::DeletePage { station: 5, page: 0 },
        Call::Grant { station: 5, page: 0, other: 4, right: 2 },
        Call::Read { station: 4, page: 0, offset: 11, count: 20 },
        Call::Write { station: 5, page: 0, offset: 50, bytes },
        Call::MakeCopy { page: 0, copy: 1, frame: 13 },
        Call::DeleteCopy { page: 0, copy: 1 },
        Call::SetCurrent { page: 63, copy: 0 },
        Call::RemoveCurrent { page: 0, copy: 2 },
        Call::LookPage { page: 2 },
        Call::LookFrame { frame: 10 },
        Call::Retire { frame: 12 },
    ];
    calls
}

/// Every delete on `shaped` tables: of each page by each station, of each copy and of one that is
/// not there.
pub fn shaped_deletes() -> Vec<Vec<u8>> {
    let mut calls = Vec::new();
    for page in [0, 1, 2, 3, 5, 63] {
        calls.extend((0..STATIONS as u8).map(|station| Call::DeletePage { station, page }));
        calls.extend((0..=ENTRIES as u8).map(|copy| Call::DeleteCopy { page, copy }));
    }
    calls.iter().map(Call::encode).collect()
}

/// Every sweep over `shaped` tables: each L from 0 to 75 with each kind and each version, each
/// value of each argument, each offset with each count, and cuts everywhere.
pub fn shaped_sweep(rng: &mut Rng) -> Vec<Vec<u8>> {
    let mut messages = Vec::new();
    for length in 0..=75 {
        for value in 0..=255 {
            for front in [[VERSION, value], [value, rng.within(1, KINDS as u8)]] {
                let mut body = rng.bytes(length);
                let known = length.min(2);
                body[..known].copy_from_slice(&front[..known]);
                messages.push(with_length(&body));
            }
        }
    }
    for length in [76, 255, 256, 257, 4096, 65535] {
        let mut body = rng.bytes(length);
        body[..2].copy_from_slice(&[VERSION, rng.within(1, KINDS as u8)]);
        messages.push(with_length(&body));
    }
    for call in shaped_calls(rng) {
        let sound = call.encode();
        messages.extend((0..sound.len()).map(|length| sound[..length].to_vec()));
        for at in 4..sound.len().min(8) {
            for value in 0..=255 {
                let mut changed = sound.clone();
                changed[at] = value;
                messages.push(changed);
            }
        }
    }
    for page in [0, 1, 2, 5, 63] {
        for copy in 0..=9 {
            let frame = rng.within(11, 16);
            let calls = [
                Call::MakeCopy { page, copy, frame },
                Call::DeleteCopy { page, copy },
                Call::SetCurrent { page, copy },
                Call::RemoveCurrent { page, copy },
            ];
            messages.extend(calls.map(|call| call.encode()));
        }
    }
    for offset in 0..=65 {
        for count in 0..=66 {
            let (station, page) = (5, rng.pick(&[0, 2, 5]));
            messages.push(message(VERSION, 4, &[station, page, offset, count]));
            let bytes = rng.bytes(count.into());
            let arguments = [&[station, page, offset], bytes.as_slice()].concat();
            messages.push(message(VERSION, 5, &arguments));
        }
    }
    messages
}
