//! The plain Rust peer: the same kernel, unproved, its tables changed in place behind `&mut`.

use std::hint::black_box;

pub const NULL_FRAME: u8 = 255;
/// What the register has of a frame that no copy is on.
const FREE_ENTRY: u16 = 65535;

#[derive(Clone, Copy)]
pub struct Entry {
    pub frame: u8,
    pub current: bool,
    pub recent: bool,
}

#[derive(Clone, Copy)]
pub struct Page {
    pub rights: [u8; 16],
    pub copies: [Entry; 8],
    pub owner: u8,
    pub n: u8,
}

/// For each frame 8 * page + copy.
type Register = [u16; 254];

/// The tables. Where REGISTER, they keep the register; else it stays as fresh, and the pages are
/// searched for the copy on a frame.
#[derive(Clone)]
pub struct Tables<const REGISTER: bool> {
    pub fast: u8,
    pub slow: u8,
    pub pages: [Page; 64],
    register: Register,
    /// Which frames are retired.
    retired: [bool; 254],
}

/// Messages, refusals and bytes laid.
pub type Tally = [u32; 3];

/// What is forecast: the most frames held, the bytes laid, and how many messages get each number 0
/// to 31.
pub type Figures = [u32; 34];

const FRESH: Entry = Entry {
    frame: NULL_FRAME,
    current: false,
    recent: false,
};

const ABSENT: Page = Page {
    rights: [0; 16],
    copies: [FRESH; 8],
    owner: 0,
    n: 0,
};

/// What the register has of a frame that this copy is on.
fn registered(page: usize, copy: usize) -> u16 {
    (8 * page + copy) as u16
}

impl Entry {
    fn is_fresh(&self) -> bool {
        self.frame == NULL_FRAME && !self.current && !self.recent
    }
}

impl Page {
    pub fn used(&self) -> &[Entry] {
        &self.copies[..usize::from(self.n)]
    }

    /// The rules of page i; enters its copies into the register that is due.
    fn sound(&self, i: usize, limit: u8, due: &mut Register) -> bool {
        if self.n == 0 {
            return self.owner == 0
                && self.rights.iter().all(|&r| r == 0)
                && self.copies.iter().all(Entry::is_fresh);
        }
        if self.owner > 15 || self.n > 8 || self.rights.iter().any(|&r| r > 2) {
            return false;
        }
        let mut recent = false;
        for (k, c) in self.used().iter().enumerate() {
            if c.current && !c.recent {
                return false;
            }
            recent |= c.recent;
            if c.frame == NULL_FRAME {
                if self.n != 1 || !c.recent || c.current {
                    return false;
                }
            } else {
                if c.frame >= limit || due[usize::from(c.frame)] != FREE_ENTRY {
                    return false;
                }
                due[usize::from(c.frame)] = registered(i, k);
            }
        }
        recent
            && self.copies[usize::from(self.n)..]
                .iter()
                .all(Entry::is_fresh)
    }
}

impl<const REGISTER: bool> Tables<REGISTER> {
    pub fn fresh(fast: u8, slow: u8) -> Tables<REGISTER> {
        Tables {
            fast,
            slow,
            pages: [ABSENT; 64],
            register: [FREE_ENTRY; 254],
            retired: [false; 254],
        }
    }

    /// The same without the register.
    pub fn searching(&self) -> Tables<false> {
        Tables {
            pages: self.pages,
            retired: self.retired,
            ..Tables::fresh(self.fast, self.slow)
        }
    }

    /// The test of the table rules.
    pub fn sound(&self) -> bool {
        if self.fast > 127 || self.slow > 127 {
            return false;
        }
        let limit = self.fast + self.slow;
        let mut due = [FREE_ENTRY; 254];
        let mut pages = self.pages.iter().enumerate();
        pages.all(|(i, g)| g.sound(i, limit, &mut due))
            && (!REGISTER || self.register == due)
            && (0..254).all(|f| !self.retired[f] || (f < usize::from(limit) && due[f] == FREE_ENTRY))
    }

    /// The page and number of the copy on a frame.
    pub fn holder(&self, frame: u8) -> Option<(u8, u8)> {
        if REGISTER {
            let held = self.register[usize::from(frame)];
            return (held != FREE_ENTRY).then_some(((held / 8) as u8, (held % 8) as u8));
        }
        for (i, g) in self.pages.iter().enumerate() {
            for (j, c) in g.used().iter().enumerate() {
                if c.frame == frame {
                    return Some((i as u8, j as u8));
                }
            }
        }
        None
    }

    pub fn is_retired(&self, frame: u8) -> bool {
        self.retired[usize::from(frame)]
    }

    /// Puts into the register what it has of a frame from now on; a null copy has no frame.
    fn enter(&mut self, frame: u8, held: u16) {
        if REGISTER && frame != NULL_FRAME {
            self.register[usize::from(frame)] = held;
        }
    }

    /// The tables as the kernel lays them out in bytes.
    pub fn bytes(&self) -> Vec<u8> {
        let mut bytes = vec![self.fast, self.slow];
        for g in &self.pages {
            bytes.extend(g.rights);
            for c in &g.copies {
                bytes.extend([c.frame, c.current as u8, c.recent as u8]);
            }
            bytes.extend([g.owner, g.n]);
        }
        for frame in 0..254 {
            let held = self.holder(frame);
            let held = held.map_or(FREE_ENTRY, |(page, copy)| {
                registered(page.into(), copy.into())
            });
            let held = if self.retired[frame as usize] { 0xF0F0 } else { held };
            bytes.extend(held.to_le_bytes());
        }
        bytes
    }
}

/// Every message of a call file, or none where one is cut short.
#[inline]
fn each_message<'a>(file: &'a [u8], mut visit: impl FnMut(Option<&'a [u8]>)) {
    let mut rest = file;
    while !rest.is_empty() {
        let whole = rest.split_first_chunk().and_then(|(&length, after)| {
            after.split_at_checked(usize::from(u16::from_be_bytes(length)))
        });
        visit(whole.map(|(m, _)| m));
        rest = whole.map_or(&[], |(_, after)| after);
    }
}

/// What a message works on.
#[derive(Clone)]
pub struct Peer<const REGISTER: bool> {
    pub tables: Tables<REGISTER>,
    pub fast: Vec<u8>,
    pub slow: Vec<u8>,
    pub out: Vec<u8>,
    pub tally: Tally,
}

/// What a step comes to: the bytes laid and the length of its data, or a number.
type Step = Result<(u16, usize), u8>;

fn test(ok: bool, number: u8) -> Result<(), u8> {
    if ok {
        Ok(())
    } else {
        Err(number)
    }
}

fn frame<'a>(p: u8, fast: &'a [u8], slow: &'a [u8], f: u8) -> &'a [u8] {
    if f < p {
        &fast[64 * usize::from(f)..][..64]
    } else {
        &slow[64 * usize::from(f - p)..][..64]
    }
}

fn frame_mut<'a>(p: u8, fast: &'a mut [u8], slow: &'a mut [u8], f: u8) -> &'a mut [u8] {
    if f < p {
        &mut fast[64 * usize::from(f)..][..64]
    } else {
        &mut slow[64 * usize::from(f - p)..][..64]
    }
}

/// The version, kind and length of a message.
fn shape(m: &[u8]) -> Result<(), u8> {
    test(!m.is_empty() && m[0] == 1, 2)?;
    test(m.len() > 1, 3)?;
    let ok = match m[1] {
        1 | 2 | 7 | 8 | 9 => m.len() == 4,
        3 | 4 => m.len() == 6,
        5 => (6..=69).contains(&m.len()),
        6 => m.len() == 5,
        10..=12 => m.len() == 3,
        _ => return Err(3),
    };
    test(ok, 4)
}

/// Kinds 1 to 5, which name a station. Where not LAYS, here and below, stores and data play no part.
fn station_step<const REGISTER: bool, const LAYS: bool>(
    t: &mut Tables<REGISTER>,
    fast: &mut [u8],
    slow: &mut [u8],
    m: &[u8],
    data: &mut [u8],
) -> Step {
    let p = t.fast;
    let (station, page) = (m[2], m[3]);
    test(station <= 15 && page <= 63, 7)?;
    let g = &mut t.pages[usize::from(page)];
    let s = usize::from(station);
    match m[1] {
        1 => {
            test(g.n == 0, 8)?;
            *g = ABSENT;
            g.owner = station;
            g.rights = [1; 16];
            g.rights[s] = 2;
            g.n = 1;
            g.copies[0].recent = true;
            Ok((0, 0))
        }
        2 => {
            test(g.n != 0, 9)?;
            test(g.owner == station, 10)?;
            let mut laid = 0;
            for c in std::mem::replace(g, ABSENT).used() {
                if c.frame != NULL_FRAME {
                    t.enter(c.frame, FREE_ENTRY);
                    if LAYS {
                        frame_mut(p, fast, slow, c.frame).fill(0);
                    }
                    laid += 64;
                }
            }
            Ok((laid, 0))
        }
        3 => {
            let (other, right) = (m[4], m[5]);
            test(other <= 15 && right <= 2, 7)?;
            test(g.n != 0, 9)?;
            test(g.owner == station, 10)?;
            g.rights[usize::from(other)] = right;
            Ok((0, 0))
        }
        4 => {
            let (o, count) = (usize::from(m[4]), usize::from(m[5]));
            test(o <= 63 && count != 0 && o + count <= 64, 7)?;
            test(g.n != 0, 9)?;
            test(g.rights[s] >= 1, 10)?;
            let f = g.used().iter().find(|c| c.current).ok_or(11)?.frame;
            if LAYS {
                data[..count].copy_from_slice(&frame(p, fast, slow, f)[o..o + count]);
            }
            Ok((0, count))
        }
        _ => {
            let (o, bytes) = (usize::from(m[4]), &m[5..]);
            test(o <= 63 && o + bytes.len() <= 64, 7)?;
            test(g.n != 0, 9)?;
            test(g.rights[s] >= 2, 10)?;
            let used = &mut g.copies[..usize::from(g.n)];
            let currents = used.iter().filter(|c| c.current).count();
            test(currents != 0, 11)?;
            for c in used {
                if !c.current {
                    c.recent = false;
                } else if LAYS {
                    frame_mut(p, fast, slow, c.frame)[o..o + bytes.len()].copy_from_slice(bytes);
                }
            }
            Ok(((bytes.len() * currents) as u16, 0))
        }
    }
}

/// Kinds 6 to 12.
fn placement_step<const REGISTER: bool, const LAYS: bool>(
    t: &mut Tables<REGISTER>,
    fast: &mut [u8],
    slow: &mut [u8],
    m: &[u8],
    data: &mut [u8],
) -> Step {
    let p = t.fast;
    let limit = t.fast + t.slow;
    let kind = m[1];
    if kind == 11 {
        let f = m[2];
        test(f < limit, 7)?;
        let shown = match t.holder(f) {
            Some((page, copy)) => [1, page, copy],
            None if t.is_retired(f) => [2, 255, 255],
            None => [0, 255, 255],
        };
        if LAYS {
            data[..3].copy_from_slice(&shown);
        }
        return Ok((0, 3));
    }
    if kind == 12 {
        let f = m[2];
        test(f < limit, 7)?;
        test(t.holder(f).is_none(), 13)?;
        t.retired[usize::from(f)] = true;
        return Ok((0, 0));
    }
    test(m[2] <= 63, 7)?;
    let page = usize::from(m[2]);
    if kind == 10 {
        let g = &t.pages[page];
        test(g.n != 0, 9)?;
        if LAYS {
            data[0] = g.n;
            for (c, shown) in g.used().iter().zip(data[1..].chunks_exact_mut(3)) {
                shown.copy_from_slice(&[c.frame, c.current as u8, c.recent as u8]);
            }
        }
        return Ok((0, 1 + 3 * usize::from(g.n)));
    }
    let number = m[3];
    if kind == 6 {
        let f = m[4];
        test(f < limit, 7)?;
        let g = &t.pages[page];
        test(g.n != 0, 9)?;
        test(number < g.n, 12)?;
        test(!t.is_retired(f), 20)?;
        test(t.holder(f).is_none(), 13)?;
        let g = &mut t.pages[page];
        test(g.n < 8, 14)?;
        let from = g.copies[usize::from(number)];
        let k = if from.frame == NULL_FRAME {
            if LAYS {
                frame_mut(p, fast, slow, f).fill(0);
            }
            g.copies[0].frame = f;
            0
        } else {
            if LAYS {
                let mut bytes = [0; 64];
                bytes.copy_from_slice(frame(p, fast, slow, from.frame));
                frame_mut(p, fast, slow, f).copy_from_slice(&bytes);
            }
            g.copies[usize::from(g.n)] = Entry {
                frame: f,
                current: false,
                recent: from.recent,
            };
            g.n += 1;
            usize::from(g.n) - 1
        };
        t.enter(f, registered(page, k));
        return Ok((64, 0));
    }
    let g = &mut t.pages[page];
    test(g.n != 0, 9)?;
    test(number < g.n, 12)?;
    let (k, n) = (usize::from(number), usize::from(g.n));
    match kind {
        7 => {
            let recents = g.used().iter().filter(|c| c.recent).count();
            test(!g.copies[k].recent || recents != 1, 15)?;
            // Not null: a null copy is the only MOST RECENT one.
            let freed = g.copies[k].frame;
            if LAYS {
                frame_mut(p, fast, slow, freed).fill(0);
            }
            g.copies.copy_within(k + 1..n, k);
            g.copies[n - 1] = FRESH;
            g.n -= 1;
            t.enter(freed, FREE_ENTRY);
            for k in k..n - 1 {
                t.enter(t.pages[page].copies[k].frame, registered(page, k));
            }
            Ok((64, 0))
        }
        8 => {
            test(g.copies[k].frame != NULL_FRAME, 17)?;
            test(g.copies[k].recent, 16)?;
            g.copies[k].current = true;
            Ok((0, 0))
        }
        _ => {
            g.copies[k].current = false;
            Ok((0, 0))
        }
    }
}

/// A message of the right shape.
#[inline]
fn step<const REGISTER: bool, const LAYS: bool>(
    t: &mut Tables<REGISTER>,
    fast: &mut [u8],
    slow: &mut [u8],
    m: &[u8],
    data: &mut [u8],
) -> Step {
    if m[1] <= 5 {
        station_step::<REGISTER, LAYS>(t, fast, slow, m, data)
    } else {
        placement_step::<REGISTER, LAYS>(t, fast, slow, m, data)
    }
}

impl<const REGISTER: bool> Tables<REGISTER> {
    /// On how many frames copies are.
    fn held(&self) -> u32 {
        let copies = self.pages.iter().flat_map(Page::used);
        copies.filter(|c| c.frame != NULL_FRAME).count() as u32
    }

    /// One message, or none where it is cut short, without any store.
    #[inline]
    fn foresee(&mut self, m: Option<&[u8]>) -> Step {
        let m = m.ok_or(1)?;
        shape(m)?;
        step::<REGISTER, false>(self, &mut [], &mut [], m, &mut [])
    }

    /// The forecast of a call file from these tables, which come to its end.
    #[inline(never)]
    pub fn forecast_by_rust(&mut self, file: &[u8]) -> Figures {
        let mut held = self.held();
        let (mut most, mut laid, mut counts) = (held, 0_u32, [0_u32; 32]);
        each_message(file, |m| {
            let (number, more) = match self.foresee(m) {
                Ok((laid, _)) => (0, u32::from(laid)),
                Err(number) => (usize::from(number), 0),
            };
            counts[number] = counts[number].saturating_add(1);
            laid = laid.saturating_add(more);
            match m {
                Some([_, 6, ..]) if number == 0 => held += 1,
                Some([_, 2 | 7, ..]) => held -= more / 64,
                _ => (),
            }
            most = most.max(held);
        });
        let mut figures = [0; 34];
        figures[..2].copy_from_slice(&[most, laid]);
        figures[2..].copy_from_slice(&counts);
        figures
    }
}

impl<const REGISTER: bool> Peer<REGISTER> {
    pub fn fresh(fast: u8, slow: u8) -> Peer<REGISTER> {
        Peer {
            tables: Tables::fresh(fast, slow),
            fast: vec![0; 64 * usize::from(fast)],
            slow: vec![0; 64 * usize::from(slow)],
            out: vec![0; 70],
            tally: [0; 3],
        }
    }

    /// The same without the register.
    pub fn searching(&self) -> Peer<false> {
        Peer {
            tables: self.tables.searching(),
            fast: self.fast.clone(),
            slow: self.slow.clone(),
            out: self.out.clone(),
            tally: self.tally,
        }
    }

    fn rules(&self) -> Result<(), u8> {
        let t = &self.tables;
        test(t.sound(), 5)?;
        let fits = self.fast.len() == 64 * usize::from(t.fast)
            && self.slow.len() == 64 * usize::from(t.slow);
        test(fits, 6)
    }

    /// One message, or none where it is cut short; where CHECKED, the table rules are tested first.
    #[inline]
    pub fn message<const CHECKED: bool>(&mut self, m: Option<&[u8]>) {
        let (number, laid, len) = match self.outcome::<CHECKED>(m) {
            Ok((laid, len)) => (0, laid, len),
            Err(number) => (number, 0, 0),
        };
        let [messages, refusals, bytes] = &mut self.tally;
        *messages = messages.saturating_add(1);
        *refusals = refusals.saturating_add(u32::from(number != 0));
        *bytes = bytes.saturating_add(u32::from(laid));
        if self.out.len() >= 70 {
            let [high, low] = laid.to_be_bytes();
            self.out[..6].copy_from_slice(&[0, 4 + len as u8, 1, number, high, low]);
        }
    }

    #[inline]
    fn outcome<const CHECKED: bool>(&mut self, m: Option<&[u8]>) -> Step {
        test(self.out.len() >= 70, 18)?;
        let m = m.ok_or(1)?;
        shape(m)?;
        if CHECKED {
            self.rules()?;
        }
        let (fast, slow, data) = (&mut self.fast, &mut self.slow, &mut self.out[6..70]);
        step::<REGISTER, true>(&mut self.tables, fast, slow, m, data)
    }

    /// A run over a call file; each reply goes over the one before it.
    #[inline(never)]
    pub fn run_by_rust<const CHECKED: bool>(&mut self, file: &[u8]) {
        each_message(file, |m| self.message::<CHECKED>(m));
    }

    /// Tests the rules so many times, each time with another owner of page 0; gives how often they
    /// held.
    #[inline(never)]
    pub fn sound_by_rust(&mut self, times: u32) -> u32 {
        let mut held = 0;
        for i in 0..times {
            self.tables.pages[0].owner = (i % 16) as u8;
            held += u32::from(black_box(&self.tables).sound());
        }
        held
    }
}
