//! Call files, made up beside a peer that keeps the tables: a shift of placement moves with reads,
//! writes, looks and some refusals, a steady round of calls on tables of a given size, deletes, and
//! calls that retire frames. The shift has none of the last, and its readers are those that were
//! granted a right, as before request [6]: its bytes are the same, and its figures stay comparable.

use crate::peer::{Peer, Tables, NULL_FRAME};

struct Random(u64);

impl Random {
    fn next(&mut self) -> u64 {
        self.0 ^= self.0 << 13;
        self.0 ^= self.0 >> 7;
        self.0 ^= self.0 << 17;
        self.0.wrapping_mul(0x2545F4914F6CDD1D) >> 32
    }

    fn below(&mut self, n: usize) -> usize {
        self.next() as usize % n
    }
}

/// How many messages a file has, and of which kinds.
#[derive(Default)]
pub struct Counts {
    pub messages: usize,
    pub moves: usize,
    pub reads: usize,
    pub writes: usize,
    pub looks: usize,
    pub refused: usize,
}

/// In every hundred moves of a shift, so many of these come between them.
pub struct Mix {
    pub reads: usize,
    pub writes: usize,
    pub looks_and_grants: usize,
    pub wrong: usize,
}

/// Sends a message about a page.
type Sender = fn(&mut Calls, usize);

/// A call file that grows, and the state that its messages lead to.
pub struct Calls {
    pub peer: Peer<true>,
    pub file: Vec<u8>,
    pub counts: Counts,
    /// For each page the rights that its owner gave and has; 0 where a station has right 1 from the
    /// creation alone.
    granted: [[u8; 16]; 64],
    random: Random,
}

impl Calls {
    pub fn new(fast: u8, slow: u8) -> Calls {
        Calls {
            peer: Peer::fresh(fast, slow),
            file: vec![],
            counts: Counts::default(),
            granted: [[0; 16]; 64],
            random: Random(0x9E3779B97F4A7C15),
        }
    }

    /// Begins a file at the state that this one leads to.
    pub fn begin(&mut self) {
        self.file.clear();
        self.counts = Counts::default();
        self.peer.tally = [0; 3];
    }

    fn tables(&self) -> &Tables<true> {
        &self.peer.tables
    }

    pub fn held(&self) -> usize {
        let pages = self.tables().pages.iter();
        pages
            .flat_map(|g| g.used())
            .filter(|c| c.frame != NULL_FRAME)
            .count()
    }

    fn send(&mut self, m: &[u8]) {
        self.peer.message::<false>(Some(m));
        self.file.extend((m.len() as u16).to_be_bytes());
        self.file.extend(m);
        let counts = &mut self.counts;
        counts.messages += 1;
        counts.refused += usize::from(self.peer.out[3] != 0);
        match m.get(1) {
            Some(4) => counts.reads += 1,
            Some(5) => counts.writes += 1,
            Some(6..=9) => counts.moves += 1,
            Some(10 | 11) => counts.looks += 1,
            _ => (),
        }
        if self.peer.out[3] == 0 {
            self.note_grant(m);
        }
    }

    /// Keeps what an accepted creation or grant gives.
    fn note_grant(&mut self, m: &[u8]) {
        match m[1..] {
            [1, station, page] => {
                let granted = &mut self.granted[usize::from(page)];
                *granted = [0; 16];
                granted[usize::from(station)] = 2;
            }
            [3, _, page, other, right] => {
                self.granted[usize::from(page)][usize::from(other)] = right;
            }
            _ => (),
        }
    }

    fn free_frame(&mut self) -> Option<u8> {
        let limit = usize::from(self.tables().fast + self.tables().slow);
        let start = self.random.below(limit);
        let mut frames = (0..limit).map(|k| ((start + k) % limit) as u8);
        let tables = self.tables();
        frames.find(|&f| tables.holder(f).is_none() && !tables.is_retired(f))
    }

    /// A page with a current copy, and rights for some stations.
    fn create(&mut self, page: u8) {
        let station = self.random.below(16) as u8;
        self.send(&[1, 1, station, page]);
        for _ in 0..3 {
            let (other, right) = (self.random.below(16) as u8, self.random.below(3) as u8);
            self.send(&[1, 3, station, page, other, right]);
        }
        self.send(&[1, 3, station, page, station, 2]);
        let frame = self.free_frame().expect("a free frame");
        self.send(&[1, 6, page, 0, frame]);
        self.send(&[1, 8, page, 0]);
    }

    /// Creates 64 pages, and makes copies until no frame is free.
    pub fn fill(&mut self) {
        for page in 0..64 {
            self.create(page);
        }
        while let Some(frame) = self.free_frame() {
            let page = self.random.below(64);
            let g = self.tables().pages[page];
            if g.n == 8 {
                continue;
            }
            let from = g.used().iter().position(|c| c.current).unwrap_or(0);
            self.send(&[1, 6, page as u8, from as u8, frame]);
            if self.random.below(3) == 0 {
                self.send(&[1, 8, page as u8, g.n]);
            }
        }
    }

    /// One move of the placement module on some page. A copy is deleted only while more frames than
    /// `least` are held. There may be nothing to move.
    fn place(&mut self, least: usize) {
        let page = self.random.below(64);
        let g = self.tables().pages[page];
        let (page, used) = (page as u8, g.used());
        match self.random.below(4) {
            0 if g.n < 8 => {
                let some = self.random.below(used.len());
                let from = used.iter().position(|c| c.current).unwrap_or(some);
                if let Some(frame) = self.free_frame() {
                    self.send(&[1, 6, page, from as u8, frame]);
                }
            }
            1 if g.n > 1 && self.held() > least => {
                let stale = used.iter().position(|c| !c.recent);
                let recents = used.iter().filter(|c| c.recent).count();
                if stale.is_some() || recents > 1 {
                    self.send(&[1, 7, page, stale.unwrap_or(used.len() - 1) as u8]);
                }
            }
            2 => {
                if let Some(k) = used.iter().position(|c| c.recent && !c.current) {
                    self.send(&[1, 8, page, k as u8]);
                }
            }
            3 if used.iter().filter(|c| c.current).count() > 1 => {
                let k = used.iter().position(|c| c.current).unwrap_or(0);
                self.send(&[1, 9, page, k as u8]);
            }
            _ => (),
        }
    }

    /// A station that was granted such a right to the page, if there is any.
    fn station(&mut self, page: usize, right: u8) -> u8 {
        let start = self.random.below(16);
        let mut stations = (0..16).map(|k| (start + k) % 16);
        let granted = self.granted[page];
        stations.find(|&s| granted[s] >= right).unwrap_or(start) as u8
    }

    fn read(&mut self, page: usize) {
        let station = self.station(page, 1);
        let offset = self.random.below(64);
        let count = 1 + self.random.below(64 - offset);
        self.send(&[1, 4, station, page as u8, offset as u8, count as u8]);
    }

    fn write(&mut self, page: usize) {
        let station = self.station(page, 2);
        let offset = self.random.below(64);
        let count = 1 + self.random.below(64 - offset);
        let mut m = vec![1, 5, station, page as u8, offset as u8];
        m.extend((0..count).map(|_| self.random.next() as u8));
        self.send(&m);
    }

    fn grant(&mut self, page: usize) {
        let owner = self.tables().pages[page].owner;
        let other = self.random.below(16) as u8;
        let right = if other == owner {
            2
        } else {
            self.random.below(3) as u8
        };
        self.send(&[1, 3, owner, page as u8, other, right]);
    }

    fn look_frame(&mut self) {
        let frame = self.random.below(254) as u8;
        self.send(&[1, 11, frame]);
    }

    /// Looks at frames, so many.
    pub fn frames(&mut self, looks: usize) {
        for _ in 0..looks {
            self.look_frame();
        }
    }

    fn look_or_grant(&mut self, page: usize) {
        match self.random.below(10) {
            0..=3 => self.send(&[1, 10, page as u8]),
            4..=6 => self.look_frame(),
            _ => self.grant(page),
        }
    }

    /// A message that is refused.
    fn wrong(&mut self, page: usize) {
        let g = self.tables().pages[page];
        let page = page as u8;
        match self.random.below(10) {
            0 => self.send(&[1, 1, 3, page]),
            1 => self.send(&[1, 2, (g.owner + 1) % 16, page]),
            2 => self.send(&[1, 4, 3, page, 63, 2]),
            3 => self.send(&[1, 7, page, g.n]),
            4 => self.send(&[1, 6, page, 0, 254]),
            5 => self.send(&[1, 6, page, 0, g.copies[0].frame]),
            6 => self.send(&[2, 4, 0, 0, 0, 1]),
            7 => self.send(&[1, 13, 0]),
            8 => self.send(&[1, 9, page]),
            _ => self.send(&[1, 8, page, 9]),
        }
    }

    /// Moves on full tables until the file has so many, and between them what the mix says.
    pub fn shift(&mut self, moves: usize, least: usize, mix: &Mix) {
        let between: [(usize, Sender); 4] = [
            (mix.reads, Calls::read),
            (mix.writes, Calls::write),
            (mix.looks_and_grants, Calls::look_or_grant),
            (mix.wrong, Calls::wrong),
        ];
        while self.counts.moves < moves {
            let before = self.counts.moves;
            self.place(least);
            if self.counts.moves == before {
                continue;
            }
            for (share, send) in between {
                let more = self.random.below(100) < share % 100;
                for _ in 0..share / 100 + usize::from(more) {
                    let page = self.random.below(64);
                    send(self, page);
                }
            }
        }
    }

    /// So many pages, each with so many copies, all current.
    pub fn spread(&mut self, pages: u8, copies: u8) {
        for page in 0..pages {
            self.create(page);
            for k in 1..copies {
                let frame = self.free_frame().expect("a free frame");
                self.send(&[1, 6, page, 0, frame]);
                self.send(&[1, 8, page, k]);
            }
        }
    }

    /// Of one of so many pages a copy is made and one deleted, any of them; so many times.
    pub fn copies_in_turn(&mut self, pages: usize, times: usize) {
        for _ in 0..times {
            let page = self.random.below(pages) as u8;
            let frame = self.free_frame().expect("a free frame");
            self.send(&[1, 6, page, 0, frame]);
            self.delete_copy(page);
        }
    }

    /// A page is created, copied until it has so many copies, and deleted; so many times.
    pub fn pages_in_turn(&mut self, page: u8, copies: u8, times: usize) {
        for _ in 0..times {
            let station = self.random.below(16) as u8;
            self.send(&[1, 1, station, page]);
            for _ in 0..copies {
                let frame = self.free_frame().expect("a free frame");
                self.send(&[1, 6, page, 0, frame]);
            }
            self.send(&[1, 2, station, page]);
        }
    }

    /// Deletes any copy of a page.
    fn delete_copy(&mut self, page: u8) {
        let n = self.tables().pages[usize::from(page)].n;
        let copy = self.random.below(n.into()) as u8;
        self.send(&[1, 7, page, copy]);
    }

    /// The owner of page 0 grants station 15 another right than it has.
    pub fn grant_anew(&mut self) {
        let g = self.tables().pages[0];
        self.send(&[1, 3, g.owner, 0, 15, (g.rights[15] + 1) % 3]);
    }

    /// Deletes copies of so many pages, of each in turn, until each has one left.
    pub fn delete_copies(&mut self, pages: u8) {
        while self.tables().pages[0].n > 1 {
            (0..pages).for_each(|page| self.delete_copy(page));
        }
    }

    /// Deletes so many pages, each by its owner.
    pub fn delete_pages(&mut self, pages: u8) {
        for page in 0..pages {
            let owner = self.tables().pages[usize::from(page)].owner;
            self.send(&[1, 2, owner, page]);
        }
    }

    /// Retires every free frame.
    pub fn retire_free(&mut self) {
        while let Some(frame) = self.free_frame() {
            self.send(&[1, 12, frame]);
        }
    }

    /// A retired frame is looked at, copied to from one of so many pages, which is refused, and retired
    /// again; so many times.
    pub fn retired_in_turn(&mut self, pages: usize, times: usize) {
        let frames = 0..self.tables().fast + self.tables().slow;
        let retired: Vec<u8> = frames.filter(|&f| self.tables().is_retired(f)).collect();
        for _ in 0..times {
            let frame = retired[self.random.below(retired.len())];
            let page = self.random.below(pages) as u8;
            self.send(&[1, 11, frame]);
            self.send(&[1, 6, page, 0, frame]);
            self.send(&[1, 12, frame]);
        }
    }

    /// Rounds of accepted calls on such pages, which leave every page with as many copies.
    pub fn steady(&mut self, pages: usize, rounds: usize) {
        for _ in 0..rounds {
            let page = self.random.below(pages);
            self.read(page);
            self.read(page);
            self.write(page);
            self.grant(page);
            self.look_frame();
            let g = self.tables().pages[page];
            let frame = self.free_frame().expect("a free frame");
            let page = page as u8;
            self.send(&[1, 10, page]);
            self.send(&[1, 9, page, g.n - 1]);
            self.send(&[1, 8, page, g.n - 1]);
            if g.n < 8 {
                self.send(&[1, 6, page, 0, frame]);
                self.send(&[1, 7, page, g.n]);
            } else {
                self.send(&[1, 7, page, 7]);
                self.send(&[1, 6, page, 0, frame]);
                self.send(&[1, 8, page, 7]);
            }
        }
    }
}
