//! The kernel fed message by message, and pages and frames as its own looks show them in between.

use crate::kinds::{kind_byte, Argument, Call};
use kernel::{Answer, Unit, MESSAGE, MOST_FRAMES};

pub const PAGES: usize = 64;
pub const STATIONS: u8 = 16;
/// So many frames a unit has at the most, fast and slow ones.
pub const MOST_FRAMES_OF_BOTH: u8 = 2 * MOST_FRAMES;

/// The reader's refusal of a kind that it does not know.
const UNKNOWN_KIND: u8 = 3;
const LOOK_AT_PAGE: u8 = 10;
const LOOK_AT_FRAME: u8 = 11;
/// What a look shows first of a retired frame.
const RETIRED: u8 = 2;
/// The frame of a null copy in a look.
pub const NO_FRAME: u8 = 255;

/// How recent a copy is. A CURRENT one is MOST RECENT too.
#[derive(Clone, Copy, Debug, PartialEq, Eq)]
pub enum Mark {
    Current,
    Recent,
    Stale,
}

impl Mark {
    pub fn word(self) -> &'static str {
        match self {
            Mark::Current => "CURRENT",
            Mark::Recent => "MOST RECENT",
            Mark::Stale => "stale",
        }
    }
}

/// A copy as a look at its page shows it.
#[derive(Clone, Copy, Debug, PartialEq, Eq)]
pub struct PageCopy {
    /// None for a null copy.
    pub frame: Option<u8>,
    pub mark: Mark,
}

/// The copies that a look at a page told.
pub fn copies_of(told: &[u8]) -> Vec<PageCopy> {
    let entries = told.get(1..).unwrap_or_default().chunks_exact(3);
    entries
        .map(|entry| copy_of(entry[0], entry[1] != 0, entry[2] != 0))
        .collect()
}

fn copy_of(frame: u8, current: bool, recent: bool) -> PageCopy {
    let mark = match (current, recent) {
        (true, _) => Mark::Current,
        (_, true) => Mark::Recent,
        _ => Mark::Stale,
    };
    PageCopy {
        frame: (frame != NO_FRAME).then_some(frame),
        mark,
    }
}

/// The reply to a message.
#[derive(Clone, Debug, PartialEq, Eq)]
pub struct Reply {
    /// 0 accepted, else the number of the refusal.
    pub number: u8,
    /// The bytes laid.
    pub laid: u16,
    /// The bytes of a read or look.
    pub data: Vec<u8>,
}

impl Reply {
    /// The reply to a message, as the kernel's reader takes it apart. It refuses one alone, 3: that to
    /// a message without a kind that it knows, which was turned back, and the answer has the number.
    pub fn to(message: &[u8], answer: Answer) -> Reply {
        match kernel::read_reply(kind_byte(message), answer.reply) {
            Ok(told) => Reply {
                number: told.number,
                laid: told.laid,
                data: told.data(answer.reply).to_vec(),
            },
            Err(UNKNOWN_KIND) => Reply {
                number: answer.number,
                laid: answer.laid,
                data: Vec::new(),
            },
            Err(number) => unreachable!("a reply of the kernel is refused {number}"),
        }
    }
}

/// What is on a frame.
#[derive(Clone, Copy, Debug, PartialEq, Eq)]
pub enum OnFrame {
    Nothing,
    Retired,
    Copy { page: u8, number: u8, mark: Mark },
}

/// A unit that is fed a call file and looked at in between.
pub struct Watched {
    unit: Unit,
    pages: Vec<Vec<PageCopy>>,
    frames: Vec<OnFrame>,
    changed: Vec<u8>,
    touched: Vec<u8>,
    newly_retired: Option<u8>,
    is_watching: bool,
}

impl Watched {
    /// A unit as it is before the first message.
    pub fn start(unit: Unit) -> Watched {
        let (fast, slow) = unit.frames();
        let mut watched = Watched {
            unit,
            pages: vec![Vec::new(); PAGES],
            frames: vec![OnFrame::Nothing; usize::from(fast) + usize::from(slow)],
            changed: Vec::new(),
            touched: Vec::new(),
            newly_retired: None,
            is_watching: true,
        };
        watched.look_around();
        watched
    }

    /// Fresh tables, or the number of the refusal.
    pub fn fresh(fast: u8, slow: u8) -> Result<Watched, u8> {
        Unit::fresh(fast, slow).map(Watched::start)
    }

    /// From now on nothing is looked at after a message.
    pub fn close_eyes(&mut self) {
        self.is_watching = false;
    }

    /// Looks at every page and frame.
    pub fn look_around(&mut self) {
        for page in 0..PAGES as u8 {
            self.look_at_page(page);
        }
        for frame in 0..self.frames.len() as u8 {
            self.look_at_frame(frame);
        }
        self.forget();
    }

    /// What the last message did is told no more.
    fn forget(&mut self) {
        self.changed.clear();
        self.touched.clear();
        self.newly_retired = None;
    }

    pub fn unit(&self) -> &Unit {
        &self.unit
    }

    /// How many fast and slow frames there are.
    pub fn frames(&self) -> (u8, u8) {
        self.unit.frames()
    }

    /// The copies of a page; none if it does not stand.
    pub fn copies(&self, page: u8) -> &[PageCopy] {
        self.pages.get(usize::from(page)).map_or(&[], Vec::as_slice)
    }

    pub fn on_frame(&self, frame: u8) -> OnFrame {
        self.frames[usize::from(frame)]
    }

    /// What is on each frame.
    pub fn on_frames(&self) -> &[OnFrame] {
        &self.frames
    }

    /// The pages whose copies or marks the last message changed.
    pub fn changed(&self) -> &[u8] {
        &self.changed
    }

    /// The frames on which the last message changed something, and those that it laid bytes into.
    pub fn touched(&self) -> &[u8] {
        &self.touched
    }

    /// The frame that the last message retired.
    pub fn newly_retired(&self) -> Option<u8> {
        self.newly_retired
    }

    /// Answers the next message of the file, then looks at what it may have changed.
    pub fn feed(&mut self, message: &[u8]) -> Reply {
        let reply = self.answer(message);
        self.forget();
        if self.is_watching && reply.number == 0 {
            self.look_after(message);
        }
        reply
    }

    fn answer(&mut self, message: &[u8]) -> Reply {
        Reply::to(message, self.unit.answer(message))
    }

    /// Looks where an accepted message may have changed something: at the page it names, at the
    /// frame if it names no page, or at every page if it names neither or is of a kind that is not
    /// known here.
    fn look_after(&mut self, message: &[u8]) {
        let call = Call::parse(message);
        if call.as_ref().is_some_and(|call| !call.kind.changes) {
            return;
        }
        let named = |wanted| call.as_ref().and_then(|call| call.argument(wanted));
        let pages = match (named(Argument::Page), named(Argument::Frame)) {
            (Some(page), _) => page..=page,
            (None, Some(frame)) => return self.look_at_frame(frame),
            (None, None) => 0..=PAGES as u8 - 1,
        };
        self.changed = pages.filter(|&page| self.look_at_page(page)).collect();
        if let Some(page) =
            named(Argument::Page).filter(|_| call.is_some_and(|call| call.kind.has_bytes()))
        {
            self.touch_current(page);
        }
    }

    /// A write has laid its bytes into the CURRENT copies.
    fn touch_current(&mut self, page: u8) {
        let copies = self.pages.get(usize::from(page)).into_iter().flatten();
        let current = copies.filter(|copy| copy.mark == Mark::Current);
        self.touched.extend(current.filter_map(|copy| copy.frame));
    }

    /// Looks at a frame; notes it where it is retired and was not before.
    fn look_at_frame(&mut self, frame: u8) {
        let is_retired = self.shown(LOOK_AT_FRAME, frame).first() == Some(&RETIRED);
        let seen = self.on_frame(frame) == OnFrame::Retired;
        self.newly_retired = (is_retired && !seen).then_some(frame);
        if self.newly_retired.is_some() {
            self.put(frame, OnFrame::Retired);
        }
    }

    /// Looks at a page; whether it shows other copies or marks than before.
    fn look_at_page(&mut self, page: u8) -> bool {
        let copies = copies_of(&self.shown(LOOK_AT_PAGE, page));
        let Some(seen) = self.pages.get_mut(usize::from(page)) else {
            return false;
        };
        if *seen == copies {
            return false;
        }
        let before = std::mem::replace(seen, copies.clone());
        for frame in before.iter().filter_map(|copy| copy.frame) {
            if copies.iter().all(|copy| copy.frame != Some(frame)) {
                self.put(frame, OnFrame::Nothing);
            }
        }
        for (number, copy) in (0..).zip(copies) {
            if let PageCopy {
                frame: Some(frame),
                mark,
            } = copy
            {
                self.put(frame, OnFrame::Copy { page, number, mark });
            }
        }
        true
    }

    fn put(&mut self, frame: u8, now: OnFrame) {
        let before = std::mem::replace(&mut self.frames[usize::from(frame)], now);
        if before != now {
            self.touched.push(frame);
        }
    }

    /// The data of a look of this kind at a page or frame; none where it is refused.
    fn shown(&mut self, kind: u8, at: u8) -> Vec<u8> {
        let mut message = [0; MESSAGE];
        match kernel::write(kind, [at, 0, 0, 0], &[], &mut message) {
            Ok(length) => self.answer(&message[..length]).data,
            Err(_) => Vec::new(),
        }
    }
}

#[cfg(test)]
mod tests {
    use super::{Mark, PageCopy, Watched};

    #[test]
    fn a_page_made_copied_and_deleted() {
        let mut watched = Watched::fresh(1, 1).unwrap();
        let mut changed = |message: &[u8]| {
            assert_eq!(watched.feed(message).number, 0);
            (watched.changed().to_vec(), watched.copies(5).to_vec())
        };
        let copy = |frame, mark| vec![PageCopy { frame, mark }];
        let steps: [(&[u8], _, _); 5] = [
            (&[0, 4, 1, 1, 3, 5], vec![5], copy(None, Mark::Recent)),
            (&[0, 5, 1, 6, 5, 0, 1], vec![5], copy(Some(1), Mark::Recent)),
            (&[0, 4, 1, 8, 5, 0], vec![5], copy(Some(1), Mark::Current)),
            (&[0, 4, 1, 8, 5, 0], vec![], copy(Some(1), Mark::Current)),
            (&[0, 4, 1, 2, 3, 5], vec![5], vec![]),
        ];
        for (message, pages, copies) in steps {
            assert_eq!(changed(message), (pages, copies), "{message:?}");
        }
    }

    #[test]
    fn a_frame_is_retired_once() {
        let mut watched = Watched::fresh(1, 1).unwrap();
        let steps: [(&[u8], u8, Option<u8>); 6] = [
            (&[0, 4, 1, 1, 3, 5], 0, None),
            (&[0, 5, 1, 6, 5, 0, 0], 0, None),
            (&[0, 3, 1, 12, 0], 13, None),
            (&[0, 3, 1, 12, 1], 0, Some(1)),
            (&[0, 3, 1, 12, 1], 0, None),
            (&[0, 3, 1, 12, 2], 7, None),
        ];
        for (message, number, frame) in steps {
            let given = (watched.feed(message).number, watched.newly_retired());
            assert_eq!(given, (number, frame), "{message:?}");
        }
        assert_eq!(watched.copies(5).len(), 1);
    }

    #[test]
    fn replies_to_calls_and_to_broken_messages() {
        let mut watched = Watched::fresh(1, 1).unwrap();
        let turns: [(&[u8], u8, u16, &[u8]); 13] = [
            (&[0, 4, 1, 1, 3, 5], 0, 0, &[]),
            (&[0, 5, 1, 6, 5, 0, 1], 0, 64, &[]),
            (&[0, 3, 1, 10, 5], 0, 0, &[1, 1, 0, 1]),
            (&[0, 3, 1, 11, 1], 0, 0, &[1, 5, 0]),
            (&[0, 3, 1, 12, 0], 0, 0, &[]),
            (&[0, 3, 1, 11, 0], 0, 0, &[2, 255, 255]),
            (&[0, 5, 1, 6, 5, 0, 0], 20, 0, &[]),
            (&[0, 4, 1, 1, 3, 5], 8, 0, &[]),
            (&[0, 3, 1, 1, 3], 4, 0, &[]),
            (&[0, 2, 1, 0], 3, 0, &[]),
            (&[0, 1, 1], 3, 0, &[]),
            (&[0, 2, 2, 99], 2, 0, &[]),
            (&[0], 1, 0, &[]),
        ];
        for (message, number, laid, data) in turns {
            let reply = watched.feed(message);
            let told = (reply.number, reply.laid, &reply.data[..]);
            assert_eq!(told, (number, laid, data), "{message:?}");
        }
    }
}
