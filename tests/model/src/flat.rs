//! The flat memory of document 01 with the create of request [6] of document 02, and demand 3
//! checked by execution over a run.

use crate::model::{frame_bytes, Call, Refusal, Tables, FRAME, PAGES, STATIONS};

#[derive(Clone, Debug, PartialEq, Eq)]
struct FlatPage {
    owner: u8,
    rights: [u8; STATIONS],
    bytes: [u8; FRAME],
}

/// The flat memory: each page absent, or an owner, 16 rights and 64 bytes.
struct Flat {
    pages: Vec<Option<FlatPage>>,
}

/// The page that one of the five kinds with an answer names; None for the kinds passed over.
fn page_of(call: &Call) -> Option<usize> {
    match *call {
        Call::Create { page, .. }
        | Call::DeletePage { page, .. }
        | Call::Grant { page, .. }
        | Call::Read { page, .. }
        | Call::Write { page, .. } => Some(page.into()),
        _ => None,
    }
}

fn is_out_of_range(call: &Call) -> bool {
    let station_or_page = |station: u8, page: u8| station > 15 || page > 63;
    let part =
        |offset: u8, count: usize| offset > 63 || count == 0 || usize::from(offset) + count > FRAME;
    match *call {
        Call::Create { station, page } | Call::DeletePage { station, page } => {
            station_or_page(station, page)
        }
        Call::Grant {
            station,
            page,
            other,
            right,
        } => station_or_page(station, page) || other > 15 || right > 2,
        Call::Read {
            station,
            page,
            offset,
            count,
        } => station_or_page(station, page) || part(offset, count.into()),
        Call::Write {
            station,
            page,
            offset,
            ref bytes,
        } => station_or_page(station, page) || part(offset, bytes.len()),
        _ => false,
    }
}

fn has_right(call: &Call, page: &FlatPage) -> bool {
    match *call {
        Call::DeletePage { station, .. } | Call::Grant { station, .. } => page.owner == station,
        Call::Read { station, .. } => page.rights[usize::from(station)] != 0,
        Call::Write { station, .. } => page.rights[usize::from(station)] >= 2,
        _ => true,
    }
}

impl Flat {
    fn start() -> Flat {
        Flat {
            pages: vec![None; PAGES],
        }
    }

    /// The number it gives to one of its five kinds, without change.
    fn number(&self, call: &Call, page: usize) -> u8 {
        if is_out_of_range(call) {
            return 7;
        }
        match (call, &self.pages[page]) {
            (Call::Create { .. }, Some(_)) => 8,
            (Call::Create { .. }, None) => 0,
            (_, None) => 9,
            (_, Some(page)) if !has_right(call, page) => 10,
            (_, Some(_)) => 0,
        }
    }

    /// Its answer: the number, and for an accepted read the bytes.
    fn answer(&mut self, call: &Call, page: usize) -> (u8, Vec<u8>) {
        let number = self.number(call, page);
        if number != 0 {
            return (number, Vec::new());
        }
        let place = &mut self.pages[page];
        match (call, place.as_mut()) {
            (&Call::Create { station, .. }, _) => {
                let mut rights = [1; STATIONS];
                rights[usize::from(station)] = 2;
                *place = Some(FlatPage {
                    owner: station,
                    rights,
                    bytes: [0; FRAME],
                });
            }
            (Call::DeletePage { .. }, _) => *place = None,
            (&Call::Grant { other, right, .. }, Some(page)) => {
                page.rights[usize::from(other)] = right;
            }
            (&Call::Read { offset, count, .. }, Some(page)) => {
                let bytes = &page.bytes[usize::from(offset)..][..usize::from(count)];
                return (0, bytes.to_vec());
            }
            (Call::Write { offset, bytes, .. }, Some(page)) => {
                page.bytes[usize::from(*offset)..][..bytes.len()].copy_from_slice(bytes);
            }
            _ => {}
        }
        (0, Vec::new())
    }
}

const NOTHING_CURRENT: u8 = Refusal::NothingCurrent as u8;

/// Demand 3 over one run from fresh tables, turn by turn and then at its end.
pub struct Demand3 {
    flat: Flat,
}

impl Demand3 {
    /// At the start of a run from fresh tables.
    pub fn start() -> Demand3 {
        Demand3 {
            flat: Flat::start(),
        }
    }

    /// One turn: the tables as they were before it, the message, and the run's reply.
    pub fn turn(&mut self, before: &Tables, message: &[u8], reply: &[u8]) -> Result<(), String> {
        let Ok(call) = Call::decode(message) else {
            return Ok(());
        };
        let Some(page) = page_of(&call) else {
            return Ok(());
        };
        let number = *reply.get(3).ok_or("demand 3: a reply without a number")?;
        let eleven_is_due = matches!(call, Call::Read { .. } | Call::Write { .. })
            && self.flat.number(&call, page) == 0
            && has_no_current(before, page);
        if (number == NOTHING_CURRENT) != eleven_is_due {
            return Err(format!(
                "demand 3: number {number}, but 11 is {} here",
                if eleven_is_due { "due" } else { "not due" }
            ));
        }
        if eleven_is_due {
            return Ok(());
        }
        let (flat_number, flat_bytes) = self.flat.answer(&call, page);
        if (flat_number, flat_bytes.as_slice()) != (number, &reply[6..]) {
            return Err(format!(
                "demand 3: the flat memory answers {flat_number} {flat_bytes:02X?}, \
                 the run {number} {:02X?}",
                &reply[6..]
            ));
        }
        Ok(())
    }

    /// The end: the tables and stores that the run left.
    pub fn end(&self, tables: &Tables, fast: &[u8], slow: &[u8]) -> Result<(), String> {
        for (number, (flat, page)) in self.flat.pages.iter().zip(&tables.pages).enumerate() {
            let (flat, page) = match (flat, page) {
                (None, None) => continue,
                (Some(flat), Some(page)) => (flat, page),
                _ => return Err(format!("demand 3: page {number} stands in one only")),
            };
            if (flat.owner, flat.rights) != (page.owner, page.rights) {
                return Err(format!("demand 3: page {number}, another owner or rights"));
            }
            for (copy, entry) in page.copies.iter().enumerate().filter(|(_, c)| c.recent) {
                let bytes = match entry.frame {
                    Some(frame) => frame_bytes(tables, fast, slow, frame),
                    None => &[0; FRAME],
                };
                if bytes != flat.bytes {
                    return Err(format!("demand 3: page {number} copy {copy}, other bytes"));
                }
            }
        }
        Ok(())
    }
}

fn has_no_current(tables: &Tables, page: usize) -> bool {
    let copies = tables.pages[page].iter().flat_map(|page| &page.copies);
    copies.into_iter().all(|copy| !copy.current)
}
