//! "A frame is free, held or retired, never two of these", request [5] of document 02, checked by
//! execution over a run on sound tables. The frames are counted in the tables' bytes; nothing of the
//! model's steps or rules is used.

use crate::gen::{copies_on, is_retired};
use crate::model::{Lent, FRAME, REGISTERED};

/// The frames that are retired in a run, each with the bytes that it had then.
pub struct Frames {
    retired: Vec<Option<Vec<u8>>>,
}

/// P + S.
fn frames(lent: &Lent) -> usize {
    usize::from(lent.tables[0]) + usize::from(lent.tables[1])
}

/// The 64 bytes at a frame; none past the last one.
pub(crate) fn bytes_at(lent: &Lent, frame: usize) -> &[u8] {
    let (store, place) = match frame.checked_sub(lent.tables[0].into()) {
        None => (&lent.fast, frame),
        Some(slow) => (&lent.slow, slow),
    };
    let bytes = store.get(FRAME * place..FRAME * (place + 1));
    bytes.unwrap_or_default()
}

impl Frames {
    /// At the start of a run on sound tables.
    pub fn start(lent: &Lent) -> Frames {
        let on_retired = |frame| is_retired(&lent.tables, frame);
        let at = |frame: usize| on_retired(frame).then(|| bytes_at(lent, frame).to_vec());
        Frames {
            retired: (0..REGISTERED).map(at).collect(),
        }
    }

    /// One turn, by what was lent before it and what it left: the free, the held and the retired
    /// frames add up to P + S, no mark is gone, and a retired frame has the bytes that it had before
    /// it was retired.
    pub fn turn(&mut self, before: &Lent, after: &Lent) -> Result<(), String> {
        let on = copies_on(&after.tables);
        let on_retired = |frame: &usize| is_retired(&after.tables, *frame);
        let held: usize = on.iter().sum();
        let retired = (0..REGISTERED).filter(on_retired).count();
        let free = (0..frames(after)).filter(|frame| on[*frame] == 0 && !on_retired(frame));
        let free = free.count();
        if free + held + retired != frames(after) {
            return Err(format!(
                "frames: {free} free, {held} held and {retired} retired, of {}",
                frames(after)
            ));
        }
        for (frame, retired) in self.retired.iter_mut().enumerate() {
            if !on_retired(&frame) {
                if retired.is_some() {
                    return Err(format!("frames: {frame} is retired no more"));
                }
                continue;
            }
            let due = retired.get_or_insert_with(|| bytes_at(before, frame).to_vec());
            if bytes_at(after, frame) != due {
                return Err(format!("frames: {frame}, retired, has other bytes"));
            }
        }
        Ok(())
    }
}
