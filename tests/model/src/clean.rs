//! "Cards leave the mill clean", request [2] of document 02, checked by execution over a run: what
//! the frames that no copy has hold at its end. Nothing of the model's steps is used.

use crate::model::{frame_bytes, Lent, Tables, FRAME};

/// The frames of one run from fresh tables.
pub struct Clean {
    /// The stores before the first message.
    fast: Vec<u8>,
    slow: Vec<u8>,
    /// The frames that a copy had after some message.
    held: [bool; 256],
}

impl Clean {
    /// At the start of a run from fresh tables.
    pub fn start(lent: &Lent) -> Clean {
        Clean {
            fast: lent.fast.clone(),
            slow: lent.slow.clone(),
            held: [false; 256],
        }
    }

    /// The tables after one more message.
    pub fn turn(&mut self, tables: &Tables) {
        for frame in tables.copies().filter_map(|(_, _, copy)| copy.frame) {
            self.held[usize::from(frame)] = true;
        }
    }

    /// The end, with the tables and stores that the run left. Of the frames that no copy has, each
    /// that was held at any time holds 64 zeros, and each that was never held its first bytes.
    pub fn end(&self, tables: &Tables, fast: &[u8], slow: &[u8]) -> Result<(), String> {
        for frame in (0..tables.frames() as u8).filter(|&frame| !tables.is_held(frame)) {
            let (due, word) = match self.held[usize::from(frame)] {
                true => (&[0; FRAME][..], "was freed and is not all zeros"),
                false => {
                    let first = frame_bytes(tables, &self.fast, &self.slow, frame);
                    (first, "was never held and has other bytes")
                }
            };
            if frame_bytes(tables, fast, slow, frame) != due {
                return Err(format!("clean cards: frame {frame} {word}"));
            }
        }
        Ok(())
    }
}
