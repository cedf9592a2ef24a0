//! Which accepted write each copy of a page carries. It is followed by the messages and by which of
//! them were accepted; nothing that the kernel shows of copies and marks has a part in it.

use crate::history::Turn;
use crate::kinds::{Argument, Call};
use crate::looks::{Mark, PageCopy};

/// What the bytes of a page or of a copy come from.
#[derive(Clone, Copy, Debug, PartialEq, Eq)]
enum Origin {
    /// Zeros: no write was accepted since the page was created.
    Unwritten,
    /// The accepted write of this number, over what was there before.
    Written(u64),
    /// What was latest at the start.
    Latest,
    /// What was stale there, which may be another thing for each copy.
    Older,
}

impl Origin {
    /// As `carrying message 7`.
    fn words(self) -> String {
        match self {
            Origin::Unwritten => "carrying no write".into(),
            Origin::Written(number) => format!("carrying message {number}"),
            Origin::Latest => "carrying what was latest at the start".into(),
            Origin::Older => "carrying what was stale at the start".into(),
        }
    }
}

/// A copy, by what it carries.
#[derive(Clone, Copy)]
struct Carrier {
    is_null: bool,
    is_current: bool,
    origin: Origin,
}

/// The copies of a page in their order, and what was written last.
pub struct Writes {
    copies: Vec<Carrier>,
    last: Origin,
    /// The message of the last write; before any, the create or the start.
    since: Turn,
}

impl Writes {
    /// A page as it is at the start. What was written before is not known.
    pub fn start(copies: &[PageCopy]) -> Writes {
        let carriers = copies.iter().map(|copy| Carrier {
            is_null: copy.frame.is_none(),
            is_current: copy.mark == Mark::Current,
            origin: match copy.mark {
                Mark::Stale => Origin::Older,
                Mark::Current | Mark::Recent => Origin::Latest,
            },
        });
        Writes {
            copies: carriers.collect(),
            last: Origin::Latest,
            since: Turn::start(),
        }
    }

    /// A page that a message creates: a null copy.
    fn created(turn: Turn) -> Writes {
        let origin = Origin::Unwritten;
        let copy = Carrier {
            is_null: true,
            is_current: false,
            origin,
        };
        Writes {
            copies: vec![copy],
            last: origin,
            since: turn,
        }
    }

    /// Follows a page over one message more.
    pub fn follow(&mut self, page: u8, number: u64, message: &[u8], is_accepted: bool) {
        let call = Call::parse(message).filter(|_| is_accepted);
        let named = call.filter(|call| call.argument(Argument::Page) == Some(page));
        let Some(call) = named else {
            return;
        };
        let copy = call.argument(Argument::Copy).map(usize::from);
        match (call.kind.word, copy) {
            ("create", _) => *self = Writes::created(Turn::of(number, message)),
            ("delete-page", _) => *self = Writes::start(&[]),
            ("write", _) => self.write(Turn::of(number, message)),
            ("copy", Some(source)) => self.make_copy(source),
            ("delete-copy", Some(copy)) => drop(self.copies.remove(copy)),
            ("current", Some(copy)) => self.copies[copy].is_current = true,
            ("remove-current", Some(copy)) => self.copies[copy].is_current = false,
            _ => {}
        }
    }

    /// The CURRENT copies carry the write; the others keep what they carry.
    fn write(&mut self, turn: Turn) {
        self.last = Origin::Written(turn.number);
        self.since = turn;
        for copy in self.copies.iter_mut().filter(|copy| copy.is_current) {
            copy.origin = self.last;
        }
    }

    /// A copy takes what its source carries, at the end or in the place of a null copy.
    fn make_copy(&mut self, source: usize) {
        let Carrier {
            is_null, origin, ..
        } = self.copies[source];
        if is_null {
            self.copies.clear();
        }
        self.copies.push(Carrier {
            is_null: false,
            is_current: false,
            origin,
        });
    }

    /// What the copy of this number carries, in words.
    pub fn carried(&self, copy: usize) -> String {
        self.copies[copy].origin.words()
    }

    /// The line for the last accepted write.
    pub fn last_write(&self) -> String {
        let Turn { number, words } = &self.since;
        let words = match (self.last, number) {
            (Origin::Written(_), number) => format!("message {number}, {words}"),
            (_, 0) => "none since the start".into(),
            (_, number) => format!("none since message {number}, {words}"),
        };
        format!("last write: {words}")
    }
}

#[cfg(test)]
mod tests {
    use super::Writes;
    use crate::lines;
    use crate::looks::{Mark, PageCopy};

    /// The last write and what the copies carry, by lines of calls on page 5 that were accepted.
    fn followed(mut origins: Writes, calls: &[&str]) -> Vec<String> {
        for (number, call) in (1..).zip(calls) {
            let message = lines::written(call).unwrap().bytes;
            origins.follow(5, number, &message, true);
        }
        let copies = 0..origins.copies.len();
        let carried = copies.map(|copy| origins.carried(copy));
        [origins.last_write()].into_iter().chain(carried).collect()
    }

    #[test]
    fn copies_carry_what_the_messages_say() {
        let mut calls = vec!["create 3 5", "copy 5 0 0", "copy 5 0 1"];
        let none = "carrying no write";
        let due = ["last write: none since message 1, create station 3 page 5"];
        let fresh = || Writes::start(&[]);
        assert_eq!(followed(fresh(), &calls), [&due[..], &[none; 2]].concat());
        // The same byte twice, first in one copy of two and then in a third one; then the gap closes.
        calls.extend(["current 5 1", "write 3 5 0 7f", "copy 5 1 4", "copy 5 0 5"]);
        calls.extend(["current 5 2", "remove-current 5 1", "write 3 5 0 7f"]);
        let due = "last write: message 10, write station 3 page 5 offset 0 bytes 7F";
        let [fifth, tenth] = ["carrying message 5", "carrying message 10"];
        assert_eq!(followed(fresh(), &calls), [due, none, fifth, tenth, none]);
        calls.extend(["delete-copy 5 0", "write 3 6 0 7f", "read 3 5 0 1"]);
        assert_eq!(followed(fresh(), &calls), [due, fifth, tenth, none]);
        calls.push("delete-page 3 5");
        assert_eq!(followed(fresh(), &calls).len(), 1, "no copy");
    }

    #[test]
    fn what_a_kept_start_had_is_told_as_that() {
        let copy = |frame, mark| PageCopy {
            frame: Some(frame),
            mark,
        };
        let copies = [
            copy(0, Mark::Recent),
            copy(1, Mark::Stale),
            copy(4, Mark::Current),
        ];
        let kept = || Writes::start(&copies);
        let none = "last write: none since the start";
        let [latest, stale] = [
            "carrying what was latest at the start",
            "carrying what was stale at the start",
        ];
        let due = [none, latest, stale, latest, stale];
        assert_eq!(followed(kept(), &["copy 5 1 2"]), due);
        let due = [
            "last write: message 1, write station 3 page 5 offset 0 bytes 7F",
            latest,
            stale,
            "carrying message 1",
        ];
        assert_eq!(followed(kept(), &["write 3 5 0 7f"]), due);
    }

    #[test]
    fn a_refused_message_changes_nothing() {
        let mut origins = Writes::start(&[]);
        origins.follow(5, 1, &[0, 4, 1, 1, 3, 5], false);
        assert_eq!(followed(origins, &[]).len(), 1, "no copy");
    }
}
