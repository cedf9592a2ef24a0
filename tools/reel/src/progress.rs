//! How far a long file has been read, on standard error where that is a terminal.

use std::io::{self, IsTerminal, Write};
use std::time::{Duration, Instant};

const PAUSE: Duration = Duration::from_millis(150);
/// The clock is read once in so many messages.
const STRIDE: u64 = 256;

pub struct Progress {
    is_shown: bool,
    /// The length of the file in bytes, where it is known.
    length: Option<u64>,
    read: u64,
    messages: u64,
    next: Instant,
    is_drawn: bool,
}

impl Progress {
    /// `lines` says that lines go to standard output meanwhile, which may be the same terminal.
    pub fn new(length: Option<u64>, lines: bool) -> Progress {
        let is_shared = lines && io::stdout().is_terminal();
        Progress {
            is_shown: io::stderr().is_terminal() && !is_shared,
            length: length.filter(|&length| length > 0),
            read: 0,
            messages: 0,
            next: Instant::now() + PAUSE,
            is_drawn: false,
        }
    }

    /// One message more.
    pub fn count(&mut self, bytes: usize) {
        self.read += bytes as u64;
        self.messages += 1;
        if self.is_shown && self.messages.is_multiple_of(STRIDE) && Instant::now() >= self.next {
            self.draw();
        }
    }

    fn draw(&mut self) {
        let share = self.length.map(|length| 100 * self.read / length);
        let share = share.map_or(String::new(), |share| format!(", {share} %"));
        // Progress that cannot be shown is no reason to stop.
        let _ = write!(io::stderr(), "\r{} messages{share}\x1b[K", self.messages);
        self.next = Instant::now() + PAUSE;
        self.is_drawn = true;
    }
}

impl Drop for Progress {
    fn drop(&mut self) {
        if self.is_drawn {
            let _ = write!(io::stderr(), "\r\x1b[K");
        }
    }
}
