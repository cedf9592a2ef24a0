//! A call file, of any length, read message by message.

use std::io::{self, BufReader, Read};

/// Yields the messages of a call file. One that is cut short is what is left of the file.
pub struct Messages<R> {
    input: R,
    message: Vec<u8>,
}

impl<R: Read> Messages<R> {
    pub fn new(input: R) -> Messages<R> {
        Messages {
            input,
            message: Vec::new(),
        }
    }

    /// The next message, its length first; None at the end of the file.
    pub fn next_message(&mut self) -> io::Result<Option<&[u8]>> {
        self.message.clear();
        self.take(2)?;
        if let [high, low] = self.message[..] {
            self.take(u16::from_be_bytes([high, low]))?;
        }
        Ok((!self.message.is_empty()).then_some(&self.message))
    }

    /// Takes so many bytes, or what is left.
    fn take(&mut self, count: u16) -> io::Result<()> {
        let mut part = self.input.by_ref().take(count.into());
        part.read_to_end(&mut self.message)?;
        Ok(())
    }
}

impl<R: Read> Messages<BufReader<R>> {
    /// Whether the next message is in the buffer, so that to take it is not to wait for it.
    pub fn is_at_hand(&self) -> bool {
        let buffer = self.input.buffer();
        buffer.len() >= 2 && missing(buffer).is_none()
    }
}

/// How many bytes are missing at the end of a message that is cut short; None for a whole one.
pub fn missing(message: &[u8]) -> Option<usize> {
    let whole = match *message {
        [high, low, ..] => 2 + usize::from(u16::from_be_bytes([high, low])),
        _ => 2,
    };
    whole.checked_sub(message.len()).filter(|&count| count > 0)
}

#[cfg(test)]
mod tests {
    use super::{missing, Messages};
    use std::io::BufReader;

    fn messages(file: &[u8]) -> Vec<Vec<u8>> {
        let mut messages = Messages::new(file);
        let mut all = Vec::new();
        while let Some(message) = messages.next_message().unwrap() {
            all.push(message.to_vec());
        }
        all
    }

    #[test]
    fn whole_and_cut() {
        assert!(messages(&[]).is_empty());
        assert_eq!(messages(&[0]), [[0]]);
        assert_eq!(
            messages(&[0, 0, 0, 1, 7, 0, 9, 1]),
            [&[0, 0][..], &[0, 1, 7], &[0, 9, 1]]
        );
        assert_eq!(missing(&[0, 1, 7]), None);
        assert_eq!(missing(&[0, 9, 1]), Some(8));
        assert_eq!(missing(&[0]), Some(1));
    }

    #[test]
    fn what_is_in_the_buffer_is_at_hand() {
        let file: &[u8] = &[0, 1, 7, 0, 2, 1];
        let mut messages = Messages::new(BufReader::new(file));
        assert!(!messages.is_at_hand());
        assert_eq!(messages.next_message().unwrap(), Some(&[0, 1, 7][..]));
        assert!(!messages.is_at_hand());
        let mut messages = Messages::new(BufReader::new(&[0, 0, 0, 1, 7][..]));
        messages.next_message().unwrap();
        assert!(messages.is_at_hand());
    }
}
