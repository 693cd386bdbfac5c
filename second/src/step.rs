//! The records of the session program, and one record carried out: the line it gives.

use crate::reader::{self, Slot, ANSWER_BUFFER, LARGE};

pub const INSERT: [u8; 2] = [0x43, 0x49];
pub const REMOVE: [u8; 2] = [0x43, 0x4f];
pub const MESSAGE: [u8; 2] = [0x4f, 0x4d];

/// The longest body: a kind byte and the image of the largest card that the program knows.
pub const LONGEST_BODY: usize = 32_769;

/// The slot record and the image of the card in it.
pub struct Reader {
    pub slot: Slot,
    pub image: Vec<u8>,
}

impl Reader {
    /// The empty sound slot, as a session starts.
    pub fn empty() -> Reader {
        Reader { slot: Slot::empty(), image: Vec::new() }
    }

    /// The line of a whole record, or nothing where the record ends the session with `bad`.
    pub fn record(&mut self, mark: [u8; 2], body: &[u8]) -> Option<String> {
        if body.len() > LONGEST_BODY {
            return None;
        }
        match mark {
            INSERT => Some(self.insert(body)),
            REMOVE if body.is_empty() => Some(self.remove()),
            MESSAGE => Some(self.message(body)),
            _ => None,
        }
    }

    fn insert(&mut self, body: &[u8]) -> String {
        // An empty body counts as one of unknown kind, and a large chip as one too; 0 is no kind.
        let (kind, image) = match body.split_first() {
            Some((&kind, image)) if !LARGE.contains(&kind) => (kind, image),
            _ => (0, body),
        };
        match reader::insert(&mut self.slot, kind, image) {
            Ok(()) => {
                self.image = image.to_vec();
                "in 0".to_string()
            }
            Err(number) => format!("in {}", number),
        }
    }

    fn remove(&mut self) -> String {
        reader::remove(&mut self.slot);
        self.image = Vec::new();
        "out 0".to_string()
    }

    fn message(&mut self, message: &[u8]) -> String {
        let mut answer = [0; ANSWER_BUFFER];
        match reader::message(&mut self.slot, &mut self.image, message, &mut answer) {
            Ok(length) => format!("msg 0 {}", hex(&answer[..length])),
            Err(number) => format!("msg {}", number),
        }
    }
}

/// Lower-case hex digits, two a byte.
pub fn hex(bytes: &[u8]) -> String {
    const DIGITS: &[u8; 16] = b"0123456789abcdef";
    let mut text = String::with_capacity(2 * bytes.len());
    for byte in bytes {
        text.push(char::from(DIGITS[usize::from(byte >> 4)]));
        text.push(char::from(DIGITS[usize::from(byte & 15)]));
    }
    text
}
