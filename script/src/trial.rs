//! The trial program's cases and lines, and the record and image that are kept from one to the next.
//! What a call does to them is the trial program's to say.

use crate::hex;
use crate::parse::Record;
use crate::talk::Heard;
use crate::tell;

/// The longest message and image of a case.
pub const MOST_MESSAGE: usize = 600;
pub const MOST_IMAGE: usize = 131_072;

/// The answer buffer that is lent, and the byte it is filled with.
const ROOM: usize = 271;
const FILL: u8 = 0xee;

/// The raw slot record and the image of the card that is in. At first the record is zeros, which a
/// removal makes the empty one.
#[derive(Default)]
pub struct Kept {
    record: [u8; 32],
    image: Vec<u8>,
}

/// What a call gave: its number, the answer, the slot record afterwards and each image byte that changed.
pub struct Given {
    pub number: u8,
    pub answer: Vec<u8>,
    pub record: [u8; 32],
    pub changes: Vec<(usize, u8)>,
}

/// The image bytes that changed, each as ADDRESS=VALUE in hex.
pub fn changes<'a>(words: impl Iterator<Item = &'a str>) -> Option<Vec<(usize, u8)>> {
    let change = |word: &str| {
        let (place, value) = word.split_once('=')?;
        let [value]: [u8; 1] = hex::bytes(value)?.try_into().ok()?;
        Some((usize::from_str_radix(place, 16).ok()?, value))
    };
    words.map(change).collect()
}

impl Kept {
    /// An empty slot, where no removal has made it. Its parameter set is zeros, which is never told.
    pub fn empty() -> Kept {
        let mut record = [0; 32];
        record[3] = 8;
        Kept { record, image: Vec::new() }
    }

    /// The case of a script's record: the call, the slot record, the buffer's length and fill, the message's
    /// and the image's length, and both of these. The parser has kept out what is no call or over a limit.
    pub fn case(&self, record: &Record) -> Vec<u8> {
        let (call, message) = match record {
            Record::Message(message) => (0, &message[..]),
            Record::Insert { body, .. } => (1, &body[..1]),
            Record::Remove => (2, &[][..]),
            Record::Loose(_) => unreachable!("bytes as they stand are no call"),
        };
        let image = self.lent(record);
        let mut case = vec![call];
        case.extend_from_slice(&self.record);
        case.extend_from_slice(&(ROOM as u16).to_le_bytes());
        case.push(FILL);
        case.extend_from_slice(&(message.len() as u16).to_le_bytes());
        case.extend_from_slice(&(image.len() as u32).to_le_bytes());
        case.extend_from_slice(message);
        case.extend_from_slice(image);
        case
    }

    /// The image of a case: that of the card that is put in, or of the one that is in.
    fn lent<'a>(&'a self, record: &'a Record) -> &'a [u8] {
        match record {
            Record::Insert { body, .. } => &body[1..],
            Record::Remove => &[],
            _ => &self.image,
        }
    }

    /// Takes record and image from the line of a record's case, or nothing where it is no such line.
    pub fn take(&mut self, record: &Record, line: &str) -> Option<Heard> {
        let mut words = line.split(' ');
        let number = words.next()?.parse::<u8>().ok()?;
        let length = words.next()?.parse::<usize>().ok()?;
        let next: [u8; 32] = hex::bytes(words.next()?)?.try_into().ok()?;
        let answer = hex::bytes(words.next()?).filter(|buffer| buffer.len() == ROOM)?.get(..length)?.to_vec();
        self.take_given(record, Given { number, answer, record: next, changes: changes(words)? })
    }

    /// Takes record and image from what a record's call gave, or nothing where a byte changed that the image has not.
    pub fn take_given(&mut self, record: &Record, given: Given) -> Option<Heard> {
        let Given { number, answer, record: next, changes } = given;
        let mut image = self.lent(record).to_vec();
        let mut changed: Vec<(usize, Vec<u8>)> = Vec::new();
        for (place, value) in changes {
            *image.get_mut(place)? = value;
            match changed.last_mut() {
                Some((first, bytes)) if *first + bytes.len() == place => bytes.push(value),
                _ => changed.push((place, vec![value])),
            }
        }
        let line = match record {
            Record::Insert { .. } => format!("in {}", number),
            Record::Remove => format!("out {}", number),
            _ if number == 0 => format!("msg 0 {}", hex::digits(&answer)),
            _ => format!("msg {}", number),
        };

        // A card that was not put in leaves the one that is in.
        if number == 0 || !matches!(record, Record::Insert { .. }) {
            self.image = image;
        }
        let (before, after) = (tell::slot(&self.record), tell::slot(&next));
        self.record = next;
        let slot = if before == after { None } else { Some(after) };
        let page = Some((next[3], next[16]));
        Some(Heard { message: record.message().to_vec(), line, kind: next[0], page, slot, changed })
    }
}

#[cfg(test)]
mod tests;
