//! A case of the trial program: a call, a raw slot record, an answer buffer, a message and an image,
//! and the line that shows all of them after the call.

use crate::parameters::Parameters;
use crate::reader::{self, Chip, Slot};
use crate::step::hex;

/// The fixed part in front of message and image, and the limits.
pub const HEADER: usize = 42;
pub const LONGEST_BUFFER: usize = 600;
pub const LONGEST_MESSAGE: usize = 600;
pub const LONGEST_IMAGE: usize = 131_072;

/// What is called.
#[derive(Clone, Copy, Debug, PartialEq, Eq)]
pub enum Call {
    Message,
    /// The message is the kind byte.
    Insertion,
    /// The message is empty, and the image is not handed to the call.
    Removal,
}
use Call::{Insertion, Message, Removal};

impl Call {
    /// The call of a byte.
    pub fn of(byte: u8) -> Option<Call> {
        [Message, Insertion, Removal].get(usize::from(byte)).copied()
    }

    /// Whether a message of so many bytes may stand in its case.
    pub fn takes(self, length: usize) -> bool {
        match self {
            Message => length <= LONGEST_MESSAGE,
            Insertion => length == 1,
            Removal => length == 0,
        }
    }
}

/// A raw slot record: kind, active, selected type, reader page, open, protocol number, the bytes of
/// the parameter set, tries left, number of protected bytes (low byte first), page chosen; the rest
/// is 00h.
pub const RECORD: usize = 32;
/// Where the protocol number is, the set's bytes, the two counts, the flag and the rest.
pub const PROTOCOL: usize = 5;
pub const SET: usize = 6;
pub const TRIES: usize = 13;
pub const PROTECTED: usize = 14;
pub const CHOSEN: usize = 16;
pub const REST: usize = 17;

/// The raw record of a slot: the two bytes that a T=0 set lacks are 00h.
pub fn raw(slot: &Slot) -> [u8; RECORD] {
    let mut record = [0; RECORD];
    record[..PROTOCOL].copy_from_slice(&[slot.kind, slot.active.into(), slot.selected, slot.page, slot.open.into()]);
    record[PROTOCOL] = slot.parameters.protocol;
    for (place, &byte) in record[SET..TRIES].iter_mut().zip(&slot.parameters.bytes) {
        *place = byte;
    }
    record[TRIES] = slot.tries;
    record[PROTECTED..CHOSEN].copy_from_slice(&slot.protected.to_le_bytes());
    record[CHOSEN] = slot.chosen.into();
    record
}

/// The slot that a raw record tells of, whatever stands in the bytes that no slot has.
pub fn slot_of(record: &[u8; RECORD]) -> Slot {
    let protocol = record[PROTOCOL];
    let end = if protocol == 0 { SET + 5 } else { TRIES };
    Slot {
        kind: record[0],
        active: record[1] != 0,
        selected: record[2],
        page: record[3],
        open: record[4] != 0,
        parameters: Parameters { protocol, bytes: record[SET..end].to_vec() },
        tries: record[TRIES],
        protected: u16::from_le_bytes([record[PROTECTED], record[PROTECTED + 1]]),
        chosen: record[CHOSEN] != 0,
    }
}

#[derive(Clone)]
pub struct Case {
    pub call: Call,
    pub record: [u8; RECORD],
    pub buffer: usize,
    pub fill: u8,
    pub message: Vec<u8>,
    pub image: Vec<u8>,
}

impl Case {
    /// The case as it stands on standard input.
    pub fn bytes(&self) -> Vec<u8> {
        let mut bytes = Vec::with_capacity(HEADER + self.message.len() + self.image.len());
        bytes.push(self.call as u8);
        bytes.extend_from_slice(&self.record);
        bytes.extend_from_slice(&(self.buffer as u16).to_le_bytes());
        bytes.push(self.fill);
        bytes.extend_from_slice(&(self.message.len() as u16).to_le_bytes());
        bytes.extend_from_slice(&(self.image.len() as u32).to_le_bytes());
        bytes.extend_from_slice(&self.message);
        bytes.extend_from_slice(&self.image);
        bytes
    }

    /// The counts of the image where it is as long as one of the kind, else 0: tries left and number
    /// of protected bytes.
    pub fn counts(&self) -> (u8, u16) {
        match Chip::of(self.record[0]) {
            Some(chip) if chip.image == self.image.len() => {
                (chip.tries(&self.image), chip.protected_bytes(&self.image))
            }
            _ => (0, 0),
        }
    }

    /// Stores these counts in the record.
    pub fn store_counts(&mut self) {
        let (tries, protected) = self.counts();
        self.record[TRIES] = tries;
        self.record[PROTECTED..CHOSEN].copy_from_slice(&protected.to_le_bytes());
    }

    /// The line: number, length, record, buffer and the image bytes that changed.
    pub fn line(&self) -> String {
        let mut record = self.record;
        let mut answer = vec![self.fill; self.buffer];
        // A message alone may change the image.
        let mut image = Vec::new();
        let result = match self.call {
            Message => {
                image = self.image.clone();
                message(&mut record, &mut image, &self.message, &mut answer)
            }
            // 0 is no kind.
            Insertion => insertion(&mut record, self.message.first().copied().unwrap_or(0), &self.image),
            Removal => removal(&mut record),
        };
        let (number, length) = match result {
            Ok(length) => (0, length),
            Err(number) => (number, 0),
        };
        let shown = if answer.is_empty() { "-".to_string() } else { hex(&answer) };
        let mut line = format!("{} {} {} {}", number, length, hex(&record), shown);
        for (k, (before, after)) in self.image.chunks(256).zip(image.chunks(256)).enumerate() {
            if before != after {
                tell_changed(&mut line, 256 * k, before, after);
            }
        }
        line
    }
}

/// Adds ` ADDRESS=VALUE` for each byte that changed, from an address on.
fn tell_changed(line: &mut String, first: usize, before: &[u8], after: &[u8]) {
    for (address, (before, after)) in (first..).zip(before.iter().zip(after)) {
        if before != after {
            line.push_str(&format!(" {:04x}={:02x}", address, after));
        }
    }
}

/// One message over a raw slot record. The numbers keep their order 1, 2, 3, 4: a record that is not
/// that of the slot it tells of is as one that is not sound.
fn message(record: &mut [u8; RECORD], image: &mut [u8], message: &[u8], answer: &mut [u8]) -> Result<usize, u8> {
    let mut slot = slot_of(record);
    if raw(&slot) != *record {
        // A page of 0 is never sound, so that the slot is turned down with 4 at the latest.
        slot.page = 0;
    }
    let length = reader::message(&mut slot, image, message, answer)?;
    *record = raw(&slot);
    Ok(length)
}

/// The card is taken out over a raw slot record, of which nothing is asked.
fn removal(record: &mut [u8; RECORD]) -> Result<usize, u8> {
    let mut slot = slot_of(record);
    reader::remove(&mut slot);
    *record = raw(&slot);
    Ok(0)
}

/// A card is put in over a raw slot record, of which the kind alone is asked.
fn insertion(record: &mut [u8; RECORD], kind: u8, image: &[u8]) -> Result<usize, u8> {
    let mut slot = slot_of(record);
    reader::insert(&mut slot, kind, image)?;
    *record = raw(&slot);
    Ok(0)
}
