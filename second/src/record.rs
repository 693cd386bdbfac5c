//! A record of a session as it is made, written and told.

use crate::reader::{Chip, LARGE};
use crate::step::{hex, INSERT, MESSAGE, REMOVE};

#[derive(Clone)]
pub enum Record {
    /// A kind byte and an image, or an empty body.
    Insert(Vec<u8>),
    Remove,
    Message(Vec<u8>),
    /// Bytes as they stand, the last of a session: a cut record, another mark, too long a body.
    Ending(Vec<u8>),
}

impl Record {
    pub fn bytes(&self) -> Vec<u8> {
        match self {
            Record::Insert(body) => whole(INSERT, body),
            Record::Remove => whole(REMOVE, &[]),
            Record::Message(body) => whole(MESSAGE, body),
            Record::Ending(bytes) => bytes.clone(),
        }
    }

    /// What the record is, in words.
    pub fn told(&self) -> String {
        match self {
            Record::Insert(body) => told_insert(body),
            Record::Remove => "remove".to_string(),
            // No card of kind 11 goes in.
            Record::Message(body) => format!("message, {}", told_message(body, 0)),
            Record::Ending(bytes) => format!("{} bytes as they stand", bytes.len()),
        }
    }
}

/// A record with its mark and length in front. No body is longer than two bytes can say.
pub fn whole(mark: [u8; 2], body: &[u8]) -> Vec<u8> {
    let mut bytes = mark.to_vec();
    bytes.extend_from_slice(&(body.len() as u16).to_le_bytes());
    bytes.extend_from_slice(body);
    bytes
}

fn told_insert(body: &[u8]) -> String {
    let (kind, image) = match body.split_first() {
        Some((&kind, image)) => (kind, image),
        None => return "insert with an empty body".to_string(),
    };
    if LARGE.contains(&kind) {
        return format!("insert of kind {}, which is taken as unknown, {} image bytes", kind, image.len());
    }
    format!("insert of {}", told_card(kind, image))
}

/// A kind and an image in words.
pub fn told_card(kind: u8, image: &[u8]) -> String {
    let chip = match Chip::of(kind) {
        Some(chip) => chip,
        None => return format!("unknown kind {}, {} image bytes", kind, image.len()),
    };
    let mut text = format!("kind {} ({}), {} image bytes of {}", kind, chip.name, image.len(), chip.image);
    if chip.has_code() && image.len() == chip.image {
        let code = &image[chip.code.clone()];
        text.push_str(&format!(", counter {:02x}, code {}", image[chip.counter], hex(code)));
    }
    if chip.has_bits() && image.len() == chip.image {
        text.push_str(&format!(", {} protected", chip.protected_bytes(image)));
    }
    text
}

/// A message in words: its type, its header where it is odd, and the command it carries, as it is one
/// of the kind in the slot.
pub fn told_message(message: &[u8], kind: u8) -> String {
    if message.len() < 10 {
        return format!("only {} bytes", message.len());
    }
    let name = match message[0] {
        0x61 => "61 set parameters",
        0x62 => "62 power on",
        0x63 => "63 power off",
        0x65 => "65 slot status",
        0x6c => "6c get parameters",
        0x6d => "6d reset parameters",
        0x6f => "6f transfer",
        _ => "of an unsupported type",
    };
    let mut text = format!("{}, bSlot {:02x}, bSeq {:02x}", name, message[5], message[6]);
    let said = u32::from_le_bytes([message[1], message[2], message[3], message[4]]) as usize;
    if said != message.len() - 10 {
        text.push_str(&format!(", dwLength {} where {} bytes came", said, message.len() - 10));
    }
    if message[7..10] != [0, 0, 0] {
        text.push_str(&format!(", bytes 7 to 9 {}", hex(&message[7..10])));
    }
    if message[0] == 0x61 && message.len() <= 20 {
        text.push_str(&format!(": protocol {}, set {}", message[7], hex(&message[10..])));
    }
    if message[0] == 0x6f && message.len() >= 15 {
        let (apdu, name) = (&message[10..], ins_name(message[11], kind));
        text.push_str(&format!(": {:02x} {}, P1P2 {}, P3 {}", apdu[1], name, hex(&apdu[2..4]), apdu[4]));
        if apdu.len() > 5 {
            text.push_str(&format!(", then {} bytes", apdu.len() - 5));
        }
    }
    text
}

fn ins_name(ins: u8, kind: u8) -> &'static str {
    match ins {
        0xb1 if kind == 11 => "read, top bit 1",
        0xd1 if kind == 11 => "write, top bit 1",
        0xa4 => "select type",
        0x01 => "reader page",
        0xb0 => "read",
        0xb1 => "read counter",
        0xb2 => "read protection bits",
        0xd0 => "write",
        0xd1 => "protect",
        0x20 => "present code",
        0xd2 => "change code",
        _ => "no command",
    }
}

#[cfg(test)]
mod tests {
    use super::*;

    fn told(ins: u8, kind: u8) -> String {
        let message = [&[0x6f, 5, 0, 0, 0, 0, 7, 0, 0, 0, 0xff, ins][..], &[0x12, 0x34, 2]].concat();
        told_message(&message, kind)
    }

    #[test]
    fn b1_and_d1_carry_the_top_bit_on_kind_11() {
        let words = |ins: u8, kind: u8| told(ins, kind).split_once(": ").map(|(_, words)| words.to_string());
        for (ins, kind, wanted) in [
            (0xb1, 11, "b1 read, top bit 1, P1P2 1234, P3 2"),
            (0xd1, 11, "d1 write, top bit 1, P1P2 1234, P3 2"),
            (0xb0, 11, "b0 read, P1P2 1234, P3 2"),
            (0xb1, 10, "b1 read counter, P1P2 1234, P3 2"),
            (0xd1, 20, "d1 protect, P1P2 1234, P3 2"),
        ] {
            assert_eq!(words(ins, kind).as_deref(), Some(wanted));
        }
    }

    #[test]
    fn inserts() {
        let told = |body: &[u8]| Record::Insert(body.to_vec()).told();
        assert_eq!(told(&[]), "insert with an empty body");
        assert_eq!(told(&[12, 0]), "insert of unknown kind 12, 1 image bytes");
        assert_eq!(told(&[11, 0, 0]), "insert of kind 11, which is taken as unknown, 2 image bytes");
        assert_eq!(told(&[9, 0, 0]), "insert of kind 9 (I2C 256 kbit), 2 image bytes of 32768");
        assert_eq!(told_card(11, &[0; 3]), "kind 11 (I2C 1024 kbit), 3 image bytes of 131072");
    }
}
