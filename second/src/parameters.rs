//! Slot parameters: a set, the default one, and the one rule that says which sets 61h takes.

/// A protocol number with its bytes.
#[derive(Clone, Debug, PartialEq, Eq)]
pub struct Parameters {
    pub protocol: u8,
    pub bytes: Vec<u8>,
}

/// Where a set's bytes begin in a message; a byte's fault is told by its offset there.
const FIRST: usize = 10;

/// The entries of the tables 7 and 8 of ISO/IEC 7816-3:1997 that are reserved.
pub const RESERVED_FI: [u8; 4] = [7, 8, 14, 15];
pub const RESERVED_DI: [u8; 8] = [0, 7, 10, 11, 12, 13, 14, 15];

impl Default for Parameters {
    fn default() -> Parameters {
        Parameters { protocol: 0, bytes: vec![0x11, 0x00, 0x00, 0x0a, 0x00] }
    }
}

impl Parameters {
    /// The bError that 61h gives for the set: a protocol number not fitting the length, then the
    /// first byte at fault. A set without one is taken, and a stored one is sound.
    pub fn fault(&self) -> Option<u8> {
        let t1 = match (self.protocol, self.bytes.len()) {
            (0, 5) => false,
            (1, 7) => true,
            _ => return Some(0x07),
        };
        let at = |offset: usize| self.bytes[offset - FIRST];
        let (fi, di) = (at(10) >> 4, at(10) & 0x0f);
        let faults = [
            (10, RESERVED_FI.contains(&fi) || RESERVED_DI.contains(&di)),
            (11, at(11) >> 2 != if t1 { 0b000100 } else { 0b000000 }),
            (13, t1 && at(13) >> 4 > 9),
            (14, at(14) > 3),
            (16, t1 && at(16) != 0),
        ];
        faults.iter().find(|(_, holds)| *holds).map(|(offset, _)| *offset)
    }
}
