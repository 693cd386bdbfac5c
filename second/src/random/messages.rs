//! Messages: fair ones, which the present card can carry out, and damaged ones.

use super::Maker;

impl Maker {
    /// A message with the right dwLength, slot 0 and the next bSeq. Bytes that no rule looks at
    /// have any value.
    pub(super) fn ccid(&mut self, kind: u8, data: &[u8]) -> Vec<u8> {
        self.seq = if self.rng.chance(95) { self.seq.wrapping_add(1) } else { self.rng.byte() };
        let mut message = vec![kind];
        message.extend_from_slice(&(data.len() as u32).to_le_bytes());
        message.extend_from_slice(&[0, self.seq]);
        let free = self.rng.bytes(3);
        message.extend_from_slice(&match kind {
            0x62 => [free[0] & 3, free[1], free[2]],
            0x6f => [free[0], 0, 0],
            _ => [free[0], free[1], free[2]],
        });
        message.extend_from_slice(data);
        message
    }

    /// Any message: mostly one that the present card can carry out.
    pub(super) fn message(&mut self) -> Vec<u8> {
        // Before there is an active card most messages fail anyway.
        let early = match (self.reader.slot.kind, self.reader.slot.active) {
            (0, _) => 24,
            (_, false) => 12,
            _ => 0,
        };
        let message = match self.rng.below(100) {
            0..=3 if !self.last.is_empty() => self.last.clone(),
            which if (4..12 + early).contains(&which) => self.damaged(),
            99 => {
                let count = self.rng.below(10);
                let mut message = self.fair_message();
                message.truncate(count);
                message
            }
            _ => self.fair_message(),
        };
        self.last = message.clone();
        message
    }

    fn fair_message(&mut self) -> Vec<u8> {
        let slot = &self.reader.slot;
        let weights = match (slot.kind, slot.active, slot.selected) {
            (0, ..) => [(3, 0x62), (2, 0x63), (3, 0x65), (3, 0x6f), (9, 0x61), (2, 0x6c), (2, 0x6d)],
            (_, false, _) => [(14, 0x62), (1, 0x63), (2, 0x65), (2, 0x6f), (10, 0x61), (3, 0x6c), (1, 0x6d)],
            (_, true, 0) => [(2, 0x62), (1, 0x63), (1, 0x65), (20, 0x6f), (2, 0x61), (1, 0x6c), (1, 0x6d)],
            _ => [(3, 0x62), (2, 0x63), (3, 0x65), (93, 0x6f), (14, 0x61), (4, 0x6c), (2, 0x6d)],
        };
        match self.rng.weighed(&weights) {
            0x61 => self.set_parameters(),
            0x6f => {
                let apdu = self.apdu();
                self.ccid(0x6f, &apdu)
            }
            kind => self.ccid(kind, &[]),
        }
    }

    /// A message of which something is wrong.
    pub(super) fn damaged(&mut self) -> Vec<u8> {
        let message = self.fair_message();
        self.damage(message)
    }

    /// Something of the header, or the length, goes wrong.
    fn damage(&mut self, mut message: Vec<u8>) -> Vec<u8> {
        let rng = &mut self.rng;
        let came = (message.len() - 10) as u32;
        match rng.below(16) {
            // an unsupported type
            0 | 1 => {
                message[0] = rng.pick(&[
                    0x00, 0x60, 0x64, 0x66, 0x69, 0x6a, 0x6b, 0x6e, 0x70, 0x71, 0x80, 0x81, 0x82, 0xe1, 0xe2, 0xff,
                ]);
                message[5] = rng.pick(&[0, 0, 1, 0xff]);
            }
            // cut, or lengthened
            2 => message.truncate(10 + rng.below(came as usize + 1)),
            3 => {
                let count = 1 + rng.below(4);
                let more = rng.bytes(count);
                message.extend_from_slice(&more);
            }
            // another dwLength
            4 | 5 => {
                let other = match rng.below(8) {
                    0 => rng.pick(&[0, 1, 261, 262]),
                    1 => came.wrapping_sub(1),
                    2 => came + 1,
                    3 => came + 256,
                    4 => came + 65_536,
                    5 => came ^ 0x0100_0000,
                    6 => came.swap_bytes(),
                    _ => u32::MAX,
                };
                message[1..5].copy_from_slice(&other.to_le_bytes());
            }
            // as much data as reaches the commands, and a byte more
            6 | 7 => {
                let long = rng.pick(&[260, 261, 262, 262, 263, 400, 590]);
                message.resize(10 + long, rng.pick(&[0x00, 0xff]));
                message[1..5].copy_from_slice(&(long as u32).to_le_bytes());
            }
            8 | 9 => {
                let kind = rng.pick(&[0x61, 0x62, 0x63, 0x65, 0x6c, 0x6c, 0x6d, 0x6d, 0x6f]);
                if kind == 0x61 {
                    message = self.set_parameters();
                } else if kind != 0x6f || message[0] != 0x6f {
                    message = self.ccid(kind, &[]);
                }
                message[5] = self.rng.pick(&[1, 2, 0x10, 0x80, 0xff]);
            }
            10 => {
                message = self.ccid(0x62, &[]);
                message[7] = self.rng.pick(&[4, 5, 8, 0x80, 0xff]);
            }
            11 | 12 => {
                message[8 + rng.below(2)] = rng.pick(&[1, 2, 0x80, 0xff]);
                message[0] = rng.pick(&[0x6f, message[0]]);
            }
            // data for a message that has none
            13 => {
                let count = 1 + rng.below(6);
                let data = rng.bytes(count);
                let kind = rng.pick(&[0x62, 0x63, 0x65, 0x6c, 0x6d]);
                message = self.ccid(kind, &data);
            }
            // two faults at once
            14 => {
                message[5] = rng.byte();
                message[1] = rng.byte();
            }
            _ => {
                message[7] = rng.byte();
                message[8] = rng.byte();
                message[9] = rng.byte();
            }
        }
        message
    }
}
