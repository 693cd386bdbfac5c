//! Cards that go in, and cards that do not.

use super::{chip_of, Maker};
use crate::reader::{Chip, LARGE};

/// The last four bytes of a 4432, and what is wrong where one is not 00h.
#[rustfmt::skip]
const LAST_FOUR: [(usize, &str); 4] = [
    (260, "4432 byte 260 not 00h"), (261, "4432 byte 261 not 00h"),
    (262, "4432 byte 262 not 00h"), (263, "4432 byte 263 not 00h"),
];

/// How an image's length is not the kind's.
pub const WRONG_LENGTHS: [&str; 5] =
    ["image short", "image long", "no image", "image of the other large kind", "image of another kind"];

impl Maker {
    /// An image that fits: odd counters and protection bits, but for the rest any bytes.
    pub(super) fn image(&mut self, chip: &Chip) -> Vec<u8> {
        let rng = &mut self.rng;
        let mut image = match rng.below(4) {
            0 => vec![rng.pick(&[0x00, 0xff, 0x55]); chip.image],
            // Two addresses that differ in one of their bytes do not hold the same.
            1 => (0..chip.image).map(|k| (k ^ k >> 8 ^ k >> 16) as u8).collect(),
            _ => rng.bytes(chip.image),
        };
        if !chip.has_bits() {
            return image;
        }
        let bits = chip.protection..chip.protection + chip.protectable / 8;
        match rng.below(20) {
            0 => image[bits].fill(0x00),
            1 => {}
            2 | 3 => {
                for byte in &mut image[bits] {
                    *byte = rng.byte() | rng.byte() | rng.byte();
                }
            }
            // Every second byte is protected.
            4 => image[bits].fill(rng.pick(&[0x55, 0xaa])),
            // So many protected bytes that their number is at a border.
            12.. => {
                let count = self.border(chip);
                self.protect_bytes(chip, &mut image, count);
            }
            // Some runs, or single bytes.
            which => {
                image[bits.clone()].fill(0xff);
                let longest = match which {
                    5 | 6 => 4,
                    7 => 20,
                    _ => 1,
                };
                for _ in 0..rng.below(4) {
                    let first = rng.below(chip.protectable);
                    let end = (first + 1 + rng.below(longest)).min(chip.protectable);
                    (first..end).for_each(|k| chip.protect(&mut image, k));
                }
                // The code of a 4428 may be protected already, and the same bytes of a 4418.
                if rng.chance(if chip.has_code() { 30 } else { 50 }) {
                    image[bits.end - 1] &= rng.pick(&[0x1f, 0x3f, 0x5f, 0x7f, 0x9f, 0xbf, 0xdf]);
                }
            }
        }
        image[chip.zeros.clone()].fill(0x00);
        if !chip.has_code() {
            return image;
        }
        let rng = &mut self.rng;
        let code = match rng.below(4) {
            0 => vec![0xff; chip.code.len()],
            1 => vec![0x00; chip.code.len()],
            _ => rng.bytes(chip.code.len()),
        };
        image[chip.code.clone()].copy_from_slice(&code);
        // Half of the counters are full, the others have any number of tries left, in any bits.
        image[chip.counter] = chip.full;
        if rng.chance(50) {
            let tries = rng.below(chip.full.count_ones() as usize + 1) as u32;
            while image[chip.counter].count_ones() > tries {
                image[chip.counter] &= !(1 << rng.below(8));
            }
        }
        if chip.counter < chip.memory {
            image[chip.protection + chip.counter / 8] |= 1 << (chip.counter % 8);
        }
        image
    }

    /// A kind and an image that do not go in, and why.
    pub(super) fn bad_card(&mut self) -> (u8, Vec<u8>, &'static str) {
        let kind = match self.rng.below(8) {
            0 => return self.unknown_kind(),
            1..=4 => return self.wrong_length(),
            5 => 30,
            6 => 20,
            _ => 31,
        };
        let chip = chip_of(kind);
        let mut image = self.image(chip);
        let why = match kind {
            30 => {
                image[chip.counter] = self.rng.pick(&[0x08, 0x0f, 0x10, 0x80, 0xff]);
                "4442 counter above 07h"
            }
            20 => {
                chip.protect(&mut image, chip.counter);
                "4428 bit for 3FDh is 0"
            }
            _ => {
                let (place, why) = self.rng.pick(&LAST_FOUR);
                image[place] = self.rng.pick(&[0x01, 0x07, 0x80, 0xff]);
                why
            }
        };
        (kind, image, why)
    }

    /// A kind that is none, with an image of any.
    fn unknown_kind(&mut self) -> (u8, Vec<u8>, &'static str) {
        let chip = self.any_chip();
        let kind = loop {
            let kind = if self.rng.chance(50) { self.rng.byte() } else { self.rng.pick(&[0, 12, 19, 22, 29, 32]) };
            if Chip::of(kind).is_none() {
                break kind;
            }
        };
        (kind, self.image(chip), "kind unknown")
    }

    /// Any kind that goes in, each as often as another, with an image of another length.
    fn wrong_length(&mut self) -> (u8, Vec<u8>, &'static str) {
        let (_, kind) = self.rng.pick(self.kinds);
        let chip = chip_of(kind);
        let mut image = self.image(chip);
        let mut why = self.rng.pick(&WRONG_LENGTHS);
        // No longer one can be told, or there is no other large kind.
        if why == "image long" && image.len() == self.longest {
            why = "image short";
        }
        if why == "image of the other large kind" && !LARGE.contains(&kind) {
            why = "image of another kind";
        }
        match why {
            "image short" => {
                image.pop();
            }
            "image long" => image.push(self.rng.byte()),
            "no image" => image.clear(),
            "image of the other large kind" => image = self.image(chip_of(21 - kind)),
            _ => {
                let both_large = |other: &Chip| LARGE.contains(&kind) && LARGE.contains(&other.kind);
                let other = loop {
                    let other = chip_of(self.rng.pick(self.kinds).1);
                    if other.image != chip.image && !both_large(other) {
                        break other;
                    }
                };
                image = self.image(other);
            }
        }
        (kind, image, why)
    }
}
