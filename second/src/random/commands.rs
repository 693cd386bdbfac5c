//! The commands inside 6Fh, in their right form and spoiled.

use super::Maker;
use crate::reader::{Chip, LARGE, TOP_BIT};

pub(super) const INS: [u8; 9] = [0xa4, 0x01, 0xb0, 0xb1, 0xb2, 0xd0, 0xd1, 0x20, 0xd2];
const LENGTHS: [usize; 24] =
    [1, 2, 3, 4, 5, 7, 8, 9, 15, 16, 17, 31, 32, 33, 63, 64, 65, 100, 127, 128, 129, 200, 254, 255];
const PLACES: [usize; 30] = [
    0, 1, 7, 8, 9, 15, 16, 17, 28, 29, 30, 31, 32, 33, 63, 64, 65, 127, 128, 254, 255, 256, 0x3fc, 0x3fd, 0x3fe, 0x3ff,
    0x400, 0x7fff, 0x8000, 0xffff,
];

/// How often each command is taken, by what the card is.
#[rustfmt::skip]
const ON_I2C: [(usize, u8); 6] = [(6, 0xa4), (18, 0x01), (30, 0xb0), (6, 0xb1), (42, 0xd0), (6, 0xd1)];
#[rustfmt::skip]
const ON_KIND_10: [(usize, u8); 9] = [
    (8, 0xa4), (16, 0x01), (20, 0xb0), (7, 0xb1), (6, 0xb2), (28, 0xd0), (7, 0xd1), (5, 0x20), (5, 0xd2),
];
#[rustfmt::skip]
const ON_KIND_11: [(usize, u8); 9] = [
    (6, 0xa4), (10, 0x01), (16, 0xb0), (14, 0xb1), (4, 0xb2), (20, 0xd0), (24, 0xd1), (4, 0x20), (4, 0xd2),
];
#[rustfmt::skip]
const ON_CLOSED: [(usize, u8); 8] =
    [(5, 0xa4), (23, 0xb0), (8, 0xb1), (8, 0xb2), (6, 0xd0), (4, 0xd1), (41, 0x20), (5, 0xd2)];
#[rustfmt::skip]
const ON_OPEN: [(usize, u8); 8] =
    [(3, 0xa4), (22, 0xb0), (6, 0xb1), (8, 0xb2), (38, 0xd0), (18, 0xd1), (5, 0x20), (7, 0xd2)];
#[rustfmt::skip]
const ON_WITHOUT_CODE: [(usize, u8); 8] =
    [(4, 0xa4), (24, 0xb0), (5, 0xb1), (11, 0xb2), (28, 0xd0), (24, 0xd1), (5, 0x20), (5, 0xd2)];

/// Places and lengths around the counter and the code of a 4428, and the same bytes of a 4418.
#[rustfmt::skip]
const NEAR_CODE: [(usize, usize); 12] = [
    (0x3fe, 2), (0x3fe, 2), (0x3fe, 2), (0x3fe, 2), (0x3fe, 1), (0x3ff, 1),
    (0x3fd, 1), (0x3fd, 3), (0x3fc, 1), (0x3fc, 2), (0x3fb, 5), (0x3fe, 3),
];

impl Maker {
    /// The data of a 6Fh: mostly a command of the present type, in its right form.
    pub(super) fn apdu(&mut self) -> Vec<u8> {
        let own = self.chip().map_or(0x06, |chip| chip.select);
        let slot = &self.reader.slot;
        let ins = if slot.active && slot.selected == 0 && self.rng.chance(60) {
            0xa4
        } else if self.rng.chance(6) {
            self.rng.pick(&INS)
        } else {
            match (own, self.reader.slot.kind, self.reader.slot.open) {
                (_, 10, _) => self.rng.weighed(&ON_KIND_10),
                (_, 11, _) => self.rng.weighed(&ON_KIND_11),
                (0x01 | 0x02, ..) => self.rng.weighed(&ON_I2C),
                (_, 21 | 31, _) => self.rng.weighed(&ON_WITHOUT_CODE),
                (_, _, false) => self.rng.weighed(&ON_CLOSED),
                (_, _, true) => self.rng.weighed(&ON_OPEN),
            }
        };
        self.apdu_of(ins)
    }

    /// The data of a 6Fh with that INS.
    pub(super) fn apdu_of(&mut self, ins: u8) -> Vec<u8> {
        let own = self.chip().map_or(0x06, |chip| chip.select);
        // A command that the type does not have takes the form of one that has it: B1 and D1 on I2C
        // most often that of kind 11.
        let form = match (ins, own) {
            (0x01, 0x05 | 0x06) => 0x01,
            (0xb1 | 0xd1, 0x01 | 0x02) if self.reader.slot.kind == 11 || self.rng.chance(70) => 0x02,
            (0xb1 | 0xb2 | 0xd1 | 0x20, 0x01 | 0x02) => self.rng.pick(&[0x05, 0x06]),
            (0xd2, 0x01 | 0x02 | 0x05) => 0x06,
            _ => own,
        };
        let mut apdu = self.command(ins, form);
        // Commands that have but one right form are spoiled more often, and most those that a card
        // lacks, whatever their length.
        let percent = match (ins, self.reader.slot.kind) {
            (0xa4, _) => 40,
            (0xb1 | 0x20 | 0xd2, 21 | 31) | (0xb2 | 0x20 | 0xd2, 10 | 11) => 60,
            (0xb1 | 0xd1, 1..=10) if self.rng.chance(50) => {
                self.other_length(&mut apdu);
                return apdu;
            }
            (_, 10 | 11) => 25,
            (0x01 | 0xb1 | 0xb2 | 0xd2, _) => 20,
            _ => 16,
        };
        if self.rng.chance(percent) {
            self.spoil(&mut apdu);
        }
        apdu
    }

    /// A command in its right form, as the type `form` has it.
    pub(super) fn command(&mut self, ins: u8, form: u8) -> Vec<u8> {
        let own = self.chip().map_or(form, |chip| chip.select);
        let brought = |place: usize, data: Vec<u8>| {
            let mut apdu = vec![0xff, ins, (place >> 8) as u8, place as u8, data.len() as u8];
            apdu.extend_from_slice(&data);
            apdu
        };
        let plain = |place: usize, p3: usize| vec![0xff, ins, (place >> 8) as u8, place as u8, p3 as u8];
        match (ins, form) {
            (0xa4, _) => {
                let value = if self.rng.chance(80) {
                    own
                } else {
                    self.rng.pick(&[0x00, 0x01, 0x01, 0x02, 0x02, 0x03, 0x04, 0x05, 0x06, 0x07, 0xff])
                };
                brought(0, vec![value])
            }
            (0x01, _) => {
                let value = if self.rng.chance(92) {
                    // With the largest page a write runs round on every chip that is not large.
                    self.rng.pick(&[0x03, 0x04, 0x05, 0x06, 0x07, 0x07])
                } else {
                    self.rng.pick(&[0x00, 0x01, 0x02, 0x08, 0x09, 0x83, 0xff])
                };
                brought(0, vec![value])
            }
            (0xb0, _) => {
                // Often the range of a write just before.
                let (place, count) = match self.last.get(11..15) {
                    Some(&[0xd0, high, low, count]) if self.rng.chance(40) => {
                        (usize::from(high) * 256 + usize::from(low), usize::from(count))
                    }
                    _ if own == 0x05 && self.rng.chance(15) => self.rng.pick(&NEAR_CODE),
                    _ => self.memory_span(),
                };
                plain(place, count)
            }
            (0xb1, 0x02) => {
                let (place, count) = self.memory_span();
                plain(place, count)
            }
            (0xb1, 0x05) => plain(0, 3),
            (0xb1, _) => plain(0, 4),
            (0xb2, 0x05) => {
                let count = self.rng.pick(&[1, 1, 2, 3, 4, 8, 16, 31, 32, 33]);
                let last = 1024 - 8 * count;
                let place = match self.rng.below(7) {
                    0..=2 => last,
                    3 => last + self.rng.pick(&[1, 2, 8, 0xfc00]),
                    _ => self.rng.below(last + 1),
                };
                plain(place, count)
            }
            (0xb2, _) => plain(0, 4),
            (0xd0, _) => {
                let about = match self.chip() {
                    Some(chip) if chip.has_bits() && self.rng.chance(45) => self.span_about(chip, true),
                    _ => None,
                };
                let (place, count) = match about {
                    Some(span) => span,
                    None if own == 0x05 && self.rng.chance(50) => self.rng.pick(&NEAR_CODE),
                    None => self.memory_span(),
                };
                let data = self.write_data(place, count);
                brought(place, data)
            }
            (0xd1, 0x02) => {
                let (place, count) = self.memory_span();
                let data = self.write_data(TOP_BIT + place, count);
                brought(place, data)
            }
            (0xd1, _) => {
                let end = match (form, self.reader.slot.kind) {
                    (0x05, 21) => 0x400,
                    (0x05, _) => 0x3fd,
                    _ => 32,
                };
                let protected = self.rng.chance(40);
                let about = match self.chip() {
                    Some(chip) if chip.has_bits() && self.rng.chance(60) => self.span_about(chip, protected),
                    _ => None,
                };
                let (place, count) = match about {
                    Some((place, count)) if place < end => (place, count.min(end - place)),
                    _ if end == 0x400 && self.rng.chance(50) => self.rng.pick(&NEAR_CODE),
                    _ if end == 32 && self.rng.chance(8) => (0, 32),
                    _ if end > 255 && self.rng.chance(25) => (self.rng.below(end - 254), 255),
                    _ => self.span(end),
                };
                let data = self.protect_data(place, count);
                brought(place, data)
            }
            (0x20, _) => {
                let length = if form == 0x05 { 2 } else { 3 };
                let code = self.code(length);
                brought(0, code)
            }
            _ => {
                let code = if self.rng.chance(30) { self.code(3) } else { self.rng.bytes(3) };
                brought(1, code)
            }
        }
    }

    /// P1P2 and a count of 1 to 255 for a read or a write of the memory.
    fn memory_span(&mut self) -> (usize, usize) {
        match self.chip() {
            Some(chip) if LARGE.contains(&chip.kind) => self.large_span(chip),
            chip => self.span(chip.map_or(256, |chip| chip.memory)),
        }
    }

    /// P1P2 and a count on a large card: at 0000h, at FFFFh, up to FFFFh or over it, over a page of the
    /// chip, or anywhere.
    fn large_span(&mut self, chip: &Chip) -> (usize, usize) {
        let rng = &mut self.rng;
        let count = if rng.chance(60) { rng.pick(&LENGTHS) } else { 1 + rng.below(255) };
        let place = match rng.below(12) {
            0 => 0,
            1 | 2 => return (0xffff, rng.pick(&[1, 2])),
            3 => TOP_BIT - count,
            4..=6 => 0xffff - rng.below(count),
            7..=9 => chip.page * (1 + rng.below(TOP_BIT / chip.page - 1)) - rng.below(count.min(chip.page)),
            _ => rng.below(TOP_BIT),
        };
        (place, count)
    }

    /// A place and a count of 1 to 255: inside, at the edges, up to the end, and past it.
    fn span(&mut self, end: usize) -> (usize, usize) {
        let page = usize::from(self.reader.slot.page.max(1));
        let rng = &mut self.rng;
        let count = if rng.chance(60) { rng.pick(&LENGTHS) } else { 1 + rng.below(255) };
        let count = if rng.chance(80) { count.min(end) } else { count };
        let place = match rng.below(12) {
            0 | 1 => end.saturating_sub(count),
            2 => end.saturating_sub(count) + 1,
            3 => rng.pick(&PLACES),
            4 => end.saturating_sub(rng.below(3)),
            5 | 6 => (rng.below(end / page + 1) * page + rng.below(3)).saturating_sub(1),
            _ if count < end => rng.below(end - count + 1),
            _ => 0,
        };
        (place.min(0xffff), count)
    }

    /// A place and a count in the memory: protected bytes alone, or a range that begins or ends with
    /// one or has one inside; or the same with bytes that may be protected and are not. Nothing where
    /// there is no such byte.
    fn span_about(&mut self, chip: &Chip, protected: bool) -> Option<(usize, usize)> {
        let (image, rng) = (&self.reader.image, &mut self.rng);
        let such = |&k: &usize| k < chip.protectable && k != chip.counter && chip.protected(image, k) == protected;
        let from = rng.below(chip.protectable);
        let first = (from..chip.protectable).chain(0..from).find(such)?;
        let run = (first..).take_while(such).count().min(255);
        let count = if rng.chance(70) { 2 + rng.below(8) } else { 2 + rng.below(254) };
        let (place, count) = match rng.below(5) {
            0 => (first, if rng.chance(50) { run } else { 1 + rng.below(run) }),
            1 => (first, count),
            2 => (first.saturating_sub(count - 1), count),
            _ => (first.saturating_sub(rng.below(count)), count),
        };
        Some((place, count.min(chip.memory - place)))
    }

    /// Bytes for a D0: those that stand there, or any; or any but for the protected ones, of which
    /// all, or all but the first or the last, are as they stand there.
    fn write_data(&mut self, place: usize, count: usize) -> Vec<u8> {
        let stored = self.stored(place, count);
        if self.rng.chance(15) {
            return stored;
        }
        let mut data = self.rng.bytes(count);
        let protected = |k: &usize| self.chip().map_or(false, |chip| chip.protected(&self.reader.image, place + k));
        let protected: Vec<usize> = (0..count).filter(protected).collect();
        if protected.is_empty() || self.rng.chance(25) {
            return data;
        }
        for &k in &protected {
            data[k] = stored[k];
        }
        if self.rng.chance(60) {
            let other = self.rng.pick(&[protected[0], protected[protected.len() - 1]]);
            data[other] ^= 1 << self.rng.below(8);
        }
        data
    }

    /// Bytes for a D1: of the protected ones and of the others, all, some or none are those that stand
    /// there.
    fn protect_data(&mut self, place: usize, count: usize) -> Vec<u8> {
        let mut data = self.stored(place, count);
        let (old, new) = (self.rng.pick(&[0, 40, 40, 100]), self.rng.pick(&[0, 0, 40, 40, 100]));
        for (k, byte) in data.iter_mut().enumerate() {
            let protected = self.chip().map_or(false, |chip| chip.protected(&self.reader.image, place + k));
            if self.rng.chance(if protected { old } else { new }) {
                *byte ^= 1 << self.rng.below(8);
            }
        }
        data
    }

    /// The bytes that stand in the memory there, 00h past its end.
    fn stored(&self, place: usize, count: usize) -> Vec<u8> {
        (place..place + count).map(|k| self.reader.image.get(k).copied().unwrap_or(0)).collect()
    }

    /// The right code, or nearly: one bit or byte off, turned round, or any other.
    fn code(&mut self, length: usize) -> Vec<u8> {
        let mut code = match self.chip() {
            Some(chip) if chip.code.len() == length => self.reader.image[chip.code.clone()].to_vec(),
            _ => self.rng.bytes(length),
        };
        let which = self.rng.below(length);
        match self.rng.below(11) {
            0 | 1 => code[which] ^= 1 << self.rng.below(8),
            2 => code[which] = self.rng.byte(),
            3 => code.reverse(),
            4 => code = self.rng.bytes(length),
            _ => {}
        }
        code
    }

    /// A byte more or less than P3 asks for, or a P3 of 0.
    fn other_length(&mut self, apdu: &mut Vec<u8>) {
        match self.rng.below(3) {
            0 if apdu.len() > 5 => {
                apdu.pop();
            }
            1 => {
                apdu[4] = 0;
                apdu.truncate(5);
            }
            _ => apdu.push(self.rng.byte()),
        }
    }

    /// A fault in a command, or something that is no command.
    pub(super) fn spoil(&mut self, apdu: &mut Vec<u8>) {
        let rng = &mut self.rng;
        match rng.below(21) {
            0 => apdu.truncate(rng.below(5)),
            1 => apdu[0] = rng.pick(&[0x00, 0x80, 0xfe, 0x7f]),
            2 => {
                apdu[1] = loop {
                    let ins = if rng.chance(50) {
                        rng.byte()
                    } else {
                        rng.pick(&[0x00, 0x02, 0x21, 0xa5, 0xaf, 0xb3, 0xcf, 0xd3, 0xff])
                    };
                    if !INS.contains(&ins) {
                        break ins;
                    }
                }
            }
            // P3 and the bytes that came do not agree, or are too many or too few
            3 => apdu[4] = apdu[4].wrapping_add(1),
            4 => apdu[4] = apdu[4].wrapping_sub(1),
            5 | 17 => apdu.push(rng.byte()),
            6 => {
                apdu.pop();
            }
            7 | 18 => {
                apdu[4] = 0;
                apdu.truncate(5);
            }
            8 => {
                let count = 1 + rng.below(6);
                apdu[4] = count as u8;
                if apdu.len() > 5 {
                    apdu.resize(5 + count, rng.byte());
                }
            }
            9 => apdu[4] = rng.byte(),
            // another place
            10 => apdu[2] = rng.pick(&[0x01, 0x04, 0x80, 0xff]),
            11..=13 | 19 | 20 => apdu[3] = apdu[3].wrapping_add(rng.pick(&[1, 0x10, 0x80, 0xff])),
            14 => {
                apdu[2] = 0xff;
                apdu[3] = 0xff;
            }
            _ => {
                if let Some(value) = apdu.get_mut(5) {
                    *value = rng.byte();
                }
            }
        }
    }
}
