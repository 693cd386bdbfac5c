//! Parameter sets: those that 61h takes, those that it does not, and stored ones that are unsound.

use super::counts::counts;
use super::Maker;
use crate::case::{raw, Case, PROTOCOL};
use crate::parameters::{Parameters, RESERVED_DI, RESERVED_FI};
use crate::reader::Slot;

/// The entries of the two tables that are not reserved.
pub const FI: [u8; 12] = [0, 1, 2, 3, 4, 5, 6, 9, 10, 11, 12, 13];
pub const DI: [u8; 8] = [1, 2, 3, 4, 5, 6, 8, 9];

/// A byte of the raw record that makes a stored set unsound: a good set of the protocol, but for
/// this byte. Without a card the T=0 set is the default one.
pub struct SetFault {
    pub name: &'static str,
    card: bool,
    protocol: u8,
    at: usize,
    values: &'static [u8],
}

const fn stored(name: &'static str, protocol: u8, at: usize, values: &'static [u8]) -> SetFault {
    SetFault { name, card: true, protocol, at, values }
}

const fn no_card(name: &'static str, protocol: u8, at: usize, values: &'static [u8]) -> SetFault {
    SetFault { name, card: false, protocol, at, values }
}

/// Each is tried on its own.
#[rustfmt::skip]
pub static SET_FAULTS: [SetFault; 38] = [
    stored("protocol number 2, bytes of T=0",   0, PROTOCOL, &[2]),
    stored("protocol number 2, bytes of T=1",   1, PROTOCOL, &[2]),
    stored("a protocol number above 2",         1, PROTOCOL, &[3, 0x10, 0x80, 0x81, 0x82, 0xff]),
    stored("T=0, byte 11 not 00h",              0, 11,       &[1, 0x20, 0x80, 0xff]),
    stored("T=0, byte 12 not 00h",              0, 12,       &[1, 0x20, 0x80, 0xff]),
    stored("stored FI 7",                       0, 6,        &[0x71, 0x76, 0x79]),
    stored("stored FI 8",                       1, 6,        &[0x81, 0x86, 0x89]),
    stored("stored FI 14",                      0, 6,        &[0xe1, 0xe6, 0xe9]),
    stored("stored FI 15",                      1, 6,        &[0xf1, 0xf6, 0xf9]),
    stored("stored DI 0",                       0, 6,        &[0x00, 0x60, 0xd0]),
    stored("stored DI 7",                       1, 6,        &[0x07, 0x67, 0xd7]),
    stored("stored DI 10",                      0, 6,        &[0x0a, 0x6a, 0xda]),
    stored("stored DI 11",                      1, 6,        &[0x0b, 0x6b, 0xdb]),
    stored("stored DI 12",                      0, 6,        &[0x0c, 0x6c, 0xdc]),
    stored("stored DI 13",                      1, 6,        &[0x0d, 0x6d, 0xdd]),
    stored("stored DI 14",                      0, 6,        &[0x0e, 0x6e, 0xde]),
    stored("stored DI 15",                      1, 6,        &[0x0f, 0x6f, 0xdf]),
    stored("stored T=0, checksum byte of T=1",  0, 7,        &[0x10, 0x11, 0x12, 0x13]),
    stored("stored T=1, checksum byte of T=0",  1, 7,        &[0x00, 0x01, 0x02, 0x03]),
    stored("stored T=0, other checksum byte",   0, 7,        &[0x04, 0x08, 0x20, 0x40, 0x80, 0xfc, 0xff]),
    stored("stored T=1, other checksum byte",   1, 7,        &[0x04, 0x14, 0x18, 0x30, 0x50, 0x90, 0xff]),
    stored("stored BWI 10",                     1, 9,        &[0xa0, 0xa5, 0xaf]),
    stored("stored BWI above 10",               1, 9,        &[0xb0, 0xc4, 0xd3, 0xe2, 0xff]),
    stored("stored T=0, clock stop 4",          0, 10,       &[4]),
    stored("stored T=1, clock stop 4",          1, 10,       &[4]),
    stored("stored T=0, clock stop above 4",    0, 10,       &[5, 8, 0x10, 0x80, 0xff]),
    stored("stored T=1, clock stop above 4",    1, 10,       &[5, 8, 0x10, 0x80, 0xff]),
    stored("stored NAD 1",                      1, 12,       &[1]),
    stored("stored NAD above 1",                1, 12,       &[2, 0x10, 0x80, 0xff]),
    no_card("no card but another FI",           0, 6,        &[0x01, 0x21, 0x91, 0xd1]),
    no_card("no card but another DI",           0, 6,        &[0x12, 0x14, 0x18, 0x19]),
    no_card("no card but another low bit",      0, 7,        &[1, 2, 3]),
    no_card("no card but another guard time",   0, 8,        &[1, 0x80, 0xff]),
    no_card("no card but another WI",           0, 9,        &[0x00, 0x0b, 0x0e, 0x8a, 0xff]),
    no_card("no card but another clock stop",   0, 10,       &[1, 2, 3]),
    no_card("no card but byte 11 not 00h",      0, 11,       &[1, 0x20, 0xff]),
    no_card("no card but byte 12 not 00h",      0, 12,       &[1, 0x20, 0xff]),
    no_card("no card but T=1",                  1, 11,       &[0x00, 0x20, 0xfe]),
];

impl Maker {
    /// Any byte, and 00h and FFh more often.
    fn edge(&mut self) -> u8 {
        if self.rng.chance(30) {
            self.rng.pick(&[0x00, 0xff])
        } else {
            self.rng.byte()
        }
    }

    /// A set that 61h takes.
    fn good_set(&mut self, protocol: u8) -> Parameters {
        let first = self.rng.pick(&FI) << 4 | self.rng.pick(&DI);
        let (low, clock_stop) = (self.rng.below(4) as u8, self.rng.below(4) as u8);
        let (guard, waiting) = (self.edge(), self.edge());
        let mut bytes = vec![first, low, guard, waiting, clock_stop];
        if protocol == 1 {
            bytes[1] |= 0b000100 << 2;
            bytes[3] = self.rng.pick(&[0, 1, 2, 3, 4, 5, 6, 7, 8, 9, 9]) << 4 | waiting & 0x0f;
            bytes.extend_from_slice(&[self.edge(), 0x00]);
        }
        Parameters { protocol, bytes }
    }

    /// The default set, or another that 61h takes.
    pub(super) fn any_set(&mut self) -> Parameters {
        match self.rng.below(5) {
            0 => Parameters::default(),
            1 | 2 => self.good_set(0),
            _ => self.good_set(1),
        }
    }

    /// A 61h: the set is taken, or has a fault or several. T=1 has more that may be at fault.
    pub(super) fn set_parameters(&mut self) -> Vec<u8> {
        let spoiled = self.rng.chance(55);
        let set = if spoiled && self.rng.chance(50) { self.good_set(1) } else { self.any_set() };
        let mut message = self.ccid(0x61, &set.bytes);
        message[7] = set.protocol;
        if spoiled {
            for _ in 0..self.rng.pick(&[1, 1, 1, 2, 2, 3]) {
                self.spoil_set(&mut message);
            }
        }
        message
    }

    /// A fault of a 61h. A byte that its set does not have has none.
    fn spoil_set(&mut self, message: &mut Vec<u8>) {
        let rng = &mut self.rng;
        let at = |offset: usize| message.get(offset).copied().unwrap_or(0);
        let (offset, value) = match rng.below(26) {
            0 | 1 => (10, rng.pick(&RESERVED_FI) << 4 | at(10) & 0x0f),
            2..=4 => (10, at(10) & 0xf0 | rng.pick(&RESERVED_DI)),
            5..=7 => (11, rng.pick(&[0x00, 0x00, 0x04, 0x10, 0x10, 0x14, 0x20, 0x40, 0x80, 0xfc]) | at(11) & 0x03),
            8..=10 => (13, rng.pick(&[10, 10, 11, 15]) << 4 | at(13) & 0x0f),
            11..=13 => (14, rng.pick(&[4, 4, 5, 8, 0x10, 0x80, 0xff])),
            14..=16 => (16, rng.pick(&[1, 1, 2, 0x10, 0x80, 0xff])),
            17 | 18 => (7, rng.pick(&[0, 1, 2, 2, 3, 0x80, 0x80, 0x81, 0x82, 0xff])),
            19 | 20 => (5, rng.pick(&[1, 2, 0x80, 0xff])),
            21 | 22 => (1, rng.pick(&[0, 5, 5, 6, 7, 7, 8])),
            _ => {
                let length = rng.pick(&[0, 4, 5, 5, 6, 6, 7, 7, 8]);
                message.resize(10 + length, rng.byte());
                if rng.chance(60) {
                    message[1] = length as u8;
                }
                return;
            }
        };
        if let Some(byte) = message.get_mut(offset) {
            *byte = value;
        }
    }

    /// Puts an unsound set into the record: which fault.
    pub(super) fn unsound_set(&mut self, case: &mut Case) -> &'static str {
        let fault = &SET_FAULTS[self.rng.below(SET_FAULTS.len())];
        let mut slot = self.reader.slot.clone();
        if fault.card && slot.kind == 0 {
            let chip = self.any_chip();
            case.image = self.image(chip);
            slot.kind = chip.kind;
        }
        if !fault.card {
            slot = Slot::empty();
        }
        (slot.tries, slot.protected) = counts(slot.kind, &case.image);
        if fault.card || fault.protocol == 1 {
            slot.parameters = self.good_set(fault.protocol);
        }
        case.record = raw(&slot);
        case.record[fault.at] = self.rng.pick(fault.values);
        fault.name
    }
}
