//! The reader page and the flag that says whether the host has chosen it: messages that set, keep or
//! refuse a page, and flags that are off.

use super::{chip_of, Maker};
use crate::case::{raw, Case, CHOSEN};
use crate::count::card;

/// What byte 16 must not be: 01h without a card, the others never.
const BAD_FLAGS: [u8; 5] = [0x01, 0x02, 0x03, 0x80, 0xff];

/// Those of a kind, or of no card.
pub fn bad_flags(kind: u8) -> &'static [u8] {
    &BAD_FLAGS[usize::from(kind != 0)..]
}

/// Which flag is off, on which kind.
pub fn bad_flag(kind: u8, flag: u8) -> String {
    format!("{}: byte 16 is {:02X}h", card(kind), flag)
}

impl Maker {
    /// A message to a card of any kind, each as often as another, inactive or without its type more
    /// often than in other cases: most often an A4 or a 01, right or spoiled, an A4 with either type of
    /// I2C, or power.
    pub(super) fn any_choice(&mut self) -> Vec<u8> {
        let chip = chip_of(self.rng.pick(self.kinds).1);
        self.state_of(chip);
        let slot = &mut self.reader.slot;
        if self.rng.chance(30) {
            (slot.active, slot.selected, slot.open) = (self.rng.chance(50), 0, false);
        }
        let apdu = match self.rng.below(12) {
            0..=4 => self.apdu_of(0xa4),
            5 => vec![0xff, 0xa4, 0x00, 0x00, 0x01, self.rng.pick(&[0x01, 0x02])],
            6..=8 => self.apdu_of(0x01),
            9 => return self.ccid(0x62, &[]),
            10 => return self.ccid(0x63, &[]),
            _ => return self.message(),
        };
        self.ccid(0x6f, &apdu)
    }

    /// Makes the case one of a slot whose flag is off: on which kind, and how.
    pub(super) fn unsound_flag(&mut self, case: &mut Case) -> String {
        self.each_state(case);
        let kind = self.reader.slot.kind;
        let flag = self.rng.pick(bad_flags(kind));
        case.record = raw(&self.reader.slot);
        case.record[CHOSEN] = flag;
        bad_flag(kind, flag)
    }
}
