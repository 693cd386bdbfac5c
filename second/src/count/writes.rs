//! What is counted of D0, and of D1 on kind 11: on a card with protection bits, which bytes of the
//! range are protected and which of those are as sent; on I2C, page writes, and those that run round.

use super::{address, Before, Count};
use crate::reader::{Chip, CHIPS};

/// A byte of the range before the write.
pub(super) struct Byte {
    pub(super) address: usize,
    protected: bool,
    /// It is the one sent already.
    pub(super) equal: bool,
}

/// The bytes of a range that lies in the memory.
pub(super) fn range(before: &Before, apdu: &[u8]) -> Vec<Byte> {
    let place = address(before.slot.kind, apdu);
    let byte = |(address, sent): (usize, &u8)| Byte {
        address,
        protected: before.protected(address),
        equal: before.image.get(address) == Some(sent),
    };
    (place..).zip(&apdu[5..]).map(byte).collect()
}

/// The reader pages.
pub(super) const PAGES: [u8; 5] = [8, 16, 32, 64, 128];

/// Which bytes of a range are protected.
fn which(range: &[Byte]) -> &'static str {
    let places: Vec<usize> = (0..range.len()).filter(|&k| range[k].protected).collect();
    match places[..] {
        [] => "none",
        _ if places.len() == range.len() => "all",
        [0] => "the first alone",
        [only] if only == range.len() - 1 => "the last alone",
        [_] => "a middle one alone",
        [first, .., last] if last - first < places.len() => "several in a row",
        _ => "several apart",
    }
}

/// Which protected bytes of a range are as sent.
fn outcome(range: &[Byte]) -> &'static str {
    let equal: Vec<bool> = range.iter().filter(|byte| byte.protected).map(|byte| byte.equal).collect();
    let all = |bytes: &[bool]| bytes.iter().all(|&equal| equal);
    match &equal[..] {
        bytes if all(bytes) => "equal",
        [_] => "unequal",
        [_, others @ ..] if all(others) => "the first of them unequal",
        [others @ .., _] if all(others) => "the last of them unequal",
        _ => "unequal",
    }
}

/// Whether a write on I2C runs round with a reader page: a page of the chip begins inside a cut, and
/// the byte there keeps its value, which is not the one sent.
pub(super) fn runs_round(before: &Before, apdu: &[u8], reader_page: usize) -> bool {
    let chip_page = Chip::of(before.slot.kind).map_or(reader_page, |chip| chip.page);
    let keeps = |byte: &Byte| byte.address % chip_page == 0 && byte.address % reader_page != 0;
    range(before, apdu).iter().skip(1).any(|byte| keeps(byte) && !byte.equal)
}

impl Count {
    /// A D0 on a card with protection bits: it found the card closed, or it was carried out.
    pub(super) fn write(&mut self, before: &Before, apdu: &[u8], word: u16) {
        let (kind, range) = (before.slot.kind, range(before, apdu));
        let which = which(&range);
        let mut add = |what: String| self.add(format!("kind {}: D0 {}: {:04X}", kind, what, word));
        if word == 0x6982 {
            if which != "none" {
                add("over a protected byte, closed".to_string());
            }
            return;
        }
        // Where not all are protected, one of the others has to change.
        if which == "all" || range.iter().any(|byte| !byte.protected && !byte.equal) {
            add(match which {
                "none" => "with none protected".to_string(),
                _ => format!("with {} protected, {}", which, outcome(&range)),
            });
        }
        // 20h of the kinds 30 and 31 is the first byte that has no bit.
        let over_the_last_bit = |two: &[Byte]| two[0].protected && two[1].address == 0x20;
        if [30, 31].contains(&kind) && range.windows(2).any(over_the_last_bit) {
            add("over 1Fh, protected, and 20h".to_string());
        }
        for byte in range.iter().filter(|byte| byte.address >= 0x3fd) {
            let what = match (byte.protected, byte.equal) {
                (false, _) => "stored",
                (true, true) => "protected and equal",
                (true, false) => "protected and unequal",
            };
            add(format!("of {:03X}h, {}", byte.address, what));
        }
    }

    /// A write on I2C.
    pub(super) fn page_write(&mut self, before: &Before, apdu: &[u8], word: u16) {
        let (kind, reader_page) = (before.slot.kind, usize::from(before.slot.page));
        let mut add = |what: String| self.add(format!("kind {}: {:02X} {}: {:04X}", kind, apdu[1], what, word));
        add(format!("with reader page {}", reader_page));
        if runs_round(before, apdu, reader_page) {
            add("runs round, a byte other than sent".to_string());
        }
        self.page_of_write(before, apdu);
    }
}

/// What a run has to reach.
pub(super) fn answers(chips: &[&Chip]) -> Vec<String> {
    let mut goals = Vec::new();
    for chip in chips {
        let mut goal = |text: String| goals.push(format!("kind {}: D0 {}", chip.kind, text));
        if !chip.has_bits() {
            for page in PAGES {
                goal(format!("with reader page {}: 9000", page));
            }
            // No reader page is larger than 128.
            if chip.page < 128 {
                goal("runs round, a byte other than sent: 9000".to_string());
            }
            continue;
        }
        goal("with none protected: 9000".to_string());
        for which in ["the first alone", "a middle one alone", "the last alone"] {
            goal(format!("with {} protected, equal: 9000", which));
            goal(format!("with {} protected, unequal: 6581", which));
        }
        for which in ["several in a row", "several apart", "all"] {
            goal(format!("with {} protected, equal: 9000", which));
            for unequal in ["unequal", "the first of them unequal", "the last of them unequal"] {
                goal(format!("with {} protected, {}: 6581", which, unequal));
            }
        }
        if chip.has_code() {
            goal("over a protected byte, closed: 6982".to_string());
        }
        if chip.protectable < chip.memory {
            goal("over 1Fh, protected, and 20h: 9000".to_string());
            goal("over 1Fh, protected, and 20h: 6581".to_string());
        }
        // 3FDh of kind 20 is the counter, which no D0 covers.
        for address in (0x3fd..chip.memory).filter(|&address| address != chip.counter) {
            for what in ["stored: 9000", "stored: 6581", "protected and equal: 9000", "protected and unequal: 6581"] {
                goal(format!("of {:03X}h, {}", address, what));
            }
        }
    }
    goals
}

/// What a run of sessions has to reach: right after a D0 with 65 81 the range is read, the bits, the
/// counter, and the next D0 finds the card open.
pub(super) fn in_sessions() -> Vec<String> {
    let mut goals = Vec::new();
    for chip in CHIPS.iter().filter(|chip| chip.has_bits()) {
        for ins in [0xb0, 0xb1, 0xb2, 0xd0] {
            if ins != 0xb1 || chip.has_code() {
                goals.push(format!("kind {}: 6581, then {:02X}: 9000", chip.kind, ins));
            }
        }
    }
    goals
}

#[cfg(test)]
mod tests {
    use crate::count::tests::{counted_on, ready};
    use crate::reader::Slot;

    /// What is counted of a D0 on kind 31 whose memory is 55h and whose bytes 2, 4, 5 and 1Fh are
    /// protected.
    fn counted(place: u8, data: &[u8]) -> Vec<String> {
        let image = [&[0x55; 256][..], &[0xcb, 0xff, 0xff, 0x7f], &[0; 4]].concat();
        counted_on(&ready(31), &image, &[&[0xff, 0xd0, 0x00, place, data.len() as u8], data].concat())
    }

    #[test]
    fn protected_bytes_of_a_range() {
        // Each is counted by its status word too. 55h is as it stands there, the other bytes are not.
        for (place, data, wanted) in [
            (0, &[1, 1][..], "none protected: 9000"),
            (2, &[0x55, 1], "the first alone protected, equal: 9000"),
            (2, &[1, 1], "the first alone protected, unequal: 6581"),
            (1, &[1, 0x55], "the last alone protected, equal: 9000"),
            (1, &[0x55, 1, 1], "a middle one alone protected, unequal: 6581"),
            (3, &[1, 0x55, 0x55, 0x55], "several in a row protected, equal: 9000"),
            (3, &[1, 1, 0x55], "several in a row protected, the first of them unequal: 6581"),
            (4, &[0x55, 1, 1], "several in a row protected, the last of them unequal: 6581"),
            (4, &[1, 1, 1], "several in a row protected, unequal: 6581"),
            (2, &[0x55, 1, 0x55, 0x55], "several apart protected, equal: 9000"),
            (2, &[0x55, 1, 1, 0x55], "several apart protected, unequal: 6581"),
            (2, &[0x55, 1, 0x55, 1, 1], "several apart protected, the last of them unequal: 6581"),
            (4, &[0x55, 0x55], "all protected, equal: 9000"),
            (4, &[0x55, 1], "all protected, the last of them unequal: 6581"),
            (4, &[1], "all protected, unequal: 6581"),
        ] {
            let word = &wanted[wanted.len() - 4..];
            assert_eq!(counted(place, data), [format!("D0 with {}", wanted), format!("D0: {}", word)]);
        }
        // No unprotected byte changes.
        assert_eq!(counted(1, &[0x55, 0x55]), ["D0: 9000"]);
        assert_eq!(counted(1, &[0x55, 1]), ["D0: 6581"]);
    }

    #[test]
    fn over_the_last_byte_that_has_a_bit() {
        let first = "D0 with the first alone protected";
        let over = "D0 over 1Fh, protected, and 20h";
        assert_eq!(
            counted(0x1f, &[0x55, 1]),
            [format!("{}: 9000", over), format!("{}, equal: 9000", first), "D0: 9000".to_string()]
        );
        assert_eq!(
            counted(0x1f, &[1, 1]),
            [format!("{}: 6581", over), format!("{}, unequal: 6581", first), "D0: 6581".to_string()]
        );
        assert_eq!(counted(0x20, &[1, 1]), ["D0 with none protected: 9000", "D0: 9000"]);
    }

    /// Kind 1 has a chip page of 8, and the reader page is 8, or 16.
    #[test]
    fn page_writes() {
        let counted = |page: u8, place: u8, data: &[u8]| {
            let apdu = [&[0xff, 0xd0, 0x00, place, data.len() as u8], data].concat();
            counted_on(&Slot { page, ..ready(1) }, &[0x55; 128], &apdu)
        };
        assert_eq!(counted(8, 6, &[1, 1, 1, 1]), ["D0 with reader page 8: 9000", "D0 with the page of its type"]);
        let round = ["D0 runs round, a byte other than sent: 9000", "D0 with reader page 16: 9000"];
        assert_eq!(counted(16, 6, &[1, 1, 1, 1]), round);
        // The byte at 8 is the one sent, or the first of the range; 10h begins a cut.
        assert_eq!(counted(16, 6, &[1, 1, 0x55]), round[1..]);
        assert_eq!(counted(16, 8, &[1, 1, 1]), round[1..]);
        assert_eq!(counted(16, 14, &[1, 1, 1]), round[1..]);
    }

    #[test]
    fn the_code_of_kind_20() {
        // 3FEh and 3FFh are C2 C3, and 3FFh is protected.
        let image = [&[0x55; 0x3fd][..], &[0xff, 0xc2, 0xc3], &[0xff; 127], &[0x7f]].concat();
        let counted = |data: [u8; 2]| counted_on(&ready(20), &image, &[0xff, 0xd0, 0x03, 0xfe, 2, data[0], data[1]]);
        assert_eq!(
            counted([7, 0xc3]),
            [
                "D0 of 3FEh, stored: 9000",
                "D0 of 3FFh, protected and equal: 9000",
                "D0 with the last alone protected, equal: 9000",
                "D0: 9000"
            ]
        );
        assert_eq!(
            counted([0xc2, 7]),
            ["D0 of 3FEh, stored: 6581", "D0 of 3FFh, protected and unequal: 6581", "D0: 6581"]
        );
    }
}
