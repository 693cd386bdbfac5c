//! What is counted on the large chips, kinds 10 and 11: reads and writes by the part of the memory in
//! which they lie, page writes, the commands that an I2C card lacks, records that are unsound; and the
//! inserts of a session, which takes both kinds as unknown.

use super::writes::{range, Byte, PAGES};
use super::{address, has, Before, Count, Kind, On, INS};
use crate::random::{LARGE_FAULTS, LARGE_INSERTS};
use crate::reader::{Chip, LARGE, TOP_BIT};

/// Whether a command finds every place in range: no B0 and no D0 on kind 11 reaches the end of its
/// memory.
pub(super) fn always_in_place(on: On, ins: u8) -> bool {
    matches!((on, ins), (Kind(11), 0xb0 | 0xd0))
}

/// Where a range lies in the memory.
fn part(first: usize, end: usize) -> &'static str {
    match end {
        _ if end < TOP_BIT => "below 10000h",
        TOP_BIT => "up to FFFFh",
        _ if first < TOP_BIT => "over 10000h",
        0x20000 => "up to 1FFFFh",
        _ => "above 10000h",
    }
}

/// The parts that a command can reach, in range.
fn parts(kind: u8, ins: u8) -> &'static [&'static str] {
    match (kind, ins) {
        (10, _) => &["below 10000h", "up to FFFFh"],
        (_, 0xb0 | 0xd0) => &["below 10000h", "up to FFFFh", "over 10000h"],
        _ => &["above 10000h", "up to 1FFFFh"],
    }
}

/// Whether the answer to a read on kind 11 shows the top bit: other bytes stand where it is another,
/// and where it is lost.
fn shows_top_bit(before: &Before, first: usize, told: &[u8]) -> bool {
    let at = |place: fn(usize) -> usize| (first..).zip(told).any(|(k, byte)| before.image.get(place(k)) != Some(byte));
    let above = first + told.len() > TOP_BIT;
    at(|k| k ^ TOP_BIT) && (!above || at(|k| k % TOP_BIT))
}

/// Whether a write changes a byte, one from 10000h on where it reaches that far.
fn shows_write(range: &[Byte]) -> bool {
    let above = range.iter().any(|byte| byte.address >= TOP_BIT);
    range.iter().any(|byte| !byte.equal && (byte.address >= TOP_BIT || !above))
}

impl Count {
    /// A command on a large card.
    pub(super) fn large(&mut self, before: &Before, apdu: &[u8], told: &[u8], word: u16) {
        let (kind, ins) = (before.slot.kind, apdu[1]);
        if before.slot.selected == 0 {
            return self.add(format!("kind {}, no type: {:02X}: {:04X}", kind, ins, word));
        }
        match (ins, word) {
            (0x01, 0x9000) => self.add(format!("kind {}: page code {:02X}h", kind, apdu[5])),
            (_, 0x6d00) => self.lacked(before, apdu),
            (0xb0 | 0xb1 | 0xd0 | 0xd1, 0x9000 | 0x6b00) => self.large_range(before, apdu, told, word),
            _ => {}
        }
    }

    /// A read or a write that has its right length.
    fn large_range(&mut self, before: &Before, apdu: &[u8], told: &[u8], word: u16) {
        let (kind, ins, p3) = (before.slot.kind, apdu[1], usize::from(apdu[4]));
        let first = address(kind, apdu);
        let mut add = |what: String| self.add(format!("kind {}: {:02X} {}: {:04X}", kind, ins, what, word));
        match (&apdu[2..4], p3) {
            ([0x00, 0x00], _) => add("at 0000h".to_string()),
            ([0xff, 0xff], 1 | 2) => add(format!("at FFFFh, P3 {}", p3)),
            _ => {}
        }
        if word != 0x9000 {
            return;
        }
        let shown = match ins {
            0xb0 | 0xb1 => kind == 10 || shows_top_bit(before, first, &told[..p3]),
            _ => shows_write(&range(before, apdu)),
        };
        if shown {
            add(part(first, first + p3).to_string());
        }
        if ins >= 0xd0 {
            self.large_write(before, apdu, word);
        }
    }

    /// A write: over a page of the chip, and where a smaller page of the chip would be seen.
    fn large_write(&mut self, before: &Before, apdu: &[u8], word: u16) {
        self.page_write(before, apdu, word);
        let (kind, ins, reader_page) = (before.slot.kind, apdu[1], before.slot.page);
        let chip_page = Chip::of(kind).map_or(1, |chip| chip.page);
        let mut add = |what: String| self.add(format!("kind {}: {:02X} {}: {:04X}", kind, ins, what, word));
        let over = |wanted: fn(usize, usize) -> bool| {
            range(before, apdu).iter().skip(1).any(|byte| !byte.equal && wanted(byte.address, chip_page))
        };
        if over(|address, chip_page| address % chip_page == 0) {
            add(format!("over a page of the chip, reader page {}", reader_page));
        }
        if reader_page == 128 && over(|address, _| address % 128 == 64) {
            add("over the middle of a reader page of 128".to_string());
        }
    }

    /// A command that an I2C card lacks: whether its length is right on a card that has it.
    pub(super) fn lacked(&mut self, before: &Before, apdu: &[u8]) {
        let (ins, p3, came) = (apdu[1], usize::from(apdu[4]), apdu.len() - 5);
        let right = match ins {
            0xb1 => came == 0 && p3 > 0,
            0xb2 => came == 0 && (1..=32).contains(&p3),
            0xd1 => came == p3 && p3 > 0,
            0x20 => came == p3 && (2..=3).contains(&p3),
            0xd2 => came == p3 && p3 == 3,
            _ => return,
        };
        let which = if right { "right" } else { "wrong" };
        self.add(format!("kind {}: {:02X} of a {} length: 6D00", before.slot.kind, ins, which));
    }
}

/// The commands that I2C cards lack, of a right length and of a wrong one: those of kind 11 on every
/// other, the rest on the large ones.
pub(super) fn lacks(chips: &[&Chip]) -> Vec<String> {
    let mut goals = Vec::new();
    for chip in chips.iter().filter(|chip| !chip.has_bits()) {
        for ins in [0xb1, 0xb2, 0xd1, 0x20, 0xd2] {
            let asked =
                if LARGE.contains(&chip.kind) { !has(Kind(chip.kind), ins) } else { [0xb1, 0xd1].contains(&ins) };
            if asked {
                goals.push(format!("kind {}: {:02X} of a right length: 6D00", chip.kind, ins));
                goals.push(format!("kind {}: {:02X} of a wrong length: 6D00", chip.kind, ins));
            }
        }
    }
    goals
}

/// What a run of trial cases has to reach with answered messages.
pub(super) fn answers() -> Vec<String> {
    let mut goals = Vec::new();
    for kind in LARGE {
        for ins in INS {
            let words: &[&str] = if ins == 0xa4 { &["9000", "6A80", "6700", "6B00"] } else { &["6985"] };
            goals.extend(words.iter().map(|word| format!("kind {}, no type: {:02X}: {}", kind, ins, word)));
        }
        for ins in [0xb0, 0xb1, 0xd0, 0xd1].into_iter().filter(|&ins| has(Kind(kind), ins)) {
            let mut goal = |what: String| goals.push(format!("kind {}: {:02X} {}", kind, ins, what));
            goal("at 0000h: 9000".to_string());
            goal("at FFFFh, P3 1: 9000".to_string());
            // Two bytes from 0FFFFh on lie in the memory of kind 11 alone.
            let word = if always_in_place(Kind(kind), ins) { "9000" } else { "6B00" };
            goal(format!("at FFFFh, P3 2: {}", word));
            for part in parts(kind, ins) {
                goal(format!("{}: 9000", part));
            }
            if ins >= 0xd0 {
                for page in PAGES {
                    goal(format!("over a page of the chip, reader page {}: 9000", page));
                }
                goal("over the middle of a reader page of 128: 9000".to_string());
            }
        }
    }
    // Those of D0 are asked for on every I2C card.
    goals.extend(PAGES.iter().map(|page| format!("kind 11: D1 with reader page {}: 9000", page)));
    goals
}

/// What a run of trial cases has to reach beside: every way that a record of either is unsound.
pub(super) fn in_cases() -> Vec<String> {
    LARGE.iter().flat_map(|kind| LARGE_FAULTS.iter().map(move |fault| format!("4: kind {}: {}", kind, fault))).collect()
}

/// What a run of sessions has to reach: both are turned down as of unknown kind, and what the slot
/// holds is held.
pub(super) fn in_sessions() -> Vec<String> {
    let mut goals = Vec::new();
    for kind in LARGE {
        for how in LARGE_INSERTS {
            goals.push(format!("in 3: kind {}, {}", kind, how));
            goals.push(format!("in 5: kind {}, {}", kind, how));
        }
        goals.push(format!("a message right after in 3 of kind {}", kind));
        goals.push(format!("a B0 right after in 5 of kind {}", kind));
    }
    goals
}

#[cfg(test)]
mod tests {
    use crate::count::tests::{counted_on, ready};
    use crate::reader::Slot;

    /// Memory of 11h below 10000h and of 22h above.
    fn image(kind: u8) -> Vec<u8> {
        let above = if kind == 11 { 65536 } else { 0 };
        [vec![0x11; 65536], vec![0x22; above]].concat()
    }

    /// What is counted of a command with reader page 8, without its own line.
    fn counted(kind: u8, apdu: &[u8]) -> Vec<String> {
        let own = format!("{:02X}: ", apdu[1]);
        counted_on(&ready(kind), &image(kind), apdu).into_iter().filter(|what| !what.starts_with(&own)).collect()
    }

    #[test]
    fn parts_of_the_memory() {
        for (kind, apdu, wanted) in [
            (11, &[0xff, 0xb0, 0x80, 0x00, 1][..], &["B0 below 10000h: 9000"][..]),
            (11, &[0xff, 0xb0, 0xff, 0xfc, 4], &["B0 up to FFFFh: 9000"]),
            (11, &[0xff, 0xb0, 0xff, 0xfc, 5], &["B0 over 10000h: 9000"]),
            (11, &[0xff, 0xb0, 0xff, 0xff, 2], &["B0 at FFFFh, P3 2: 9000", "B0 over 10000h: 9000"]),
            (11, &[0xff, 0xb1, 0x00, 0x00, 4], &["B1 above 10000h: 9000", "B1 at 0000h: 9000"]),
            (11, &[0xff, 0xb1, 0xff, 0xff, 1], &["B1 at FFFFh, P3 1: 9000", "B1 up to 1FFFFh: 9000"]),
            (11, &[0xff, 0xb1, 0xff, 0xff, 2], &["B1 at FFFFh, P3 2: 6B00"]),
            (10, &[0xff, 0xb0, 0x00, 0x00, 1], &["B0 at 0000h: 9000", "B0 below 10000h: 9000"]),
            (10, &[0xff, 0xb0, 0xff, 0xff, 1], &["B0 at FFFFh, P3 1: 9000", "B0 up to FFFFh: 9000"]),
            (10, &[0xff, 0xb0, 0xff, 0xff, 2], &["B0 at FFFFh, P3 2: 6B00"]),
        ] {
            assert_eq!(counted(kind, apdu), wanted, "kind {}: {:02x?}", kind, apdu);
        }
    }

    /// A read is counted where it shows the top bit.
    #[test]
    fn reads_that_show_nothing() {
        let counted = |image: &[u8], apdu: &[u8]| {
            let all = counted_on(&ready(11), image, apdu);
            all.iter().any(|what| what.contains("10000h"))
        };
        let (mut one, mut two) = (vec![0x11; 131072], image(11));
        assert!(!counted(&one, &[0xff, 0xb0, 0x80, 0x00, 4]));
        assert!(!counted(&one, &[0xff, 0xb1, 0x80, 0x00, 4]));
        one[0x18003] = 0x22;
        assert!(counted(&one, &[0xff, 0xb0, 0x80, 0x00, 4]));
        assert!(counted(&one, &[0xff, 0xb1, 0x80, 0x00, 4]));
        // Over the border it is to show a byte above that is not the one of 0000h.
        assert!(counted(&two, &[0xff, 0xb0, 0xff, 0xff, 3]));
        two[..2].fill(0x22);
        assert!(!counted(&two, &[0xff, 0xb0, 0xff, 0xff, 3]));
    }

    #[test]
    fn writes_by_page() {
        let write = |page: u8, kind: u8, ins: u8, place: u16, data: &[u8]| {
            let [high, low] = place.to_be_bytes();
            let apdu = [&[0xff, ins, high, low, data.len() as u8], data].concat();
            let slot = Slot { page, ..ready(kind) };
            let mut what = counted_on(&slot, &image(kind), &apdu);
            what.retain(|what| what.contains("page"));
            what
        };
        let with = |ins: &str, page: u8| format!("{} with reader page {}: 9000", ins, page);
        let over = |ins: &str, page: u8| format!("{} over a page of the chip, reader page {}: 9000", ins, page);
        let middle = |ins: &str| format!("{} over the middle of a reader page of 128: 9000", ins);
        // 80h begins a page of kind 10 and none of kind 11.
        assert_eq!(write(8, 10, 0xd0, 0x7f, &[1, 2]), [over("D0", 8), with("D0", 8)]);
        assert_eq!(write(8, 11, 0xd0, 0x7f, &[1, 2]), [with("D0", 8)]);
        assert_eq!(write(16, 11, 0xd1, 0xff, &[1, 2]), [over("D1", 16), with("D1", 16)]);
        // The byte there is the one sent, or the first of the range.
        assert_eq!(write(16, 11, 0xd1, 0xff, &[1, 0x22]), [with("D1", 16)]);
        assert_eq!(write(16, 11, 0xd1, 0x100, &[1]), [with("D1", 16)]);
        assert_eq!(write(128, 11, 0xd0, 0x3f, &[1, 2]), [middle("D0"), with("D0", 128)]);
        assert_eq!(write(64, 10, 0xd0, 0x3f, &[1, 2]), [with("D0", 64)]);
    }

    #[test]
    fn writes_over_the_border() {
        let counted = |data: &[u8]| {
            let apdu = [&[0xff, 0xd0, 0xff, 0xff, data.len() as u8], data].concat();
            counted(11, &apdu).contains(&"D0 over 10000h: 9000".to_string())
        };
        assert!(counted(&[0x11, 1, 0x22]));
        assert!(!counted(&[1, 0x22, 0x22]));
    }

    #[test]
    fn commands_that_an_i2c_card_lacks() {
        for (kind, apdu, wanted) in [
            (10, &[0xff, 0xb1, 0, 0, 1][..], "B1 of a right"),
            (10, &[0xff, 0xb1, 0, 0, 0], "B1 of a wrong"),
            (10, &[0xff, 0xb1, 0, 0, 1, 0], "B1 of a wrong"),
            (10, &[0xff, 0xd1, 0, 0, 2, 1, 2], "D1 of a right"),
            (10, &[0xff, 0xd1, 0, 0, 2, 1], "D1 of a wrong"),
            (10, &[0xff, 0xd1, 0, 0, 0], "D1 of a wrong"),
            (11, &[0xff, 0xb2, 0, 0, 4], "B2 of a right"),
            (11, &[0xff, 0xb2, 0, 0, 33], "B2 of a wrong"),
            (11, &[0xff, 0x20, 0, 0, 3, 1, 2, 3], "20 of a right"),
            (11, &[0xff, 0x20, 0, 0, 3, 1, 2], "20 of a wrong"),
            (11, &[0xff, 0xd2, 0, 1, 3, 1, 2, 3], "D2 of a right"),
            (11, &[0xff, 0xd2, 0, 1, 2, 1, 2], "D2 of a wrong"),
        ] {
            assert_eq!(counted(kind, apdu), [format!("{} length: 6D00", wanted)], "{:02x?}", apdu);
        }
        let on_kind_1 = counted_on(&ready(1), &[0; 128], &[0xff, 0xd1, 0, 0, 1, 1]);
        assert_eq!(on_kind_1, ["D1 of a right length: 6D00"]);
    }
}
