//! What is counted of tries left and number of protected bytes, which the slot record keeps: what it
//! shows after a message, which messages keep them, what D1 adds, and stored ones that are off.

use super::{card, has, what, Before, Count, Kind, SUPPORTED};
use crate::random::{borders, most_protected, COUNT_FAULTS};
use crate::reader::{Chip, Slot, CHIPS};

/// What a byte of a D1's range is where it is not protected anew.
const BESIDE: [&str; 3] = ["protected", "protected and unequal", "unequal"];

/// Those of them that there are in a range.
fn beside(there: [bool; 3]) -> String {
    let names: Vec<&str> = (0..3).filter(|&k| there[k]).map(|k| BESIDE[k]).collect();
    names.join(", ")
}

impl Count {
    /// An answered message, beside the slot record after it.
    pub(super) fn counts(&mut self, before: &Before, after: &Slot, message: &[u8], answer: &[u8]) {
        self.add(format!("shown, {}: {} tries", card(after.kind), after.tries));
        self.add(format!("shown, {}: {} protected", card(after.kind), after.protected));
        let slot = &before.slot;
        let kept = (slot.tries, slot.protected) == (after.tries, after.protected);
        let seen = |chip: &Chip| (slot.tries != 0 || !chip.has_code()) && (slot.protected != 0 || !chip.has_bits());
        if kept && Chip::of(slot.kind).map_or(false, seen) {
            self.add(format!("kept, {}: {}", card(slot.kind), what(message, answer)));
        }
    }

    /// A D1 that was carried out.
    pub(super) fn protecting(&mut self, before: &Before, after: &Slot, apdu: &[u8]) {
        let place = usize::from(apdu[2]) * 256 + usize::from(apdu[3]);
        let (mut there, mut new) = ([false; 3], 0);
        for (address, sent) in (place..).zip(&apdu[5..]) {
            match (before.protected(address), before.image[address] == *sent) {
                (false, true) => new += 1,
                (true, true) => there[0] = true,
                (true, false) => there[1] = true,
                (false, false) => there[2] = true,
            }
        }
        let mut add = |what: String| self.add(format!("kind {}: D1 {}: 9000", after.kind, what));
        add(match new {
            _ if there == [false; 3] => "adds all".to_string(),
            0 => format!("adds none, {}", beside(there)),
            _ => format!("adds some, {}", beside(there)),
        });
        if new == 255 || new == 32 {
            add(format!("adds {}", new));
        }
        let (from, to) = (usize::from(before.slot.protected), usize::from(after.protected));
        for border in [256, 512, 768].iter().filter(|&&border| from < border && border <= to) {
            add(format!("over {}", border));
        }
        if from < to && Chip::of(after.kind).map_or(false, |chip| to == most_protected(chip)) {
            add("protects the last".to_string());
        }
    }

    /// A 20 that finds no tries left.
    pub(super) fn without_tries(&mut self, before: &Before, apdu: &[u8]) {
        if let Some(chip) = Chip::of(before.slot.kind) {
            let right = before.image[chip.code.clone()] == apdu[5..];
            let which = if right { "the right code" } else { "a wrong code" };
            self.add(format!("kind {}: 20 without tries, {}", chip.kind, which));
        }
    }

    /// A case that was turned down with 4: whether its counts were off.
    pub(super) fn unsound_counts(&mut self, why: &str, message: &[u8]) {
        if COUNT_FAULTS.iter().any(|fault| why.ends_with(fault.name)) {
            self.add(format!("4: a count off, {:02X}h", message[0]));
        }
    }
}

/// What a run has to reach with answered messages.
pub(super) fn answers(chips: &[&Chip]) -> Vec<String> {
    let mut goals = vec!["shown, no card: 0 tries".to_string(), "shown, no card: 0 protected".to_string()];
    for chip in chips {
        let on = card(chip.kind);
        goals.extend((0..=chip.full.count_ones()).map(|tries| format!("shown, {}: {} tries", on, tries)));
        goals.extend(borders(chip).iter().map(|count| format!("shown, {}: {} protected", on, count)));
        goals.extend(kept(chip).iter().map(|what| format!("kept, {}: {}", on, what)));
        if chip.has_bits() {
            goals.extend(added(chip).iter().map(|what| format!("{}: D1 {}: 9000", on, what)));
        }
        if chip.has_code() {
            goals.push(format!("{}: 20 without tries, the right code", on));
            goals.push(format!("{}: 20 without tries, a wrong code", on));
        }
    }
    goals
}

/// What keeps the counts, none of them 0 where the chip has it: every message but for a D1 and a 20
/// that are carried out, and a D1 that adds none. On I2C, the commands that are carried out.
fn kept(chip: &Chip) -> Vec<String> {
    if !chip.has_bits() {
        let mut what = vec!["A4: 9000", "01: 9000", "B0: 9000", "D0: 9000"];
        if chip.kind == 11 {
            what.extend(["B1: 9000", "D1: 9000"]);
        }
        return what.into_iter().map(str::to_string).collect();
    }
    let mut what: Vec<String> = SUPPORTED.iter().map(|kind| format!("{} failed", kind)).collect();
    what.extend(SUPPORTED.iter().filter(|&&kind| kind != "6Fh").map(|kind| kind.to_string()));
    for ins in [0xa4, 0xb0, 0xb1, 0xb2, 0xd0, 0xd1, 0xd2] {
        if has(Kind(chip.kind), ins) {
            what.push(format!("{:02X}: 9000", ins));
            what.push(format!("{:02X}: 6700", ins));
            what.push(format!("{:02X}: 6B00", ins));
            if chip.has_code() && ins >= 0xd0 {
                what.push(format!("{:02X}: 6982", ins));
            }
        }
    }
    what.push("D0: 6581".to_string());
    what
}

/// What a D1 adds: all of its range, or some or none beside each of the others.
fn added(chip: &Chip) -> Vec<String> {
    let mut what = vec!["adds all".to_string(), format!("adds {}", chip.protectable.min(255))];
    for there in 1..8 {
        let others = beside([there & 1 != 0, there & 2 != 0, there & 4 != 0]);
        what.push(format!("adds none, {}", others));
        what.push(format!("adds some, {}", others));
    }
    if chip.protectable > 256 {
        what.extend(["over 256", "over 512", "over 768"].map(str::to_string));
    }
    what.push("protects the last".to_string());
    what
}

/// What a run of sessions has to reach: cards of every number of tries and about every border of the
/// number of protected bytes go in, and a message is answered right after all that changes a count.
pub(super) fn in_sessions() -> Vec<String> {
    let mut goals = Vec::new();
    for chip in CHIPS.iter().filter(|chip| chip.has_bits()) {
        let on = card(chip.kind);
        goals.extend((0..=chip.full.count_ones()).map(|tries| format!("in 0: {}, {} tries", on, tries)));
        goals.extend(borders(chip).iter().map(|count| format!("in 0: {}, {} protected", on, count)));
        for what in ["an insertion", "a removal", "a D1", "a 20"] {
            if what != "a 20" || chip.has_code() {
                goals.push(format!("{}: answered right after {} that changed a count", on, what));
            }
        }
    }
    goals
}

/// What a run of trial cases has to reach: every way that a count is off on every kind and without a
/// card, whatever the message.
pub(super) fn in_cases() -> Vec<String> {
    let mut goals: Vec<String> = SUPPORTED.iter().map(|kind| format!("4: a count off, {}", kind)).collect();
    for on in [0].into_iter().chain(CHIPS.iter().map(|chip| chip.kind)).map(card) {
        goals.extend(COUNT_FAULTS.iter().map(|fault| format!("4: {}: {}", on, fault.name)));
    }
    goals
}

#[cfg(test)]
mod tests {
    use crate::count::tests::{counted_on, ready};
    use crate::count::{Before, Count};
    use crate::random::{borders, most_protected};
    use crate::reader::{Chip, Slot};

    /// What is counted of a D1 on kind 31 whose memory is 55h and whose bytes 2, 4 and 5 are
    /// protected.
    fn counted(place: u8, data: &[u8]) -> Vec<String> {
        let image = [&[0x55; 256][..], &[0xcb, 0xff, 0xff, 0xff], &[0; 4]].concat();
        counted_on(&ready(31), &image, &[&[0xff, 0xd1, 0x00, place, data.len() as u8], data].concat())
    }

    #[test]
    fn what_a_d1_adds() {
        // 55h is as it stands there.
        for (place, data, wanted) in [
            (0, &[0x55, 0x55][..], "all"),
            (1, &[0x55, 0x55], "some, protected"),
            (1, &[0x55, 1], "some, protected and unequal"),
            (0, &[0x55, 1], "some, unequal"),
            (0, &[1, 0x55, 0x55], "some, protected, unequal"),
            (3, &[0x55, 0x55, 1], "some, protected, protected and unequal"),
            (1, &[0x55, 1, 1, 0x55], "some, protected, protected and unequal, unequal"),
            (4, &[0x55, 0x55], "none, protected"),
            (4, &[1, 1], "none, protected and unequal"),
            (0, &[1, 1], "none, unequal"),
            (2, &[1, 1], "none, protected and unequal, unequal"),
        ] {
            assert_eq!(counted(place, data), [format!("D1 adds {}: 9000", wanted), "D1: 9000".to_string()]);
        }
        // All but three of the 32 bytes.
        assert_eq!(
            counted(0, &[0x55; 32]),
            ["D1 adds some, protected: 9000", "D1 protects the last: 9000", "D1: 9000"]
        );
    }

    #[test]
    fn over_a_border() {
        // 250 bytes are protected, 00h to F9h.
        let image = [&[0x55; 1024][..], &[0x00; 31], &[0xfc], &[0xff; 96]].concat();
        let counted = |count: usize| {
            let apdu = [&[0xff, 0xd1, 0x00, 0xfa, count as u8][..], &vec![0x55; count]].concat();
            counted_on(&ready(21), &image, &apdu)
        };
        assert_eq!(counted(5), ["D1 adds all: 9000", "D1: 9000"]);
        assert_eq!(counted(6), ["D1 adds all: 9000", "D1 over 256: 9000", "D1: 9000"]);
        assert_eq!(counted(255), ["D1 adds 255: 9000", "D1 adds all: 9000", "D1 over 256: 9000", "D1: 9000"]);
    }

    #[test]
    fn codes_without_tries() {
        let image = [&[0x55; 256][..], &[0xff; 4], &[0, 1, 2, 3]].concat();
        let slot = Slot { open: false, ..ready(30) };
        for (code, which) in [([1, 2, 3], "the right code"), ([1, 2, 4], "a wrong code")] {
            let apdu = [&[0xff, 0x20, 0, 0, 3][..], &code].concat();
            let wanted = [format!("20 without tries, {}", which), "20 without tries: 9000".to_string()];
            assert_eq!(counted_on(&slot, &image, &apdu), wanted);
        }
    }

    /// Counts are kept where neither is another; on a code card both are not 0.
    #[test]
    fn shown_and_kept() {
        let counted = |kind: u8, was: (u8, u16), is: (u8, u16)| {
            let slot = |(tries, protected)| Slot { tries, protected, ..ready(kind) };
            let mut count = Count::default();
            count.counts(&Before::of(&slot(was), &[]), &slot(is), &[0x65; 10], &[0; 10]);
            count.0.into_keys().collect::<Vec<_>>()
        };
        let shown =
            |tries: u8| vec!["shown, kind 30: 2 protected".to_string(), format!("shown, kind 30: {} tries", tries)];
        assert_eq!(counted(30, (3, 2), (3, 2)), [vec!["kept, kind 30: 65h".to_string()], shown(3)].concat());
        assert_eq!(counted(30, (3, 2), (2, 2)), shown(2));
        assert_eq!(counted(30, (3, 1), (3, 2)), shown(3));
        assert_eq!(counted(30, (0, 2), (0, 2)).len(), 2);
        assert_eq!(counted(31, (0, 2), (0, 2))[0], "kept, kind 31: 65h");
    }

    #[test]
    fn borders_of_the_number_of_protected_bytes() {
        let of = |kind: u8| borders(Chip::of(kind).unwrap());
        assert_eq!(of(1), [0]);
        assert_eq!(of(20), [0, 1, 255, 256, 257, 511, 512, 513, 767, 768, 769, 1022, 1023]);
        assert_eq!(of(21), [0, 1, 255, 256, 257, 511, 512, 513, 767, 768, 769, 1023, 1024]);
        assert_eq!(of(30), [0, 1, 31, 32]);
        assert_eq!(of(31), [0, 1, 31, 32]);
        assert_eq!(most_protected(Chip::of(20).unwrap()), 1023);
    }
}
