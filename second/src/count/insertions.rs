//! What is counted of cards that do not go in, and of the insertions and removals of trial cases:
//! over which records, and what is wrong with them.

use super::{bytes, chips, Count};
use crate::case::{raw, slot_of, Case, LONGEST_IMAGE, RECORD};
use crate::random::{borders, WRONG_LENGTHS};
use crate::reader::{Chip, Slot, CHIPS, LARGE};

const CARD_FAULTS: [&str; 7] = [
    "kind unknown",
    "4442 counter above 07h",
    "4428 bit for 3FDh is 0",
    "4432 byte 260 not 00h",
    "4432 byte 261 not 00h",
    "4432 byte 262 not 00h",
    "4432 byte 263 not 00h",
];

/// Numbers beside the kinds.
const NO_KINDS: [u8; 6] = [0, 12, 19, 22, 29, 32];

/// The buffers beside which insertions and removals come.
const BUFFERS: [usize; 6] = [0, 1, 10, 270, 271, 600];

/// Why a card does not go in, a wrong length by the kind.
pub(super) fn fault(kind: u8, why: &str) -> String {
    if WRONG_LENGTHS.contains(&why) {
        format!("kind {}, {}", kind, why)
    } else {
        why.to_string()
    }
}

/// The wrong lengths of a kind: there is no image longer than the largest, and the other large kind is
/// another kind to the others.
fn wrong_lengths(chip: &'static Chip) -> impl Iterator<Item = &'static str> {
    let there = move |why: &&str| match *why {
        "image long" => chip.image < LONGEST_IMAGE,
        "image of the other large kind" => LARGE.contains(&chip.kind),
        _ => true,
    };
    WRONG_LENGTHS.into_iter().filter(there)
}

/// Why a card does not go in, in trial cases.
fn faults() -> Vec<String> {
    let lengths = CHIPS.iter().flat_map(|chip| wrong_lengths(chip).map(|why| fault(chip.kind, why)));
    CARD_FAULTS.iter().map(|why| why.to_string()).chain(lengths).collect()
}

/// The bytes of a record that are not those of the empty one.
fn others(record: &[u8; RECORD]) -> Vec<usize> {
    let empty = raw(&Slot::empty());
    (0..RECORD).filter(|&k| record[k] != empty[k]).collect()
}

impl Count {
    /// An insertion of a trial case, and why it is turned down.
    pub fn insertion(&mut self, case: &Case, line: &str, why: &str) {
        self.inserted_page(case, line.as_bytes()[0] - b'0');
        let mut add = |what: String| self.add(format!("insertion {}: {}", &line[..1], what));
        let (kind, others) = (case.message[0], others(&case.record));
        add(format!("buffer of {} bytes", case.buffer));
        match line.as_bytes()[0] {
            b'0' => {
                let mut record = [0; RECORD];
                record.copy_from_slice(&bytes(line.split(' ').nth(2).unwrap_or("")));
                let slot = slot_of(&record);
                add(format!("kind {}", kind));
                add(format!("kind {}, {} tries", kind, slot.tries));
                add(format!("kind {}, {} protected", kind, slot.protected));
                others.iter().for_each(|k| add(format!("byte {} not the empty record's", k)));
            }
            b'5' => {
                let held = if Chip::of(case.record[0]).is_some() { "kind" } else { "no kind" };
                add(match held {
                    "kind" => format!("kind {} is in", case.record[0]),
                    _ => "byte 0 is no kind".to_string(),
                });
                if [0x01, 0xff].contains(&case.record[0]) {
                    add(format!("byte 0 is {:02X}h", case.record[0]));
                }
                add(if why.is_empty() { "a card".to_string() } else { why.to_string() });
            }
            _ => {
                add(fault(kind, why));
                if NO_KINDS.contains(&kind) {
                    add(format!("kind {}", kind));
                }
            }
        }
        if others.is_empty() {
            add("over the empty record".to_string());
        } else if raw(&slot_of(&case.record)) != case.record {
            add("over a record of no slot".to_string());
        }
    }

    /// A removal of a trial case.
    pub fn removal(&mut self, case: &Case, line: &str) {
        self.removed_page(case);
        let mut add = |what: String| self.add(format!("removal {}: {}", &line[..1], what));
        let others = others(&case.record);
        others.iter().for_each(|k| add(format!("byte {} not the empty record's", k)));
        if others.is_empty() {
            add("over the empty record".to_string());
        }
        add(format!("buffer of {} bytes", case.buffer));
        match case.image.len() {
            0 => add("no image".to_string()),
            LONGEST_IMAGE => add("131,072 image bytes".to_string()),
            _ => add("an image".to_string()),
        }
    }
}

/// What a run of sessions has to reach with cards that are not large.
pub(super) fn in_sessions() -> Vec<String> {
    let lengths = WRONG_LENGTHS.iter().filter(|&&why| why != "image of the other large kind");
    CARD_FAULTS.iter().chain(lengths).map(|why| format!("in 3: {}", why)).collect()
}

/// What a run of trial cases has to reach: why a card does not go in, and why a message to it is
/// turned down; insertions and removals over every record.
pub(super) fn in_cases() -> Vec<String> {
    let mut goals: Vec<String> = faults().iter().map(|why| format!("3: {}", why)).collect();
    goals.extend(faults().iter().map(|why| format!("insertion 3: {}", why)));
    goals.extend(NO_KINDS.iter().map(|kind| format!("insertion 3: kind {}", kind)));
    for chip in chips(true) {
        goals.push(format!("insertion 0: kind {}", chip.kind));
        let tries = (0..=chip.full.count_ones()).map(|tries| format!("{} tries", tries));
        let protected = borders(chip).into_iter().map(|count| format!("{} protected", count));
        goals.extend(tries.chain(protected).map(|what| format!("insertion 0: kind {}, {}", chip.kind, what)));
        goals.push(format!("insertion 5: kind {} is in", chip.kind));
    }
    for what in ["byte 0 is no kind", "byte 0 is 01h", "byte 0 is FFh", "a card"] {
        goals.push(format!("insertion 5: {}", what));
    }
    goals.extend(CARD_FAULTS.iter().chain(&WRONG_LENGTHS).map(|why| format!("insertion 5: {}", why)));
    for number in [0, 3, 5] {
        goals.extend(BUFFERS.iter().map(|buffer| format!("insertion {}: buffer of {} bytes", number, buffer)));
        goals.push(format!("insertion {}: over a record of no slot", number));
        if number != 5 {
            goals.push(format!("insertion {}: over the empty record", number));
        }
    }
    goals.extend((1..RECORD).map(|k| format!("insertion 0: byte {} not the empty record's", k)));
    goals.extend((0..RECORD).map(|k| format!("removal 0: byte {} not the empty record's", k)));
    goals.extend(BUFFERS.iter().map(|buffer| format!("removal 0: buffer of {} bytes", buffer)));
    for what in ["over the empty record", "no image", "an image", "131,072 image bytes"] {
        goals.push(format!("removal 0: {}", what));
    }
    goals
}

#[cfg(test)]
mod tests {
    use super::*;
    use crate::case::Call;

    /// What is counted of a call, without its buffer and the flag of its record.
    fn counted(case: &Case, why: &str) -> Vec<String> {
        let mut count = Count::default();
        match case.call {
            Call::Removal => count.removal(case, &case.line()),
            _ => count.insertion(case, &case.line(), why),
        }
        let other = |what: &String| !["buffer", "chosen", "byte 16 off"].iter().any(|word| what.contains(word));
        count.0.into_keys().filter(other).collect()
    }

    fn case(call: Call, record: [u8; RECORD], message: &[u8], image: usize) -> Case {
        Case { call, record, buffer: 271, fill: 0, message: message.to_vec(), image: vec![0; image] }
    }

    #[test]
    fn insertions() {
        let empty = raw(&Slot::empty());
        let (mut odd, mut occupied, mut unknown) = (empty, empty, empty);
        (odd[4], odd[31]) = (2, 1);
        (occupied[0], unknown[0]) = (11, 0xff);
        let insertion = |record: [u8; RECORD], kind: u8, image: usize| case(Call::Insertion, record, &[kind], image);
        for (case, why, wanted) in [
            (
                insertion(empty, 31, 264),
                "",
                &["0: kind 31", "0: kind 31, 0 tries", "0: kind 31, 32 protected", "0: over the empty record"][..],
            ),
            (
                insertion(odd, 11, 131072),
                "",
                &[
                    "0: byte 31 not the empty record's",
                    "0: byte 4 not the empty record's",
                    "0: kind 11",
                    "0: kind 11, 0 protected",
                    "0: kind 11, 0 tries",
                    "0: over a record of no slot",
                ],
            ),
            (insertion(empty, 12, 128), "kind unknown", &["3: kind 12", "3: kind unknown", "3: over the empty record"]),
            (insertion(odd, 9, 1), "image short", &["3: kind 9, image short", "3: over a record of no slot"]),
            (insertion(occupied, 1, 128), "", &["5: a card", "5: kind 11 is in"]),
            (insertion(unknown, 9, 1), "image short", &["5: byte 0 is FFh", "5: byte 0 is no kind", "5: image short"]),
        ] {
            let wanted: Vec<String> = wanted.iter().map(|what| format!("insertion {}", what)).collect();
            assert_eq!(counted(&case, why), wanted);
        }
    }

    #[test]
    fn removals() {
        let empty = raw(&Slot::empty());
        let mut odd = empty;
        (odd[0], odd[16]) = (30, 7);
        assert_eq!(
            counted(&case(Call::Removal, empty, &[], 0), ""),
            ["removal 0: no image", "removal 0: over the empty record"]
        );
        assert_eq!(
            counted(&case(Call::Removal, odd, &[], LONGEST_IMAGE), ""),
            [
                "removal 0: 131,072 image bytes",
                "removal 0: byte 0 not the empty record's",
                "removal 0: byte 16 not the empty record's"
            ]
        );
    }

    /// No image is longer than the largest, and only a large kind has another large one.
    #[test]
    fn lengths_by_kind() {
        let of = |kind: u8| wrong_lengths(Chip::of(kind).unwrap()).collect::<Vec<_>>();
        assert_eq!(of(1), ["image short", "image long", "no image", "image of another kind"]);
        assert_eq!(of(10), WRONG_LENGTHS);
        assert_eq!(of(11), ["image short", "no image", "image of the other large kind", "image of another kind"]);
        assert_eq!(faults().len(), 7 + 13 * 4 + 5 + 4);
    }
}
