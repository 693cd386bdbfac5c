//! Counts what random sessions and cases reached, and holds a run to what it has to reach: every
//! bError, every status word, every command on every type, or kind with protection bits or of a large
//! chip, every way that bytes of a written range are protected, every part of a large memory, every
//! fault of a parameter set, what tries left and number of protected bytes show, what changes and
//! what keeps them, the reader page chosen and not chosen, every refusal; of trial cases, insertions
//! and removals over any record too.

mod counts;
mod insertions;
mod large;
mod pages;
mod parameters;
mod writes;

pub use pages::Pages;

use crate::case::{slot_of, Case, RECORD, REST};
use crate::parameters::Parameters;
use crate::random::{CASE_ENDINGS, ENDINGS, RECORD_FAULTS, SET_FAULTS};
use crate::reader::{Chip, Slot, CHIPS, LARGE, TOP_BIT};
use std::collections::BTreeMap;
use std::fmt;

#[derive(Default)]
pub struct Count(BTreeMap<String, u64>);

/// The slot record and the image before a message.
pub struct Before {
    pub slot: Slot,
    image: Vec<u8>,
}

impl Before {
    pub fn of(slot: &Slot, image: &[u8]) -> Before {
        Before { slot: slot.clone(), image: image.to_vec() }
    }

    /// The counter of a code card, else 0.
    fn counter(&self) -> u8 {
        Chip::of(self.slot.kind).and_then(|chip| self.image.get(chip.counter)).copied().unwrap_or(0)
    }

    /// Whether there is a card on which the byte of that address is protected.
    fn protected(&self, address: usize) -> bool {
        Chip::of(self.slot.kind).map_or(false, |chip| chip.protected(&self.image, address))
    }

    /// What a command is sent to.
    fn on(&self) -> On {
        match self.slot.selected {
            0x00 => Nothing,
            0x01 | 0x02 if !LARGE.contains(&self.slot.kind) => Type(self.slot.selected),
            _ => Kind(self.slot.kind),
        }
    }

    fn state(&self) -> &'static str {
        match (self.slot.kind, self.slot.active) {
            (0, _) => "no card",
            (_, false) => "inactive",
            (_, true) => "active",
        }
    }

    /// Whether the set is another than the default.
    pub fn has_other_set(&self) -> bool {
        self.slot.parameters != Parameters::default()
    }
}

const SUPPORTED: [&str; 7] = ["61h", "62h", "63h", "65h", "6Ch", "6Dh", "6Fh"];
const INS: [u8; 9] = [0xa4, 0x01, 0xb0, 0xb1, 0xb2, 0xd0, 0xd1, 0x20, 0xd2];

/// A kind, or no card.
pub fn card(kind: u8) -> String {
    match kind {
        0 => "no card".to_string(),
        kind => format!("kind {}", kind),
    }
}

/// An answered message: its type and whether it failed; a 6Fh by its command and status word.
fn what(message: &[u8], answer: &[u8]) -> String {
    match message.get(11) {
        _ if answer[7] & 0x40 != 0 => format!("{:02X}h failed", message[0]),
        Some(ins) if message[0] == 0x6f => {
            let word = &answer[answer.len() - 2..];
            format!("{:02X}: {:02X}{:02X}", ins, word[0], word[1])
        }
        _ => format!("{:02X}h", message[0]),
    }
}

/// What a command is sent to: no selected type, an I2C type, or a kind with protection bits or of a
/// large chip. Kinds 20 and 21 share a type, as 30 and 31 do, and do not have the same commands; nor
/// do those of type 02h.
#[derive(Clone, Copy)]
enum On {
    Nothing,
    Type(u8),
    Kind(u8),
}
use On::{Kind, Nothing, Type};

/// The chips of a run: in a session no large one goes in.
fn chips(large: bool) -> Vec<&'static Chip> {
    CHIPS.iter().filter(|chip| large || !LARGE.contains(&chip.kind)).collect()
}

/// What commands are sent to where these chips go in.
fn all_on(chips: &[&Chip]) -> Vec<On> {
    let alone = chips.iter().filter(|chip| chip.has_bits() || LARGE.contains(&chip.kind));
    [Nothing, Type(0x01), Type(0x02)].into_iter().chain(alone.map(|chip| Kind(chip.kind))).collect()
}

impl fmt::Display for On {
    fn fmt(&self, text: &mut fmt::Formatter) -> fmt::Result {
        match self {
            Nothing => write!(text, "no type"),
            Type(selected) => write!(text, "type {:02X}h", selected),
            Kind(kind) => write!(text, "kind {}", kind),
        }
    }
}

/// Steps 4 and 5 of the commands: what a type or a kind has.
fn has(on: On, ins: u8) -> bool {
    match on {
        Nothing => ins == 0xa4,
        Type(_) | Kind(10) => [0xa4, 0x01, 0xb0, 0xd0].contains(&ins),
        Kind(11) => [0xa4, 0x01, 0xb0, 0xb1, 0xd0, 0xd1].contains(&ins),
        Kind(20) => [0xa4, 0xb0, 0xb1, 0xb2, 0xd0, 0xd1, 0x20].contains(&ins),
        Kind(30) => [0xa4, 0xb0, 0xb1, 0xb2, 0xd0, 0xd1, 0x20, 0xd2].contains(&ins),
        Kind(_) => [0xa4, 0xb0, 0xb2, 0xd0, 0xd1].contains(&ins),
    }
}

/// The commands that need a code, on the kinds that have none: P3 and n as they are right on a code
/// card.
const LACKED: [(u8, u8, u8, usize); 6] =
    [(21, 0xb1, 3, 5), (21, 0x20, 2, 7), (21, 0xd2, 3, 8), (31, 0xb1, 4, 5), (31, 0x20, 3, 8), (31, 0xd2, 3, 8)];

/// The address that a read or a write names.
fn address(kind: u8, apdu: &[u8]) -> usize {
    let named = usize::from(apdu[2]) * 256 + usize::from(apdu[3]);
    if kind == 11 && [0xb1, 0xd1].contains(&apdu[1]) {
        TOP_BIT + named
    } else {
        named
    }
}

impl Count {
    pub fn add(&mut self, what: String) {
        *self.0.entry(what).or_insert(0) += 1;
    }

    pub fn join(&mut self, other: &Count) {
        for (what, times) in &other.0 {
            *self.0.entry(what.clone()).or_insert(0) += times;
        }
    }

    /// What the run had to reach and did not.
    pub fn missing(&self, goals: &[String]) -> Vec<String> {
        goals.iter().filter(|goal| !self.0.contains_key(*goal)).cloned().collect()
    }

    /// Each goal and how often it was reached.
    pub fn table(&self, goals: &[String]) -> String {
        goals.iter().map(|goal| format!("{:8}  {}\n", self.0.get(goal).unwrap_or(&0), goal)).collect()
    }

    /// An answered message, and the slot record after it; the answer in hex.
    pub fn answer(&mut self, before: &Before, after: &Slot, message: &[u8], answer: &str) {
        let answer = bytes(answer);
        self.counts(before, after, message, &answer);
        self.pages(before, after, message, &answer);
        let (kind, status, error) = (message[0], answer[7], answer[8]);
        let came = message.len() - 10;
        self.add(format!("bStatus {:02X}h", status));
        // A kind 20 with that bit 0 is turned down.
        if before.protected(0x3fd) {
            self.add("kind 21, bit for 3FDh is 0: answered".to_string());
        }
        if status & 0x40 != 0 {
            let said = u32::from_le_bytes([message[1], message[2], message[3], message[4]]) as usize;
            let why = match error {
                0x00 if message[5] != 0 => "unsupported type, bSlot not 0".to_string(),
                0x00 => format!("unsupported type, {}", before.state()),
                0x01 if said == 0xffff_ffff => "dwLength FFFFFFFFh".to_string(),
                0x01 if said < came => "dwLength too small".to_string(),
                0x01 if said > came => "dwLength too large".to_string(),
                0x01 if kind == 0x61 => format!("61h of {} bytes", came),
                0x01 if kind != 0x6f => format!("data for {:02X}h", kind),
                0x01 if came == 262 => "262 data bytes".to_string(),
                0x01 => "more data bytes".to_string(),
                0x08 if message[9] == 0 => "byte 8".to_string(),
                0x08 if message[8] == 0 => "byte 9".to_string(),
                0x08 => "both bytes".to_string(),
                _ => format!("{:02X}h, {}", kind, before.state()),
            };
            self.add(format!("bError {:02X}h: {}", error, why));
            self.parameters(before, message, &answer);
            return;
        }
        self.parameters(before, message, &answer);
        if kind != 0x6f {
            self.add(format!("{:02X}h, {}: success", kind, before.state()));
            if kind == 0x62 {
                self.add(format!(
                    "62h, kind {}: {}",
                    before.slot.kind,
                    if answer[1] == 2 { "3B 00" } else { "3B 04 and memory" }
                ));
            }
            return;
        }
        if came == 261 {
            self.add("261 data bytes reach the commands".to_string());
        }
        self.command(before, after, &message[10..], &answer[10..]);
    }

    fn command(&mut self, before: &Before, after: &Slot, apdu: &[u8], told: &[u8]) {
        let on = before.on();
        let word = u16::from_be_bytes([told[told.len() - 2], told[told.len() - 1]]);
        if apdu.len() < 5 {
            self.add(format!("n = {}: {:04X}", apdu.len(), word));
            return self.add(format!("{}: n below 5: {:04X}", on, word));
        }
        if apdu[0] != 0xff {
            return self.add(format!("{}: first byte not FFh: {:04X}", on, word));
        }
        let (ins, place, p3) = (apdu[1], usize::from(apdu[2]) * 256 + usize::from(apdu[3]), usize::from(apdu[4]));
        if !INS.contains(&ins) {
            return self.add(format!("{}: INS none: {:04X}", on, word));
        }
        let full = if before.slot.selected == 0x05 { 0x90ff } else { 0x9007 };
        match (ins, word) {
            (0x20, _) if word >> 8 == 0x90 && before.counter() == 0 => {
                self.add(format!("{}: 20 without tries: {:04X}", on, word));
                self.without_tries(before, apdu);
            }
            (0x20, _) if word == full => {
                self.add(format!("{}: 20 right with {} tries", on, before.counter().count_ones()));
            }
            (0x20, _) if word >> 8 == 0x90 => {
                self.add(format!("{}: 20 wrong, {} tries left", on, (word & 0xff).count_ones()));
                if before.slot.kind == 30 {
                    self.add(format!("{}: 20 wrong: {:04X}", on, word));
                }
                if before.slot.open {
                    self.add(format!("{}: 20 wrong closes an open card", on));
                }
            }
            _ => self.add(format!("{}: {:02X}: {:04X}", on, ins, word)),
        }
        if LARGE.contains(&before.slot.kind) {
            return self.large(before, apdu, told, word);
        }
        if ins == 0xd1 && word == 0x9000 {
            self.protecting(before, after, apdu);
        }
        let covers = |k: usize| (place..place + p3).contains(&k);
        match (on, ins, word) {
            (Kind(20), 0xd0, 0x6b00) if covers(0x3fd) && place + p3 <= 1024 => {
                self.add("D0 over 3FDh: 6B00".to_string())
            }
            (Kind(_), 0xd0, 0x9000 | 0x6581 | 0x6982) => self.write(before, apdu, word),
            (Kind(20), 0xb0, 0x9000) if covers(0x3fe) || covers(0x3ff) => {
                self.add(format!("B0 of the code, {}", if before.slot.open { "open" } else { "closed" }));
            }
            (Kind(21 | 31), 0xb1 | 0x20 | 0xd2, 0x6d00) => {
                let right = LACKED.contains(&(before.slot.kind, ins, apdu[4], apdu.len()));
                self.add(format!("{}: {:02X} of a {} length: 6D00", on, ins, if right { "right" } else { "wrong" }));
            }
            (Kind(21), ..) => self.last_bytes(before, apdu, told, word),
            (Type(_), 0xd0, 0x9000) => self.page_write(before, apdu, word),
            (Type(_), 0x01, 0x9000) => self.add(format!("{}: page code {:02X}h", on, apdu[5])),
            (Type(_), 0xb1 | 0xd1, 0x6d00) => self.lacked(before, apdu),
            _ => {}
        }
    }

    /// A command on kind 21 but for D0: what it does with bytes 3FDh to 3FFh, each on its own.
    fn last_bytes(&mut self, before: &Before, apdu: &[u8], told: &[u8], word: u16) {
        let (ins, place, p3) = (apdu[1], usize::from(apdu[2]) * 256 + usize::from(apdu[3]), usize::from(apdu[4]));
        let count = if ins == 0xb2 { 8 * p3 } else { p3 };
        for address in 0x3fd..=0x3ff {
            if !(place..place + count).contains(&address) {
                continue;
            }
            let k = address - place;
            let what = match (ins, word, before.protected(address)) {
                (0xb0, 0x9000, _) if told[k] != 0x00 => "in clear",
                (0xb2, 0x9000, true) => "protected",
                (0xd1, 0x9000, false) if apdu[5 + k] == before.image[address] => "now protected",
                (0xd1, 0x9000, false) => "passed over",
                _ => continue,
            };
            self.add(format!("kind 21: {:02X} of {:03X}h, {}: 9000", ins, address, what));
        }
    }

    /// A message of a trial case, which refusals were made to hold, and what is wrong with it.
    pub fn case(&mut self, case: &Case, line: &str, faults: &[bool; 5], why: &str) {
        let number = line.as_bytes()[0] - b'0';
        if number == 0 {
            self.add(format!("buffer of {} bytes", case.buffer));
            let slot = slot_of(&case.record);
            self.values_of_set("sound", &slot.parameters);
            let mut parts = line.split(' ');
            let length = parts.nth(1).and_then(|length| length.parse().ok()).unwrap_or(0);
            let mut record = [0; RECORD];
            record.copy_from_slice(&bytes(parts.next().unwrap_or("")));
            let answer = parts.next().unwrap_or("");
            let before = Before::of(&slot, &case.image);
            self.answer(&before, &slot_of(&record), &case.message, &answer[..2 * length]);
            if slot.kind == 0 && !case.image.is_empty() {
                self.add("no card, and an image that is not looked at".to_string());
            }
            return;
        }
        let alone = faults.iter().filter(|&&fault| fault).count() == 1;
        self.refused_page(case, number, why);
        match number {
            1 if alone => self.add(format!("1: buffer of {} bytes", case.buffer)),
            2 if alone => self.add(format!("2: message of {} bytes", case.message.len())),
            3 if alone => self.add(format!("3: {}", insertions::fault(case.record[0], why))),
            4 if alone => {
                self.add(format!("4: {}", why));
                if SET_FAULTS.iter().any(|fault| fault.name == why) {
                    self.add(format!("4: an unsound set, {:02X}h", case.message[0]));
                }
                self.unsound_counts(why, &case.message);
            }
            _ => {
                for later in number + 1..5 {
                    if faults[usize::from(later)] {
                        self.add(format!("{} before {}", number, later));
                    }
                }
            }
        }
    }
}

/// The bytes of lower-case hex digits.
fn bytes(hex: &str) -> Vec<u8> {
    (0..hex.len() / 2).map(|k| u8::from_str_radix(&hex[2 * k..2 * k + 2], 16).unwrap_or(0)).collect()
}

/// What a run has to reach with answered messages.
fn answers(chips: &[&Chip]) -> Vec<String> {
    let mut goals = Vec::new();
    let mut goal = |text: String| goals.push(text);
    for status in [0x00, 0x01, 0x02, 0x40, 0x41, 0x42] {
        goal(format!("bStatus {:02X}h", status));
    }
    for state in ["no card", "inactive", "active"] {
        goal(format!("bError 00h: unsupported type, {}", state));
        goal(format!("63h, {}: success", state));
        goal(format!("65h, {}: success", state));
    }
    for what in [
        "00h: unsupported type, bSlot not 0",
        "01h: dwLength FFFFFFFFh",
        "01h: dwLength too small",
        "01h: dwLength too large",
        "01h: data for 62h",
        "01h: data for 63h",
        "01h: data for 65h",
        "01h: 262 data bytes",
        "08h: byte 8",
        "08h: byte 9",
        "FEh: 62h, no card",
        "FEh: 6Fh, no card",
        "FEh: 6Fh, inactive",
    ] {
        goal(format!("bError {}", what));
    }
    for kind in SUPPORTED {
        goal(format!("bError 05h: {}, active", kind));
    }
    for state in ["inactive", "active"] {
        goal(format!("bError 07h: 62h, {}", state));
        goal(format!("62h, {}: success", state));
    }
    for chip in chips {
        goal(format!("62h, kind {}: {}", chip.kind, if chip.has_bits() { "3B 04 and memory" } else { "3B 00" }));
    }
    goal("261 data bytes reach the commands".to_string());
    for n in 0..5 {
        goal(format!("n = {}: 6700", n));
    }
    for on in all_on(chips) {
        goal(format!("{}: n below 5: 6700", on));
        goal(format!("{}: first byte not FFh: 6E00", on));
        goal(format!("{}: INS none: 6D00", on));
        goal(format!("{}: A4: 6A80", on));
        for ins in INS {
            if !has(on, ins) {
                goal(format!("{}: {:02X}: {}", on, ins, if matches!(on, Nothing) { "6985" } else { "6D00" }));
            } else {
                goal(format!("{}: {:02X}: 6700", on, ins));
                if !large::always_in_place(on, ins) {
                    goal(format!("{}: {:02X}: 6B00", on, ins));
                }
                if ins != 0x20 {
                    goal(format!("{}: {:02X}: 9000", on, ins));
                }
            }
        }
    }
    for on in all_on(chips).into_iter().filter(|&on| has(on, 0x01)) {
        goal(format!("{}: 01: 6A80", on));
        for code in 0x03..=0x07 {
            goal(format!("{}: page code {:02X}h", on, code));
        }
    }
    for (on, tries) in [(Kind(20), 8), (Kind(30), 3)] {
        goal(format!("{}: D0: 6982", on));
        goal(format!("{}: D1: 6982", on));
        for left in 0..tries {
            goal(format!("{}: 20 wrong, {} tries left", on, left));
            goal(format!("{}: 20 right with {} tries", on, left + 1));
        }
        goal(format!("{}: 20 wrong closes an open card", on));
        goal(format!("{}: 20 without tries: 9000", on));
    }
    for word in ["9000", "9002", "9004", "9006"] {
        goal(format!("kind 30: 20 wrong: {}", word));
    }
    for (kind, ins, ..) in LACKED {
        goal(format!("kind {}: {:02X} of a right length: 6D00", kind, ins));
        goal(format!("kind {}: {:02X} of a wrong length: 6D00", kind, ins));
    }
    for address in 0x3fd..=0x3ff {
        let mut goal = |ins: u8, what: &str| goal(format!("kind 21: {:02X} of {:03X}h, {}", ins, address, what));
        goal(0xb0, "in clear: 9000");
        goal(0xb2, "protected: 9000");
        goal(0xd1, "now protected: 9000");
        goal(0xd1, "passed over: 9000");
    }
    for what in [
        "kind 21, bit for 3FDh is 0: answered",
        "kind 30: D2: 6982",
        "D0 over 3FDh: 6B00",
        "B0 of the code, open",
        "B0 of the code, closed",
    ] {
        goal(what.to_string());
    }
    goals.extend(large::lacks(chips));
    goals.extend(writes::answers(chips));
    goals.extend(parameters::answers());
    goals.extend(counts::answers(chips));
    goals
}

/// What a run of sessions has to reach. Refusal 1 cannot occur, since the program lends 271 bytes,
/// and 4 cannot, since no message and no insertion makes the slot record unsound.
pub fn session_goals() -> Vec<String> {
    let chips = chips(false);
    let mut goals = answers(&chips);
    goals.extend(pages::answers(&chips, false));
    for chip in &chips {
        goals.push(format!("in 0: kind {}", chip.kind));
    }
    goals.push("in 0: kind 21, bit for 3FDh is 0".to_string());
    goals.extend(insertions::in_sessions());
    goals.extend(large::in_sessions());
    for why in [
        "in 3: empty body",
        "in 5: empty body",
        "in 5: a card",
        "in 5: kind unknown",
        "out 0: a card",
        "out 0: no card",
    ] {
        goals.push(why.to_string());
    }
    goals.extend(parameters::in_sessions());
    goals.extend(writes::in_sessions());
    goals.extend(counts::in_sessions());
    goals.extend(pages::in_sessions());
    goals.push("an equal message again".to_string());
    for length in 0..10 {
        goals.push(format!("msg 2: {} bytes", length));
    }
    for how in ENDINGS {
        goals.push(if how.starts_with("a clean end") { how.to_string() } else { format!("bad: {}", how) });
    }
    goals
}

/// What a run of trial cases has to reach. Refusal 5 is of insertions alone.
pub fn trial_goals() -> Vec<String> {
    let mut goals = answers(&chips(true));
    goals.extend(pages::answers(&chips(true), true));
    goals.extend(large::answers());
    goals.extend(large::in_cases());
    goals.extend(insertions::in_cases());
    for buffer in [0, 270] {
        goals.push(format!("1: buffer of {} bytes", buffer));
    }
    for buffer in [271, 272, 600] {
        goals.push(format!("buffer of {} bytes", buffer));
    }
    for length in 0..10 {
        goals.push(format!("2: message of {} bytes", length));
    }
    for why in RECORD_FAULTS {
        if why != "a rest byte not 00h" {
            goals.push(format!("4: {}", why));
        }
    }
    for k in REST..32 {
        goals.push(format!("4: rest byte {} not 00h", k));
    }
    goals.extend(parameters::in_cases());
    goals.extend(counts::in_cases());
    goals.extend(pages::in_cases());
    goals.push("4: several faults".to_string());
    for (first, second) in [(1, 2), (1, 3), (1, 4), (2, 3), (2, 4), (3, 4)] {
        goals.push(format!("{} before {}", first, second));
    }
    goals.push("no card, and an image that is not looked at".to_string());
    goals.extend(CASE_ENDINGS.iter().map(|how| how.to_string()));
    goals
}

#[cfg(test)]
mod tests {
    use super::*;
    use crate::reader::{self, ANSWER_BUFFER};
    use std::collections::BTreeSet;

    /// So that the number of things to reach is right.
    #[test]
    fn no_goal_stands_twice() {
        for goals in [session_goals(), trial_goals()] {
            let once: BTreeSet<&String> = goals.iter().collect();
            assert_eq!(once.len(), goals.len());
        }
    }

    /// An active card with its type selected, open where it has a code.
    pub(super) fn ready(kind: u8) -> Slot {
        let chip = Chip::of(kind).unwrap();
        Slot { kind, active: true, selected: chip.select, open: chip.has_code(), ..Slot::empty() }
    }

    /// What is counted of these data of a 6Fh under the card's kind.
    pub(super) fn counted_on(slot: &Slot, image: &[u8], apdu: &[u8]) -> Vec<String> {
        let chip = Chip::of(slot.kind).unwrap();
        let mut slot = Slot { tries: chip.tries(image), protected: chip.protected_bytes(image), ..slot.clone() };
        let before = Before::of(&slot, image);
        let message = [&[0x6f], &(apdu.len() as u32).to_le_bytes()[..], &[0; 5], apdu].concat();
        let mut answer = [0; ANSWER_BUFFER];
        let length = reader::message(&mut slot, &mut image.to_vec(), &message, &mut answer).unwrap();
        let mut count = Count::default();
        count.answer(&before, &slot, &message, &crate::step::hex(&answer[..length]));
        let kind = format!("kind {}: ", slot.kind);
        count.0.into_keys().filter_map(|what| Some(what.strip_prefix(&kind)?.to_string())).collect()
    }

    /// Bytes 3FDh to 3FFh of the kind 21 are 00 C2 C3, and 3FEh alone is protected.
    fn counted(apdu: &[u8]) -> Vec<String> {
        let image = [&[0x55; 0x3fd][..], &[0x00, 0xc2, 0xc3], &[0xff; 127], &[0xbf]].concat();
        counted_on(&ready(21), &image, apdu)
    }

    #[test]
    fn the_last_bytes_of_kind_21() {
        assert_eq!(
            counted(&[0xff, 0xb0, 0x03, 0xfc, 4]),
            ["B0 of 3FEh, in clear: 9000", "B0 of 3FFh, in clear: 9000", "B0: 9000"]
        );
        assert_eq!(counted(&[0xff, 0xb2, 0x03, 0xf8, 1]), ["B2 of 3FEh, protected: 9000", "B2: 9000"]);
        assert_eq!(counted(&[0xff, 0xb2, 0x03, 0xf6, 1]), ["B2: 9000"]);
        assert_eq!(
            counted(&[0xff, 0xd1, 0x03, 0xfd, 3, 0x00, 0xc2, 0x00]),
            [
                "D1 adds some, protected, unequal: 9000",
                "D1 of 3FDh, now protected: 9000",
                "D1 of 3FFh, passed over: 9000",
                "D1: 9000"
            ]
        );
    }

    #[test]
    fn commands_that_need_a_code_on_kind_21() {
        assert_eq!(counted(&[0xff, 0xb1, 0, 0, 3]), ["B1 of a right length: 6D00", "B1: 6D00"]);
        assert_eq!(counted(&[0xff, 0xb1, 0, 0, 4]), ["B1 of a wrong length: 6D00", "B1: 6D00"]);
        assert_eq!(counted(&[0xff, 0x20, 0, 0, 2, 0xc2, 0xc3]), ["20 of a right length: 6D00", "20: 6D00"]);
        assert_eq!(counted(&[0xff, 0x20, 0, 0, 2, 0xc2]), ["20 of a wrong length: 6D00", "20: 6D00"]);
        assert_eq!(counted(&[0xff, 0xd2, 0, 1, 3, 1, 2, 3]), ["D2 of a right length: 6D00", "D2: 6D00"]);
        assert_eq!(counted(&[0xff, 0xd2, 0, 1, 2, 1, 2]), ["D2 of a wrong length: 6D00", "D2: 6D00"]);
    }
}
