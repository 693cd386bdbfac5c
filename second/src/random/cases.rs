//! Trial cases: messages over whole states, most of them sound, insertions and removals over any
//! record.

use super::commands::INS;
use super::counts::counts;
use super::{chip_of, Maker, Rng, Stream};
use crate::case::{raw, Call, Case, HEADER, LONGEST_BUFFER, LONGEST_IMAGE, LONGEST_MESSAGE};
use crate::case::{CHOSEN, PROTOCOL, RECORD, REST};
use crate::count::Count;
use crate::reader::{Chip, Slot, CHIPS, LARGE};
use crate::step::Reader;
use std::mem;

/// How a stream of cases may end.
pub const CASE_ENDINGS: [&str; 22] = [
    "a clean end",
    "a case cut behind its call",
    "a case cut in its fixed part",
    "a message cut",
    "an insertion cut before its kind",
    "an image cut",
    "an insertion's image cut",
    "a removal's image cut",
    "call 3",
    "another call",
    "a buffer of 601 bytes",
    "a buffer of 65,535 bytes",
    "an insertion's buffer of 601 bytes",
    "a removal's buffer of 601 bytes",
    "a message of 601 bytes",
    "an insertion without a kind",
    "an insertion's message of 2 bytes",
    "a removal's message of 1 byte",
    "an image of 131,073 bytes",
    "an insertion's image of 131,073 bytes",
    "a removal's image of 131,073 bytes",
    "an image of FFFFFFFFh bytes",
];

/// What makes a record unsound but for its set, its counts and its flag; each is tried on its own.
pub const RECORD_FAULTS: [&str; 16] = [
    "page no page",
    "no card but active",
    "no card but page 16",
    "no card but a type",
    "no card but open",
    "inactive but a type",
    "inactive but open",
    "a type not the kind's",
    "open but an I2C card",
    "open but kind 21",
    "open but kind 31",
    "open but no type",
    "open but the counter not full",
    "byte 1 neither 0 nor 1",
    "byte 4 neither 0 nor 1",
    "a rest byte not 00h",
];

/// What makes a record of a large card unsound; each is tried on its own on either. Its counts and its
/// flag are another matter.
pub const LARGE_FAULTS: [&str; 10] = [
    "page no page",
    "inactive but a type",
    "inactive but open",
    "a type not the kind's",
    "open with its type",
    "open but no type",
    "byte 1 neither 0 nor 1",
    "byte 4 neither 0 nor 1",
    "a rest byte not 00h",
    "an unsound set",
];

/// What is no reader page.
const NO_PAGES: [u8; 13] = [0, 1, 4, 7, 9, 12, 24, 48, 63, 65, 127, 129, 255];

/// A case, or bytes as they stand at a stream's end.
#[derive(Clone)]
pub enum Part {
    Case(Case),
    Ending(Vec<u8>),
}

impl Part {
    pub fn bytes(&self) -> Vec<u8> {
        match self {
            Part::Case(case) => case.bytes(),
            Part::Ending(bytes) => bytes.clone(),
        }
    }
}

/// So many cases of stream `index` of the seed, and how the stream ends.
pub fn cases(seed: u64, index: u64, wanted: usize, count: &mut Count) -> Stream<Part> {
    let mut maker = Maker::of_cases(Rng::new(seed, index));
    let mut stream = Stream { parts: Vec::new(), lines: Vec::new(), starts: Vec::new() };
    for _ in 0..wanted {
        let (case, line) = maker.case(count);
        stream.starts.push(stream.parts.len());
        stream.lines.push(line);
        stream.parts.push(Part::Case(case));
    }
    let how = CASE_ENDINGS[(index % CASE_ENDINGS.len() as u64) as usize];
    if let Some(bytes) = maker.case_ending(how) {
        stream.starts.push(stream.parts.len());
        stream.lines.push("bad".to_string());
        stream.parts.push(Part::Ending(bytes));
    }
    count.add(how.to_string());
    stream
}

impl Maker {
    /// A sound slot with a card, or now and then without, far along.
    fn any_state(&mut self) {
        self.reader = Reader::empty();
        if self.rng.chance(8) {
            return;
        }
        let chip = self.any_chip();
        self.state_of(chip);
    }

    /// Makes the case one of a sound slot with a card of any kind, each as often as another, or twice as
    /// often without: its image; the record is still to come.
    pub(super) fn each_state(&mut self, case: &mut Case) {
        self.reader = Reader::empty();
        if let Some(chip) = CHIPS.get(self.rng.below(CHIPS.len() + 2)) {
            self.state_of(chip);
            case.image = self.reader.image.clone();
        }
    }

    /// A sound slot with a card of that chip.
    pub(super) fn state_of(&mut self, chip: &Chip) {
        self.reader = Reader { slot: Slot::empty(), image: self.image(chip) };
        self.reader.slot.parameters = self.any_set();
        self.reader.slot.page = self.any_page();
        self.reader.slot.chosen = self.rng.chance(50);
        let slot = &mut self.reader.slot;
        slot.kind = chip.kind;
        slot.active = self.rng.chance(94);
        if slot.active && self.rng.chance(90) {
            slot.selected = chip.select;
            slot.open = chip.has_code() && self.reader.image[chip.counter] == chip.full && self.rng.chance(60);
        }
        self.store_counts();
    }

    /// A reader page, most often the largest, with which a write runs round on every I2C chip that is
    /// not large.
    fn any_page(&mut self) -> u8 {
        self.rng.pick(&[8, 16, 32, 64, 128, 128])
    }

    /// A D0 or D1 on a card with protection bits, which has its type selected and is open where it
    /// has a code.
    fn any_change(&mut self, ins: u8) -> Vec<u8> {
        let chip = chip_of(self.rng.pick(&[20, 20, 21, 30, 31]));
        let mut image = self.image(chip);
        if ins == 0xd1 && self.rng.chance(60) {
            let count = self.border(chip);
            self.protect_bytes(chip, &mut image, count);
        }
        if chip.has_code() {
            fill_counter(chip.kind, &mut image);
        }
        self.reader = Reader { slot: self.selected_slot(chip), image };
        self.reader.slot.open = chip.has_code();
        self.store_counts();
        let apdu = self.command(ins, chip.select);
        self.ccid(0x6f, &apdu)
    }

    /// An active card that has its type selected, closed; its counts are still to come.
    fn selected_slot(&mut self, chip: &Chip) -> Slot {
        let (page, chosen, parameters) = (self.any_page(), self.rng.chance(50), self.any_set());
        Slot { kind: chip.kind, active: true, selected: chip.select, page, chosen, parameters, ..Slot::empty() }
    }

    /// A D0 on an I2C card that is not large, each as often as another: often with the page of a type.
    fn any_page_write(&mut self) -> Vec<u8> {
        let chip = chip_of(1 + self.rng.below(9) as u8);
        self.reader = Reader { slot: self.selected_slot(chip), image: self.image(chip) };
        if self.rng.chance(40) {
            self.reader.slot.page = self.rng.pick(&[8, 8, 32]);
        }
        let apdu = self.command(0xd0, chip.select);
        self.ccid(0x6f, &apdu)
    }

    /// A 20 on a code card that has its type selected.
    fn any_code(&mut self) -> Vec<u8> {
        let chip = chip_of(self.rng.pick(&[20, 20, 30]));
        self.state_of(chip);
        self.reader.slot.active = true;
        self.reader.slot.selected = chip.select;
        let apdu = self.command(0x20, chip.select);
        self.ccid(0x6f, &apdu)
    }

    /// A 61h, to an inactive card more often than any other message.
    fn any_set_parameters(&mut self) -> Vec<u8> {
        self.any_state();
        if self.rng.chance(25) {
            let slot = &mut self.reader.slot;
            (slot.active, slot.selected, slot.open) = (false, 0, false);
        }
        self.set_parameters()
    }

    /// A message to a large card, which has its type selected more often than not: most often a 6Fh.
    fn any_large(&mut self) -> Vec<u8> {
        let chip = chip_of(self.rng.pick(&[10, 10, 11, 11, 11]));
        self.state_of(chip);
        if self.rng.chance(8) {
            return self.message();
        }
        self.reader.slot.active = true;
        let apdu = if self.rng.chance(20) {
            self.reader.slot.selected = 0;
            let ins = if self.rng.chance(30) { 0xa4 } else { self.rng.pick(&INS) };
            self.apdu_of(ins)
        } else {
            self.reader.slot.selected = chip.select;
            self.apdu()
        };
        self.ccid(0x6f, &apdu)
    }

    /// A message to a card of any kind, each as often as another but for code cards, which have most
    /// commands: a power on, else any command, spoiled more often than not.
    fn any_spoiled(&mut self) -> Vec<u8> {
        let kind = if self.rng.chance(20) { self.rng.pick(&[20, 30]) } else { self.rng.pick(self.kinds).1 };
        let chip = chip_of(kind);
        self.state_of(chip);
        if self.rng.chance(6) {
            return self.ccid(0x62, &[]);
        }
        let slot = &mut self.reader.slot;
        slot.active = true;
        if self.rng.chance(80) {
            slot.selected = chip.select;
        }
        let ins = if self.rng.chance(10) { 0xa4 } else { self.rng.pick(&INS) };
        let mut apdu = self.apdu_of(ins);
        if apdu.len() >= 5 && self.rng.chance(60) {
            self.spoil(&mut apdu);
        }
        self.ccid(0x6f, &apdu)
    }

    /// A case and its line, counted.
    fn case(&mut self, count: &mut Count) -> (Case, String) {
        match self.rng.below(100) {
            0..=9 => self.insertion_case(count),
            10 | 11 => self.removal_case(count),
            _ => self.message_case(count),
        }
    }

    /// An insertion: over a record of which the kind alone is asked, of a card that goes in or does not.
    fn insertion_case(&mut self, count: &mut Count) -> (Case, String) {
        let occupied = self.rng.chance(24);
        let (kind, image, why) = if self.rng.chance(40) {
            let with_bits = self.rng.pick(&[20, 20, 21, 21, 30, 31]);
            let chip = if self.rng.chance(50) { self.any_chip() } else { chip_of(with_bits) };
            let mut image = self.image(chip);
            if chip.has_bits() && self.rng.chance(50) {
                let protected = self.border(chip);
                self.protect_bytes(chip, &mut image, protected);
            }
            (chip.kind, image, "")
        } else {
            self.bad_card()
        };
        let mut record = self.any_record();
        record[0] = match occupied {
            false => 0,
            true if self.rng.chance(60) => self.rng.pick(self.kinds).1,
            true if self.rng.chance(30) => self.rng.pick(&[0x01, 0x0c, 0x7f, 0x80, 0xff]),
            true => 1 + self.rng.below(255) as u8,
        };
        let case = self.case_of(Call::Insertion, record, vec![kind], image);
        let line = case.line();
        count.insertion(&case, &line, why);
        (case, line)
    }

    /// A removal: over any record, beside any image.
    fn removal_case(&mut self, count: &mut Count) -> (Case, String) {
        let record = self.any_record();
        let length = match self.rng.below(60) {
            0 => LONGEST_IMAGE,
            which => self.rng.pick(&[0, 1, 128, 264, 1152, 10 * which]),
        };
        let image = self.rng.bytes(length);
        let case = self.case_of(Call::Removal, record, Vec::new(), image);
        let line = case.line();
        count.removal(&case, &line);
        (case, line)
    }

    /// The record of a sound slot with or without a card, one of which a byte or some are any, or any
    /// bytes at all; often with either flag.
    fn any_record(&mut self) -> [u8; RECORD] {
        let mut record = raw(&Slot::empty());
        if self.rng.chance(50) {
            let chip = chip_of(self.rng.pick(&[1, 6, 20, 21, 30, 31]));
            self.state_of(chip);
            record = raw(&self.reader.slot);
        }
        match self.rng.below(5) {
            0 | 1 => {}
            2 | 3 => {
                for _ in 0..1 + self.rng.below(3) {
                    record[self.rng.below(RECORD)] = self.rng.byte();
                }
            }
            _ => record.copy_from_slice(&self.rng.bytes(RECORD)),
        }
        if self.rng.chance(30) {
            record[CHOSEN] = self.rng.pick(&[0, 1]);
        }
        record
    }

    /// An insertion or a removal, which does not look at the buffer.
    fn case_of(&mut self, call: Call, record: [u8; RECORD], message: Vec<u8>, image: Vec<u8>) -> Case {
        let buffer = self.rng.pick(&[0, 1, 10, 270, 271, 600]);
        Case { call, record, buffer, fill: self.rng.byte(), message, image }
    }

    /// A message: mostly over a sound state, else with one fault or several.
    fn message_case(&mut self, count: &mut Count) -> (Case, String) {
        let faulty = self.rng.chance(32);
        let message = match self.rng.below(100) {
            0..=13 if !faulty => self.any_change(0xd0),
            14..=25 if !faulty => self.any_change(0xd1),
            26..=35 if !faulty => self.any_large(),
            36..=51 if !faulty => self.any_spoiled(),
            52..=56 if !faulty => self.any_page_write(),
            57..=59 if !faulty => self.any_code(),
            60..=67 if !faulty => {
                self.any_state();
                self.damaged()
            }
            68..=74 if !faulty => self.any_set_parameters(),
            75..=85 if !faulty => self.any_choice(),
            _ => {
                self.any_state();
                self.message()
            }
        };
        let mut case = Case {
            call: Call::Message,
            record: raw(&self.reader.slot),
            buffer: self.rng.pick(&[271, 271, 271, 272, 600]),
            fill: self.rng.byte(),
            message,
            image: mem::take(&mut self.reader.image),
        };
        // With no card the image is not looked at, so it is any.
        if case.record[0] == 0 {
            let length = self.rng.pick(&[0, 1, 128, 264]);
            case.image = self.rng.bytes(length);
        }
        let mut faults = [false; 5];
        if faulty {
            faults[self.rng.pick(&[1, 2, 3, 3, 4, 4, 4, 4])] = true;
            faults[1 + self.rng.below(4)] |= self.rng.chance(30);
            faults[1 + self.rng.below(4)] |= self.rng.chance(10);
        }
        let mut why = String::new();
        if faults[4] {
            let (fault, alone) = self.unsound(&mut case);
            why = if alone { fault } else { "several faults".to_string() };
        }
        if faults[3] {
            why = self.bad_image(&mut case).to_string();
        }
        if faults[2] {
            let short = self.rng.below(10);
            case.message.truncate(short);
        } else if self.rng.chance(3) {
            let long = self.rng.below(LONGEST_MESSAGE + 1);
            case.message.resize(long, 0x00);
        }
        if faults[1] {
            case.buffer = self.rng.pick(&[0, 270, 270, 1, 10, 267]);
        } else if self.rng.chance(2) {
            case.buffer = self.rng.below(LONGEST_BUFFER + 1);
        }
        let line = case.line();
        count.case(&case, &line, &faults, &why);
        (case, line)
    }

    /// Puts a fault into the record: which one, and whether it stands alone.
    fn unsound(&mut self, case: &mut Case) -> (String, bool) {
        match self.rng.below(100) {
            0..=15 => return (self.unsound_set(case).to_string(), true),
            16..=61 => return (self.unsound_counts(case), true),
            62..=68 => return (self.unsound_large(case), true),
            69..=84 => return (self.unsound_flag(case), true),
            _ => {}
        }
        // Every rest byte has to be at fault, so that fault comes more often.
        let faults = RECORD_FAULTS.len();
        let which = self.rng.below(faults + 14);
        if which >= faults + 12 {
            for _ in 0..2 + self.rng.below(4) {
                let k = if self.rng.chance(80) { 1 + self.rng.below(4) } else { 5 + self.rng.below(RECORD - 5) };
                case.record[k] = self.rng.byte();
            }
            return (String::new(), false);
        }
        let fault = RECORD_FAULTS[which.min(faults - 1)];
        let mut slot = self.reader.slot.clone();
        let mut other_card = |maker: &mut Maker, kind: u8| {
            if let Some(chip) = Chip::of(kind) {
                case.image = maker.image(chip);
                slot = maker.selected_slot(chip);
            }
        };
        match fault {
            "page no page" => slot.page = self.rng.pick(&NO_PAGES),
            "no card but active" => slot = Slot { active: true, ..Slot::empty() },
            "no card but page 16" => slot = Slot { page: 16 << self.rng.below(4), ..Slot::empty() },
            "no card but a type" => {
                slot = Slot { selected: self.rng.pick(&[0x01, 0x02, 0x05, 0x06, 0xff]), ..Slot::empty() }
            }
            "no card but open" => slot = Slot { open: true, ..Slot::empty() },
            "inactive but a type" => {
                let kind = self.any_chip().kind;
                other_card(self, kind);
                slot.active = false;
            }
            "inactive but open" => {
                let kind = self.rng.pick(&[20, 30]);
                other_card(self, kind);
                slot = Slot { active: false, selected: 0, open: true, ..slot };
                fill_counter(kind, &mut case.image);
            }
            "a type not the kind's" => {
                let kind = self.any_chip().kind;
                other_card(self, kind);
                let own = slot.selected;
                slot.selected = loop {
                    let other = self.rng.pick(&[0x01, 0x02, 0x03, 0x05, 0x06, 0x07, 0x80, 0xff]);
                    if other != own {
                        break other;
                    }
                };
            }
            "open but an I2C card" => {
                let kind = 1 + self.rng.below(9) as u8;
                other_card(self, kind);
                slot.open = true;
            }
            // 3FDh is as a full counter would be.
            "open but kind 21" => {
                other_card(self, 21);
                case.image[0x3fd] = 0xff;
                slot.open = true;
            }
            "open but kind 31" => {
                other_card(self, 31);
                slot.open = true;
            }
            "open but no type" => {
                let kind = self.rng.pick(&[20, 30]);
                other_card(self, kind);
                fill_counter(kind, &mut case.image);
                slot = Slot { selected: 0, open: true, ..slot };
            }
            "open but the counter not full" => {
                let kind = self.rng.pick(&[20, 30]);
                other_card(self, kind);
                slot.open = true;
                if let Some(chip) = Chip::of(kind) {
                    case.image[chip.counter] = chip.full & !(1 << self.rng.below(chip.full.count_ones() as usize));
                }
            }
            "byte 1 neither 0 nor 1" => {
                case.record[1] = 2 + self.rng.below(254) as u8;
                return (fault.to_string(), true);
            }
            "byte 4 neither 0 nor 1" => {
                case.record[4] = 2 + self.rng.below(254) as u8;
                return (fault.to_string(), true);
            }
            _ => {
                let k = REST + self.rng.below(RECORD - REST);
                case.record[k] = 1 + self.rng.below(255) as u8;
                return (format!("rest byte {} not 00h", k), true);
            }
        }
        // The counts are right, so that the fault stands alone.
        (slot.tries, slot.protected) = counts(slot.kind, &case.image);
        case.record = raw(&slot);
        (fault.to_string(), true)
    }

    /// Makes the case one of a large card whose record is unsound: on which kind, and how.
    fn unsound_large(&mut self, case: &mut Case) -> String {
        let chip = chip_of(self.rng.pick(&LARGE));
        let fault = self.rng.pick(&LARGE_FAULTS);
        case.image = self.image(chip);
        let mut slot = self.selected_slot(chip);
        match fault {
            "page no page" => slot.page = self.rng.pick(&NO_PAGES),
            "inactive but a type" => slot.active = false,
            "inactive but open" => slot = Slot { active: false, selected: 0, open: true, ..slot },
            "a type not the kind's" => slot.selected = self.rng.pick(&[0x01, 0x03, 0x05, 0x06, 0x82, 0xff]),
            "open with its type" => slot.open = true,
            "open but no type" => slot = Slot { selected: 0, open: true, ..slot },
            _ => {}
        }
        case.record = raw(&slot);
        match fault {
            "byte 1 neither 0 nor 1" => case.record[1] = 2 + self.rng.below(254) as u8,
            "byte 4 neither 0 nor 1" => case.record[4] = 2 + self.rng.below(254) as u8,
            "a rest byte not 00h" => {
                case.record[REST + self.rng.below(RECORD - REST)] = 1 + self.rng.below(255) as u8;
            }
            // Neither T=0 nor T=1.
            "an unsound set" => case.record[PROTOCOL] = 2 + self.rng.below(254) as u8,
            _ => {}
        }
        format!("kind {}: {}", chip.kind, fault)
    }

    /// Puts a kind that is none or an image that does not fit into the case: which fault.
    fn bad_image(&mut self, case: &mut Case) -> &'static str {
        let (kind, image, why) = loop {
            let bad = self.bad_card();
            if bad.0 != 0 {
                break bad;
            }
        };
        case.record[0] = kind;
        case.image = image;
        why
    }

    fn case_ending(&mut self, how: &str) -> Option<Vec<u8>> {
        self.any_state();
        let mut case = Case {
            call: Call::Message,
            record: raw(&self.reader.slot),
            buffer: 271,
            fill: 0,
            message: self.ccid(0x65, &[]),
            image: mem::take(&mut self.reader.image),
        };
        if case.image.is_empty() {
            case.image = vec![0];
        }
        if how.starts_with("an insertion") {
            case = Case { call: Call::Insertion, message: vec![case.record[0]], ..case };
            case.record = raw(&Slot::empty());
        }
        if how.starts_with("a removal") {
            case = Case { call: Call::Removal, message: Vec::new(), ..case };
        }
        let rng = &mut self.rng;
        match how {
            "an insertion without a kind" => case.message.clear(),
            "an insertion's message of 2 bytes" => case.message.push(rng.byte()),
            "a removal's message of 1 byte" => case.message.push(rng.byte()),
            "a message of 601 bytes" => case.message.resize(LONGEST_MESSAGE + 1, 0),
            "a buffer of 65,535 bytes" => case.buffer = 65_535,
            _ if how.ends_with("buffer of 601 bytes") => case.buffer = LONGEST_BUFFER + 1,
            _ if how.ends_with("image of 131,073 bytes") => case.image.resize(LONGEST_IMAGE + 1, 0),
            _ => {}
        }
        let mut bytes = case.bytes();
        let (message, image) = (case.message.len(), case.image.len());
        match how {
            "a clean end" => return None,
            "a case cut behind its call" => bytes.truncate(1),
            "a case cut in its fixed part" => bytes.truncate(2 + rng.below(HEADER - 2)),
            "a message cut" | "an insertion cut before its kind" => bytes.truncate(HEADER + rng.below(message)),
            _ if how.ends_with("image cut") => bytes.truncate(HEADER + message + rng.below(image)),
            "call 3" => bytes[0] = 3,
            "another call" => bytes[0] = 4 + rng.below(252) as u8,
            "an image of FFFFFFFFh bytes" => bytes[HEADER - 4..HEADER].copy_from_slice(&[0xff; 4]),
            _ => {}
        }
        // What comes after `bad` must not be done any more; a cut case has nothing after it.
        if !how.contains("cut") {
            case = Case { call: Call::Removal, buffer: 600, message: Vec::new(), image: Vec::new(), ..case };
            bytes.extend_from_slice(&case.bytes());
        }
        Some(bytes)
    }
}

fn fill_counter(kind: u8, image: &mut [u8]) {
    if let Some(chip) = Chip::of(kind) {
        image[chip.counter] = chip.full;
    }
}
