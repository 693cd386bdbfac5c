//! Sessions: cards that go in and out, messages, and what ends a session.

use super::{chip_of, Maker, Rng, Stream};
use crate::count::{self, Count, Pages};
use crate::reader::LARGE;
use crate::record::{whole, Record};
use crate::step::{INSERT, LONGEST_BODY, MESSAGE, REMOVE};

/// The image with which a large chip comes, which is taken as unknown.
pub const LARGE_INSERTS: [&str; 4] = ["no image", "a short image", "an image of another kind", "32,768 image bytes"];

/// How a stream may end: the causes of `bad`, and a clean end.
pub const ENDINGS: [&str; 15] = [
    "a clean end",
    "a header cut after 1 byte",
    "a header cut after 2 bytes",
    "a header cut after 3 bytes",
    "a message body cut",
    "an insert body cut",
    "a body that never came",
    "another first mark byte",
    "another second mark byte",
    "an insert body of 32,770 bytes",
    "a message body of 32,770 bytes",
    "a body of 65,535 bytes",
    "a remove body of 1 byte",
    "a longer remove body",
    "a clean end after 32,769 bytes",
];

/// The records of stream `index` of the seed: sessions of together at least so many messages.
pub fn sessions(seed: u64, index: u64, messages: usize, count: &mut Count) -> Stream<Record> {
    let mut making = Making {
        maker: Maker::of_sessions(Rng::new(seed, index)),
        stream: Stream { parts: Vec::new(), lines: Vec::new(), starts: Vec::new() },
        messages: 0,
        befell: None,
        changed: None,
        large: None,
        pages: Pages::default(),
        count,
    };
    while making.messages < messages {
        making.stream.starts.push(making.stream.parts.len());
        making.session();
        making.put(Record::Remove, "");
    }
    making.end(ENDINGS[(index % ENDINGS.len() as u64) as usize]);
    making.stream
}

struct Making<'a> {
    maker: Maker,
    stream: Stream<Record>,
    messages: usize,
    /// What last befell the parameter set, until a 6Ch tells it.
    befell: Option<&'static str>,
    /// What the record just before did to tries left or the number of protected bytes, and on which
    /// kind.
    changed: Option<(u8, &'static str)>,
    /// The line of the record just before, where it is an insert of a large chip, and its kind.
    large: Option<(String, u8)>,
    /// What became of a chosen page.
    pages: Pages,
    count: &'a mut Count,
}

impl Making<'_> {
    /// Carries the record out and keeps it with its line. `why` says what is the matter with it.
    fn put(&mut self, record: Record, why: &str) {
        let reader = &mut self.maker.reader;
        let before = count::Before::of(&reader.slot, &reader.image);
        let line = match &record {
            Record::Insert(body) => reader.record(INSERT, body),
            Record::Remove => reader.record(REMOVE, &[]),
            Record::Message(body) => reader.record(MESSAGE, body),
            Record::Ending(_) => None,
        };
        let line = line.unwrap_or_else(|| "bad".to_string());
        match &record {
            Record::Insert(_) if line == "in 0" => {
                let slot = &reader.slot;
                self.count.add(format!("in 0: kind {}", slot.kind));
                self.count.add(format!("in 0: kind {}, {} tries", slot.kind, slot.tries));
                self.count.add(format!("in 0: kind {}, {} protected", slot.kind, slot.protected));
                if slot.kind == 21 && chip_of(21).protected(&reader.image, 0x3fd) {
                    self.count.add("in 0: kind 21, bit for 3FDh is 0".to_string());
                }
            }
            Record::Remove => {
                self.count.add(format!("{}: {}", line, if before.slot.kind == 0 { "no card" } else { "a card" }))
            }
            Record::Message(message) => {
                self.messages += 1;
                if matches!(self.stream.parts.last(), Some(Record::Message(last)) if last == message) {
                    self.count.add("an equal message again".to_string());
                }
                match line.strip_prefix("msg 0 ") {
                    Some(answer) => self.count.answer(&before, &reader.slot, message, answer),
                    None => self.count.add(format!("{}: {} bytes", line, message.len())),
                }
            }
            _ => self.count.add(format!("{}: {}", line, why)),
        }
        self.after_large(&record, &line);
        self.after_change(&before, &record, &line);
        self.parameters(&before, &record, &line);
        self.after_write(before.slot.kind, &record, &line);
        self.pages.record(self.count, &before, &record, &line);
        self.stream.parts.push(record);
        self.stream.lines.push(line);
    }

    /// Counts a message that is answered right after a large chip was turned down: with a card in, one
    /// that reads the memory.
    fn after_large(&mut self, record: &Record, line: &str) {
        if let (Some((before, kind)), Record::Message(message)) = (&self.large, record) {
            let read = message.get(11) == Some(&0xb0) && line.ends_with("9000");
            if line.starts_with("msg 0") && (before == "in 3" || read) {
                let what = if before == "in 3" { "a message" } else { "a B0" };
                self.count.add(format!("{} right after {} of kind {}", what, before, kind));
            }
        }
        self.large = match record {
            Record::Insert(body) => {
                body.first().filter(|kind| LARGE.contains(kind)).map(|&kind| (line.to_string(), kind))
            }
            _ => None,
        };
    }

    /// Counts a message that is answered right after a count has changed.
    fn after_change(&mut self, before: &count::Before, record: &Record, line: &str) {
        if let (Some((kind, what)), true) = (self.changed, line.starts_with("msg 0")) {
            self.count.add(format!("kind {}: answered right after {} that changed a count", kind, what));
        }
        let (was, is) = (&before.slot, &self.maker.reader.slot);
        // Of the messages 20 and D1 alone change one.
        let what = match record {
            Record::Insert(_) => "an insertion",
            Record::Message(message) if message.get(11) == Some(&0x20) => "a 20",
            Record::Message(_) => "a D1",
            _ => "a removal",
        };
        let changed = (was.tries, was.protected) != (is.tries, is.protected);
        self.changed = changed.then_some((was.kind.max(is.kind), what));
    }

    /// Counts a 6Ch together with what befell the set before it.
    fn parameters(&mut self, before: &count::Before, record: &Record, line: &str) {
        let other = before.has_other_set();
        if let (true, Record::Insert(_) | Record::Remove) = (other, record) {
            self.count.add(format!("{}: a card with another set", line));
        }
        self.befell = match (record, line.strip_prefix("msg 0 ")) {
            (Record::Insert(_), _) if other => Some("in 5 over another set"),
            (Record::Remove, _) if other => Some("out and in over another set"),
            // The eighth byte of an answer is bStatus.
            (Record::Message(message), Some(answer)) => match (message[0], &answer[14..15] == "4", other) {
                (0x61, false, _) => Some("61h"),
                (0x62, false, true) => Some("62h over another set"),
                (0x63, false, true) => Some("63h over another set"),
                (0x6d, false, true) => Some("6Dh over another set"),
                (0x61, true, true) => Some("61h failed over another set"),
                (0x62, true, true) => Some("62h failed over another set"),
                (0x6d, true, true) => Some("6Dh failed over another set"),
                (0x62 | 0x6d, false, false) => None,
                (0x6c, false, _) => {
                    if let Some(what) = self.befell {
                        self.count.add(format!("6Ch after {}", what));
                    }
                    None
                }
                _ => self.befell,
            },
            _ => self.befell,
        };
    }

    /// Counts a command that is done right after a D0 with 65 81; a B0 only where it reads that range.
    fn after_write(&mut self, kind: u8, record: &Record, line: &str) {
        let before = (self.stream.parts.last(), self.stream.lines.last());
        if let (Record::Message(message), (Some(Record::Message(write)), Some(told))) = (record, before) {
            let written = told.ends_with("6581") && write[0] == 0x6f;
            let done = line.ends_with("9000") && message[0] == 0x6f;
            if written && done && (message[11] != 0xb0 || message[12..15] == write[12..15]) {
                self.count.add(format!("kind {}: 6581, then {:02X}: 9000", kind, message[11]));
            }
        }
    }

    fn insert(&mut self, kind: u8, image: &[u8], why: &str) {
        let mut body = vec![kind];
        body.extend_from_slice(image);
        self.put(Record::Insert(body), why);
    }

    fn good_card(&mut self) {
        let chip = self.maker.any_chip();
        let image = self.maker.image(chip);
        self.insert(chip.kind, &image, "a card");
    }

    fn bad_insertion(&mut self) {
        match self.maker.rng.below(10) {
            0 => self.put(Record::Insert(Vec::new()), "empty body"),
            1..=4 => self.large_insertion(),
            _ => {
                let (kind, image, why) = self.maker.bad_card();
                self.insert(kind, &image, why);
            }
        }
    }

    /// A large chip. What the slot holds is looked over behind it.
    fn large_insertion(&mut self) {
        let (kind, how) = (self.maker.rng.pick(&LARGE), self.maker.rng.pick(&LARGE_INSERTS));
        let image = match how {
            "no image" => Vec::new(),
            "a short image" => {
                let length = 1 + self.maker.rng.below(127);
                self.maker.rng.bytes(length)
            }
            "an image of another kind" => {
                let chip = chip_of(self.maker.rng.pick(&[1, 2, 5, 20, 21, 30, 31]));
                self.maker.image(chip)
            }
            _ => self.maker.rng.bytes(LONGEST_BODY - 1),
        };
        self.insert(kind, &image, &format!("kind {}, {}", kind, how));
        if self.maker.reader.slot.selected != 0 && self.maker.rng.chance(60) {
            self.look_over();
        } else {
            self.message();
        }
    }

    fn message(&mut self) {
        let message = self.maker.message();
        self.put(Record::Message(message), "");
    }

    /// Begins and ends with the empty slot, but for the last removal.
    fn session(&mut self) {
        if self.maker.rng.chance(40) {
            for _ in 0..1 + self.maker.rng.below(4) {
                self.message();
            }
        }
        if self.maker.rng.chance(5) {
            self.put(Record::Remove, "");
        }
        if self.maker.rng.chance(30) {
            self.bad_insertion();
        }
        self.good_card();
        if self.maker.rng.chance(40) {
            self.choose_page();
        }
        for _ in 0..10 + self.maker.rng.below(70) {
            match self.maker.rng.below(300) {
                0 => self.good_card(),
                1 => self.bad_insertion(),
                2 => {
                    self.put(Record::Remove, "");
                    for _ in 0..self.maker.rng.below(3) {
                        self.message();
                    }
                    self.good_card();
                }
                3 if self.maker.rng.chance(10) => {
                    let mut long = self.maker.message();
                    long.resize(LONGEST_BODY, 0x20);
                    self.put(Record::Message(long), "");
                }
                _ => self.message(),
            }
        }
        if self.maker.rng.chance(40) {
            self.look_over();
        }
    }

    /// On an I2C card: what is written with the page of the type is read, and then what is written with
    /// a page that was chosen before another A4.
    fn choose_page(&mut self) {
        let select = match self.maker.chip() {
            Some(chip) if !chip.has_bits() => chip.select,
            _ => return,
        };
        let power_on = self.maker.ccid(0x62, &[]);
        self.put(Record::Message(power_on.clone()), "");
        self.command(&[0xff, 0xa4, 0x00, 0x00, 0x01, select]);
        self.write_and_read(select);
        let code = self.maker.rng.pick(&[0x03, 0x04, 0x05, 0x06, 0x07, 0x07, 0x07]);
        self.command(&[0xff, 0x01, 0x00, 0x00, 0x01, code]);
        if self.maker.rng.chance(50) {
            self.put(Record::Message(power_on), "");
        }
        self.command(&[0xff, 0xa4, 0x00, 0x00, 0x01, select]);
        self.write_and_read(select);
    }

    /// A D0, and a B0 of its range.
    fn write_and_read(&mut self, select: u8) {
        let write = self.maker.command(0xd0, select);
        self.command(&write);
        self.command(&[0xff, 0xb0, write[2], write[3], write[4]]);
    }

    /// Reads the card from end to end, or a large one here and there, so that what a write did
    /// wrong is seen.
    fn look_over(&mut self) {
        let chip = match self.maker.chip() {
            Some(chip) => chip,
            None => return,
        };
        if self.maker.reader.slot.selected == 0 {
            let power_on = self.maker.ccid(0x62, &[]);
            self.put(Record::Message(power_on), "");
            self.command(&[0xff, 0xa4, 0x00, 0x00, 0x01, chip.select]);
        }
        let most = 5;
        let mut place = 0;
        for _ in 0..most {
            if chip.memory > most * 255 {
                place = self.maker.rng.below(chip.memory - 1);
            }
            let count = (chip.memory - place).min(255);
            self.command(&[0xff, 0xb0, (place >> 8) as u8, place as u8, count as u8]);
            place += count;
            if place >= chip.memory {
                break;
            }
        }
        match chip.select {
            0x05 => {
                for place in [0, 1, 2, 3] {
                    self.command(&[0xff, 0xb2, place, 0x00, 32]);
                }
            }
            0x06 => {
                if chip.has_code() {
                    self.command(&[0xff, 0xb1, 0x00, 0x00, 4]);
                }
                self.command(&[0xff, 0xb2, 0x00, 0x00, 4]);
            }
            _ => {}
        }
    }

    fn command(&mut self, apdu: &[u8]) {
        let message = self.maker.ccid(0x6f, apdu);
        self.put(Record::Message(message), "");
    }

    /// Ends the stream in one of the ways, which is counted.
    fn end(&mut self, how: &'static str) {
        // What comes after `bad` must not be done any more.
        let after = Record::Message(vec![0x65, 0, 0, 0, 0, 0, 0, 0, 0, 0]).bytes();
        let rng = &mut self.maker.rng;
        let mark = rng.pick(&[INSERT, REMOVE, MESSAGE]);
        let ten = whole(MESSAGE, &[0x65, 0, 0, 0, 0, 0, 1, 0, 0, 0]);
        let bytes = match how {
            "a header cut after 1 byte" => mark[..1].to_vec(),
            "a header cut after 2 bytes" => mark.to_vec(),
            "a header cut after 3 bytes" => whole(mark, &[])[..3].to_vec(),
            "a message body cut" => ten[..4 + 1 + rng.below(9)].to_vec(),
            "an insert body cut" => {
                let body = rng.bytes(265);
                whole(INSERT, &body)[..4 + 1 + rng.below(264)].to_vec()
            }
            "a body that never came" => {
                let body = vec![0; 1 + rng.below(LONGEST_BODY)];
                whole(mark, &body)[..4].to_vec()
            }
            "another first mark byte" => {
                let mark = [rng.pick(&[0x00, 0x42, 0x44, 0x4d, 0x49, 0x63, 0x0a]), mark[1]];
                let length = rng.pick(&[0, 10]);
                [whole(mark, &ten[4..4 + length]), after].concat()
            }
            "another second mark byte" => {
                let mark =
                    rng.pick(&[[0x43, 0x4d], [0x43, 0x48], [0x43, 0x69], [0x4f, 0x49], [0x4f, 0x4f], [0x4f, 0x4e]]);
                let length = rng.pick(&[0, 10]);
                [whole(mark, &ten[4..4 + length]), after].concat()
            }
            "an insert body of 32,770 bytes" => {
                let mut body = vec![0; LONGEST_BODY + 1];
                body[0] = rng.pick(&[9, 10, 11]);
                [whole(INSERT, &body), after].concat()
            }
            "a message body of 32,770 bytes" => [whole(MESSAGE, &vec![0x65; LONGEST_BODY + 1]), after].concat(),
            "a body of 65,535 bytes" => {
                let body = vec![0; 65_535];
                whole(mark, &body)[..4 + rng.below(40_000)].to_vec()
            }
            "a remove body of 1 byte" => [whole(REMOVE, &[rng.byte()]), after].concat(),
            "a longer remove body" => [whole(REMOVE, &ten), after].concat(),
            "a clean end after 32,769 bytes" => {
                let image = rng.bytes(LONGEST_BODY - 1);
                self.insert(9, &image, "");
                self.put(Record::Message(vec![0x62; LONGEST_BODY]), "");
                self.count.add(how.to_string());
                return;
            }
            _ => {
                self.count.add(how.to_string());
                return;
            }
        };
        self.put(Record::Ending(bytes), how);
    }
}
