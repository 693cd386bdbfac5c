//! What is counted of the reader page and of the flag that says whether the host has chosen it: what
//! A4 and 01 make of both, what keeps them, what a write shows of them, and flags that are off.

use super::writes::{runs_round, PAGES};
use super::{all_on, bytes, has, what, Before, Count, Nothing, On, SUPPORTED};
use crate::case::{Case, CHOSEN, RECORD};
use crate::random::{bad_flag, bad_flags};
use crate::reader::{Chip, Slot, CHIPS};
use crate::record::Record;

const FLAGS: [bool; 2] = [false, true];

fn flag(chosen: bool) -> &'static str {
    if chosen {
        "chosen"
    } else {
        "not chosen"
    }
}

/// What byte 16 of a raw record says.
fn told(record: &[u8; RECORD]) -> &'static str {
    match record[CHOSEN] {
        0 | 1 => flag(record[CHOSEN] == 1),
        _ => "byte 16 off",
    }
}

fn state(slot: &Slot) -> &'static str {
    match (slot.active, slot.selected, slot.open) {
        (false, ..) => "inactive",
        (_, 0, _) => "no type",
        (.., open) => ["closed", "open"][usize::from(open)],
    }
}

/// The page that a card has after A4.
fn page_after(select: u8, page: u8, chosen: bool) -> u8 {
    match select {
        0x01 if !chosen => 8,
        0x02 if !chosen => 32,
        _ => page,
    }
}

impl Count {
    /// An answered message, beside the slot record after it.
    pub(super) fn pages(&mut self, before: &Before, after: &Slot, message: &[u8], answer: &[u8]) {
        let (slot, what) = (&before.slot, what(message, answer));
        let (select, page, was) = match Chip::of(slot.kind) {
            Some(chip) => (chip.select, slot.page, flag(slot.chosen)),
            None => return,
        };
        self.add(format!("answered, kind {}, {}, {}", slot.kind, state(slot), was));
        if (page, slot.chosen) == (after.page, after.chosen) {
            self.add(format!("page kept, {}: {}", was, what));
        }
        match (&what[..], message.get(11)) {
            ("62h" | "63h", _) => self.add(format!("{}, page {}, {}", what, page, was)),
            ("6Fh failed", Some(ins @ (0xa4 | 0x01))) => self.add(format!("{:02X} in a failed 6Fh, {}", ins, was)),
            ("A4: 9000", _) => {
                self.add(format!("type {:02X}h: A4, page {}, {}: page {}", select, page, was, after.page));
                if ![8, 32].contains(&page) {
                    self.add(format!("kind {}: A4 over another page, {}", slot.kind, was));
                }
            }
            ("01: 9000", _) => self.add(format!("{}: page code {:02X}h, {}", before.on(), message[15], was)),
            (_, Some(0xa4 | 0x01)) if message[0] == 0x6f && message.len() >= 15 && message[10] == 0xff => {
                self.add(format!("{}: {}, {}", before.on(), what, was));
                if what == "A4: 6A80" {
                    self.add(format!("type {:02X}h: A4 with {:02X}h, {}", select, message[15], was));
                }
            }
            _ => {}
        }
    }

    /// A write on I2C, where a reader page that is too large would be seen: it would run round on every
    /// chip that is not large.
    pub(super) fn page_of_write(&mut self, before: &Before, apdu: &[u8]) {
        let Slot { kind, page, chosen, selected, .. } = before.slot;
        let large = Chip::of(kind).map_or(false, |chip| chip.page >= 128);
        if !large && !runs_round(before, apdu, 128) {
            return;
        }
        if !chosen && page == page_after(selected, page, false) {
            self.add(format!("kind {}: {:02X} with the page of its type", kind, apdu[1]));
        }
        if chosen && page == 8 {
            self.add(format!("kind {}: {:02X} with page 8, chosen", kind, apdu[1]));
        }
    }

    /// A message of a trial case that was turned down.
    pub(super) fn refused_page(&mut self, case: &Case, number: u8, why: &str) {
        let told = told(&case.record);
        if let (Some(0x6f), Some(ins @ (0xa4 | 0x01))) = (case.message.first(), case.message.get(11)) {
            self.add(format!("{}: {:02X}, {}", number, ins, told));
        }
        if number < 4 && told == "byte 16 off" {
            self.add(format!("{} before byte 16 off", number));
        }
        if number == 4 && why.contains("byte 16 is") {
            self.add(format!("4: byte 16 off, {:02X}h", case.message[0]));
        }
    }

    /// An insertion of a trial case, by the type of the card that went in.
    pub(super) fn inserted_page(&mut self, case: &Case, number: u8) {
        let told = told(&case.record);
        self.add(format!("insertion {}: {}", number, told));
        if let (0, Some(chip)) = (number, Chip::of(case.message[0])) {
            self.add(format!("insertion 0: type {:02X}h, {}", chip.select, told));
        }
    }

    /// A removal of a trial case.
    pub(super) fn removed_page(&mut self, case: &Case) {
        let held = if case.record[0] == 0 { "no card" } else { "a card" };
        self.add(format!("removal 0: {}, {}", held, told(&case.record)));
    }
}

/// What became of the page that was chosen in a session, which prints no record.
#[derive(Default)]
pub struct Pages {
    /// What came since 01.
    since: Option<&'static str>,
    /// Whether the card before went out with its page chosen.
    before: bool,
}

impl Pages {
    pub fn record(&mut self, count: &mut Count, before: &Before, record: &Record, line: &str) {
        let was = flag(before.slot.chosen);
        match record {
            Record::Insert(_) if line == "in 5" => count.add(format!("in 5: {}", was)),
            Record::Remove if before.slot.kind != 0 => {
                count.add(format!("out 0: {}", was));
                *self = Pages { since: None, before: before.slot.chosen };
            }
            Record::Message(message) => {
                if let Some(answer) = line.strip_prefix("msg 0 ") {
                    self.message(count, before, message, &bytes(answer));
                }
            }
            _ => {}
        }
    }

    fn message(&mut self, count: &mut Count, before: &Before, message: &[u8], answer: &[u8]) {
        let Slot { kind, page, chosen, .. } = before.slot;
        if kind == 0 && self.before {
            count.add("answered without a card, the one before chosen".to_string());
        }
        let i2c = Chip::of(kind).map_or(false, |chip| !chip.has_bits());
        match (&what(message, answer)[..], self.since) {
            ("01: 9000", _) => self.since = Some("01"),
            ("62h" | "63h", Some(_)) => self.since = Some("01 and power"),
            ("A4: 9000", Some("01")) => self.since = Some("01 and A4"),
            ("A4: 9000", Some("01 and power")) => self.since = Some("01, power and A4"),
            ("D0: 9000", Some(since)) if i2c && runs_round(before, &message[10..], page.into()) => {
                count.add(format!("kind {}: D0 runs round after {}", kind, since));
            }
            ("D0: 9000", None) if i2c && self.before && !chosen && runs_round(before, &message[10..], 128) => {
                count.add(format!("kind {}: D0 with the page of its type, the card before chosen", kind));
            }
            _ => {}
        }
    }
}

/// The flags of a card in a run: in a session a card with protection bits has no 01. Trial cases have
/// any.
fn flags(has_bits: bool, any: bool) -> &'static [bool] {
    &FLAGS[..if any || !has_bits { 2 } else { 1 }]
}

/// The pages and flags of a card in a run: in a session a page that was not chosen is that of the
/// insertion or that of the type.
fn slots(select: u8, any: bool) -> Vec<(u8, bool)> {
    let is_there = |page: u8, chosen: bool| any || chosen || page == 8 || page == page_after(select, 8, false);
    let flags = flags(select > 0x02, any);
    let all = flags.iter().flat_map(|&chosen| PAGES.map(|page| (page, chosen)));
    all.filter(|&(page, chosen)| is_there(page, chosen)).collect()
}

/// What a run has to reach with answered messages; `any` of trial cases.
pub(super) fn answers(chips: &[&Chip], any: bool) -> Vec<String> {
    let mut goals = Vec::new();
    for chip in chips {
        for &chosen in flags(chip.has_bits(), any) {
            for state in ["inactive", "no type", "closed", "open"] {
                if state != "open" || chip.has_code() {
                    goals.push(format!("answered, kind {}, {}, {}", chip.kind, state, flag(chosen)));
                }
            }
            if any || chosen {
                goals.push(format!("kind {}: A4 over another page, {}", chip.kind, flag(chosen)));
            }
        }
        let writes: &[u8] = match chip.kind {
            11 => &[0xd0, 0xd1],
            _ if chip.has_bits() => &[],
            _ => &[0xd0],
        };
        for ins in writes {
            goals.push(format!("kind {}: {:02X} with the page of its type", chip.kind, ins));
            goals.push(format!("kind {}: {:02X} with page 8, chosen", chip.kind, ins));
        }
    }
    for select in [0x01, 0x02, 0x05, 0x06] {
        for (page, chosen) in slots(select, any) {
            let after = page_after(select, page, chosen);
            goals.push(format!("type {:02X}h: A4, page {}, {}: page {}", select, page, flag(chosen), after));
        }
        for given in [0x01, 0x02].into_iter().filter(|&given| given != select) {
            let flags = flags(select > 0x02, any).iter();
            goals
                .extend(flags.map(|&chosen| format!("type {:02X}h: A4 with {:02X}h, {}", select, given, flag(chosen))));
        }
    }
    for (page, chosen) in slots(0x02, any) {
        goals.push(format!("62h, page {}, {}", page, flag(chosen)));
        goals.push(format!("63h, page {}, {}", page, flag(chosen)));
    }
    for on in all_on(chips) {
        goals.extend(of_commands(on, any));
    }
    goals.extend(kept(any));
    goals
}

/// A4 and 01 by what they are sent to: refused, and 01 with each page.
fn of_commands(on: On, any: bool) -> Vec<String> {
    let refused = ["6A80", "6700", "6B00"];
    let mut what: Vec<String> = refused.map(|word| format!("A4: {}", word)).to_vec();
    match on {
        Nothing => what.push("01: 6985".to_string()),
        _ if has(on, 0x01) => {
            what.extend(refused.map(|word| format!("01: {}", word)));
            what.extend((0x03..=0x07).map(|code| format!("page code {:02X}h", code)));
        }
        _ => what.push("01: 6D00".to_string()),
    }
    let flags = flags(!matches!(on, Nothing) && !has(on, 0x01), any);
    flags
        .iter()
        .flat_map(|&chosen| what.iter().map(move |what| format!("{}: {}, {}", on, what, flag(chosen))))
        .collect()
}

/// What keeps page and flag: every message that fails, every one but a 6Fh that does not, and the
/// commands but for A4 and 01.
fn kept(any: bool) -> Vec<String> {
    let mut goals = Vec::new();
    for chosen in FLAGS {
        for kind in SUPPORTED {
            goals.push(format!("page kept, {}: {} failed", flag(chosen), kind));
            if kind != "6Fh" {
                goals.push(format!("page kept, {}: {}", flag(chosen), kind));
            }
        }
        for ins in [0xa4, 0x01] {
            goals.push(format!("{:02X} in a failed 6Fh, {}", ins, flag(chosen)));
        }
        let with_bits =
            ["B1: 9000", "B2: 9000", "D0: 6581", "D1: 9000", "D2: 9000", "20: 9006", "20: 9007", "20: 90FF"];
        let reached = if any || !chosen { &with_bits[..] } else { &[] };
        let on_all = ["B0: 9000", "D0: 9000"];
        goals.extend(on_all.iter().chain(reached).map(|what| format!("page kept, {}: {}", flag(chosen), what)));
    }
    goals
}

/// What a run of sessions has to reach: cards go out and do not go in over either flag, a write after
/// A4 shows the page that was chosen, and on the next card that it is gone.
pub(super) fn in_sessions() -> Vec<String> {
    let mut goals = vec!["answered without a card, the one before chosen".to_string()];
    for chosen in FLAGS {
        goals.push(format!("in 5: {}", flag(chosen)));
        goals.push(format!("out 0: {}", flag(chosen)));
    }
    for kind in 1..=9 {
        goals.push(format!("kind {}: D0 runs round after 01 and A4", kind));
        goals.push(format!("kind {}: D0 runs round after 01, power and A4", kind));
        goals.push(format!("kind {}: D0 with the page of its type, the card before chosen", kind));
    }
    goals
}

/// What a run of trial cases has to reach: every flag that is off on every kind and without a card,
/// whatever the message; A4 and 01 in messages that are turned down; insertions and removals over
/// every flag.
pub(super) fn in_cases() -> Vec<String> {
    let mut goals: Vec<String> = SUPPORTED.iter().map(|kind| format!("4: byte 16 off, {}", kind)).collect();
    for kind in [0].into_iter().chain(CHIPS.iter().map(|chip| chip.kind)) {
        goals.extend(bad_flags(kind).iter().map(|&flag| format!("4: {}", bad_flag(kind, flag))));
    }
    goals.extend([1, 2, 3].map(|number| format!("{} before byte 16 off", number)));
    for told in ["chosen", "not chosen", "byte 16 off"] {
        goals.extend([0, 3, 5].map(|number| format!("insertion {}: {}", number, told)));
        goals.extend([1, 2, 5, 6].map(|select| format!("insertion 0: type {:02X}h, {}", select, told)));
        goals.extend(["a card", "no card"].map(|held| format!("removal 0: {}, {}", held, told)));
        if told != "byte 16 off" {
            for number in [1, 3, 4] {
                goals.extend(["A4", "01"].map(|ins| format!("{}: {}, {}", number, ins, told)));
            }
        }
    }
    goals
}

#[cfg(test)]
mod tests {
    use super::*;
    use crate::case::{raw, Call};
    use crate::count::tests::{counted_on, ready};
    use crate::reader::{self, ANSWER_BUFFER};
    use crate::step::{Reader, INSERT, MESSAGE, REMOVE};

    fn message(kind: u8, data: &[u8]) -> Vec<u8> {
        [&[kind], &(data.len() as u32).to_le_bytes()[..], &[0; 5], data].concat()
    }

    /// What is counted of a message to a 4 kbit card.
    fn counted(slot: &Slot, message: &[u8]) -> Vec<String> {
        let (mut after, mut image, mut answer) = (slot.clone(), vec![0x55; 512], [0; ANSWER_BUFFER]);
        let before = Before::of(slot, &image);
        let length = reader::message(&mut after, &mut image, message, &mut answer).unwrap();
        let mut count = Count::default();
        count.pages(&before, &after, message, &answer[..length]);
        count.0.into_keys().collect()
    }

    #[test]
    fn of_a4_and_01() {
        let slot = Slot { page: 16, ..ready(3) };
        let chosen = Slot { chosen: true, ..slot.clone() };
        let off = Slot { active: false, selected: 0, ..chosen.clone() };
        for (slot, apdu, wanted) in [
            (
                &slot,
                &[0xff, 0xa4, 0, 0, 1, 1][..],
                &[
                    "answered, kind 3, closed, not chosen",
                    "kind 3: A4 over another page, not chosen",
                    "type 01h: A4, page 16, not chosen: page 8",
                ][..],
            ),
            (
                &chosen,
                &[0xff, 0xa4, 0, 0, 1, 1],
                &[
                    "answered, kind 3, closed, chosen",
                    "kind 3: A4 over another page, chosen",
                    "page kept, chosen: A4: 9000",
                    "type 01h: A4, page 16, chosen: page 16",
                ],
            ),
            (
                &chosen,
                &[0xff, 0xa4, 0, 0, 1, 2],
                &[
                    "answered, kind 3, closed, chosen",
                    "page kept, chosen: A4: 6A80",
                    "type 01h: A4 with 02h, chosen",
                    "type 01h: A4: 6A80, chosen",
                ],
            ),
            (
                &slot,
                &[0xff, 0x01, 0, 0, 1, 4],
                &["answered, kind 3, closed, not chosen", "type 01h: page code 04h, not chosen"],
            ),
            (
                &slot,
                &[0xff, 0x01, 0, 0, 1],
                &[
                    "answered, kind 3, closed, not chosen",
                    "page kept, not chosen: 01: 6700",
                    "type 01h: 01: 6700, not chosen",
                ],
            ),
            // No command, and an inactive card.
            (&slot, &[0xff, 0x01, 0, 0], &["answered, kind 3, closed, not chosen", "page kept, not chosen: 01: 6700"]),
            (
                &off,
                &[0xff, 0x01, 0, 0, 1, 4],
                &["01 in a failed 6Fh, chosen", "answered, kind 3, inactive, chosen", "page kept, chosen: 6Fh failed"],
            ),
        ] {
            assert_eq!(counted(slot, &message(0x6f, apdu)), wanted, "{:02x?}", apdu);
        }
        let wanted = ["62h, page 16, chosen", "answered, kind 3, closed, chosen", "page kept, chosen: 62h"];
        assert_eq!(counted(&chosen, &message(0x62, &[])), wanted);
        // No card has neither.
        assert!(counted(&Slot::empty(), &message(0x65, &[])).is_empty());
    }

    /// A page of 128 would run round at 10h, which begins a page of the chip.
    #[test]
    fn of_a_write() {
        let counted = |page: u8, chosen: bool, place: u8, data: &[u8]| {
            let apdu = [&[0xff, 0xd0, 0x00, place, data.len() as u8], data].concat();
            let mut what = counted_on(&Slot { page, chosen, ..ready(3) }, &[0x55; 512], &apdu);
            what.retain(|what| !what.ends_with("9000"));
            what
        };
        assert_eq!(counted(8, false, 0x0f, &[1, 1]), ["D0 with the page of its type"]);
        assert_eq!(counted(8, true, 0x0f, &[1, 1]), ["D0 with page 8, chosen"]);
        for (page, chosen, place, data) in
            [(8, false, 0x0f, [1, 0x55]), (8, true, 0x7f, [1, 1]), (16, true, 0x0f, [1, 1]), (32, false, 0x0f, [1, 1])]
        {
            assert!(counted(page, chosen, place, &data).is_empty());
        }
    }

    /// What is counted of a session: a write runs round behind a chosen page, and the next card has the
    /// page of its type.
    #[test]
    fn of_a_session() {
        let command = |apdu: &[u8]| Record::Message(message(0x6f, apdu));
        let select = || command(&[0xff, 0xa4, 0, 0, 1, 1]);
        let power = || Record::Message(message(0x62, &[]));
        let write = |place: u8| command(&[&[0xff, 0xd0, 0, place, 20][..], &[1; 20]].concat());
        let choose = || command(&[0xff, 0x01, 0, 0, 1, 7]);
        let insert = || Record::Insert([&[3][..], &[0x55; 512]].concat());
        let mut records = vec![insert(), power(), select(), write(0), choose(), select(), write(0x40)];
        records.extend([insert(), Record::Remove, power(), Record::Remove]);
        records.extend([insert(), power(), select(), write(0), choose(), power(), select(), write(0x40)]);
        let (mut reader, mut pages, mut count) = (Reader::empty(), Pages::default(), Count::default());
        for record in records {
            let before = Before::of(&reader.slot, &reader.image);
            let line = match &record {
                Record::Insert(body) => reader.record(INSERT, body),
                Record::Message(body) => reader.record(MESSAGE, body),
                _ => reader.record(REMOVE, &[]),
            };
            pages.record(&mut count, &before, &record, &line.unwrap());
        }
        assert_eq!(
            count.0.into_keys().collect::<Vec<_>>(),
            [
                "answered without a card, the one before chosen",
                "in 5: chosen",
                "kind 3: D0 runs round after 01 and A4",
                "kind 3: D0 runs round after 01, power and A4",
                "kind 3: D0 with the page of its type, the card before chosen",
                "out 0: chosen",
            ]
        );
    }

    #[test]
    fn of_raw_records() {
        let counted = |call: Call, first: u8, flag: u8, message: &[u8]| {
            let mut record = raw(&Slot::empty());
            (record[0], record[CHOSEN]) = (first, flag);
            let image = vec![0; 128];
            let case = Case { call, record, buffer: 271, fill: 0, message: message.to_vec(), image };
            let (number, mut count) = (case.line().as_bytes()[0] - b'0', Count::default());
            match call {
                Call::Message => count.refused_page(&case, number, &bad_flag(first, flag)),
                Call::Insertion => count.inserted_page(&case, number),
                Call::Removal => count.removed_page(&case),
            }
            count.0.into_keys().collect::<Vec<_>>()
        };
        assert_eq!(counted(Call::Insertion, 0, 1, &[1]), ["insertion 0: chosen", "insertion 0: type 01h, chosen"]);
        assert_eq!(counted(Call::Insertion, 0, 0, &[12]), ["insertion 3: not chosen"]);
        assert_eq!(counted(Call::Insertion, 1, 2, &[1]), ["insertion 5: byte 16 off"]);
        assert_eq!(counted(Call::Removal, 1, 1, &[]), ["removal 0: a card, chosen"]);
        assert_eq!(counted(Call::Removal, 0, 3, &[]), ["removal 0: no card, byte 16 off"]);
        let select = message(0x6f, &[0xff, 0xa4, 0, 0, 1, 1]);
        assert_eq!(counted(Call::Message, 0, 1, &select), ["4: A4, chosen", "4: byte 16 off, 6Fh"]);
        assert_eq!(counted(Call::Message, 12, 2, &select), ["3 before byte 16 off", "3: A4, byte 16 off"]);
        assert_eq!(counted(Call::Message, 12, 2, &select[..9]), ["2 before byte 16 off"]);
    }

    /// In a session 01 alone brings another page than that of the insertion and that of the type.
    #[test]
    fn pages_and_flags_by_type() {
        let count = |select: u8, any: bool| slots(select, any).len();
        assert_eq!([0x01, 0x02, 0x05, 0x06].map(|select| count(select, false)), [6, 7, 1, 1]);
        assert_eq!([0x01, 0x02, 0x05, 0x06].map(|select| count(select, true)), [10; 4]);
        assert_eq!(slots(0x02, false)[..3], [(8, false), (32, false), (8, true)]);
    }
}
