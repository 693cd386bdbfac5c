//! The rules of the reader: one message, an insertion and a removal, over a slot record and a card
//! image. No call panics, whatever record, image, message and answer buffer it is given: it is
//! carried out, or it is turned down with the number of the table "Turned down without an answer"
//! and leaves every byte as it was.

use crate::parameters::Parameters;
use std::ops::{Range, RangeInclusive};

/// The answer buffer must be at least this long.
pub const ANSWER_BUFFER: usize = 271;
const HEADER: usize = 10;

const SET_PARAMETERS: u8 = 0x61;
const POWER_ON: u8 = 0x62;
const POWER_OFF: u8 = 0x63;
const SLOT_STATUS: u8 = 0x65;
const GET_PARAMETERS: u8 = 0x6c;
const RESET_PARAMETERS: u8 = 0x6d;
const TRANSFER: u8 = 0x6f;
const SUPPORTED: [u8; 7] =
    [SET_PARAMETERS, POWER_ON, POWER_OFF, SLOT_STATUS, GET_PARAMETERS, RESET_PARAMETERS, TRANSFER];
const DATA_BLOCK: u8 = 0x80;
const SLOT_STATUS_ANSWER: u8 = 0x81;
const PARAMETERS: u8 = 0x82;

/// A row of "Cards we model", and where the parts of the image are.
pub struct Chip {
    pub kind: u8,
    pub name: &'static str,
    /// Bytes of the image; the memory is its first part.
    pub image: usize,
    pub memory: usize,
    /// The chip's page; 0 where it has none.
    pub page: usize,
    /// The type that selects it.
    pub select: u8,
    /// The full counter; 0 where the chip has no code.
    pub full: u8,
    /// Where counter and code are in the image.
    pub counter: usize,
    pub code: Range<usize>,
    /// Where the protection bytes begin, and how many memory bytes have a bit in them.
    pub protection: usize,
    pub protectable: usize,
    /// The image bytes that are 00h on every card.
    pub zeros: Range<usize>,
}

const NOWHERE: usize = usize::MAX;

#[rustfmt::skip]
const fn i2c(kind: u8, name: &'static str, bytes: usize, page: usize, select: u8) -> Chip {
    Chip {
        kind, name, image: bytes, memory: bytes, page, select,
        full: 0, counter: NOWHERE, code: NOWHERE..NOWHERE, protection: NOWHERE, protectable: 0, zeros: 0..0,
    }
}

#[rustfmt::skip]
pub static CHIPS: [Chip; 15] = [
    i2c(1, "I2C 1 kbit", 128, 8, 0x01),
    i2c(2, "I2C 2 kbit", 256, 8, 0x01),
    i2c(3, "I2C 4 kbit", 512, 16, 0x01),
    i2c(4, "I2C 8 kbit", 1024, 16, 0x01),
    i2c(5, "I2C 16 kbit", 2048, 16, 0x01),
    i2c(6, "I2C 32 kbit", 4096, 32, 0x02),
    i2c(7, "I2C 64 kbit", 8192, 32, 0x02),
    i2c(8, "I2C 128 kbit", 16384, 64, 0x02),
    i2c(9, "I2C 256 kbit", 32768, 64, 0x02),
    i2c(10, "I2C 512 kbit", 65536, 128, 0x02),
    i2c(11, "I2C 1024 kbit", 131072, 256, 0x02),
    Chip {
        kind: 20, name: "SLE4428", image: 1152, memory: 1024, page: 0, select: 0x05,
        full: 0xff, counter: 0x3fd, code: 0x3fe..0x400, protection: 1024, protectable: 1024, zeros: 0..0,
    },
    Chip {
        kind: 21, name: "SLE4418", image: 1152, memory: 1024, page: 0, select: 0x05,
        full: 0, counter: NOWHERE, code: NOWHERE..NOWHERE, protection: 1024, protectable: 1024, zeros: 0..0,
    },
    Chip {
        kind: 30, name: "SLE4442", image: 264, memory: 256, page: 0, select: 0x06,
        full: 0x07, counter: 260, code: 261..264, protection: 256, protectable: 32, zeros: 0..0,
    },
    Chip {
        kind: 31, name: "SLE4432", image: 264, memory: 256, page: 0, select: 0x06,
        full: 0, counter: NOWHERE, code: NOWHERE..NOWHERE, protection: 256, protectable: 32, zeros: 260..264,
    },
];

/// The kinds of the two large chips, whose images no record of the session program holds.
pub const LARGE: [u8; 2] = [10, 11];

impl Chip {
    /// The chip of a kind.
    pub fn of(kind: u8) -> Option<&'static Chip> {
        CHIPS.iter().find(|chip| chip.kind == kind)
    }

    /// A code card: kinds 20 and 30.
    pub fn has_code(&self) -> bool {
        self.full != 0
    }

    /// A card with protection bits: kinds 20, 21, 30 and 31.
    pub fn has_bits(&self) -> bool {
        self.protectable != 0
    }

    /// Whether byte k of the memory is protected: its bit is bit k mod 8 of protection byte k/8.
    pub fn protected(&self, image: &[u8], k: usize) -> bool {
        k < self.protectable && image[self.protection + k / 8] & (1 << (k % 8)) == 0
    }

    /// Protects byte k of the memory, which has a bit.
    pub fn protect(&self, image: &mut [u8], k: usize) {
        image[self.protection + k / 8] &= !(1 << (k % 8));
    }

    /// Tries left, the one bits of the counter; 0 on a card without a code.
    pub fn tries(&self, image: &[u8]) -> u8 {
        if self.has_code() {
            image[self.counter].count_ones() as u8
        } else {
            0
        }
    }

    /// The number of protected bytes: every byte that has a bit is asked.
    pub fn protected_bytes(&self, image: &[u8]) -> u16 {
        (0..self.protectable).filter(|&k| self.protected(image, k)).count() as u16
    }

    /// Whether the image is one of this chip: its length; then a 4442's counter is at most 07h, a
    /// 4428's bit for 3FDh is 1, and a 4432's last four bytes are 00h.
    fn fits(&self, image: &[u8]) -> bool {
        image.len() == self.image
            && (!self.has_code() || image[self.counter] <= self.full && !self.protected(image, self.counter))
            && image[self.zeros.clone()].iter().all(|&byte| byte == 0x00)
    }
}

/// The slot record. Kind 0 is no card, selected 0 no type.
#[derive(Clone, Debug, PartialEq, Eq)]
pub struct Slot {
    pub kind: u8,
    pub active: bool,
    pub selected: u8,
    pub page: u8,
    pub open: bool,
    pub parameters: Parameters,
    /// Tries left, and the number of protected bytes.
    pub tries: u8,
    pub protected: u16,
    /// Command 01 has succeeded since the card went in.
    pub chosen: bool,
}

impl Slot {
    /// The empty sound slot.
    pub fn empty() -> Slot {
        Slot {
            kind: 0,
            active: false,
            selected: 0,
            page: 8,
            open: false,
            parameters: Parameters::default(),
            tries: 0,
            protected: 0,
            chosen: false,
        }
    }

    /// The image is the chip's own where there is a card.
    fn is_sound(&self, chip: Option<&Chip>, image: &[u8]) -> bool {
        if ![8, 16, 32, 64, 128].contains(&self.page) {
            return false;
        }
        if !self.active && (self.selected != 0 || self.open) {
            return false;
        }
        if self.parameters.fault().is_some() {
            return false;
        }
        let chip = match chip {
            None => {
                let default = self.parameters == Parameters::default();
                let zeros = self.tries == 0 && self.protected == 0;
                return !self.active && self.page == 8 && default && zeros && !self.chosen;
            }
            Some(chip) => chip,
        };
        if self.tries != chip.tries(image) || self.protected != chip.protected_bytes(image) {
            return false;
        }
        if self.selected != 0 && self.selected != chip.select {
            return false;
        }
        !self.open || chip.has_code() && self.selected == chip.select && image[chip.counter] == chip.full
    }
}

/// Takes the card out.
pub fn remove(slot: &mut Slot) {
    *slot = Slot::empty();
}

/// Puts a card in, or gives the number that turns it down.
pub fn insert(slot: &mut Slot, kind: u8, image: &[u8]) -> Result<(), u8> {
    if slot.kind != 0 {
        return Err(5);
    }
    match Chip::of(kind) {
        Some(chip) if chip.fits(image) => {
            *slot = Slot { kind, tries: chip.tries(image), protected: chip.protected_bytes(image), ..Slot::empty() };
            Ok(())
        }
        _ => Err(3),
    }
}

/// Answers one message: the answer's length, or the number that turns it down.
pub fn message(slot: &mut Slot, image: &mut [u8], message: &[u8], answer: &mut [u8]) -> Result<usize, u8> {
    if answer.len() < ANSWER_BUFFER {
        return Err(1);
    }
    if message.len() < HEADER {
        return Err(2);
    }
    let chip = match slot.kind {
        0 => None,
        kind => match Chip::of(kind) {
            Some(chip) if chip.fits(image) => Some(chip),
            _ => return Err(3),
        },
    };
    if !slot.is_sound(chip, image) {
        return Err(4);
    }

    let (header, tail) = answer.split_at_mut(HEADER);
    let mut data = Data { bytes: tail, length: 0 };
    let card = chip.map(|chip| Card { chip, slot: &mut *slot, image });
    let (failed, error) = match carry_out(card, message, &mut data) {
        Ok(()) => (0x00, 0x00),
        Err(error) => (0x40, error),
    };

    let (slot_meant, sequence) = (message[5], message[6]);
    let state = match slot.active {
        _ if slot_meant != 0 || slot.kind == 0 => 2,
        true => 0,
        false => 1,
    };
    let (answer_type, last) = match message[0] {
        POWER_ON | TRANSFER => (DATA_BLOCK, 0x00),
        SET_PARAMETERS | GET_PARAMETERS | RESET_PARAMETERS => {
            (PARAMETERS, if failed == 0 { slot.parameters.protocol } else { 0x00 })
        }
        _ => (SLOT_STATUS_ANSWER, if state == 0 { 0x00 } else { 0x01 }),
    };
    header[0] = answer_type;
    header[1..5].copy_from_slice(&(data.length as u32).to_le_bytes());
    header[5..].copy_from_slice(&[slot_meant, sequence, state + failed, error, last]);
    Ok(HEADER + data.length)
}

/// The faults of a message in the paper's order, each with its bError; then the message itself.
fn carry_out(card: Option<Card>, message: &[u8], data: &mut Data) -> Result<(), u8> {
    let kind = message[0];
    if !SUPPORTED.contains(&kind) {
        return Err(0x00);
    }
    let length = u32::from_le_bytes([message[1], message[2], message[3], message[4]]) as u64;
    let allowed = match kind {
        TRANSFER => length <= 261,
        SET_PARAMETERS => length == 5 || length == 7,
        _ => length == 0,
    };
    if length != (message.len() - HEADER) as u64 || !allowed {
        return Err(0x01);
    }
    if message[5] != 0 {
        return Err(0x05);
    }
    if kind == POWER_ON && message[7] > 3 {
        return Err(0x07);
    }
    if kind == TRANSFER && message[8..10] != [0, 0] {
        return Err(0x08);
    }
    let brought = Parameters { protocol: message[7], bytes: message[HEADER..].to_vec() };
    if let (SET_PARAMETERS, Some(error)) = (kind, brought.fault()) {
        return Err(error);
    }
    let mut card = match card {
        Some(card) => card,
        None if kind == POWER_OFF || kind == SLOT_STATUS => return Ok(()),
        None => return Err(0xfe),
    };
    match kind {
        SET_PARAMETERS => card.keep(brought, data),
        RESET_PARAMETERS => card.keep(Parameters::default(), data),
        GET_PARAMETERS => data.put(&card.slot.parameters.bytes),
        POWER_ON => card.power_on(data),
        POWER_OFF => card.power(false),
        TRANSFER if !card.slot.active => return Err(0xfe),
        TRANSFER => {
            let word = card.command(&message[HEADER..], data);
            data.put(&word.to_be_bytes());
        }
        _ => {}
    }
    Ok(())
}

/// The answer's data, filled in front to back from byte 10 of the lent buffer.
struct Data<'a> {
    bytes: &'a mut [u8],
    length: usize,
}

impl Data<'_> {
    fn put(&mut self, bytes: &[u8]) {
        for &byte in bytes {
            if let Some(place) = self.bytes.get_mut(self.length) {
                *place = byte;
                self.length += 1;
            }
        }
    }
}

/// What P1P2 may be.
enum Place {
    /// This alone.
    Fixed(usize),
    /// An address where address + P3 is at most this, and at most the memory size.
    Upto(usize),
    /// The low 16 bits of an address whose top bit is 1: address + P3 is at most the memory size.
    Above,
    /// An address where address + 8·P3 is at most this.
    BitsUpto(usize),
}
use Place::{Above, BitsUpto, Fixed, Upto};

/// The top bit of a 17-bit address.
pub const TOP_BIT: usize = 0x10000;

/// What a command brings: its address or other place, P3 and the bytes after P3.
struct Given<'a> {
    place: usize,
    p3: usize,
    data: &'a [u8],
}

/// A command on the kinds that have it: what P3 may be, whether P3 bytes follow it, and its place.
/// A selected type is the kind's own, so the kind tells the type.
struct Command {
    ins: u8,
    kinds: &'static [u8],
    p3: RangeInclusive<usize>,
    brings: bool,
    place: Place,
    run: fn(&mut Card, &Given, &mut Data) -> u16,
}

const I2C: &[u8] = &[1, 2, 3, 4, 5, 6, 7, 8, 9, 10, 11];
const BITS: &[u8] = &[20, 21, 30, 31];
const ALL: &[u8] = &[1, 2, 3, 4, 5, 6, 7, 8, 9, 10, 11, 20, 21, 30, 31];
const MEMORY: usize = usize::MAX;

#[rustfmt::skip]
static COMMANDS: [Command; 17] = [
    Command { ins: 0xa4, kinds: ALL,       p3: 1..=1,   brings: true,  place: Fixed(0),       run: select },
    Command { ins: 0x01, kinds: I2C,       p3: 1..=1,   brings: true,  place: Fixed(0),       run: set_page },
    Command { ins: 0xb0, kinds: ALL,       p3: 1..=255, brings: false, place: Upto(MEMORY),   run: read },
    Command { ins: 0xb1, kinds: &[11],     p3: 1..=255, brings: false, place: Above,          run: read },
    Command { ins: 0xb1, kinds: &[20],     p3: 3..=3,   brings: false, place: Fixed(0),       run: read_counter },
    Command { ins: 0xb1, kinds: &[30],     p3: 4..=4,   brings: false, place: Fixed(0),       run: read_counter },
    Command { ins: 0xb2, kinds: &[20, 21], p3: 1..=32,  brings: false, place: BitsUpto(1024), run: read_protection },
    Command { ins: 0xb2, kinds: &[30, 31], p3: 4..=4,   brings: false, place: Fixed(0),       run: read_protection },
    Command { ins: 0xd0, kinds: I2C,       p3: 1..=255, brings: true,  place: Upto(MEMORY),   run: write_pages },
    Command { ins: 0xd0, kinds: BITS,      p3: 1..=255, brings: true,  place: Upto(MEMORY),   run: write },
    Command { ins: 0xd1, kinds: &[11],     p3: 1..=255, brings: true,  place: Above,          run: write_pages },
    Command { ins: 0xd1, kinds: &[20],     p3: 1..=255, brings: true,  place: Upto(0x3fd),    run: protect },
    Command { ins: 0xd1, kinds: &[21],     p3: 1..=255, brings: true,  place: Upto(MEMORY),   run: protect },
    Command { ins: 0xd1, kinds: &[30, 31], p3: 1..=255, brings: true,  place: Upto(32),       run: protect },
    Command { ins: 0x20, kinds: &[20],     p3: 2..=2,   brings: true,  place: Fixed(0),       run: present },
    Command { ins: 0x20, kinds: &[30],     p3: 3..=3,   brings: true,  place: Fixed(0),       run: present },
    Command { ins: 0xd2, kinds: &[30],     p3: 3..=3,   brings: true,  place: Fixed(1),       run: change_code },
];

const WRONG_LENGTH: u16 = 0x6700;
const WRONG_CLASS: u16 = 0x6e00;
const WRONG_INS: u16 = 0x6d00;
const NOTHING_SELECTED: u16 = 0x6985;
const WRONG_PLACE: u16 = 0x6b00;
const WRONG_VALUE: u16 = 0x6a80;
const NOT_ALLOWED: u16 = 0x6982;
const NOT_AS_SENT: u16 = 0x6581;
const DONE: u16 = 0x9000;

/// The card in the slot. Its image is the chip's own and its slot record is sound.
struct Card<'a> {
    chip: &'static Chip,
    slot: &'a mut Slot,
    image: &'a mut [u8],
}

impl Card<'_> {
    /// Both ways: no type, closed. Page size and flag survive; the parameters survive power off alone.
    fn power(&mut self, active: bool) {
        self.slot.active = active;
        self.slot.selected = 0;
        self.slot.open = false;
    }

    /// The set that is told is the one after the call.
    fn keep(&mut self, parameters: Parameters, data: &mut Data) {
        self.slot.parameters = parameters;
        data.put(&self.slot.parameters.bytes);
    }

    fn power_on(&mut self, data: &mut Data) {
        self.power(true);
        self.slot.parameters = Parameters::default();
        if self.chip.has_bits() {
            data.put(&[0x3b, 0x04]);
            data.put(&self.image[..4]);
        } else {
            data.put(&[0x3b, 0x00]);
        }
    }

    /// "Commands inside 6Fh": the status word, and data where there are any before it.
    fn command(&mut self, apdu: &[u8], data: &mut Data) -> u16 {
        if apdu.len() < 5 {
            return WRONG_LENGTH;
        }
        if apdu[0] != 0xff {
            return WRONG_CLASS;
        }
        let ins = apdu[1];
        if !COMMANDS.iter().any(|command| command.ins == ins) {
            return WRONG_INS;
        }
        // A4 is the one command that needs no selected type.
        if ins != 0xa4 && self.slot.selected == 0 {
            return NOTHING_SELECTED;
        }
        let command = match COMMANDS.iter().find(|row| row.ins == ins && row.kinds.contains(&self.chip.kind)) {
            Some(command) => command,
            None => return WRONG_INS,
        };

        let named = usize::from(apdu[2]) * 256 + usize::from(apdu[3]);
        let p3 = usize::from(apdu[4]);
        let follow = if command.brings { p3 } else { 0 };
        if apdu.len() != 5 + follow || !command.p3.contains(&p3) {
            return WRONG_LENGTH;
        }
        let place = if matches!(command.place, Above) { TOP_BIT + named } else { named };
        let placed = match command.place {
            Fixed(only) => place == only,
            Upto(end) => place + p3 <= end.min(self.chip.memory),
            Above => place + p3 <= self.chip.memory,
            BitsUpto(end) => place + 8 * p3 <= end,
        };
        // D0 must not cover a 4428's 3FDh; the other chips have no counter in their memory.
        if !placed || ins == 0xd0 && (place..place + p3).contains(&self.chip.counter) {
            return WRONG_PLACE;
        }
        if self.chip.has_code() && !self.slot.open && [0xd0, 0xd1, 0xd2].contains(&ins) {
            return NOT_ALLOWED;
        }
        (command.run)(self, &Given { place, p3, data: &apdu[5..] }, data)
    }
}

/// The page is the type's own where the host has chosen none.
fn select(card: &mut Card, given: &Given, _: &mut Data) -> u16 {
    if given.data[0] != card.chip.select {
        return WRONG_VALUE;
    }
    card.slot.selected = card.chip.select;
    card.slot.open = false;
    match card.chip.select {
        0x01 if !card.slot.chosen => card.slot.page = 8,
        0x02 if !card.slot.chosen => card.slot.page = 32,
        _ => {}
    }
    DONE
}

fn set_page(card: &mut Card, given: &Given, _: &mut Data) -> u16 {
    card.slot.page = match given.data[0] {
        0x03 => 8,
        0x04 => 16,
        0x05 => 32,
        0x06 => 64,
        0x07 => 128,
        _ => return WRONG_VALUE,
    };
    card.slot.chosen = true;
    DONE
}

/// The code of a 4428 stands in its memory and reads 00h while the card is closed.
fn read(card: &mut Card, given: &Given, data: &mut Data) -> u16 {
    for address in given.place..given.place + given.p3 {
        let hidden = !card.slot.open && card.chip.code.contains(&address);
        data.put(&[if hidden { 0x00 } else { card.image[address] }]);
    }
    DONE
}

fn read_counter(card: &mut Card, given: &Given, data: &mut Data) -> u16 {
    data.put(&[card.image[card.chip.counter]]);
    for _ in 1..given.p3 {
        data.put(&[0x00]);
    }
    DONE
}

fn read_protection(card: &mut Card, given: &Given, data: &mut Data) -> u16 {
    for first in (given.place..).step_by(8).take(given.p3) {
        let mut byte = 0;
        for bit in 0..8 {
            if !card.chip.protected(card.image, first + bit) {
                byte |= 1 << bit;
            }
        }
        data.put(&[byte]);
    }
    DONE
}

/// D0 on I2C, and D1 on kind 11. A cut of the data ends before the next multiple of the reader page;
/// inside a cut the chip holds the address above its page and runs round in the low part.
fn write_pages(card: &mut Card, given: &Given, _: &mut Data) -> u16 {
    let (reader_page, chip_page) = (usize::from(card.slot.page), card.chip.page);
    let mut cut_start = given.place;
    for (address, &byte) in (given.place..).zip(given.data) {
        if address % reader_page == 0 {
            cut_start = address;
        }
        let page_start = cut_start - cut_start % chip_page;
        card.image[page_start + address % chip_page] = byte;
    }
    DONE
}

/// D0 on a card with protection bits: a byte at a time, and the chip passes over a protected one.
fn write(card: &mut Card, given: &Given, _: &mut Data) -> u16 {
    let mut all_as_sent = true;
    for (address, &byte) in (given.place..).zip(given.data) {
        if !card.chip.protected(card.image, address) {
            card.image[address] = byte;
        }
        all_as_sent &= card.image[address] == byte;
    }
    if all_as_sent {
        DONE
    } else {
        NOT_AS_SENT
    }
}

fn protect(card: &mut Card, given: &Given, _: &mut Data) -> u16 {
    for (address, &byte) in (given.place..).zip(given.data) {
        if card.image[address] == byte {
            card.chip.protect(card.image, address);
        }
    }
    card.slot.protected = card.chip.protected_bytes(card.image);
    DONE
}

/// A try is charged before the codes are compared, and a card without tries compares nothing.
fn present(card: &mut Card, given: &Given, _: &mut Data) -> u16 {
    let counter = card.image[card.chip.counter];
    if counter == 0 {
        return DONE;
    }
    let lowest_one = counter & counter.wrapping_neg();
    card.slot.open = card.image[card.chip.code.clone()] == *given.data;
    let after = if card.slot.open { card.chip.full } else { counter - lowest_one };
    card.image[card.chip.counter] = after;
    card.slot.tries = if card.slot.open { card.chip.tries(card.image) } else { card.slot.tries - 1 };
    DONE + u16::from(after)
}

fn change_code(card: &mut Card, given: &Given, _: &mut Data) -> u16 {
    card.image[card.chip.code.clone()].copy_from_slice(given.data);
    DONE
}
