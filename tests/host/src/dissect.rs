//! A judge of what is told of messages and answers: each field that tshark takes out of a capture is held to the words
//! that `play --told --capture` tells of the same trace. Of the words alone it is worked out what tshark is to print, field
//! by field: which ones, where, their bytes and their text. What the words do not say is 00h, and dwLength is the number
//! of data bytes.
//!
//! tshark's part is `tshark -r FILE.pcap -Y usbccid -T pdml`.

use std::collections::BTreeSet;

/// What was compared.
#[derive(Debug, Default, PartialEq, Eq)]
pub struct Compared {
    /// Packets: two an exchange.
    pub packets: usize,
    /// Fields of the protocol usbccid in them.
    pub fields: usize,
    /// Data bytes that both tell.
    pub data: usize,
    /// The types of messages and answers that were seen.
    pub messages: BTreeSet<u8>,
    pub answers: BTreeSet<u8>,
    /// Those of messages that are told as unsupported.
    pub unsupported: BTreeSet<u8>,
    /// Answers 82h whose protocol number tshark reads one byte too early, from bError. tshark 4.0 does so with all.
    pub misplaced: usize,
}

impl Compared {
    /// The types that a thorough run has and this one has not.
    pub fn missing(&self) -> Vec<String> {
        let lacks = |seen: &BTreeSet<u8>, wanted: &[u8]| -> Vec<String> {
            wanted.iter().filter(|kind| !seen.contains(kind)).map(|kind| format!("{:02X}", kind)).collect()
        };
        let mut missing = lacks(&self.messages, &[0x61, 0x62, 0x63, 0x65, 0x6b, 0x6c, 0x6d, 0x6f]);
        if self.unsupported.is_empty() {
            missing.push("an unsupported type".to_string());
        }
        missing.extend(lacks(&self.answers, &[0x80, 0x81, 0x82, 0x83]));
        missing
    }
}

/// Holds what tshark printed for a capture to what was told of its trace; the first difference.
pub fn compare(told: &str, dissected: &str) -> Result<Compared, String> {
    let exchanges = exchanges(told)?;
    let packets = packets(dissected)?;
    if packets.len() != 2 * exchanges.len() {
        return Err(format!("{} exchanges are told, and tshark has {} packets", exchanges.len(), packets.len()));
    }
    let mut compared = Compared::default();
    for (parts, pair) in exchanges.iter().zip(packets.chunks(2)) {
        let (message, answer) = words_of(parts).map_err(|why| format!("told '{}': {}", parts[0].1, why))?;
        compared.packet(&message, "OUT", &pair[0])?;
        compared.packet(&answer, "IN", &pair[1])?;
        compared.messages.insert(message.header[0]);
        compared.answers.insert(answer.header[0]);
        if message.name == UNSUPPORTED {
            compared.unsupported.insert(message.header[0]);
        }
    }
    Ok(compared)
}

impl Compared {
    /// Holds a packet to the words.
    fn packet(&mut self, words: &Words, direction: &str, packet: &Packet) -> Result<(), String> {
        let differs = |what: &str, wanted: &str, came: &str| {
            Err(format!(
                "packet {}, told '{}': {} is {}, where {} is told",
                packet.number, words.text, what, came, wanted
            ))
        };
        if packet.direction != direction {
            return differs("the direction", direction, &packet.direction);
        }
        let length = (10 + words.data.len()).to_string();
        if packet.length != length {
            return differs("the number of bytes", &length, &packet.length);
        }

        // tshark takes the protocol number of an 82h from its own place or from the one before.
        let early = packet.fields.iter().any(|field| field.name == "bProtocolNum" && field.place == "8");
        let wanted = words.fields(early)?;
        self.misplaced += usize::from(early && words.header[0] == 0x82);
        for (number, came) in packet.fields.iter().enumerate() {
            match wanted.get(number) {
                Some(field) if field == came => {}
                Some(field) => return differs(&format!("usbccid.{}", came.name), &field.shown(), &came.shown()),
                None => return differs(&format!("usbccid.{}", came.name), "no such field", &came.shown()),
            }
        }
        if let Some(field) = wanted.get(packet.fields.len()) {
            return differs(&format!("usbccid.{}", field.name), &field.shown(), "no such field");
        }
        self.packets += 1;
        self.fields += wanted.len();

        let shown = words.shown_data();
        match &packet.data {
            None if shown.is_empty() => {}
            Some(data) if !shown.is_empty() && matches(shown, data) => {
                self.data += shown.iter().filter(|byte| byte.is_some()).count();
            }
            data => {
                let digit = |byte: &Option<u8>| byte.map_or("??".to_string(), |byte| format!("{:02x}", byte));
                let wanted: String = shown.iter().map(digit).collect();
                let wanted = if shown.is_empty() { "none" } else { &wanted };
                return differs("data.data", wanted, data.as_deref().unwrap_or("none"));
            }
        }
        Ok(())
    }
}

/// Whether bytes in hex are those that are told; some are not told.
fn matches(told: &[Option<u8>], digits: &str) -> bool {
    let same = |(k, byte): (usize, &Option<u8>)| match byte {
        Some(byte) => digits.get(2 * k..2 * k + 2) == Some(&format!("{:02x}", byte)),
        None => true,
    };
    digits.len() == 2 * told.len() && told.iter().enumerate().all(same)
}

// ---- what tshark printed

/// A field of usbccid: its name, its place in the message, its bytes in hex and its text.
#[derive(Debug, PartialEq, Eq)]
struct Field {
    name: String,
    place: String,
    size: String,
    value: String,
    text: String,
}

impl Field {
    fn shown(&self) -> String {
        format!("'{}' ({} at {}, {} bytes, {})", self.text, self.value, self.place, self.size, self.name)
    }
}

#[derive(Default)]
struct Packet {
    number: String,
    direction: String,
    /// How many bytes it carried.
    length: String,
    fields: Vec<Field>,
    data: Option<String>,
}

/// The packets of tshark's output, which has an element a line.
fn packets(text: &str) -> Result<Vec<Packet>, String> {
    let mut packets: Vec<Packet> = Vec::new();
    let mut protocol = String::new();
    let mut start = 0;
    for line in text.lines().map(str::trim) {
        let bad = || format!("tshark printed what is not known: '{}'", line);
        let known = |name: &str| attribute(line, name).ok_or_else(bad);
        if line == "<packet>" {
            packets.push(Packet::default());
        } else if line.starts_with("<proto ") {
            protocol = known("name")?.to_string();
            match &protocol[..] {
                "geninfo" | "frame" | "usb" | "fake-field-wrapper" => {}
                "usbccid" => start = known("pos")?.parse::<usize>().map_err(|_| bad())?,
                _ => return Err(bad()),
            }
        } else if line.starts_with("<field ") {
            let packet = packets.last_mut().ok_or_else(bad)?;
            match (&protocol[..], known("name")?) {
                ("geninfo", "num") => packet.number = known("show")?.to_string(),
                ("usb", "usb.endpoint_address.direction") => {
                    packet.direction = if known("show")? == "0" { "OUT" } else { "IN" }.to_string()
                }
                ("usb", "usb.data_len") => packet.length = known("show")?.to_string(),
                ("geninfo" | "frame" | "usb", _) => {}
                ("usbccid", name) => {
                    let place = known("pos")?.parse::<usize>().ok().and_then(|place| place.checked_sub(start));
                    packet.fields.push(Field {
                        name: name.strip_prefix("usbccid.").ok_or_else(bad)?.to_string(),
                        place: place.ok_or_else(bad)?.to_string(),
                        size: known("size")?.to_string(),
                        value: known("value")?.to_string(),
                        text: known("showname")?.to_string(),
                    });
                }
                (_, "data.data") => packet.data = Some(known("value")?.to_string()),
                (_, "data" | "data.len") => {}
                _ => return Err(bad()),
            }
        }
    }
    match packets.iter().find(|packet| packet.fields.is_empty()) {
        Some(packet) => Err(format!("tshark's packet {} has nothing of usbccid", packet.number)),
        None if text.trim_end().ends_with("</pdml>") => Ok(packets),
        None => Err("tshark's output has no end".to_string()),
    }
}

/// An attribute of an element, as it stands.
fn attribute<'a>(line: &'a str, name: &str) -> Option<&'a str> {
    let from = line.split_once(&format!(" {}=\"", name))?.1;
    from.split_once('"').map(|(value, _)| value)
}

// ---- what is told

type Part<'a> = (&'a str, &'a str);

/// The parts of each exchange that is told: a message, whoever answered it, and its answer.
fn exchanges(told: &str) -> Result<Vec<Vec<Part<'_>>>, String> {
    let mut blocks: Vec<Vec<Part>> = Vec::new();
    for line in told.lines() {
        if line.is_empty() {
            blocks.push(Vec::new());
        } else if line.starts_with("trace line that is none") {
            return Err(format!("told '{}'", line));
        } else if let (Some(name), Some(block)) = (line.strip_prefix("        "), blocks.last_mut()) {
            let (name, text) = name.get(..8).zip(name.get(8..)).ok_or_else(|| format!("told '{}'", line))?;
            block.push((name.trim_end(), text));
        }
    }
    // A card that goes in or out and what was not taken are none.
    let is_none = |part: &Part| part.0 == "line" || (part.0 == "answer" && part.1.starts_with("none: "));
    blocks.retain(|parts| !parts.is_empty() && !parts.iter().any(is_none));
    Ok(blocks)
}

/// A message or an answer as it is told.
struct Words<'a> {
    /// The line with its header.
    text: &'a str,
    /// Its type's name.
    name: &'a str,
    header: [u8; 10],
    data: Vec<Option<u8>>,
    /// The parameter set.
    set: Option<&'a str>,
    /// Of an answer, the outcome and the card's state.
    status: Option<(&'a str, &'a str)>,
}

/// A message and its answer of the parts of an exchange.
fn words_of<'a>(parts: &[Part<'a>]) -> Result<(Words<'a>, Words<'a>), String> {
    let at = parts.iter().position(|part| part.0 == "answer").ok_or("there is no answer")?;
    let (sent, came) = parts.split_at(at);
    let part = |parts: &[Part<'a>], name: &str| parts.iter().find(|part| part.0 == name).map(|part| part.1);
    let mut message = message(part(sent, "sent").ok_or("there is no message")?)?;
    message.set = part(sent, "set");
    let status = part(came, "status").ok_or("there is no status")?;
    let mut answer = answer(came[0].1, status, part(came, "data"), part(came, "word"))?;
    answer.set = part(came, "set");
    Ok((message, answer))
}

/// Words that are read from the left.
struct Reading<'a>(&'a str);

impl<'a> Reading<'a> {
    /// Whether these come next; they are read then.
    fn has(&mut self, words: &str) -> bool {
        let rest = self.0.strip_prefix(words);
        self.0 = rest.unwrap_or(self.0);
        rest.is_some()
    }

    fn need(&mut self, words: &str) -> Result<(), String> {
        if self.has(words) {
            Ok(())
        } else {
            Err(format!("'{}' is expected at '{}'", words, self.0))
        }
    }

    /// What stands before these words, which are read too.
    fn until(&mut self, words: &str) -> Result<&'a str, String> {
        let (before, rest) = self.0.split_once(words).ok_or_else(|| format!("no '{}' in '{}'", words, self.0))?;
        self.0 = rest;
        Ok(before)
    }

    /// A byte in two digits.
    fn byte(&mut self) -> Result<u8, String> {
        let (digits, rest) = self.0.get(..2).zip(self.0.get(2..)).ok_or_else(|| no_number(self.0))?;
        self.0 = rest;
        hex(digits).map(|byte| byte as u8)
    }

    fn end(&self) -> Result<(), String> {
        if self.0.is_empty() {
            Ok(())
        } else {
            Err(format!("'{}' is too much", self.0))
        }
    }
}

fn no_number(text: &str) -> String {
    format!("'{}' is no number", text)
}

/// A number in upper-case hex digits.
fn hex(digits: &str) -> Result<u32, String> {
    let number = u32::from_str_radix(digits, 16).ok();
    let is_told = |digit: u8| digit.is_ascii_digit() || (b'A'..=b'F').contains(&digit);
    number.filter(|_| digits.bytes().all(is_told)).ok_or_else(|| no_number(digits))
}

fn decimal(digits: &str) -> Result<usize, String> {
    digits.parse::<usize>().map_err(|_| no_number(digits))
}

/// A row of bytes; of a long one the first 16 and the last 4 are told, and how many there are.
fn row(text: &str) -> Result<Vec<Option<u8>>, String> {
    let bytes = |text: &str| -> Result<Vec<Option<u8>>, String> {
        text.split(' ').filter(|digits| !digits.is_empty()).map(|digits| Ok(Some(Reading(digits).byte()?))).collect()
    };
    let (first, rest) = match text.split_once(" .. ") {
        None => return bytes(text),
        Some(cut) => cut,
    };
    let (last, count) = rest.split_once(" (").ok_or_else(|| format!("'{}' is no row", text))?;
    let count = decimal(count.strip_suffix(" bytes)").ok_or_else(|| no_number(count))?)?;
    let (mut all, last) = (bytes(first)?, bytes(last)?);
    all.resize(count.saturating_sub(last.len()), None);
    all.extend(last);
    Ok(all)
}

/// Data bytes and how many they are.
fn counted(text: &str) -> Result<Vec<Option<u8>>, String> {
    let mut reading = Reading(text);
    let count = decimal(reading.until(" data bytes")?)?;
    let bytes = row(reading.0)?;
    if bytes.len() == count {
        Ok(bytes)
    } else {
        Err(format!("{} bytes are in '{}'", bytes.len(), text))
    }
}

/// What a header is told with first: the type with its name, bSlot and bSeq, and dwLength and the number of data bytes
/// where they differ.
fn start<'a>(reading: &mut Reading<'a>) -> Result<(Words<'a>, Option<(u32, usize)>), String> {
    let text = reading.0;
    let mut header = [0; 10];
    header[0] = reading.byte()?;
    reading.need(" ")?;
    let name = reading.until(", bSlot ")?;
    header[5] = reading.byte()?;
    reading.need(", bSeq ")?;
    header[6] = reading.byte()?;
    let mut lengths = None;
    if reading.has(", dwLength ") {
        // Of a message in hex, of an answer decimal.
        let said = reading.until(" where ")?;
        let said = match said.strip_suffix('h') {
            Some(digits) => hex(digits)?,
            None => said.parse::<u32>().map_err(|_| no_number(said))?,
        };
        lengths = Some((said, decimal(reading.until(" bytes came")?)?));
    }
    Ok((Words { text, name, header, data: Vec::new(), set: None, status: None }, lengths))
}

impl Words<'_> {
    /// Takes the data, and dwLength, which is their number where nothing else is told.
    fn take_data(&mut self, data: Vec<Option<u8>>, lengths: Option<(u32, usize)>) -> Result<(), String> {
        let (said, count) = lengths.unwrap_or((data.len() as u32, data.len()));
        if count != data.len() {
            return Err(format!("{} bytes came, and {} are told", count, data.len()));
        }
        self.header[1..5].copy_from_slice(&said.to_le_bytes());
        self.data = data;
        Ok(())
    }
}

/// A message of its words.
fn message(text: &str) -> Result<Words<'_>, String> {
    let mut reading = Reading(text);
    let (mut words, lengths) = start(&mut reading)?;
    let first = if words.header[0] == 0x61 { 8 } else { 7 };
    if reading.has(&format!(", bytes {} to 9", first)) {
        for place in first..10 {
            reading.need(" ")?;
            words.header[place] = reading.byte()?;
        }
    }
    if words.header[0] == 0x61 {
        reading.need(", protocol number ")?;
        words.header[7] = reading.byte()?;
    }
    let data = match words.header[0] {
        0x6f => {
            reading.need(", ")?;
            command(reading.0)?
        }
        _ if reading.has(", ") => counted(reading.0)?,
        _ => {
            reading.end()?;
            Vec::new()
        }
    };
    words.take_data(data, lengths)?;
    Ok(words)
}

/// The bytes of a command. Of a select, a code or a page the place is not told, of these and a write how many bytes follow.
fn command(text: &str) -> Result<Vec<Option<u8>>, String> {
    let mut reading = Reading(text);
    if reading.has("no command: ") {
        return row(reading.0);
    }
    if text.get(1..).map_or(false, |text| text.starts_with(" data bytes")) {
        return counted(text);
    }
    let instruction = reading.byte()?;
    reading.need(" ")?;
    let (mut place, mut count) = ([None; 2], None);
    let data = match instruction {
        0xa4 if reading.has("select type ") => row(reading.0)?,
        0x01 if reading.has("set the reader page, code ") => row(reading.0)?,
        0x20 if reading.has("present code ") => row(reading.0)?,
        0xd2 if reading.has("change the code to ") => row(reading.0)?,
        0xd0 | 0xd1 if reading.has("write ") || (instruction == 0xd1 && reading.has("protect ")) => {
            // Where there are no bytes to write, nothing stands before this.
            let bytes = if reading.has(" at ") { Vec::new() } else { row(reading.until(" at ")?)? };
            place = address(reading.0)?;
            bytes
        }
        0xb0..=0xb2 if reading.has("read ") => {
            let (read, surplus) = reading.0.split_once(", then ").unwrap_or((reading.0, "0 data bytes"));
            if read != "the counter" {
                let (number, from) = read.split_once(" from ").ok_or_else(|| format!("'{}' is no read", read))?;
                count = Some(decimal(number.split(' ').next().unwrap_or(""))? as u8);
                place = address(from)?;
            }
            counted(surplus)?
        }
        _ => return Err(format!("'{}' is no command that is known", text)),
    };
    Ok([&[Some(0xff), Some(instruction)][..], &place, &[count], &data].concat())
}

/// The low 16 bits of an address of four or five digits.
fn address(digits: &str) -> Result<[Option<u8>; 2], String> {
    Ok((hex(digits)? as u16).to_be_bytes().map(Some))
}

/// An answer of its words. A status word follows the data.
fn answer<'a>(text: &'a str, status: &'a str, data: Option<&str>, word: Option<&str>) -> Result<Words<'a>, String> {
    let mut reading = Reading(text);
    let (mut words, lengths) = start(&mut reading)?;
    match words.header[0] {
        // The reader's clock runs or is stopped low.
        0x81 if reading.has(", clock running") => {}
        0x81 => {
            reading.need(", clock stopped")?;
            words.header[9] = 1;
        }
        0x82 => {
            reading.need(", protocol number ")?;
            words.header[9] = reading.byte()?;
        }
        _ => {}
    }
    reading.end()?;

    let mut reading = Reading(status);
    words.header[7] = reading.byte()?;
    reading.need(" ")?;
    words.status = Some((reading.until(", ")?, reading.until(", error ")?));
    words.header[8] = reading.byte()?;

    // Behind the bytes stands what they mean, in quotes where they are a text.
    let data = data.unwrap_or("");
    let (digits, meaning) = data.split_once(", ").unwrap_or((data, ""));
    let mut bytes = row(digits)?;
    if let Some(text) = meaning.strip_prefix('"') {
        let digits: String = text.strip_suffix('"').unwrap_or("").bytes().map(|byte| format!("{:02x}", byte)).collect();
        if !matches(&bytes, &digits) {
            return Err(format!("'{}' is another text", data));
        }
    }
    if let Some(word) = word {
        bytes.extend(row(word.get(..5).unwrap_or(word))?);
    }
    words.take_data(bytes, lengths)?;
    Ok(words)
}

// ---- what tshark is to print

const UNSUPPORTED: &str = "an unsupported type";

/// The types by the words that tell them, and by tshark's.
const TYPES: [(u8, &str, &str); 12] = [
    (0x61, "set parameters", "PC_to_RDR_SetParameters"),
    (0x62, "power on", "PC_to_RDR_IccPowerOn"),
    (0x63, "power off", "PC_to_RDR_IccPowerOff"),
    (0x65, "slot status", "PC_to_RDR_GetSlotStatus"),
    (0x6b, "escape", "PC_to_RDR_Escape"),
    (0x6c, "get parameters", "PC_to_RDR_GetParameters"),
    (0x6d, "reset parameters", "PC_to_RDR_ResetParameters"),
    (0x6f, "transfer", "PC_to_RDR_XfrBlock"),
    (0x80, "data block", "RDR_to_PC_DataBlock"),
    (0x81, "slot status", "RDR_to_PC_SlotStatus"),
    (0x82, "parameters", "RDR_to_PC_Parameters"),
    (0x83, "escape", "RDR_to_PC_Escape"),
];

/// Types that CCID has and the reader has not.
const UNSUPPORTED_TYPES: [(u8, &str); 6] = [
    (0x69, "PC_to_RDR_Secure"),
    (0x6a, "PC_to_RDR_T0APDU"),
    (0x6e, "PC_to_RDR_IccClock"),
    (0x71, "PC_to_RDR_Mechanical"),
    (0x72, "PC_to_RDR_Abort"),
    (0x73, "PC_to_RDR_SetDataRateAndClockFrequency"),
];

/// A card's state by the words that tell it, and by number and words of tshark.
const STATES: [(&str, u8, &str); 3] = [
    ("card active", 0, "An ICC is present and active"),
    ("card inactive", 1, "An ICC is present and inactive"),
    ("no card, or another slot", 2, "No ICC is present"),
];

/// Outcomes likewise.
const OUTCOMES: [(&str, u8, &str); 2] = [("success", 0, "Processed without error "), ("failed", 1, "Failed")];

impl Words<'_> {
    /// The data that tshark is to print: those of some types, and no more than dwLength says; of a 61h all or, where
    /// dwLength is 0, none.
    fn shown_data(&self) -> &[Option<u8>] {
        let said = self.length() as usize;
        let count = match self.header[0] {
            _ if self.name == UNSUPPORTED => 0,
            0x61 if said > 0 => self.data.len(),
            0x6b | 0x6f | 0x80 | 0x83 => said.min(self.data.len()),
            _ => 0,
        };
        &self.data[..count]
    }

    /// dwLength.
    fn length(&self) -> u32 {
        let header = &self.header;
        u32::from_le_bytes([header[1], header[2], header[3], header[4]])
    }

    /// The fields that tshark is to print. The protocol number of an 82h may be read too early.
    fn fields(&self, early: bool) -> Result<Vec<Field>, String> {
        let kind = self.header[0];
        let name = self.type_name().ok_or_else(|| format!("told '{}': {:02X} is no such type", self.text, kind))?;
        let mut fields = vec![self.field("bMessageType", 0, 1, format!("Message Type: {} (0x{:02x})", name, kind))];
        if self.name == UNSUPPORTED || kind == 0x6d {
            return Ok(fields);
        }
        let header = &self.header;
        fields.push(self.field("dwLength", 1, 4, format!("Packet Length: {}", self.length())));
        fields.push(self.field("bSlot", 5, 1, format!("Slot: {}", header[5])));
        fields.push(self.field("bSeq", 6, 1, format!("Sequence: {}", header[6])));
        fields.extend(self.status_fields()?);
        match kind {
            0x61 => {
                fields.push(self.protocol(7));
                fields.push(self.reserved(8));
            }
            0x62 => {
                let text = format!("Voltage Level: {} (0x{:02x})", voltage(header[7]), header[7]);
                fields.push(self.field("bPowerSelect", 7, 1, text));
                fields.push(self.reserved(8));
            }
            0x6b => {
                let text = format!("RFU: {:02x}{:02x}{:02x}", header[7], header[8], header[9]);
                fields.push(self.field("abRFU", 7, 3, text));
            }
            0x6f => {
                let text = format!("Block Wait Time Integer: 0x{:02x}", header[7]);
                fields.push(self.field("bBWI", 7, 1, text));
                let level = u16::from_le_bytes([header[8], header[9]]);
                fields.push(self.field("wLevelParameter", 8, 2, format!("Level Parameter: 0x{:02x}", level)));
            }
            0x80 => fields.push(self.field("bChainParameter", 9, 1, format!("Chain Parameter: {}", header[9]))),
            0x81 => {
                let text = format!("Clock Status: {} (0x{:02x})", self.clock(), header[9]);
                fields.push(self.field("bClockStatus", 9, 1, text));
            }
            0x82 => fields.push(self.protocol(if early { 8 } else { 9 })),
            0x83 => fields.push(self.field("bRFU", 9, 1, format!("RFU: 0x{:02x}", header[9]))),
            _ => fields.push(self.reserved(7)),
        }
        Ok(fields)
    }

    /// tshark's name of the type that is told.
    fn type_name(&self) -> Option<&'static str> {
        let kind = self.header[0];
        if self.name == UNSUPPORTED {
            // Of the types above it would show more fields.
            let is_another = !TYPES.iter().any(|&(number, ..)| number == kind);
            let named = UNSUPPORTED_TYPES.iter().find(|(number, _)| *number == kind);
            return Some(named.map_or("Unknown", |(_, name)| name)).filter(|_| is_another);
        }
        // An answer is told with a status.
        let is_own = |number: u8| number == kind && (number >= 0x80) == self.status.is_some();
        TYPES.iter().find(|&&(number, told, _)| is_own(number) && told == self.name).map(|&(_, _, name)| name)
    }

    /// A field with the bytes of the header at its place.
    fn field(&self, name: &str, place: usize, size: usize, text: String) -> Field {
        let value = self.header[place..place + size].iter().map(|byte| format!("{:02x}", byte)).collect();
        Field { name: name.to_string(), place: place.to_string(), size: size.to_string(), value, text }
    }

    /// The rest of a header from this place on, which has no meaning.
    fn reserved(&self, place: usize) -> Field {
        let number = self.header[place..].iter().rev().fold(0, |number, &byte| number << 8 | u32::from(byte));
        self.field("hf_ccid_Reserved", place, 10 - place, format!("Reserved for Future Use: 0x{:08x}", number))
    }

    /// bStatus with its two parts, and bError.
    fn status_fields(&self) -> Result<Vec<Field>, String> {
        let (outcome, state) = match self.status {
            Some(status) => status,
            None => return Ok(Vec::new()),
        };
        let known = |table: &[(&str, u8, &'static str)], words: &str| {
            let found = table.iter().find(|(told, ..)| *told == words).map(|&(_, number, text)| (number, text));
            found.ok_or_else(|| format!("told '{}': '{}' has no word of tshark", self.text, words))
        };
        let (state, state_text) = known(&STATES, state)?;
        let (outcome, outcome_text) = known(&OUTCOMES, outcome)?;
        let part = |name: &str, number: u8, text: String| Field {
            value: format!("{:x}", number),
            ..self.field(name, 7, 1, format!("{} ({})", text, number))
        };
        let whole = format!("Status: {}, Status: {}, Status: {}", self.header[7], state_text, outcome_text);
        Ok(vec![
            self.field("bStatus", 7, 1, whole),
            part("bStatus.bmIccStatus", state, format!(".... ..{:02b} = Status: {}", state, state_text)),
            part("bStatus.bmCommandStatus", outcome, format!("{:02b}.. .... = Status: {}", outcome, outcome_text)),
            self.field("bError", 8, 1, format!("Error: {}", self.header[8])),
        ])
    }

    /// The clock by the words that tell it.
    fn clock(&self) -> &'static str {
        if self.text.ends_with(", clock running") {
            "Clock running"
        } else {
            "Clock stopped in state L"
        }
    }

    /// The protocol number, by the words of the set where they are told of it.
    fn protocol(&self, place: usize) -> Field {
        let set = self.set.filter(|_| place != 8).map(|set| set.strip_prefix("no set: ").unwrap_or(set));
        let text = match (set.unwrap_or("").get(..3), self.header[place]) {
            (Some("T=0"), _) | (None, 0x00) => "Structure for protocol T=0",
            (Some("T=1"), _) | (None, 0x01) => "Structure for protocol T=1",
            (_, 0x80) => "Structure for 2-wire protocol",
            (_, 0x81) => "Structure for 3-wire protocol",
            (_, 0x82) => "Structure for I2C protocol",
            _ => "Unknown",
        };
        self.field("bProtocolNum", place, 1, format!("Data Structure Type: {} (0x{:02x})", text, self.header[place]))
    }
}

/// bPowerSelect in tshark's words.
fn voltage(select: u8) -> &'static str {
    match select {
        0 => "Automatic Voltage Selection",
        1 => "5.0 volts",
        2 => "3.0 volts",
        3 => "1.8 volts",
        _ => "Unknown",
    }
}

#[cfg(test)]
mod tests;
