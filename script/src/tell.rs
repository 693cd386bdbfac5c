//! Messages and answers taken apart, in words. What a command means, and how wide an address is, depends
//! on the kind of the card that is in; 0 is told as one without a top address bit.

use crate::cards;
use crate::parameters;

/// Bytes as a reader of the paper writes them; long rows are cut.
pub fn row(bytes: &[u8]) -> String {
    const SHOWN: usize = 24;
    let digits = |part: &[u8]| part.iter().map(|byte| format!("{:02X}", byte)).collect::<Vec<_>>().join(" ");
    if bytes.len() <= SHOWN {
        digits(bytes)
    } else {
        format!("{} .. {} ({} bytes)", digits(&bytes[..16]), digits(&bytes[bytes.len() - 4..]), bytes.len())
    }
}

/// A part of what is told, on a line of its own.
pub fn line(name: &str, text: &str) -> String {
    format!("        {:<8}{}", name, text)
}

/// What a message is: its type, its header where there is something to say, and its command.
pub fn message(kind: u8, message: &[u8]) -> String {
    if message.len() < 10 {
        return format!("a message of only {} bytes: {}", message.len(), row(message));
    }
    let name = match message[0] {
        0x61 => "set parameters",
        0x62 => "power on",
        0x63 => "power off",
        0x65 => "slot status",
        0x6c => "get parameters",
        0x6d => "reset parameters",
        0x6f => "transfer",
        _ => "an unsupported type",
    };
    let mut text = told_start(name, message);
    match message[0] {
        0x61 => text.push_str(&format!(", protocol number {:02X}, {}", message[7], counted(&message[10..]))),
        0x6f => text.push_str(&format!(", {}", command(kind, &message[10..]))),
        // The others have no data; some that came all the same are told.
        _ if message.len() > 10 => text.push_str(&format!(", {}", counted(&message[10..]))),
        _ => {}
    }
    text
}

/// The header of a message, with what is odd in it.
fn told_start(name: &str, message: &[u8]) -> String {
    let mut text = format!("{:02X} {}, bSlot {:02X}, bSeq {:02X}", message[0], name, message[5], message[6]);
    let said = u32::from_le_bytes([message[1], message[2], message[3], message[4]]) as usize;
    if said != message.len() - 10 {
        text.push_str(&format!(", dwLength {:08X}h where {} bytes came", said, message.len() - 10));
    }
    // Byte 7 of a 61h is told with the set.
    let from = if message[0] == 0x61 { 8 } else { 7 };
    if message[from..10].iter().any(|&byte| byte != 0) {
        text.push_str(&format!(", bytes {} to 9 {}", from, row(&message[from..10])));
    }
    text
}

/// An escape message and its answer, 6Bh and 83h, which are not the reader's; of 10 bytes or more both.
pub fn escape(message: &[u8], answer: &[u8]) -> Vec<(&'static str, String)> {
    let sent = format!("{}, {}", told_start("escape", message), counted(&message[10..]));
    let mut parts = vec![("sent", sent), ("answer", told_answer("escape", answer)), ("status", told_status(answer))];
    let data = &answer[10..];
    if !data.is_empty() {
        let text = match std::str::from_utf8(data) {
            Ok(text) if text.bytes().all(|byte| (0x20..0x7f).contains(&byte)) => format!(", \"{}\"", text),
            _ => String::new(),
        };
        parts.push(("data", format!("{}{}", row(data), text)));
    }
    parts.push(("device", "answered this itself: the reader was not asked".to_string()));
    parts
}

/// The parameter set that a 61h brings, field by field.
pub fn sent_set(message: &[u8]) -> Option<String> {
    if message.len() < 10 || message[0] != 0x61 {
        return None;
    }
    Some(parameters::told(message[7], &message[10..]))
}

/// Data bytes, and how many they are.
fn counted(data: &[u8]) -> String {
    format!("{} data bytes {}", data.len(), row(data)).trim_end().to_string()
}

/// Whether addresses of this kind have 17 bits.
fn has_top_bit(kind: u8) -> bool {
    cards::numbered(kind).map_or(false, |card| card.has_top_bit())
}

/// An address of a card of this kind.
fn address(kind: u8, place: usize) -> String {
    if has_top_bit(kind) {
        format!("{:05X}", place)
    } else {
        format!("{:04X}", place)
    }
}

fn command(kind: u8, apdu: &[u8]) -> String {
    if apdu.len() < 5 {
        return counted(apdu);
    }
    let (place, p3, data) = (usize::from(u16::from_be_bytes([apdu[2], apdu[3]])), apdu[4], &apdu[5..]);
    if apdu[0] != 0xff {
        return format!("no command: {}", row(apdu));
    }
    let top = 0x10000 + place;
    // Bytes behind a read, which has no data.
    let surplus = if data.is_empty() { String::new() } else { format!(", then {}", counted(data)) };
    match apdu[1] {
        0xa4 => format!("A4 select type {}", row(data)),
        0x01 => format!("01 set the reader page, code {}", row(data)),
        0xb0 => format!("B0 read {} from {}{}", bytes_of(p3.into()), address(kind, place), surplus),
        0xb1 if has_top_bit(kind) => {
            format!("B1 read {} from {}{}", bytes_of(p3.into()), address(kind, top), surplus)
        }
        0xb1 => format!("B1 read the counter{}", surplus),
        0xb2 => format!("B2 read {} of protection bits from {:04X}{}", bytes_of(p3.into()), place, surplus),
        0xd0 => format!("D0 write {} at {}", row(data), address(kind, place)),
        0xd1 if has_top_bit(kind) => format!("D1 write {} at {}", row(data), address(kind, top)),
        0xd1 => format!("D1 protect {} at {:04X}", row(data), place),
        0x20 => format!("20 present code {}", row(data)),
        0xd2 => format!("D2 change the code to {}", row(data)),
        _ => format!("no command: {}", row(apdu)),
    }
}

fn bytes_of(count: usize) -> String {
    if count == 1 {
        "1 byte".to_string()
    } else {
        format!("{} bytes", count)
    }
}

/// A number from the table of what is turned down.
pub fn refusal(number: u8) -> &'static str {
    match number {
        1 => "the answer buffer is under 271 bytes",
        2 => "the message is under 10 bytes",
        3 => "the kind is unknown, or the image is not one of it",
        4 => "the slot record is not sound",
        5 => "a card is in already",
        _ => "a number that the paper does not have",
    }
}

/// An answer in its parts, a name and a text each. The message says what the data mean.
pub fn answer(kind: u8, message: &[u8], answer: &[u8]) -> Vec<(&'static str, String)> {
    if answer.len() < 10 {
        return vec![("answer", format!("only {} bytes: {}", answer.len(), row(answer)))];
    }
    let mut parts = vec![("answer", told_header(answer)), ("status", told_status(answer))];
    let (apdu, data) = (message.get(10..).unwrap_or_default(), &answer[10..]);
    let failed = has_failed(answer);
    if answer[0] == 0x82 && !failed {
        if !data.is_empty() {
            parts.push(("data", row(data)));
        }
        parts.push(("set", parameters::told(answer[9], data)));
    } else if message.first() == Some(&0x6f) && !failed && data.len() >= 2 {
        let (data, word) = data.split_at(data.len() - 2);
        if !data.is_empty() {
            parts.push(("data", told_data(kind, apdu, data)));
        }
        parts.push(("word", format!("{} {}", row(word), told_word(apdu, word))));
    } else if !data.is_empty() {
        let what = if message.first() == Some(&0x62) { ", the answer to reset" } else { "" };
        parts.push(("data", format!("{}{}", row(data), what)));
    }
    parts
}

/// The header of an answer but for status and error.
fn told_header(answer: &[u8]) -> String {
    let name = match answer[0] {
        0x80 => "data block",
        0x81 => "slot status",
        0x82 => "parameters",
        _ => "no answer type of the paper",
    };
    told_answer(name, answer)
}

/// The same of an answer whose type has this name.
fn told_answer(name: &str, answer: &[u8]) -> String {
    let said = u32::from_le_bytes([answer[1], answer[2], answer[3], answer[4]]) as usize;
    let mut text = format!("{:02X} {}, bSlot {:02X}, bSeq {:02X}", answer[0], name, answer[5], answer[6]);
    if said != answer.len() - 10 {
        text.push_str(&format!(", dwLength {} where {} bytes came", said, answer.len() - 10));
    }
    match answer[0] {
        0x81 => text.push_str(if answer[9] == 0 { ", clock running" } else { ", clock stopped" }),
        0x82 => text.push_str(&format!(", protocol number {:02X}", answer[9])),
        _ => {}
    }
    text
}

fn has_failed(answer: &[u8]) -> bool {
    answer[7] & 0x40 != 0
}

/// bStatus and bError.
fn told_status(answer: &[u8]) -> String {
    let (status, error) = (answer[7], answer[8]);
    let state = match status & 0x3f {
        0 => "card active",
        1 => "card inactive",
        2 => "no card, or another slot",
        _ => "no state of the paper",
    };
    let outcome = if has_failed(answer) { "failed" } else { "success" };
    format!("{:02X} {}, {}, error {:02X} {}", status, outcome, state, error, error_name(answer))
}

/// A bError in words; some mean other things in an answer of parameters.
fn error_name(answer: &[u8]) -> &'static str {
    match (has_failed(answer), answer[8]) {
        (false, 0x00) => "none",
        (false, _) => "which a success does not have",
        (true, 0x00) => "the message type is not supported",
        (true, 0x01) => "dwLength is wrong",
        (true, 0x05) => "there is no such slot",
        (true, error) if answer[0] == 0x82 => parameters::error(error).unwrap_or("no error of the paper"),
        (true, 0x07) => "bPowerSelect is not supported",
        (true, 0x08) => "wLevelParameter is not 0",
        (true, 0xfe) => "the card is mute: there is none, or it is not active",
        _ => "no error of the paper",
    }
}

fn told_data(kind: u8, apdu: &[u8], data: &[u8]) -> String {
    match apdu {
        [_, 0xb1, ..] if !has_top_bit(kind) => {
            format!("{}, counter {:02X}: {}", row(data), data[0], tries(data[0]))
        }
        [_, 0xb2, high, low, ..] => {
            let from = usize::from(u16::from_be_bytes([*high, *low]));
            let places = (0..8 * data.len()).filter(|k| data[k / 8] & (1 << (k % 8)) == 0).map(|k| from + k);
            let named = told_runs(kind, places);
            let which = if named.is_empty() { "none".to_string() } else { named.join(" ") };
            format!("{}, protected: {}", row(data), which)
        }
        _ => row(data),
    }
}

/// Rising addresses, each run of them by its first and last.
fn told_runs(kind: u8, places: impl Iterator<Item = usize>) -> Vec<String> {
    let mut runs: Vec<(usize, usize)> = Vec::new();
    for place in places {
        match runs.last_mut() {
            Some((_, last)) if *last + 1 == place => *last = place,
            _ => runs.push((place, place)),
        }
    }
    let told = |&(first, last): &(usize, usize)| {
        if first == last {
            address(kind, first)
        } else {
            format!("{}..{}", address(kind, first), address(kind, last))
        }
    };
    runs.iter().map(told).collect()
}

/// The addresses of the image bytes that changed, where any did; many runs are cut.
pub fn changed(kind: u8, places: &[usize]) -> Option<String> {
    const SHOWN: usize = 8;
    if places.is_empty() {
        return None;
    }
    let mut runs = told_runs(kind, places.iter().copied());
    if runs.len() > SHOWN {
        runs.truncate(SHOWN);
        runs.push("..".to_string());
    }
    Some(format!("{} ({})", runs.join(" "), bytes_of(places.len())))
}

/// A byte of a slot record that is 0 or 1, by the names of both.
fn flag(byte: u8, names: [&str; 2]) -> String {
    match names.get(usize::from(byte)) {
        Some(name) => name.to_string(),
        None => format!("{:02X} for {} or {}", byte, names[0], names[1]),
    }
}

/// A reader page and the byte that says whether the host chose it.
pub fn page(page: u8, chosen: u8) -> String {
    format!("page {}, {}", page, flag(chosen, ["not chosen", "chosen"]))
}

/// What a raw slot record says, but for the parameter set.
pub fn slot(record: &[u8; 32]) -> String {
    let card = if record[0] == 0 { "no card".to_string() } else { format!("kind {}", record[0]) };
    let selected = if record[2] == 0 { "no type".to_string() } else { format!("type {:02X}", record[2]) };
    format!(
        "{}, {}, {}, {}, {}, tries left {}, protected {}",
        card,
        flag(record[1], ["inactive", "active"]),
        selected,
        page(record[3], record[16]),
        flag(record[4], ["closed", "open"]),
        record[13],
        u16::from_le_bytes([record[14], record[15]])
    )
}

fn tries(counter: u8) -> String {
    match counter.count_ones() {
        0 => "no tries left".to_string(),
        1 => "1 try left".to_string(),
        count => format!("{} tries left", count),
    }
}

fn told_word(apdu: &[u8], word: &[u8]) -> String {
    let text = match (word[0], word[1]) {
        (0x90, counter) if apdu.get(1) == Some(&0x20) => {
            let full = if apdu.get(4) == Some(&2) { 0xff } else { 0x07 };
            return if counter == full {
                format!("the right code: the card is open, counter {:02X}, {}", counter, tries(counter))
            } else {
                format!("the card is closed: counter {:02X}, {}", counter, tries(counter))
            };
        }
        (0x90, 0x00) => "done",
        (0x67, 0x00) => "wrong length",
        (0x6e, 0x00) => "wrong class: the first byte is not FF",
        (0x6d, 0x00) => "no such command here",
        (0x69, 0x85) => "no type is selected",
        (0x6b, 0x00) => "wrong place: P1P2, or the range that it begins",
        (0x6a, 0x80) => "wrong value: the type, or the page code",
        (0x69, 0x82) => "not allowed: the card is closed",
        (0x65, 0x81) => "a protected byte is not the one sent; all unprotected ones are stored",
        _ => "no status word of the paper",
    };
    text.to_string()
}

#[cfg(test)]
mod tests;
