//! Makes a session or a list of cases that two programs answer differently as short as it gets,
//! and tells it.

use crate::case::{raw, slot_of, Call, Case, CHOSEN, PROTOCOL, RECORD, REST, SET, TRIES};
use crate::random;
use crate::reader::{Chip, Slot};
use crate::record::{told_card, told_message, Record};
use crate::step::hex;
use std::time::{Duration, Instant};

/// After so long the shortest that was found is taken.
const LONGEST: Duration = Duration::from_secs(120);

/// A record or a case.
pub trait Part: Clone {
    fn bytes(&self) -> Vec<u8>;
    fn told(&self) -> String;
    /// The same part made smaller step by step, where the test still holds of it.
    fn smaller(&self, holds: &mut dyn FnMut(&Self) -> bool) -> Self;
}

/// The fewest and smallest parts of which the test still holds; it holds of the given ones.
pub fn shrink<P: Part>(mut parts: Vec<P>, holds: &mut dyn FnMut(&[P]) -> bool) -> Vec<P> {
    let began = Instant::now();
    let mut said = began;
    let mut tried = 0;
    let mut test = |candidate: &[P]| {
        if began.elapsed() > LONGEST {
            return false;
        }
        if said.elapsed() > Duration::from_secs(3) {
            said = Instant::now();
            eprintln!("  shrinking, {} runs, now {} parts", tried, candidate.len());
        }
        tried += 1;
        holds(candidate)
    };
    loop {
        let before = size(&parts);
        drop_parts(&mut parts, &mut test);
        for k in 0..parts.len() {
            let part = parts[k].smaller(&mut |candidate| {
                let mut whole = parts.clone();
                whole[k] = candidate.clone();
                test(&whole)
            });
            parts[k] = part;
        }
        if size(&parts) == before {
            return parts;
        }
    }
}

fn size<P: Part>(parts: &[P]) -> (usize, usize, u64) {
    let bytes = parts.iter().map(|part| part.bytes()).collect::<Vec<_>>().concat();
    (parts.len(), bytes.len(), bytes.iter().map(|&byte| u64::from(byte)).sum())
}

/// Leaves out as many parts as possible: halves first, then ever fewer.
fn drop_parts<P: Part>(parts: &mut Vec<P>, test: &mut dyn FnMut(&[P]) -> bool) {
    let mut count = (parts.len() + 1) / 2;
    while count > 0 {
        let mut at = parts.len();
        while at > 0 {
            let from = at.saturating_sub(count);
            let rest = [&parts[..from], &parts[at..]].concat();
            if !rest.is_empty() && test(&rest) {
                *parts = rest;
            }
            at = from;
        }
        count /= 2;
    }
}

/// Makes the bytes of a range 00h: all, else either half, and so on.
fn clear(bytes: &mut Vec<u8>, from: usize, to: usize, test: &mut dyn FnMut(&[u8]) -> bool) {
    if bytes[from..to].iter().all(|&byte| byte == 0) {
        return;
    }
    let mut cleared = bytes.clone();
    cleared[from..to].fill(0);
    if test(&cleared) {
        *bytes = cleared;
    } else if to - from > 1 {
        let middle = (from + to) / 2;
        clear(bytes, from, middle, test);
        clear(bytes, middle, to, test);
    }
}

/// Makes each byte of a range smaller while the test holds.
fn lower(bytes: &mut [u8], from: usize, to: usize, test: &mut dyn FnMut(&[u8]) -> bool) {
    for k in from..to {
        loop {
            let value = bytes[k];
            let smaller = [0, value / 2, value.saturating_sub(1)].iter().copied().find(|&less| {
                let mut lowered = bytes.to_vec();
                lowered[k] = less;
                less < value && test(&lowered)
            });
            match smaller {
                Some(less) => bytes[k] = less,
                None => break,
            }
        }
    }
}

/// A message with less data, and lower bytes. Where dwLength and P3 are right they stay right.
fn smaller_message(message: &[u8], test: &mut dyn FnMut(&[u8]) -> bool) -> Vec<u8> {
    let mut message = message.to_vec();
    loop {
        let length = message.len();
        let found = [length / 2, length.saturating_sub(16), length.saturating_sub(1)].iter().find_map(|&less| {
            let cut = cut_message(&message, less);
            (less < length && test(&cut)).then_some(cut)
        });
        match found {
            Some(cut) => message = cut,
            None => break,
        }
    }
    let end = message.len();
    clear(&mut message, end.min(5), end, test);
    lower(&mut message, end.min(5), end, test);
    message
}

fn cut_message(message: &[u8], length: usize) -> Vec<u8> {
    let mut cut = message[..length].to_vec();
    if message.len() >= 10 && length >= 10 {
        let came = (message.len() - 10) as u32;
        if message[1..5] == came.to_le_bytes() {
            cut[1..5].copy_from_slice(&((length - 10) as u32).to_le_bytes());
        }
        if length > 15 && usize::from(message[14]) == message.len() - 15 {
            cut[14] = (length - 15) as u8;
        }
    }
    cut
}

impl Part for Record {
    fn bytes(&self) -> Vec<u8> {
        Record::bytes(self)
    }

    fn told(&self) -> String {
        Record::told(self)
    }

    fn smaller(&self, holds: &mut dyn FnMut(&Record) -> bool) -> Record {
        match self {
            Record::Message(message) => {
                Record::Message(smaller_message(message, &mut |less| holds(&Record::Message(less.to_vec()))))
            }
            Record::Insert(body) => {
                let mut body = body.clone();
                let end = body.len();
                clear(&mut body, end.min(1), end, &mut |less| holds(&Record::Insert(less.to_vec())));
                Record::Insert(body)
            }
            Record::Ending(bytes) => {
                let mut bytes = bytes.clone();
                while !bytes.is_empty() {
                    let less = [bytes.len() / 2, bytes.len() - 1];
                    match less.iter().find(|&&less| holds(&Record::Ending(bytes[..less].to_vec()))) {
                        Some(&less) => bytes.truncate(less),
                        None => break,
                    }
                }
                Record::Ending(bytes)
            }
            Record::Remove => Record::Remove,
        }
    }
}

impl Part for random::Part {
    fn bytes(&self) -> Vec<u8> {
        random::Part::bytes(self)
    }

    fn told(&self) -> String {
        let case = match self {
            random::Part::Case(case) => case,
            random::Part::Ending(bytes) => return format!("{} bytes as they stand", bytes.len()),
        };
        let call = match case.call {
            Call::Message => {
                format!("message: {}\n         {}", told_message(&case.message, case.record[0]), hex(&case.message))
            }
            Call::Insertion => {
                let kind = case.message.first().copied().unwrap_or(0);
                format!("insertion of {}", told_card(kind, &case.image))
            }
            Call::Removal => "removal".to_string(),
        };
        let (tries, protected) = case.counts();
        let image = match case.call {
            Call::Message => format!("image: {} bytes, tries {}, protected {}", case.image.len(), tries, protected),
            _ => format!("image: {} bytes", case.image.len()),
        };
        format!(
            "{}\nbuffer: {} bytes of {:02x}\n{}\n{}",
            told_record(&case.record),
            case.buffer,
            case.fill,
            call,
            image
        )
    }

    fn smaller(&self, holds: &mut dyn FnMut(&random::Part) -> bool) -> random::Part {
        let mut case = match self {
            random::Part::Case(case) => case.clone(),
            ending => return ending.clone(),
        };
        let mut still = |case: &Case| holds(&random::Part::Case(case.clone()));
        for (buffer, fill) in [(0, 0), (270, 0), (271, 0), (case.buffer, 0)] {
            let less = Case { buffer, fill, ..case.clone() };
            if buffer <= case.buffer && still(&less) {
                case = less;
                break;
            }
        }
        if case.call == Call::Message {
            let with = case.clone();
            case.message =
                smaller_message(&with.message, &mut |less| still(&Case { message: less.to_vec(), ..with.clone() }));
            // The default set first: the other bytes are most often sound with it alone.
            let mut with = case.clone();
            with.record[PROTOCOL..TRIES].copy_from_slice(&raw(&Slot::empty())[PROTOCOL..TRIES]);
            if still(&with) {
                case = with;
            }
        }
        // The kind in the slot stays where the image is to be one of it.
        let first = usize::from(case.call == Call::Message);
        let with = case.clone();
        let mut record = with.record.to_vec();
        clear(&mut record, first, 32, &mut |less| {
            let mut record = with.record;
            record.copy_from_slice(less);
            still(&Case { record, ..with.clone() })
        });
        case.record.copy_from_slice(&record);
        // An image that is not looked at.
        let without = Case { image: Vec::new(), ..case.clone() };
        if still(&without) {
            return random::Part::Case(without);
        }
        // Counts that are the image's stay so.
        let slot = slot_of(&case.record);
        let right = case.call == Call::Message && (slot.tries, slot.protected) == case.counts();
        let with_image = |image: &[u8]| {
            let mut with = Case { image: image.to_vec(), ..case.clone() };
            if right {
                with.store_counts();
            }
            with
        };
        let (mut image, end) = (case.image.clone(), case.image.len());
        clear(&mut image, 0, end, &mut |less| still(&with_image(less)));
        random::Part::Case(with_image(&image))
    }
}

/// A raw record in words.
fn told_record(record: &[u8; RECORD]) -> String {
    let slot = slot_of(record);
    let kind = match Chip::of(record[0]) {
        Some(chip) => chip.name,
        None if record[0] == 0 => "no card",
        None => "no kind",
    };
    let rest = if record[REST..].iter().all(|&byte| byte == 0) { "00" } else { "not all 00" };
    format!(
        "record: kind {} ({}), active {}, type {:02x}, page {}, open {}, protocol {}, set {}, \
         tries {}, protected {}, chosen {}, rest {}",
        record[0],
        kind,
        record[1],
        record[2],
        record[3],
        record[4],
        record[PROTOCOL],
        hex(&record[SET..TRIES]),
        slot.tries,
        slot.protected,
        record[CHOSEN],
        rest
    )
}

/// A line with long runs of one byte in hex written as XX*N.
pub fn shortened(line: &str) -> String {
    line.split(' ').map(shortened_word).collect::<Vec<_>>().join(" ")
}

fn shortened_word(word: &str) -> String {
    let is_hex = word.len() % 2 == 0 && word.bytes().all(|byte| byte.is_ascii_hexdigit());
    if !is_hex {
        return word.to_string();
    }
    let bytes: Vec<&str> = (0..word.len() / 2).map(|k| &word[2 * k..2 * k + 2]).collect();
    let (mut text, mut at) = (String::new(), 0);
    while at < bytes.len() {
        let run = bytes[at..].iter().take_while(|&&byte| byte == bytes[at]).count();
        if run < 16 {
            text.push_str(bytes[at]);
            at += 1;
        } else {
            text.push_str(&format!("[{}*{}]", bytes[at], run));
            at += run;
        }
    }
    text
}

/// The bytes in rows of sixteen; rows that repeat the one before are a star.
pub fn dump(bytes: &[u8]) -> String {
    let mut text = String::new();
    let mut before: &[u8] = &[];
    let mut starred = false;
    for (row, chunk) in bytes.chunks(16).enumerate() {
        if chunk == before && (row + 1) * 16 < bytes.len() {
            if !starred {
                text.push_str("    *\n");
            }
            starred = true;
            continue;
        }
        starred = false;
        before = chunk;
        let digits: Vec<String> = chunk.iter().map(|byte| format!("{:02x}", byte)).collect();
        text.push_str(&format!("    {:05x}  {}\n", row * 16, digits.join(" ")));
    }
    text
}

#[cfg(test)]
mod tests {
    use super::*;

    /// Two messages of many that a test holds of: only they are left, as short and low as it allows.
    #[test]
    fn only_what_the_test_needs_is_left() {
        let status = Record::Message(vec![0x65, 0, 0, 0, 0, 0, 9, 7, 7, 7]);
        let long = Record::Message([&[0x6f, 50, 0, 0, 0, 0, 9, 0, 0, 0][..], &[0xaa; 50]].concat());
        let mut parts = vec![status.clone(), long, Record::Remove, status];
        parts.extend(vec![Record::Insert(vec![30; 20]); 40]);
        let transfer =
            |part: &Record| matches!(part, Record::Message(body) if body.starts_with(&[0x6f]) && body.len() > 12);
        let mut holds =
            |parts: &[Record]| parts.iter().any(|part| matches!(part, Record::Remove)) && parts.iter().any(transfer);
        let left = shrink(parts, &mut holds);
        let bytes: Vec<Vec<u8>> = left.iter().map(Record::bytes).collect();
        let message = vec![0x4f, 0x4d, 13, 0, 0x6f, 3, 0, 0, 0, 0, 0, 0, 0, 0, 0, 0, 0];
        assert_eq!(bytes, [message, vec![0x43, 0x4f, 0, 0]]);
    }

    fn case(call: Call, message: &[u8], image: usize) -> random::Part {
        let record = [0x55; RECORD];
        random::Part::Case(Case {
            call,
            record,
            buffer: 300,
            fill: 7,
            message: message.to_vec(),
            image: vec![9; image],
        })
    }

    /// The cases that are left, in words.
    fn left(parts: &[random::Part], test: fn(&Case) -> bool) -> String {
        let holds = |part: &random::Part| matches!(part, random::Part::Case(case) if test(case));
        let left = shrink(parts.to_vec(), &mut |parts: &[random::Part]| parts.iter().any(holds));
        left.iter().map(|part| part.told()).collect::<Vec<_>>().join("\n")
    }

    /// An insertion keeps its kind byte and the bytes that the test needs, a removal next to nothing.
    #[test]
    fn insertions_and_removals() {
        let message = [&[0x6f, 50, 0, 0, 0, 0, 9, 0, 0, 0][..], &[0xaa; 50]].concat();
        let parts =
            [case(Call::Message, &message, 9), case(Call::Insertion, &[11], 131072), case(Call::Removal, &[], 600)];
        let zeros = "active 0, type 00, page 0, open 0, protocol 0, set 00000000000000, tries 0, protected 0, \
                     chosen 0, rest 00";
        assert_eq!(
            left(&parts, |case| case.call == Call::Insertion
                && case.image.get(70000) == Some(&9)
                && case.record[0] != 0),
            format!(
                "record: kind 85 (no kind), {}\nbuffer: 0 bytes of 00\n\
                 insertion of kind 11 (I2C 1024 kbit), 131072 image bytes of 131072\nimage: 131072 bytes",
                zeros
            )
        );
        assert_eq!(
            left(&parts, |case| case.call == Call::Removal),
            format!("record: kind 0 (no card), {}\nbuffer: 0 bytes of 00\nremoval\nimage: 0 bytes", zeros)
        );
    }

    #[test]
    fn long_runs_are_shortened() {
        let run = "ab".repeat(16);
        assert_eq!(
            shortened(&format!("msg 0 01{}02 {}", run, "cd".repeat(15))),
            format!("msg 0 01[ab*16]02 {}", "cd".repeat(15))
        );
    }

    #[test]
    fn rows_that_repeat_are_a_star() {
        let bytes = [vec![1; 16], vec![0; 48], vec![2; 3]].concat();
        let row = |byte: &str, count: usize| vec![byte; count].join(" ");
        let rows = [
            format!("    00000  {}", row("01", 16)),
            format!("    00010  {}", row("00", 16)),
            "    *".to_string(),
            format!("    00040  {}", row("02", 3)),
        ];
        assert_eq!(dump(&bytes), rows.join("\n") + "\n");
    }
}
