//! The script language: lines to records and expectations. docs/SCRIPTS.md has it in full.

use crate::cards::{self, Kind};
use crate::hex;
use crate::talk::Over;
use crate::trial;

/// A fault in a script line.
pub struct Fault {
    pub line: usize,
    pub text: String,
}

/// What a line asks for.
pub enum Step {
    Say(String),
    Record { line: usize, source: String, record: Record },
    Expect { line: usize, source: String, expected: Expected },
}

pub enum Record {
    Insert {
        told: String,
        body: Vec<u8>,
    },
    Remove,
    Message(Vec<u8>),
    /// Bytes as they stand; the input ends after them.
    Loose(Vec<u8>),
}

pub enum Expected {
    /// The answer's data: all of them, or how they end.
    Data(Vec<u8>),
    DataEnd(Vec<u8>),
    Nothing,
    Error(u8),
    /// The card state that the answer tells: 0 active, 1 inactive, 2 none.
    State(u8),
    /// The parameter set that the answer tells: its protocol number and its bytes.
    Set(u8, Vec<u8>),
    Answer(Vec<u8>),
    Refused(u8),
    Done,
    Bad,
    Line(String),
    /// The addresses of all image bytes that changed, rising.
    Changed(Vec<usize>),
    /// The reader page of the slot record, and whether the host chose it.
    Page(u8, bool),
}

impl Record {
    /// The insertion of a card, whatever its image.
    pub fn insertion(over: Over, kind: u8, image: &[u8]) -> Record {
        let told = format!("{}, image of {} bytes", told_kind(over, kind), image.len());
        Record::Insert { told, body: [&[kind], image].concat() }
    }

    /// The message, where it is one.
    pub fn message(&self) -> &[u8] {
        match self {
            Record::Message(message) => message,
            _ => &[],
        }
    }

    /// The record as it stands on the session program's input.
    pub fn bytes(&self) -> Vec<u8> {
        let (mark, body): ([u8; 2], &[u8]) = match self {
            Record::Insert { body, .. } => ([0x43, 0x49], body),
            Record::Remove => ([0x43, 0x4f], &[]),
            Record::Message(body) => ([0x4f, 0x4d], body),
            Record::Loose(bytes) => return bytes.clone(),
        };
        let mut bytes = mark.to_vec();
        bytes.extend_from_slice(&(body.len() as u16).to_le_bytes());
        bytes.extend_from_slice(body);
        bytes
    }
}

/// The card of a kind's number, where the program that is talked to knows it.
fn known(over: Over, kind: u8) -> Option<&'static Kind> {
    cards::numbered(kind).filter(|card| over == Over::Trial || card.fits_a_record())
}

/// A kind in words.
fn told_kind(over: Over, kind: u8) -> String {
    match (known(over, kind), cards::numbered(kind)) {
        (Some(card), _) => format!("{}, kind {}", card.told, kind),
        (None, Some(_)) => format!("kind {}, which the session program takes as unknown", kind),
        (None, None) => format!("kind {}, which is unknown", kind),
    }
}

/// The steps of a script for the program that it is played over, or its first fault.
pub fn script(over: Over, text: &str) -> Result<Vec<Step>, Fault> {
    let mut parser = Parser { over, seq: 0, slot: 0, own_type: None, ended: false, recorded: false };
    let mut steps = Vec::new();
    for (number, whole) in text.lines().enumerate() {
        let line = number + 1;
        let fault = |text: String| Fault { line, text };
        if let Some(said) = whole.trim().strip_prefix("say") {
            if said.is_empty() || said.starts_with(char::is_whitespace) {
                steps.push(Step::Say(said.trim().to_string()));
                continue;
            }
        }
        let source = whole.split('#').next().unwrap_or("").trim().to_string();
        let words: Vec<&str> = source.split_whitespace().collect();
        if words.is_empty() {
            continue;
        }
        if words[0] == "expect" {
            let expected = expected(over, &words[1..], &source).map_err(fault)?;
            if !parser.recorded {
                return Err(fault("there is no answer to expect anything of yet".to_string()));
            }
            steps.push(Step::Expect { line, source, expected });
        } else if let Some(record) = parser.record(&words).map_err(fault)? {
            steps.push(Step::Record { line, source, record });
        }
    }
    Ok(steps)
}

struct Parser {
    over: Over,
    /// bSeq and bSlot of the next message.
    seq: u8,
    slot: u8,
    /// The type of the card in the last insert line.
    own_type: Option<u8>,
    ended: bool,
    recorded: bool,
}

impl Parser {
    /// The record of a line, or none where the line only sets something for the next one.
    fn record(&mut self, words: &[&str]) -> Result<Option<Record>, String> {
        if self.ended {
            return Err("the input has ended with 'bytes'".to_string());
        }
        let rest = &words[1..];
        let record = match words[0] {
            "seq" => {
                self.seq = one_byte(rest, "seq")?;
                return Ok(None);
            }
            "slot" => {
                self.slot = one_byte(rest, "slot")?;
                return Ok(None);
            }
            "insert" => self.insert(rest)?,
            "remove" => {
                no_more(rest)?;
                Record::Remove
            }
            "power" => match rest {
                ["on"] => self.message(0x62, &[])?,
                ["off"] => self.message(0x63, &[])?,
                _ => return Err("it is 'power on' or 'power off'".to_string()),
            },
            "status" => {
                no_more(rest)?;
                self.message(0x65, &[])?
            }
            "parameters" => self.parameters(rest)?,
            "select" => {
                let own = match (rest.is_empty(), self.own_type) {
                    (false, _) => one_byte(rest, "select")?,
                    (true, Some(own)) => own,
                    (true, None) => return Err("'select' alone needs an insert of a card before it".to_string()),
                };
                self.message(0x6f, &[0xff, 0xa4, 0x00, 0x00, 0x01, own])?
            }
            "page" => {
                let code = one_byte(rest, "page")?;
                self.message(0x6f, &[0xff, 0x01, 0x00, 0x00, 0x01, code])?
            }
            "send" => {
                let data = all_bytes(rest)?;
                self.message(0x6f, &data)?
            }
            "raw" => self.whole_message(all_bytes(rest)?)?,
            "bytes" => {
                if self.over == Over::Trial {
                    return Err("'bytes' is for the session program: the trial program is given calls".to_string());
                }
                self.ended = true;
                Record::Loose(all_bytes(rest)?)
            }
            word => return Err(format!("'{}' is no word of the language (docs/SCRIPTS.md has it)", word)),
        };
        self.recorded = true;
        Ok(Some(record))
    }

    /// The message of a `parameters` line. A set may have any number of bytes, as what `send` takes.
    fn parameters(&mut self, words: &[&str]) -> Result<Record, String> {
        match words {
            [] => self.message(0x6c, &[]),
            ["reset", rest @ ..] => {
                no_more(rest)?;
                self.message(0x6d, &[])
            }
            ["t0", set @ ..] => self.message_of(0x61, 0x00, &all_bytes(set)?),
            ["t1", set @ ..] => self.message_of(0x61, 0x01, &all_bytes(set)?),
            _ => Err("it is 'parameters' alone, or with 'reset', 't0 HEX' or 't1 HEX'".to_string()),
        }
    }

    /// A message whose bytes 7 to 9 are 00h.
    fn message(&mut self, kind: u8, data: &[u8]) -> Result<Record, String> {
        self.message_of(kind, 0x00, data)
    }

    /// A message with this byte 7. Its dwLength is the number of its data.
    fn message_of(&mut self, kind: u8, byte_7: u8, data: &[u8]) -> Result<Record, String> {
        let mut message = vec![kind];
        message.extend_from_slice(&(data.len() as u32).to_le_bytes());
        message.extend_from_slice(&[self.slot, self.seq, byte_7, 0, 0]);
        message.extend_from_slice(data);
        self.slot = 0;
        self.seq = self.seq.wrapping_add(1);
        self.whole_message(message)
    }

    fn whole_message(&self, message: Vec<u8>) -> Result<Record, String> {
        match self.over {
            Over::Session => at_most("a record holds", 65_535, &message)?,
            Over::Trial => at_most("the trial program takes a message of", trial::MOST_MESSAGE, &message)?,
        }
        Ok(Record::Message(message))
    }

    fn insert(&mut self, words: &[&str]) -> Result<Record, String> {
        let (kind, rest) = match words {
            ["nothing"] if self.over == Over::Trial => {
                return Err(
                    "'insert nothing' is a record for the session program: an insertion call has a kind".to_string()
                )
            }
            ["nothing"] => return Ok(Record::Insert { told: "an empty body".to_string(), body: Vec::new() }),
            [] => return Err("insert what? A card as sle4442, or 'nothing'".to_string()),
            ["kind", number, rest @ ..] => {
                let number = number.parse::<u8>().map_err(|_| format!("'{}' is no kind from 0 to 255", number))?;
                (number, rest)
            }
            [name, rest @ ..] => {
                let card = cards::named(name).ok_or_else(|| format!("'{}' is no card", name))?;
                if known(self.over, card.number).is_none() {
                    return Err(format!(
                        "'{}' is played with './play --trial': the session program takes kind {} as unknown, \
                         since a record's body holds at most 32,769 bytes, a kind byte and an image of 32,768",
                        name, card.number
                    ));
                }
                (card.number, rest)
            }
        };
        let image = match known(self.over, kind) {
            Some(card) => {
                self.own_type = Some(card.own_type);
                card_image(card, rest)?
            }
            None => unknown_image(&told_kind(self.over, kind), rest)?,
        };
        match self.over {
            Over::Session => at_most("a record holds", 65_535, &[&[kind], &image[..]].concat())?,
            Over::Trial => at_most("the trial program takes an image of", trial::MOST_IMAGE, &image)?,
        }
        Ok(Record::insertion(self.over, kind, &image))
    }
}

/// The image that the options of an insert line build.
fn card_image(card: &Kind, mut words: &[&str]) -> Result<Vec<u8>, String> {
    let mut memory: Vec<(usize, Vec<u8>)> = Vec::new();
    let (mut fill, mut counter, mut code, mut protected) = (0xff, None, None, Vec::new());
    let (mut short, mut long, mut whole) = (0, 0, None);
    while let Some((&option, rest)) = words.split_first() {
        words = rest;
        match option {
            "fill" => fill = next_byte(&mut words, option)?,
            "memory" => memory.push((0, next_bytes(&mut words, option)?)),
            "at" => {
                let place = address(next_word(&mut words, option)?)?;
                memory.push((place, next_bytes(&mut words, option)?));
            }
            "counter" => counter = Some(next_byte(&mut words, option)?),
            "code" => code = Some(next_bytes(&mut words, option)?),
            "protected" => protected.extend(addresses(next_word(&mut words, option)?)?),
            "short" => short = number(next_word(&mut words, option)?)?,
            "long" => long = number(next_word(&mut words, option)?)?,
            "image" => whole = Some(next_bytes(&mut words, option)?),
            _ => return Err(format!("'{}' is no option of insert", option)),
        }
    }
    if card.code.is_none() && (counter.is_some() || code.is_some()) {
        return Err(format!("{} has no code and no counter", card.told));
    }
    if let Some(image) = whole {
        return Ok(image);
    }

    // Every protection bit is 1, and an SLE4432's last four bytes are 00h.
    let mut image = vec![fill; card.memory];
    image.resize(card.memory + card.protectable / 8, 0xff);
    image.resize(card.image, 0x00);
    for (place, bytes) in memory {
        if place + bytes.len() > card.memory {
            return Err(format!("memory bytes at {:04X} pass the {} bytes of {}", place, card.memory, card.told));
        }
        image[place..place + bytes.len()].copy_from_slice(&bytes);
    }
    if let Some(own) = &card.code {
        image[own.counter] = counter.unwrap_or(own.full);
        let code = code.unwrap_or_else(|| vec![0xff; own.bytes]);
        if code.len() != own.bytes {
            return Err(format!("the code of {} has {} bytes, and these are {}", card.told, own.bytes, code.len()));
        }
        image[own.place..own.place + own.bytes].copy_from_slice(&code);
    }
    for place in protected {
        if place >= card.protectable {
            return Err(format!("byte {:04X} of {} has no protection bit", place, card.told));
        }
        image[card.memory + place / 8] &= !(1 << (place % 8));
    }
    if short > image.len() {
        return Err(format!("the image has only {} bytes", image.len()));
    }
    image.truncate(image.len() - short);
    image.resize(image.len() + long, 0x00);
    Ok(image)
}

fn unknown_image(told: &str, words: &[&str]) -> Result<Vec<u8>, String> {
    match words {
        [] => Ok(Vec::new()),
        ["image", rest @ ..] => all_bytes(rest),
        _ => Err(format!("{}, has the option 'image' alone", told)),
    }
}

fn expected(over: Over, words: &[&str], source: &str) -> Result<Expected, String> {
    match words {
        [] => Err("expect what?".to_string()),
        ["nothing"] => Ok(Expected::Nothing),
        ["done"] => Ok(Expected::Done),
        ["bad"] if over == Over::Trial => {
            Err("'expect bad' is for the session program: what a script calls for is never bad".to_string())
        }
        ["bad"] => Ok(Expected::Bad),
        ["changed", ..] if over == Over::Session => {
            Err("'expect changed' is for './play --trial': the session program tells nothing of the image".to_string())
        }
        ["changed", "nothing"] => Ok(Expected::Changed(Vec::new())),
        ["changed", list] => {
            let mut places = addresses(list)?;
            places.sort_unstable();
            places.dedup();
            Ok(Expected::Changed(places))
        }
        ["changed", ..] => Err("it is 'expect changed' with a list of addresses, or with 'nothing'".to_string()),
        ["page", ..] if over == Over::Session => {
            Err("'expect page' is for './play --trial': the session program tells nothing of the slot record"
                .to_string())
        }
        ["page", page, "chosen"] => Ok(Expected::Page(page_size(page)?, true)),
        ["page", page, "not", "chosen"] => Ok(Expected::Page(page_size(page)?, false)),
        ["page", ..] => {
            Err("it is 'expect page' with a number of bytes, and then 'chosen' or 'not chosen'".to_string())
        }
        ["active"] => Ok(Expected::State(0)),
        ["inactive"] => Ok(Expected::State(1)),
        ["no", "card"] => Ok(Expected::State(2)),
        ["error", code @ ..] => Ok(Expected::Error(one_byte(code, "expect error")?)),
        ["refused", number] => match number.parse::<u8>() {
            Ok(number @ 1..=5) => Ok(Expected::Refused(number)),
            _ => Err(format!("'{}' is no number from 1 to 5", number)),
        },
        ["t0", set @ ..] => Ok(Expected::Set(0x00, some_bytes(set)?)),
        ["t1", set @ ..] => Ok(Expected::Set(0x01, some_bytes(set)?)),
        ["answer", rest @ ..] => Ok(Expected::Answer(all_bytes(rest)?)),
        ["line", ..] => {
            let text = source.strip_prefix("expect").unwrap_or("").trim_start().strip_prefix("line").unwrap_or("");
            Ok(Expected::Line(text.trim().to_string()))
        }
        ["..", rest @ ..] => Ok(Expected::DataEnd(some_bytes(rest)?)),
        rest => Ok(Expected::Data(some_bytes(rest)?)),
    }
}

// ---- bytes and numbers

/// More bytes than this are a slip of the pen: no record and no image has so many.
const MOST: usize = 200_000;

/// Two hex digits a byte, any number of bytes a word, `XX*N` for N times XX.
fn hex_word(word: &str) -> Option<Vec<u8>> {
    let (digits, times) = match word.split_once('*') {
        Some((digits, times)) if digits.len() == 2 => (digits, times.parse::<usize>().ok()?),
        Some(_) => return None,
        None => (word, 1),
    };
    if times > MOST {
        return None;
    }
    hex::bytes(digits).filter(|bytes| !bytes.is_empty()).map(|bytes| bytes.repeat(times))
}

fn all_bytes(words: &[&str]) -> Result<Vec<u8>, String> {
    let mut bytes = Vec::new();
    for word in words {
        bytes.extend(hex_word(word).ok_or_else(|| format!("'{}' is not bytes in hex", word))?);
    }
    Ok(bytes)
}

fn some_bytes(words: &[&str]) -> Result<Vec<u8>, String> {
    if words.is_empty() {
        return Err("expect which bytes?".to_string());
    }
    all_bytes(words)
}

fn one_byte(words: &[&str], what: &str) -> Result<u8, String> {
    match all_bytes(words)?[..] {
        [byte] => Ok(byte),
        _ => Err(format!("'{}' takes one byte in hex", what)),
    }
}

fn next_word<'a>(words: &mut &[&'a str], option: &str) -> Result<&'a str, String> {
    let (&word, rest) = words.split_first().ok_or_else(|| format!("something is missing after '{}'", option))?;
    *words = rest;
    Ok(word)
}

fn next_byte(words: &mut &[&str], option: &str) -> Result<u8, String> {
    one_byte(&[next_word(words, option)?], option)
}

/// All the words that are bytes.
fn next_bytes(words: &mut &[&str], option: &str) -> Result<Vec<u8>, String> {
    let count = words.iter().take_while(|word| hex_word(word).is_some()).count();
    if count == 0 {
        return Err(format!("bytes in hex are missing after '{}'", option));
    }
    let bytes = all_bytes(&words[..count]);
    *words = &words[count..];
    bytes
}

/// One to five hex digits.
fn address(word: &str) -> Result<usize, String> {
    let place = usize::from_str_radix(word, 16).ok().filter(|_| word.len() <= 5 && !word.starts_with('+'));
    place.ok_or_else(|| format!("'{}' is no address in hex", word))
}

/// `0000..0003,0007`: both ends of a range belong to it.
fn addresses(word: &str) -> Result<Vec<usize>, String> {
    let mut all = Vec::new();
    for part in word.split(',') {
        match part.split_once("..") {
            Some((from, to)) => {
                let range = address(from)?..=address(to)?;
                if range.is_empty() {
                    return Err(format!("'{}' ends before it begins", part));
                }
                all.extend(range);
            }
            None => all.push(address(part)?),
        }
    }
    Ok(all)
}

fn number(word: &str) -> Result<usize, String> {
    match word.parse::<usize>() {
        Ok(number) if number <= MOST => Ok(number),
        _ => Err(format!("'{}' is no number of bytes", word)),
    }
}

/// A reader page in bytes.
fn page_size(word: &str) -> Result<u8, String> {
    let page = [8_u8, 16, 32, 64, 128].into_iter().find(|page| page.to_string() == word);
    page.ok_or_else(|| format!("'{}' is no reader page: 8, 16, 32, 64 or 128", word))
}

fn no_more(words: &[&str]) -> Result<(), String> {
    match words {
        [] => Ok(()),
        [word, ..] => Err(format!("'{}' is too much", word)),
    }
}

fn at_most(what: &str, most: usize, bytes: &[u8]) -> Result<(), String> {
    if bytes.len() > most {
        return Err(format!("{} at most {} bytes, and these are {}", what, most, bytes.len()));
    }
    Ok(())
}

#[cfg(test)]
mod tests;
