//! What a device prints while it carries a host's messages to the reader: its trace lines in the words of a played
//! script, and its other lines as they are.
//!
//! ```text
//! trace in KIND RECORD IMAGE                              a card went in
//! trace out RECORD                                        the card went out
//! trace message MESSAGE ANSWER RECORD [ADDRESS=VALUE ..]  a message, and the image bytes that it changed
//! trace refused MESSAGE NUMBER                            a message that the reader turned down
//! trace escape MESSAGE ANSWER                             a message 6Bh, which the device answers itself
//! trace frame BYTES                                       bytes that are no frame, or one with a wrong check byte
//! ```
//!
//! RECORD is the slot record afterwards. Bytes are in hex, `-` where there are none; KIND and NUMBER are decimal.

use crate::capture::Capture;
use crate::hex;
use crate::parse::Record;
use crate::talk::{Heard, Over};
use crate::tell;
use crate::trial::{self, Given, Kept};
use std::io::{self, BufRead, Write};

/// What the host gets for a frame or a message that is not taken.
const NAK: &str = "none: the host got 03 15 16 (NAK)";

/// What a trace line tells, part by part, and the message and the answer where it has both.
pub struct Traced {
    pub parts: Vec<(&'static str, String)>,
    pub exchange: Option<(Vec<u8>, Vec<u8>)>,
}

/// Record and image, from one trace line to the next.
pub struct Follow {
    kept: Kept,
}

impl Default for Follow {
    fn default() -> Follow {
        Follow { kept: Kept::empty() }
    }
}

impl Follow {
    /// What the fields of a trace line tell, or nothing where they are none of one.
    pub fn line(&mut self, fields: &str) -> Option<Traced> {
        let mut words = fields.split(' ');
        let verb = words.next()?;
        if verb == "message" {
            let (message, answer) = (whole(words.next()?)?, whole(words.next()?)?);
            let record = words.next()?;
            let changes = trial::changes(words)?;
            return self.message(message, answer, record, changes);
        }
        let rest: Vec<&str> = words.collect();
        match (verb, &rest[..]) {
            ("in", [kind, record, image]) => {
                let insertion = Record::insertion(Over::Trial, kind.parse().ok()?, &bytes(image)?);
                self.told(&insertion, Vec::new(), record, Vec::new()).map(alone)
            }
            ("out", [record]) => self.told(&Record::Remove, Vec::new(), record, Vec::new()).map(alone),
            ("refused", [message, number]) => {
                let (message, number) = (bytes(message)?, number.parse::<u8>().ok()?);
                let heard = Heard { line: format!("msg {}", number), ..Heard::default() };
                let mut parts = heard.told(&Record::Message(message));
                parts.push(("answer", NAK.to_string()));
                Some(alone(parts))
            }
            ("escape", [message, answer]) => {
                let (message, answer) = (whole(message)?, whole(answer)?);
                let parts = tell::escape(&message, &answer);
                Some(Traced { parts, exchange: Some((message, answer)) })
            }
            ("frame", [frame]) => {
                let told = told_frame(&bytes(frame)?);
                Some(alone(vec![("sent", told), ("answer", NAK.to_string())]))
            }
            _ => None,
        }
    }

    fn message(
        &mut self,
        message: Vec<u8>,
        answer: Vec<u8>,
        record: &str,
        changes: Vec<(usize, u8)>,
    ) -> Option<Traced> {
        let parts = self.told(&Record::Message(message.clone()), answer.clone(), record, changes)?;
        Some(Traced { parts, exchange: Some((message, answer)) })
    }

    /// The parts of a call that was carried out. The slot record afterwards is in hex.
    fn told(
        &mut self,
        call: &Record,
        answer: Vec<u8>,
        record: &str,
        changes: Vec<(usize, u8)>,
    ) -> Option<Vec<(&'static str, String)>> {
        let record = bytes(record)?.try_into().ok()?;
        let heard = self.kept.take_given(call, Given { number: 0, answer, record, changes })?;
        Some(heard.told(call))
    }
}

/// What is told of no exchange.
fn alone(parts: Vec<(&'static str, String)>) -> Traced {
    Traced { parts, exchange: None }
}

/// The bytes of a field.
fn bytes(field: &str) -> Option<Vec<u8>> {
    match field {
        "-" => Some(Vec::new()),
        "" => None,
        digits => hex::bytes(digits),
    }
}

/// The bytes of a message or an answer, which has its header.
fn whole(field: &str) -> Option<Vec<u8>> {
    bytes(field).filter(|bytes| bytes.len() >= 10)
}

/// Bytes that were not taken: 03 06, a message and a check byte, the exclusive or of all before it, are a frame.
fn told_frame(frame: &[u8]) -> String {
    if let [0x03, 0x06, message @ .., check] = frame {
        let right = message.iter().fold(0x03 ^ 0x06, |sum, byte| sum ^ byte);
        let is_whole = message.len() >= 10 && message[1..5] == ((message.len() - 10) as u32).to_le_bytes();
        if is_whole && *check != right {
            return format!(
                "a frame with check byte {:02X}, where {:02X} is right: {}",
                check,
                right,
                tell::row(frame)
            );
        }
    }
    format!("no frame, {} bytes: {}", frame.len(), tell::row(frame)).trim_end().to_string()
}

/// Tells the lines of an input until its end and writes the exchanges into a capture, where one is wanted. Whether each
/// trace line was one.
pub fn run<C: Write>(
    mut input: impl BufRead,
    mut output: impl Write,
    mut capture: Option<Capture<C>>,
) -> io::Result<bool> {
    let mut follow = Follow::default();
    let mut all_read = true;
    let mut line = Vec::new();
    while input.read_until(b'\n', &mut line)? > 0 {
        match std::str::from_utf8(&line).ok().and_then(|text| text.strip_prefix("trace ")) {
            None => output.write_all(&line)?,
            Some(fields) => {
                let fields = fields.strip_suffix('\n').unwrap_or(fields);
                match follow.line(fields) {
                    Some(traced) => {
                        // Who reads what is told finds the capture written.
                        if let (Some(capture), Some((message, answer))) = (&mut capture, &traced.exchange) {
                            capture.exchange(message, answer)?;
                        }
                        writeln!(output)?;
                        for (name, text) in &traced.parts {
                            writeln!(output, "{}", tell::line(name, text))?;
                        }
                    }
                    None => {
                        all_read = false;
                        writeln!(output, "\ntrace line that is none: trace {}", fields)?;
                    }
                }
            }
        }
        output.flush()?;
        line.clear();
    }
    Ok(all_read)
}

#[cfg(test)]
mod tests;
