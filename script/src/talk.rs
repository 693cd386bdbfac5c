//! A conversation with the session program or the trial program, and what their lines say.

use crate::hex;
use crate::parse::{Expected, Record};
use crate::tell;
use crate::trial::Kept;
use std::env;
use std::io::{BufRead, BufReader, Write};
use std::path::{Path, PathBuf};
use std::process::{Child, ChildStdin, Command, Stdio};
use std::sync::mpsc::{self, Receiver};
use std::thread;
use std::time::Duration;

/// A line that takes longer does not come.
const PATIENCE: Duration = Duration::from_secs(60);

/// Who is talked to.
#[derive(Clone, Copy, PartialEq, Eq, Debug)]
pub enum Over {
    /// The session program, which keeps slot and image itself.
    Session,
    /// The trial program, C over the static library, which is handed record and image with every call.
    Trial,
}

impl Over {
    pub fn name(self) -> &'static str {
        match self {
            Over::Session => "the session program",
            Over::Trial => "the trial program",
        }
    }

    /// How a line of it is told. That of the trial program is put into the session program's form.
    pub fn gave(self) -> &'static str {
        match self {
            Over::Session => "the session program printed",
            Over::Trial => "the trial program gave",
        }
    }

    /// What it is given, a line each.
    pub fn given(self) -> &'static str {
        match self {
            Over::Session => "record",
            Over::Trial => "call",
        }
    }

    /// The variable that names its command line, and the command line where it is not set.
    fn command(self) -> (&'static str, &'static str) {
        match self {
            Over::Session => ("SESSION_PROGRAM", "tools/run-x86 crates/session/out/session"),
            Over::Trial => ("TRIAL_PROGRAM", "tools/run-x86 target/bin/trial"),
        }
    }
}

/// A program at the other end of two pipes.
struct Program {
    child: Child,
    input: Option<ChildStdin>,
    lines: Receiver<String>,
    name: String,
}

impl Program {
    /// Its command line is run in the repository's folder.
    fn start(over: Over, root: &Path) -> Result<Program, String> {
        let (variable, usual) = over.command();
        let name = env::var(variable).unwrap_or_else(|_| usual.to_string());
        let words: Vec<&str> = name.split_whitespace().collect();
        let (program, arguments) = words.split_first().ok_or_else(|| format!("{} names no program", variable))?;
        let path = if program.contains('/') { root.join(program) } else { PathBuf::from(program) };
        let mut child = Command::new(path)
            .args(arguments)
            .current_dir(root)
            .stdin(Stdio::piped())
            .stdout(Stdio::piped())
            .spawn()
            .map_err(|error| format!("cannot run {}: {}", name, error))?;
        let (input, output) = (child.stdin.take(), child.stdout.take());
        let (sender, lines) = mpsc::channel();
        thread::spawn(move || {
            if let Some(output) = output {
                for line in BufReader::new(output).lines().map_while(Result::ok) {
                    if sender.send(line).is_err() {
                        break;
                    }
                }
            }
        });
        Ok(Program { child, input, lines, name })
    }

    /// Writes bytes, the last ones or not, and waits for a line.
    fn line(&mut self, bytes: &[u8], last: bool) -> Option<String> {
        if let Some(input) = &mut self.input {
            // A program that has stopped is known by the line that does not come.
            let _ = input.write_all(bytes).and_then(|()| input.flush());
        }
        if last {
            self.input = None;
        }
        let line = self.lines.recv_timeout(PATIENCE).ok();
        if line.is_none() {
            let _ = self.child.kill();
            let _ = self.child.wait();
        }
        line
    }

    /// Ends the input; a line that still comes.
    fn end(mut self) -> Option<String> {
        self.input = None;
        let line = self.lines.recv_timeout(PATIENCE).ok();
        if line.is_some() {
            let _ = self.child.kill();
        }
        let _ = self.child.wait();
        line
    }
}

/// A conversation.
pub struct Talk {
    over: Over,
    program: Program,
    /// Record and image, where the program does not keep them.
    kept: Option<Kept>,
}

impl Talk {
    pub fn start(over: Over, root: &Path) -> Result<Talk, String> {
        let mut talk = Talk { over, program: Program::start(over, root)?, kept: None };
        if over == Over::Trial {
            talk.kept = Some(Kept::default());
            // A removal makes the empty record of any 32 bytes.
            let heard = talk.answer(&Record::Remove)?;
            if heard.line != "out 0" {
                return Err(format!("{} gave '{}' for a removal, and no empty record", talk.program.name, heard.line));
            }
        }
        Ok(talk)
    }

    /// Hands a record over and waits for its line.
    pub fn answer(&mut self, record: &Record) -> Result<Heard, String> {
        let bytes = match &self.kept {
            None => record.bytes(),
            Some(kept) => kept.case(record),
        };
        let line = self.program.line(&bytes, matches!(record, Record::Loose(_)));
        let line =
            line.ok_or_else(|| format!("{} printed no line for this {}", self.program.name, self.over.given()))?;
        match &mut self.kept {
            None => Ok(Heard { message: record.message().to_vec(), line, ..Heard::default() }),
            Some(kept) => kept
                .take(record, &line)
                .ok_or_else(|| format!("{} printed '{}', no line of a case", self.program.name, line)),
        }
    }

    /// Ends the input; a line that still comes.
    pub fn end(self) -> Option<String> {
        self.program.end()
    }
}

/// What came of a record: a line in the session program's form and the message that it answers. The trial program tells
/// more.
#[derive(Default)]
pub struct Heard {
    pub message: Vec<u8>,
    pub line: String,
    /// The kind of the card that is in, 0 where there is none or nobody tells.
    pub kind: u8,
    /// The reader page and the byte that says whether the host chose it, where anybody tells.
    pub page: Option<(u8, u8)>,
    /// What the slot record says, where that is new.
    pub slot: Option<String>,
    /// The image bytes that changed: each run of them, and the address of its first.
    pub changed: Vec<(usize, Vec<u8>)>,
}

impl Heard {
    /// The line, and behind it ` ADDRESS=BYTES` for each run of image bytes that changed.
    pub fn whole_line(&self) -> String {
        let runs = self.changed.iter().map(|(first, bytes)| format!(" {:04x}={}", first, hex::digits(bytes)));
        format!("{}{}", self.line, runs.collect::<String>())
    }

    /// The addresses of the image bytes that changed.
    fn changed_places(&self) -> Vec<usize> {
        self.changed.iter().flat_map(|(first, bytes)| *first..first + bytes.len()).collect()
    }

    /// The number that the line has.
    fn number(&self) -> Option<u8> {
        self.line.split(' ').nth(1)?.parse().ok()
    }

    fn answer(&self) -> Option<Vec<u8>> {
        hex::bytes(self.line.strip_prefix("msg 0 ")?).filter(|bytes| bytes.len() >= 10)
    }

    /// The data of an answer that did not fail.
    fn data(&self) -> Option<Vec<u8>> {
        self.answer().filter(|answer| answer[7] & 0x40 == 0).map(|answer| answer[10..].to_vec())
    }

    /// Whether the answer is one of parameters that did not fail, with this protocol number and set.
    fn has_set(&self, protocol: u8, set: &[u8]) -> bool {
        let told = self.answer().map(|answer| (answer[0], answer[9]));
        told == Some((0x82, protocol)) && self.data().as_deref() == Some(set)
    }

    pub fn meets(&self, expected: &Expected) -> bool {
        match expected {
            Expected::Data(bytes) => self.data().as_ref() == Some(bytes),
            Expected::DataEnd(bytes) => self.data().map_or(false, |data| data.ends_with(bytes)),
            Expected::Nothing => self.data() == Some(Vec::new()),
            Expected::Error(code) => self.answer().map_or(false, |answer| answer[7] & 0x40 != 0 && answer[8] == *code),
            Expected::State(state) => self.answer().map_or(false, |answer| answer[7] & 0x3f == *state),
            Expected::Set(protocol, set) => self.has_set(*protocol, set),
            Expected::Answer(bytes) => self.answer().as_ref() == Some(bytes),
            Expected::Refused(number) => {
                self.line == format!("msg {}", number) || self.line == format!("in {}", number)
            }
            Expected::Done => self.line == "in 0" || self.line == "out 0",
            Expected::Bad => self.line == "bad",
            Expected::Line(line) => self.whole_line() == *line,
            Expected::Changed(places) => self.changed_places() == *places,
            Expected::Page(page, chosen) => self.page == Some((*page, u8::from(*chosen))),
        }
    }

    /// What came, where an expectation is not met: the line, and the page where one was expected.
    pub fn came(&self, expected: &Expected) -> String {
        match (expected, self.page) {
            (Expected::Page(..), Some((page, chosen))) => {
                format!("'{}' and {}", self.whole_line(), tell::page(page, chosen))
            }
            _ => format!("'{}'", self.whole_line()),
        }
    }

    /// The record and its line in words, each part under its name.
    pub fn told(&self, record: &Record) -> Vec<(&'static str, String)> {
        let sent = match record {
            Record::Insert { told, .. } => format!("insert: {}", told),
            Record::Remove => "remove".to_string(),
            Record::Message(message) => tell::message(self.kind, message),
            Record::Loose(bytes) => format!("these bytes, and the end of the input: {}", tell::row(bytes)),
        };
        let mut parts = vec![("sent", sent)];
        if let Record::Message(message) = record {
            parts.extend(tell::sent_set(message).map(|set| ("set", set)));
        }
        match (self.answer(), self.number()) {
            (Some(answer), _) => parts.extend(tell::answer(self.kind, &self.message, &answer)),
            (None, Some(0)) if self.line == "in 0" => parts.push(("line", "in 0, the card is in".to_string())),
            (None, Some(0)) if self.line == "out 0" => parts.push(("line", "out 0, the slot is empty".to_string())),
            (None, Some(number)) => {
                parts.push(("line", format!("{}, turned down: {}", self.line, tell::refusal(number))))
            }
            (None, None) => parts.push(("line", format!("{}, and the session ends", self.line))),
        }
        parts.extend(self.slot.iter().map(|slot| ("slot", slot.clone())));
        parts.extend(tell::changed(self.kind, &self.changed_places()).map(|places| ("changed", places)));
        parts
    }
}

#[cfg(test)]
mod tests;
