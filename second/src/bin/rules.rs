//! Tests every rule of the paper's section "Session program" against a session program, over
//! pipes as any other program would use it.

use second::program::Program;
use second::record::whole;
use second::say;
use second::step::{INSERT, MESSAGE, REMOVE};
use std::io::{BufRead, BufReader, Write};
use std::process::{Child, ChildStdin, ExitCode};
use std::sync::mpsc::{self, Receiver};
use std::thread;
use std::time::Duration;

/// A line that takes longer does not come.
const PATIENCE: Duration = Duration::from_secs(20);

struct Tests {
    program: Program,
    passed: usize,
    failed: usize,
}

fn main() -> ExitCode {
    let program = match Program::from_variable("SESSION_PROGRAM", "tools/run-x86 crates/session/out/session") {
        Ok(program) => program,
        Err(text) => {
            eprintln!("session-rules: {}", text);
            return ExitCode::from(2);
        }
    };
    say!("session program: {}", program.shown());
    let mut tests = Tests { program, passed: 0, failed: 0 };
    tests.ends();
    tests.insertions();
    tests.large_chips();
    tests.removals_and_messages();
    tests.bad_records();
    tests.lengths();
    tests.conversations();
    say!("{} passed, {} failed", tests.passed, tests.failed);
    ExitCode::from(u8::from(tests.failed > 0))
}

// ---- records

fn insert(kind: u8, image: &[u8]) -> Vec<u8> {
    whole(INSERT, &[&[kind], image].concat())
}

fn remove() -> Vec<u8> {
    whole(REMOVE, &[])
}

fn message(bytes: &[u8]) -> Vec<u8> {
    whole(MESSAGE, bytes)
}

fn status(seq: u8) -> Vec<u8> {
    message(&[0x65, 0, 0, 0, 0, 0, seq, 0, 0, 0])
}

fn power_on(seq: u8) -> Vec<u8> {
    message(&[0x62, 0, 0, 0, 0, 0, seq, 0, 0, 0])
}

/// A 6Fh with these data.
fn transfer(data: &[u8]) -> Vec<u8> {
    message(&[&[0x6f, data.len() as u8, 0, 0, 0, 0, 0, 0, 0, 0][..], data].concat())
}

/// A mark and a length, and no body.
fn header(mark: [u8; 2], length: u16) -> Vec<u8> {
    [mark, length.to_le_bytes()].concat()
}

fn sle4442(first: u8) -> Vec<u8> {
    let mut image = vec![first; 256];
    image.extend_from_slice(&[0xff, 0xff, 0xff, 0xff, 7, 0x11, 0x22, 0x33]);
    image
}

fn sle4428() -> Vec<u8> {
    vec![0xff; 1152]
}

const EMPTY: &str = "msg 0 81000000000000020001";
const INACTIVE: &str = "msg 0 81000000000000010001";

impl Tests {
    fn tell(&mut self, name: &str, result: Result<(), String>) {
        match result {
            Ok(()) => {
                self.passed += 1;
                say!("passed  {}", name);
            }
            Err(text) => {
                self.failed += 1;
                say!("FAILED  {}\n        {}", name, text);
            }
        }
    }

    /// The whole input at once gives these lines and no more.
    fn whole(&mut self, name: &str, records: &[Vec<u8>], wanted: &[&str]) {
        let result = match self.program.lines(records.concat()) {
            Ok(lines) if lines == wanted => Ok(()),
            Ok(lines) => Err(format!("wanted {:?}, and it printed {:?}", wanted, lines)),
            Err(text) => Err(text),
        };
        self.tell(name, result);
    }

    fn ends(&mut self) {
        self.whole("a clean end at once prints nothing", &[], &[]);
        self.whole("the slot is empty at the start", &[status(0)], &[EMPTY]);
        let example = vec![
            0x4f, 0x4d, 0x0a, 0x00, 0x65, 0x00, 0x00, 0x00, 0x00, 0x00, 0x07, 0x00, 0x00, 0x00, 0x43, 0x4f, 0x00, 0x00,
            0x4f, 0x4d, 0x01, 0x00, 0x65,
        ];
        self.whole("the paper's example", &[example], &["msg 0 81000000000007020001", "out 0", "msg 2"]);
        let thousand: Vec<Vec<u8>> = (0..1000).map(|_| status(0)).collect();
        self.whole("a thousand records, a clean end", &thousand, &[EMPTY; 1000]);
    }

    fn insertions(&mut self) {
        for (kind, bytes) in
            [(1, 128), (2, 256), (3, 512), (4, 1024), (5, 2048), (6, 4096), (7, 8192), (8, 16384), (9, 32768)]
        {
            let records = [insert(kind, &vec![0; bytes]), status(0)];
            self.whole(&format!("insert of kind {}", kind), &records, &["in 0", INACTIVE]);
        }
        self.whole("insert of kind 20", &[insert(20, &sle4428()), status(0)], &["in 0", INACTIVE]);
        self.whole("insert of kind 21", &[insert(21, &sle4428()), status(0)], &["in 0", INACTIVE]);
        self.whole("insert of kind 30", &[insert(30, &sle4442(0)), status(0)], &["in 0", INACTIVE]);
        self.whole("insert of kind 31", &[insert(31, &[0; 264]), status(0)], &["in 0", INACTIVE]);

        let none = whole(INSERT, &[]);
        self.whole("an empty insert body without a card", &[none.clone(), status(0)], &["in 3", EMPTY]);
        let records = [insert(30, &sle4442(0)), none, status(0)];
        self.whole("an empty insert body with a card in", &records, &["in 0", "in 5", INACTIVE]);
        self.whole("an unknown kind", &[insert(12, &[0; 128]), status(0)], &["in 3", EMPTY]);
        self.whole("kind 0 is no kind", &[insert(0, &[]), insert(0, &[0; 128])], &["in 3", "in 3"]);
        self.whole("an image one byte short", &[insert(1, &[0; 127]), status(0)], &["in 3", EMPTY]);
        self.whole("an image one byte long", &[insert(1, &[0; 129]), status(0)], &["in 3", EMPTY]);
        let mut counter = sle4442(0);
        counter[260] = 8;
        self.whole("a 4442 counter of 08h", &[insert(30, &counter), status(0)], &["in 3", EMPTY]);
        let mut bit = sle4428();
        bit[1024 + 127] = 0xdf;
        self.whole("a 4428 bit for 3FDh that is 0", &[insert(20, &bit), status(0)], &["in 3", EMPTY]);
        self.whole("a 4418 bit for 3FDh that is 0", &[insert(21, &bit), status(0)], &["in 0", INACTIVE]);
        for place in 260..264 {
            let mut last = vec![0; 264];
            last[place] = 1;
            let name = format!("a 4432 byte {} that is not 00h", place);
            self.whole(&name, &[insert(31, &last), status(0)], &["in 3", EMPTY]);
        }
        let records = [insert(30, &sle4442(0xa5)), insert(30, &sle4442(0xb6)), power_on(0)];
        let wanted = ["in 0", "in 5", "msg 0 800600000000000000003b04a5a5a5a5"];
        self.whole("the card that is in stays in", &records, &wanted);
        let records = [insert(1, &[0; 128]), insert(12, &[]), insert(1, &[0; 127])];
        self.whole("with a card in, 5 comes before 3", &records, &["in 0", "in 5", "in 5"]);
    }

    /// Kinds 10 and 11 are taken as unknown, and what is held stays.
    fn large_chips(&mut self) {
        for kind in [10, 11] {
            for length in [0, 1, 128, 264, 32768] {
                let name = format!("insert of kind {}, {} image bytes", kind, length);
                let large = insert(kind, &vec![0xb6; length]);
                self.whole(&name, &[large.clone(), status(0)], &["in 3", EMPTY]);

                // The card stays active, with its type selected, and its memory is as it was.
                let name = format!("{}, with a card in", name);
                let read = transfer(&[0xff, 0xb0, 0, 0, 4]);
                let records =
                    [insert(30, &sle4442(0xa5)), power_on(0), transfer(&[0xff, 0xa4, 0, 0, 1, 6]), large, read];
                let wanted = [
                    "in 0",
                    "msg 0 800600000000000000003b04a5a5a5a5",
                    "msg 0 800200000000000000009000",
                    "in 5",
                    "msg 0 80060000000000000000a5a5a5a59000",
                ];
                self.whole(&name, &records, &wanted);
            }
            let records = [insert(kind, &[0; 32768]), insert(9, &[0; 32768]), insert(kind, &[]), remove(), status(0)];
            let name = format!("a card goes in behind kind {}, and out", kind);
            self.whole(&name, &records, &["in 3", "in 0", "in 5", "out 0", EMPTY]);
            let name = format!("an insert body of 32,770 bytes, kind {}", kind);
            self.whole(&name, &[insert(kind, &[0; 32769]), status(0)], &["bad"]);
        }
    }

    fn removals_and_messages(&mut self) {
        self.whole("removal without a card", &[remove(), remove()], &["out 0", "out 0"]);
        let records = [insert(1, &[0; 128]), remove(), status(0), insert(20, &sle4428()), status(0)];
        self.whole("removal, and another card", &records, &["in 0", "out 0", EMPTY, "in 0", INACTIVE]);
        self.whole("an empty message", &[message(&[]), status(0)], &["msg 2", EMPTY]);
        let nine = message(&[0x65, 0, 0, 0, 0, 0, 0, 0, 0]);
        self.whole("a message of nine bytes", &[nine, status(0)], &["msg 2", EMPTY]);
        let records = [insert(30, &sle4442(0xcd)), power_on(0xef)];
        self.whole("an answer in lower-case hex", &records, &["in 0", "msg 0 800600000000ef0000003b04cdcdcdcd"]);
    }

    fn bad_records(&mut self) {
        for mark in [[0x43, 0x4d], [0x4f, 0x49], [0x4f, 0x4f], [0x49, 0x43], [0x63, 0x69], [0x00, 0x00], [0xff, 0xff]] {
            let name = format!("another mark, {:02X} {:02X}", mark[0], mark[1]);
            self.whole(&name, &[status(0), whole(mark, &[]), status(0)], &[EMPTY, "bad"]);
        }
        let ten = whole([0x4d, 0x4f], &[0x65, 0, 0, 0, 0, 0, 0, 0, 0, 0]);
        self.whole("another mark with a body", &[ten, status(0)], &["bad"]);
        self.whole("another mark with a cut body", &[header([0x4d, 0x4f], 10), vec![0x65]], &["bad"]);
        for mark in [INSERT, REMOVE, MESSAGE] {
            for came in 1..4 {
                let name = format!("a header {:02X} {:02X} cut after {} bytes", mark[0], mark[1], came);
                self.whole(&name, &[status(0), header(mark, 0)[..came].to_vec()], &[EMPTY, "bad"]);
            }
        }
        self.whole("a message body that never came", &[header(MESSAGE, 10)], &["bad"]);
        self.whole("a message body cut by one byte", &[status(0), status(0)[..13].to_vec()], &[EMPTY, "bad"]);
        self.whole("an insert body that never came", &[header(INSERT, 129)], &["bad"]);
        let card = insert(1, &[0; 128]);
        self.whole("an insert body cut by one byte", &[card[..card.len() - 1].to_vec()], &["bad"]);
        self.whole("a remove body of one byte", &[whole(REMOVE, &[0]), status(0)], &["bad"]);
        self.whole("a remove body of ten bytes", &[whole(REMOVE, &[0; 10]), status(0)], &["bad"]);
        self.whole("a remove body that never came", &[header(REMOVE, 1)], &["bad"]);
        let records = [insert(1, &[0; 128]), whole(REMOVE, &[0]), status(0), remove()];
        self.whole("nothing is done after bad", &records, &["in 0", "bad"]);
    }

    fn lengths(&mut self) {
        let card = insert(9, &[0; 32768]);
        self.whole("an insert body of 32,769 bytes", &[card, status(0)], &["in 0", INACTIVE]);
        // dwLength 00000000h is not the message's length less 10.
        let long = message(&[&[0x65, 0, 0, 0, 0, 0, 3, 0, 0, 0][..], &[0; 32759]].concat());
        self.whole("a message body of 32,769 bytes", &[long, status(0)], &["msg 0 81000000000003420101", EMPTY]);
        let long = insert(9, &[0; 32769]);
        self.whole("an insert body of 32,770 bytes", &[status(0), long, status(0)], &[EMPTY, "bad"]);
        self.whole("a message body of 32,770 bytes", &[message(&[0x65; 32770]), status(0)], &["bad"]);
        self.whole("a message body of 65,535 bytes", &[message(&[0x65; 65535]), status(0)], &["bad"]);
        self.whole("a body of 32,770 bytes that never came", &[header(MESSAGE, 32770)], &["bad"]);
        self.whole("a remove body of 32,770 bytes", &[whole(REMOVE, &[0; 32770])], &["bad"]);
    }

    fn conversations(&mut self) {
        let steps = [
            (insert(30, &sle4442(0xa2)), "in 0"),
            (power_on(0), "msg 0 800600000000000000003b04a2a2a2a2"),
            (status(0), "msg 0 81000000000000000000"),
            (message(&[0x65]), "msg 2"),
            (insert(1, &[]), "in 5"),
            (remove(), "out 0"),
            (insert(9, &[0; 32768]), "in 0"),
            (status(0), INACTIVE),
        ];
        let result = self.converse(|talk| {
            for (record, line) in &steps {
                talk.say(record)?;
                talk.hear(line)?;
            }
            talk.end()
        });
        self.tell("each line comes before the next record is written", result);

        let result = self.converse(|talk| {
            for byte in power_on(0) {
                talk.say(&[byte])?;
                thread::sleep(Duration::from_millis(5));
            }
            talk.hear("msg 0 8000000000000042fe00")?;
            talk.end()
        });
        self.tell("a record that comes byte by byte is one record", result);

        let result = self.converse(|talk| {
            talk.say(&[status(0), remove(), status(0)[..7].to_vec()].concat())?;
            talk.hear(EMPTY)?;
            talk.hear("out 0")?;
            talk.say(&status(0)[7..])?;
            talk.hear(EMPTY)?;
            talk.end()
        });
        self.tell("two records and a half, then the other half", result);

        let result = self.converse(|talk| {
            talk.say(&[status(0), whole(REMOVE, &[0])].concat())?;
            talk.hear(EMPTY)?;
            talk.hear("bad")?;
            talk.end()
        });
        self.tell("bad comes while the input is still open", result);
    }

    /// Holds a conversation with a program of its own, which has to end when its input does.
    fn converse(&self, talk: impl FnOnce(&mut Talk) -> Result<(), String>) -> Result<(), String> {
        let mut child = self
            .program
            .command()
            .spawn()
            .map_err(|error| format!("cannot run {}: {}", self.program.shown(), error))?;
        let (stdin, stdout) = (child.stdin.take(), child.stdout.take());
        let (sender, lines) = mpsc::channel();
        thread::spawn(move || {
            if let Some(stdout) = stdout {
                for line in BufReader::new(stdout).lines().map_while(Result::ok) {
                    if sender.send(line).is_err() {
                        break;
                    }
                }
            }
        });
        let mut talking = Talk { stdin, lines };
        let result = talk(&mut talking);
        drop(talking);
        finish(&mut child, result)
    }
}

/// Gives the program time to end, and ends it where it does not.
fn finish(child: &mut Child, result: Result<(), String>) -> Result<(), String> {
    for _ in 0..200 {
        match child.try_wait() {
            Ok(Some(_)) => return result,
            _ => thread::sleep(Duration::from_millis(10)),
        }
    }
    let _ = child.kill();
    let _ = child.wait();
    result.and(Err("the program did not end with its input".to_string()))
}

struct Talk {
    stdin: Option<ChildStdin>,
    lines: Receiver<String>,
}

impl Talk {
    fn say(&mut self, bytes: &[u8]) -> Result<(), String> {
        match &mut self.stdin {
            Some(stdin) => stdin.write_all(bytes).and_then(|()| stdin.flush()).map_err(|error| error.to_string()),
            None => Err("the program has no input".to_string()),
        }
    }

    fn hear(&mut self, wanted: &str) -> Result<(), String> {
        match self.lines.recv_timeout(PATIENCE) {
            Ok(line) if line == wanted => Ok(()),
            Ok(line) => Err(format!("wanted '{}', and it printed '{}'", wanted, line)),
            Err(_) => Err(format!("wanted '{}', and no line came", wanted)),
        }
    }

    /// Ends the input; no more lines come.
    fn end(&mut self) -> Result<(), String> {
        self.stdin = None;
        match self.lines.recv_timeout(PATIENCE) {
            Ok(line) => Err(format!("'{}' comes after the end", line)),
            Err(mpsc::RecvTimeoutError::Timeout) => Err("the program did not end with its input".to_string()),
            Err(mpsc::RecvTimeoutError::Disconnected) => Ok(()),
        }
    }
}
