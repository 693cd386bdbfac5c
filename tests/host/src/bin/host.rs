//! Tests the device by hand on its line and by the host's own stack. tests/host/check builds what it needs and runs it.

use ::second::random;
use host::card;
use host::device::{Device, ERRORS};
use host::dissect;
use host::line::{frame, Line, REFUSED};
use host::second::{self, Held};
use host::stack::{self, Stack};
use std::env;
use std::fs;
use std::os::unix::fs::PermissionsExt;
use std::path::PathBuf;
use std::process::{Command, ExitCode};
use std::thread;
use std::time::{Duration, Instant};

type Outcome = Result<String, String>;

/// The repository, a folder of the test's own, and what came of the tests so far.
struct Bench {
    root: PathBuf,
    folder: PathBuf,
    began: Instant,
    passed: usize,
    failed: usize,
    /// All traces, for the second program.
    traces: Vec<Vec<String>>,
}

fn main() -> ExitCode {
    let words: Vec<String> = env::args().skip(1).collect();
    let (root, folder) = match &words[..] {
        [root, folder] => (PathBuf::from(root), PathBuf::from(folder)),
        _ => {
            eprintln!("usage: host ROOT FOLDER (tests/host/check runs it)");
            return ExitCode::from(2);
        }
    };
    let mut bench = Bench { root, folder, began: Instant::now(), passed: 0, failed: 0, traces: Vec::new() };
    bench.card_files();
    bench.kills();
    bench.visit();
    bench.again();
    bench.traces();
    println!("{} passed, {} failed", bench.passed, bench.failed);
    ExitCode::from(u8::from(bench.failed > 0))
}

/// What a program prints that ends well.
fn printed(command: &mut Command) -> Result<String, String> {
    let output = command.output().map_err(|error| format!("{:?}: {}", command, error))?;
    if !output.status.success() {
        return Err(format!("{:?} ended with {}: {}", command, output.status, String::from_utf8_lossy(&output.stderr)));
    }
    Ok(String::from_utf8_lossy(&output.stdout).into_owned())
}

fn expect(is_so: bool, what: impl FnOnce() -> String) -> Result<(), String> {
    if is_so {
        Ok(())
    } else {
        Err(what())
    }
}

fn same(what: &str, given: &[u8], wanted: &[u8]) -> Result<(), String> {
    expect(given == wanted, || format!("{}: {:02x?}, and {:02x?} is expected", what, given, wanted))
}

/// A message with the header that its data ask for.
fn message(kind: u8, seq: u8, data: &[u8]) -> Vec<u8> {
    let mut message = vec![kind];
    message.extend_from_slice(&(data.len() as u32).to_le_bytes());
    message.extend_from_slice(&[0, seq, 0, 0, 0]);
    message.extend_from_slice(data);
    message
}

const SELECT_4442: [u8; 6] = [0xff, 0xa4, 0, 0, 1, 6];
const WRONG: [u8; 8] = [0xff, 0x20, 0, 0, 3, 1, 2, 3];
const RIGHT: [u8; 8] = [0xff, 0x20, 0, 0, 3, 0xff, 0xff, 0xff];

impl Bench {
    /// Counts a test and tells it, with the seconds since the start.
    fn told(&mut self, name: &str, outcome: Outcome) -> bool {
        let seconds = self.began.elapsed().as_secs_f32();
        match &outcome {
            Ok(more) if more.is_empty() => println!("passed  {:4.1} s  {}", seconds, name),
            Ok(more) => println!("passed  {:4.1} s  {}: {}", seconds, name, more),
            Err(text) => println!("FAILED  {:4.1} s  {}\n        {}", seconds, name, text),
        }
        match outcome.is_ok() {
            true => self.passed += 1,
            false => self.failed += 1,
        }
        outcome.is_ok()
    }

    /// Starts the device with a trace.
    fn start(&self, card: &str) -> Result<Device, String> {
        Device::start(&self.root, &self.folder, &["--trace", card])
    }

    fn path(&self, name: &str) -> PathBuf {
        self.folder.join(name)
    }

    fn text(&self, name: &str) -> Result<String, String> {
        fs::read_to_string(self.path(name)).map_err(|error| format!("{}: {}", name, error))
    }

    fn image(&self, name: &str) -> Result<Vec<u8>, String> {
        card::image(&self.text(name)?).map_err(|text| format!("{}: {}", name, text))
    }

    fn counter(&self, name: &str) -> Result<u8, String> {
        Ok(self.image(name)?[260])
    }

    /// A new card, made by ./reader.
    fn new_card(&self, kind: &str, name: &str) -> Result<(), String> {
        let made =
            Command::new(self.root.join("reader")).args(["--new", kind, name]).current_dir(&self.folder).output();
        match made {
            Ok(output) if output.status.success() => Ok(()),
            Ok(output) => Err(String::from_utf8_lossy(&output.stderr).into_owned()),
            Err(error) => Err(error.to_string()),
        }
    }

    /// A card file that is another one with something replaced.
    fn edited(&self, from: &str, to: &str, old: &str, new: &str) -> Result<(), String> {
        let text = self.text(from)?;
        expect(text.contains(old), || format!("{} has no '{}'", from, old))?;
        fs::write(self.path(to), text.replacen(old, new, 1)).map_err(|error| format!("{}: {}", to, error))
    }

    // ---- card files

    fn card_files(&mut self) {
        let outcome = self.every_kind();
        self.told("a new card of each kind goes in, is shown and comes out", outcome);
        let outcome = self.bad_files();
        self.told("a bad card file is refused with its line", outcome);
        let outcome = self.good_files();
        self.told("comments, line ends and lists as a person writes them are taken", outcome);
        let outcome = self.one_reader();
        self.told("a card is in one reader at a time", outcome);
        let outcome = self.told_in_words();
        self.told("--tell tells each message in ./play's words, --capture keeps it, --line names the line", outcome);
    }

    fn every_kind(&mut self) -> Outcome {
        let kinds = script::cards::all();
        let mut device = None;
        for kind in kinds {
            let name = format!("{}.card", kind.name);
            self.new_card(kind.name, &name)?;
            let image = self.image(&name)?;
            let device = match &mut device {
                None => device.insert(Device::start(&self.root, &self.folder, &["--trace"])?),
                Some(device) => device,
            };
            let said = device.command(&format!("insert {}", name))?;
            expect(said.starts_with(&format!("{} is in: /", kind.told)), || said.clone())?;
            let wanted = format!("trace in {} ", kind.number);
            let at = device.wait_for(0, |line| line.starts_with(&wanted))?;
            let told = device.lines()[at].split(' ').next_back().and_then(script::hex::bytes).unwrap_or_default();
            same(&name, &told, &image)?;
            let tries = kind.code.as_ref().map_or(0, |code| code.full.count_ones());
            let shown = device.command("show")?;
            let wanted = format!(
                "{}, inactive, no type, page 8, not chosen, closed, tries left {}, protected 0 (",
                kind.told, tries
            );
            expect(shown.starts_with(&wanted), || format!("show: {}", shown))?;
            let said = device.command("remove")?;
            expect(said == "the card is out", || said.clone())?;
        }
        let mut device = device.ok_or("there are no kinds")?;
        let said = device.command("show")?;
        expect(said == "no card is in", || said.clone())?;
        let said = device.command("insert nothing.card")?;
        expect(said.contains("nothing.card: No such file"), || said.clone())?;
        let said = device.command("shuffle")?;
        expect(said.starts_with("the commands are"), || said.clone())?;
        let said = self.new_card("sle4442", "sle4442.card").err().unwrap_or_default();
        expect(said.contains("there already"), || format!("a card was made over another: {}", said))?;
        self.traces.push(device.quit());
        Ok(format!("{} kinds", kinds.len()))
    }

    fn bad_files(&mut self) -> Outcome {
        let row = "0010  FF FF FF FF FF FF FF FF  FF FF FF FF FF FF FF FF";
        let bad: [(&str, &str, &str, usize, &str); 22] = [
            ("sle4442", "kind       sle4442", "kind       sle4443", 2, "the kind is one of"),
            ("sle4442", "kind       sle4442", "card       sle4442", 2, "'kind' is the first line"),
            ("sle4442", "counter    07", "counter    08", 3, "at most 07"),
            ("sle4442", "counter    07", "counter    7", 3, "no byte"),
            ("sle4442", "counter    07", "counter    07 07", 3, "1 bytes here"),
            ("sle4442", "counter    07", "counter    07\ncounter    07", 4, "twice"),
            ("sle4442", "code       FF FF FF", "code       FF FF", 4, "3 bytes here, and these are 2"),
            ("sle4442", "code       FF FF FF\n", "", 5, "the code is missing"),
            ("sle4442", "protected  none", "protected  0000..0020", 5, "0000..001F can be protected"),
            ("sle4442", "protected  none", "protected  0003..0001", 5, "can be protected"),
            ("sle4442", "protected  none", "protected  0003-0005", 5, "no list"),
            ("sle4428", "protected  none", "protected  03FD", 5, "cannot be protected"),
            ("sle4432", "protected  none", "counter    07", 3, "no code and no counter"),
            ("i2c1", "memory", "protected  0000\nmemory", 3, "no protection bits"),
            ("sle4442", "memory", "# a comment\nmemory", 6, "comments stand above"),
            (
                "sle4442",
                row,
                "0010  FF FF FF FF FF FF FF FF  FF FF FF FF FF FF FF",
                8,
                "16 bytes here, and these are 15",
            ),
            ("sle4442", row, "0020  FF FF FF FF FF FF FF FF  FF FF FF FF FF FF FF FF", 8, "0010 is next"),
            ("sle4442", row, "0010  FF FF FF FF FF FF FF GG  FF FF FF FF FF FF FF FF", 8, "'GG' is no byte"),
            ("sle4442", "00F0  FF", "0100  FF", 10, "past the last byte"),
            ("sle4442", "00F0  FF FF FF FF FF FF FF FF  FF FF FF FF FF FF FF FF", "", 10, "the row at 0020 is missing"),
            ("sle4442", "memory\n", "", 6, "none of counter, code"),
            ("sle4442", "# ", "\u{0}", 1, "no text"),
        ];
        let mut device = Device::start(&self.root, &self.folder, &["--trace"])?;
        for (kind, old, new, line, why) in bad {
            self.edited(&format!("{}.card", kind), "bad.card", old, new)?;
            let said = device.command("insert bad.card")?;
            let wanted = format!("bad.card, line {}: ", line);
            expect(said.starts_with(&wanted) && said.contains(why), || format!("for '{}': {}", new, said))?;
        }
        for (name, text) in [("empty.card", String::new()), ("long.card", "# a long one\n".repeat(90_000))] {
            fs::write(self.path(name), text).map_err(|error| error.to_string())?;
            let said = device.command(&format!("insert {}", name))?;
            expect(said.starts_with(name), || said.clone())?;
        }
        let said = device.command("show")?;
        expect(said == "no card is in", || said.clone())?;
        self.traces.push(device.quit());
        Ok(format!("{} faults", bad.len()))
    }

    fn good_files(&mut self) -> Outcome {
        self.edited("sle4442.card", "own.card", "# ", "# washer 12\r\n# two of three\n\n# ")?;
        self.edited("own.card", "own.card", "protected  none", "protected  0000..3 1f,0010   | as printed on it")?;
        self.edited("own.card", "own.card", "counter    07", "counter\t 03\r")?;
        let _ = fs::set_permissions(self.path("own.card"), fs::Permissions::from_mode(0o640));
        std::os::unix::fs::symlink(self.path("own.card"), self.path("linked.card"))
            .map_err(|error| error.to_string())?;
        let mut device = self.start("linked.card")?;
        let shown = device.command("show")?;
        expect(shown.contains("tries left 2, protected 6: 0000..0003,0010,001F ("), || shown.clone())?;
        let mut line = Line::open(&device.tty)?;
        line.ask(&message(0x62, 0, &[]))?;
        line.ask(&message(0x6f, 1, &SELECT_4442))?;
        let answer = line.ask(&message(0x6f, 2, &RIGHT))?;
        same("the right code", &answer[10..], &[0x90, 0x07])?;
        let text = self.text("own.card")?;
        expect(text.starts_with("# washer 12\r\n# two of three\n# Take"), || format!("the comments are: {}", text))?;
        expect(text.contains("counter    07 ") && text.contains("protected  0000..0003,0010,001F\n"), || text.clone())?;
        let mode = fs::metadata(self.path("own.card")).map_err(|error| error.to_string())?.permissions().mode() & 0o777;
        expect(mode == 0o640, || format!("the file's mode is {:o}", mode))?;
        let link = fs::symlink_metadata(self.path("linked.card")).map_err(|error| error.to_string())?;
        expect(link.file_type().is_symlink(), || "the link was replaced".to_string())?;
        self.traces.push(device.quit());
        Ok(String::new())
    }

    fn one_reader(&mut self) -> Outcome {
        let mut device = self.start("i2c1.card")?;
        let mut other = Device::start(&self.root, &self.folder, &["--trace"])?;
        let said = other.command("insert i2c1.card")?;
        expect(said.ends_with("another reader has this card"), || said.clone())?;
        let said = device.command("insert i2c2.card")?;
        expect(said.starts_with("a card is in already"), || said.clone())?;
        device.command("remove")?;
        let said = other.command("insert i2c1.card")?;
        expect(said.starts_with("I2C of 1 kbit is in"), || said.clone())?;
        self.traces.push(device.quit());
        self.traces.push(other.quit());
        Ok(String::new())
    }

    fn told_in_words(&mut self) -> Outcome {
        self.new_card("sle4442", "told.card")?;
        let words = ["--tell", "--capture", "told.pcap", "--line", "line", "told.card"];
        let mut device = Device::start(&self.root, &self.folder, &words)?;
        expect(device.tty == self.path("line").to_string_lossy(), || device.tty.clone())?;
        let mut line = Line::open(&device.tty)?;
        line.ask(&message(0x6b, 1, &[0x02]))?;
        line.ask(&message(0x62, 2, &[]))?;
        line.ask(&message(0x6f, 3, &WRONG))?;
        line.ask(&message(0x6f, 4, &SELECT_4442))?;
        line.ask(&message(0x6f, 5, &WRONG))?;
        same("noise", &line.bounce(&[0x55])?, &REFUSED)?;
        device.say("remove")?;
        device.wait_for(0, |line| line == "        line    out 0, the slot is empty")?;
        let lines = device.quit();
        for wanted in [
            "        sent    6B escape, bSlot 00, bSeq 01, 1 data bytes 02",
            "        data    43 61 72 64 20 72 65 61 64 65 72 20 31 2E 30, \"Card reader 1.0\"",
            "        sent    62 power on, bSlot 00, bSeq 02",
            "        data    3B 04 A2 13 10 91, the answer to reset",
            "        word    69 85 no type is selected",
            "        sent    6F transfer, bSlot 00, bSeq 05, 20 present code 01 02 03",
            "        word    90 06 the card is closed: counter 06, 2 tries left",
            "        changed 0104 (1 byte)",
            "        sent    no frame, 1 bytes: 55",
        ] {
            expect(lines.iter().any(|line| line == wanted), || format!("it did not tell '{}'", wanted.trim()))?;
        }
        expect(!self.path("line").exists(), || "the link was left".to_string())?;
        let capture = fs::metadata(self.path("told.pcap")).map_err(|error| error.to_string())?.len();
        expect(capture > 1000, || format!("the capture has {} bytes", capture))?;
        Ok(format!("{} lines", lines.len()))
    }

    // ---- kills

    fn kills(&mut self) {
        let outcome = self.kill_after_answers();
        self.told("killed right after a wrong code: one try less, each time", outcome);
        let outcome = self.kill_anywhere();
        self.told("killed at any moment: the card before the message, or after it", outcome);
        let outcome = self.full_disk();
        self.told("where the card cannot be kept there is no answer, and no change", outcome);
    }

    /// A device with that card, powered and selected.
    fn powered(&self, card: &str) -> Result<(Device, Line), String> {
        let device = self.start(card)?;
        let mut line = Line::open(&device.tty)?;
        line.ask(&message(0x62, 0, &[]))?;
        let answer = line.ask(&message(0x6f, 1, &SELECT_4442))?;
        same("select", &answer[10..], &[0x90, 0x00])?;
        Ok((device, line))
    }

    fn kill_after_answers(&mut self) -> Outcome {
        self.new_card("sle4442", "kill.card")?;
        for (counter, tries) in [(0x06, 2), (0x04, 1), (0x00, 0), (0x00, 0)] {
            let (device, mut line) = self.powered("kill.card")?;
            let answer = line.ask(&message(0x6f, 2, &WRONG))?;
            self.traces.push(device.kill());
            same("a wrong code", &answer[10..], &[0x90, counter])?;
            same("the counter in the file", &[self.counter("kill.card")?], &[counter])?;
            let words = format!("| {} {} left", tries, if tries == 1 { "try" } else { "tries" });
            let text = self.text("kill.card")?;
            expect(text.contains(&words), || text.clone())?;
        }
        Ok("07 06 04 00 00".to_string())
    }

    /// A write, and a kill after ever longer times, the last behind the answer: no answer that came is undone, and what has no
    /// answer is done wholly or not at all.
    fn kill_anywhere(&mut self) -> Outcome {
        self.new_card("sle4442", "cut.card")?;
        let (mut last, mut undone, mut done) = (0_u8, 0, 0);
        const ROUNDS: u64 = 16;
        for round in 0..ROUNDS {
            // What a cut in the middle of writing leaves behind.
            if round % 4 == 0 {
                let text = self.text("cut.card")?;
                fs::write(self.path("cut.card.new"), &text[..text.len() / 2]).map_err(|error| error.to_string())?;
            }
            let (device, mut line) = self.powered("cut.card")?;
            let answer = line.ask(&message(0x6f, 2, &RIGHT))?;
            same("the right code", &answer[10..], &[0x90, 0x07])?;
            let next = last.wrapping_add(1);
            let write = message(0x6f, 3, &[0xff, 0xd0, 0, 0x40, 4, next, next, next, next]);
            line.put(&frame(&write))?;
            let mut came = Vec::new();
            match round == ROUNDS - 1 {
                true => came = line.take(frame(&write).len() + 15)?,
                false => thread::sleep(Duration::from_micros(60 * round * round)),
            }
            let lines = device.kill();
            came.extend(line.take(1000)?);
            let image = self.image("cut.card")?;
            let found = image[0x40];
            expect(image[0x40..0x44] == [found; 4], || format!("a torn write: {:02x?}", &image[0x40..0x44]))?;
            let before = if last == 0 { 0xff } else { last };
            expect(found == before || found == next, || {
                format!("{:02x} is neither {:02x} nor {:02x}", found, before, next)
            })?;
            let answered = came.len() > frame(&write).len();
            expect(!answered || found == next, || "an answer that came is undone".to_string())?;
            same("the counter", &[image[260]], &[0x07])?;
            match found == next {
                true => done += 1,
                false => undone += 1,
            }
            if found == next {
                last = next;
            }
            self.traces.push(lines);
        }
        expect(done > 0, || "none was done".to_string())?;
        Ok(format!("{} before, {} after", undone, done))
    }

    fn full_disk(&mut self) -> Outcome {
        self.new_card("sle4442", "full.card")?;
        let (mut device, mut line) = self.powered("full.card")?;
        // A folder stands where the new file goes.
        fs::create_dir(self.path("full.card.new")).map_err(|error| error.to_string())?;
        let wrong = frame(&message(0x6f, 2, &WRONG));
        line.put(&wrong)?;
        let came = line.take(wrong.len() + 1)?;
        expect(came.len() <= wrong.len(), || format!("it answered {:02x?}", came))?;
        expect(device.command("show").is_err(), || "it goes on".to_string())?;
        device.quit();
        let said = self.text(ERRORS)?;
        expect(said.contains("the card could not be kept, so the message is not answered"), || said.clone())?;
        same("the counter", &[self.counter("full.card")?], &[0x07])?;
        Ok(String::new())
    }

    // ---- the visit: by hand, then by the host

    fn visit(&mut self) {
        let mut device = match self.new_card("sle4442", "visit.card").and_then(|()| self.start("visit.card")) {
            Ok(device) => device,
            Err(text) => {
                self.told("the device starts", Err(text));
                return;
            }
        };
        let outcome = by_hand(&mut device);
        self.told("frames by hand: echo, check bytes, refusals, escape, lies about lengths", outcome);
        let outcome = pieces(&device);
        self.told("a frame in pieces, and one of a thousand bytes", outcome);
        let stack = match Stack::start(&self.folder, &device.configuration) {
            Ok(stack) => stack,
            Err(text) => {
                self.told("pcscd takes the reader", Err(text));
                return;
            }
        };
        let outcome = listed(&stack);
        self.told("the reader and its answer to reset are listed", outcome);
        let outcome = probed(&stack, &mut device);
        self.told("a program that looks for processor cards costs no try", outcome);
        let outcome = self.desk_visit(&stack);
        self.told("select, read, wrong code 90 06, right code 90 07, write, read back", outcome);
        let outcome = self.long_ones(&stack);
        self.told("255 bytes written and read", outcome);
        let outcome = self.counter_and_bits(&stack, &mut device);
        self.told("counter and protection bits", outcome);
        let outcome = self.pulled(&stack, &mut device);
        self.told("a card pulled and another put in between two commands", outcome);

        let outcome = stack.commands(&[SELECT_4442.to_vec(), WRONG.to_vec()]);
        let lines = device.kill();
        let outcome = outcome.and_then(|answers| {
            same("the wrong code", answers.last().map_or(&[], |answer| &answer[..]), &[0x90, 0x06])?;
            same("the counter in the file", &[self.counter("other.card")?], &[0x06])?;
            Ok(String::new())
        });
        self.told("killed (-9) right after a wrong code of the host's: one try less in the file", outcome);
        let outcome = self.seen_frames(stack, &lines, "the visit");
        self.told("check bytes and frames as libccid read them", outcome);
        let outcome = self.dissected(&lines);
        self.told("the whole visit dissected by tshark, each field as it is told", outcome);
        self.traces.push(lines);
    }

    /// The visit of docs/HOST.md, as it stands there.
    fn desk_visit(&mut self, stack: &Stack) -> Outcome {
        let page = fs::read_to_string(self.root.join("docs/HOST.md")).map_err(|error| error.to_string())?;
        let printed = page.split_once("\nNo reader given").and_then(|(_, rest)| rest.split_once("```"));
        let printed = format!("No reader given{}", printed.ok_or("docs/HOST.md has no visit")?.0);
        let exchanges = stack::exchanges(&printed);
        let commands: String = exchanges.iter().map(|(command, _)| stack::told(command) + "\n").collect();
        fs::write(self.path("visit.txt"), commands).map_err(|error| error.to_string())?;
        let said = stack.client("scriptor", &["visit.txt"], "")?;
        expect(said == printed, || format!("docs/HOST.md has it otherwise: {}", said))?;
        let wanted: [&[u8]; 6] = [
            &[0x90, 0x00],
            &[&[0xa2, 0x13, 0x10, 0x91][..], &[0xff; 12], &[0x90, 0x00]].concat(),
            &[0x90, 0x06],
            &[0x90, 0x07],
            &[0x90, 0x00],
            &[0x12, 0x34, 0x56, 0x78, 0x90, 0x00],
        ];
        let answers: Vec<&[u8]> = exchanges.iter().map(|(_, answer)| &answer[..]).collect();
        expect(answers == wanted, || format!("docs/HOST.md has other answers: {:02x?}", answers))?;
        same("the bytes in the file", &self.image("visit.card")?[0x20..0x24], &[0x12, 0x34, 0x56, 0x78])?;
        Ok("as docs/HOST.md has it".to_string())
    }

    fn counter_and_bits(&mut self, stack: &Stack, device: &mut Device) -> Outcome {
        let (counter, bits) = (vec![0xff, 0xb1, 0, 0, 4], vec![0xff, 0xb2, 0, 0, 4]);
        let answers = stack.commands(&[
            SELECT_4442.to_vec(),
            WRONG.to_vec(),
            counter.clone(),
            RIGHT.to_vec(),
            counter,
            vec![0xff, 0xd1, 0, 0, 4, 0xa2, 0x13, 0x10, 0x91],
            bits,
        ])?;
        same("the counter after a wrong code", &answers[2][..1], &[0x06])?;
        same("the counter after the right one", &answers[4][..1], &[0x07])?;
        same("protect", &answers[5], &[0x90, 0x00])?;
        same("the protection bits", &answers[6], &[0xf0, 0xff, 0xff, 0xff, 0x90, 0x00])?;
        let shown = device.command("show")?;
        expect(shown.contains("tries left 3, protected 4: 0000..0003 ("), || format!("show: {}", shown))?;
        expect(self.text("visit.card")?.contains("protected  0000..0003\n"), || "the file has other ones".to_string())?;
        Ok(String::new())
    }

    fn long_ones(&mut self, stack: &Stack) -> Outcome {
        let mut data: Vec<u8> = (0..255_u16).map(|k| (k * 7 + 1) as u8).collect();
        data[..3].copy_from_slice(&[0x13, 0x10, 0x91]);
        let write = [&[0xff, 0xd0, 0, 1, 255][..], &data].concat();
        let read = vec![0xff, 0xb0, 0, 1, 255];
        let answers = stack.commands(&[SELECT_4442.to_vec(), RIGHT.to_vec(), write, read])?;
        same("the write", &answers[2], &[0x90, 0x00])?;
        same("the read", &answers[3], &[&data[..], &[0x90, 0x00]].concat())?;
        same("the file", &self.image("visit.card")?[1..256], &data)?;
        Ok(String::new())
    }

    fn pulled(&mut self, stack: &Stack, device: &mut Device) -> Outcome {
        self.edited("sle4442.card", "other.card", "0010  FF FF FF FF", "0010  C0 FF EE 01")?;
        let read = [0xff, 0xb0, 0, 0x10, 4];
        let mut visit = stack.visit()?;
        let from = device.lines().len();
        visit.send(&SELECT_4442)?;
        device.wait_for(from, |line| line.contains("ffa400000106 8002"))?;
        let said = device.command("remove")?;
        expect(said == "the card is out", || said.clone())?;
        let from = device.lines().len();
        let said = device.command("insert other.card")?;
        expect(said.starts_with("SLE4442 is in"), || said.clone())?;
        visit.send(&read)?;
        let said = visit.end()?;
        let exchanges = stack::exchanges(&said);
        let answers: Vec<&[u8]> = exchanges.iter().map(|(_, answer)| &answer[..]).collect();
        expect(answers.first() == Some(&&[0x90, 0x00][..]), || said.clone())?;
        expect(answers.iter().skip(1).all(|answer| answer.is_empty()), || format!("the new card answered: {}", said))?;
        // The host has noticed, and powered the new card.
        device.wait_for(from, |line| line.starts_with("trace message 62"))?;
        let answers = stack.commands(&[read.to_vec(), SELECT_4442.to_vec(), read.to_vec()])?;
        same("a read before the type is selected", &answers[0], &[0x69, 0x85])?;
        same("a read of the other card", &answers[2], &[0xc0, 0xff, 0xee, 0x01, 0x90, 0x00])?;
        Ok(String::new())
    }

    /// What pcscd's log has seen of the line, beside the device's trace.
    fn seen_frames(&self, stack: Stack, lines: &[String], what: &str) -> Outcome {
        let log = stack.stop()?;
        expect(!log.contains("Wrong LRC"), || "libccid tells of a wrong check byte".to_string())?;
        let seen = stack::frames(&log)?;
        let traced: Vec<stack::Exchange> = lines
            .iter()
            .filter_map(|line| line.strip_prefix("trace message ").or_else(|| line.strip_prefix("trace escape ")))
            .filter_map(|line| {
                let mut words = line.split(' ').filter_map(script::hex::bytes);
                Some((words.next()?, words.next()?))
            })
            .collect();
        // The first messages of the trace may have come by hand, and the last may not have come to the log.
        let from = traced.len().checked_sub(seen.len()).ok_or("libccid has read more than the device sent")?;
        let met = (0..=from).rev().any(|from| traced[from..].starts_with(&seen));
        expect(met, || format!("what libccid read in {} is not what the device's trace has", what))?;
        Ok(format!("{} frames each way", seen.len()))
    }

    /// Tells the trace and captures it, as ./reader --capture does, and holds tshark's fields to the words.
    fn dissected(&self, lines: &[String]) -> Outcome {
        let trace = self.path("visit.trace");
        fs::write(&trace, lines.join("\n") + "\n").map_err(|error| format!("{}: {}", trace.display(), error))?;
        let input = fs::File::open(&trace).map_err(|error| format!("{}: {}", trace.display(), error))?;
        let capture = self.path("visit.pcap");
        let mut play = Command::new(self.root.join("target/cargo/release/play"));
        let told = printed(play.args(["--told", "--capture"]).arg(&capture).stdin(input))?;
        let mut tshark = Command::new("timeout");
        let dissected = printed(tshark.args(["60", "tshark", "-Y", "usbccid", "-T", "pdml", "-r"]).arg(&capture))?;
        let compared = dissect::compare(&told, &dissected)?;
        let missing = compared.missing();
        expect(missing.is_empty(), || format!("the visit has no {}", missing.join(", ")))?;
        expect(compared.messages.len() == 9 && compared.answers.len() == 4, || format!("{:?}", compared))?;
        Ok(format!("{} packets, {} fields, {} data bytes", compared.packets, compared.fields, compared.data))
    }

    // ---- started again, and a thousand commands

    fn again(&mut self) {
        let mut device = match self.start("other.card") {
            Ok(device) => device,
            Err(text) => {
                self.told("the device starts again", Err(text));
                return;
            }
        };
        let stack = match Stack::start(&self.folder, &device.configuration) {
            Ok(stack) => stack,
            Err(text) => {
                self.told("pcscd takes the reader again", Err(text));
                return;
            }
        };
        let outcome =
            stack.commands(&[SELECT_4442.to_vec(), vec![0xff, 0xb1, 0, 0, 4], RIGHT.to_vec()]).and_then(|answers| {
                same("the counter", &answers[1][..1], &[0x06])?;
                same("the right code", &answers[2], &[0x90, 0x07])?;
                Ok(String::new())
            });
        self.told("started again, with pcscd: the host finds one try less", outcome);
        for (kind, number, count) in [
            ("sle4442", 30, 1000),
            ("sle4428", 20, 300),
            ("sle4418", 21, 200),
            ("i2c256", 9, 200),
            ("i2c1024", 11, 200),
        ] {
            let outcome = self.commands(&stack, &mut device, kind, number, count);
            self.told(&format!("{} commands in a row, {}, as the second program answers them", count, kind), outcome);
        }
        let lines = device.quit();
        let outcome = self.seen_frames(stack, &lines, "the thousand");
        self.told("check bytes and frames of them as libccid read them", outcome);
        self.traces.push(lines);
    }

    fn commands(&mut self, stack: &Stack, device: &mut Device, kind: &str, number: u8, count: usize) -> Outcome {
        let name = format!("row-{}.card", kind);
        self.new_card(kind, &name)?;
        let exchanges = random::visit(1, number, &self.image(&name)?, count).map_err(|number| number.to_string())?;
        device.command("remove")?;
        let from = device.lines().len();
        device.command(&format!("insert {}", name))?;
        device.wait_for(from, |line| line.starts_with("trace message 62"))?;
        let began = Instant::now();
        let commands: Vec<Vec<u8>> = exchanges.iter().map(|(command, _)| command.clone()).collect();
        let answers = stack.commands(&commands)?;
        for (k, (answer, (command, wanted))) in answers.iter().zip(&exchanges).enumerate() {
            same(&format!("command {}, {:02x?}", k + 1, command), answer, wanted)?;
        }
        let held = second::hold(&device.lines())?;
        expect(held.image == self.image(&name)?, || {
            "the file is not the card that the second program has".to_string()
        })?;
        let wrote = exchanges.iter().filter(|(command, answer)| command[1] == 0xd0 && answer.ends_with(&[0x90, 0x00]));
        Ok(format!("{:.2} s, {} writes stored", began.elapsed().as_secs_f32(), wrote.count()))
    }

    // ---- all traces

    fn traces(&mut self) {
        let mut all = Held::default();
        let mut outcome = Ok(String::new());
        for lines in &self.traces {
            match second::hold(lines) {
                Ok(held) => {
                    all.messages += held.messages;
                    all.escapes += held.escapes;
                    all.refused += held.refused;
                    all.cards += held.cards;
                }
                Err(text) => outcome = Err(text),
            }
        }
        let counted = format!(
            "{} messages, {} escape messages, {} refused, {} cards",
            all.messages, all.escapes, all.refused, all.cards
        );
        self.told(
            "every answer, slot record and card byte of all runs as the second program has them",
            outcome.map(|_| counted),
        );
    }
}

// ---- by hand

fn by_hand(device: &mut Device) -> Outcome {
    let mut line = Line::open(&device.tty)?;
    let escape = line.ask(&message(0x6b, 1, &[0x02]))?;
    same("an escape's header", &escape[..10], &[0x83, escape.len() as u8 - 10, 0, 0, 0, 0, 1, 1, 0, 0])?;
    same("its text", &escape[10..], b"Card reader 1.0")?;
    let answer = line.ask(&message(0x62, 2, &[]))?;
    same("power on", &answer, &[0x80, 6, 0, 0, 0, 0, 2, 0, 0, 0, 0x3b, 0x04, 0xa2, 0x13, 0x10, 0x91])?;

    // A wrong check byte, a cut frame, noise, a message of nine bytes: refused, and nothing is done.
    let wrong = frame(&message(0x6f, 3, &WRONG));
    let mut spoiled = wrong.clone();
    *spoiled.last_mut().ok_or("no frame")? ^= 0x01;
    let nine = frame(&[0x65, 0, 0, 0, 0, 0, 0, 0, 0]);
    for bad in
        [&spoiled[..], &wrong[..9], &[0x00], &[0x03, 0x15, 0x16], &nine, &wrong[1..], &[&[0x55], &wrong[..]].concat()]
    {
        same("a bad frame", &line.bounce(bad)?, &REFUSED)?;
    }
    let shown = device.command("show")?;
    expect(shown.contains("tries left 3"), || format!("a frame that was refused cost a try: {}", shown))?;

    // Every type, those that no driver sends too; lies about lengths both ways, and another slot.
    let other = |place: usize, value: u8, mut message: Vec<u8>| {
        message[place] = value;
        message
    };
    let status = |kind: u8, state: u8, error: u8| {
        vec![kind, 0, 0, 0, 0, 0, 9, state, error, u8::from(kind == 0x81 && state & 3 != 0)]
    };
    for (sent, wanted) in [
        (message(0x65, 9, &[]), status(0x81, 0x00, 0x00)),
        (message(0x6c, 9, &[]), [status(0x82, 0, 0), vec![0x11, 0, 0, 0x0a, 0]].concat()),
        (other(7, 1, message(0x61, 9, &[0x11, 0x10, 0, 0x4d, 0, 0x20, 0])), vec![]),
        (message(0x6d, 9, &[]), [status(0x82, 0, 0), vec![0x11, 0, 0, 0x0a, 0]].concat()),
        (other(7, 2, message(0x61, 9, &[0x11, 0, 0, 0x0a, 0])), status(0x82, 0x40, 0x07)),
        (message(0x70, 9, &[]), status(0x81, 0x40, 0x00)),
        (other(1, 9, message(0x6f, 9, &WRONG)), status(0x80, 0x40, 0x01)),
        (other(1, 7, message(0x6f, 9, &WRONG)), status(0x80, 0x40, 0x01)),
        (other(3, 1, message(0x65, 9, &[])), status(0x81, 0x40, 0x01)),
        (other(7, 4, message(0x62, 9, &[])), status(0x80, 0x40, 0x07)),
        (other(8, 1, message(0x6f, 9, &WRONG)), status(0x80, 0x40, 0x08)),
        (message(0x63, 9, &[]), status(0x81, 0x01, 0x00)),
        (message(0x6f, 9, &WRONG), status(0x80, 0x41, 0xfe)),
    ] {
        let answer = line.ask(&sent)?;
        let wanted = if wanted.is_empty() { [status(0x82, 0, 0), sent[10..].to_vec()].concat() } else { wanted };
        let wanted = if sent[0] == 0x61 && sent[7] == 1 { other(9, 1, wanted) } else { wanted };
        let mut wanted = wanted;
        wanted[1] = (wanted.len() - 10) as u8;
        same(&format!("the answer to {:02x?}", sent), &answer, &wanted)?;
    }
    let away = line.ask(&other(5, 1, message(0x65, 9, &[])))?;
    same("another slot", &away, &[0x81, 0, 0, 0, 0, 1, 9, 0x42, 0x05, 0x01])?;
    let shown = device.command("show")?;
    expect(shown.contains("tries left 3"), || format!("a lie about a length cost a try: {}", shown))?;
    Ok(String::new())
}

fn pieces(device: &Device) -> Outcome {
    let mut line = Line::open(&device.tty)?;
    let power_on = frame(&message(0x62, 4, &[]));
    for part in power_on.chunks(5) {
        line.put(part)?;
        same("the echo of a piece", &line.take(part.len())?, part)?;
        thread::sleep(Duration::from_millis(30));
    }
    same("its answer", &line.back()?[..10], &[0x80, 6, 0, 0, 0, 0, 4, 0, 0, 0])?;
    let long = line.ask(&message(0x6f, 5, &[0xff; 1000]))?;
    same("the answer to a thousand bytes", &long, &[0x80, 0, 0, 0, 0, 0, 5, 0x40, 0x01, 0])?;
    same("power off", &line.ask(&message(0x63, 6, &[]))?[..1], &[0x81])?;
    Ok(String::new())
}

fn listed(stack: &Stack) -> Outcome {
    let said = stack.client("opensc-tool", &["-l"], "")?;
    expect(said.contains("Yes             Card reader 00 00"), || said.clone())?;
    let said = stack.client("opensc-tool", &["-a", "-c", "default"], "")?;
    expect(said.contains("3b:04:a2:13:10:91"), || said.clone())?;
    Ok("3b:04:a2:13:10:91".to_string())
}

/// opensc-tool tries the commands of each processor card that it knows.
fn probed(stack: &Stack, device: &mut Device) -> Outcome {
    let from = device.lines().len();
    stack.client("opensc-tool", &["-n"], "")?;
    let transfers = device.lines().iter().skip(from).filter(|line| line.starts_with("trace message 6f")).count();
    expect(transfers > 10, || format!("it sent only {} commands", transfers))?;
    let shown = device.command("show")?;
    expect(shown.contains("closed, tries left 3, protected 0"), || shown.clone())?;
    Ok(format!("{} commands", transfers))
}
