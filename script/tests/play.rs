//! The program `play`, over session programs and trial programs that print fixed lines.

use std::fs;
use std::io::{BufRead, BufReader, Write};
use std::path::{Path, PathBuf};
use std::process::{Command, Output, Stdio};

/// A folder of its own for a test, with a script and its files in `expected`.
struct Room(PathBuf);

impl Room {
    fn new(name: &str) -> Room {
        let room = Room(Path::new(env!("CARGO_TARGET_TMPDIR")).join(name));
        let _ = fs::remove_dir_all(&room.0);
        fs::create_dir_all(room.0.join("expected")).unwrap();
        room.put("out.script", "# a removal\nremove\nexpect done\n");
        room.put("expected/out.records", "43 4F 00 00\n");
        room.put("expected/out.lines", "out 0\n");
        room
    }

    fn put(&self, name: &str, text: &str) {
        fs::write(self.0.join(name), text).unwrap();
    }

    fn path(&self, name: &str) -> String {
        self.0.join(name).to_string_lossy().into_owned()
    }

    /// Runs play with a session program.
    fn play(&self, program: &str, words: &[&str]) -> (Option<i32>, String, String) {
        self.play_with(program, "false", words)
    }

    /// Runs play with a session program and a trial program.
    fn play_with(&self, session: &str, trial: &str, words: &[&str]) -> (Option<i32>, String, String) {
        let output: Output = Command::new(env!("CARGO_BIN_EXE_play"))
            .args(words)
            .env("SESSION_PROGRAM", session)
            .env("TRIAL_PROGRAM", trial)
            .current_dir(&self.0)
            .output()
            .unwrap();
        let text = |bytes: &[u8]| String::from_utf8_lossy(bytes).into_owned();
        (output.status.code(), text(&output.stdout), text(&output.stderr))
    }

    fn check(&self, program: &str) -> (Option<i32>, String) {
        let (code, out, _) = self.play(program, &["--check", &self.path("out.script")]);
        (code, out.lines().skip_while(|line| line.starts_with("passed")).collect::<Vec<_>>().join("\n"))
    }
}

#[test]
fn a_script_is_told() {
    let room = Room::new("told");
    let (code, out, _) = room.play("echo out 0", &["out.script"]);
    assert_eq!(code, Some(0));
    assert!(out.contains("   3  expect done: so it is\n\n1 records, 1 expectations, all met\n"), "{}", out);
    let (code, out, errors) = room.play("echo bad", &["out.script"]);
    assert_eq!(code, Some(1));
    assert!(out.contains("expect done: IT IS NOT SO"), "{}", out);
    assert_eq!(errors, "out.script, line 3: expect done: the session program printed 'bad'\n");
}

#[test]
fn a_parameter_set_is_told() {
    let room = Room::new("set");
    room.put("set.script", "parameters t0 1100000A00\nexpect t0 1100000A00\nexpect t1 1100000A00\n");
    let (code, out, _) = room.play("echo msg 0 820500000000000100001100000a00", &["set.script"]);
    assert_eq!(code, Some(1));
    let set = "T=0: F 372 (FI 1), D 1 (DI 1), direct convention, extra guard time 0 etu, WI 10, clock stop not allowed";
    for line in [
        "        sent    61 set parameters, bSlot 00, bSeq 00, protocol number 00, 5 data bytes 11 00 00 0A 00",
        &format!("        set     {}", set),
        "        answer  82 parameters, bSlot 00, bSeq 00, protocol number 00",
        "        data    11 00 00 0A 00",
        "   2  expect t0 1100000A00: so it is",
        "   3  expect t1 1100000A00: IT IS NOT SO",
    ] {
        assert!(out.lines().any(|told| told == line), "no line '{}' in {}", line, out);
    }
    assert_eq!(out.matches(set).count(), 2);
}

#[test]
fn records_bytes_and_lines() {
    let room = Room::new("written");
    assert_eq!(room.play("false", &["--records", "out.script"]).1, "43 4F 00 00\n");
    assert_eq!(room.play("false", &["--bytes", "out.script"]).1, "CO\0\0");
    assert_eq!(room.play("echo out 0", &["--lines", "out.script"]).1, "out 0\n");
    room.put("long.script", "raw 65 00*15 FF*16 01");
    assert_eq!(
        room.play("false", &["--records", "long.script"]).1,
        format!("4F 4D 21 00 65{} FF*16 01\n", " 00".repeat(15))
    );
}

#[test]
fn a_check_passes() {
    let room = Room::new("passes");
    assert_eq!(room.check("echo out 0"), (Some(0), "1 passed, 0 failed".to_string()));
}

#[test]
fn a_check_fails_where_anything_differs() {
    let fails = |room: &Room, program: &str, why: &str| {
        let wanted = format!("FAILED  {}\n        {}\n0 passed, 1 failed", room.path("out.script"), why);
        assert_eq!(room.check(program), (Some(1), wanted));
    };
    let room = Room::new("differs");
    fails(&room, "echo out 1", "line 1 is 'out 1', and 'out 0' is expected");
    fails(&room, r"printf out\0400\nin\0400\n", "at the end the session program printed one line too many: 'in 0'");
    fails(&room, "true", &format!("{}, line 2: true printed no line for this record", room.path("out.script")));
    room.put("expected/out.records", "43 4F 00 01\n");
    fails(&room, "echo out 0", "record 1 is '43 4F 00 00', and '43 4F 00 01' is expected");
    room.put("expected/out.records", "43 4F 00 00\n43 4F 00 00\n");
    fails(&room, "echo out 0", "record 2 is nothing, and '43 4F 00 00' is expected");
    let room = Room::new("unmet");
    room.put("out.script", "remove\nexpect bad\n");
    fails(&room, "echo out 0", "line 2: expect bad: the session program printed 'out 0'");
    let room = Room::new("missing");
    fs::remove_file(room.path("expected/out.lines")).unwrap();
    fails(&room, "echo out 0", &format!("{}: No such file or directory (os error 2)", room.path("expected/out.lines")));
}

const USAGE: &str = "usage: play [--trial] [--check | --records | --bytes | --lines] FILE.script, \
    or play --told [--capture FILE.pcap] (--help tells more)";
const NO_RECORDS: &str = "--records and --bytes are for the session program: the trial program is handed with \
    each call what came of the one before, so that its input is made while it runs";

#[test]
fn what_cannot_be_run() {
    let room = Room::new("faults");
    room.put("bad.script", "remove\nsing\n");
    for (words, why) in [
        (&["bad.script"][..], "bad.script, line 2: 'sing' is no word of the language (docs/SCRIPTS.md has it)"),
        (&["--sing"], USAGE),
        (&["--check"], USAGE),
        (&["--trial"], USAGE),
        (&["--trial", "--check"], USAGE),
        (&["--check", "--trial", "out.script"], USAGE),
        (&["none.script"], "none.script: No such file or directory (os error 2)"),
        (&["--trial", "--records", "out.script"], NO_RECORDS),
        (&["--trial", "--bytes", "out.script"], NO_RECORDS),
    ] {
        let (code, out, errors) = room.play("echo out 0", words);
        assert_eq!((code, out, errors), (Some(2), String::new(), format!("play: {}\n", why)));
    }
}

// ---- over the trial program

/// A raw record with these first bytes, in hex.
fn raw(first: &str) -> String {
    format!("{:0<64}", first)
}

/// A line of the trial program: its number, the answer, the record and what changed.
fn trial_line(number: u8, answer: &str, record: &str, changes: &str) -> String {
    format!("{} {} {} {:e<542}{}\n", number, answer.len() / 2, raw(record), answer, changes)
}

const WRITTEN: &str = "800200000000000000009000";
const CHANGES: &str = " ffff=0a 10000=0b";

/// A room with a script of three calls, and a trial program that prints these lines and keeps what it reads.
fn trial_room(name: &str, lines: &[String]) -> Room {
    let room = Room::new(name);
    room.put("lines", &lines.concat());
    room.put("trial.sh", "cat lines\nexec cat >cases\n");
    room.put(
        "out.script",
        "insert i2c1024 at FFFF 01 02\nexpect done\nsend FF D0 FF FF 02 0A 0B\nexpect 90 00\nremove\n",
    );
    fs::remove_file(room.path("expected/out.records")).unwrap();
    room.put("expected/out.lines", &format!("in 0\nmsg 0 {} ffff=0a0b\nout 0\n", WRITTEN));
    room
}

/// The lines of the first removal and of the three calls.
fn trial_lines() -> Vec<String> {
    vec![
        trial_line(0, "", "00000008", ""),
        trial_line(0, "", "0b000008", ""),
        trial_line(0, WRITTEN, "0b010220", CHANGES),
        trial_line(0, "", "00000008", ""),
    ]
}

impl Room {
    fn trial(&self, words: &[&str]) -> (Option<i32>, String, String) {
        self.play_with("false", "sh trial.sh", &[&["--trial"], words].concat())
    }
}

#[test]
fn a_script_is_told_over_the_trial_program() {
    let room = trial_room("trial-told", &trial_lines());
    let (code, out, errors) = room.trial(&["out.script"]);
    assert_eq!((code, errors.as_str()), (Some(0), ""));
    for line in [
        "        sent    insert: I2C of 1024 kbit, kind 11, image of 131072 bytes",
        "        line    in 0, the card is in",
        "        slot    kind 11, inactive, no type, page 8, not chosen, closed, tries left 0, protected 0",
        "   2  expect done: so it is",
        "        sent    6F transfer, bSlot 00, bSeq 00, D0 write 0A 0B at 0FFFF",
        "        slot    kind 11, active, type 02, page 32, not chosen, closed, tries left 0, protected 0",
        "        changed 0FFFF..10000 (2 bytes)",
        "        line    out 0, the slot is empty",
        "3 calls, 2 expectations, all met",
    ] {
        assert!(out.lines().any(|told| told == line), "no line '{}' in {}", line, out);
    }
    assert_eq!(room.trial(&["--lines", "out.script"]).1, fs::read_to_string(room.path("expected/out.lines")).unwrap());
}

/// Each case has the record and the image that came of the ones before.
#[test]
fn the_cases_of_a_script() {
    let room = trial_room("trial-cases", &trial_lines());
    room.put("out.script", "insert i2c1024 at FFFF 01 02\nsend FF D0 FF FF 02 0A 0B\nraw 65\n");
    assert_eq!(room.trial(&["out.script"]).0, Some(0));
    let record = |first: &[u8]| [first, &[0; 32][first.len()..]].concat();
    let case = |call: u8, first: &[u8], message: &[u8], image: &[u8]| {
        let lengths = [&(message.len() as u16).to_le_bytes()[..], &(image.len() as u32).to_le_bytes()].concat();
        [&[call][..], &record(first), &[0x0f, 0x01, 0xee], &lengths, message, image].concat()
    };
    let mut image = vec![0xff; 131_072];
    image[0xffff..0x10001].copy_from_slice(&[0x01, 0x02]);
    let message = [0x6f, 7, 0, 0, 0, 0, 0, 0, 0, 0, 0xff, 0xd0, 0xff, 0xff, 0x02, 0x0a, 0x0b];
    let mut wanted = case(2, &[], &[], &[]);
    wanted.extend(case(1, &[0, 0, 0, 8], &[11], &image));
    wanted.extend(case(0, &[11, 0, 0, 8], &message, &image));
    image[0xffff..0x10001].copy_from_slice(&[0x0a, 0x0b]);
    wanted.extend(case(0, &[11, 1, 2, 32], &[0x65], &image));
    let cases = fs::read(room.path("cases")).unwrap();
    assert_eq!(cases.len(), wanted.len());
    assert!(cases == wanted);
}

#[test]
fn a_check_over_the_trial_program() {
    let checked = |name: &str, lines: &[String]| {
        let room = trial_room(name, lines);
        let (code, out, _) = room.trial(&["--check", "out.script"]);
        (code, out)
    };
    let fails = |name: &str, line: usize, other: &str, why: &str| {
        let mut lines = trial_lines();
        lines.splice(line..line + 1, [other.to_string()]);
        let wanted = format!("FAILED  out.script\n        {}\n0 passed, 1 failed\n", why);
        assert_eq!(checked(name, &lines), (Some(1), wanted));
    };
    let passed = "passed  out.script (3 calls, 2 expectations)\n1 passed, 0 failed\n";
    assert_eq!(checked("trial-passes", &trial_lines()), (Some(0), passed.to_string()));
    let wanted = format!("'msg 0 {} ffff=0a0b' is expected", WRITTEN);
    fails(
        "trial-changed-less",
        2,
        &trial_line(0, WRITTEN, "0b010220", " ffff=0a"),
        &format!("line 2 is 'msg 0 {} ffff=0a', and {}", WRITTEN, wanted),
    );
    fails(
        "trial-changed-elsewhere",
        2,
        &trial_line(0, WRITTEN, "0b010220", " 0000=0b ffff=0a"),
        &format!("line 2 is 'msg 0 {} 0000=0b ffff=0a', and {}", WRITTEN, wanted),
    );
    fails("trial-refused", 2, &trial_line(4, "", "0b000008", ""), &format!("line 2 is 'msg 4', and {}", wanted));
    fails("trial-bad", 2, "bad\n", "out.script, line 3: sh trial.sh printed 'bad', no line of a case");
    fails("trial-fewer", 3, "", "out.script, line 5: sh trial.sh printed no line for this call");
    let more = [&trial_lines()[3][..], "bad\n"].concat();
    fails("trial-more", 3, &more, "at the end the trial program printed one line too many: 'bad'");
    fails("trial-start", 0, "bad\n", "sh trial.sh printed 'bad', no line of a case");
    let why = "sh trial.sh gave 'out 4' for a removal, and no empty record";
    fails("trial-start-refused", 0, &trial_line(4, "", "", ""), why);
}

#[test]
fn an_expectation_over_the_trial_program() {
    let room = trial_room("trial-unmet", &trial_lines()[..3]);
    room.put(
        "out.script",
        "insert i2c1024\nexpect refused 3\nsend FF\nexpect changed FFFF..10000\nexpect changed nothing\n",
    );
    let (code, out, errors) = room.trial(&["out.script"]);
    assert_eq!(code, Some(1));
    assert!(out.contains("expect changed FFFF..10000: so it is"), "{}", out);
    let wanted = format!(
        "out.script, line 2: expect refused 3: the trial program gave 'in 0'\n\
         out.script, line 5: expect changed nothing: the trial program gave 'msg 0 {} ffff=0a0b'\n",
        WRITTEN
    );
    assert_eq!(errors, wanted);
}

/// The page of a record and its flag, expected; where it is another, it is told which.
#[test]
fn an_expected_page() {
    let chosen = format!("{:0<32}01", "0b010208");
    let mut lines = trial_lines();
    lines.insert(3, trial_line(0, WRITTEN, &chosen, ""));
    let room = trial_room("trial-page", &lines);
    room.put(
        "out.script",
        "insert i2c1024\nexpect page 8 not chosen\nselect\nexpect page 32 not chosen\nexpect page 32 chosen\n\
         page 03\nexpect page 8 chosen\nexpect page 8 not chosen\nremove\nexpect page 8 not chosen\n",
    );
    let (code, out, errors) = room.trial(&["out.script"]);
    assert_eq!(code, Some(1));
    for line in [
        "   4  expect page 32 not chosen: so it is",
        "   5  expect page 32 chosen: IT IS NOT SO",
        "        slot    kind 11, active, type 02, page 8, chosen, closed, tries left 0, protected 0",
        "   7  expect page 8 chosen: so it is",
        "  10  expect page 8 not chosen: so it is",
    ] {
        assert!(out.lines().any(|told| told == line), "no line '{}' in {}", line, out);
    }
    let wanted = format!(
        "out.script, line 5: expect page 32 chosen: the trial program gave 'msg 0 {} ffff=0a0b' and page 32, not chosen\n\
         out.script, line 8: expect page 8 not chosen: the trial program gave 'msg 0 {}' and page 8, chosen\n",
        WRITTEN, WRITTEN
    );
    assert_eq!(errors, wanted);
}

// ---- a device's trace

/// The trace of the calls that `trial_room` has lines for.
fn trace() -> String {
    let message = "6f070000000000000000ffd0ffff020a0b";
    let image = format!("{}0102{}", "ff".repeat(0xffff), "ff".repeat(0xffff));
    format!(
        "trace in 11 {} {}\ntrace message {} {} {}{}\ntrace out {}\n",
        raw("0b000008"),
        image,
        message,
        WRITTEN,
        raw("0b010220"),
        CHANGES,
        raw("00000008")
    )
}

impl Room {
    /// Runs play with this standard input.
    fn told(&self, input: &str, words: &[&str]) -> (Option<i32>, String, String) {
        self.put("input", input);
        let output = Command::new(env!("CARGO_BIN_EXE_play"))
            .args(words)
            .stdin(fs::File::open(self.path("input")).unwrap())
            .current_dir(&self.0)
            .output()
            .unwrap();
        let text = |bytes: &[u8]| String::from_utf8_lossy(bytes).into_owned();
        (output.status.code(), text(&output.stdout), text(&output.stderr))
    }
}

/// A trace is told in the words that the same calls are told in over the trial program.
#[test]
fn a_trace_is_told() {
    let room = trial_room("trace", &trial_lines());
    let (_, played, _) = room.trial(&["out.script"]);
    let parts = |text: &str| text.lines().filter(|line| line.starts_with("        ")).map(str::to_string).collect();
    let played: Vec<String> = parts(&played);
    let (code, out, errors) = room.told(&trace(), &["--told"]);
    assert_eq!((code, errors.as_str()), (Some(0), ""));
    assert_eq!(played, parts(&out));
    assert_eq!(out.matches("\n\n").count(), 2);
    let (code, out, _) = room.told("ready\ntrace sing\nready\n", &["--told"]);
    assert_eq!(code, Some(1));
    assert_eq!(out, "ready\n\ntrace line that is none: trace sing\nready\n");
}

#[test]
fn a_trace_is_captured() {
    let room = Room::new("captured");
    let (code, out, errors) = room.told(&trace(), &["--root", "/", "--told", "--capture", "out.pcap"]);
    assert_eq!((code, errors.as_str()), (Some(0), ""));
    assert_eq!(out, room.told(&trace(), &["--told"]).1);
    let file = fs::read(room.path("out.pcap")).unwrap();
    // Four packets of descriptors and two of the message, each with 64 bytes in front.
    assert_eq!(file.len(), 24 + 6 * 64 + 18 + 32 + 17 + 12);
    room.told(&trace(), &["--told", "--capture", "again.pcap"]);
    assert!(file == fs::read(room.path("again.pcap")).unwrap());
    let (code, _, errors) = room.told("", &["--told", "--capture", "no/out.pcap"]);
    assert_eq!((code, errors.as_str()), (Some(2), "play: no/out.pcap: No such file or directory (os error 2)\n"));
    for words in [&["--told", "--capture"][..], &["--told", "out.pcap"], &["--trial", "--told"]] {
        let (code, out, errors) = room.told("", words);
        assert_eq!((code, out, errors), (Some(2), String::new(), format!("play: {}\n", USAGE)));
    }
}

/// A line is told, and captured, before the next one comes.
#[test]
fn a_trace_is_told_as_it_comes() {
    let room = Room::new("as-it-comes");
    let mut play = Command::new(env!("CARGO_BIN_EXE_play"))
        .args(["--told", "--capture", "out.pcap"])
        .current_dir(&room.0)
        .stdin(Stdio::piped())
        .stdout(Stdio::piped())
        .spawn()
        .unwrap();
    let (mut input, output) = (play.stdin.take().unwrap(), play.stdout.take().unwrap());
    let mut lines = BufReader::new(output).lines().map(|line| line.unwrap());
    let mut captured = 0;
    for _ in 0..3 {
        writeln!(input, "ready").unwrap();
        assert_eq!(lines.next().as_deref(), Some("ready"));
        writeln!(input, "trace escape 6b000000000001000000 83000000000001020000").unwrap();
        let told: Vec<String> = lines.by_ref().take(5).collect();
        assert!(told[4].starts_with("        device  answered"), "{:?}", told);
        let length = fs::metadata(room.path("out.pcap")).unwrap().len();
        assert!(length > captured);
        captured = length;
    }
    drop(input);
    assert_eq!(lines.next(), None);
    assert_eq!(play.wait().unwrap().code(), Some(0));
}
