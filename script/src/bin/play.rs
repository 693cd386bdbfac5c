//! Runs a script of a session: turns it into records, converses with the session program or the
//! trial program and prints each answer taken apart.

use script::capture::Capture;
use script::follow;
use script::parse::{self, Record, Step};
use script::talk::{Heard, Over, Talk};
use script::tell;
use std::env;
use std::fs::{self, File};
use std::io::{self, Write};
use std::path::{Path, PathBuf};
use std::process::{self, ExitCode};

/// Prints a line, and ends the program where nobody reads it any more.
macro_rules! say {
    ($($part:tt)*) => {
        if writeln!(io::stdout(), $($part)*).is_err() {
            process::exit(2);
        }
    };
}

const USAGE: &str = "usage: play [--trial] [--check | --records | --bytes | --lines] FILE.script, \
    or play --told [--capture FILE.pcap] (--help tells more)";
const NO_RECORDS: &str = "--records and --bytes are for the session program: the trial program is handed with \
    each call what came of the one before, so that its input is made while it runs";

fn main() -> ExitCode {
    let words: Vec<String> = env::args().skip(1).collect();
    let words: Vec<&str> = words.iter().map(String::as_str).collect();
    let (root, words) = match words[..] {
        ["--root", root, ref rest @ ..] => (PathBuf::from(root), rest),
        ref rest => (PathBuf::from("."), rest),
    };
    let (over, words) = match *words {
        ["--trial", ref rest @ ..] => (Over::Trial, rest),
        ref rest => (Over::Session, rest),
    };
    let result = match *words {
        ["--told"] if over == Over::Session => tell_trace(None),
        ["--told", "--capture", file] if over == Over::Session => tell_trace(Some(file)),
        ["--check", ref files @ ..] if is_files(files) => check_all(over, &root, files),
        ["--records" | "--bytes", _] if over == Over::Trial => Err(NO_RECORDS.to_string()),
        ["--records", file] => load(over, file).map(|steps| print_bytes(record_lines(&steps).as_bytes())),
        ["--bytes", file] => {
            load(over, file).map(|steps| print_bytes(&records(&steps).map(Record::bytes).collect::<Vec<_>>().concat()))
        }
        ["--lines", file] => load(over, file).and_then(|steps| {
            let run = run(over, &root, file, &steps, false)?;
            let printed = print_bytes(joined(&run.lines).as_bytes());
            Ok(printed && tell_failures(file, &run.failures))
        }),
        [file] if is_files(&[file]) => load(over, file).and_then(|steps| {
            let run = run(over, &root, file, &steps, true)?;
            say!("\n{}{}", run.counts(over), if run.failures.is_empty() { ", all met" } else { "" });
            Ok(tell_failures(file, &run.failures))
        }),
        _ => Err(USAGE.to_string()),
    };
    match result {
        Ok(true) => ExitCode::SUCCESS,
        Ok(false) => ExitCode::from(1),
        Err(text) => {
            eprintln!("play: {}", text);
            ExitCode::from(2)
        }
    }
}

/// Tells a device's trace on standard input, and writes its exchanges into a capture file.
fn tell_trace(file: Option<&str>) -> Result<bool, String> {
    let start = |file: &str| {
        let capture = File::create(file).and_then(Capture::start);
        capture.map_err(|error| format!("{}: {}", file, error))
    };
    let capture = file.map(start).transpose()?;
    follow::run(io::stdin().lock(), io::stdout().lock(), capture).map_err(|error| error.to_string())
}

/// Whether these are names of files, one or more, and no option is among them.
fn is_files(words: &[&str]) -> bool {
    !words.is_empty() && !words.iter().any(|word| word.starts_with("--"))
}

fn load(over: Over, file: &str) -> Result<Vec<Step>, String> {
    let text = fs::read_to_string(file).map_err(|error| format!("{}: {}", file, error))?;
    parse::script(over, &text).map_err(|fault| format!("{}, line {}: {}", file, fault.line, fault.text))
}

fn records(steps: &[Step]) -> impl Iterator<Item = &Record> {
    steps.iter().filter_map(|step| match step {
        Step::Record { record, .. } => Some(record),
        _ => None,
    })
}

/// The records in hex, a line each; sixteen and more equal bytes as XX*N.
fn record_lines(steps: &[Step]) -> String {
    let mut text = String::new();
    for record in records(steps) {
        let bytes = record.bytes();
        let mut words = Vec::new();
        let mut at = 0;
        while at < bytes.len() {
            let run = bytes[at..].iter().take_while(|&&byte| byte == bytes[at]).count();
            if run >= 16 {
                words.push(format!("{:02X}*{}", bytes[at], run));
                at += run;
            } else {
                words.push(format!("{:02X}", bytes[at]));
                at += 1;
            }
        }
        text.push_str(&words.join(" "));
        text.push('\n');
    }
    text
}

fn joined(lines: &[String]) -> String {
    lines.iter().map(|line| format!("{}\n", line)).collect()
}

fn print_bytes(bytes: &[u8]) -> bool {
    let mut output = io::stdout();
    output.write_all(bytes).and_then(|()| output.flush()).is_ok()
}

fn tell_failures(file: &str, failures: &[String]) -> bool {
    for failure in failures {
        eprintln!("{}, {}", file, failure);
    }
    failures.is_empty()
}

// ---- running

struct Run {
    lines: Vec<String>,
    expectations: usize,
    failures: Vec<String>,
}

impl Run {
    fn counts(&self, over: Over) -> String {
        format!("{} {}s, {} expectations", self.lines.len(), over.given(), self.expectations)
    }
}

/// Runs the steps, and tells them where that is wanted.
fn run(over: Over, root: &Path, file: &str, steps: &[Step], told: bool) -> Result<Run, String> {
    let mut talk = Talk::start(over, root)?;
    let mut run = Run { lines: Vec::new(), expectations: 0, failures: Vec::new() };
    let mut last = Heard::default();
    if told {
        say!("{}", file);
    }
    for step in steps {
        match step {
            Step::Say(text) if told => say!("\n{}", text),
            Step::Say(_) => {}
            Step::Record { line, source, record } => {
                last = talk.answer(record).map_err(|text| format!("{}, line {}: {}", file, line, text))?;
                run.lines.push(last.whole_line());
                if told {
                    say!("\n{:>4}  {}", line, cut(source));
                    for (name, text) in last.told(record) {
                        say!("{}", tell::line(name, &text));
                    }
                }
            }
            Step::Expect { line, source, expected } => {
                run.expectations += 1;
                let met = last.meets(expected);
                if told {
                    say!("{:>4}  {}: {}", line, cut(source), if met { "so it is" } else { "IT IS NOT SO" });
                }
                if !met {
                    let came = last.came(expected);
                    run.failures.push(format!("line {}: {}: {} {}", line, cut(source), over.gave(), came));
                }
            }
        }
    }
    if let Some(line) = talk.end() {
        run.failures.push(format!("at the end {} printed one line too many: '{}'", over.name(), line));
    }
    Ok(run)
}

fn cut(text: &str) -> String {
    if text.chars().count() <= 100 {
        text.to_string()
    } else {
        text.chars().take(97).chain("..".chars()).collect()
    }
}

// ---- checking

/// Holds each script to its files in the folder `expected` beside it: NAME.lines has the lines that
/// `--lines` prints for it, and for the session program NAME.records has its records.
fn check_all(over: Over, root: &Path, files: &[&str]) -> Result<bool, String> {
    let (mut passed, mut failed) = (0, 0);
    for file in files {
        let result = load(over, file).and_then(|steps| check(over, root, file, &steps));
        match result {
            Ok(text) => {
                passed += 1;
                say!("passed  {} ({})", file, text);
            }
            Err(text) => {
                failed += 1;
                say!("FAILED  {}\n        {}", file, text);
            }
        }
    }
    say!("{} passed, {} failed", passed, failed);
    Ok(failed == 0)
}

fn check(over: Over, root: &Path, file: &str, steps: &[Step]) -> Result<String, String> {
    let kept = |extension: &str| {
        let script = Path::new(file);
        let mut name = script.file_stem().unwrap_or_default().to_os_string();
        name.push(extension);
        let path = script.with_file_name("expected").join(name);
        fs::read_to_string(&path).map_err(|error| format!("{}: {}", path.display(), error))
    };
    if over == Over::Session {
        same("record", &kept(".records")?, &record_lines(steps))?;
    }
    let run = run(over, root, file, steps, false)?;
    same("line", &kept(".lines")?, &joined(&run.lines))?;
    match run.failures.first() {
        Some(failure) => Err(failure.clone()),
        None => Ok(run.counts(over)),
    }
}

fn same(what: &str, wanted: &str, given: &str) -> Result<(), String> {
    if wanted == given {
        return Ok(());
    }
    let (wanted, given): (Vec<&str>, Vec<&str>) = (wanted.lines().collect(), given.lines().collect());
    let at = wanted.iter().zip(&given).take_while(|(one, two)| one == two).count();
    let shown = |lines: &[&str]| lines.get(at).map_or("nothing".to_string(), |line| format!("'{}'", cut(line)));
    Err(format!("{} {} is {}, and {} is expected", what, at + 1, shown(&given), shown(&wanted)))
}
