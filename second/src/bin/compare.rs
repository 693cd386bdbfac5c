//! Compares two session programs, or two trial programs, over random input: all lines must be
//! equal, and the input must have reached all that it can.

use second::count::{self, Count};
use second::program::Program;
use second::random::{self, Stream};
use second::say;
use second::shrink::{dump, shortened, shrink, Part};
use std::fs;
use std::process::ExitCode;
use std::sync::atomic::{AtomicBool, AtomicUsize, Ordering};
use std::sync::{Arc, Mutex};
use std::thread;
use std::time::{Duration, Instant};

/// Most messages or cases of one run of a program, and the fewest runs that a comparison has.
const MOST_IN_STREAM: usize = 1000;
const FEWEST_STREAMS: usize = 40;

const DIFFERENCE: &str = "target/difference.bin";

struct Wanted {
    trial: bool,
    seed: u64,
    number: usize,
    table: bool,
}

fn main() -> ExitCode {
    let words: Vec<String> = std::env::args().skip(1).collect();
    let outcome = read_words(&words).and_then(|wanted| {
        if wanted.trial {
            let first = Program::from_variable("TRIAL_PROGRAM", "tools/run-x86 target/bin/trial")?;
            let second = Program::beside("trial")?;
            compare(&wanted, &first, &second, "cases", &count::trial_goals(), random::cases)
        } else {
            let first = Program::from_variable("SESSION_PROGRAM", "tools/run-x86 crates/session/out/session")?;
            let second = Program::beside("session")?;
            compare(&wanted, &first, &second, "messages", &count::session_goals(), random::sessions)
        }
    });
    match outcome {
        Ok(true) => ExitCode::SUCCESS,
        Ok(false) => ExitCode::from(1),
        Err(text) => {
            eprintln!("compare: {}", text);
            ExitCode::from(2)
        }
    }
}

fn read_words(words: &[String]) -> Result<Wanted, String> {
    let (mut trial, mut table, mut seed, mut messages, mut cases) = (false, false, None, None, None);
    let mut words = words.iter();
    while let Some(word) = words.next() {
        let mut number = || {
            let value = words.next().ok_or_else(|| format!("{} needs a number", word))?;
            value.parse::<u64>().map_err(|_| format!("{} needs a number, and {} is none", word, value))
        };
        match word.as_str() {
            "--trial" => trial = true,
            "--count" => table = true,
            "--seed" => seed = Some(number()?),
            "--messages" => messages = Some(number()?),
            "--cases" => cases = Some(number()?),
            _ => return Err(format!("{} is no word of this command (--help tells them)", word)),
        }
    }
    let seed = seed.ok_or("--seed S is missing")?;
    let number = match (trial, messages, cases) {
        (false, Some(number), None) | (true, None, Some(number)) => number as usize,
        (false, ..) => return Err("sessions need --messages N, and no --cases".to_string()),
        (true, ..) => return Err("trial cases need --cases N, and no --messages".to_string()),
    };
    if number == 0 {
        return Err("nothing is compared: the number is 0".to_string());
    }
    Ok(Wanted { trial, seed, number, table })
}

/// A stream that the programs answer differently, and the first line that is not the same.
struct Difference<P> {
    stream: Stream<P>,
    line: usize,
}

type Make<P> = fn(u64, u64, usize, &mut Count) -> Stream<P>;

fn compare<P: Part + Send>(
    wanted: &Wanted,
    first: &Program,
    second: &Program,
    noun: &str,
    goals: &[String],
    make: Make<P>,
) -> Result<bool, String> {
    say!("first program   {}", first.shown());
    say!("second program  {}", second.shown());
    // A program that cannot be run at all is told at once.
    for program in [first, second] {
        let lines = program.lines(Vec::new())?;
        if !lines.is_empty() {
            return Err(format!(
                "{} gives '{}' for an empty input, which has a clean end",
                program.shown(),
                lines.join(" / ")
            ));
        }
    }

    let began = Instant::now();
    let size = (wanted.number / FEWEST_STREAMS).clamp(1, MOST_IN_STREAM);
    let streams = (wanted.number + size - 1) / size;
    let workers = thread::available_parallelism().map_or(2, |count| count.get());
    let (next, done) = (AtomicUsize::new(0), AtomicUsize::new(0));
    let stop = AtomicBool::new(false);
    let found: Mutex<Vec<(usize, Difference<P>)>> = Mutex::new(Vec::new());
    let faults: Mutex<Vec<String>> = Mutex::new(Vec::new());
    let total: Mutex<(Count, usize, usize)> = Mutex::new((Count::default(), 0, 0));

    thread::scope(|scope| {
        let work = || {
            while !stop.load(Ordering::SeqCst) {
                let index = next.fetch_add(1, Ordering::SeqCst);
                if index >= streams {
                    break;
                }
                let size = size.min(wanted.number - index * size);
                let mut counted = Count::default();
                let stream = make(wanted.seed, index as u64, size, &mut counted);
                match both(first, second, &stream) {
                    Ok(None) => {
                        done.fetch_add(size, Ordering::SeqCst);
                        if let Ok(mut total) = total.lock() {
                            total.0.join(&counted);
                            total.1 += stream.starts.len();
                            total.2 += stream.parts.len();
                        }
                    }
                    Ok(Some(line)) => {
                        stop.store(true, Ordering::SeqCst);
                        if let Ok(mut found) = found.lock() {
                            found.push((index, Difference { stream, line }));
                        }
                    }
                    Err(text) => {
                        stop.store(true, Ordering::SeqCst);
                        if let Ok(mut faults) = faults.lock() {
                            faults.push(text);
                        }
                    }
                }
            }
        };
        let workers: Vec<_> = (0..workers).map(|_| scope.spawn(work)).collect();
        let mut said = Instant::now();
        while !workers.iter().all(|worker| worker.is_finished()) {
            thread::sleep(Duration::from_millis(50));
            if said.elapsed() > Duration::from_secs(3) {
                said = Instant::now();
                say!("  {} of {} {} compared", done.load(Ordering::SeqCst), wanted.number, noun);
            }
        }
    });

    if let Some(text) = faults.into_inner().unwrap_or_default().pop() {
        return Err(text);
    }
    let mut found = found.into_inner().unwrap_or_default();
    found.sort_by_key(|(index, _)| *index);
    if let Some((index, difference)) = found.into_iter().next() {
        say!("stream {} of seed {} differs at its line {}", index, wanted.seed, difference.line + 1);
        tell(first, second, difference)?;
        return Ok(false);
    }
    let (counted, sessions, parts) = match total.into_inner() {
        Ok(total) => total,
        Err(_) => return Err("a part of the comparison broke off".to_string()),
    };
    if wanted.table {
        say!("{}", counted.table(goals).trim_end());
    }
    let missing = counted.missing(goals);
    let seconds = began.elapsed().as_secs();
    let what = if wanted.trial {
        format!("{} cases", wanted.number)
    } else {
        format!("at least {} messages in {} sessions of {} records", wanted.number, sessions, parts)
    };
    say!("seed {}: {}, {} runs of each program, {} s", wanted.seed, what, streams, seconds);
    say!("all lines are equal; {} of {} things to reach were reached", goals.len() - missing.len(), goals.len());
    if !missing.is_empty() {
        say!("FAILED: this run is to reach these too (fewer than 50000 {} may be too few):", noun);
        for what in &missing {
            say!("  {}", what);
        }
    }
    Ok(missing.is_empty())
}

/// Runs both programs, side by side, over a stream: the first line that is not the same in both
/// and as the rules have it.
fn both<P: Part>(first: &Program, second: &Program, stream: &Stream<P>) -> Result<Option<usize>, String> {
    let (one, two) = both_lines(first, second, &stream.parts)?;
    if two != stream.lines {
        let line = unequal(&two, &stream.lines);
        return Err(format!("{} does not print what its own rules give, at line {}", second.shown(), line + 1));
    }
    Ok(if one == two { None } else { Some(unequal(&one, &two)) })
}

fn unequal(one: &[String], two: &[String]) -> usize {
    one.iter().zip(two).take_while(|(one, two)| one == two).count()
}

/// All parts as they stand on standard input.
fn bytes<P: Part>(parts: &[P]) -> Vec<u8> {
    let mut bytes = Vec::new();
    parts.iter().for_each(|part| bytes.extend_from_slice(&part.bytes()));
    bytes
}

fn both_lines<P: Part>(first: &Program, second: &Program, parts: &[P]) -> Result<(Vec<String>, Vec<String>), String> {
    // The images of large cards are many bytes, which both programs are handed from one place.
    let input = Arc::new(bytes(parts));
    let (one, two) = thread::scope(|scope| {
        let one = scope.spawn(|| first.lines(input.clone()));
        let two = second.lines(input.clone());
        (one.join(), two)
    });
    let one = one.map_err(|_| "a run broke off".to_string())?;
    Ok((one?, two?))
}

/// Shrinks a difference and prints what is left of it.
fn tell<P: Part>(first: &Program, second: &Program, difference: Difference<P>) -> Result<(), String> {
    let mut differs = |parts: &[P]| matches!(both_lines(first, second, parts), Ok((one, two)) if one != two);
    // The session of the first unequal line alone; else all that came before it.
    let Difference { stream, line } = difference;
    let last = line.min(stream.parts.len() - 1);
    let start = stream.starts.iter().rev().find(|&&start| start <= last).copied().unwrap_or(0);
    let (session, before) = (stream.parts[start..=last].to_vec(), stream.parts[..=last].to_vec());
    let parts = if differs(&session) {
        session
    } else if differs(&before) {
        before
    } else {
        stream.parts
    };
    say!("shrinking a session of {} parts", parts.len());
    let parts = shrink(parts, &mut differs);
    let (one, two) = both_lines(first, second, &parts)?;

    say!("\nDIFFERENCE: the shortest that was found, of {} parts\n", parts.len());
    let none = "(nothing)".to_string();
    for k in 0..parts.len().max(one.len()).max(two.len()) {
        if let Some(part) = parts.get(k) {
            say!("{}. {}", k + 1, part.told().replace('\n', "\n   "));
        }
        let (one, two) = (one.get(k).unwrap_or(&none), two.get(k).unwrap_or(&none));
        if one == two {
            say!("   both    {}", shortened(one));
        } else {
            say!("   first   {}\n   second  {}", shortened(one), shortened(two));
        }
        if let Some(part) = parts.get(k) {
            say!("{}", dump(&part.bytes()).trim_end());
        }
        say!("");
    }
    match fs::write(DIFFERENCE, bytes(&parts)) {
        Ok(()) => say!("its bytes are in {}", DIFFERENCE),
        Err(error) => say!("its bytes could not be written to {}: {}", DIFFERENCE, error),
    }
    Ok(())
}
