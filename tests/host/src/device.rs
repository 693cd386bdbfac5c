//! The device as a child: `./reader --trace`, its commands, and the lines that it prints.

use std::fs::File;
use std::io::{BufRead, BufReader, Write};
use std::path::Path;
use std::process::{Child, ChildStdin, Command, Stdio};
use std::sync::{Arc, Condvar, Mutex};
use std::thread::{self, JoinHandle};
use std::time::{Duration, Instant};

/// A line that takes longer does not come.
const PATIENCE: Duration = Duration::from_secs(20);

/// The file in its folder that has what the device last started printed on standard error.
pub const ERRORS: &str = "device.errors";

/// The lines so far, and whether there will be more.
#[derive(Default)]
struct Printed {
    lines: Mutex<(Vec<String>, bool)>,
    more: Condvar,
}

pub struct Device {
    child: Child,
    input: Option<ChildStdin>,
    printed: Arc<Printed>,
    reading: Option<JoinHandle<()>>,
    /// The host's end of its line.
    pub tty: String,
    /// What it prints for pcscd's configuration.
    pub configuration: String,
}

impl Device {
    /// Starts it in a folder with the options and the card, and waits until it has told its line.
    pub fn start(root: &Path, folder: &Path, words: &[&str]) -> Result<Device, String> {
        let errors = File::create(folder.join(ERRORS)).map_err(|error| format!("{}: {}", ERRORS, error))?;
        let mut child = Command::new(root.join("reader"))
            .args(words)
            .current_dir(folder)
            .stdin(Stdio::piped())
            .stdout(Stdio::piped())
            .stderr(errors)
            .spawn()
            .map_err(|error| format!("./reader cannot be started: {}", error))?;
        let (input, output) = (child.stdin.take(), child.stdout.take());
        let printed = Arc::new(Printed::default());
        let shared = Arc::clone(&printed);
        let reading = thread::spawn(move || {
            for line in BufReader::new(output.expect("a pipe")).lines().map_while(Result::ok) {
                shared.lines.lock().expect("a lock").0.push(line);
                shared.more.notify_all();
            }
            shared.lines.lock().expect("a lock").1 = true;
            shared.more.notify_all();
        });
        let mut device =
            Device { child, input, printed, reading: Some(reading), tty: String::new(), configuration: String::new() };
        let ready = device.wait_for(0, |line| line.starts_with("Commands:"))?;
        let lines = device.lines();
        let from = lines.iter().position(|line| line.starts_with("FRIENDLYNAME")).ok_or("no configuration was told")?;
        device.configuration = lines[from..ready].join("\n") + "\n";
        let name = lines.iter().find_map(|line| line.strip_prefix("DEVICENAME ")?.strip_suffix(":GemPCTwin"));
        device.tty = name.ok_or("no line was told")?.to_string();
        Ok(device)
    }

    /// All lines so far.
    pub fn lines(&self) -> Vec<String> {
        self.printed.lines.lock().expect("a lock").0.clone()
    }

    /// The place of the first line from there on that is so, as soon as it is printed.
    pub fn wait_for(&self, from: usize, is_so: impl Fn(&str) -> bool) -> Result<usize, String> {
        let end = Instant::now() + PATIENCE;
        let mut printed = self.printed.lines.lock().expect("a lock");
        loop {
            if let Some(at) = printed.0.iter().skip(from).position(|line| is_so(line)) {
                return Ok(from + at);
            }
            let left = end.saturating_duration_since(Instant::now());
            if printed.1 || left.is_zero() {
                let last = printed.0.last().cloned().unwrap_or_default();
                return Err(format!("the device did not print what was waited for; its last line is '{}'", last));
            }
            printed = self.printed.more.wait_timeout(printed, left).expect("a lock").0;
        }
    }

    /// Gives a command.
    pub fn say(&mut self, text: &str) -> Result<(), String> {
        let input = self.input.as_mut().ok_or("its input has ended")?;
        writeln!(input, "{}", text).map_err(|error| format!("'{}' was not taken: {}", text, error))
    }

    /// Gives a command, and the first line that it prints for it: the next one that is no trace.
    pub fn command(&mut self, text: &str) -> Result<String, String> {
        let from = self.lines().len();
        self.say(text)?;
        let at = self.wait_for(from, |line| !line.starts_with("trace "))?;
        Ok(self.lines()[at].clone())
    }

    /// Kills it, as kill -9 does: a power cut.
    pub fn kill(mut self) -> Vec<String> {
        self.end(true)
    }

    /// Ends its input, which quits, and all lines that it has printed.
    pub fn quit(mut self) -> Vec<String> {
        self.end(false)
    }

    fn end(&mut self, at_once: bool) -> Vec<String> {
        if at_once {
            let _ = self.child.kill();
        }
        self.input = None;
        let _ = self.child.wait();
        if let Some(reading) = self.reading.take() {
            let _ = reading.join();
        }
        self.lines()
    }
}

impl Drop for Device {
    fn drop(&mut self) {
        self.end(true);
    }
}
