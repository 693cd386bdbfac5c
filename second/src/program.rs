//! Runs a program that reads standard input and prints lines.

use std::env;
use std::io::{self, Read, Write};
use std::process::{self, Command, Stdio};
use std::sync::{mpsc, Arc};
use std::thread;
use std::time::Duration;

/// Prints a line, and ends the program where nobody reads it any more.
#[macro_export]
macro_rules! say {
    ($($part:tt)*) => {
        $crate::program::print(&format!($($part)*))
    };
}

pub fn print(line: &str) {
    if writeln!(io::stdout(), "{}", line).is_err() {
        process::exit(2);
    }
}

/// A run that takes longer is given up.
const LONGEST_RUN: Duration = Duration::from_secs(300);

/// A program and its first arguments.
#[derive(Clone)]
pub struct Program {
    pub words: Vec<String>,
}

impl Program {
    /// The command line in an environment variable, split on blanks, or else the given one.
    pub fn from_variable(name: &str, otherwise: &str) -> Result<Program, String> {
        let line = env::var(name).unwrap_or_else(|_| otherwise.to_string());
        let words: Vec<String> = line.split_whitespace().map(str::to_string).collect();
        if words.is_empty() {
            return Err(format!("{} names no program", name));
        }
        Ok(Program { words })
    }

    /// A program that stands in the same folder as this one.
    pub fn beside(name: &str) -> Result<Program, String> {
        let own = env::current_exe().map_err(|error| format!("where this program stands is not known: {}", error))?;
        let path = own.with_file_name(name);
        let here = env::current_dir().unwrap_or_default();
        let path = path.strip_prefix(&here).unwrap_or(&path);
        Ok(Program { words: vec![path.to_string_lossy().into_owned()] })
    }

    pub fn shown(&self) -> String {
        self.words.join(" ")
    }

    pub fn command(&self) -> Command {
        let mut command = Command::new(&self.words[0]);
        command.args(&self.words[1..]).stdin(Stdio::piped()).stdout(Stdio::piped());
        command
    }

    /// What the program prints for an input. A last line `ended with ..` stands for a program that
    /// did not end well, so that it compares unequal.
    pub fn lines(&self, input: impl Into<Arc<Vec<u8>>>) -> Result<Vec<String>, String> {
        let input = input.into();
        let mut child = self.command().spawn().map_err(|error| format!("cannot run {}: {}", self.shown(), error))?;
        let (stdin, stdout) = (child.stdin.take(), child.stdout.take());
        // The program may stop before it has read all of its input.
        let writer = thread::spawn(move || stdin.map(|mut stdin| stdin.write_all(&input)));
        let (sender, receiver) = mpsc::channel();
        thread::spawn(move || {
            let mut text = Vec::new();
            if let Some(mut stdout) = stdout {
                let _ = stdout.read_to_end(&mut text);
            }
            let _ = sender.send(text);
        });
        let text = match receiver.recv_timeout(LONGEST_RUN) {
            Ok(text) => text,
            Err(_) => {
                let _ = child.kill();
                let _ = child.wait();
                return Err(format!("{} did not end in {} seconds", self.shown(), LONGEST_RUN.as_secs()));
            }
        };
        let status = child.wait().map_err(|error| format!("{}: {}", self.shown(), error))?;
        let _ = writer.join();
        let text = String::from_utf8_lossy(&text).into_owned();
        let mut lines: Vec<String> = text.split('\n').map(str::to_string).collect();
        // What comes after the last newline is empty, or else a line without its end.
        match lines.pop() {
            Some(rest) if !rest.is_empty() => lines.push(format!("{} (the line does not end)", rest)),
            _ => {}
        }
        if !status.success() {
            lines.push(format!("ended with {}", status));
        }
        Ok(lines)
    }
}
