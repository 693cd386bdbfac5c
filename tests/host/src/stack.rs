//! A pcscd of the test's own, the host's own programs over it, and what its log has seen of the line.

use crate::line;
use std::fs::{self, File};
use std::io::Write;
use std::path::{Path, PathBuf};
use std::process::{Child, ChildStdin, Command, Stdio};
use std::thread;
use std::time::{Duration, Instant};

/// Every client runs under this limit, in seconds.
const LIMIT: &str = "20";
/// A reader that is not there by then does not come.
const PATIENCE: Duration = Duration::from_secs(15);

/// A message or a command, and its answer.
pub type Exchange = (Vec<u8>, Vec<u8>);

pub struct Stack {
    child: Child,
    folder: PathBuf,
    socket: PathBuf,
    log: PathBuf,
}

impl Stack {
    /// Starts it with a /run of its own in a folder, so that another pcscd of the machine is left alone, and waits for the
    /// reader.
    pub fn start(folder: &Path, configuration: &str) -> Result<Stack, String> {
        let (run, set_up, log) = (folder.join("run"), folder.join("reader.conf.d"), folder.join("pcscd.log"));
        let told = |error: std::io::Error| format!("{}: {}", folder.display(), error);
        for made in [&run, &set_up] {
            fs::create_dir_all(made).map_err(told)?;
        }
        fs::write(set_up.join("reader"), configuration).map_err(told)?;
        let output = File::create(&log).map_err(told)?;
        // It ends with this program, however that ends.
        let child = Command::new("setpriv")
            .args(["--pdeathsig", "TERM", "unshare", "--mount", "sh", "-c"])
            .arg("mount --bind \"$1\" /run && exec pcscd --foreground --debug --config \"$2\"")
            .args([Path::new("pcscd"), &run, &set_up])
            .env("LIBCCID_ifdLogLevel", "0x000F")
            .stdin(Stdio::null())
            .stdout(output.try_clone().map_err(told)?)
            .stderr(output)
            .spawn()
            .map_err(|error| format!("setpriv cannot be started: {}", error))?;
        let mut stack = Stack { child, folder: folder.to_path_buf(), socket: run.join("pcscd/pcscd.comm"), log };
        let end = Instant::now() + PATIENCE;
        loop {
            if stack.client("opensc-tool", &["-l"], "").map_or(false, |said| said.contains("Card reader 00 00")) {
                return Ok(stack);
            }
            if Instant::now() > end || !matches!(stack.child.try_wait(), Ok(None)) {
                let seen = fs::read_to_string(&stack.log).unwrap_or_default();
                let last: Vec<&str> = seen.lines().rev().take(12).collect();
                return Err(format!(
                    "pcscd has no reader (it needs root, for a /run of its own); its log ends, last line first:\n{}",
                    last.join("\n")
                ));
            }
            thread::sleep(Duration::from_millis(50));
        }
    }

    /// A program of the host, whose standard error goes where its output does.
    fn command(&self, program: &str, words: &[&str]) -> Command {
        let mut command = Command::new("timeout");
        command.args([LIMIT, "sh", "-c", "exec \"$@\" 2>&1", "sh", program]).args(words);
        command.env("PCSCLITE_CSOCK_NAME", &self.socket).current_dir(&self.folder);
        command.stdin(Stdio::piped()).stdout(Stdio::piped());
        command
    }

    /// Runs a program of the host, and all that it prints.
    pub fn client(&self, program: &str, words: &[&str], input: &str) -> Result<String, String> {
        let mut child = self.command(program, words).spawn().map_err(|error| format!("{}: {}", program, error))?;
        if let Some(mut stdin) = child.stdin.take() {
            let _ = stdin.write_all(input.as_bytes());
        }
        let output = child.wait_with_output().map_err(|error| format!("{}: {}", program, error))?;
        let text = String::from_utf8_lossy(&output.stdout).into_owned();
        match output.status.code() {
            Some(124) => Err(format!("{} did not end in {} seconds: {}", program, LIMIT, text)),
            _ => Ok(text),
        }
    }

    /// Commands in one visit, by scriptor, each with the answer's data.
    pub fn commands(&self, commands: &[Vec<u8>]) -> Result<Vec<Vec<u8>>, String> {
        let script: String = commands.iter().map(|command| told(command) + "\n").collect();
        let said = self.client("scriptor", &[], &script)?;
        let exchanges = exchanges(&said);
        let sent: Vec<&Vec<u8>> = exchanges.iter().map(|(command, _)| command).collect();
        if sent != commands.iter().collect::<Vec<_>>() {
            return Err(format!("scriptor sent {} of {} commands: {}", sent.len(), commands.len(), end_of(&said)));
        }
        Ok(exchanges.into_iter().map(|(_, answer)| answer).collect())
    }

    /// A visit that waits between its commands.
    pub fn visit(&self) -> Result<Visit, String> {
        let mut child = self.command("scriptor", &[]).spawn().map_err(|error| format!("scriptor: {}", error))?;
        let input = child.stdin.take().ok_or("scriptor has no input")?;
        Ok(Visit { child, input })
    }

    /// Ends it, and its whole log.
    pub fn stop(mut self) -> Result<String, String> {
        self.end();
        fs::read_to_string(&self.log).map_err(|error| format!("{}: {}", self.log.display(), error))
    }

    fn end(&mut self) {
        let _ = Command::new("kill").arg(self.child.id().to_string()).stderr(Stdio::null()).status();
        let end = Instant::now() + PATIENCE;
        while matches!(self.child.try_wait(), Ok(None)) {
            if Instant::now() > end {
                let _ = self.child.kill();
            }
            thread::sleep(Duration::from_millis(20));
        }
    }
}

impl Drop for Stack {
    fn drop(&mut self) {
        if matches!(self.child.try_wait(), Ok(None)) {
            self.end();
        }
    }
}

/// scriptor, fed a command at a time.
pub struct Visit {
    child: Child,
    input: ChildStdin,
}

impl Visit {
    pub fn send(&mut self, command: &[u8]) -> Result<(), String> {
        let line = told(command) + "\n";
        self.input.write_all(line.as_bytes()).map_err(|error| format!("scriptor takes nothing: {}", error))
    }

    /// All that it printed.
    pub fn end(self) -> Result<String, String> {
        drop(self.input);
        let output = self.child.wait_with_output().map_err(|error| format!("scriptor: {}", error))?;
        Ok(String::from_utf8_lossy(&output.stdout).into_owned())
    }
}

/// Bytes as scriptor takes them.
pub fn told(bytes: &[u8]) -> String {
    bytes.iter().map(|byte| format!("{:02X}", byte)).collect::<Vec<_>>().join(" ")
}

fn end_of(text: &str) -> String {
    let from = text.len().saturating_sub(600);
    String::from_utf8_lossy(&text.as_bytes()[from..]).into_owned()
}

/// The bytes of a line that has nothing else.
fn row(text: &str) -> Option<Vec<u8>> {
    text.split_whitespace()
        .map(|word| u8::from_str_radix(word, 16).ok().filter(|_| word.len() == 2))
        .collect::<Option<Vec<u8>>>()
}

/// What scriptor printed: behind `>` a command, and behind `<` its answer, each in rows of sixteen bytes, the answer up to a
/// colon with words.
pub fn exchanges(said: &str) -> Vec<Exchange> {
    let mut all: Vec<Exchange> = Vec::new();
    let (mut sending, mut answering) = (false, false);
    for line in said.lines() {
        let (bytes, ends) = match line.split_once(" : ") {
            Some((bytes, _)) => (bytes, true),
            None => (line, false),
        };
        if let Some(bytes) = bytes.strip_prefix("> ") {
            all.push((row(bytes).unwrap_or_default(), Vec::new()));
            (sending, answering) = (true, false);
        } else if let (Some(bytes), Some(last)) = (bytes.strip_prefix("< "), all.last_mut()) {
            last.1.extend(row(bytes).unwrap_or_default());
            (sending, answering) = (false, !ends);
        } else if let (Some(bytes), Some(last)) = (row(bytes), all.last_mut()) {
            if sending {
                last.0.extend(bytes);
            } else if answering {
                last.1.extend(bytes);
                answering = !ends;
            }
        }
    }
    all
}

/// What libccid wrote to the line and read from it, out of pcscd's log: each message with its answer, in order. The frames'
/// check bytes are looked at, and the echo. A last message that was not answered is left out.
pub fn frames(log: &str) -> Result<Vec<Exchange>, String> {
    let mut all = Vec::new();
    let mut sent: Vec<u8> = Vec::new();
    let mut came: Vec<u8> = Vec::new();
    for line in log.lines() {
        let line = line.split_once(' ').map_or("", |(_, line)| line);
        if let Some(bytes) = line.strip_prefix("-> 000000 ") {
            if !sent.is_empty() {
                all.push(exchange(&sent, &came)?);
            }
            sent = row(bytes).ok_or_else(|| format!("pcscd's log has '{}'", line))?;
            came = Vec::new();
        } else if let Some(bytes) = line.strip_prefix("<- 000000 ") {
            came.extend(row(bytes).ok_or_else(|| format!("pcscd's log has '{}'", line))?);
        }
    }
    all.extend(exchange(&sent, &came).ok());
    Ok(all)
}

fn exchange(sent: &[u8], came: &[u8]) -> Result<Exchange, String> {
    let wrong = |what: &str| Err(format!("{}: to {:02x?} came {:02x?}", what, sent, came));
    let back = match came.strip_prefix(sent) {
        Some(back) => back,
        None => return wrong("no echo"),
    };
    for frame in [sent, back] {
        if frame.len() < 13 || frame[..2] != [0x03, 0x06] {
            return wrong("no frame");
        }
        if u32::from_le_bytes([frame[3], frame[4], frame[5], frame[6]]) as usize != frame.len() - 13 {
            return wrong("a frame of another length than it says");
        }
        if line::check(frame) != 0 {
            return wrong("a wrong check byte");
        }
    }
    Ok((sent[2..sent.len() - 1].to_vec(), back[2..back.len() - 1].to_vec()))
}

#[cfg(test)]
mod tests;
