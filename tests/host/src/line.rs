//! The host's end of the line, by hand: frames as they are, right and wrong.

use std::fs::{File, OpenOptions};
use std::io::{Read, Write};
use std::os::unix::fs::OpenOptionsExt;
use std::process::Command;

// O_NOCTTY and EIO of Linux.
const NO_TERMINAL: i32 = 0o400;
const GONE: i32 = 5;
pub const REFUSED: [u8; 3] = [0x03, 0x15, 0x16];

pub struct Line {
    file: File,
}

/// The exclusive-or of all bytes.
pub fn check(bytes: &[u8]) -> u8 {
    bytes.iter().fold(0, |sum, byte| sum ^ byte)
}

/// 03 06, the message, the check byte.
pub fn frame(message: &[u8]) -> Vec<u8> {
    let mut frame = [&[0x03, 0x06], message].concat();
    frame.push(check(&frame));
    frame
}

impl Line {
    /// Opens it so that a read that brings nothing ends after two seconds.
    pub fn open(tty: &str) -> Result<Line, String> {
        let file = OpenOptions::new().read(true).write(true).custom_flags(NO_TERMINAL).open(tty);
        let file = file.map_err(|error| format!("{}: {}", tty, error))?;
        let set = Command::new("stty").args(["-F", tty, "min", "0", "time", "20"]).status();
        match set {
            Ok(status) if status.success() => Ok(Line { file }),
            _ => Err(format!("stty does not take {}", tty)),
        }
    }

    /// Puts bytes on the line.
    pub fn put(&mut self, bytes: &[u8]) -> Result<(), String> {
        self.file.write_all(bytes).map_err(|error| format!("the line takes nothing: {}", error))
    }

    /// Takes so many bytes, or those that come: none come of a device that is gone.
    pub fn take(&mut self, count: usize) -> Result<Vec<u8>, String> {
        let mut bytes = vec![0; count];
        let mut filled = 0;
        while filled < count {
            match self.file.read(&mut bytes[filled..]) {
                Ok(0) => break,
                Ok(more) => filled += more,
                Err(error) if error.raw_os_error() == Some(GONE) => break,
                Err(error) => return Err(format!("the line brings nothing: {}", error)),
            }
        }
        bytes.truncate(filled);
        Ok(bytes)
    }

    /// Puts bytes on the line, and takes their echo and what is sent back: a frame, whose check byte is looked at, or a
    /// refusal.
    pub fn bounce(&mut self, bytes: &[u8]) -> Result<Vec<u8>, String> {
        self.put(bytes)?;
        let echo = self.take(bytes.len())?;
        if echo != bytes {
            return Err(format!("the echo of {:02x?} is {:02x?}", bytes, echo));
        }
        self.back()
    }

    /// What is sent back: the message of a frame, or a refusal as it stands.
    pub fn back(&mut self) -> Result<Vec<u8>, String> {
        let mut back = self.take(3)?;
        if back == REFUSED {
            return Ok(back);
        }
        back.extend(self.take(9)?);
        if back.len() < 12 || back[..2] != [0x03, 0x06] {
            return Err(format!("no frame came back, but {:02x?}", back));
        }
        let said = u32::from_le_bytes([back[3], back[4], back[5], back[6]]) as usize;
        back.extend(self.take(said.min(1000) + 1)?);
        if back.len() != 13 + said || check(&back) != 0 {
            return Err(format!("a frame of another length or with a wrong check byte came back: {:02x?}", back));
        }
        Ok(back[2..back.len() - 1].to_vec())
    }

    /// Sends a message in a frame, and the answer.
    pub fn ask(&mut self, message: &[u8]) -> Result<Vec<u8>, String> {
        self.bounce(&frame(message))
    }
}
