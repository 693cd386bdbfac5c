//! The session program: records from standard input, a line each on standard output. A line is
//! written as soon as its record is done, and no more than one record is held at a time.

use second::step::{Reader, LONGEST_BODY};
use std::io::{self, Read, Write};

fn main() -> io::Result<()> {
    let mut input = io::stdin().lock();
    let mut output = io::stdout().lock();
    let mut reader = Reader::empty();
    let mut body = Vec::with_capacity(LONGEST_BODY);
    loop {
        let mut header = [0; 4];
        let line = match fill(&mut input, &mut header)? {
            0 => return Ok(()),
            4 => {
                let length = usize::from(u16::from_le_bytes([header[2], header[3]]));
                // A body that is too long need not be read to know that it is.
                body.resize(length.min(LONGEST_BODY), 0);
                if body.len() < length || fill(&mut input, &mut body)? < length {
                    None
                } else {
                    reader.record([header[0], header[1]], &body)
                }
            }
            _ => None,
        };
        match &line {
            Some(line) => writeln!(output, "{}", line)?,
            None => writeln!(output, "bad")?,
        }
        output.flush()?;
        if line.is_none() {
            return Ok(());
        }
    }
}

/// Reads until the buffer is full or the input ends; how many bytes came.
fn fill(input: &mut impl Read, buffer: &mut [u8]) -> io::Result<usize> {
    let mut filled = 0;
    while filled < buffer.len() {
        match input.read(&mut buffer[filled..]) {
            Ok(0) => break,
            Ok(count) => filled += count,
            Err(error) if error.kind() == io::ErrorKind::Interrupted => {}
            Err(error) => return Err(error),
        }
    }
    Ok(filled)
}
