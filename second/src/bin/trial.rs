//! The trial program: cases from standard input, a line each on standard output, as soon as the
//! case is done. A case is the call (0 message, 1 insertion, 2 removal), a raw slot record (32
//! bytes), the answer buffer's length (2 bytes, low first), the byte it is filled with, the
//! message's length (2, low first; 1 of an insertion, 0 of a removal), the image's length (4, low
//! first), message, image.

use second::case::{Call, Case, HEADER, LONGEST_BUFFER, LONGEST_IMAGE, RECORD};
use std::io::{self, Read, Write};

fn main() -> io::Result<()> {
    let mut input = io::stdin().lock();
    let mut output = io::stdout().lock();
    while let Some(case) = next(&mut input)? {
        match &case {
            Ok(case) => writeln!(output, "{}", case.line())?,
            Err(Bad) => writeln!(output, "bad")?,
        }
        output.flush()?;
        if case.is_err() {
            break;
        }
    }
    Ok(())
}

/// A case that is cut, over a limit, of another call, or with a message that its call does not have.
struct Bad;

/// The next case, or nothing at a clean end.
fn next(input: &mut impl Read) -> io::Result<Option<Result<Case, Bad>>> {
    let header = take(input, HEADER)?;
    if header.is_empty() {
        return Ok(None);
    }
    if header.len() < HEADER {
        return Ok(Some(Err(Bad)));
    }
    let mut record = [0; RECORD];
    record.copy_from_slice(&header[1..33]);
    let buffer = usize::from(u16::from_le_bytes([header[33], header[34]]));
    let fill = header[35];
    let message = usize::from(u16::from_le_bytes([header[36], header[37]]));
    let image = u32::from_le_bytes([header[38], header[39], header[40], header[41]]) as usize;
    let call = match Call::of(header[0]) {
        Some(call) if call.takes(message) && buffer <= LONGEST_BUFFER && image <= LONGEST_IMAGE => call,
        _ => return Ok(Some(Err(Bad))),
    };
    let case = Case { call, record, buffer, fill, message: take(input, message)?, image: take(input, image)? };
    if case.message.len() < message || case.image.len() < image {
        return Ok(Some(Err(Bad)));
    }
    Ok(Some(Ok(case)))
}

/// The next bytes, fewer than wanted where the input ends first.
fn take(input: &mut impl Read, wanted: usize) -> io::Result<Vec<u8>> {
    let mut bytes = Vec::with_capacity(wanted);
    input.take(wanted as u64).read_to_end(&mut bytes)?;
    Ok(bytes)
}
