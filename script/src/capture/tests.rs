use super::*;
use crate::hex;

/// What was written, and how much of it was there when it was flushed last.
#[derive(Default)]
struct Kept {
    bytes: Vec<u8>,
    flushed: usize,
}

impl Write for &mut Kept {
    fn write(&mut self, bytes: &[u8]) -> io::Result<usize> {
        self.bytes.extend_from_slice(bytes);
        Ok(bytes.len())
    }

    fn flush(&mut self) -> io::Result<()> {
        self.flushed = self.bytes.len();
        Ok(())
    }
}

/// The file's header, the descriptors and an exchange, byte by byte.
#[test]
fn a_file() {
    let mut kept = Kept::default();
    let mut capture = Capture::start(&mut kept).unwrap();
    capture.exchange(&[0x65, 0, 0, 0, 0, 0, 7, 0, 0, 0], &[0x81, 0, 0, 0, 0, 0, 7, 2, 0, 1]).unwrap();
    let wanted = [
        "d4c3b2a1 0200 0400 00000000 00000000 00000400 bd000000",
        // GET DESCRIPTOR: the device's.
        "00ca9a3b 00000000 30000000 30000000",
        "0100000000000000 53 02 80 01 0100 00 3c 00ca9a3b00000000 00000000 8dffffff 12000000 00000000 8006000100001200",
        "00ca9a3b e8030000 42000000 42000000",
        "0100000000000000 43 02 80 01 0100 2d 00 00ca9a3b00000000 e8030000 00000000 12000000 12000000 0000000000000000",
        "12 01 0002 00 00 00 40 0000 0000 0001 00 00 00 01",
        // GET DESCRIPTOR: the configuration's.
        "00ca9a3b d0070000 30000000 30000000",
        "0200000000000000 53 02 80 01 0100 00 3c 00ca9a3b00000000 d0070000 8dffffff 20000000 00000000 8006000200002000",
        "00ca9a3b b80b0000 50000000 50000000",
        "0200000000000000 43 02 80 01 0100 2d 00 00ca9a3b00000000 b80b0000 00000000 20000000 20000000 0000000000000000",
        "09 02 2000 01 01 00 80 32 09 04 00 00 02 0b 00 00 00 07 05 01 02 4000 00 07 05 82 02 4000 00",
        // The message and the answer.
        "00ca9a3b a00f0000 3a000000 3a000000",
        "0300000000000000 53 03 01 01 0100 2d 00 00ca9a3b00000000 a00f0000 8dffffff 0a000000 0a000000 0000000000000000",
        "65 00000000 00 07 000000",
        "00ca9a3b 88130000 3a000000 3a000000",
        "0400000000000000 43 03 82 01 0100 2d 00 00ca9a3b00000000 88130000 00000000 0a000000 0a000000 0000000000000000",
        "81 00000000 00 07 02 00 01",
    ];
    assert_eq!(hex::digits(&kept.bytes), wanted.concat().replace(' ', ""));
    assert_eq!(kept.flushed, kept.bytes.len());
}

/// What is written is there at once, and a second has a thousand packets.
#[test]
fn packets_as_they_come() {
    let mut kept = Kept::default();
    let mut capture = Capture::start(&mut kept).unwrap();
    let first = capture.output.bytes.len();
    assert_eq!(capture.output.flushed, first);
    for _ in 0..498 {
        capture.exchange(&[0x65; 10], &[0x81; 10]).unwrap();
        assert_eq!(capture.output.flushed, capture.output.bytes.len());
    }
    let packet = 16 + HEADER + 10;
    capture.exchange(&[0x65; 10], &[0x81; 10]).unwrap();
    let bytes = &capture.output.bytes[first..];
    assert_eq!(bytes.len(), 499 * 2 * packet);
    assert_eq!(hex::digits(&bytes[995 * packet..][..8]), "00ca9a3b583e0f00");
    assert_eq!(hex::digits(&bytes[996 * packet..][..8]), "01ca9a3b00000000");
    assert_eq!(hex::digits(&bytes[997 * packet..][..8]), "01ca9a3be8030000");
}
