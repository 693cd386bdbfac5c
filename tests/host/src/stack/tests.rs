use super::*;

#[test]
fn what_scriptor_prints() {
    let said = "No reader given: using Card reader 00 00\nUsing T=0 protocol\nFF B0 00 00 10\n> FF B0 00 00 10\n\
                < A2 13 10 91 FF FF FF FF FF FF FF FF FF FF FF FF \n90 00 : Normal processing.\nFF 20 00 00 03 01 02 03\n\
                > FF 20 00 00 03 01 02 03\n< 90 06 : Error not defined by ISO 7816\n";
    let mut read = vec![0xa2, 0x13, 0x10, 0x91];
    read.resize(16, 0xff);
    read.extend([0x90, 0x00]);
    let wrong = (vec![0xff, 0x20, 0, 0, 3, 1, 2, 3], vec![0x90, 0x06]);
    assert_eq!(exchanges(said), [(vec![0xff, 0xb0, 0, 0, 0x10], read), wrong]);
}

const LOG: &str = "\
00000008 -> 000000 03 06 65 00 00 00 00 00 02 00 00 00 62 
00000012 ccid_serial.c:238:ReadSerial() start
00000258 <- 000000 03 06 65 00 00 00 00 00 02 00 00 00 62 
00000002 frame: 65 00 00 00 00 00 02 00 00 00 
00000547 <- 000000 03 06 
00000005 <- 000000 81 00 00 00 00 00 02 01 00 01 86 
00000003 -> 000000 03 06 65 00 00 00 00 00 03 00 00 00 63 
";

#[test]
fn what_the_log_has_seen() {
    let status = vec![0x65, 0, 0, 0, 0, 0, 2, 0, 0, 0];
    let answer = vec![0x81, 0, 0, 0, 0, 0, 2, 1, 0, 1];
    assert_eq!(frames(LOG), Ok(vec![(status, answer)]));
}

#[test]
fn a_wrong_byte_on_the_line_is_found() {
    for (from, to, what) in [
        ("01 86", "01 87", "a wrong check byte"),
        ("<- 000000 03 06 65 00 00", "<- 000000 03 06 65 00 01", "no echo"),
        ("81 00 00", "81 01 00", "a frame of another length"),
        ("01 00 01 86", "01 00", "no frame"),
    ] {
        let log = LOG.replace(from, to);
        assert!(log != LOG && frames(&log).unwrap_err().starts_with(what), "{}", what);
    }
}
