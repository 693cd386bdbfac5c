//! Insertions and removals over whole raw records, as the trial program makes them.

use crate::{bytes, raw, sle4428, sle4442};
use second::case::{Call, Case};

/// An insertion over a record, beside a buffer that it does not look at.
fn insertion(record: [u8; 32], kind: u8, image: &[u8]) -> Case {
    Case { call: Call::Insertion, record, buffer: 2, fill: 0xee, message: vec![kind], image: image.to_vec() }
}

fn hex(record: &[u8]) -> String {
    record.iter().map(|byte| format!("{:02x}", byte)).collect()
}

/// The line of a call that leaves that record.
fn line(number: u8, record: &str) -> String {
    format!("{} 0 {} eeee", number, record)
}

const EMPTY: &str = "0000000800001100000a00000000000000000000000000000000000000000000";

fn empty() -> [u8; 32] {
    raw(&[0, 0, 0, 8, 0], 0, 0)
}

/// A 4432 of which 18 bytes are protected.
fn sle4432() -> Vec<u8> {
    [&[0xff; 256][..], &bytes("00 00 FC FF 00 00 00 00")].concat()
}

#[test]
fn every_kind_goes_in() {
    assert_eq!(hex(&empty()), EMPTY);
    let sizes = [128, 256, 512, 1024, 2048, 4096, 8192, 16384, 32768, 65536, 131072];
    for (kind, size) in (1..).zip(sizes) {
        let record = format!("{:02x}00000800001100000a00{}", kind, "00".repeat(21));
        for byte in [0x00, 0xff] {
            let case = insertion(empty(), kind, &vec![byte; size]);
            assert_eq!(case.line(), line(0, &record));
        }
    }
    // Tries left in byte 13, the number of protected bytes in 14 and 15.
    let mut bits = sle4428(0x96);
    bits[1024..1024 + 33].fill(0x00);
    let sle4428 = "1400000800001100000a00000004080100000000000000000000000000000000";
    assert_eq!(insertion(empty(), 20, &bits).line(), line(0, sle4428));
    let sle4418 = "1500000800001100000a00000000080100000000000000000000000000000000";
    assert_eq!(insertion(empty(), 21, &bits).line(), line(0, sle4418));
    let sle4442 = "1e00000800001100000a00000002000000000000000000000000000000000000";
    assert_eq!(insertion(empty(), 30, &crate::sle4442(5)).line(), line(0, sle4442));
    let plain = "1f00000800001100000a00000000120000000000000000000000000000000000";
    assert_eq!(insertion(empty(), 31, &sle4432()).line(), line(0, plain));
}

/// Of the record byte 0 alone is asked: whatever else stands there, the card goes in as over the empty
/// one.
#[test]
fn over_any_record_without_a_card() {
    let wanted = line(0, "1e00000800001100000a00000003000000000000000000000000000000000000");
    for k in 1..32 {
        for byte in [0x00, 0x01, 0x07, 0x80, 0xff] {
            let mut record = empty();
            record[k] = byte;
            assert_eq!(insertion(record, 30, &sle4442(7)).line(), wanted, "byte {}", k);
        }
    }
    let mut record = [0xff; 32];
    record[0] = 0;
    assert_eq!(insertion(record, 30, &sle4442(7)).line(), wanted);
    assert_eq!(insertion([0; 32], 30, &sle4442(7)).line(), wanted);
    // Turned down, every byte stays.
    assert_eq!(insertion(record, 30, &sle4442(8)).line(), line(3, &hex(&record)));
}

#[test]
fn what_does_not_go_in() {
    let refused =
        |kind: u8, image: &[u8]| assert_eq!(insertion(empty(), kind, image).line(), line(3, EMPTY), "{}", kind);
    for kind in [0, 12, 19, 22, 29, 32, 255] {
        refused(kind, &[0; 128]);
    }
    let sizes = [128, 256, 512, 1024, 2048, 4096, 8192, 16384, 32768, 65536, 131072];
    for (kind, size) in (1..).zip(sizes).chain([(20, 1152), (21, 1152), (30, 264), (31, 264)]) {
        for other in [0, size - 1, size + 1, size / 2, 2 * size] {
            refused(kind, &vec![0x00; other]);
        }
    }
    refused(30, &sle4442(8));
    refused(30, &sle4442(0xff));
    let mut bit = sle4428(0xff);
    bit[1024 + 127] = 0xdf;
    refused(20, &bit);
    for place in 260..264 {
        let mut image = sle4432();
        image[place] = 0x01;
        refused(31, &image);
    }
}

/// A byte 0 other than 00h is a card that is in, whatever it says, and 5 comes before 3.
#[test]
fn over_a_card() {
    for first in 1..=255 {
        let mut record = empty();
        record[0] = first;
        let wanted = line(5, &hex(&record));
        assert_eq!(insertion(record, 30, &sle4442(7)).line(), wanted);
        assert_eq!(insertion(record, 30, &sle4442(8)).line(), wanted);
        assert_eq!(insertion(record, 12, &[]).line(), wanted);
        let record = [first; 32];
        assert_eq!(insertion(record, 1, &[0; 128]).line(), line(5, &hex(&record)));
    }
}

#[test]
fn removals() {
    let removal = |record: [u8; 32], image: &[u8]| {
        Case { call: Call::Removal, record, buffer: 2, fill: 0xee, message: vec![], image: image.to_vec() }.line()
    };
    for image in [vec![], vec![0x55; 264], vec![0x55; 131072]] {
        assert_eq!(removal(empty(), &image), line(0, EMPTY));
        assert_eq!(removal(raw(&[30, 1, 6, 128, 1], 3, 2), &image), line(0, EMPTY));
        assert_eq!(removal([0xff; 32], &image), line(0, EMPTY));
        assert_eq!(removal([0x00; 32], &image), line(0, EMPTY));
    }
    for k in 0..32 {
        let mut record = empty();
        record[k] = 0x81;
        assert_eq!(removal(record, &[]), line(0, EMPTY), "byte {}", k);
    }
}

/// The answer buffer is shown as it was, and its length is asked of a message alone.
#[test]
fn any_buffer() {
    for (buffer, shown) in [(0, "-".to_string()), (1, "ee".to_string()), (600, "ee".repeat(600))] {
        let case = Case { buffer, ..insertion(empty(), 1, &[0; 128]) };
        let record = format!("01{}", &EMPTY[2..]);
        assert_eq!(case.line(), format!("0 0 {} {}", record, shown));
        let case = Case { call: Call::Removal, message: vec![], ..case };
        assert_eq!(case.line(), format!("0 0 {} {}", EMPTY, shown));
    }
}

/// A case as it stands on standard input.
#[test]
fn layout() {
    let case = Case { buffer: 0x0201, fill: 0xab, ..insertion([0x33; 32], 11, &[0x44; 300]) };
    let fixed = [&[1][..], &[0x33; 32], &bytes("01 02 AB 01 00 2C 01 00 00")].concat();
    assert_eq!(case.bytes(), [&fixed[..], &[11], &[0x44; 300]].concat());
    let case = Case { call: Call::Removal, message: vec![], image: vec![], ..case };
    assert_eq!(case.bytes(), [&[2][..], &[0x33; 32], &bytes("01 02 AB 00 00 00 00 00 00")].concat());
    let case = Case { call: Call::Message, message: vec![0x65; 10], image: vec![0; 131072], ..case };
    let fixed = [&[0][..], &[0x33; 32], &bytes("01 02 AB 0A 00 00 00 02 00")].concat();
    assert_eq!(case.bytes(), [&fixed[..], &[0x65; 10], &[0; 131072]].concat());

    assert_eq!([0, 1, 2].map(Call::of), [Some(Call::Message), Some(Call::Insertion), Some(Call::Removal)]);
    assert!((3..=255).all(|byte| Call::of(byte).is_none()));
    let lengths = |call: Call| (0..1000).filter(|&length| call.takes(length)).collect::<Vec<_>>();
    assert_eq!(lengths(Call::Message), (0..=600).collect::<Vec<_>>());
    assert_eq!(lengths(Call::Insertion), [1]);
    assert!(lengths(Call::Removal) == [0]);
}
