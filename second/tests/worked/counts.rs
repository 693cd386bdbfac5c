//! Tries left and number of protected bytes, which the slot record keeps.

use crate::{bytes, raw, sle4428, sle4442, try_it, Host};
use second::case::{self, Call, Case};
use second::reader::{self, Slot};

const STATUS: &str = "65 00000000 00 00 000000";
const POWER_ON: &str = "62 00000000 00 00 00 0000";
const POWER_OFF: &str = "63 00000000 00 00 000000";

/// Tries left and number of protected bytes of the slot record.
fn shown(host: &Host) -> (u8, u16) {
    (host.0.slot.tries, host.0.slot.protected)
}

/// An image of a kind with these protection bytes in front, FFh behind them, and this counter where
/// the kind has one. Memory 00 01 02 .., codes AA BB and 11 22 33.
fn card(kind: u8, bits: &str, counter: u8) -> Vec<u8> {
    let counting = |count: usize| (0..count).map(|k| k as u8).collect::<Vec<u8>>();
    let (mut image, all, last) = match kind {
        20 => (sle4428(counter)[..1024].to_vec(), 128, vec![]),
        21 => (counting(1024), 128, vec![]),
        30 => (counting(256), 4, vec![counter, 0x11, 0x22, 0x33]),
        _ => (counting(256), 4, vec![0x00; 4]),
    };
    let end = image.len() + all;
    image.extend(bytes(bits));
    image.resize(end, 0xff);
    image.extend(last);
    image
}

/// A slot whose card has its type selected, with these counts, closed.
fn selected(kind: u8, tries: u8, protected: u16) -> Slot {
    let selected = match kind {
        1..=5 => 1,
        6..=9 => 2,
        20 | 21 => 5,
        _ => 6,
    };
    Slot { kind, active: true, selected, tries, protected, ..Slot::empty() }
}

#[test]
fn an_insertion_counts() {
    // F0h has four zeros, 7Fh one, AAh four; 101b has two ones, 1001_0110b four.
    for (kind, image, counts) in [
        (20, card(20, "", 0xff), (8, 0)),
        (20, card(20, "F0 FF 7F", 0x96), (4, 5)),
        (20, card(20, "", 0x00), (0, 0)),
        (21, card(21, "F0 FF 7F", 0xff), (0, 5)),
        (21, card(21, &"00".repeat(128), 0xff), (0, 1024)),
        (30, card(30, "", 0x07), (3, 0)),
        (30, card(30, "AA FF FF 7F", 0x05), (2, 5)),
        (30, card(30, "00 00 00 00", 0x00), (0, 32)),
        (31, card(31, "AA FF FF 7F", 0x00), (0, 5)),
        (31, card(31, "00 00 00 00", 0x00), (0, 32)),
    ] {
        let mut host = Host::new();
        assert_eq!(host.insert(kind, &image), "in 0");
        assert_eq!(shown(&host), counts, "kind {}", kind);
        assert_eq!(host.raw(STATUS), "0 81000000000000010001");
        // Turned down, an insertion changes neither; a removal gives 0 and 0.
        assert_eq!(host.insert(kind, &image), "in 5");
        assert_eq!(shown(&host), counts);
        host.remove();
        assert_eq!(shown(&host), (0, 0));
        assert_eq!(host.raw(STATUS), "0 81000000000000020001");
    }
    // The most on a 4428: all but 3FDh, whose bit is bit 5 of the last protection byte.
    let mut host = Host::new();
    assert_eq!(host.insert(20, &card(20, &("00".repeat(127) + "20"), 0x01)), "in 0");
    assert_eq!(shown(&host), (1, 1023));
    // On I2C both are 0, whatever stands in the image.
    for (kind, length) in [(1, 128), (2, 256), (4, 1024), (9, 32768)] {
        for byte in [0x00, 0x07, 0xff] {
            let mut host = Host::new();
            assert_eq!(host.insert(kind, &vec![byte; length]), "in 0");
            assert_eq!(shown(&host), (0, 0));
        }
    }
}

/// An insertion does not look at the counts of the empty slot, and a removal at nothing.
#[test]
fn counts_return_over_any_others() {
    let odd = Slot { tries: 9, protected: 1025, ..Slot::empty() };
    let mut slot = odd.clone();
    assert_eq!(reader::insert(&mut slot, 30, &card(30, "FE FF FF FF", 0x03)), Ok(()));
    assert_eq!(slot, Slot { kind: 30, tries: 2, protected: 1, ..Slot::empty() });
    let mut slot = Slot { kind: 9, ..odd };
    assert_eq!(reader::insert(&mut slot, 1, &[0; 128]), Err(5));
    assert_eq!((slot.tries, slot.protected), (9, 1025));
    reader::remove(&mut slot);
    assert_eq!(slot, Slot::empty());
}

#[test]
fn codes_change_tries() {
    let mut host = Host::with(30, sle4442(7));
    for (code, word, tries) in [
        ("01 02 03", "9006", 2),
        ("01 02 03", "9004", 1),
        ("11 22 33", "9007", 3),
        ("11 22 33", "9007", 3),
        ("01 02 03", "9006", 2),
        ("01 02 03", "9004", 1),
        ("01 02 03", "9000", 0),
        // From zero on neither the right code nor another changes them.
        ("01 02 03", "9000", 0),
        ("11 22 33", "9000", 0),
    ] {
        assert_eq!(host.send(&format!("FF 20 00 00 03 {}", code)), word);
        assert_eq!(shown(&host), (tries, 0));
    }
    let mut host = Host::with(20, card(20, "FE", 0xff));
    for (code, word, tries) in [
        ("AA BC", "90fe", 7),
        ("AA BC", "90fc", 6),
        ("AA BC", "90f8", 5),
        ("AA BC", "90f0", 4),
        ("AA BC", "90e0", 3),
        ("AA BC", "90c0", 2),
        ("AA BC", "9080", 1),
        ("AA BB", "90ff", 8),
    ] {
        assert_eq!(host.send(&format!("FF 20 00 00 02 {}", code)), word);
        assert_eq!(shown(&host), (tries, 1));
    }
    // Odd counters: 101b has two ones, 0101_0000b too.
    let mut host = Host::with(30, sle4442(5));
    assert_eq!(host.send("FF 20 00 00 03 01 02 03"), "9004");
    assert_eq!(shown(&host), (1, 0));
    let mut host = Host::with(20, sle4428(0x50));
    assert_eq!(host.send("FF 20 00 00 02 01 02"), "9040");
    assert_eq!(shown(&host), (1, 0));
    // A code that does not reach the card: of another length, at another place, or no type selected.
    assert_eq!(host.send("FF 20 00 00 03 01 02 03"), "6700");
    assert_eq!(host.send("FF 20 00 01 02 01 02"), "6b00");
    host.raw(POWER_ON);
    assert_eq!(host.send("FF 20 00 00 02 01 02"), "6985");
    assert_eq!(shown(&host), (1, 0));
}

#[test]
fn protecting_changes_the_number_of_protected_bytes() {
    for (kind, tries, open) in
        [(20, 8, "FF 20 00 00 02 AA BB"), (21, 0, ""), (30, 3, "FF 20 00 00 03 11 22 33"), (31, 0, "")]
    {
        // Bytes 1 and 3 are protected.
        let mut host = Host::with(kind, card(kind, "F5", if kind == 30 { 0x07 } else { 0xff }));
        if !open.is_empty() {
            assert_eq!(host.send("FF D1 00 00 01 00"), "6982");
            assert_eq!(shown(&host), (tries, 2));
            assert_eq!(&host.send(open)[..2], "90");
        }
        for (apdu, protected) in [
            // Protected already, equal and unequal; unprotected and unequal.
            ("FF D1 00 01 01 01", 2),
            ("FF D1 00 01 01 55", 2),
            ("FF D1 00 04 01 55", 2),
            ("FF D1 00 01 02 01 55", 2),
            // All of the range anew; beside protected ones; beside an unequal one.
            ("FF D1 00 04 02 04 05", 4),
            ("FF D1 00 00 04 00 01 02 03", 6),
            ("FF D1 00 05 05 05 55 55 08 09", 8),
            ("FF D1 00 06 02 06 55", 9),
            // Again.
            ("FF D1 00 06 02 06 55", 9),
            ("FF D1 00 1F 01 1F", 10),
        ] {
            assert_eq!(host.send(apdu), "9000", "kind {}: {}", kind, apdu);
            assert_eq!(shown(&host), (tries, protected), "kind {}: {}", kind, apdu);
        }
        // 0 to 6, 8, 9 and 1Fh. A D1 that is out of place or of a wrong length adds none.
        assert_eq!(host.send("FF B2 00 00 04"), "80fcff7f9000");
        assert_eq!(host.send("FF D1 00 0A 02 0A"), "6700");
        assert_eq!(host.send("FF D1 FF FF 01 0A"), "6b00");
        assert_eq!(shown(&host), (tries, 10));
    }
    // All of the 32 bytes at once.
    let first: String = (0..32).map(|k| format!("{:02x}", k)).collect();
    let mut host = Host::with(31, card(31, "", 0x00));
    assert_eq!(host.send(&format!("FF D1 00 00 20 {}", first)), "9000");
    assert_eq!(shown(&host), (0, 32));
}

#[test]
fn over_the_borders_of_a_byte() {
    // 255 bytes at a time, four times, then the last four.
    let mut host = Host::with(21, card(21, "", 0xff));
    for (place, count, protected) in
        [(0, 255, 255), (255, 255, 510), (510, 255, 765), (765, 255, 1020), (1020, 4, 1024)]
    {
        let data: String = (place..place + count).map(|k| format!("{:02x}", k % 256)).collect();
        assert_eq!(host.send(&format!("FF D1 {:04x} {:02x} {}", place, count, data)), "9000");
        assert_eq!(shown(&host), (0, protected));
    }
    // 255, 256, 257 one by one on a 4428: 00h to FEh are protected, 31 bytes 00h and 80h.
    let mut host = Host::with(20, card(20, &("00".repeat(31) + "80"), 0xff));
    assert_eq!(shown(&host), (8, 255));
    assert_eq!(host.send("FF 20 00 00 02 AA BB"), "90ff");
    assert_eq!(host.send("FF D1 00 FF 01 FF"), "9000");
    assert_eq!(shown(&host), (8, 256));
    assert_eq!(case::raw(&host.0.slot)[13..16], [8, 0, 1]);
    assert_eq!(host.send("FF D1 01 00 01 00"), "9000");
    assert_eq!(shown(&host), (8, 257));
    assert_eq!(case::raw(&host.0.slot)[13..16], [8, 1, 1]);
}

#[test]
fn everything_else_keeps_them() {
    for (kind, open, own, counts) in [
        (20, "FF 20 00 00 02 AA BB", "05", (8, 3)),
        (21, "", "05", (0, 3)),
        (30, "FF 20 00 00 03 11 22 33", "06", (3, 3)),
        (31, "", "06", (0, 3)),
    ] {
        // Bytes 0, 1 and 9 are protected.
        let mut host = Host::with(kind, card(kind, "FC FD", if kind == 30 { 0x07 } else { 0xff }));
        if !open.is_empty() {
            assert_eq!(&host.send(open)[..2], "90");
        }
        for (apdu, word) in [
            ("FF D0 00 00 01 55", "6581"),
            ("FF D0 00 01 03 01 55 55", "9000"),
            ("FF D0 00 20 01 55", "9000"),
            ("FF B0 00 20 01", "559000"),
            ("FF D0 FF FF 01 55", "6b00"),
            ("FF B3 00 00 00", "6d00"),
        ] {
            assert_eq!(host.send(apdu), word);
            assert_eq!(shown(&host), counts, "kind {}: {}", kind, apdu);
        }
        if kind == 30 {
            assert_eq!(host.send("FF D2 00 01 03 44 55 66"), "9000");
            assert_eq!(shown(&host), counts);
        }
        assert_eq!(host.send(&format!("FF A4 00 00 01 {}", own)), "9000");
        for message in [
            POWER_OFF,
            POWER_ON,
            STATUS,
            "61 05000000 00 00 00 0000 12 00 00 0A 00",
            "6C 00000000 00 00 000000",
            "6D 00000000 00 00 000000",
            "62 00000000 00 00 04 0000",
            "61 05000000 00 00 00 0000 70 00 00 0A 00",
            "6F 00000000 01 00 000000",
            "69 00000000 00 00 000000",
        ] {
            assert_eq!(&host.raw(message)[..2], "0 ");
            assert_eq!(shown(&host), counts, "kind {}: {}", kind, message);
        }
    }
    let mut host = Host::with(2, vec![0x07; 256]);
    for apdu in ["FF 01 00 00 01 07", "FF D0 00 00 02 00 00", "FF B0 00 00 02", "FF A4 00 00 01 01"] {
        assert!(host.send(apdu).ends_with("9000"));
        assert_eq!(shown(&host), (0, 0));
    }
}

#[test]
fn counts_that_are_off() {
    let status = bytes(STATUS);
    for (kind, image, tries, protected) in [
        (1, vec![0x00; 128], 0, 0),
        (9, vec![0xff; 32768], 0, 0),
        (20, card(20, "F0 FF 7F", 0x96), 4, 5),
        (20, card(20, &"00".repeat(32), 0xff), 8, 256),
        (21, card(21, "F0 FF 7F", 0xff), 0, 5),
        (21, card(21, &"00".repeat(128), 0x00), 0, 1024),
        (30, card(30, "AA FF FF 7F", 0x05), 2, 5),
        (31, card(31, "AA FF FF 7F", 0x00), 0, 5),
    ] {
        let right = selected(kind, tries, protected);
        assert_eq!(try_it(&right, &image, &status, 271), Ok(10));
        let off = |tries: u8, protected: u16| {
            assert_eq!(try_it(&selected(kind, tries, protected), &image, &status, 271), Err(4), "kind {}", kind);
        };
        for other in [tries.wrapping_sub(1), tries + 1, tries + 16, tries + 128, 0xff] {
            off(other, protected);
        }
        for other in [protected.wrapping_sub(1), protected + 1, protected + 256, protected ^ 0x8000, 0xffff] {
            off(tries, other);
        }
        off(tries + 1, protected + 1);
        off(tries + 1, protected.wrapping_sub(1));
        // High byte first, where that is another number.
        if protected.swap_bytes() != protected {
            off(tries, protected.swap_bytes());
        }
        // No message mends them, and 3 comes before 4.
        for message in
            [POWER_ON, POWER_OFF, "6D 00000000 00 00 000000", "6F 00000000 00 00 000000", "69 00000000 01 00 000000"]
        {
            assert_eq!(try_it(&selected(kind, tries + 1, protected), &image, &bytes(message), 271), Err(4));
        }
        assert_eq!(try_it(&selected(kind, tries + 1, protected), &image[1..], &status, 271), Err(3));
    }
    // With no card both are 0, whatever image is handed beside it.
    for image in [vec![], card(30, "AA FF FF 7F", 0x05)] {
        assert_eq!(try_it(&Slot::empty(), &image, &status, 271), Ok(10));
        for (tries, protected) in [(1, 0), (0, 1), (1, 1), (2, 5), (0xff, 0), (0, 0x100), (0, 0xffff)] {
            assert_eq!(try_it(&Slot { tries, protected, ..Slot::empty() }, &image, &status, 271), Err(4));
        }
    }
}

#[test]
fn trial_lines() {
    let case = |record: [u8; 32], apdu: &str, image: Vec<u8>| {
        let apdu = bytes(apdu);
        let message = [&[0x6f, apdu.len() as u8, 0, 0, 0, 0, 7, 0, 0, 0][..], &apdu].concat();
        Case { call: Call::Message, record, buffer: 271, fill: 0xee, message, image }
    };
    let line = |record: &str, word: &str, changed: &str| {
        format!("0 12 {}{} 80020000000007000000{}{}{}", record, "00".repeat(16), word, "ee".repeat(259), changed)
    };
    // A wrong code and the right one, with 16 protected bytes; byte 13 shows tries.
    let image = || card(30, "00 00 FF FF", 0x06);
    let record = |open: u8| raw(&[30, 1, 6, 8, open], 2, 16);
    let wrong = case(record(0), "FF 20 00 00 03 01 02 03", image());
    assert_eq!(wrong.line(), line("1e01060800001100000a000000011000", "9004", " 0104=04"));
    let right = case(record(0), "FF 20 00 00 03 11 22 33", image());
    assert_eq!(right.line(), line("1e01060801001100000a000000031000", "9007", " 0104=07"));
    // Open, that counter is not full.
    assert_eq!(&case(record(1), "FF B0 00 00 01", image()).line()[..4], "4 0 ");
    // D1 over FEh to 101h: 255 bytes are protected, FEh among them, and 100h is not the one sent.
    let image = || card(21, &("00".repeat(31) + "80"), 0xff);
    let protect = case(raw(&[21, 1, 5, 8, 0], 0, 255), "FF D1 00 FE 04 FE FF 55 01", image());
    assert_eq!(protect.line(), line("1501050800001100000a000000000101", "9000", " 041f=00 0420=fd"));
    // Each of the three bytes off alone, and a rest byte.
    for (at, value) in [(13, 1), (14, 254), (14, 0), (15, 1), (15, 255), (17, 1), (31, 128)] {
        let mut off = case(raw(&[21, 1, 5, 8, 0], 0, 255), "FF D1 00 FE 04 FE FF 55 01", image());
        off.record[at] = value;
        let digits: String = off.record.iter().map(|byte| format!("{:02x}", byte)).collect();
        assert_eq!(off.line(), format!("4 0 {} {}", digits, "ee".repeat(271)));
    }
}
