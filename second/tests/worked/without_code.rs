//! Cards without a code: kinds 21 and 31, which share images and types with 20 and 30.

use crate::{bytes, raw, sle4428, sle4442, try_it, Host};
use second::case::{Call, Case};
use second::reader::Slot;

/// An SLE4418 whose memory counts up, but for the last three bytes C1 C2 C3; nothing protected.
fn sle4418() -> Vec<u8> {
    let mut image: Vec<u8> = (0..1024).map(|k| k as u8).collect();
    image[0x3fd..].copy_from_slice(&[0xc1, 0xc2, 0xc3]);
    image.resize(1152, 0xff);
    image
}

/// The same where the protection byte of 3F8h to 3FFh is another: 3FDh has its bit 5.
fn sle4418_with(bits: u8) -> Vec<u8> {
    let mut image = sle4418();
    image[1151] = bits;
    image
}

/// An SLE4432: memory A2 13 10 91 .., nothing protected, the last four bytes 00h.
fn sle4432() -> Vec<u8> {
    let mut image = vec![0xff; 260];
    image[..4].copy_from_slice(&[0xa2, 0x13, 0x10, 0x91]);
    image.resize(264, 0x00);
    image
}

const STATUS: &str = "65 00000000 00 00 000000";
const POWER_ON: &str = "62 00000000 00 00 00 0000";

#[test]
fn insertion_and_power() {
    let mut host = Host::new();
    assert_eq!(host.insert(21, &sle4418()), "in 0");
    assert_eq!(host.0.slot, Slot { kind: 21, ..Slot::empty() });
    assert_eq!(host.0.image, sle4418());
    assert_eq!(host.insert(21, &sle4418()), "in 5");
    assert_eq!(host.insert(31, &sle4442(7)), "in 5");
    // 3B 04 and the first four memory bytes, also when active already.
    assert_eq!(host.raw(POWER_ON), "0 800600000000000000003b0400010203");
    assert_eq!(host.send("FF A4 00 00 01 05"), "9000");
    assert_eq!(host.raw(POWER_ON), "0 800600000000000000003b0400010203");
    assert_eq!(host.0.slot, Slot { kind: 21, active: true, ..Slot::empty() });
    assert_eq!(host.raw("63 00000000 00 00 000000"), "0 81000000000000010001");
    assert_eq!(host.remove(), "out 0");

    assert_eq!(host.insert(31, &sle4432()), "in 0");
    assert_eq!(host.0.slot, Slot { kind: 31, ..Slot::empty() });
    assert_eq!(host.raw(POWER_ON), "0 800600000000000000003b04a2131091");
    assert_eq!(host.send("FF A4 00 00 01 06"), "9000");
    assert_eq!(host.0.slot, Slot { kind: 31, active: true, selected: 6, ..Slot::empty() });
    assert_eq!(host.raw(POWER_ON), "0 800600000000000000003b04a2131091");
    assert_eq!(host.0.image, sle4432());
}

#[test]
fn the_types_are_those_of_20_and_30() {
    for (kind, image, own) in [(21, sle4418(), 0x05), (31, sle4432(), 0x06)] {
        let mut host = Host::new();
        host.insert(kind, &image);
        host.raw(POWER_ON);
        for value in 0x00..=0xff {
            let word = if value == own { "9000" } else { "6a80" };
            assert_eq!(host.send_bytes(&[0xff, 0xa4, 0x00, 0x00, 0x01, value]), word, "{}", value);
        }
    }
}

#[test]
fn images() {
    let goes_in = |kind: u8, image: &[u8]| Host::new().insert(kind, image) == "in 0";
    for length in [0, 264, 1024, 1151, 1153] {
        assert!(!goes_in(21, &vec![0xff; length]), "{}", length);
    }
    for length in [0, 256, 260, 263, 265, 1152] {
        assert!(!goes_in(31, &vec![0x00; length]), "{}", length);
    }
    // No bit and no byte of a 4418 is asked for: 3FDh may be protected, and have any value.
    for byte in 0x00..=0xff {
        assert!(goes_in(21, &[byte; 1152]), "{}", byte);
        assert!(goes_in(21, &sle4418_with(byte)), "{}", byte);
        // The same bit of a 4428 has to be 1.
        let mut image = sle4428(0xff);
        image[1151] = byte;
        assert_eq!(goes_in(20, &image), byte & 0x20 != 0, "{}", byte);
    }
    // Each of a 4432's last four bytes is 00h. A good counter is none of its bytes.
    assert!(goes_in(31, &[0x00; 264]));
    for place in 260..264 {
        for byte in 0x01..=0xff {
            let mut image = sle4432();
            image[place] = byte;
            assert!(!goes_in(31, &image), "{} {}", place, byte);
        }
    }
    assert!(!goes_in(31, &sle4442(0)));
    assert!(!goes_in(31, &sle4442(7)));
    // The byte before them is a protection byte, of any value.
    let mut image = sle4432();
    image[259] = 0x00;
    assert!(goes_in(31, &image));
}

#[test]
fn turned_down() {
    let status = bytes(STATUS);
    let mut full = sle4418();
    full[0x3fd] = 0xff;
    for (kind, own, image) in [(21, 5, sle4418()), (21, 5, full), (31, 6, sle4432())] {
        let closed = Slot { kind, active: true, selected: own, ..Slot::empty() };
        assert_eq!(try_it(&closed, &image, &status, 271), Ok(10));
        assert_eq!(try_it(&Slot { selected: 0, ..closed.clone() }, &image, &status, 271), Ok(10));
        assert_eq!(try_it(&Slot { active: false, selected: 0, ..closed.clone() }, &image, &status, 271), Ok(10));
        // Open needs a code card.
        assert_eq!(try_it(&Slot { open: true, ..closed.clone() }, &image, &status, 271), Err(4));
        assert_eq!(try_it(&Slot { open: true, selected: 0, ..closed.clone() }, &image, &status, 271), Err(4));
        let off = Slot { open: true, active: false, selected: 0, ..closed.clone() };
        assert_eq!(try_it(&off, &image, &status, 271), Err(4));
        // The type is the kind's own.
        assert_eq!(try_it(&Slot { selected: 11 - own, ..closed.clone() }, &image, &status, 271), Err(4));
        assert_eq!(try_it(&Slot { selected: 1, ..closed.clone() }, &image, &status, 271), Err(4));
        // 3 comes before 4, and 2 and 1 before both.
        let open = Slot { open: true, ..closed };
        assert_eq!(try_it(&open, &image[1..], &status, 271), Err(3));
        assert_eq!(try_it(&open, &image[1..], &status[..9], 271), Err(2));
        assert_eq!(try_it(&open, &image[1..], &status[..9], 270), Err(1));
    }
    let slot = Slot { kind: 31, active: true, selected: 6, ..Slot::empty() };
    for place in 260..264 {
        for byte in [0x01, 0x07, 0x80, 0xff] {
            let mut image = sle4432();
            image[place] = byte;
            assert_eq!(try_it(&slot, &image, &status, 271), Err(3));
            assert_eq!(try_it(&Slot { open: true, ..slot.clone() }, &image, &status, 271), Err(3));
        }
    }
    // 3FDh may be protected on kind 21 and not on kind 20.
    let slot = Slot { kind: 21, active: true, selected: 5, ..Slot::empty() };
    assert_eq!(try_it(&Slot { protected: 1, ..slot.clone() }, &sle4418_with(0xdf), &status, 271), Ok(10));
    assert_eq!(try_it(&Slot { protected: 8, ..slot.clone() }, &sle4418_with(0x00), &status, 271), Ok(10));
    assert_eq!(try_it(&Slot { kind: 20, protected: 1, ..slot }, &sle4418_with(0xdf), &status, 271), Err(3));
}

/// B1, 20 and D2 in their right form, with a wrong length, and at another place.
const NEEDS_CODE: [&str; 16] = [
    "FF B1 00 00 03",
    "FF B1 00 00 04",
    "FF B1 00 00 00",
    "FF B1 00 00 03 00",
    "FF B1 00 10 04",
    "FF 20 00 00 02 C2 C3",
    "FF 20 00 00 03 00 00 00",
    "FF 20 00 00 00",
    "FF 20 00 00 03 00 00",
    "FF 20 00 00 02 C2 C3 00",
    "FF 20 FF FF 03 00 00 00",
    "FF D2 00 01 03 00 00 00",
    "FF D2 00 01 02 C2 C3",
    "FF D2 00 01 00",
    "FF D2 00 01 03 00 00 00 00",
    "FF D2 00 00 03 00 00 00",
];

#[test]
fn commands_that_need_a_code() {
    for (kind, image) in [(21, sle4418()), (31, sle4432())] {
        let mut host = Host::with(kind, image.clone());
        let slot = host.0.slot.clone();
        for apdu in NEEDS_CODE {
            assert_eq!(host.send(apdu), "6d00", "kind {}: {}", kind, apdu);
        }
        // Nor is 01 one of theirs, as it is none of 20 and 30.
        assert_eq!(host.send("FF 01 00 00 01 03"), "6d00");
        assert_eq!(host.send("FF 01 00 00 00"), "6d00");
        assert_eq!(host.0.slot, slot);
        assert_eq!(host.0.image, image);
        // Steps 1, 2 and 4 come before.
        assert_eq!(host.send("FF B1 00 00"), "6700");
        assert_eq!(host.send("FE B1 00 00 03"), "6e00");
        host.raw(POWER_ON);
        for apdu in NEEDS_CODE {
            assert_eq!(host.send(apdu), "6985", "kind {}: {}", kind, apdu);
        }
    }
}

#[test]
fn lengths() {
    let both = [
        "FF A4 00 00 00",
        "FF A4 00 00 02 05 05",
        "FF B0 00 00 00",
        "FF B0 00 00 01 00",
        "FF B2 00 00 00",
        "FF B2 00 00 04 00",
        "FF D0 00 00 00",
        "FF D0 00 00 02 01",
        "FF D0 00 00 01 01 02",
        "FF D1 00 00 00",
        "FF D1 00 00 01",
        "FF D1 04 00 02 01",
    ];
    for (kind, image) in [(21, sle4418()), (31, sle4432())] {
        let mut host = Host::with(kind, image.clone());
        for apdu in both {
            assert_eq!(host.send(apdu), "6700", "kind {}: {}", kind, apdu);
        }
        assert_eq!(host.0.image, image);
    }
    let mut host = Host::with(21, sle4418());
    assert_eq!(host.send("FF B2 00 00 21"), "6700");
    assert_eq!(host.send("FF B2 00 00 01"), "ff9000");
    let mut host = Host::with(31, sle4432());
    assert_eq!(host.send("FF B2 00 00 03"), "6700");
    assert_eq!(host.send("FF B2 00 00 05"), "6700");
    assert_eq!(host.send("FF B2 00 00 04"), "ffffffff9000");
}

#[test]
fn places_on_kind_21() {
    let mut host = Host::with(21, sle4418());
    for apdu in [
        "FF A4 00 01 01 05",
        "FF B0 04 00 01",
        "FF B0 03 FF 02",
        "FF B2 03 F9 01",
        "FF B2 03 01 20",
        "FF B2 03 FD 01",
        "FF D0 04 00 01 00",
        "FF D0 03 FF 02 C3 00",
        "FF D0 03 FD 04 C1 C2 C3 00",
        "FF D1 04 00 01 00",
        "FF D1 03 FF 02 C3 00",
        "FF D1 03 FD 04 C1 C2 C3 00",
        "FF D1 FF FF 01 00",
    ] {
        assert_eq!(host.send(apdu), "6b00", "{}", apdu);
    }
    assert_eq!(host.0.image, sle4418());
    // The last places: all 1024 bytes are memory that D0 and D1 reach, whole or one by one.
    for apdu in [
        "FF D0 03 FD 01 C1",
        "FF D0 03 FD 03 C1 C2 C3",
        "FF D0 03 FB 05 FB FC C1 C2 C3",
        "FF D0 03 FF 01 C3",
        "FF D1 03 FC 01 00",
        "FF D1 03 FD 01 00",
        "FF D1 03 FE 02 00 00",
        "FF D1 03 FF 01 00",
    ] {
        assert_eq!(host.send(apdu), "9000", "{}", apdu);
        assert_eq!(host.0.image, sle4418(), "{}", apdu);
    }
    // 255 bytes that end with 3FFh, of which all are equal: bits 301h to 3FFh go.
    let stored = host.0.image[0x301..0x400].to_vec();
    assert_eq!(host.send_bytes(&[&[0xff, 0xd1, 0x03, 0x01, 0xff], &stored[..]].concat()), "9000");
    assert_eq!(host.0.image[1024 + 95..], [&[0xff, 0x01][..], &[0x00; 31]].concat());
    assert_eq!(host.0.image[..1024 + 95], sle4418()[..1024 + 95]);
}

#[test]
fn places_on_kind_31() {
    let mut host = Host::with(31, sle4432());
    for apdu in [
        "FF A4 00 01 01 06",
        "FF B0 01 00 01",
        "FF B0 00 FF 02",
        "FF B0 01 04 04",
        "FF B2 00 01 04",
        "FF D0 00 FF 02 00 00",
        "FF D0 01 00 01 00",
        "FF D0 01 04 04 07 11 22 33",
        "FF D1 00 20 01 FF",
        "FF D1 00 1F 02 FF FF",
        "FF D1 01 04 01 00",
    ] {
        assert_eq!(host.send(apdu), "6b00", "{}", apdu);
    }
    assert_eq!(host.0.image, sle4432());
    assert_eq!(host.send("FF B0 00 FF 01"), "ff9000");
    assert_eq!(host.send("FF D0 00 FF 01 55"), "9000");
    assert_eq!(host.0.image[255..], bytes("55 FF FF FF FF 00 00 00 00"));
    assert_eq!(host.send("FF D1 00 1F 01 FF"), "9000");
    assert_eq!(host.0.image[255..], bytes("55 FF FF FF 7F 00 00 00 00"));
}

#[test]
fn the_last_bytes_of_a_4418_are_plain_memory() {
    let mut host = Host::with(21, sle4418());
    // Read in clear, though the card is closed.
    assert_eq!(host.send("FF B0 03 FC 04"), "fcc1c2c39000");
    assert_eq!(host.send("FF B0 03 FE 01"), "c29000");
    assert_eq!(host.send("FF B0 03 FF 01"), "c39000");
    let answer = host.send("FF B0 03 01 FF");
    assert_eq!(&answer[2 * 251..], "fcc1c2c39000");
    // Written while closed, as all of the memory.
    assert_eq!(host.send("FF D0 03 FD 03 01 02 03"), "9000");
    assert_eq!(host.send("FF B0 03 FC 04"), "fc0102039000");
    assert_eq!(host.send("FF D0 03 FC 02 04 05"), "9000");
    assert_eq!(host.send("FF B0 03 FC 04"), "040502039000");
    assert_eq!(host.send("FF D0 00 00 02 AA BB"), "9000");
    assert_eq!(host.send("FF B0 00 00 03"), "aabb029000");
    assert_eq!(host.0.slot, Slot { kind: 21, active: true, selected: 5, ..Slot::empty() });
    // Nothing but these bytes has changed.
    let mut image = sle4418();
    image[..2].copy_from_slice(&[0xaa, 0xbb]);
    image[0x3fc..0x400].copy_from_slice(&[0x04, 0x05, 0x02, 0x03]);
    assert_eq!(host.0.image, image);
}

#[test]
fn protected_bytes_of_a_4418() {
    // One of 3FDh to 3FFh is protected: a write that covers it passes over it alone.
    for (bits, protected) in [(0xdf, 0x3fd), (0xbf, 0x3fe), (0x7f, 0x3ff)] {
        for place in 0x3fa..=0x3ff {
            for count in 1..=0x400 - place {
                let mut host = Host::with(21, sle4418_with(bits));
                let apdu = [&[0xff, 0xd0, 0x03, place as u8, count as u8], &vec![0x99; count][..]].concat();
                let covered = (place..place + count).contains(&protected);
                let word = if covered { "6581" } else { "9000" };
                assert_eq!(host.send_bytes(&apdu), word, "{:x} {}", place, count);
                let mut image = sle4418_with(bits);
                image[place..place + count].fill(0x99);
                image[protected] = sle4418()[protected];
                assert_eq!(host.0.image, image);
            }
        }
        // It is read in clear all the same.
        assert_eq!(Host::with(21, sle4418_with(bits)).send("FF B0 03 FC 04"), "fcc1c2c39000");
    }
    // The bits are told: that of 3FDh is bit 5 of the last byte, and the last of eight from 3F6h on.
    let mut host = Host::with(21, sle4418_with(0xdf));
    assert_eq!(host.send("FF B2 03 F8 01"), "df9000");
    assert_eq!(host.send("FF B2 03 F6 01"), "7f9000");
    assert_eq!(host.send("FF B2 03 F5 01"), "ff9000");
    assert_eq!(host.send("FF B2 03 00 20"), "ff".repeat(31) + "df9000");
    assert_eq!(host.send("FF B2 00 00 20"), "ff".repeat(32) + "9000");
    assert_eq!(Host::with(21, sle4418_with(0x1f)).send("FF B2 03 F8 01"), "1f9000");
}

#[test]
fn protecting_bytes_of_a_4418() {
    let mut host = Host::with(21, sle4418());
    // 3FDh and 3FFh are equal, 3FEh is not and is passed over: bits 5 and 7 go.
    assert_eq!(host.send("FF D1 03 FD 03 C1 00 C3"), "9000");
    assert_eq!(host.0.image, sle4418_with(0x5f));
    assert_eq!(host.send("FF B2 03 F8 01"), "5f9000");
    assert_eq!(host.send("FF D0 03 FD 01 C1"), "9000");
    assert_eq!(host.send("FF D0 03 FD 01 00"), "6581");
    assert_eq!(host.send("FF D0 03 FF 01 00"), "6581");
    assert_eq!(host.send("FF D0 03 FE 01 55"), "9000");
    // Protecting a protected byte is nothing new, whichever byte is sent.
    assert_eq!(host.send("FF D1 03 FD 01 C1"), "9000");
    assert_eq!(host.send("FF D1 03 FD 01 00"), "9000");
    assert_eq!(host.0.image[1151], 0x5f);
    assert_eq!(host.send("FF D1 03 FE 01 C2"), "9000");
    assert_eq!(host.0.image[1151], 0x5f);
    assert_eq!(host.send("FF D1 03 FE 01 55"), "9000");
    assert_eq!(host.0.image[1151], 0x1f);
    assert_eq!(host.send("FF D0 03 FE 01 55"), "9000");
    assert_eq!(host.send("FF D0 03 FE 01 C2"), "6581");
    assert_eq!(host.send("FF B0 03 FC 04"), "fcc155c39000");
    // The card may go out and in as it is, with the bit of 3FDh 0.
    let image = host.0.image.clone();
    assert_eq!(host.remove(), "out 0");
    assert_eq!(host.insert(21, &image), "in 0");
    assert_eq!(host.remove(), "out 0");
    assert_eq!(host.insert(20, &image), "in 3");
}

#[test]
fn a_4432_is_written_and_protected() {
    let mut host = Host::with(31, sle4432());
    assert_eq!(host.send("FF D0 00 02 02 77 78"), "9000");
    assert_eq!(host.send("FF B0 00 00 05"), "a2137778ff9000");
    // Bytes 0 and 3 are equal, 1 and 2 are not: bits 1001b go, 1111_0110b stay.
    assert_eq!(host.send("FF D1 00 00 04 A2 00 00 78"), "9000");
    assert_eq!(host.send("FF B2 00 00 04"), "f6ffffff9000");
    assert_eq!(host.send("FF D0 00 00 01 A2"), "9000");
    assert_eq!(host.send("FF D0 00 00 01 A3"), "6581");
    assert_eq!(host.send("FF D0 00 01 03 01 02 03"), "6581");
    assert_eq!(host.send("FF B0 00 00 05"), "a2010278ff9000");
    assert_eq!(host.send("FF D0 00 01 02 03 04"), "9000");
    assert_eq!(host.send("FF B0 00 00 05"), "a2030478ff9000");
    // From 32 on no byte has a bit.
    assert_eq!(host.send("FF D1 00 1F 01 FF"), "9000");
    assert_eq!(host.send("FF D0 00 1F 02 00 01"), "6581");
    assert_eq!(host.send("FF B0 00 1E 04"), "ffff01ff9000");
    assert_eq!(host.send("FF D0 00 20 02 00 00"), "9000");
    // Bytes 0, 3 and 1Fh are protected.
    assert_eq!(host.0.slot, Slot { kind: 31, active: true, selected: 6, protected: 3, ..Slot::empty() });
    assert_eq!(host.0.image[256..], bytes("F6 FF FF 7F 00 00 00 00"));
}

/// Every command, at many places and of many lengths, on cards that are read and written in between.
#[test]
fn no_command_opens_them_or_changes_the_last_four_bytes_of_a_4432() {
    for (kind, image) in [(21, sle4418()), (31, sle4432())] {
        let mut host = Host::with(kind, image);
        for ins in [0xa4, 0x01, 0xb0, 0xb1, 0xb2, 0xd0, 0xd1, 0x20, 0xd2] {
            for place in [0, 1, 28, 31, 32, 252, 255, 256, 259, 260, 261, 263, 264, 0x3fc, 0x3fd, 0x3ff, 0x400] {
                for p3 in [0, 1, 2, 3, 4, 8, 12, 255] {
                    for byte in [0x00, 0x05, 0x06, 0x07, 0xff] {
                        let header = [0xff, ins, (place >> 8) as u8, place as u8, p3 as u8];
                        let data = if ins & 0xf0 == 0xb0 { vec![] } else { vec![byte; p3] };
                        host.send_bytes(&[&header[..], &data].concat());
                        assert!(!host.0.slot.open);
                        assert!(kind == 21 || host.0.image[260..] == [0, 0, 0, 0], "{:02x} {} {}", ins, place, p3);
                    }
                }
            }
        }
        assert_eq!(host.raw(STATUS), "0 81000000000000000000");
    }
}

#[test]
fn trial_lines() {
    let record = |kind: &str| format!("{}0800001100000a000000{}", kind, "00".repeat(19));
    let message = |apdu: &str| {
        let apdu = bytes(apdu);
        [&[0x6f, apdu.len() as u8, 0, 0, 0, 0, 1, 0, 0, 0][..], &apdu].concat()
    };
    let done = "800200000000010000009000".to_string() + &"ee".repeat(259);
    let word = |word: &str| format!("80020000000001000000{}{}", word, "ee".repeat(259));
    let sle4418 = |apdu: &str| Case {
        call: Call::Message,
        record: raw(&[21, 1, 5, 8, 0], 0, 0),
        buffer: 271,
        fill: 0xee,
        message: message(apdu),
        image: sle4418(),
    };
    let line = format!("0 12 {} {}", record("150105"), done);
    assert_eq!(sle4418("FF D0 03 FD 03 01 02 03").line(), line + " 03fd=01 03fe=02 03ff=03");
    // D1 of three bytes protects two.
    let line = format!("0 12 {} {}", raw_hex(&raw(&[21, 1, 5, 8, 0], 0, 2)), done);
    assert_eq!(sle4418("FF D1 03 FD 03 C1 00 C3").line(), line + " 047f=5f");
    let line = format!("0 12 {} {}", record("150105"), word("6d00"));
    assert_eq!(sle4418("FF 20 00 00 02 C2 C3").line(), line);
    assert_eq!(sle4418("FF D2 00 01 02 C2").line(), line);
    let mut open = sle4418("FF B0 00 00 01");
    open.record[4] = 1;
    assert_eq!(open.line(), format!("4 0 {} {}", raw_hex(&open.record), "ee".repeat(271)));

    let mut case = Case { record: raw(&[31, 1, 6, 8, 0], 0, 0), image: sle4432(), ..sle4418("FF B1 00 00 04") };
    assert_eq!(case.line(), format!("0 12 {} {}", record("1f0106"), word("6d00")));
    case.message = message("FF D0 00 FF 01 55");
    assert_eq!(case.line(), format!("0 12 {} {} 00ff=55", record("1f0106"), done));
    case.record[4] = 1;
    assert_eq!(case.line(), format!("4 0 {} {}", raw_hex(&case.record), "ee".repeat(271)));
    case.image[263] = 0x01;
    assert_eq!(case.line(), format!("3 0 {} {}", raw_hex(&case.record), "ee".repeat(271)));
}

/// A raw record in hex.
fn raw_hex(record: &[u8]) -> String {
    record.iter().map(|byte| format!("{:02x}", byte)).collect()
}
