//! D0 over protected bytes, on the four kinds with protection bits: every unprotected byte of the
//! range is stored, the others are passed over.

use crate::{bytes, raw, sle4428, Host};
use second::case::{Call, Case};

const BITS: [u8; 4] = [20, 21, 30, 31];

/// A card whose memory counts up, with these bytes protected. The last three bytes of an SLE4428 are
/// FF AA BB, its code AA BB; that of an SLE4442 is 11 22 33; the counters are full.
fn card(kind: u8, protected: &[usize]) -> Vec<u8> {
    let counting = |count: usize| (0..count).map(|k| k as u8);
    let mut image: Vec<u8> = match kind {
        20 => sle4428(0xff),
        21 => counting(1024).chain([0xff; 128]).collect(),
        30 => counting(256).chain(bytes("FF FF FF FF 07 11 22 33")).collect(),
        _ => counting(256).chain(bytes("FF FF FF FF 00 00 00 00")).collect(),
    };
    let bits = if kind < 30 { 1024 } else { 256 };
    for k in protected {
        image[bits + k / 8] &= !(1 << (k % 8));
    }
    image
}

/// The card with its type selected, and open where it has a code.
fn open(kind: u8, protected: &[usize]) -> Host {
    let mut host = Host::with(kind, card(kind, protected));
    match kind {
        20 => assert_eq!(host.send("FF 20 00 00 02 AA BB"), "90ff"),
        30 => assert_eq!(host.send("FF 20 00 00 03 11 22 33"), "9007"),
        _ => {}
    }
    host
}

#[test]
fn whole_answers() {
    for kind in BITS {
        let mut host = open(kind, &[2, 4]);
        // 1, 3 and 5 are stored; 2 and 4 keep their values, which are not those sent.
        let write = "6F 0A000000 00 21 000000 FF D0 00 01 05 31 32 33 34 35";
        assert_eq!(host.raw(write), "0 800200000000210000006581", "kind {}", kind);
        let read = "6F 05000000 00 22 000000 FF B0 00 00 07";
        assert_eq!(host.raw(read), "0 80090000000022000000003102330435069000", "kind {}", kind);
        // Bits 2 and 4 are 0: 1110_1011b.
        let read_bits = "6F 05000000 00 23 000000 FF B2 00 00 04";
        assert_eq!(host.raw(read_bits), "0 80060000000023000000ebffffff9000", "kind {}", kind);
        // 02 and 04 stand there already.
        let write = "6F 0A000000 00 24 000000 FF D0 00 01 05 41 02 43 04 45";
        assert_eq!(host.raw(write), "0 800200000000240000009000", "kind {}", kind);
        assert_eq!(host.raw(read), "0 80090000000022000000004102430445069000", "kind {}", kind);
        assert_eq!(host.raw(read_bits), "0 80060000000023000000ebffffff9000", "kind {}", kind);
    }
}

/// Five bytes written at 10h, where 10 11 12 13 14 stand: which bytes are protected, the bytes sent,
/// the status word, and what stands there then.
#[rustfmt::skip]
const WRITES: [(&[usize], &str, &str, &str); 27] = [
    // None of the range, and those at its sides.
    (&[],                             "A0 A1 A2 A3 A4", "9000", "a0a1a2a3a4"),
    (&[0x0f, 0x15],                   "A0 A1 A2 A3 A4", "9000", "a0a1a2a3a4"),
    // The first alone, the last alone, one in the middle.
    (&[0x10],                         "A0 A1 A2 A3 A4", "6581", "10a1a2a3a4"),
    (&[0x10],                         "10 A1 A2 A3 A4", "9000", "10a1a2a3a4"),
    (&[0x14],                         "A0 A1 A2 A3 A4", "6581", "a0a1a2a314"),
    (&[0x14],                         "A0 A1 A2 A3 14", "9000", "a0a1a2a314"),
    (&[0x12],                         "A0 A1 A2 A3 A4", "6581", "a0a112a3a4"),
    (&[0x12],                         "A0 A1 12 A3 A4", "9000", "a0a112a3a4"),
    // Every second one.
    (&[0x10, 0x12, 0x14],             "A0 A1 A2 A3 A4", "6581", "10a112a314"),
    (&[0x10, 0x12, 0x14],             "10 A1 A2 A3 A4", "6581", "10a112a314"),
    (&[0x10, 0x12, 0x14],             "A0 A1 12 A3 A4", "6581", "10a112a314"),
    (&[0x10, 0x12, 0x14],             "A0 A1 12 A3 14", "6581", "10a112a314"),
    (&[0x10, 0x12, 0x14],             "10 A1 A2 A3 14", "6581", "10a112a314"),
    (&[0x10, 0x12, 0x14],             "10 A1 12 A3 A4", "6581", "10a112a314"),
    (&[0x10, 0x12, 0x14],             "10 A1 12 A3 14", "9000", "10a112a314"),
    (&[0x11, 0x13],                   "A0 A1 A2 A3 A4", "6581", "a011a213a4"),
    (&[0x11, 0x13],                   "A0 11 A2 13 A4", "9000", "a011a213a4"),
    // Several in a row.
    (&[0x11, 0x12, 0x13],             "A0 A1 A2 A3 A4", "6581", "a0111213a4"),
    (&[0x11, 0x12, 0x13],             "A0 11 A2 13 A4", "6581", "a0111213a4"),
    (&[0x11, 0x12, 0x13],             "A0 11 12 13 A4", "9000", "a0111213a4"),
    (&[0x10, 0x11, 0x12, 0x13],       "10 11 12 13 A4", "9000", "10111213a4"),
    (&[0x11, 0x12, 0x13, 0x14],       "A0 11 12 13 A4", "6581", "a011121314"),
    // All of them.
    (&[0x10, 0x11, 0x12, 0x13, 0x14], "A0 A1 A2 A3 A4", "6581", "1011121314"),
    (&[0x10, 0x11, 0x12, 0x13, 0x14], "A0 11 12 13 14", "6581", "1011121314"),
    (&[0x10, 0x11, 0x12, 0x13, 0x14], "10 11 A2 13 14", "6581", "1011121314"),
    (&[0x10, 0x11, 0x12, 0x13, 0x14], "10 11 12 13 A4", "6581", "1011121314"),
    (&[0x10, 0x11, 0x12, 0x13, 0x14], "10 11 12 13 14", "9000", "1011121314"),
];

#[test]
fn every_unprotected_byte_is_stored() {
    for kind in BITS {
        for (protected, sent, word, after) in WRITES {
            let mut host = open(kind, protected);
            let (slot, told) = (host.0.slot.clone(), host.send("FF B2 00 00 04"));
            let which = format!("kind {}: {} over {:x?}", kind, sent, protected);
            assert_eq!(host.send(&format!("FF D0 00 10 05 {}", sent)), word, "{}", which);
            // The bytes at the sides stand as they stood.
            assert_eq!(host.send("FF B0 00 0F 07"), format!("0f{}159000", after), "{}", which);
            assert_eq!(host.send("FF B2 00 00 04"), told, "{}", which);
            // Nothing else of the image has changed, and nothing of the slot record.
            let mut image = card(kind, protected);
            image[0x10..0x15].copy_from_slice(&bytes(after));
            assert_eq!(host.0.image, image, "{}", which);
            assert_eq!(host.0.slot, slot, "{}", which);
        }
    }
}

#[test]
fn a_byte_alone() {
    for kind in BITS {
        let mut host = open(kind, &[0x00, 0x1f]);
        assert_eq!(host.send("FF D0 00 00 01 01"), "6581");
        assert_eq!(host.send("FF D0 00 00 01 00"), "9000");
        assert_eq!(host.send("FF D0 00 1F 01 00"), "6581");
        assert_eq!(host.send("FF D0 00 1F 01 1F"), "9000");
        assert_eq!(host.0.image, card(kind, &[0x00, 0x1f]));
        assert_eq!(host.send("FF D0 00 1E 01 00"), "9000");
        assert_eq!(host.send("FF B0 00 1D 03"), "1d001f9000");
    }
}

#[test]
fn the_card_stays_open_and_no_try_is_charged() {
    let mut host = open(30, &[0x10]);
    assert_eq!(host.send("FF D0 00 10 02 A0 A1"), "6581");
    assert_eq!(host.send("FF D0 00 10 02 A0 A2"), "6581");
    assert_eq!(host.send("FF B1 00 00 04"), "070000009000");
    // D0, D1 and D2 find it open; byte 11h holds A2.
    assert_eq!(host.send("FF D0 00 20 01 55"), "9000");
    assert_eq!(host.send("FF D1 00 11 01 A2"), "9000");
    assert_eq!(host.send("FF B2 00 00 04"), "fffffcff9000");
    assert_eq!(host.send("FF D2 00 01 03 44 55 66"), "9000");
    assert_eq!(host.send("FF 20 00 00 03 11 22 33"), "9006");
    assert_eq!(host.send("FF D0 00 10 02 10 A2"), "6982");
    assert_eq!(host.send("FF 20 00 00 03 44 55 66"), "9007");
    assert_eq!(host.send("FF D0 00 10 02 10 A2"), "9000");

    let mut host = open(20, &[0x10]);
    assert_eq!(host.send("FF D0 00 10 02 A0 A1"), "6581");
    assert_eq!(host.send("FF B1 00 00 03"), "ff00009000");
    assert_eq!(host.send("FF B0 03 FE 02"), "aabb9000");
    assert_eq!(host.send("FF D1 00 11 01 A1"), "9000");
    assert_eq!(host.send("FF B2 00 10 01"), "fc9000");
    assert_eq!(host.send("FF 20 00 00 02 AA BC"), "90fe");
}

#[test]
fn a_closed_card_stores_nothing() {
    for (kind, wrong, after) in [(20, "FF 20 00 00 02 AA BC", "90fe"), (30, "FF 20 00 00 03 11 22 34", "9006")] {
        let closed = [Host::with(kind, card(kind, &[0x10])), {
            let mut host = open(kind, &[0x10]);
            assert_eq!(host.send(wrong), after);
            host
        }];
        for mut host in closed {
            let (slot, image) = (host.0.slot.clone(), host.0.image.clone());
            // Some protected, all of them, none; equal and unequal.
            for apdu in [
                "FF D0 00 0F 03 A0 A1 A2",
                "FF D0 00 0F 03 A0 10 A2",
                "FF D0 00 10 01 A0",
                "FF D0 00 10 01 10",
                "FF D0 00 12 01 A0",
                "FF D0 00 12 01 12",
            ] {
                assert_eq!(host.send(apdu), "6982", "kind {}: {}", kind, apdu);
            }
            assert_eq!(host.0.slot, slot);
            assert_eq!(host.0.image, image);
        }
    }
}

#[test]
fn length_and_place_come_first() {
    let past_255 = ["FF D0 00 FF 02 00 00", "FF D0 01 00 01 00"];
    let past_1023 = ["FF D0 03 FF 02 00 00", "FF D0 04 00 01 00"];
    for (kind, past) in [(20, past_1023), (21, past_1023), (30, past_255), (31, past_255)] {
        let mut host = open(kind, &[0x00, 0x1f]);
        for apdu in ["FF D0 00 00 00", "FF D0 00 00 02 01", "FF D0 00 1F 01 01 02"] {
            assert_eq!(host.send(apdu), "6700", "kind {}: {}", kind, apdu);
        }
        for apdu in past {
            assert_eq!(host.send(apdu), "6b00", "kind {}: {}", kind, apdu);
        }
        assert_eq!(host.0.image, card(kind, &[0x00, 0x1f]));
        host.raw("62 00000000 00 00 00 0000");
        assert_eq!(host.send("FF D0 00 00 01 01"), "6985");
    }
}

#[test]
fn the_code_of_a_4428() {
    // 3FEh is protected and 3FFh is not: the code becomes AA 02.
    let mut host = open(20, &[0x3fe]);
    assert_eq!(host.send("FF D0 03 FE 02 01 02"), "6581");
    assert_eq!(host.send("FF B0 03 FC 04"), "fcffaa029000");
    assert_eq!(host.send("FF D0 03 FE 02 AA 03"), "9000");
    assert_eq!(host.send("FF D0 03 FE 01 01"), "6581");
    assert_eq!(host.send("FF D0 03 FE 01 AA"), "9000");
    assert_eq!(host.send("FF D0 03 FF 01 04"), "9000");
    assert_eq!(host.send("FF B2 03 F8 01"), "bf9000");
    assert_eq!(host.send("FF 20 00 00 02 AA BB"), "90fe");
    assert_eq!(host.send("FF B0 03 FC 04"), "fcfe00009000");
    assert_eq!(host.send("FF 20 00 00 02 AA 04"), "90ff");
    // The other way round: 01 BB.
    let mut host = open(20, &[0x3ff]);
    assert_eq!(host.send("FF D0 03 FE 02 01 02"), "6581");
    assert_eq!(host.send("FF D0 03 FF 01 BB"), "9000");
    assert_eq!(host.send("FF B0 03 FC 04"), "fcff01bb9000");
    assert_eq!(host.send("FF 20 00 00 02 AA BB"), "90fe");
    assert_eq!(host.send("FF 20 00 00 02 01 BB"), "90ff");
    // Both.
    let mut host = open(20, &[0x3fe, 0x3ff]);
    assert_eq!(host.send("FF D0 03 FE 02 AA 02"), "6581");
    assert_eq!(host.send("FF D0 03 FE 02 01 BB"), "6581");
    assert_eq!(host.send("FF D0 03 FE 02 AA BB"), "9000");
    assert_eq!(host.0.image, card(20, &[0x3fe, 0x3ff]));
    assert_eq!(host.send("FF 20 00 00 02 AA BB"), "90ff");
    // The counter at 3FDh is none that D0 may cover, whatever is protected.
    assert_eq!(host.send("FF D0 03 FD 01 FF"), "6b00");
    assert_eq!(host.send("FF D0 03 FD 03 FF AA BB"), "6b00");
    assert_eq!(host.send("FF D0 03 FC 04 FC FF AA BB"), "6b00");
}

#[test]
fn the_last_bytes_of_a_4418() {
    for (protected, after) in [
        (&[][..], "010203"),
        (&[0x3fd], "fd0203"),
        (&[0x3fe], "01fe03"),
        (&[0x3ff], "0102ff"),
        (&[0x3fd, 0x3fe], "fdfe03"),
        (&[0x3fd, 0x3ff], "fd02ff"),
        (&[0x3fe, 0x3ff], "01feff"),
        (&[0x3fd, 0x3fe, 0x3ff], "fdfeff"),
    ] {
        let mut host = open(21, protected);
        let word = if protected.is_empty() { "9000" } else { "6581" };
        assert_eq!(host.send("FF D0 03 FD 03 01 02 03"), word, "{:x?}", protected);
        assert_eq!(host.send("FF B0 03 FC 04"), format!("fc{}9000", after));
        // What stands there then is taken once more.
        assert_eq!(host.send(&format!("FF D0 03 FD 03 {}", after)), "9000");
        let mut image = card(21, protected);
        image[0x3fd..0x400].copy_from_slice(&bytes(after));
        assert_eq!(host.0.image, image);
    }
    // From 3FCh on, with 3FEh protected.
    let mut host = open(21, &[0x3fe]);
    assert_eq!(host.send("FF D0 03 FC 04 01 02 03 04"), "6581");
    assert_eq!(host.send("FF B0 03 FB 05"), "fb0102fe049000");
    assert_eq!(host.send("FF D0 03 FC 04 05 06 FE 07"), "9000");
    assert_eq!(host.send("FF B0 03 FB 05"), "fb0506fe079000");
}

#[test]
fn over_the_last_byte_that_has_a_bit() {
    for kind in [30, 31] {
        // 1Fh is protected, and the last that may be.
        let mut host = open(kind, &[0x1f]);
        assert_eq!(host.send("FF D0 00 1E 04 A0 A1 A2 A3"), "6581");
        assert_eq!(host.send("FF B0 00 1D 06"), "1da01fa2a3229000");
        assert_eq!(host.send("FF D0 00 1F 02 1F B0"), "9000");
        assert_eq!(host.send("FF B0 00 1D 06"), "1da01fb0a3229000");
        assert_eq!(host.send("FF D0 00 1F 02 20 C0"), "6581");
        assert_eq!(host.send("FF B0 00 1D 06"), "1da01fc0a3229000");
        // Every bit is 0: all of 0 to 1Fh are passed over, and 20h to FEh are stored.
        let all: Vec<usize> = (0..32).collect();
        let mut host = open(kind, &all);
        let stands: String = (0..32).map(|k| format!("{:02x}", k)).collect();
        assert_eq!(host.send(&format!("FF D0 00 00 FF {}", "5C".repeat(255))), "6581");
        assert_eq!(host.send("FF B0 00 00 FF"), format!("{}{}9000", stands, "5c".repeat(223)));
        assert_eq!(host.send(&format!("FF D0 00 00 FF {}{}", stands, "5D".repeat(223))), "9000");
        assert_eq!(host.send("FF B0 00 01 FF"), format!("{}{}ff9000", &stands[2..], "5d".repeat(223)));
        // No byte from 20h on is protected, whatever stands behind the bits.
        assert_eq!(host.send(&format!("FF D0 00 20 E0 {}", "5E".repeat(224))), "9000");
        assert_eq!(host.send("FF B0 00 01 FF"), format!("{}{}9000", &stands[2..], "5e".repeat(224)));
        assert_eq!(host.send("FF B2 00 00 04"), "000000009000");
        assert_eq!(host.0.image[260..], card(kind, &[])[260..]);
    }
}

#[test]
fn every_second_byte_of_255() {
    // At 0100h, where 00 01 02 .. FE stand: the odd ones are protected.
    let odd: Vec<usize> = (0x100..0x200).filter(|k| k % 2 == 1).collect();
    let stands = |even: &str| -> String {
        (0..255).map(|k| if k % 2 == 1 { format!("{:02x}", k) } else { even.to_string() }).collect()
    };
    for kind in [20, 21] {
        let mut host = open(kind, &odd);
        // Of the odd ones 99h alone is the one sent.
        assert_eq!(host.send(&format!("FF D0 01 00 FF {}", "99".repeat(255))), "6581");
        assert_eq!(host.send("FF B0 01 00 FF"), stands("99") + "9000");
        assert_eq!(host.send(&format!("FF D0 01 00 FF {}", stands("77"))), "9000");
        assert_eq!(host.send("FF B0 01 00 FF"), stands("77") + "9000");
        // FDh, the last odd one of the range, is the only one that is another.
        let sent = stands("66").replace("66fd66", "66fc66");
        assert_eq!(host.send(&format!("FF D0 01 00 FF {}", sent)), "6581");
        assert_eq!(host.send("FF B0 01 00 FF"), stands("66") + "9000");
        assert_eq!(host.send("FF B2 01 00 20"), "55".repeat(32) + "9000");
        assert_eq!(host.send("FF B0 00 FF 01"), "ff9000");
        assert_eq!(host.send("FF B0 01 FF 01"), "ff9000");
    }
    // On the kinds 30 and 31 the odd ones of 00h to 1Fh are.
    let odd: Vec<usize> = (0..32).filter(|k| k % 2 == 1).collect();
    let first: String = (0..16).map(|k| format!("99{:02x}", 2 * k + 1)).collect();
    for kind in [30, 31] {
        let mut host = open(kind, &odd);
        assert_eq!(host.send(&format!("FF D0 00 00 FF {}", "99".repeat(255))), "6581");
        assert_eq!(host.send("FF B0 00 00 FF"), format!("{}{}9000", first, "99".repeat(223)));
        assert_eq!(host.send(&format!("FF D0 00 00 FF {}{}", first, "77".repeat(223))), "9000");
        assert_eq!(host.send("FF B0 00 00 FF"), format!("{}{}9000", first, "77".repeat(223)));
        assert_eq!(host.send("FF B2 00 00 04"), "555555559000");
    }
}

#[test]
fn what_was_stored_stays() {
    for (kind, own) in [(20, "05"), (21, "05"), (30, "06"), (31, "06")] {
        let mut host = open(kind, &[0x10]);
        assert_eq!(host.send("FF D0 00 0F 03 A0 A1 A2"), "6581");
        host.raw("63 00000000 00 00 000000");
        host.raw("62 00000000 00 00 00 0000");
        assert_eq!(host.send(&format!("FF A4 00 00 01 {}", own)), "9000");
        assert_eq!(host.send("FF B0 00 0E 05"), "0ea010a2129000");
        // The card goes out and in as it is.
        let image = host.0.image.clone();
        assert_eq!(host.remove(), "out 0");
        assert_eq!(host.insert(kind, &image), "in 0");
    }
}

#[test]
fn i2c_answers_9000_whatever_a_page_did() {
    // Chip page 64, reader page 128: from 3Eh on the third byte runs round to 00h.
    let mut host = Host::with(8, vec![0xee; 16384]);
    assert_eq!(host.send("FF 01 00 00 01 07"), "9000");
    assert_eq!(host.send("FF D0 00 3E 04 0A 0B 0C 0D"), "9000");
    assert_eq!(host.send("FF B0 00 3E 04"), "0a0beeee9000");
    assert_eq!(host.send("FF B0 00 00 03"), "0c0dee9000");
    // Chip page 8, reader page 128: 255 bytes from 00h on, cut at 80h. Of the first cut the bytes 78h
    // to 7Fh are left, all in 00h to 07h; of the second, 127 bytes, those of F8h to FEh and F7h.
    let mut host = Host::with(2, vec![0xee; 256]);
    assert_eq!(host.send("FF 01 00 00 01 07"), "9000");
    let counting: String = (0..255).map(|k| format!("{:02x}", k)).collect();
    assert_eq!(host.send(&format!("FF D0 00 00 FF {}", counting)), "9000");
    assert_eq!(host.send("FF B0 00 00 09"), "78797a7b7c7d7e7fee9000");
    assert_eq!(host.send("FF B0 00 80 09"), "f8f9fafbfcfdfef7ee9000");
    assert_eq!(host.send("FF B0 00 08 78"), "ee".repeat(120) + "9000");
}

#[test]
fn trial_lines() {
    // 10h and 12h are protected. What has changed is told; record and counter have not.
    for (kind, selected, open, tries, record) in
        [(20, 5, 1, 8, "14010508"), (21, 5, 0, 0, "15010508"), (30, 6, 1, 3, "1e010608"), (31, 6, 0, 0, "1f010608")]
    {
        let case = |data: &str| Case {
            call: Call::Message,
            record: raw(&[kind, 1, selected, 8, open], tries, 2),
            buffer: 272,
            fill: 0xee,
            message: bytes(&format!("6F 0A000000 00 05 000000 FF D0 00 0F 05 {}", data)),
            image: card(kind, &[0x10, 0x12]),
        };
        let record = format!("{}0{}001100000a0000000{}0200{}", record, open, tries, "00".repeat(16));
        let line = |word: &str| format!("0 12 {} 80020000000005000000{}{}", record, word, "ee".repeat(260));
        let changed = " 000f=a0 0011=a2 0013=a4";
        assert_eq!(case("A0 A1 A2 A3 A4").line(), line("6581") + changed);
        assert_eq!(case("A0 10 A2 12 A4").line(), line("9000") + changed);
        assert_eq!(case("0F A1 11 A3 13").line(), line("6581"));
        assert_eq!(case("0F 10 11 12 13").line(), line("9000"));
        // A record that is not sound, and a buffer too short: nothing is stored.
        let mut unsound = case("A0 A1 A2 A3 A4");
        unsound.record[3] = 7;
        assert_eq!(unsound.line()[..4], *"4 0 ");
        assert!(!unsound.line().contains('='));
        assert_eq!(Case { buffer: 270, ..unsound }.line()[..4], *"1 0 ");
    }
    // Closed, a code card stores nothing.
    for (kind, selected, tries, record) in [(20, 5, 8, "1401050800"), (30, 6, 3, "1e01060800")] {
        let case = Case {
            call: Call::Message,
            record: raw(&[kind, 1, selected, 8, 0], tries, 1),
            buffer: 271,
            fill: 0xee,
            message: bytes("6F 07000000 00 05 000000 FF D0 00 0F 02 A0 A1"),
            image: card(kind, &[0x10]),
        };
        let record = format!("{}001100000a0000000{}0100{}", record, tries, "00".repeat(16));
        assert_eq!(case.line(), format!("0 12 {} 800200000000050000006982{}", record, "ee".repeat(259)));
    }
}
