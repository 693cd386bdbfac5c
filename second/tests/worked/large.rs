//! The two large chips: kinds 10 and 11 of 65536 and 131072 bytes, the second with 17 address bits.

use crate::{bytes, raw, sle4442, try_it, Host};
use second::case::{Call, Case};
use second::reader::{self, Slot};
use second::step::INSERT;

const STATUS: &str = "65 00000000 00 00 000000";
const POWER_ON: &str = "62 00000000 00 00 00 0000";

/// Kind 10: 11h everywhere but for A0 at 0000h and AF at FFFFh.
fn kind_10() -> Vec<u8> {
    let mut image = vec![0x11; 65536];
    (image[0x0000], image[0xffff]) = (0xa0, 0xaf);
    image
}

/// Kind 11: the same below, and above 22h but for B0 at 10000h and BF at 1FFFFh.
fn kind_11() -> Vec<u8> {
    let mut image = kind_10();
    image.resize(131072, 0x22);
    (image[0x10000], image[0x1ffff]) = (0xb0, 0xbf);
    image
}

fn image(kind: u8) -> Vec<u8> {
    if kind == 10 {
        kind_10()
    } else {
        kind_11()
    }
}

/// A large card that went in, is powered and has its type selected.
fn host(kind: u8) -> Host {
    let mut host = Host::new();
    host.0.image = image(kind);
    assert_eq!(reader::insert(&mut host.0.slot, kind, &host.0.image), Ok(()));
    assert_eq!(host.raw(POWER_ON), "0 800200000000000000003b00");
    assert_eq!(host.send("FF A4 00 00 01 02"), "9000");
    host
}

/// The image where these bytes stand from an address on.
fn written(kind: u8, address: usize, data: &[u8]) -> Vec<u8> {
    let mut image = image(kind);
    image[address..address + data.len()].copy_from_slice(data);
    image
}

// ---- insertion, power, selection

#[test]
fn insertion_power_and_type() {
    for kind in [10, 11] {
        let mut host = Host::new();
        host.0.image = image(kind);
        assert_eq!(reader::insert(&mut host.0.slot, kind, &host.0.image), Ok(()));
        // Inactive, no type, page 8, closed, the default set, and both counts 0.
        assert_eq!(host.0.slot, Slot { kind, ..Slot::empty() });
        assert_eq!((host.0.slot.tries, host.0.slot.protected), (0, 0));
        assert_eq!(host.raw(STATUS), "0 81000000000000010001");
        assert_eq!(host.raw(POWER_ON), "0 800200000000000000003b00");
        for value in 0x00..=0xff {
            let word = if value == 0x02 { "9000" } else { "6a80" };
            assert_eq!(host.send_bytes(&[0xff, 0xa4, 0x00, 0x00, 0x01, value]), word, "{}", value);
        }
        assert_eq!(host.0.slot, Slot { kind, active: true, selected: 2, page: 32, ..Slot::empty() });
        assert_eq!(host.0.image, image(kind));
        // Another card does not go in over it.
        assert_eq!(reader::insert(&mut host.0.slot, 11, &kind_11()), Err(5));
        assert_eq!(host.remove(), "out 0");
        assert_eq!(host.0.slot, Slot::empty());
    }
}

#[test]
fn image_lengths() {
    for (kind, own) in [(10, 65536), (11, 131072)] {
        for length in [0, 1, 32768, 65535, 65536, 65537, 131071, 131072, 131073] {
            let mut slot = Slot::empty();
            let result = reader::insert(&mut slot, kind, &vec![0x07; length]);
            assert_eq!(result, if length == own { Ok(()) } else { Err(3) }, "kind {}, {}", kind, length);
            assert_eq!(slot.kind, if length == own { kind } else { 0 });
        }
    }
    for kind in [0, 12, 13, 19] {
        assert_eq!(reader::insert(&mut Slot::empty(), kind, &kind_11()), Err(3), "kind {}", kind);
    }
}

/// The session program takes both as unknown, whatever image comes with them, and holds what it holds.
#[test]
fn unknown_to_the_session_program() {
    let images = [vec![], vec![0x00; 1], vec![0xff; 128], sle4442(7), vec![0x5a; 32768]];
    for kind in [10, 11] {
        let mut host = Host::new();
        for image in &images {
            assert_eq!(host.insert(kind, image), "in 3", "kind {}, {}", kind, image.len());
            assert_eq!(host.raw(STATUS), "0 81000000000000020001");
            assert_eq!(host.0.slot, Slot::empty());
        }
        let mut host = Host::with(30, sle4442(5));
        let slot = host.0.slot.clone();
        for image in &images {
            assert_eq!(host.insert(kind, image), "in 5", "kind {}, {}", kind, image.len());
            assert_eq!(host.0.slot, slot);
            assert_eq!(host.0.image, sle4442(5));
            assert_eq!(host.send("FF B0 00 00 04"), "a21310919000");
        }
        // A body that is too long ends the session, also of such a kind.
        let body = [&[kind][..], &[0; 32769]].concat();
        assert!(host.0.record(INSERT, &body).is_none());
        assert_eq!(host.0.record(INSERT, &body[..32769]).unwrap(), "in 5");
    }
}

// ---- reading

#[test]
fn whole_answers() {
    let mut host = host(11);
    // P1P2 FFFFh with the top bit 0, with the top bit 1, and both bytes beside the border.
    assert_eq!(host.raw("6F 05000000 00 21 000000 FF B0 FF FF 01"), "0 80030000000021000000af9000");
    assert_eq!(host.raw("6F 05000000 00 22 000000 FF B1 FF FF 01"), "0 80030000000022000000bf9000");
    assert_eq!(host.raw("6F 05000000 00 23 000000 FF B0 FF FF 02"), "0 80040000000023000000afb09000");
    assert_eq!(host.raw("6F 05000000 00 24 000000 FF B1 FF FF 02"), "0 800200000000240000006b00");
    assert_eq!(host.raw("6F 07000000 00 25 000000 FF D1 FF FF 02 01 02"), "0 800200000000250000006b00");
    assert_eq!(host.raw("6F 06000000 00 26 000000 FF D1 FF FF 01 01"), "0 800200000000260000009000");
    assert_eq!(host.0.image, written(11, 0x1ffff, &[0x01]));
}

#[test]
fn reads_on_kind_11() {
    let mut host = host(11);
    for (apdu, answer) in [
        ("FF B0 00 00 02", "a0119000"),
        ("FF B1 00 00 02", "b0229000"),
        ("FF B0 FF FE 02", "11af9000"),
        ("FF B0 FF FE 04", "11afb0229000"),
        ("FF B0 FF FF 03", "afb0229000"),
        ("FF B1 FF FE 02", "22bf9000"),
        ("FF B0 80 00 01", "119000"),
        ("FF B1 80 00 01", "229000"),
    ] {
        assert_eq!(host.send(apdu), answer, "{}", apdu);
    }
    // 255 bytes: up to FFFFh, from FFFFh on, up to 1FFFFh. No B0 is out of place.
    assert_eq!(host.send("FF B0 FF 01 FF"), "11".repeat(254) + "af9000");
    assert_eq!(host.send("FF B0 FF FF FF"), "afb0".to_string() + &"22".repeat(253) + "9000");
    assert_eq!(host.send("FF B1 FF 01 FF"), "22".repeat(254) + "bf9000");
    for apdu in ["FF B1 FF 02 FF", "FF B1 FF FF 02", "FF B1 FF FE 03", "FF B1 FF FF FF"] {
        assert_eq!(host.send(apdu), "6b00", "{}", apdu);
    }
    assert_eq!(host.0.image, kind_11());
}

#[test]
fn reads_on_kind_10() {
    let mut host = host(10);
    for (apdu, answer) in [
        ("FF B0 00 00 02", "a0119000"),
        ("FF B0 80 00 01", "119000"),
        ("FF B0 FF FE 02", "11af9000"),
        ("FF B0 FF FF 01", "af9000"),
        ("FF B0 FF FF 02", "6b00"),
        ("FF B0 FF FE 03", "6b00"),
        ("FF B0 FF FF FF", "6b00"),
        ("FF B0 FF 02 FF", "6b00"),
    ] {
        assert_eq!(host.send(apdu), answer, "{}", apdu);
    }
    assert_eq!(host.send("FF B0 FF 01 FF"), "11".repeat(254) + "af9000");
}

// ---- writing

const PAGES: [(&str, u8); 5] = [("03", 8), ("04", 16), ("05", 32), ("06", 64), ("07", 128)];

#[test]
fn the_reader_page() {
    for kind in [10, 11] {
        let mut host = host(kind);
        for (code, page) in PAGES {
            assert_eq!(host.send(&format!("FF 01 00 00 01 {}", code)), "9000");
            assert_eq!(host.0.slot.page, page);
        }
        for (apdu, word) in [
            ("FF 01 00 00 01 02", "6a80"),
            ("FF 01 00 00 01 08", "6a80"),
            ("FF 01 00 01 01 03", "6b00"),
            ("FF 01 00 00 02 03 03", "6700"),
        ] {
            assert_eq!(host.send(apdu), word, "{}", apdu);
        }
        assert_eq!(host.0.slot, Slot { kind, active: true, selected: 2, page: 128, chosen: true, ..Slot::empty() });
        // It survives power.
        host.raw("63 00000000 00 00 000000");
        host.raw(POWER_ON);
        assert_eq!(host.0.slot.page, 128);
    }
}

/// Every reader page divides the chip's, so that exactly the named range holds the data.
#[test]
fn writes_hold_exactly_the_named_range() {
    for (code, _) in PAGES {
        for (kind, ins, places) in [
            (10, 0xd0, [0x0000, 0x0041, 0x0079, 0x00f8, 0x7fff, 0xfef8, 0xff01]),
            (11, 0xd0, [0x0000, 0x0041, 0x00f8, 0x7fff, 0xff01, 0xff42, 0xffff]),
            (11, 0xd1, [0x0000, 0x0041, 0x00f8, 0x7fff, 0x80ff, 0xfef8, 0xff01]),
        ] {
            for place in places {
                for count in [1, 2, 8, 64, 65, 128, 129, 255] {
                    let mut host = host(kind);
                    assert_eq!(host.send(&format!("FF 01 00 00 01 {}", code)), "9000");
                    let data: Vec<u8> = (0..count).map(|k| 0x33 ^ k as u8).collect();
                    let apdu = [&[0xff, ins, (place >> 8) as u8, place as u8, count as u8], &data[..]].concat();
                    let which = format!("kind {}: {:02x} at {:x}, {} bytes, {}", kind, ins, place, count, code);
                    assert_eq!(host.send_bytes(&apdu), "9000", "{}", which);
                    let address = if ins == 0xd1 { 0x10000 + place } else { place };
                    assert!(host.0.image == written(kind, address, &data), "{}", which);
                }
            }
        }
    }
}

#[test]
fn writes_at_the_border_and_at_the_end() {
    let mut host = host(11);
    // D0 at FFFFh: the first byte below the border, the second above. B1 reads that one back.
    assert_eq!(host.send("FF D0 FF FF 02 01 02"), "9000");
    assert_eq!(host.0.image, written(11, 0xffff, &[1, 2]));
    assert_eq!(host.send("FF B1 00 00 01"), "029000");
    assert_eq!(host.send("FF B0 00 00 01"), "a09000");
    assert_eq!(host.send("FF B0 FF FE 04"), "110102229000");
    // D1 at 0000h is 10000h, and at FFFFh the last byte.
    assert_eq!(host.send("FF D1 00 00 01 03"), "9000");
    assert_eq!(host.send("FF B0 FF FF 02"), "01039000");
    assert_eq!(host.send("FF D1 FF FF 01 04"), "9000");
    assert_eq!(host.send("FF B1 FF FF 01"), "049000");
    assert_eq!(host.send("FF B0 FF FF 01"), "019000");
    let mut image = written(11, 0xffff, &[1, 3]);
    image[0x1ffff] = 4;
    assert_eq!(host.0.image, image);
    // Past the end nothing is stored.
    for apdu in ["FF D1 FF FF 02 05 06", "FF D1 FF FE 03 05 06 07"] {
        assert_eq!(host.send(apdu), "6b00", "{}", apdu);
    }
    assert_eq!(host.0.image, image);

    let mut host = self::host(10);
    assert_eq!(host.send("FF D0 FF FF 02 01 02"), "6b00");
    assert_eq!(host.0.image, kind_10());
    assert_eq!(host.send("FF D0 FF FF 01 01"), "9000");
    assert_eq!(host.0.image, written(10, 0xffff, &[1]));
}

/// All of the memory is written by D0 and D1 and read by B0 and B1, a byte of each address its own.
#[test]
fn every_address_of_kind_11() {
    let mut host = host(11);
    let byte = |address: usize| (address ^ address >> 7 ^ address >> 14) as u8;
    for first in (0..131072).step_by(128) {
        let data: Vec<u8> = (first..first + 128).map(byte).collect();
        let ins = if first < 0x10000 { 0xd0 } else { 0xd1 };
        let apdu = [&[0xff, ins, (first >> 8) as u8, first as u8, 128], &data[..]].concat();
        assert_eq!(host.send_bytes(&apdu), "9000");
    }
    assert!((0..131072).all(|address| host.0.image[address] == byte(address)));
    for first in (0..131072).step_by(64) {
        let ins = if first < 0x10000 { 0xb0 } else { 0xb1 };
        let told: String = (first..first + 64).map(|address| format!("{:02x}", byte(address))).collect();
        assert_eq!(host.send_bytes(&[0xff, ins, (first >> 8) as u8, first as u8, 64]), told + "9000");
    }
}

// ---- refused

#[test]
fn steps_of_b1_and_d1_on_kind_11() {
    let mut host = host(11);
    let slot = host.0.slot.clone();
    // The lengths are those of B0 and D0, and come before the place.
    for apdu in [
        "FF B1 00 00 00",
        "FF B1 00 00 01 00",
        "FF B1 FF FF 02 00",
        "FF B1 FF FF 00",
        "FF D1 00 00 00",
        "FF D1 00 00 02 01",
        "FF D1 00 00 01 01 02",
        "FF D1 FF FF 02 01",
        "FF D1 FF FF 03 01 02",
        "FF B0 00 00 00",
        "FF D0 FF FF 02 01",
        "FF B1 00 00",
        "FF D1",
    ] {
        assert_eq!(host.send(apdu), "6700", "{}", apdu);
    }
    assert_eq!(host.send("FE B1 00 00 01"), "6e00");
    // The other commands of code cards are none of its, whatever their length and place.
    for apdu in [
        "FF B2 00 00 04",
        "FF B2 00 00 00",
        "FF B2 00 00 01 00",
        "FF 20 00 00 03 01 02 03",
        "FF 20 00 00 02 01 02",
        "FF 20 FF FF 00",
        "FF D2 00 01 03 01 02 03",
        "FF D2 00 00 00",
        "FF B3 00 00 01",
    ] {
        assert_eq!(host.send(apdu), "6d00", "{}", apdu);
    }
    assert_eq!(host.0.slot, slot);
    assert_eq!(host.0.image, kind_11());
    // No type is selected.
    host.raw(POWER_ON);
    for apdu in [
        "FF B1 00 00 01",
        "FF B1 00 00 00",
        "FF D1 00 00 01 01",
        "FF D1 FF FF 02 01",
        "FF B0 FF FF 02",
        "FF D0 FF FF 02 01 02",
        "FF B2 00 00 04",
        "FF 20 00 00 03 01 02 03",
        "FF D2 00 01 03 01 02 03",
        "FF 01 00 00 01 03",
    ] {
        assert_eq!(host.send(apdu), "6985", "{}", apdu);
    }
    assert_eq!(host.0.image, kind_11());
}

/// B1 is no counter on kind 11, and D1 protects nothing.
#[test]
fn b1_reads_and_d1_writes() {
    let mut host = host(11);
    assert_eq!(host.send("FF B1 00 00 03"), "b022229000");
    assert_eq!(host.send("FF B1 00 00 04"), "b02222229000");
    // D1 of the bytes that stand there.
    assert_eq!(host.send("FF D1 00 00 04 B0 22 22 22"), "9000");
    assert_eq!(host.0.image, kind_11());
    assert_eq!(host.0.slot, Slot { kind: 11, active: true, selected: 2, page: 32, ..Slot::empty() });
    assert_eq!(host.send("FF D1 00 00 04 01 02 03 04"), "9000");
    assert_eq!(host.0.image, written(11, 0x10000, &[1, 2, 3, 4]));
    assert_eq!(host.0.slot, Slot { kind: 11, active: true, selected: 2, page: 32, ..Slot::empty() });
}

#[test]
fn b1_and_d1_on_every_other_i2c_card() {
    let apdus = [
        "FF B1 00 00 01",
        "FF B1 00 00 03",
        "FF B1 00 00 04",
        "FF B1 00 00 00",
        "FF B1 00 00 01 00",
        "FF B1 FF FF 02",
        "FF D1 00 00 01 01",
        "FF D1 00 00 02 01 02",
        "FF D1 00 00 00",
        "FF D1 00 00 02 01",
        "FF D1 FF FF 01 01",
    ];
    let sizes = [128, 256, 512, 1024, 2048, 4096, 8192, 16384, 32768, 65536];
    for (kind, size) in (1..).zip(sizes) {
        let image: Vec<u8> = (0..size).map(|k| k as u8).collect();
        let mut host = Host::new();
        host.0.image = image.clone();
        assert_eq!(reader::insert(&mut host.0.slot, kind, &image), Ok(()));
        host.raw(POWER_ON);
        for apdu in apdus {
            assert_eq!(host.send(apdu), "6985", "kind {}: {}", kind, apdu);
        }
        assert_eq!(host.send(if kind < 6 { "FF A4 00 00 01 01" } else { "FF A4 00 00 01 02" }), "9000");
        for apdu in apdus {
            assert_eq!(host.send(apdu), "6d00", "kind {}: {}", kind, apdu);
        }
        assert_eq!(host.0.image, image);
    }
}

#[test]
fn turned_down() {
    let status = bytes(STATUS);
    for kind in [10, 11] {
        let sound = Slot { kind, active: true, selected: 2, page: 128, ..Slot::empty() };
        let image = image(kind);
        assert_eq!(try_it(&sound, &image, &status, 271), Ok(10));
        assert_eq!(try_it(&Slot { selected: 0, ..sound.clone() }, &image, &status, 271), Ok(10));
        assert_eq!(try_it(&Slot { active: false, selected: 0, ..sound.clone() }, &image, &status, 271), Ok(10));
        for unsound in [
            Slot { page: 0, ..sound.clone() },
            Slot { page: 7, ..sound.clone() },
            Slot { page: 255, ..sound.clone() },
            Slot { active: false, ..sound.clone() },
            Slot { active: false, selected: 0, open: true, ..sound.clone() },
            Slot { selected: 1, ..sound.clone() },
            Slot { selected: 5, ..sound.clone() },
            Slot { open: true, ..sound.clone() },
            Slot { open: true, selected: 0, ..sound.clone() },
            Slot { tries: 1, ..sound.clone() },
            Slot { protected: 1, ..sound.clone() },
            Slot { protected: 256, ..sound.clone() },
        ] {
            assert_eq!(try_it(&unsound, &image, &status, 271), Err(4), "{:?}", unsound);
            // The image of the other kind, or a byte less: 3 comes first.
            assert_eq!(try_it(&unsound, &self::image(21 - kind), &status, 271), Err(3));
            assert_eq!(try_it(&unsound, &image[1..], &status, 271), Err(3));
            assert_eq!(try_it(&unsound, &image[1..], &status[..9], 271), Err(2));
            assert_eq!(try_it(&unsound, &image[1..], &status[..9], 270), Err(1));
        }
        assert_eq!(try_it(&sound, &self::image(21 - kind), &status, 271), Err(3));
        assert_eq!(try_it(&sound, &[], &status, 271), Err(3));
        assert_eq!(try_it(&Slot { kind: 12, ..sound }, &image, &status, 271), Err(3));
    }
}

#[test]
fn trial_lines() {
    let case = |kind: u8, apdu: &str| {
        let apdu = bytes(apdu);
        let message = [&[0x6f, apdu.len() as u8, 0, 0, 0, 0, 1, 0, 0, 0][..], &apdu].concat();
        let record = raw(&[kind, 1, 2, 64, 0], 0, 0);
        Case { call: Call::Message, record, buffer: 271, fill: 0xee, message, image: image(kind) }
    };
    let line = |kind: &str, data: &str, changed: &str| {
        let length = 10 + data.len() / 2;
        let record = format!("{}01024000001100000a00{}", kind, "00".repeat(21));
        let answer = format!("80{:02x}00000000010000{}{}", length - 10, "00", data);
        format!("0 {} {} {}{}{}", length, record, answer, "ee".repeat(271 - length), changed)
    };
    // Four digits up to FFFFh, five from 10000h on.
    let border = case(11, "FF D0 FF FE 04 01 AF 03 04");
    assert_eq!(border.line(), line("0b", "9000", " fffe=01 10000=03 10001=04"));
    let last = case(11, "FF D1 FF FE 02 22 05");
    assert_eq!(last.line(), line("0b", "9000", " 1ffff=05"));
    assert_eq!(case(11, "FF D0 00 01 01 05").line(), line("0b", "9000", " 0001=05"));
    assert_eq!(case(11, "FF D1 00 01 01 05").line(), line("0b", "9000", " 10001=05"));
    assert_eq!(case(11, "FF B0 FF FF 02").line(), line("0b", "afb09000", ""));
    assert_eq!(case(11, "FF B1 FF FF 01").line(), line("0b", "bf9000", ""));
    assert_eq!(case(11, "FF B1 FF FF 02").line(), line("0b", "6b00", ""));
    assert_eq!(case(10, "FF D0 FF FF 01 05").line(), line("0a", "9000", " ffff=05"));
    assert_eq!(case(10, "FF B0 FF FF 02").line(), line("0a", "6b00", ""));
    assert_eq!(case(10, "FF D1 FF FF 01 05").line(), line("0a", "6d00", ""));
}
